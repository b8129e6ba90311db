"""The two stations and their work. Every sentence of SQL here runs at either database."""

from .mariadb_site import MariaDBSite
from .postgresql_site import PostgreSQLSite
from .sites import Failed
from .transactions import Transaction

SITES = {"postgresql": PostgreSQLSite, "mariadb": MariaDBSite}
SOUND = {"postgresql": "unseen", "mariadb": "last"}  # the sound ways in which nobody waits

OLD, NEW = 0, 1
NAMES = ("old station", "new station")
RELIEF, HARBOUR = "relief boat", "harbour boat"


# ---- what parts do


def boats(site):
    return sorted(name for name, in site.query("SELECT name FROM boats" + site.locking))


def leaves(site, boat=RELIEF):
    if site.query("DELETE FROM boats WHERE name = ?", boat) != 1:
        raise Failed(f"the {boat} is not here")


def arrives(site, boat=RELIEF):
    site.query("INSERT INTO boats VALUES (?, 1)", boat)


def plan(site, name="February"):
    """Puts an inspection on the list of every boat that is here, and says which these were."""
    found = boats(site)
    note(site, name)
    for boat in found:
        site.query("INSERT INTO jobs VALUES (?, ?)", name, boat)
    return found


def note(site, name):
    """Every part writes a row: MariaDB cannot commit a part that only read once its connection is gone."""
    site.query("INSERT INTO plans VALUES (?)", name)


def on_call(site, boat):
    return bool(site.one("SELECT on_call FROM boats WHERE name = ?" + site.locking, boat))


def stands_down(site, boat):
    site.query("UPDATE boats SET on_call = 0 WHERE name = ?", boat)


# ---- an evening


class Evening:
    """Both databases with their tables made anew: a relief boat at the old station, a harbour boat at the new one. Every transaction
    gets connections of its own, and all are closed at the end.

    ways: how tickets are taken at each station, by default the sound way in which nobody waits.
    locks: how a MariaDB reads. heard: is told every statement.
    """

    def __init__(self, servers, ways=(None, None), locks="serializable", wait=1.0, heard=None, fresh=True):
        self.servers, self.locks, self.wait, self.heard, self.connected = servers, locks, wait, None, []
        self.ways = [way or SOUND[server.kind] for way, server in zip(ways, servers)]
        self.look = self.sites()
        if fresh:
            for site, boat in zip(self.look, (RELIEF, HARBOUR)):
                site.make()
                arrives(site, boat)
        self.heard = heard

    def sites(self, wait=None):
        made = []
        for name, server, way in zip(NAMES, self.servers, self.ways):
            more = {"locks": self.locks} if server.kind == "mariadb" else {}
            made.append(SITES[server.kind](server, way, wait or self.wait, self.heard, **more))
            made[-1].station = name
        self.connected += made
        return made

    def begin(self, coordinator, planner="planner", tickets=False, sites=None):
        return Transaction(coordinator, sites or self.sites(), planner, tickets)

    def again(self, coordinator, parts, tries=10):
        """A whole transaction, begun anew until it goes through. Gives it, and what its parts found."""
        for _ in range(tries):
            t = self.begin(coordinator, "again")
            try:
                found = [t.part(i, work) for i, work in parts]
                if t.finish():
                    return t, found
            except Failed:
                t.roll_back()
        raise RuntimeError(f"{tries} tries, and none went through")

    def jobs(self):
        """For each plan, the boats it has on the lists of both stations."""
        found = {}
        for site in self.look:
            for name, boat in site.query("SELECT plan, boat FROM jobs ORDER BY plan, boat"):
                found.setdefault(name, []).append(boat)
        return found

    def inspections(self, boat=RELIEF):
        return self.jobs().get("February", []).count(boat)

    def __enter__(self):
        return self

    def __exit__(self, *_):
        for site in self.connected:
            site.hang_up()


PLANNING = [(NEW, plan), (OLD, plan)]
MOVE = [(OLD, leaves), (NEW, arrives)]
