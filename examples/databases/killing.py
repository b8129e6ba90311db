"""The scene `killed`: client, coordinator and databases are killed in the middle of the move, and every prepared part is settled as decided."""

from .daemon import daemon
from .processes import doomed
from .recovery import outcomes_of, recover
from .scenes import NAMES, listed, show
from .stations import NEW, OLD, PLANNING, Evening, arrives, boats, leaves, plan

POINTS = {
    "ticketed": "the move has both tickets and is not yet prepared at the new station",
    "prepared": "the move is prepared at both stations and not yet decided",
    "decided": "the coordinator has said commit, and nothing is carried out yet",
    "half": "the move is committed at the old station and not yet at the new one",
    "done": "the move is committed at both stations",
}


def client(servers, socket_of, where):
    """A planner in a process of its own: the planning is prepared at the new station, then comes the move, up to where it is killed."""

    def work(die):
        def at(point):
            if point == where:
                die()

        evening = Evening(servers, fresh=False)
        c = socket_of.connect()
        planning = evening.begin(c, "planning")
        planning.part(NEW, plan)
        move = evening.begin(c, "move")
        move.part(OLD, leaves)
        move.start(NEW)
        arrives(move.sites[NEW])
        move.ticket(NEW)
        at("ticketed")
        move.prepare(NEW)
        at("prepared")
        assert move.decide()
        at("decided")
        move.sites[OLD].settle_prepared(move.gid, True)
        at("half")
        move.sites[NEW].settle_prepared(move.gid, True)
        at("done")

    doomed(work)


def kill_all(servers, one, databases):
    """The coordinator, and on wish the databases; and all is started again."""
    one.kill()
    for server in servers if databases else ():
        server.kill()
    for server in servers if databases else ():
        server.start()
    for server in servers if databases else ():
        server.wait()
    one.start()


def crash(servers, where, databases, telling):
    """What recovery did, what was left prepared after it, where the boats are, and how often the relief boat is inspected in the end."""
    telling.title(f"The client is killed when {POINTS[where]}; with it the coordinator, daemon and service"
                  + (", and both databases." if databases else "."))
    with Evening(servers) as evening, daemon() as one:
        for site in evening.look:
            site.hang_up()
        client(servers, one, where)
        kill_all(servers, one, databases)
        telling.tell("all", "", "started again; the coordinator has read its journal.")
        for i, site in enumerate(evening.look):
            telling.tell(NAMES[i], "", f"holds prepared: {', '.join(site.left()) or 'nothing'}.")
        with one.connect() as c:
            fates = outcomes_of(one.journal)
            telling.tell("journal", "", "says " + ", ".join(f"{number} {fate}" for number, fate in fates().items()) + ".")
            done = recover(c, fates, evening.look)
            for what, number, i in done:
                telling.tell("coordinator" if i is None else NAMES[i], str(number), what + ".")
            left, where_boats = [site.left() for site in evening.look], [boats(site) for site in evening.look]
            for name, found in zip(NAMES, where_boats):
                telling.sum_up(f"{name} has {listed(found)}")
            evening.again(c, PLANNING)
            telling.tell("both", "planning", "begun anew; commit.")
        return done, left, where_boats, show(evening, telling)


def killed(servers, telling):
    return [crash(servers, "prepared", True, telling), crash(servers, "half", True, telling)]
