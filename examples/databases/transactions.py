"""A global transaction: a part at each station, its ticket taken and reported, prepared, decided, carried out."""

from .coordinator import Refused
from .sites import Failed

HELD_BY_ANOTHER = 6

def gid_of(planner, number):
    """The name under which the databases hold its parts: it says whose they are, and of which transaction."""
    return f"otm.{planner}.{number}"


def read_gid(gid):
    """The planner and the number, or nothing if it is not one of ours."""
    word, _, rest = gid.partition(".")
    planner, _, number = rest.rpartition(".")
    return (planner, int(number)) if word == "otm" and planner and number.isdigit() else None


class Transaction:
    """coordinator=None: two-phase commit and nothing else. Then tickets are taken only if asked for, and nobody hears of them."""

    def __init__(self, coordinator, sites, planner="planner", tickets=False):
        self.coordinator, self.sites, self.takes = coordinator, sites, tickets or bool(coordinator)
        # Before the first statement at any site: its base must be older than its tickets.
        self.number = coordinator.begin(range(len(sites))) if coordinator else None
        self.gid = gid_of(planner, self.number) if coordinator else f"alone.{planner}"
        self.open, self.prepared, self.tickets = [], [], {}

    def start(self, i):
        self.open.append(i)
        self.sites[i].begin(self.gid)

    def ticket(self, i):
        if self.takes:
            self.tickets[i] = self.sites[i].take_ticket()
        if self.coordinator:
            try:
                self.coordinator.ticket(self.number, i, self.tickets[i])
            except Refused as e:
                if e.number != HELD_BY_ANOTHER:
                    raise
                # A row gave the ticket of one that the database has rolled back itself, and whose abort is still on its way.
                raise Failed(f"ticket {self.tickets[i]} is held by another") from e

    def prepare(self, i):
        self.sites[i].prepare()
        self.open.remove(i)
        self.prepared.append(i)
        if self.coordinator:
            self.coordinator.prepared(self.number, i)

    def part(self, i, work):
        """All of its part at a site. The ticket is the last thing done there."""
        self.start(i)
        found = work(self.sites[i])
        self.ticket(i)
        self.prepare(i)
        return found

    def decide(self):
        """True: commit. Nothing is carried out yet."""
        return self.coordinator.decide(self.number) if self.coordinator else True

    def commit(self):
        while self.prepared:
            self.sites[self.prepared[0]].settle_prepared(self.gid, True)
            self.prepared.pop(0)

    def roll_back(self, told=False):
        """First at the coordinator, unless it has told us so itself: where a row holds the tickets, the next one gets ours again."""
        if self.coordinator and not told:
            self.coordinator.abort(self.number)
        while self.prepared:
            self.sites[self.prepared.pop()].settle_prepared(self.gid, False)
        while self.open:
            self.sites[self.open.pop()].roll_back()

    def finish(self):
        committed = self.decide()
        if committed:
            self.commit()
        else:
            self.roll_back(told=True)  # a cycle aborts at the coordinator by itself
        return committed
