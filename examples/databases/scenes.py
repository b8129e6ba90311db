"""The scenes `crossed` and `prepared`. Each plays on two servers, tells its steps, and gives back what it came to, for the tests."""

import contextlib

from .coordinator import opened
from .stations import HARBOUR, NAMES, NEW, OLD, PLANNING, RELIEF, Evening, arrives, leaves, note, on_call, plan, stands_down

def listed(found):
    return " and ".join(f"the {boat}" for boat in found) or "no boat"


def with_ticket(t, i):
    return f"ticket {t.tickets[i]}, prepared" if i in t.tickets else "prepared"


def show(evening, telling):
    for name, site in zip(NAMES, evening.look):
        jobs = site.query("SELECT boat FROM jobs ORDER BY boat")
        telling.sum_up(f"{name}: {', '.join(f'inspect the {boat}' for boat, in jobs) or 'no jobs'}")
    found = evening.inspections()
    telling.sum_up(f"The relief boat is {['NEVER inspected', 'inspected once', 'inspected twice'][found]}.")
    return found


# ---- crossed


def crossed(servers, telling):
    """Without the coordinator, then with it: ([inspections], [answers to the planning])."""
    found, answers = [], []
    telling.title("The evening without the coordinator: SERIALIZABLE at both stations, two-phase commit at both.")
    with Evening(servers, heard=telling.heard) as evening:
        planning = the_evening(evening, None, telling)
        planning.commit()
        telling.tell("both", "planning", "commit. Neither database has found anything wrong.")
        found.append(show(evening, telling))
    telling.title("The same evening with the coordinator: every part takes a ticket as its last statement, and the tickets are reported.")
    with Evening(servers, heard=telling.heard) as evening, opened() as c:
        planning = the_evening(evening, c, telling)
        answers.append(planning.finish())
        telling.tell("coordinator", "planning", "commit." if answers[-1] else "CYCLE. Rolled back at both stations.",
                     "" if answers[-1] else "At the new station its ticket is before the move's, at the old one behind it.")
        if not answers[-1]:
            planning, seen = evening.again(c, PLANNING)
            answers.append(True)
            telling.tell("both", "planning", f"begun anew as {planning.number}: finds {listed(seen[0])} at the new station, "
                         f"{listed(seen[1])} at the old one; commit.")
        telling.sum_up(f"An order that agrees with both stations: {', then '.join(map(str, c.order()))}.")
        found.append(show(evening, telling))
    return found, answers


def the_evening(evening, c, telling):
    """Up to the planning's decision: it reads at the new station before the move commits there, and at the old one behind it."""
    planning, move = evening.begin(c, "planning"), evening.begin(c, "move")
    here = {}

    def plans(site):
        found = plan(site)
        here["sees"] = site.sees()
        return found

    def comes(site):
        arrives(site)
        here["called"] = site.is_called()

    found = planning.part(NEW, plans)
    telling.tell(NAMES[NEW], "planning", f"finds {listed(found)} and puts it on the list; {with_ticket(planning, NEW)}.")
    move.part(OLD, leaves)
    telling.tell(NAMES[OLD], "move", f"the relief boat leaves; {with_ticket(move, OLD)}.")
    move.part(NEW, comes)
    telling.tell(NAMES[NEW], "move", f"the relief boat arrives; {with_ticket(move, NEW)}. Nobody had to wait.",
                 f"Here the planning is first: {here['sees']}, and of the move {evening.servers[NEW].shown} says {here['called']}. "
                 "That the one read what the other then changed is no reason to stop either.")
    assert move.finish()
    telling.tell("both", "move", "commit.")
    found = planning.part(OLD, plan)
    telling.tell(NAMES[OLD], "planning", f"finds {listed(found)}; {with_ticket(planning, OLD)}.",
                 {"postgresql": "Here the move is first: it has committed, and the planning's snapshot, taken after that, has it.",
                  "mariadb": "Here the move is first: it has committed and let go of its locks; before that the read would have waited."}
                 [evening.servers[OLD].kind])
    return planning


# ---- prepared


def prepared(servers, telling):
    """Without the coordinator, then with it: [(answers, boats on call)]."""
    came = []
    for c, title in ((None, "Without the coordinator"), (opened, "With the coordinator")):
        telling.title(f"{title}: a boat may stand down if the other one, at the other station, is on call. Both ask, and both are "
                      "prepared at both stations before either is decided." + (
                          " MariaDB reads with LOCK IN SHARE MODE at REPEATABLE READ here; at SERIALIZABLE the second would wait."
                          if c is None and "mariadb" in [s.kind for s in servers] else ""))
        with Evening(servers, locks="share", heard=telling.heard) as evening, (c() if c else contextlib.nullcontext()) as coordinator:
            came.append(duty(evening, coordinator, telling))
    return came


def duty(evening, c, telling):
    relief, harbour = evening.begin(c, "relief"), evening.begin(c, "harbour")

    def asks(boat, who):
        def work(site):
            assert on_call(site, boat)
            note(site, who)
        return work

    def goes(boat, who):
        def work(site):
            stands_down(site, boat)
            note(site, who)
        return work

    harbour.part(OLD, asks(RELIEF, "harbour"))
    telling.tell(NAMES[OLD], "harbour", f"the relief boat is on call; {with_ticket(harbour, OLD)}.")
    relief.part(NEW, asks(HARBOUR, "relief"))
    telling.tell(NAMES[NEW], "relief", f"the harbour boat is on call; {with_ticket(relief, NEW)}.")
    relief.part(OLD, goes(RELIEF, "relief"))
    telling.tell(NAMES[OLD], "relief", f"so the relief boat stands down; {with_ticket(relief, OLD)}.",
                 "Here harbour is first: it has read what relief then changed, and " + (
                     "its snapshot stays as it is." if evening.servers[OLD].kind == "postgresql" else "let go of its read lock at XA PREPARE."))
    harbour.part(NEW, goes(HARBOUR, "harbour"))
    telling.tell(NAMES[NEW], "harbour", f"so the harbour boat stands down; {with_ticket(harbour, NEW)}.", "Here relief is first.")
    answers = []
    for t, who in ((harbour, "harbour"), (relief, "relief")):
        answers.append(t.finish())
        telling.tell("coordinator" if c else "both", who, "commit." if answers[-1] else "CYCLE. Rolled back at both stations.")
    left = [boat for boat, i in ((RELIEF, OLD), (HARBOUR, NEW)) if on_call(evening.look[i], boat)]
    telling.sum_up(f"On call: {listed(left) if left else 'NOBODY'}.")
    return answers, left
