"""The scene `lying`: tickets that are not sound, the coordinator told falsehoods, the inspection gone again; and sound ones in their place."""

from .coordinator import opened
from .scenes import listed, show
from .sites import Failed
from .stations import NAMES, NEW, OLD, PLANNING, Evening, arrives, leaves, plan


def lying(servers, telling):
    """[(what was the matter, or the answer; inspections)], for tickets that lie and for sound ones in the same places."""
    came = []
    for way, words in (("bare", "a ticket is nextval alone, which is not sound"), ("unseen", "a ticket is the sound one, taken in the same places")):
        telling.title(f"At the new station {words}. The planning takes its ticket there late, as it may.")
        with Evening(servers, ways=(None, way), heard=telling.heard) as evening, opened() as c:
            came.append(late(evening, c, telling))
    if servers[OLD].kind == "mariadb":
        for way, words in (("early", "NEXTVAL as a part's first statement, which is not sound"),
                           ("last", "NEXTVAL as a part's last statement, which is")):
            telling.title(f"At the old station, MariaDB, a ticket is {words}.")
            with Evening(servers, ways=(way, None), heard=telling.heard) as evening, opened() as c:
                came.append(soon(evening, c, telling))
    return came


def end(evening, c, t, work, telling):
    """What is left of the planning, and whether it has to be begun anew."""
    try:
        found = work()
        answer = "commit" if t.finish() else "cycle"
        telling.tell("coordinator", "planning", f"tickets {t.tickets[OLD]} at the old and {t.tickets[NEW]} at the new station, and it found "
                     f"{listed(found)} at the old one; {answer}.")
    except Failed as e:
        t.roll_back()
        answer = "failed"
        telling.tell(NAMES[NEW], "planning", f"taking its ticket: {e}. Rolled back.",
                     "The database knows that the ticket says the opposite of the data.")
    if answer != "commit":
        evening.again(c, PLANNING)
        telling.tell("both", "planning", "begun anew; commit.")
    return answer, show(evening, telling)


def late(evening, c, telling):
    planning, move = evening.begin(c, "planning"), evening.begin(c, "move")
    planning.start(NEW)
    found = plan(planning.sites[NEW])
    telling.tell(NAMES[NEW], "planning", f"finds {listed(found)}; no ticket yet, not prepared.")
    move.part(OLD, leaves)
    move.part(NEW, arrives)
    move.finish()
    telling.tell("both", "move", f"tickets {move.tickets[OLD]} and {move.tickets[NEW]}; commit.",
                 "At the new station the planning is before it all the same: it has read, and found no relief boat.")

    def rest():
        planning.ticket(NEW)
        planning.prepare(NEW)
        return planning.part(OLD, plan)

    return end(evening, c, planning, rest, telling)


def soon(evening, c, telling):
    planning, move = evening.begin(c, "planning"), evening.begin(c, "move")
    planning.part(NEW, plan)
    planning.start(OLD)
    telling.tell(NAMES[OLD], "planning", f"has its ticket at the new station ({planning.tickets[NEW]}) and has started here; nothing read yet.")
    move.part(OLD, leaves)
    move.part(NEW, arrives)
    move.finish()
    telling.tell("both", "move", f"tickets {move.tickets[OLD]} and {move.tickets[NEW]}; commit.")

    def rest():
        found = plan(planning.sites[OLD])
        planning.ticket(OLD)
        planning.prepare(OLD)
        return found

    return end(evening, c, planning, rest, telling)
