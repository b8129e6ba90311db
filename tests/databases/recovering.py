"""Crashes: the client, the coordinator and the databases killed between prepare and commit, and everything settled as decided."""

from held import hold
from stories import story

from databases import killing
from databases.daemon import daemon
from databases.recovery import outcomes_of, recover
from databases.stations import MOVE, NEW, OLD, PLANNING, Evening, boats, note, plan
from databases.telling import silent

# What recovery must do at the sites: the planning is 1, the move 2.
DUE = {
    "ticketed": [("roll back", 1, NEW), ("roll back", 2, OLD)],
    "prepared": [("roll back", 1, NEW), ("roll back", 2, NEW), ("roll back", 2, OLD)],
    "decided": [("commit", 2, NEW), ("commit", 2, OLD), ("roll back", 1, NEW)],
    "half": [("commit", 2, NEW), ("roll back", 1, NEW)],
    "done": [("roll back", 1, NEW)],
}
TOLD = ("decided", "half", "done")
MOVED, NOT_MOVED = [[], ["harbour boat", "relief boat"]], [["relief boat"], ["harbour boat"]]


@story
def every_prepared_part_is_settled_as_decided(up, who):
    for where in killing.POINTS:
        for databases in {"decided": (False, True), "prepared": (True,), "half": (True,)}.get(where, (False,)):
            label = f"{who}: killed at '{where}'" + (", the databases too" if databases else "")
            done, left, lie, found = killing.crash(up, where, databases, silent())
            hold(f"{label}: the parts are settled as decided", sorted(d for d in done if d[0] != "abort") == sorted(DUE[where]), done)
            aborted = [("abort", 1, None)] if where in TOLD else [("abort", 1, None), ("abort", 2, None)]
            hold(f"{label}: what was active is aborted, and first", done[: len(aborted)] == aborted, done)
            hold(f"{label}: nothing is left prepared", left == [[], []], left)
            hold(f"{label}: the move is at both stations or at none", lie == (MOVED if where in TOLD else NOT_MOVED), lie)
            hold(f"{label}: and in the end the inspection is there", found == 1, found)


@story
def the_other_planner_goes_on_over_a_crash(up, who):
    with Evening(up) as evening, daemon() as one:
        with one.connect() as c:
            planning = evening.begin(c, "harbour")
            planning.part(NEW, plan)
            move = evening.begin(c, "relief")
            for i, work in MOVE:
                move.part(i, work)
            move.decide()
        for site in evening.connected:  # the planner of the move is gone, and so is the coordinator
            site.hang_up()
        one.kill()
        one.start()
        with one.connect() as c:
            done = recover(c, outcomes_of(one.journal), evening.look, planner="relief")
            hold(f"{who}: one planner is recovered, and the other's part is left to it", done == [("commit", 2, OLD), ("commit", 2, NEW)], done)
            hold(f"{who}: a second recovery finds nothing to do", recover(c, outcomes_of(one.journal), evening.look, planner="relief") == [])
            planning.coordinator = c
            planning.part(OLD, plan)
            hold(f"{who}: tickets and table have outlived the crash: the other planner meets its cycle", planning.finish() is False)
            evening.again(c, PLANNING)
            hold(f"{who}: and begun anew it is right", evening.inspections() == 1)


@story
def what_is_not_in_the_journal_is_left_alone(up, who):
    with Evening(up) as evening, daemon() as one, one.connect() as c:
        strange = evening.sites()
        for site, gid in zip(strange, ("otm.relief.77", "another-1")):
            site.begin(gid)
            note(site, "strange")
            site.prepare()
        done = recover(c, outcomes_of(one.journal), evening.look)
        hold(f"{who}: a number that was never begun is told and left", done == [("leave", 77, OLD)], done)
        hold(f"{who}: a part that is not ours is not looked at", [site.left() for site in evening.look] == [["otm.relief.77"], ["another-1"]])
        for site, gid in zip(strange, ("otm.relief.77", "another-1")):
            site.settle_prepared(gid, False)


@story
def recovery_may_be_killed_and_run_again(up, who):
    with Evening(up) as evening, daemon() as one:
        for site in evening.look:
            site.hang_up()
        killing.client(up, one, "decided")

        class Dies(Exception):
            pass

        class Once:
            """A site at which recovery breaks off."""

            def __init__(self, site):
                self.site = site

            def left(self):
                return self.site.left()

            def settle_prepared(self, *_):
                raise Dies

        with one.connect() as c:
            try:
                recover(c, outcomes_of(one.journal), [evening.look[OLD], Once(evening.look[NEW])])
                hold(f"{who}: it breaks off", False)
            except Dies:
                pass
            recover(c, outcomes_of(one.journal), evening.look)
        hold(f"{who}: after a second recovery the move is at both stations", [boats(site) for site in evening.look] == MOVED)
        hold(f"{who}: and nothing is left prepared", [site.left() for site in evening.look] == [[], []])
