"""The scenes of examples/databases, each held to what it must come to; waiting in place of a cycle; and the traps at the coordinator."""

import threading

from held import hold

from databases import lying, measure, scenes
from databases.coordinator import Refused, opened
from databases.sites import Failed
from databases.stations import MOVE, NEW, OLD, Evening, arrives, boats, leaves, note, plan
from databases.telling import silent
from databases.wire import DatabaseError
from databases.workers import Load

STORIES = []


def story(f):
    """Marks a story, which docs/DATABASES.md cites by the function's name. It is given two servers and their names."""
    STORIES.append(f)
    return f


@story
def crossed_drops_the_inspection_and_the_cure_keeps_it(up, who):
    found, answers = scenes.crossed(up, silent())
    hold(f"{who}: without the coordinator the inspection is gone", found[0] == 0, found)
    hold(f"{who}: with it the planning is a cycle and is begun anew", answers == [False, True], answers)
    hold(f"{who}: and the inspection is there", found[1] == 1, found)


@story
def prepared_everywhere_before_either_is_decided(up, who):
    without, cured = scenes.prepared(up, silent())
    hold(f"{who}: both commit, and nobody is on call", without == ([True, True], []), without)
    hold(f"{who}: one is a cycle, and a boat is on call", cured == ([True, False], ["relief boat"]), cured)


@story
def lying_tickets_drop_it_again(up, who):
    came = lying.lying(up, silent())
    hold(f"{who}: nextval alone: the coordinator is told falsehoods, and the inspection is gone", came[0] == ("commit", 0), came)
    hold(f"{who}: the sound ticket in its place: the database stops the planning", came[1] == ("failed", 1), came)
    if up[OLD].kind == "mariadb":
        hold(f"{who}: NEXTVAL first: the inspection is gone", came[2] == ("commit", 0), came)
        hold(f"{who}: NEXTVAL last: a cycle", came[3] == ("cycle", 1), came)


@story
def row_tickets_stop_the_second_instead(up, who):
    with Evening(up, ways=("row", "row"), wait=0.2) as evening, opened() as c:
        planning, move = evening.begin(c), evening.begin(c)
        planning.part(NEW, plan)
        move.part(OLD, leaves)
        try:
            move.part(NEW, arrives)
            hold(f"{who}: the second at a row is stopped", False)
        except Failed as e:
            hold(f"{who}: the second at a row is stopped by the database", "serialize" in str(e) or "timeout" in str(e), e)
            move.roll_back()
        planning.part(OLD, plan)
        hold(f"{who}: and no cycle is told", planning.finish() and evening.again(c, MOVE) and evening.inspections() == 1)


@story
def row_tickets_make_a_deadlock_that_no_database_sees(up, who):
    ways = ["first" if server.kind == "postgresql" else "row" for server in up]
    ended = {}
    with Evening(up, ways=ways) as evening, opened() as c:
        planning, move = evening.begin(c), evening.begin(c)
        planning.sites, move.sites = evening.sites(wait=5), evening.sites(wait=0.3)
        planning.part(NEW, plan)
        move.part(OLD, leaves)

        def go_on(name, t, site, work):
            try:
                t.part(site, work)
                ended[name] = "commit" if t.finish() else "cycle"
            except Failed as e:
                t.roll_back()
                ended[name] = str(e)

        both = [threading.Thread(target=go_on, args=a) for a in (("planning", planning, OLD, plan), ("move", move, NEW, arrives))]
        for thread in both:
            thread.start()
        for thread in both:
            thread.join()
        hold(f"{who}: each waits for the other at another database until one has waited too long",
             ended["planning"] == "commit" and "timeout" in ended["move"], ended)
        hold(f"{who}: and begun anew it goes through", evening.again(c, MOVE) and evening.inspections() == 1)


@story
def one_site_that_does_not_wait_is_enough(up, who):
    with Evening(up, ways=("row", None)) as evening, opened() as c:
        planning, move = evening.begin(c), evening.begin(c)
        planning.part(NEW, plan)
        for i, work in MOVE:
            move.part(i, work)
        move.finish()
        planning.part(OLD, plan)
        hold(f"{who}: a row at the old station only: crossed tickets reach the coordinator", planning.finish() is False)


@story
def begin_comes_before_the_first_statement(up, who):
    with Evening(up) as evening, opened() as c:
        late = evening.begin(None, "late", tickets=True)
        for i in (OLD, NEW):
            late.start(i)
            note(late.sites[i], "late")
            late.ticket(i)
        evening.again(c, MOVE)
        number = c.begin([OLD, NEW])
        try:
            c.ticket(number, OLD, late.tickets[OLD])
            hold(f"{who}: a ticket older than its begin", False)
        except Refused as e:
            hold(f"{who}: a ticket older than its begin is refused 5", e.number == 5, e)
        late.roll_back()


@story
def abort_here_before_rolling_back_there(up, who):
    with Evening(up, ways=("row", "row")) as evening, opened() as c:
        for first, due in (("sites", 6), ("coordinator", None)):
            t, after = evening.begin(c), evening.begin(c)
            t.part(OLD, leaves)
            if first == "coordinator":
                t.roll_back()
            else:
                t.roll_back(told=True)  # a falsehood: the coordinator does not know
            refused = None
            try:
                after.part(OLD, leaves)
            except Failed as e:
                refused = e.__cause__.number
            hold(f"{who}: rolled back at the {first} first, the next one's ticket: {due or 'taken'}", refused == due, refused)
            after.roll_back()
            if first == "sites":
                c.abort(t.number)


@story
def a_second_of_random_work_has_no_wrong_plan(up, who):
    counts, _ = measure.run(up, measure.SOUND, Load, 1, 4)  # run itself raises if something is left prepared
    hold(f"{who}: every plan has each boat once", counts["committed"] > 0 and counts["wrong"] == 0, counts)


@story
def a_database_that_gives_a_part_up_hands_its_ticket_on(up, who):
    if up[OLD].kind != "postgresql":
        return  # MariaDB keeps the locks of a part until it is told to roll it back, but for the victim of a deadlock
    with Evening(up, ways=("row", "row")) as evening, opened() as c:
        t, after = evening.begin(c), evening.begin(c)
        t.start(OLD)
        t.ticket(OLD)
        try:
            t.sites[OLD].query("SELECT nonsense")
        except DatabaseError:
            pass
        try:
            after.part(OLD, leaves)
            hold(f"{who}: the ticket of a part that has failed, before it is aborted here", False)
        except Failed as e:
            hold(f"{who}: the ticket of a part that has failed, before it is aborted here, is refused 6", e.__cause__.number == 6, e)
        after.roll_back()
        t.roll_back()
        hold(f"{who}: begun anew it goes through", evening.again(c, MOVE))


@story
def a_failed_part_is_rolled_back_whole(up, who):
    with Evening(up, wait=0.2) as evening, opened() as c:
        t = evening.begin(c)
        t.part(NEW, arrives)
        t.start(OLD)
        try:
            leaves(t.sites[OLD], "no such boat")
            hold(f"{who}: a boat that is not here", False)
        except Failed:
            t.roll_back()
        hold(f"{who}: nothing is left of it", [site.left() for site in evening.look] == [[], []] and
             [boats(site) for site in evening.look] == [["relief boat"], ["harbour boat"]])
