"""What PostgreSQL does, each fact tried. P has read the boats and M adds one: by the data P comes before M. SERIALIZABLE unless a
level is named, and 'waits' is lock_timeout's word for a wait that would not end."""

from held import DONE, STOPPED, WAITS, fact, try_facts

TABLES = (
    "CREATE TABLE boats (name TEXT PRIMARY KEY)",
    "CREATE TABLE plans (plan TEXT PRIMARY KEY)",
    "CREATE TABLE ticket (value BIGINT)",
    "CREATE TABLE taken (ticket BIGINT PRIMARY KEY)",
    "CREATE SEQUENCE seq",
    "INSERT INTO boats VALUES ('harbour')",
    "INSERT INTO ticket VALUES (0)",
)
SETTINGS = (
    "SET default_transaction_isolation = 'serializable'",
    "SET lock_timeout = 100",
    "SET enable_seqscan = off",
    "SET enable_bitmapscan = off",
)
READS, PLANS, MOVES = "SELECT name FROM boats", "INSERT INTO plans VALUES ('p')", "INSERT INTO boats VALUES ('relief')"
ROW = "UPDATE ticket SET value = value + 1"
LEVELS = ("SERIALIZABLE", "REPEATABLE READ", "READ COMMITTED")


def begin(level="SERIALIZABLE"):
    return f"BEGIN ISOLATION LEVEL {level}"


def prepare(name):
    return f"PREPARE TRANSACTION '{name}'"


def commit(name):
    return f"COMMIT PREPARED '{name}'"


def unseen(talk):
    """The sound ticket in which nobody waits: how taking it went, which is an empty list if well."""
    got = talk("INSERT INTO taken SELECT nextval('seq') RETURNING ticket")
    return talk(f"SELECT ticket FROM taken WHERE ticket > {got[0][0]} LIMIT 1") if isinstance(got, list) else got


def clear(root):
    for gid, in root("SELECT gid FROM pg_prepared_xacts"):
        root(f"ROLLBACK PREPARED '{gid}'")
    root("DROP TABLE boats, plans, ticket, taken", "DROP SEQUENCE seq")


def facts(server):
    try_facts(server, "postgresql", TABLES, SETTINGS, clear)


# ---- without tickets


@fact("postgresql")
def pg_one_dependency_goes_through(x):
    x.p("BEGIN", READS, PLANS)
    x.m("BEGIN", MOVES, prepare("M"), commit("M"))
    yield "P read before M wrote, and commits behind it", x.p(prepare("P"), commit("P")), DONE


@fact("postgresql")
def pg_lower_levels_are_not_serializable(x):
    for level in LEVELS[1:]:
        for t, reads, writes in ((x.p, "boats", "plans"), (x.m, "plans", "boats")):
            t(begin(level), f"SELECT * FROM {reads}", f"INSERT INTO {writes} VALUES ('{level}')")
            yield f"{level}: each reads what the other writes, and takes a ticket", unseen(t), []
        yield f"{level}: and both commit, which no serial order has", (x.p("COMMIT"), x.m("COMMIT")), (DONE, DONE)


@fact("postgresql")
def pg_local_work_must_be_serializable(x):
    x.p("BEGIN", READS, PLANS), unseen(x.p), x.p(prepare("P"))
    x.m("BEGIN", MOVES), unseen(x.m), x.m(prepare("M"), commit("M"))
    both = "SELECT (SELECT count(*) FROM boats WHERE name = 'relief'), (SELECT count(*) FROM plans)"
    yield "P before M, M committed; a reader that would see M without P", x.r("BEGIN", both), STOPPED
    yield "at READ COMMITTED it is let through, which no serial order has", x.again()("ROLLBACK", begin("READ COMMITTED"), both), [(1, 0)]


@fact("postgresql")
def pg_local_readers_keep_to_the_tickets(x):
    for t, name in ((x.p, "P"), (x.m, "M")):
        t("BEGIN", f"INSERT INTO plans VALUES ('{name}')"), unseen(t), t(prepare(name))
    x.root(commit("M"))
    yield "tickets P, M, no data in common, M committed; a reader that would see M without P", x.r("BEGIN", "SELECT plan FROM plans"), STOPPED


# ---- a row that counts


@fact("postgresql")
def pg_row_waits(x):
    for level in LEVELS:
        x.p(begin(level), ROW, prepare("P"))
        yield f"{level}: the row of a prepared part, wanted by another", x.m(begin(level), READS, ROW), WAITS
        x.m("ROLLBACK"), x.root("ROLLBACK PREPARED 'P'")


@fact("postgresql")
def pg_row_fails_behind_a_commit(x):
    for level, due in zip(LEVELS, (STOPPED, STOPPED, DONE)):
        x.m(begin(level), READS), x.p(begin(level), ROW, prepare("P"), commit("P"))
        yield f"{level}: the row of one that has committed since the snapshot", x.m(ROW), due
        x.m("ROLLBACK")


@fact("postgresql")
def pg_first_works_on_what_was_left(x):
    lock = "LOCK TABLE ticket IN EXCLUSIVE MODE"
    x.p("BEGIN", lock, ROW, READS, prepare("P"))
    yield "the table locked by a prepared part, wanted as the first statement", x.m("BEGIN", lock), WAITS
    x.m("ROLLBACK", "BEGIN"), x.root(commit("P"))
    yield "and had when that has committed: no failure", x.m(lock, ROW, "SELECT value FROM ticket"), [(2,)]


@fact("postgresql")
def pg_row_gives_a_ticket_again(x):
    take = ROW + " RETURNING value"
    x.p("BEGIN", take, prepare("P")), x.root("ROLLBACK PREPARED 'P'")
    yield "P had 1 and was rolled back", x.m("BEGIN", take), [(1,)]
    x.p("ROLLBACK", "BEGIN", "SELECT nextval('seq')", "ROLLBACK")
    yield "a number of a sequence is used up", x.m("SELECT nextval('seq')"), [(2,)]


@fact("postgresql")
def pg_a_failed_part_lets_go_at_once(x):
    take = ROW + " RETURNING value"
    x.p("BEGIN", take, "SELECT nonsense")
    yield "P had 1 and has failed, and nobody has rolled it back", x.m("BEGIN", take), [(1,)]


# ---- unseen


@fact("postgresql")
def pg_unseen_agrees(x):
    for first, second in (("P", "M"), ("M", "P")):
        talks = {"P": x.again("BEGIN", READS, PLANS), "M": x.again("BEGIN", MOVES)}
        unseen(talks["P"]), unseen(talks["M"])
        yield f"P before M by data and by ticket, {first} prepared first", talks[first](prepare(first)), DONE
        yield f"and {second} behind it: nobody waits, both go through", talks[second](prepare(second)), DONE
        x.root("ROLLBACK PREPARED 'P'", "ROLLBACK PREPARED 'M'")


@fact("postgresql")
def pg_unseen_does_not_lie(x):
    for state, more in (("prepared", [prepare("M")]), ("committed", [prepare("M"), commit("M")])):
        p = x.again("BEGIN", READS, PLANS)
        m = x.again("BEGIN", MOVES)
        unseen(m), m(*more)
        yield f"P before M by data, and M {state} when P takes its ticket", unseen(p), STOPPED
        p("ROLLBACK"), x.root("ROLLBACK PREPARED 'M'"), x.root("DELETE FROM boats WHERE name = 'relief'")
    x.p("BEGIN", READS, PLANS), x.m("BEGIN", MOVES), unseen(x.m), unseen(x.p)
    yield "both have tickets, M's the smaller: P may still be prepared", x.p(prepare("P")), DONE
    yield "and then M is not", x.m(prepare("M")), STOPPED


@fact("postgresql")
def pg_unseen_stops_the_third(x):
    three = [x.p, x.m, x.r]
    for i, t in enumerate(three):
        t("BEGIN", f"INSERT INTO plans VALUES ('{i}')"), unseen(t)
    yield "three at a time with no data in common", [t(prepare(i)) for i, t in enumerate(three)], [DONE, DONE, STOPPED]


@fact("postgresql")
def pg_unseen_wants_the_index(x):
    for t in (x.p, x.m):
        t("SET enable_seqscan = on", "SET enable_indexscan = off", "SET enable_indexonlyscan = off", "BEGIN")
        unseen(t)
    x.p(prepare("P"))
    yield "by a scan even two are too many", x.m(prepare("M")), STOPPED


@fact("postgresql")
def pg_unseen_notices_a_cache(x):
    x.root("ALTER SEQUENCE seq CACHE 10")
    x.m("BEGIN"), unseen(x.m), x.m("COMMIT", "BEGIN"), unseen(x.m), x.p("BEGIN"), unseen(x.p), x.p("COMMIT")
    yield "with CACHE a later part draws a smaller number; it sees the larger one", x.m("ROLLBACK", "BEGIN") and unseen(x.m), [(11,)]


# ---- numbers that lie


@fact("postgresql")
def pg_bare_number_lies(x):
    x.p("BEGIN", READS)
    yield "M has ticket 1", x.m("BEGIN", MOVES, "SELECT nextval('seq')"), [(1,)]
    x.m("COMMIT")
    yield "and P, which is before M by the data, has 2", x.p(PLANS, "SELECT nextval('seq')"), [(2,)]
    yield "and nobody stops it", x.p(prepare("P"), commit("P")), DONE


@fact("postgresql")
def pg_transaction_id_lies(x):
    own = "SELECT pg_current_xact_id()::text::bigint"
    x.p("BEGIN", READS)
    m = x.m("BEGIN", MOVES, own)[0][0]
    x.m("COMMIT")
    yield "P, which is before M by the data, has the larger id", x.p(PLANS, own)[0][0] > m, True
    yield "and nobody stops it", x.p(prepare("P"), commit("P")), DONE


# ---- prepared parts


@fact("postgresql")
def pg_prepared_is_off_at_first(x):
    yield "the default of max_prepared_transactions", x.root("SELECT boot_val FROM pg_settings WHERE name = 'max_prepared_transactions'"), [("0",)]


@fact("postgresql")
def pg_to_prepare_a_failed_part_is_no_error(x):
    x.p("BEGIN", "SELECT nonsense")
    got = x.p(prepare("P")), x.root("SELECT gid FROM pg_prepared_xacts")
    yield "and no part is prepared either: only the tag says so", got, ("rolled back", [])


@fact("postgresql")
def pg_anyone_commits_a_prepared_part(x):
    x.p("BEGIN", PLANS, prepare("P"))
    yield "another connection, while the part's own is there", x.root(commit("P")), DONE


@fact("postgresql")
def pg_a_part_that_only_read_can_commit(x):
    p = x.again("BEGIN", READS, prepare("P"))
    p.hang_up()
    yield "prepared, its connection gone", x.root(commit("P")), DONE
