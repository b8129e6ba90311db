"""What MariaDB (InnoDB) does, each fact tried. P reads the boats, M changes them. 'waits' is what a lock that is not to be had comes to,
here at once: innodb_lock_wait_timeout is 0."""

import time

from held import DONE, WAITS, fact, try_facts

TABLES = (
    "CREATE TABLE boats (name VARCHAR(40) PRIMARY KEY)",
    "CREATE TABLE plans (plan VARCHAR(40) PRIMARY KEY)",
    "CREATE TABLE ticket (value BIGINT)",
    "CREATE SEQUENCE seq",
    "INSERT INTO boats VALUES ('harbour'), ('relief')",
    "INSERT INTO ticket VALUES (0)",
)
SETTINGS = ("SET SESSION TRANSACTION ISOLATION LEVEL SERIALIZABLE", "SET SESSION innodb_lock_wait_timeout = 0")
SHARE = "SET SESSION TRANSACTION ISOLATION LEVEL REPEATABLE READ"
READS, PLANS, MOVES = "SELECT name FROM boats", "INSERT INTO plans VALUES ('p')", "INSERT INTO boats VALUES ('x')"
ROW, NEXT = "UPDATE ticket SET value = value + 1", "SELECT NEXTVAL(seq)"
IN_SHARE_MODE = " LOCK IN SHARE MODE"


def prepared(talk, name, *statements):
    return talk(f"XA START '{name}'", *statements, f"XA END '{name}'", f"XA PREPARE '{name}'")


def given_up(talk, name):
    talk(f"XA END '{name}'"), talk(f"XA ROLLBACK '{name}'")


def clear(root):
    for *_, name in root("XA RECOVER"):
        for _ in range(100):
            if root(f"XA ROLLBACK '{name}'") != "unknown":
                break
            time.sleep(0.02)
    root("DROP TABLE boats, plans, ticket", "DROP SEQUENCE seq")


def facts(server):
    try_facts(server, "mariadb", TABLES, SETTINGS, clear)


# ---- locks


@fact("mariadb")
def maria_serializable_keeps_read_locks(x):
    for what, more in (("has written as well", [PLANS]), ("has only read", [])):
        prepared(x.p, "P", READS, *more)
        yield f"P {what} and is prepared; M writes what P read", x.m("XA START 'M'", MOVES), WAITS
        given_up(x.m, "M"), x.p("XA ROLLBACK 'P'")


@fact("mariadb")
def maria_share_mode_lets_read_locks_go(x):
    x.p(SHARE), x.m(SHARE)
    prepared(x.p, "P", READS + IN_SHARE_MODE, PLANS)
    yield "REPEATABLE READ, LOCK IN SHARE MODE: P has read and written and is prepared; M writes what P read", prepared(x.m, "M", MOVES), DONE
    x.m("XA ROLLBACK 'M'"), x.p("XA ROLLBACK 'P'")
    prepared(x.p, "P", READS + IN_SHARE_MODE)
    yield "but if P has only read", x.m("XA START 'M'", MOVES), WAITS
    given_up(x.m, "M")


@fact("mariadb")
def maria_reads_wait_for_a_prepared_writer(x):
    for level, lock in ((SETTINGS[0], ""), (SHARE, IN_SHARE_MODE)):
        x.p(level), prepared(x.m, "M", "DELETE FROM boats WHERE name = 'relief'")
        yield f"M has written and is prepared; P reads{lock.lower()}", x.p("XA START 'P'", READS + lock), WAITS
        given_up(x.p, "P"), x.m("XA ROLLBACK 'M'")


@fact("mariadb")
def maria_default_level_is_not_serializable(x):
    for t, reads, writes in ((x.p, "boats", "plans"), (x.m, "plans", "boats")):
        t(SHARE)
        got = prepared(t, writes, f"SELECT * FROM {reads}", f"INSERT INTO {writes} VALUES ('y')", NEXT)
        yield "plain reads: each reads what the other writes, with a ticket", got, DONE
    yield "and both commit, which no serial order has", (x.p("XA COMMIT 'plans'"), x.m("XA COMMIT 'boats'")), (DONE, DONE)


@fact("mariadb")
def maria_read_committed_has_no_gap_locks(x):
    for t in (x.p, x.m):
        t("SET SESSION TRANSACTION ISOLATION LEVEL READ COMMITTED")
    x.p("XA START 'P'", READS + IN_SHARE_MODE)
    yield "READ COMMITTED: P reads all boats with share locks, and M adds one that P then finds as well", (
        prepared(x.m, "M", MOVES), x.m("XA COMMIT 'M'"), ("x",) in x.p(READS + IN_SHARE_MODE)), (DONE, DONE, True)
    given_up(x.p, "P")


# ---- local reads


@fact("mariadb")
def maria_autocommit_reads_take_no_locks(x):
    prepared(x.p, "P", "INSERT INTO plans VALUES ('P')", NEXT), prepared(x.m, "M", "INSERT INTO plans VALUES ('M')", NEXT)
    x.m("XA COMMIT 'M'")
    yield "SERIALIZABLE, tickets P, M, M committed; a reader outside of a transaction sees M without P", x.r("SELECT plan FROM plans"), [("M",)]
    yield "a reader in a transaction does not", x.r("BEGIN", "SELECT plan FROM plans"), WAITS


@fact("mariadb")
def maria_autocommit_reads_see_what_no_order_has(x):
    x.p(SHARE), x.m(SHARE)
    prepared(x.p, "P", READS + IN_SHARE_MODE, PLANS), prepared(x.m, "M", MOVES), x.m("XA COMMIT 'M'")
    both = "SELECT (SELECT count(*) FROM boats WHERE name = 'x'), (SELECT count(*) FROM plans)"
    yield "P before M by its read, M committed; a reader outside of a transaction sees M without P", x.r(both), [(1, 0)]
    yield "a reader in a transaction does not", x.r("BEGIN", both), WAITS


# ---- tickets


@fact("mariadb")
def maria_row_waits(x):
    prepared(x.p, "P", ROW)
    yield "the row of a prepared part, wanted by another", x.m("XA START 'M'", ROW), WAITS
    yield "which is the end of the statement, and not of its part", x.m("SELECT 1"), [(1,)]
    given_up(x.m, "M")


@fact("mariadb")
def maria_last_waits_for_nobody(x):
    yield "a number in two parts", (prepared(x.p, "P", PLANS, NEXT), prepared(x.m, "M", MOVES, NEXT)), (DONE, DONE)
    yield "both are prepared", sorted(name for *_, name in x.root("XA RECOVER")), ["M", "P"]


@fact("mariadb")
def maria_numbers_rise_over_connections(x):
    got = [t(NEXT)[0][0] for _ in range(3) for t in (x.p, x.m, x.r)]
    yield "drawn in turn by three connections", got, list(range(1, 10))
    x.p("XA START 'P'", NEXT, "XA END 'P'", "XA ROLLBACK 'P'")
    yield "a number is used up by a part that is rolled back", x.m(NEXT), [(11,)]


@fact("mariadb")
def maria_early_number_lies(x):
    yield "P starts and has ticket 1", x.p("XA START 'P'", NEXT), [(1,)]
    yield "M starts, has ticket 2, and moves", x.m("XA START 'M'", NEXT), [(2,)]
    x.m(MOVES, "XA END 'M'", "XA PREPARE 'M'", "XA COMMIT 'M'")
    yield "P reads what M left, so it is behind M by the data", ("x",) in x.p(READS), True
    yield "and nobody stops it", x.p("XA END 'P'", "XA PREPARE 'P'", "XA COMMIT 'P'"), DONE


def killed(x):
    x.leave(), x.root.hang_up()
    x.server.kill(), x.server.start(), x.server.wait()
    x.root, x.p, x.m, x.r = (x.again() for _ in range(4))


@fact("mariadb")
def maria_numbers_over_a_crash(x):
    x.p("XA START 'P'", NEXT)
    killed(x)
    again = x.p("XA START 'P'", NEXT)[0][0]
    yield "1 was drawn by a part that was not prepared: it may come again, or not", again in (1, 1001), True
    x.p(PLANS, "XA END 'P'", "XA PREPARE 'P'")
    killed(x)
    yield "of a part that was prepared: the next one is beyond all that were set aside with it", x.m(NEXT), [(again + 1000,)]


# ---- prepared parts


@fact("mariadb")
def maria_connections_hold_their_prepared_part(x):
    p = x.again()
    prepared(p, "P", PLANS)
    yield "another connection, while the part's own is there", x.root("XA COMMIT 'P'"), "unknown"
    p.hang_up()
    for _ in range(100):
        got = x.root("XA COMMIT 'P'")
        if got != "unknown":
            break
        time.sleep(0.02)
    yield "and when that has hung up", got, DONE


@fact("mariadb")
def maria_a_part_that_only_read_is_lost(x):
    p = x.again()
    prepared(p, "P", READS)
    p.hang_up()
    yield "prepared, its connection gone: it is shown", [name for *_, name in x.root("XA RECOVER")], ["P"]
    for _ in range(100):
        got = x.root("XA COMMIT 'P'")
        if got != "unknown":
            break
        time.sleep(0.02)
    yield "but it cannot be committed", got, "was rolled back"
