"""A journal in a table of PostgreSQL: (n, record), by psql. docs/JOURNAL-IN-POSTGRESQL.md says what is promised and how it is set up.

Every insert names the next number, and n is the table's primary key. So of two daemons that both think they are alone only one gets a
record in; the other's insert is refused, and it stops before it has answered. The lock is there so that this seldom comes up, and to
tell a standby when its time has come; nothing rests on it.
"""

import time

from otm_journal import Damaged, Journal, Lost, Taken, new_name
from otm_psql import Psql, ServerGone, SqlError

NAME = "delphrimock_journal"
PAGE = 5000
MAKE = f"CREATE TABLE {NAME} (n bigint PRIMARY KEY, record text NOT NULL)"
THERE = f"SELECT to_regclass('{NAME}') IS NOT NULL"
LOCK = f"SELECT pg_try_advisory_lock(1869901165, '{NAME}'::regclass::oid::int)"
# The server notices within half a minute that a daemon's machine is gone, and gives its lock free.
NOTICE = "SET tcp_keepalives_idle = 10; SET tcp_keepalives_interval = 5; SET tcp_keepalives_count = 3"


def _quoted(text):
    return "'" + text.replace("'", "''") + "'"


class PostgresqlJournal(Journal):
    def __init__(self, database, create=True):
        super().__init__()
        self._ours = False
        try:
            # 'postgresql:' was taken off, which a URI needs
            self._sql = Psql(f"postgresql:{database}" if database.startswith("//") else database)
        except (ServerGone, SqlError) as e:
            raise Lost(f"The journal's database cannot be reached: {e}.") from None
        try:
            self._forcing = None
            self._run(NOTICE)
            if self._run(THERE) != [["t"]]:
                if not create:
                    raise Damaged(f"There is no table {NAME}.")
                self._run(MAKE)
        except BaseException:
            self._sql.close()
            raise

    def lock(self):
        """Whether the journal is ours to write now."""
        if not self._ours and self._run(LOCK) == [["t"]]:
            self._ours = True
            self.next = int(self._run(f"SELECT coalesce(max(n), 0) + 1 FROM {NAME}")[0][0])
            if self.next == 1:
                self._store([f"journal 1 {new_name()}"], True)
                self.next = 2
        return self._ours

    def taken_up(self, log):
        """All records; a standby is given those that another daemon writes, too, until that one is gone."""
        last, told = 0, False
        while True:
            ours = self.lock()
            for record in self.records(behind=last):
                last = record[0]
                yield record
            if ours:
                return
            if not told:
                log("standing by, and following, until nobody has the journal")
                told = True
            time.sleep(0.2)

    def records(self, last=None, behind=0):
        """The records behind one, up to a last one, page by page."""
        before = None if not behind else behind
        while True:
            rows = self._run(f"SELECT n, record FROM {NAME} WHERE n > {before or 0} ORDER BY n LIMIT {PAGE}")
            for n, text in rows:
                n = int(n)
                if last is not None and n > last:
                    return
                if before is None and not text.startswith("journal 1 "):
                    raise Damaged(f"The first record of {NAME} is {n}, and begins no journal.")
                if before is not None and n != before + 1:
                    raise Damaged(f"Record {before + 1} of {NAME} is missing.")
                before = n
                yield n, text
            if len(rows) < PAGE:
                return

    def still_ours(self):
        if self._run(f"SELECT max(n) FROM {NAME}") != [[str(self.next - 1)]]:
            raise Lost("Another daemon has written to the journal.")

    def _store(self, texts, force):
        if force != self._forcing:
            self._run(f"SET synchronous_commit = {'on' if force else 'off'}")
            self._forcing = force
        self._run(f"INSERT INTO {NAME} VALUES " + self._rows(texts, self.next))

    def _rows(self, texts, first):
        return ", ".join(f"({first + i}, {_quoted(text)})" for i, text in enumerate(texts))

    def _run(self, sql):
        try:
            return self._sql.run(sql)
        except SqlError as e:
            if e.state == "23505":
                raise Lost("Another daemon has written to the journal.") from None
            raise Lost(f"The journal's database refuses: {e}.") from None
        except ServerGone as e:
            raise Lost(f"The journal's database is gone: {e}.") from None

    def replace(self, texts):
        """Puts other records in the place of these, at once or not at all. Numbers go on, so that whoever still counts from the old ones
        is refused."""
        first = self.next
        new = [f"journal 1 {new_name()}", *texts(first + 1)]
        self._run(f"WITH gone AS (DELETE FROM {NAME} WHERE n < {first}) INSERT INTO {NAME} VALUES " + self._rows(new, first))
        self.next = first + len(new)

    def close(self):
        self._sql.close()


def open_journal(database, standby=False, create=True):
    """The journal, to write it; a standby's is not yet its own."""
    journal = PostgresqlJournal(database, create)
    try:
        if not standby and not journal.lock():
            raise Taken("Another daemon has the journal in PostgreSQL.")
    except BaseException:
        journal.close()
        raise
    return journal


def read(database):
    journal = PostgresqlJournal(database, create=False)
    try:
        yield from journal.records()
    finally:
        journal.close()
