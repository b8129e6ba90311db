"""A site that is a MariaDB (InnoDB)."""

import time

from .sites import Failed, Site
from .wire import DatabaseError


class MariaDBSite(Site):
    """locks='serializable': SERIALIZABLE, where XA PREPARE keeps every lock, so the site is rigorous. locks='share': REPEATABLE READ with
    LOCK IN SHARE MODE behind every read: the same locks, but XA PREPARE lets go the read locks of a part that has written."""

    passing = {1205, 1213, 1614, 1062}  # waited too long, deadlock, the same at XA END, a key that another took meanwhile
    rolled_back = {1399, 1402, 1613, 1614}  # what XA END and XA ROLLBACK say of a part that the database has rolled back itself
    unknown = 1397  # XAER_NOTA

    def __init__(self, server, ticket, wait=1.0, heard=None, locks="serializable"):
        super().__init__(server, ticket, wait, heard)
        self.level, self.locking = {"serializable": ("SERIALIZABLE", ""), "share": ("REPEATABLE READ", " LOCK IN SHARE MODE")}[locks]

    def settle(self):
        self.query(f"SET SESSION TRANSACTION ISOLATION LEVEL {self.level}")
        self.query(f"SET SESSION innodb_lock_wait_timeout = {max(1, round(self.wait))}")  # whole seconds

    def begin(self, gid):
        self.gid = gid
        self.query("XA START ?", gid)
        if self.how == "early":
            self.drawn = self.one("SELECT NEXTVAL(ticket_sequence)")

    def take_ticket(self):
        if self.how == "early":
            return self.drawn
        if self.how == "row":
            self.query("UPDATE ticket SET value = value + 1")
            return self.one("SELECT value FROM ticket")
        return self.one("SELECT NEXTVAL(ticket_sequence)")

    def prepare(self):
        self.query("XA END ?", self.gid)
        self.query("XA PREPARE ?", self.gid)
        self.gid = None

    def roll_back(self):
        gid, self.gid = self.gid, None
        for sql in ("XA END ?", "XA ROLLBACK ?"):
            try:
                self.query(sql, gid)
            except Failed:
                pass  # the database has rolled it back itself; XA ROLLBACK still has to be said
            except DatabaseError as e:
                if e.code not in self.rolled_back:
                    raise

    def settle_prepared(self, gid, commit):
        end = time.monotonic() + 5
        while True:  # as long as another connection that prepared it is there for the server, it is 'unknown'
            try:
                return self.query(f"XA {'COMMIT' if commit else 'ROLLBACK'} ?", gid)
            except DatabaseError as e:
                if e.code != self.unknown or time.monotonic() > end or gid not in self.left():
                    raise
                time.sleep(0.02)

    def left(self):
        return [data for _, _, _, data in self.query("XA RECOVER")]

    def tidy(self):
        pass

    def begin_local(self):
        self.query("SET TRANSACTION ISOLATION LEVEL SERIALIZABLE")  # of the next one only
        self.query("BEGIN")

    def sees(self):
        return "it has read under locks"

    def is_called(self):
        return "it has locked what it wrote"
