"""A site that is a PostgreSQL, SERIALIZABLE."""

from .sites import Failed, Site


class PostgreSQLSite(Site):
    locking = ""
    passing = {"40001", "40P01", "55P03", "23505"}  # not serializable, deadlock, waited too long, a key that another took meanwhile

    def settle(self):
        self.query("SET default_transaction_isolation = 'serializable'")
        self.query(f"SET lock_timeout = {int(self.wait * 1000)}")
        if self.how == "unseen":  # the read of the rows above must go by the index: a scan meets the rows below as well
            self.query("SET enable_seqscan = off")
            self.query("SET enable_bitmapscan = off")

    def make(self):
        super().make()
        self.query("CREATE TABLE ticket_taken (ticket BIGINT PRIMARY KEY)")

    def begin(self, gid):
        self.gid = gid
        self.query("BEGIN")
        if self.how == "first":  # LOCK takes no snapshot, so whoever waited here works on what the one before it left
            self.query("LOCK TABLE ticket IN EXCLUSIVE MODE")
            self.drawn = self.one("UPDATE ticket SET value = value + 1 RETURNING value")

    def take_ticket(self):
        if self.how == "first":
            return self.drawn
        if self.how == "row":
            return self.one("UPDATE ticket SET value = value + 1 RETURNING value")
        if self.how == "bare":
            return self.one("SELECT nextval('ticket_sequence')")
        ticket = self.one("INSERT INTO ticket_taken SELECT nextval('ticket_sequence') RETURNING ticket")
        if self.query("SELECT ticket FROM ticket_taken WHERE ticket > ? LIMIT 1", ticket):
            raise Failed("a larger ticket is committed already")  # only if the sequence gives numbers out of turn (CACHE)
        return ticket

    def prepare(self):
        self.query("PREPARE TRANSACTION ?", self.gid)
        if self.connection.tag != "PREPARE TRANSACTION":
            raise Failed("the part had failed, so to prepare it was to roll it back")
        self.gid = None

    def roll_back(self):
        """A part that is not prepared."""
        self.gid = None
        self.query("ROLLBACK")

    def settle_prepared(self, gid, commit):
        self.query(f"{'COMMIT' if commit else 'ROLLBACK'} PREPARED ?", gid)

    def left(self):
        """The parts that the database holds prepared, whoever prepared them."""
        return [gid for gid, in self.query("SELECT gid FROM pg_prepared_xacts WHERE database = current_database() ORDER BY prepared")]

    def tidy(self):
        """Rows far below the ticket of every part that runs are of no use any more. Not SERIALIZABLE, so it is in nobody's way."""
        self.query("BEGIN ISOLATION LEVEL READ COMMITTED")
        self.query("DELETE FROM ticket_taken WHERE ticket < (SELECT last_value - 1000 FROM ticket_sequence)")
        self.query("COMMIT")

    def begin_local(self):
        self.query("BEGIN")

    def sees(self):
        """Which transactions the part can have seen, in the database's own words."""
        return f"its snapshot ends before transaction {self.one('SELECT pg_snapshot_xmax(pg_current_snapshot())')}"

    def is_called(self):
        return f"it is transaction {self.one('SELECT pg_current_xact_id()')}"
