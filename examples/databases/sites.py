"""A site as one transaction has it: a connection to the station's database, and the statements for its part there. What is the database's
own stands in postgresql_site.py and mariadb_site.py. docs/DATABASES.md says which ways to take a ticket are sound, and why.

    PostgreSQL, SERIALIZABLE
      unseen  a number, a row with it, and a read of the rows above it, of which none is seen    sound, nobody waits
      row     one row that counts                                                             sound, the second waits and then fails
      first   the same row, locked before anything is read                                    sound, the second waits
      bare    a number and nothing else                                                       NOT sound
    MariaDB, SERIALIZABLE, or with share locks
      last    a number, drawn as the part's last statement                                    sound
      row     one row that counts                                                             sound, the second waits
      early   a number, drawn as the part's first statement                                   NOT sound
"""

from .wire import DatabaseError, quoted


class Failed(Exception):
    """The database gave the part up, or let it wait too long: the transaction is to be rolled back and begun anew."""


class Site:
    def __init__(self, server, ticket, wait=1.0, heard=None):
        self.server, self.how, self.wait, self.heard = server, ticket, wait, heard
        self.connection, self.gid, self.drawn = None, None, None

    def query(self, sql, *values):
        for value in values:
            sql = sql.replace("?", quoted(value), 1)
        if self.connection is None:
            self.connection = self.server.connect()
            self.settle()
        if self.heard:
            self.heard(self, sql)
        try:
            return self.connection.query(sql)
        except DatabaseError as e:
            if e.code in self.passing:
                raise Failed(e.text) from e
            raise

    def one(self, sql, *values):
        return self.query(sql, *values)[0][0]

    def hang_up(self):
        if self.connection is not None:
            self.connection.close()
            self.connection = None

    def make(self):
        """The station's tables, and what tickets are drawn from, anew."""
        for name in ("boats", "plans", "jobs", "ticket", "ticket_taken"):
            self.query(f"DROP TABLE IF EXISTS {name}")
        self.query("DROP SEQUENCE IF EXISTS ticket_sequence")
        self.query("CREATE TABLE boats (name VARCHAR(40) PRIMARY KEY, on_call INT NOT NULL)")
        self.query("CREATE TABLE plans (plan VARCHAR(40) PRIMARY KEY)")
        self.query("CREATE TABLE jobs (plan VARCHAR(40), boat VARCHAR(40), PRIMARY KEY (plan, boat))")
        self.query("CREATE SEQUENCE ticket_sequence")
        self.query("CREATE TABLE ticket (value BIGINT NOT NULL)")
        self.query("INSERT INTO ticket VALUES (0)")
