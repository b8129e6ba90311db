"""What the tests share: counting, facts by name, and connections that give a word where a database refuses."""

import sys
from pathlib import Path

ROOT = Path(__file__).resolve().parent.parent.parent
sys.path.insert(0, str(ROOT / "examples"))

from databases.wire import DatabaseError  # noqa: E402

passed = failed = 0
FACTS = {}  # by name: the kind of database, and what is tried

WAITS, STOPPED, DONE = "waits", "stopped", "done"
WORDS = {"55P03": WAITS, 1205: WAITS, "40001": STOPPED, 1213: "deadlock", 1397: "unknown", 1402: "was rolled back"}


def hold(what, good, seen=""):
    global passed, failed
    if good:
        passed += 1
    else:
        failed += 1
        print(f"not so: {what}" + (f"\n    seen: {seen!r}" if seen != "" else ""), flush=True)


def fact(kind):
    """Marks a fact about a kind of database, which docs/DATABASES.md cites by the function's name. It is given a Room and yields what is
    tried, what came, and what is due."""

    def mark(f):
        FACTS[f.__name__] = kind, f
        return f

    return mark


class Talk:
    """A connection. A statement gives its rows, or 'done', or a word for what went wrong; of several, what the last one gave, or the
    first that went wrong."""

    def __init__(self, server, *settings):
        self.connection = server.connect()
        self(*settings)

    def __call__(self, *statements):
        got = DONE
        for sql in statements:
            try:
                got = self.connection.query(sql)
                got = got if isinstance(got, list) else DONE
                if sql.startswith(("PREPARE", "COMMIT")) and getattr(self.connection, "tag", "") == "ROLLBACK":
                    return "rolled back"
            except DatabaseError as e:
                return WORDS.get(e.code, f"{e.code}: {e.text}")
        return got

    def hang_up(self):
        self.connection.close()


class Room:
    """A database with fresh tables, and three connections: p for the planning, m for the move, r for a reader; root is in no part."""

    def __init__(self, server, tables, settings):
        self.server, self.settings = server, settings
        self.root = Talk(server)
        for sql in tables:
            got = self.root(sql)
            assert got == DONE, got
        self.p, self.m, self.r = (Talk(server, *settings) for _ in range(3))

    def again(self, *more):
        return Talk(self.server, *self.settings, *more)

    def leave(self):
        for talk in (self.p, self.m, self.r):
            talk.hang_up()


def try_facts(server, kind, tables, settings, clear):
    for name, (of, f) in FACTS.items():
        if of == kind:
            room = Room(server, tables, settings)
            for what, got, due in f(room):
                hold(f"{name}: {what}: {due!r}", got == due, got)
            room.leave()
            clear(room.root)
            room.root.hang_up()
