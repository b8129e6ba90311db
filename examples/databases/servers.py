"""Databases of one's own: new and empty, in a temporary folder, on Unix sockets, for as long as a `with` lasts.

    with started("postgresql", "mariadb") as (old, new):
        old.connect().query("SELECT 1")

No port is opened, no database of the machine is touched, and root is not needed; where we are root, the servers run as 'nobody',
since PostgreSQL refuses root. At the end they are ended, each by its id, and the folder is removed.
"""

import contextlib
import glob
import os
import pwd
import shutil
import signal
import subprocess
import tempfile
import time
from pathlib import Path

from . import mariadb, postgresql
from .processes import kill
from .wire import DatabaseError, Gone

NAME = "otm"  # the database, and PostgreSQL's user
# MariaDB's own tables; folder and files have been called mysql and mariadb.
SYSTEM_TABLES = ["/usr/share/m[ya]*/m[ya]*_system_tables.sql", "/usr/share/m[ya]*/m[ya]*_system_tables_data.sql"]


class Missing(Exception):
    """Something is not installed. The text names the Debian package that brings it."""


def find(program, places, package):
    for place in places:
        found = glob.glob(f"{place}/{program}")
        if found:
            return max(found, key=lambda path: [int(word) for word in path.split("/") if word.isdigit()])
    found = shutil.which(program)
    if not found:
        raise Missing(f"{program} is not installed (Debian: {package})")
    return os.path.realpath(found)


class Server:
    """quick: nothing is forced to the disk. Enough where processes are killed, and not where a machine loses its power."""

    def __init__(self, folder, quick):
        self.folder, self.data, self.quick, self.process = folder, folder / "data", quick, None
        self.who = {}
        folder.mkdir()
        if os.getuid() == 0:
            nobody = pwd.getpwnam("nobody")
            self.who = {"user": nobody.pw_uid, "group": nobody.pw_gid, "extra_groups": []}
            os.chown(folder, nobody.pw_uid, nobody.pw_gid)
        self.how = {"cwd": folder, "env": {**os.environ, "HOME": str(folder), "LC_ALL": "C.UTF-8"}, **self.who}

    def make(self, like=None):
        """The files of an empty database: made anew, or copied from another server that has not been started yet."""
        if like:
            shutil.copytree(like.data, self.data)
            for path in [self.data, *self.data.rglob("*")] if self.who else []:
                os.chown(path, self.who["user"], self.who["group"])
            return
        words, given = self.making()
        done = subprocess.run(words, input=given, stdout=subprocess.PIPE, stderr=subprocess.STDOUT, text=True, **self.how)
        if done.returncode:
            raise RuntimeError(f"{words[0]} failed: {done.stdout[-800:]}")

    def start(self):
        with open(self.folder / "log", "ab") as log:
            self.process = subprocess.Popen(
                self.starting(), stdin=subprocess.DEVNULL, stdout=log, stderr=log, start_new_session=True, **self.how)

    def wait(self, seconds=60):
        """Until it answers."""
        end = time.monotonic() + seconds
        while True:
            try:
                self.connect(self.always_there).close()
                return
            except (Gone, DatabaseError) as e:
                if self.process.poll() is not None or time.monotonic() > end:
                    raise RuntimeError(f"{self.kind} did not start: {e}; {(self.folder / 'log').read_text(errors='replace')[-800:]}") from e
                time.sleep(0.02)

    def create(self):
        with contextlib.closing(self.connect(self.always_there)) as c:
            c.query(f"CREATE DATABASE {NAME}")

    def stop(self):
        if self.process and self.process.poll() is None:
            self.process.send_signal(self.gently)
            try:
                self.process.wait(20)
            except subprocess.TimeoutExpired:
                self.kill()

    def kill(self):
        kill(self.process)


class PostgreSQL(Server):
    kind, shown, always_there = "postgresql", "PostgreSQL", "postgres"
    gently = signal.SIGINT  # ends connections and does not wait for them

    def __init__(self, folder, quick):
        self.programs = os.path.dirname(self.look())
        super().__init__(folder, quick)

    @staticmethod
    def look():
        return find("initdb", ["/usr/lib/postgresql/*/bin"], "postgresql")

    def making(self):
        return [f"{self.programs}/initdb", "-D", str(self.data), "-U", NAME, "-A", "trust", "--no-sync", "-E", "UTF8", "--locale=C"], ""

    def starting(self):
        settings = {"listen_addresses": "", "max_prepared_transactions": 64, "max_connections": 80, "max_pred_locks_per_transaction": 256}
        settings.update({"fsync": "off"} if self.quick else {})
        words = [f"{self.programs}/postgres", "-D", str(self.data), "-k", str(self.folder)]
        return words + [word for name, value in settings.items() for word in ("-c", f"{name}={value}")]

    def connect(self, database=NAME):
        return postgresql.Connection(self.folder / ".s.PGSQL.5432", NAME, database)


class MariaDB(Server):
    kind, shown, always_there = "mariadb", "MariaDB", ""
    gently = signal.SIGTERM

    def __init__(self, folder, quick):
        self.program = self.look()
        super().__init__(folder, quick)

    @staticmethod
    def look():
        for name in SYSTEM_TABLES:
            if not glob.glob(name):
                raise Missing(f"{name} is not installed (Debian: mariadb-server-core)")
        return find("mariadbd", ["/usr/sbin"], "mariadb-server-core")

    def making(self):
        """What mariadb-install-db does, without help tables and timezones. That script wants a program of the client's package."""
        (self.data / "mysql").mkdir(parents=True)
        for path in (self.data, self.data / "mysql") if self.who else ():
            os.chown(path, self.who["user"], self.who["group"])
        tables = [Path(glob.glob(name)[0]).read_text() for name in SYSTEM_TABLES]
        words = [self.program, "--no-defaults", "--bootstrap", f"--datadir={self.data}", "--skip-log-bin", "--innodb-flush-log-at-trx-commit=0"]
        return words, "USE mysql;\nSET @auth_root_socket = NULL;\nSET @skip_auth_anonymous = 1;\n" + "\n".join(tables)

    def starting(self):
        words = [self.program, "--no-defaults", f"--datadir={self.data}", f"--socket={self.folder}/s", f"--pid-file={self.folder}/pid"]
        words += ["--skip-networking", "--skip-log-bin", "--max-connections=80"]
        return words + (["--innodb-flush-log-at-trx-commit=2"] if self.quick else [])

    def connect(self, database=NAME):
        return mariadb.Connection(self.folder / "s", "root", database)


KINDS = {"postgresql": PostgreSQL, "mariadb": MariaDB}


def missing(kind):
    """What would have to be installed, or nothing."""
    try:
        KINDS[kind].look()
    except Missing as e:
        return str(e)


@contextlib.contextmanager
def started(*kinds, quick=True, where=None):
    """Servers of these kinds. A signal to end, too, ends them: it becomes an exception here."""
    folder = Path(tempfile.mkdtemp(prefix="otm-", dir=where))
    before, up = {}, []
    try:
        for number in (signal.SIGTERM, signal.SIGHUP):
            before[number] = signal.signal(number, _end)
        if os.getuid() == 0:
            os.chown(folder, pwd.getpwnam("nobody").pw_uid, -1)
        for i, kind in enumerate(kinds):
            server = KINDS[kind](folder / str(i), quick)
            server.make(next((s for s in up if s.kind == kind), None))
            up.append(server)
        for server in up:
            server.start()
        for server in up:
            server.wait()
            server.create()
        yield up
    finally:
        before[signal.SIGINT] = signal.getsignal(signal.SIGINT)
        for number in before:
            signal.signal(number, signal.SIG_IGN)  # whoever is impatient now would leave servers behind
        for server in up:
            server.stop()
        shutil.rmtree(folder, ignore_errors=True)
        for number, how in before.items():
            signal.signal(number, how)


def _end(number, _):
    raise SystemExit(128 + number)
