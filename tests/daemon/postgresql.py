"""The journal in PostgreSQL, where there is one: a server of our own in a temporary folder, on a Unix socket, not as root."""

import glob
import os
import pwd
import shutil
import signal
import subprocess
import threading
import time
from pathlib import Path

import held
from held import STEPS, Daemon, Forked, ServiceEnded, folder, hold, left_out, otm, plain, say, test, wait_for
from otm_journal import paired
from otm_psql import Psql, ServerGone, SqlError


def found():
    """The folder of PostgreSQL's programs, None where it is not installed."""
    places = sorted(glob.glob("/usr/lib/postgresql/*/bin/initdb"), reverse=True) + [shutil.which("initdb") or ""]
    return Path(os.path.realpath(places[0])).parent if places[0] else None


class Server:
    """A server; a copy of another one, if that is given."""

    def __init__(self, programs, copy_of=None):
        self.programs, self.folder = programs, folder()
        self._as = []
        if os.getuid() == 0:  # PostgreSQL refuses root
            who = pwd.getpwnam("nobody")
            os.chown(self.folder, who.pw_uid, who.pw_gid)
            held.FOLDER.chmod(0o755)
            self._as = ["setpriv", f"--reuid={who.pw_uid}", f"--regid={who.pw_gid}", "--clear-groups"]
        make = [programs / "initdb", "-D", self.folder / "data", "-U", "otm", "-A", "trust", "--no-sync", "-E", "UTF8", "--locale=C"]
        if copy_of:
            make = [programs / "pg_basebackup", "-D", self.folder / "data", "-h", copy_of.folder, "-U", "otm", "--no-sync", "-c", "fast"]
        done = subprocess.run([*self._as, *make], cwd=self.folder, capture_output=True, env=dict(os.environ, HOME=str(self.folder)))
        if done.returncode:
            raise RuntimeError(done.stderr.decode())
        held.LASTING.append(self)
        if copy_of:
            with open(self.folder / "data" / "postgresql.auto.conf", "a") as f:
                f.write(f"primary_conninfo = 'host={copy_of.folder} user=otm application_name=copy'\n")
            (self.folder / "data" / "standby.signal").touch()
        self.start()

    def start(self):
        with open(self.folder / "log", "ab") as log:
            self.process = subprocess.Popen(
                [*self._as, self.programs / "postgres", "-D", self.folder / "data", "-k", self.folder, "-c", "listen_addresses=", "-c", "shared_buffers=16MB",
                 "-c", "max_connections=30", "-c", "fsync=off"], cwd=self.folder, stdout=log, stderr=log, stdin=subprocess.DEVNULL, start_new_session=True)
        wait_for(self.answers, 30)

    def answers(self):
        try:
            self.run("SELECT 1")
            return True
        except (ServerGone, SqlError):
            return False

    def stop(self, how=signal.SIGINT):
        if self.process.poll() is None:
            self.process.send_signal(how)
            try:
                self.process.wait(20)
            except subprocess.TimeoutExpired:
                self.process.kill()
                self.process.wait()

    def database(self, name="postgres"):
        return f"host={self.folder} user=otm dbname={name}"

    def run(self, sql, name="postgres"):
        session = Psql(self.database(name))
        try:
            return session.run(sql)
        finally:
            session.close()


server = None
PROGRAMS = found()
if PROGRAMS is None:
    left_out.append("the journal in PostgreSQL: initdb was not found (Debian: postgresql)")
else:
    os.environ.setdefault("PSQL", str(PROGRAMS / "psql"))
    held.ENVIRONMENT.setdefault("PSQL", str(PROGRAMS / "psql"))


def with_server(f):
    """A test with a journal of its own: a database in the server, which is started once."""

    def run():
        global server
        server = server or Server(PROGRAMS)
        name = f.__name__
        server.run(f"CREATE DATABASE {name}")
        f("postgresql:" + server.database(name), name)

    run.__name__ = f.__name__
    return test(run) if PROGRAMS else run


def records(name):
    return [(int(n), text) for n, text in server.run("SELECT n, record FROM delphrimock_journal ORDER BY n", name)]


def pairs(name):
    return [(m, line) for _, m, line in paired(records(name))]


@with_server
def story(where, name):
    daemon = Daemon(journal=where)
    hold("a daemon with its journal in PostgreSQL starts", daemon.up(), daemon.said())
    lines = []
    with daemon.client() as c:
        for i, step in enumerate(STEPS):
            if i % 4 == 2:
                os.kill(daemon.service(), signal.SIGKILL)
            lines.append(c.send(step.message))
    hold("and answers the story, its service killed now and then", lines == [s.expected for s in STEPS], lines)
    hold("a plain replay agrees", plain(m for m, _ in pairs(name)) == [line for _, line in pairs(name)])
    daemon.process.kill()
    daemon.wait()
    daemon = Daemon(where=daemon.folder, journal=where)
    daemon.up()
    with daemon.client() as c:
        hold("killed and started again, it has the same table", c.send(say("begin 0")) == "begin 5")
        c.abort(5)
    second = Daemon(journal=where)
    hold("a second daemon refuses to start", second.wait() == 2 and "Another daemon has the journal" in second.said(), second.said())
    hold("it ends with status 0", daemon.end() == 0, daemon.said())
    done = otm("journal", "show", where)
    hold("otm journal show", done.returncode == 0 and "decide 1 -> commit 1\n" in done.out, done)
    hold("otm journal check", otm("journal", "check", where).returncode == 0)
    last = records(name)[-1][0]
    done = otm("journal", "compact", where)
    hold("otm journal compact", done.returncode == 0 and [m for m, _ in pairs(name)] == [say("open 6 floors 1 3")], done)
    hold("numbers of records go on", records(name)[0][0] == last + 1, records(name))
    hold("otm journal outcomes", otm("journal", "outcomes", where).out == "1 commit\n2 abort\n3 abort\n4 commit\n5 abort\n", otm("journal", "outcomes", where))
    daemon = Daemon(journal=where)
    daemon.up()
    with daemon.client() as c:
        hold("and a daemon goes on", c.send(say("begin 0")) == "begin 6")
    done = otm("journal", "outcomes", f"postgresql://otm@/{name}?host={server.folder}", 6)
    hold("a database may be named by a URI", done.out.startswith("6 active at 0 since 20"), done)


def alone():
    """Changes a daemon so that it thinks that it is alone."""
    import otm_postgresql

    otm_postgresql.LOCK = "SELECT true"


@with_server
def two_that_think_they_are_alone(where, name):
    first = Forked(alone, journal=where)
    first.up()
    told, silent = [], []

    def begins(daemon, count):
        """Numbers told by a daemon, until it is gone."""
        try:
            with daemon.client() as c:
                for _ in range(count):
                    line = c.send(say("begin 0"))
                    if line == "refused 7":
                        return
                    told.append(line)
                    c.send(say("order"))
        except (ServiceEnded, FileNotFoundError):
            silent.append(daemon)

    with first.client() as c:
        c.open(1, [0])
    begins(first, 3)
    second = Forked(alone, journal=where)
    second.up()
    try:
        with first.client() as c:
            c.order()
        hold("the first, which is no longer the one, answers nothing: not even a question", False)
    except ServiceEnded:
        hold("the first, which is no longer the one, answers nothing: not even a question", True)
    hold("it stops with status 1", first.wait() == 1 and "Another daemon has written to the journal" in first.said(), first.said())
    begins(second, 3)
    hold("the second goes on with its table", told == [f"begin {n}" for n in range(1, 7)], told)
    third = Forked(alone, journal=where)
    third.up()
    begins(second, 1)
    hold("a begin at a daemon that was overtaken is not answered, and not done", silent == [second] and second.wait() == 1 and len(told) == 6)
    third.kill()
    # both at once, from many clients
    both = [Forked(alone, journal=where), Forked(alone, journal=where)]
    up = [d for d in both if d.up()]
    threads = [threading.Thread(target=begins, args=(d, 8)) for d in up for _ in range(2)]
    for t in threads:
        t.start()
    for t in threads:
        t.join()
    hold("of two that start at once one at most is left", sum(d.ended() for d in both) >= 1, [d.said() for d in both])
    hold("no number is told twice", len(set(told)) == len(told) > 6, told)
    hold("and the journal is one sequence that a plain replay agrees with", plain(m for m, _ in pairs(name)) == [line for _, line in pairs(name) if line])


@with_server
def standby(where, name):
    first = Daemon(journal=where)
    first.up()
    with first.client() as c:
        c.open(1, [0, 0])
        for _ in range(3):
            c.begin([0])
    second = Daemon("--standby", journal=where)
    hold("a standby waits and follows", wait_for(lambda: "standing by, and following" in second.said()) and not second.ended(), second.said())
    with first.client() as c:
        hold("while the first serves", c.begin([0]) == 4)
        for n in range(1, 5):
            c.abort(n)
    first.process.kill()
    first.wait()
    began = time.monotonic()
    hold("when the first is gone it takes over", second.up(), second.said())
    hold("within seconds", time.monotonic() - began < 5, time.monotonic() - began)
    with second.client() as c:
        hold("with the same table", c.begin([0]) == 5)
    hold("a plain replay agrees", plain(m for m, _ in pairs(name)) == [line for _, line in pairs(name)])


@with_server
def begun_and_told_to_nobody(where, name):
    """In PostgreSQL an answer's record may be lost with the server, so what has none is not aborted, but named."""

    def dying():
        import otm_table

        ask = otm_table.Service.ask
        otm_table.Service.ask = lambda self, m: (ask(self, m), os.kill(os.getpid(), signal.SIGKILL))[0] if any(x[3:4] == b"\1" for x in m) else ask(self, m)

    daemon = Forked(dying, journal=where)
    daemon.up()
    try:
        with daemon.client() as c:
            c.open(1, [0])
            c.begin([0])
    except ServiceEnded:
        pass
    daemon = Forked(where=daemon.folder, journal=where)
    daemon.up()
    hold("what was begun and perhaps told to nobody is named", "begun, and perhaps known to nobody: 1;" in daemon.said(), daemon.said())
    hold("and stays active", "1 active at 0" in otm("journal", "outcomes", where).out)


@with_server
def replication_that_is_waited_for(where, name):
    """With synchronous replication and no copy there, nothing is answered; also not where someone cancels the waiting."""
    daemon = Forked(journal=where)
    daemon.up()
    with daemon.client() as c:
        c.open(1, [0])
        hold("answered without it", c.begin([0]) == 1)
    server.run("ALTER SYSTEM SET synchronous_standby_names = 'nobody'")
    server.run("SELECT pg_reload_conf()")
    try:
        wait_for(lambda: server.run("SHOW synchronous_standby_names") == [["nobody"]])
        with daemon.client(timeout=0.5) as c:
            try:
                c.begin([0])
                hold("a begin that no copy has is not answered", False)
            except ServiceEnded:
                hold("a begin that no copy has is not answered", True)
        waiting = "SELECT pid FROM pg_stat_activity WHERE wait_event = 'SyncRep'"
        hold("it waits", wait_for(lambda: server.run(waiting) != [], 5))
        server.run("SELECT pg_cancel_backend(pid) FROM pg_stat_activity WHERE wait_event = 'SyncRep'")
        hold("where the waiting is cancelled the daemon stops", daemon.wait() == 1 and "canceling wait for synchronous replication" in daemon.said(), daemon.said())
    finally:
        server.run("ALTER SYSTEM RESET synchronous_standby_names")
        server.run("SELECT pg_reload_conf()")
    daemon = Forked(journal=where)
    daemon.up()
    with daemon.client() as c:
        hold("and the number is not given again", c.begin([0]) == 3)


@with_server
def a_copy_that_takes_over(where, name):
    """Synchronous replication for real: the primary dies in the middle of the work, the copy is promoted, and has all that was answered."""
    primary = Server(PROGRAMS)
    copy = None
    try:
        copy = Server(PROGRAMS, primary)
        primary.run("ALTER SYSTEM SET synchronous_standby_names = 'copy'")
        primary.run("SELECT pg_reload_conf()")
        wait_for(lambda: primary.run("SELECT sync_state FROM pg_stat_replication") == [["sync"]], 20)
        daemon = Forked(journal="postgresql:" + primary.database())
        daemon.up()
        told = []

        def work():
            try:
                with daemon.client() as c:
                    while True:
                        n = c.begin([0])
                        told.append(n)
                        c.ticket(n, 0, n)
                        c.prepared(n, 0)
                        if c.decide(n):
                            told.append(-n)
                        c.sweep()
            except (ServiceEnded, held.Refused):
                pass

        with daemon.client() as c:
            c.open(1, [0])
        threads = [threading.Thread(target=work) for _ in range(3)]
        for t in threads:
            t.start()
        wait_for(lambda: len(told) > 60, 20)
        primary.stop(signal.SIGQUIT)
        for t in threads:
            t.join()
        hold("with the primary gone nobody is answered, and the daemon stops", daemon.wait() == 1, daemon.said())
        copy.run("SELECT pg_promote()")
        where = "postgresql:" + copy.database()
        fates = dict(line.split()[:2] for line in otm("journal", "outcomes", where).out.splitlines())
        hold("the copy has every number and every commit that was told", len(told) > 60 and all(fates[str(abs(n))] == "commit" if n < 0 else str(n) in fates for n in told),
             (len(told), len(fates)))
        daemon = Forked(journal=where)
        hold("and a daemon goes on from it", daemon.up(), daemon.said())
        with daemon.client() as c:
            hold("behind the last number", c.begin([0]) > max(told))
    finally:
        primary.stop()
        if copy:
            copy.stop()


@with_server
def with_few_rights(where, name):
    """A daemon that may only read and add records."""
    server.run("CREATE TABLE delphrimock_journal (n bigint PRIMARY KEY, record text NOT NULL)", name)
    server.run("CREATE ROLE planner LOGIN", name)
    server.run("GRANT SELECT, INSERT ON delphrimock_journal TO planner", name)
    less = where.replace("user=otm", "user=planner")
    daemon = Forked(journal=less)
    hold("reading and inserting are rights enough", daemon.up(), daemon.said())
    with daemon.client() as c:
        c.open(1, [0])
        c.abort(c.begin([0]))
    daemon.end()
    done = otm("journal", "compact", less)
    hold("but not for compaction", done.returncode == 2 and "permission denied" in done.err, done)
    hold("which its owner may do", otm("journal", "compact", where).returncode == 0)


@with_server
def a_server_that_dies(where, name):
    daemon = Forked(journal=where)
    daemon.up()
    told = []
    with daemon.client() as c:
        c.open(1, [0])
        told.append(c.begin([0]))
        server.stop(signal.SIGQUIT)  # at once, as in a crash
        try:
            c.begin([0])
            hold("with its database gone, a daemon answers nothing", False)
        except ServiceEnded:
            hold("with its database gone, a daemon answers nothing", True)
    hold("and stops with status 1", daemon.wait() == 1 and "The journal's database" in daemon.said(), (daemon.wait(), daemon.said()))
    early = Forked(journal=where)
    hold("it cannot start without it", early.wait() == 1 and "cannot be reached" in early.said(), early.said())
    server.start()
    daemon = Forked(journal=where)
    hold("it starts when it is back", daemon.up(), daemon.said())
    with daemon.client() as c:
        number = c.begin([0])
        hold("with every number it had told", number == 2, number)


@with_server
def strange_tables(where, name):
    hold("a journal that is not there is told", "There is no table" in otm("journal", "show", where).err)
    server.run("CREATE TABLE delphrimock_journal (n bigint PRIMARY KEY, record text NOT NULL)", name)
    server.run("INSERT INTO delphrimock_journal VALUES (1, 'something')", name)
    daemon = Forked(journal=where)
    hold("a table that is no journal is refused", daemon.wait() == 2 and "begins no journal" in daemon.said(), daemon.said())
    server.run("DELETE FROM delphrimock_journal", name)
    server.run("INSERT INTO delphrimock_journal VALUES (1, 'journal 1 x'), (3, 'time x')", name)
    daemon = Forked(journal=where)
    hold("a record that is missing is noticed", daemon.wait() == 2 and "Record 2 of delphrimock_journal is missing" in daemon.said(), daemon.said())
    done = otm("journal", "check", "postgresql:host=/no/such/place dbname=otm")
    hold("a database that is not there", done.returncode == 2 and "cannot be reached" in done.err, done)
