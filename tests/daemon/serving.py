"""The daemon and its clients: who is answered what, who is turned away, and that nobody hinders the others."""

import os
import signal
import socket
import stat
import subprocess
import sys
import time

import held
from held import STEPS, Daemon, Forked, folder, hold, plain, say, test, wait_for

SWEEP, ORDER = say("sweep"), say("order")


def until_end(sock):
    """All that still comes."""
    got = b""
    try:
        while more := sock.recv(65536):
            got += more
    except ConnectionResetError:
        pass
    return got


def lines(sock, count):
    got = b""
    while got.count(b"\n") < count:
        more = sock.recv(65536)
        if not more:
            break
        got += more
    return got


@test
def one_sequence_for_all():
    daemon = Daemon()
    daemon.up()
    hold("the socket is for its owner alone", stat.S_IMODE(os.stat(daemon.socket).st_mode) == 0o600)
    a, b = daemon.raw(), daemon.raw()
    a.sendall(say("open 1 floors 0 0"))
    hold("one opens", lines(a, 1) == b"ok\n")
    b.sendall(say("begin 0,1"))
    hold("the other begins", lines(b, 1) == b"begin 1\n")
    a.sendall(b"".join(say(t) for t in ("ticket 1 site 0 = 5", "begin 0", "order", "begin none")))
    hold("many at once are answered in their sequence", lines(a, 4) == b"ok\nbegin 2\norder\nrefused 3\n")
    data = say("prepared 1 site 0") + ORDER
    for i in range(len(data)):
        b.sendall(data[i : i + 1])
        if i == 8:
            hold("each as soon as it is whole", lines(b, 1) == b"ok\n")
    hold("in any pieces", lines(b, 1) == b"order\n")
    a.sendall(ORDER + say("begin 1") + ORDER[:2])
    a.shutdown(socket.SHUT_WR)
    hold("an end inside a message is 11, behind the answers", until_end(a) == b"order\nbegin 3\nrefused 11\n")
    b.shutdown(socket.SHUT_WR)
    hold("an end between two messages has no line", until_end(b) == b"")
    hold("told to stop, it ends with 0", daemon.end() == 0)
    hold("and says so", daemon.said().endswith("told to stop: everything that was read is answered\n"), daemon.said())


@test
def malformed():
    """A client that is answered 11 loses its connection, and nobody else's."""
    daemon = Forked()
    daemon.up()
    good = daemon.client()
    good.open(1, [0])
    for what, data, due in [
        ("a wrong version", b"\x02", b"refused 11\n"),
        ("a length over 160", b"\x01\x00\xa1", b"refused 11\n"),
        ("answers first", SWEEP + ORDER + b"\x00" + SWEEP, b"swept 0\norder\nrefused 11\n"),
        ("a wrong version behind half a message", say("begin 0")[:2] + b"\xff", b"refused 11\n"),
        ("an empty body", b"\x01\x00\x00" + ORDER + b"\x07", b"refused 10\norder\nrefused 11\n"),
        ("an unknown kind", b"\x01\x00\x01\xfe" + b"\x09" * 1000, b"refused 10\nrefused 11\n"),
    ]:
        bad = daemon.raw()
        bad.sendall(data)
        got = until_end(bad)
        hold(f"{what}: {due}", got == due, got)
        hold(f"{what}: as the service itself says", plain([say("open 1 floors 0"), data])[1:] == due.decode().splitlines())
        hold(f"{what}: another client is served", good.order() == [])
    hold("one table for all of it", [m[3:4] for m, _ in daemon.messages()] == [b"\0", b"\7", b"", b"\xfe"], daemon.messages())
    hold("and one service", daemon.said().count("is ready") == 1)
    good.close()


@test
def those_who_hang():
    """Half a message, and answers that are not read."""
    daemon = Forked(options=["--patience", "1.2"])
    daemon.up()
    good, half, deaf, idle = daemon.client(), daemon.raw(), daemon.raw(), daemon.raw()
    good.open(1, [0])
    half.sendall(SWEEP + say("begin 0")[:4])
    idle.sendall(ORDER)
    deaf.setblocking(False)
    sent = 0
    try:
        while sent < 50_000_000:
            sent += deaf.send(SWEEP * 5000)
            good.order()
    except BlockingIOError:
        pass
    hold("who does not read is not read from", sent < 5_000_000, sent)
    hold("and others are served", good.begin([0]) == 1)
    used = int(open(f"/proc/{daemon.pid}/statm").read().split()[1]) * os.sysconf("SC_PAGESIZE")
    hold("in bounded memory", used < 100_000_000, used)
    hold("half a message is given up after a while, as if the input had ended", until_end(half) == b"swept 0\nrefused 11\n")
    hold("who does not read is closed", wait_for(lambda: "takes no answers" in daemon.said(), 10), daemon.said())
    hold("who is idle between two messages is not", lines(idle, 1) == b"order\n" and not idle.sendall(ORDER) and lines(idle, 1) == b"order\n")
    hold("all along others are served", good.abort(1) is None)
    good.close()


@test
def numbers_that_nobody_was_told():
    daemon = Forked(options=["--patience", "1"])
    daemon.up()
    good = daemon.client()
    good.open(1, [0])
    gone = daemon.raw()
    os.kill(daemon.pid, signal.SIGSTOP)
    gone.sendall(say("begin 0"))
    gone.close()
    os.kill(daemon.pid, signal.SIGCONT)
    hold("who is gone before its answer leaves nothing active", good.order() == []
         and held.otm("journal", "outcomes", daemon.journal).out == "1 abort\n", daemon.said())
    deaf = daemon.raw()
    deaf.settimeout(3)
    try:
        for _ in range(30):
            deaf.sendall(ORDER * 1500 + say("begin 0"))
    except OSError:
        pass  # its answers are not read, so in the end neither are its messages
    hold("a client that never reads is closed", wait_for(lambda: "takes no answers" in daemon.said(), 15), daemon.said())
    told = until_end(deaf).count(b"begin ")
    done = held.otm("journal", "outcomes", daemon.journal)
    begun = done.out.count("\n") - 1
    hold("what it could have read stays active, and outcomes says so", done.out.count(" active at 0 since 20") == told > 0, (told, begun, done.out[:300]))
    hold("what it could not is aborted", done.out.count(" abort\n") == 1 + begun - told > 1, (told, begun, done.out[:300]))
    good.close()


@test
def limits():
    daemon = Forked(options=["--connections", "3"])
    daemon.up()
    clients = [daemon.raw() for _ in range(3)]
    for c in clients:
        c.sendall(SWEEP)
        hold("as many as are let in are served", lines(c, 1) == b"refused 1\n")
    more = daemon.raw()
    hold("one more is turned away at once", until_end(more) == b"")
    clients.pop().close()
    wait_for(lambda: "turned away" in daemon.said())

    def served():
        with daemon.raw() as c:
            try:
                c.sendall(SWEEP)
                return lines(c, 1) == b"refused 1\n"
            except OSError:
                return False

    hold("and let in when another has gone", wait_for(served))


@test
def over_tcp():
    daemon = Daemon("--tcp", "127.0.0.1:0", "--mode", "660")
    daemon.up()
    hold("the mode that was asked for", stat.S_IMODE(os.stat(daemon.socket).st_mode) == 0o660)
    port = int(daemon.said().rsplit(":", 1)[1])
    with held.Coordinator(("127.0.0.1", port), timeout=20) as c, daemon.client() as d:
        c.open(1, [0])
        hold("one table, over the network and over the socket", (c.begin([0]), d.begin([0]), c.begin([0])) == (1, 2, 3))
        hold("no word of other machines for this one", "other machines" not in daemon.said())
    daemon.end()
    daemon = Forked()
    daemon.up()
    hold("nothing listens on a network unless asked for", not listening(daemon.pid))


def listening(pid):
    """Whether a process has a socket of a network."""
    inodes = {os.readlink(f"/proc/{pid}/fd/{fd}") for fd in os.listdir(f"/proc/{pid}/fd")}
    for table in ("tcp", "tcp6", "udp", "udp6"):
        with open(f"/proc/net/{table}") as f:
            if any(f"socket:[{row.split()[9]}]" in inodes for row in list(f)[1:]):
                return True
    return False


@test
def two_daemons():
    first = Daemon()
    first.up()
    second = Daemon(where=folder(), journal=first.journal)
    hold("a second daemon on the same journal refuses to start", second.wait() == 2 and "Another process has the journal" in second.said(), second.said())
    third = Forked(where=first.folder, journal=folder() / "j")
    hold("one with another journal does not take its socket", third.wait() == 2 and "Another daemon listens at" in third.said(), third.said())
    waiting = Daemon("--standby", where=folder(), journal=first.journal)
    hold("a standby waits", wait_for(lambda: "standing by" in waiting.said()) and not waiting.ended())
    with first.client() as c:
        c.open(5, [0])
        hold("while the first serves", c.begin([0]) == 5)
    first.process.kill()
    first.wait()
    hold("and takes over when it is gone", waiting.up())
    with waiting.client() as c:
        hold("with the same table", c.begin([0]) == 6)
    again = Daemon(where=first.folder)
    hold("the first cannot come back", again.wait() == 2)
    waiting.end()
    again = Daemon(where=first.folder)
    hold("until the other has ended; the socket it left is taken away", again.up())


@test
def starting():
    where = folder()
    (where / "s").write_text("not a socket")
    daemon = Forked(where=where)
    hold("a file in the socket's place is left alone", daemon.wait() == 2 and (where / "s").read_text() == "not a socket", daemon.said())
    daemon = Forked(where=folder(), journal=where / "no" / "j")
    hold("a journal that cannot be made", daemon.wait() == 2 and "cannot be opened: No such file" in daemon.said(), daemon.said())
    daemon = Forked(where=folder(), program="/no/such/service")
    hold("a service that cannot be run", daemon.wait() == 1 and "cannot be run" in daemon.said(), daemon.said())
    for words, sentence in [
        ([], "needs --socket"),
        (["--socket", "s"], "needs --journal"),
        (["--socket"], "needs something behind it"),
        (["--socket", "s", "--journal", "j", "--sync", "sometimes"], "always, answers, never is due"),
        (["--socket", "s", "--journal", "j", "--tcp", "7000"], "HOST:PORT is due"),
        (["--socket", "s", "--journal", "j", "--mode", "9"], "octal mode"),
        (["--socket", "s", "--journal", "j", "--connections", "0"], "1 to 10000 is due"),
        (["--socket", "s", "--journal", "j", "--patience", "-1"], "seconds is due"),
        (["--fast"], "knows no --fast"),
    ]:
        done = held.otm("serve", *words)
        hold(f"otm serve {' '.join(words)}", done.returncode == 2 and sentence in done.err and "Traceback" not in done.err, done)
    told = socket.socket(socket.AF_UNIX, socket.SOCK_DGRAM)
    told.bind(str(where / "notify"))
    told.settimeout(20)
    os.environ["NOTIFY_SOCKET"] = str(where / "notify")
    daemon = Forked(where=folder())
    del os.environ["NOTIFY_SOCKET"]
    hold("systemd is told that it is ready", told.recv(100) == b"READY=1" and daemon.up())
    daemon.end()
    hold("and that it stops", told.recv(100) == b"STOPPING=1")
    told.close()


@test
def stopping_with_work_at_hand():
    """What was read is answered, also when the signal comes in between."""
    daemon = Forked()
    daemon.up()
    clients = [daemon.raw() for _ in range(5)]
    clients[0].sendall(say("open 1 floors 0"))
    lines(clients[0], 1)
    os.kill(daemon.pid, signal.SIGSTOP)
    for c in clients:
        c.sendall(SWEEP * 500)
    os.kill(daemon.pid, signal.SIGTERM)
    os.kill(daemon.pid, signal.SIGCONT)
    got = [until_end(c) for c in clients]
    hold("whole lines or nothing", all(set(g.split(b"\n")) <= {b"swept 0", b""} and (not g or g.endswith(b"\n")) for g in got))
    hold("as many as were journalled", sum(g.count(b"\n") for g in got) == len(daemon.messages()) - 1, [len(g) for g in got])
    hold("and status 0", daemon.wait() == 0)


@test
def ctrl_c():
    """A Ctrl-C at the daemon's terminal reaches the whole group: the service must still be there for what was read."""
    daemon = Daemon()
    daemon.up()
    hold("the service is in a group of its own", os.getpgid(daemon.service()) != os.getpgid(daemon.pid))
    with daemon.client() as c:
        c.open(1, [0])
        os.killpg(daemon.pid, signal.SIGINT)
    hold("the daemon ends well", daemon.wait() == 0)
    service = daemon.service()
    hold("and its service with it", wait_for(lambda: not os.path.exists(f"/proc/{service}"), 5))


@test
def talking_to_a_daemon():
    daemon = Forked()
    daemon.up()
    text = "".join(f"{s.text} -> {s.expected}\n" for s in STEPS)
    done = subprocess.run([sys.executable, "-S", held.OTM, "talk"], input=text.encode(), capture_output=True,
                          env=dict(held.ENVIRONMENT, OTM_SERVICE=daemon.socket))
    hold("otm talk over the socket", done.returncode == 0 and b"NOT AS EXPECTED" not in done.stdout and done.stdout.count(b"\n") >= len(STEPS), done)
    done = subprocess.run([sys.executable, "-S", held.OTM, "run", "-"], input=b"sweep\n", capture_output=True,
                          env=dict(held.ENVIRONMENT, OTM_SERVICE=daemon.socket))
    hold("otm run wants a program, and says so", done.returncode == 2 and b"a program is needed" in done.stderr, done)


@test
def any_stream_at_once():
    """A recorded stream, malformed calls and all, over the socket: the same lines as from the service."""
    sys.path.insert(0, str(held.ROOT / "bench"))
    import streams

    data = streams.hostile(3000)
    daemon = Forked(options=["--sync", "never"])
    daemon.up()
    s = daemon.raw()
    got, sent, stream = b"", 0, b"".join(data)
    s.setblocking(False)
    began = time.monotonic()
    while got.count(b"\n") < len(data) and time.monotonic() - began < 30:
        try:
            if sent < len(stream):
                sent += s.send(stream[sent : sent + 20000])
        except BlockingIOError:
            pass
        try:
            got += s.recv(65536)
        except BlockingIOError:
            time.sleep(0.0005)
    hold("3,000 messages in one stream get the service's lines", got.decode().splitlines() == plain(data), len(got))
    asked = [m for m in data if m[3:4] not in (b"\x08", b"\x09")]
    hold("and all but questions are in the journal", [m for m, _ in daemon.messages()] == asked)
    s.close()
