"""The Python client: over pipe and socket, broken off anywhere, in time, by type, and in a group of its own."""

import os
import random
import signal
import subprocess
import sys
import threading
import time

import held
from held import Call, Coordinator, Forked, Refused, ServiceEnded, TimedOut, hold, test, wait_for


def ways():
    """A client on a pipe, and one on a socket with the process that must be stopped to make it wait."""
    c = Coordinator(held.SERVICE, timeout=20)
    yield "pipe", c, c._link.process.pid
    c.close()
    daemon = Forked()
    daemon.up()
    c = daemon.client()
    yield "socket", c, daemon.service()
    c.close()
    daemon.kill()


class Rang(Exception):
    pass


def ring(*_):
    raise Rang


# Calls whose answers do not depend on what was done before, each another.
CALLS = [
    ("sweep", lambda c: c.sweep(), 0),
    ("order", lambda c: c.order(), []),
    ("propose", lambda c: c.propose([7]), False),
    ("abort", lambda c: c.abort(0), 2),
    ("begin", lambda c: c.begin([]), 3),
    ("open", lambda c: c.open(1, [0]), 4),
]


def given(call, c):
    try:
        return call(c)
    except Refused as e:
        return e.number


@test
def broken_off():
    """A signal whose handler raises, at any moment of a call: the next call gets its own answer."""
    before = signal.signal(signal.SIGALRM, ring)
    try:
        for way, c, process in ways():
            c.open(1, [0])
            os.kill(process, signal.SIGSTOP)
            for name, call, _ in CALLS:
                signal.setitimer(signal.ITIMER_REAL, 0.005)
                try:
                    given(call, c)
                    hold(f"{way}: {name} is broken off", False)
                except Rang:
                    pass
                os.kill(process, signal.SIGCONT)
                for other, again, due in CALLS:
                    got = given(again, c)
                    hold(f"{way}: after {name} was broken off, {other} gets its own answer", got == due, got)
                os.kill(process, signal.SIGSTOP)
            os.kill(process, signal.SIGCONT)
    finally:
        signal.signal(signal.SIGALRM, before)


def attempt(call, c, seconds):
    """A call with a signal behind it, and how it ended."""
    try:
        try:
            signal.setitimer(signal.ITIMER_REAL, seconds)
            return "answer", given(call, c)
        except ServiceEnded as e:
            return "ended", str(e)
        finally:
            signal.setitimer(signal.ITIMER_REAL, 0)
    except Rang:
        return "rang", None


@test
def broken_off_at_random():
    before = signal.signal(signal.SIGALRM, ring)
    dice = random.Random(5)
    try:
        for way, c, _ in ways():
            c.open(1, [0])
            rang = broken = wrong = 0
            for _ in range(8000 if held.FULL else 1500):
                name, call, due = dice.choice(CALLS)
                how, got = attempt(call, c, dice.choice([1e-6, dice.random() * 2e-4, dice.random() * 1e-3]))
                rang += how == "rang"
                wrong += how == "answer" and got != due
                if how == "ended":
                    # On a pipe it may mark itself broken, if it is broken off while it gets into step; it says so, and gives no wrong answer.
                    wrong += way == "socket" or "is broken" not in got
                    broken += 1
                    c.close()
                    c = Coordinator(held.SERVICE, timeout=20)
                    c.open(1, [0])
            hold(f"{way}: broken off {rang} times at random, no call gets another's answer", wrong == 0 and rang > 100, (wrong, rang, broken))
            c.close()
    finally:
        signal.setitimer(signal.ITIMER_REAL, 0)
        signal.signal(signal.SIGALRM, before)


@test
def in_time():
    for way, c, process in ways():
        c.open(1, [0])
        c._timeout = 0.1
        os.kill(process, signal.SIGSTOP)
        for again in ("", " again"):
            began = time.monotonic()
            try:
                c.begin([0])
                hold(f"{way}: a call that takes too long raises{again}", False)
            except TimedOut as e:
                hold(f"{way}: a call that takes too long raises{again}", isinstance(e, TimeoutError) and 0.05 < time.monotonic() - began < 10)
        os.kill(process, signal.SIGCONT)
        c._timeout = 20
        hold(f"{way}: then the next call gets its own answer", c.order() == [] and c.sweep() == 0)
        number = c.begin([0])
        hold(f"{way}: what was begun behind its back has used a number", number in (2, 3), number)


@test
def types():
    daemon = Forked()
    daemon.up()
    with daemon.client() as c:
        c.open(1, [0, 0])
        for wrong in (1.0, "1", None, True, False, b"1", [1], 1j, float("nan")):
            for what, call in [
                ("a number", lambda: c.abort(wrong)),
                ("a ticket", lambda: c.ticket(1, 0, wrong)),
                ("a site", lambda: c.prepared(1, wrong)),
                ("a listed site", lambda: c.begin([wrong])),
                ("a first number", lambda: c.open(wrong, [0])),
                ("a floor", lambda: c.open(1, [0, wrong])),
                ("a number of a proposal", lambda: c.propose([1, wrong])),
            ]:
                try:
                    call()
                    hold(f"{wrong!r} as {what} is not sent", False)
                except ValueError:
                    hold(f"{wrong!r} as {what} is not sent", True)
                except Exception as e:
                    hold(f"{wrong!r} as {what} raises ValueError", False, repr(e))
        for wrong in (None, 3, 1.5, True, "01", {0: 1}.values):
            try:
                c.begin(wrong)
                hold(f"begin({wrong!r}) is not sent", False)
            except ValueError:
                hold(f"begin({wrong!r}) is not sent", True)
        for sites in ([0, 0], [1, 0, 1], (0, 0)):
            try:
                c.begin(sites)
                hold(f"begin({sites}) is refused, as otm does", False)
            except ValueError as e:
                hold(f"begin({sites}) is refused, as otm does", "listed twice" in str(e))
        hold("nothing of it was sent", len(daemon.messages()) == 1)
        hold("sites in any sequence, and from anything that gives them", (c.begin([1, 0]), c.begin({0, 1}), c.begin(iter([1]))) == (1, 2, 3))


PLANNER = """
import signal, sys, time
signal.signal(signal.SIGINT, signal.default_int_handler)  # whoever runs the tests in the background may have it ignored
sys.path.insert(0, sys.argv[1])
from delphrimock import Coordinator
c = Coordinator(sys.argv[2])
c.open(1, [0])
print(c.begin([0]), flush=True)
try:
    time.sleep(20)
except KeyboardInterrupt:
    print("interrupted", c.begin([0]), flush=True)
    print(c.close())
"""


@test
def ctrl_c():
    """A Ctrl-C in the planner goes to its whole group; the table must survive it."""
    child = subprocess.Popen([sys.executable, "-c", PLANNER, str(held.ROOT / "clients" / "python"), held.SERVICE], stdout=subprocess.PIPE, text=True,
                             start_new_session=True)
    child.stdout.readline()
    time.sleep(0.1)
    os.killpg(child.pid, signal.SIGINT)
    out, _ = child.communicate(timeout=20)
    hold("Ctrl-C in the planner leaves its table alone", out == "interrupted 2\n0\n", out)
    child = subprocess.Popen([sys.executable, "-c", PLANNER, str(held.ROOT / "clients" / "python"), held.SERVICE], stdout=subprocess.PIPE, text=True,
                             start_new_session=True)
    child.stdout.readline()
    ours = [int(p) for p in os.listdir("/proc") if p.isdigit() and parent(p) == child.pid]
    child.kill()
    child.communicate()
    hold("a planner that is killed leaves no service behind", len(ours) == 1 and wait_for(lambda: not os.path.exists(f"/proc/{ours[0]}"), 5), ours)


def parent(pid):
    try:
        with open(f"/proc/{pid}/stat") as f:
            return int(f.read().rsplit(")", 1)[1].split()[1])
    except OSError:
        return 0


@test
def connections_that_end():
    daemon = Forked()
    daemon.up()
    c = daemon.client()
    c.open(1, [0])
    hold("an 11 is the last line of a connection, and the next call makes another", c.send(b"\x02") == "refused 11" and c.begin([0]) == 1)
    daemon.kill()
    for again in ("", ", again"):
        try:
            c.order()
            hold("a daemon that is gone is told" + again, False)
        except ServiceEnded:
            hold("a daemon that is gone is told" + again, True)
    daemon = Forked(where=daemon.folder)
    daemon.up()
    hold("when it is back, the same client goes on", c.begin([0]) == 2)
    hold("finish ends the input, and gives the lines that are left", c.finish(Call("sweep").message() + b"\x01") == ["swept 0", "refused 11"])
    try:
        c.order()
        hold("and then it is over", False)
    except ServiceEnded:
        hold("and then it is over", True)
    c.close()
    with daemon.client() as c:
        numbers, lock = [], threading.Lock()

        def work():
            for _ in range(5):
                n = c.begin([0])
                c.abort(n)
                with lock:
                    numbers.append(n)

        threads = [threading.Thread(target=work) for _ in range(6)]
        for t in threads:
            t.start()
        for t in threads:
            t.join()
        hold("threads share a connection", sorted(numbers) == list(range(3, 33)), sorted(numbers))
    for address in (str(held.FOLDER / "none"), ("127.0.0.1", 1)):
        try:
            Coordinator(address, timeout=5)
            hold(f"nobody at {address}", False)
        except (ServiceEnded, FileNotFoundError):
            hold("an address where nobody is raises", True)
