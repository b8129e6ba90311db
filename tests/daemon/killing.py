"""kill -9, of the service and of the daemon, before, during and after each kind of message. Whoever asks again gets the answers that
would have come if nothing had been; what was answered is never lost, and what was not answered is done once or not at all."""

import os
import signal
import threading
import time

import held
from held import STEPS, Call, Daemon, Forked, ServiceEnded, folder, hold, otm, plain, read_body, test, wait_for

EXPECTED = [s.expected for s in STEPS]


# ---- the service


@test
def service_killed_before_and_after_each():
    daemon = Forked()
    daemon.up()
    lines = []
    with daemon.client() as c:
        for step in STEPS:
            os.kill(daemon.service(), signal.SIGKILL)
            lines.append(c.send(step.message))
    hold("killed before each message, the service is replaced, and no answer changes", lines == EXPECTED, lines)
    hold("once for each", daemon.said().count("is ready") == len(STEPS) + 1, daemon.said())
    hold("and a plain replay agrees", plain(m for m, _ in daemon.messages()) == [line for _, line in daemon.messages()])


@test
def service_killed_during_each():
    daemon = Forked()
    daemon.up()
    lines = []
    with daemon.client() as c:
        for step in STEPS:
            service, size = daemon.service(), os.path.getsize(daemon.journal)
            os.kill(service, signal.SIGSTOP)  # so that it has the message, and cannot answer
            asking = threading.Thread(target=lambda m=step.message: lines.append(c.send(m)))
            asking.start()
            if step.text.startswith(("order", "propose")):
                time.sleep(0.01)
            else:
                wait_for(lambda: os.path.getsize(daemon.journal) > size)
            os.kill(service, signal.SIGKILL)
            asking.join(20)
    hold("killed with each message in its hands, too", lines == EXPECTED, lines)


HALF = """#!{python} -S
# Hands everything on to the service, and dies with half of an answer out: at its first message, at its third, and so on.
import os, subprocess
count = int(open({tally!r}).read())
service = subprocess.Popen([{service!r}], stdin=subprocess.PIPE, stdout=subprocess.PIPE, bufsize=0)
seen = 0
while data := os.read(0, 65536):
    while data:
        end = 3 + int.from_bytes(data[1:3], "big")
        service.stdin.write(data[:end])
        data, line, seen = data[end:], b"", seen + 1
        while not line.endswith(b"\\n"):
            line += os.read(service.stdout.fileno(), 1)
        if seen == count:
            open({tally!r}, "w").write(str(count + 2))
            os.write(1, line[: len(line) // 2])
            service.kill()
            os._exit(1)
        os.write(1, line)
"""


@test
def service_dies_with_half_an_answer():
    where = folder()
    tally, program = where / "tally", where / "half"
    tally.write_text("1")
    program.write_text(HALF.format(python=held.sys.executable, tally=str(tally), service=held.SERVICE))
    program.chmod(0o755)
    daemon = Forked(where=where, program=str(program))
    daemon.up()
    with daemon.client() as c:
        lines = [c.send(s.message) for s in STEPS]
    hold("a service that dies with half of an answer out", lines == EXPECTED, lines)
    hold("many times", daemon.said().count("starting another") >= 8, daemon.said())


@test
def service_that_always_dies():
    where = folder()
    program = where / "dies"
    program.write_text(f"#!/bin/sh\nhead -c 16 | {held.SERVICE}\n")
    program.chmod(0o755)
    daemon = Forked(where=where, program=str(program))
    daemon.up()
    with daemon.client() as c:
        hold("the first message is answered", c.send(STEPS[0].message) == "ok")
        try:
            c.send(STEPS[1].message)
            hold("a message that no service survives is not answered", False)
        except ServiceEnded:
            hold("a message that no service survives is not answered", True)
    hold("and the daemon stops, after three", daemon.wait() == 1 and "died 3 times over the same messages" in daemon.said(), daemon.said())
    again = Forked(where=where)
    again.up()
    with again.client() as c:
        hold("with a good service the journal goes on", c.send(STEPS[2].message) == "begin 2")


@test
def service_that_hangs():
    """A stopped service is taken for dead after a while."""

    def hasty():
        import otm_service

        otm_service.PATIENCE = 0.3

    daemon = Forked(hasty)
    daemon.up()
    with daemon.client() as c:
        c.send(STEPS[0].message)
        service = daemon.service()
        os.kill(service, signal.SIGSTOP)
        hold("a service that hangs is replaced", c.send(STEPS[1].message) == "begin 1" and "gave no answer" in daemon.said(), daemon.said())


# ---- the daemon

# Where it dies, and whether the message that gets no answer is done then. Behind the sending that is the next message.
POINTS = {
    "before the journal": False,
    "with half of the record written": False,
    "with the record written": True,
    "with the service's answer": True,
    "with the answer recorded": True,
    "with the answer sent": False,
}
QUESTIONS = ("before the journal", "with the service's answer", "with the answer sent")


def dying(point, name):
    """Changes a daemon so that it dies at its first message of this kind, at this point."""

    def change():
        import otm_file
        import otm_serve
        import otm_table

        def die():
            os.kill(os.getpid(), signal.SIGKILL)

        answer, send, store, ask = otm_table.Table.answer, otm_serve.Connection.send, otm_file.FileJournal._store, otm_table.Service.ask
        now = []

        def answering(self, messages):
            now[:] = [m for m in messages if read_body(m[3:]) and read_body(m[3:]).name == name]
            if now and point == "before the journal":
                die()
            lines = answer(self, messages)
            if now and point == "with the answer recorded":
                die()
            return lines

        def storing(self, texts, force):
            mine = now and any(t.startswith("in ") for t in texts)
            if mine and point == "with half of the record written":
                pwrite = os.pwrite
                os.pwrite = lambda fd, data, at: (pwrite(fd, data[: len(data) - 9], at), die())
            store(self, texts, force)
            if mine and point == "with the record written":
                die()

        def asking(self, messages):
            lines = ask(self, messages)
            if now and point == "with the service's answer":
                die()
            return lines

        def sending(self):
            send(self)
            if now and point == "with the answer sent":
                die()

        otm_table.Table.answer, otm_serve.Connection.send = answering, sending
        otm_file.FileJournal._store, otm_table.Service.ask = storing, asking

    return change


@test
def daemon_killed_at_each_point_of_each_kind():
    for name in ("open", "begin", "ticket", "prepared", "abort", "decide", "forget", "sweep", "propose", "order"):
        asks = name in ("propose", "order")
        for point in QUESTIONS if asks else POINTS:
            where = folder()
            daemon = Forked(dying(point, name), where=where)
            daemon.up()
            at, died, lines, client, shift = 0, False, [], daemon.client(), 0
            while at < len(STEPS):
                step = STEPS[at]
                try:
                    lines.append(client.send(moved(step, shift)))
                    at += 1
                    continue
                except ServiceEnded:
                    died = True
                client.close()
                daemon.wait()
                before = daemon.messages()
                done = len(before) > sum(map(changes, STEPS[:at]))
                hold(f"killed {point} of {name}, what is not answered is {'done' if POINTS[point] else 'not done'}", done == (POINTS[point] and not asks), before)
                daemon = Forked(where=where)
                daemon.up()
                client = daemon.client()
                if done and name == "begin" and point != "with the answer recorded":
                    # nobody was told the number: it is aborted, and the begin is made anew
                    hold(f"killed {point} of begin, what nobody was told of is aborted", otm("journal", "outcomes", daemon.journal, 1).out == "1 abort\n")
                    shift = 1
                elif done:
                    lines.append(daemon.messages()[len(before) - 1][1])
                    at += 1
            client.close()
            hold(f"killed {point} of {name}, the daemon died", died or daemon.ended(), lines)
            wanted = [moved_line(s.expected, shift) for s in STEPS]
            hold(f"killed {point} of {name}, the answers are those of a run without death", lines == wanted, [p for p in zip(lines, wanted) if p[0] != p[1]])
            pairs = daemon.messages()
            hold(f"killed {point} of {name}, a plain replay agrees", plain(m for m, _ in pairs) == [line for _, line in pairs], pairs)
            daemon.kill()


def changes(step):
    return not step.text.startswith(("order", "propose"))


def moved(step, shift):
    """The step's message, where numbers are higher by `shift`."""
    call = read_body(step.message[3:])
    if call.name == "open" or not shift:
        return step.message
    numbers = tuple(n + shift for n in call.numbers)
    return Call(call.name, call.number + shift if call.number else 0, call.site, call.ticket, call.sites, numbers).message()


def moved_line(line, shift):
    word, *numbers = line.split()
    return " ".join([word, *(str(int(n) + shift) for n in numbers)]) if word in ("begin", "commit", "cycle", "order") else line


@test
def daemon_killed_as_a_command():
    """The same with the command itself, killed again and again while clients ask."""
    where, told = folder(), []
    for _ in range(4):
        daemon = Daemon(where=where)
        if not daemon.up():
            hold("a daemon starts where another was killed", False, daemon.said())
            return
        stop = time.monotonic() + 0.25

        def work():
            try:
                with daemon.client() as c:
                    while True:
                        line = c.send(held.say("begin 0"))
                        if line.startswith("begin"):
                            told.append(int(line[6:]))
                            c.send(held.say(f"abort {line[6:]}"))
                        else:
                            c.send(held.say("open 1 floors 0"))
            except ServiceEnded:
                pass

        workers = [threading.Thread(target=work) for _ in range(3)]
        for w in workers:
            w.start()
        time.sleep(max(0, stop - time.monotonic()))
        daemon.process.kill()
        daemon.wait()
        for w in workers:
            w.join()
    hold("no number is told twice, over four daemons that were killed", len(set(told)) == len(told) > 100, len(told))
    daemon = Daemon(where=where)
    daemon.up()
    with daemon.client() as c:
        last = c.begin([0])
    hold("numbers go on behind the last", last > max(told), (last, max(told)))
    hold("SIGTERM ends it with status 0, and takes its socket away", daemon.end() == 0 and not os.path.exists(daemon.socket))
    checked = otm("journal", "check", daemon.journal)
    hold("a replay of the journal gives all its answers", checked.returncode == 0 and "gives the answers that are recorded" in checked.out, checked)
