"""A full disk: what cannot be journalled is not done and not answered; everything else goes on, and goes on again when there is room."""

import os
import resource
import shutil
import signal
import subprocess
import sys

import held
from held import Forked, ServiceEnded, folder, hold, left_out, otm, plain, say, test, wait_for


def asked(daemon, message):
    """The answer to a message, None if there is none."""
    try:
        with daemon.client() as c:
            return c.send(message)
    except ServiceEnded:
        return None


@test
def no_room_at_every_byte():
    """The file may grow by so many bytes and no more, for every place in the records of a begin and its answer."""
    daemon = Forked()
    daemon.up()
    hold("there is room for an opening", asked(daemon, say("open 1 floors 0")) == "ok")
    told, silent, questions, whole = [], 0, True, True
    for room in range(0, 400, 6):
        limit = os.path.getsize(daemon.journal) + room
        resource.prlimit(daemon.pid, resource.RLIMIT_FSIZE, (limit, resource.RLIM_INFINITY))
        line = asked(daemon, say("begin 0"))
        questions = questions and asked(daemon, say("order")) == "order"
        with open(daemon.journal, "rb") as f:
            whole = whole and f.read().endswith(b"\n")
        resource.prlimit(daemon.pid, resource.RLIMIT_FSIZE, (resource.RLIM_INFINITY, resource.RLIM_INFINITY))
        if line is None:
            silent += 1
        else:
            told.append(line)
            asked(daemon, say(f"abort {line[6:]}"))
    hold("where there is no room nobody is answered", silent > 10 and "cannot be written: File too large" in daemon.said(), (silent, daemon.said()[-300:]))
    hold("questions are, all along", questions)
    hold("and nothing torn is left in the journal", whole)
    hold("no number is told twice", len(set(told)) == len(told) > 5, told)
    wait_for(lambda: otm("journal", "outcomes", daemon.journal).out.count("active") == 0, 5)
    outcomes = otm("journal", "outcomes", daemon.journal).out
    hold("what was begun and told to nobody is aborted when there is room", "active" not in outcomes, outcomes)
    pairs = daemon.messages()
    hold("a plain replay agrees", plain(m for m, _ in pairs) == [line for _, line in pairs])
    daemon.kill()
    again = Forked(where=daemon.folder)
    again.up()
    number = int(asked(again, say("begin 0"))[6:])
    hold("and after a crash numbers go on", number > max(int(line[6:]) for line in told))


@test
def a_disk_that_is_full():
    """The same on a file system of 64 KB, where one can be mounted."""
    where = folder()
    (where / "small").mkdir()
    words = ["unshare", "--user", "--map-root-user", "--mount"] if os.getuid() else ["unshare", "--mount"]
    script = 'mount -t tmpfs -o size=64k none "$1" || exit 99; shift; exec "$@"'
    if not shutil.which("unshare") or subprocess.run([*words, "sh", "-c", script, "-", where / "small", "true"], capture_output=True).returncode:
        left_out.append("a file system that is full: none can be mounted here (unshare --user --mount)")
        return
    daemon = held.Running(where, where / "small" / "j")
    with open(daemon.log, "ab") as log:
        process = subprocess.Popen([*words, "sh", "-c", script, "-", where / "small", sys.executable, "-S", held.OTM, "serve", "--socket", daemon.socket,
                                    "--journal", daemon.journal], stderr=log, stdin=subprocess.DEVNULL, start_new_session=True, env=held.ENVIRONMENT)
    daemon.kill = lambda: (process.kill(), process.wait())
    daemon.ended = lambda: process.poll() is not None
    daemon.up()
    asked(daemon, say("open 1 floors 0"))
    told = []
    while (line := asked(daemon, say("begin 0"))) and len(told) < 5000:
        told.append(line)
        if asked(daemon, say(f"abort {line[6:]}")) is None:
            break
    hold("in the end the disk is full, and nobody is answered", "No space left on device" in daemon.said() and len(told) > 100, (len(told), daemon.said()[-300:]))
    hold("questions still are", asked(daemon, say("order")) == "order")
    process.send_signal(signal.SIGTERM)
    process.wait(20)
    hold("it ends with status 0 on a full disk", process.returncode == 0, daemon.said()[-300:])
    hold("no number is told twice", len(set(told)) == len(told))


@test
def a_disk_that_fails():
    """A force that fails: the daemon stops, and answers nothing; another reads what the disk has."""

    def failing():
        fdatasync, calls = os.fdatasync, []

        def force(fd):
            calls.append(fd)
            if len(calls) > 3:
                raise OSError(5, "Input/output error")
            fdatasync(fd)

        os.fdatasync = force

    daemon = Forked(failing)
    daemon.up()
    asked(daemon, say("open 1 floors 0"))
    hold("a begin that is forced is answered", asked(daemon, say("begin 0")) == "begin 1")
    hold("one that could not be forced is not", asked(daemon, say("begin 0")) is None)
    hold("and the daemon stops with status 1", daemon.wait() == 1 and "could not be forced to the disk" in daemon.said(), daemon.said())
    again = Forked(where=daemon.folder)
    again.up()
    hold("the number is not given again", asked(again, say("begin 0")) == "begin 3")
