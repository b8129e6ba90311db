"""otm journal: show, check, outcomes, and compaction with its refusals."""

import os
import shutil
import threading

import held
from held import STEPS, Forked, folder, hold, messages, otm, plain, say, test
import otm_compact
import otm_file
from otm_compact import Refuses, known, opening_after
from otm_file import FileJournal
from otm_outcomes import Outcomes


def journal(script):
    """A journal of these calls, written by a daemon."""
    daemon = Forked()
    daemon.up()
    with daemon.client() as c:
        lines = [c.send(say(t)) for t in script]
    daemon.end()
    return daemon.journal, lines


STORY = [s.text for s in STEPS]


@test
def shown():
    path, _ = journal([*STORY, "bytes 01 00 02 07 00", "begin 0"])
    done = otm("journal", "show", path)
    lines = [line for line in done.out.splitlines() if not line.startswith("#")]
    expected = [f"{s.text} -> {s.expected}" for s in STEPS if not s.text.startswith(("order", "propose"))]
    hold("a journal is shown as a script with its answers", lines[:-2] == expected and lines[-1] == "begin 0 -> begin 5", done)
    hold("a malformed one as bytes", lines[-2].startswith("bytes 01 00 02 07 00 -> refused 10  # its kind is 7"), done)
    hold("with times and starts as comments", done.out.count("# start 20") == 1 and done.out.count("# time 20") >= 1, done)
    played = otm("run", "-", given=done.stdout)
    hold("which can be played", played.returncode == 0 and f"All {len(lines)} expected answers came." in played.out, played)
    done = otm("journal", "check", path)
    hold("check says what there is", done.returncode == 0 and "23 messages, and a replay gives the answers" in done.out and "Active: 5. Kept: none." in done.out
         and "Last number begun: 5. Highest committed tickets: 1 3." in done.out, done)
    done = otm("journal", "outcomes", path)
    hold("outcomes, a line for each", done.out.startswith("1 commit\n2 cycle\n3 abort\n4 commit\n5 active at 0 since 20") and done.out.count("\n") == 5, done)
    hold("outcomes of some", otm("journal", "outcomes", path, 4, 9, 0).out == "4 commit\n9 unknown\n0 unknown\n")
    with open(path, "ab") as f:
        f.write(b"77 in 0100")
    before = os.path.getsize(path)
    hold("all of it while another is writing", otm("journal", "show", path).out.count("\n") == otm("journal", "show", path).out.count("\n")
         and otm("journal", "check", path).returncode == 0 and os.path.getsize(path) == before)


@test
def not_answered_yet():
    """A journal of a daemon that was killed between a decide's record and its answer."""
    path, _ = journal(STORY[:13])
    j = FileJournal(path)
    j.append([f"in {say('decide 1').hex()}", f"in {say('decide 2').hex()}", f"in {say('begin 0').hex()}"], True)
    j.close()
    hold("outcomes asks the service", otm("journal", "outcomes", path, 1, 2, 4).out.startswith("1 commit\n2 cycle\n4 active at 0 since"), otm("journal", "outcomes", path))
    done = otm("journal", "check", path)
    hold("check says how many", "3 of them have no recorded answer" in done.out and "Active: 4. Kept: 1." in done.out, done)
    hold("show says so", otm("journal", "show", path).out.count("# not answered yet") == 3)
    done = otm("journal", "compact", path)
    hold("and it is not compacted", done.returncode == 2 and "has no answer yet" in done.err, done)
    daemon = Forked(journal=path)
    daemon.up()
    hold("who takes it up records the answers, and aborts what nobody was told of", [line for _, line in daemon.messages()][-4:] == ["commit 1", "cycle 2", "begin 4", "ok"],
         daemon.messages())


@test
def while_a_daemon_works():
    """All but compact read a journal that is being written; and a copy of it, taken at any moment, is a journal."""
    daemon = Forked()
    daemon.up()
    going = True

    def work():
        with daemon.client() as c:
            c.send(say("open 1 floors 0"))
            while going:
                c.abort(c.begin([0]))

    worker = threading.Thread(target=work)
    worker.start()
    try:
        for _ in range(3):
            done = [otm("journal", command, daemon.journal) for command in ("check", "outcomes", "show")]
            hold("check, outcomes and show while a daemon works", all(d.returncode == 0 and not d.err for d in done), done[0])
            copy = str(folder() / "copy")
            shutil.copy(daemon.journal, copy)
            FileJournal(copy).close()
            pairs = messages(copy)
            hold("a copy is a journal", len(pairs) > 0 and [line for _, line in pairs if line] == plain(m for m, _ in pairs)[: sum(1 for _, line in pairs if line)])
    finally:
        going = False
        worker.join()


@test
def outcomes_are_safe():
    """What a station is told it acts on, so it must be on the disk by then, also where the daemon has not forced it yet."""
    import contextlib
    import io

    import otm_keeping

    path, _ = journal(STORY)
    fsync, seen, told = os.fsync, [], io.StringIO()
    os.fsync = lambda fd: seen.append((os.fstat(fd).st_ino, told.getvalue())) or fsync(fd)
    try:
        with contextlib.redirect_stdout(told):
            otm_keeping.keep(["outcomes", path])
    finally:
        os.fsync = fsync
    hold("outcomes forces the journal before it tells", seen == [(os.stat(path).st_ino, "")] and told.getvalue().startswith("1 commit\n"), seen)


LATER = ["begin 0,1", "ticket 5 site 0 = 1", "ticket 5 site 0 = 2", "ticket 5 site 1 = 3", "ticket 5 site 1 = 4", "prepared 5 site 0", "begin 1",
         "prepared 5 site 1", "decide 5", "order", "propose 5", "forget 5", "abort 6", "forget 5", "sweep", "decide 4", "forget 1", "abort 2", "begin 0"]


@test
def compacted():
    path, _ = journal(STORY)
    long = os.path.getsize(path)
    daemon = Forked(journal=path)
    daemon.up()
    done = otm("journal", "compact", path)
    hold("not while a daemon has it", done.returncode == 2 and "Another process has the journal" in done.err, done)
    daemon.end()
    before = plain([*(m for m, _ in messages(path)), *map(say, LATER)])[-len(LATER) :]
    done = otm("journal", "compact", path)
    hold("it is compacted", done.returncode == 0 and os.path.getsize(path) < long / 3, done)
    hold("to an opening behind the last number, with the highest committed tickets as floors", [m for m, _ in messages(path)] == [say("open 5 floors 1 3")])
    hold("what it was stays beside it", os.path.getsize(path + ".old") >= long and os.stat(path).st_mode & 0o777 == 0o600)
    hold("every later call is answered as before", plain([*(m for m, _ in messages(path)), *map(say, LATER)])[1:] == before)
    hold("outcomes are still known", otm("journal", "outcomes", path).out == "1 commit\n2 abort\n3 abort\n4 commit\n")
    daemon = Forked(journal=path)
    daemon.up()
    with daemon.client() as c:
        hold("a daemon goes on with it", [c.send(say(t)) for t in LATER] == before)
        c.abort(7)
    daemon.end()
    hold("outcomes, old and new", otm("journal", "outcomes", path).out == "1 commit\n2 abort\n3 abort\n4 commit\n5 commit\n6 abort\n7 abort\n")
    hold("again", otm("journal", "compact", path).returncode == 0 and [m for m, _ in messages(path)] == [say("open 8 floors 2 4")])
    hold("with all outcomes", otm("journal", "outcomes", path).out == "1 commit\n2 abort\n3 abort\n4 commit\n5 commit\n6 abort\n7 abort\n")
    done = otm("journal", "compact", path, "--carried-out")
    hold("or without, if all was carried out", done.returncode == 0 and otm("journal", "outcomes", path).out == ""
         and otm("journal", "outcomes", path, 5, 8).out == "5 old\n8 unknown\n", done)
    hold("a check agrees", otm("journal", "check", path).returncode == 0)


@test
def compaction_refused():
    for script, words in [
        ([], "never opened"),
        (["sweep", "open 0 floors 0"], "never opened"),
        (["open 1 floors 0", "begin 0", "begin 0", "abort 1"], "These are active: 2."),
        (["open 4294967295 floors 0", "begin 0", "abort 4294967295"], "no table can go on"),
    ]:
        path, _ = journal(script)
        before = open(path, "rb").read()
        done = otm("journal", "compact", path)
        hold(f"compaction of {script} is refused: {words}", done.returncode == 2 and words in done.err and open(path, "rb").read() == before, done)
        hold("and nothing is left", sorted(os.listdir(os.path.dirname(path))) == ["j", "log"], os.listdir(os.path.dirname(path)))
    path, _ = journal(["open 4294967294 floors 4294967295 7", "begin 0", "abort 4294967294"])
    hold("with one number left it is not", otm("journal", "compact", path).returncode == 0 and messages(path)[0][0] == say("open 4294967295 floors 4294967295 7"))
    path, _ = journal(["open 3 floors 4 5"])
    hold("an opening alone stays as it is", otm("journal", "compact", path).returncode == 0 and [m for m, _ in messages(path)] == [say("open 3 floors 4 5")])
    done = otm("journal", "compact", folder() / "none")
    hold("a journal that is not there", done.returncode == 2 and "cannot be opened" in done.err, done)
    for words in (["journal"], ["journal", "mend", "x"], ["journal", "show"], ["journal", "show", "x", "y"], ["journal", "check", "x", "--carried-out"],
                  ["journal", "outcomes", path, "one"], ["journal", "show", folder() / "none"]):
        done = otm(*words)
        hold(f"otm {' '.join(map(str, words[:3]))} is told what is wrong", done.returncode == 2 and done.err and "Traceback" not in done.err, done)


@test
def a_wrong_compaction_is_noticed():
    """Tables that are made wrongly are found out before anything is replaced."""
    path, _ = journal(STORY)
    right = otm_compact.opening_after
    for what, wrong in [
        ("floors too low", lambda o: [say("open 5 floors 1 2")]),
        ("floors too high", lambda o: [say("open 5 floors 2 3")]),
        ("a number given again", lambda o: [say("open 4 floors 1 3")]),
        ("a number left out", lambda o: [say("open 6 floors 1 3")]),
        ("a site lost", lambda o: [say("open 5 floors 1")]),
        ("no opening", lambda o: [say("open 5 floors none")]),
    ]:
        otm_compact.opening_after = wrong
        j = FileJournal(path)
        try:
            otm_compact.compacted(j, held.SERVICE, False)
            hold(f"{what} is noticed", False)
        except Refuses as e:
            hold(f"{what} is noticed", "the journal stays as it is" in str(e), e)
        finally:
            otm_compact.opening_after = right
            j.close()


@test
def compaction_killed():
    """Killed at any point, compaction leaves the old journal or the new one."""
    for point, done in [("append", False), ("link", False), ("replace", False), ("sync", True)]:
        path, _ = journal(STORY)
        before = [m for m, _ in messages(path)]
        child = os.fork()
        if child == 0:
            def die(*_, **__):
                os.kill(os.getpid(), 9)

            j = FileJournal(path)
            texts = otm_compact.compacted(j, held.SERVICE, False)
            if point == "append":
                otm_file.FileJournal.append = die
            elif point == "sync":
                otm_file.sync_folder = lambda name: die() if name == path else None
            else:
                setattr(os, point, die)
            j.replace(texts)
            os._exit(1)
        _, status = os.waitpid(child, 0)
        after = [m for m, _ in messages(path)]
        hold(f"compaction killed at {point} leaves the {'new' if done else 'old'} journal", os.WIFSIGNALED(status)
             and after == ([say("open 5 floors 1 3")] if done else before), after)
        hold(f"and another one, after {point}, does it", otm("journal", "compact", path).returncode == 0 and [m for m, _ in messages(path)] == [say("open 5 floors 1 3")])


@test
def other_tables():
    """Kinds of tables and messages that come later: their opening keeps its kind, and a clock keeps its tick."""
    o = Outcomes()
    clock = bytes.fromhex("0100050e00000063")
    for message, line in [(b"\x01\x00\x09\x0a\0\0\0\x07\0\0\0\x02", "ok"), (say("begin 0"), "begin 7"), (say("ticket 7 site 0 = 9"), "ok"),
                          (clock, "late 0"), (say("decide 7"), "commit 7"), (say("begin 0"), "begin 8"), (say("decide 8"), "same 8")]:
        o.take(message, line)
    hold("an opening of another kind, with the last tick", opening_after(o) == [bytes.fromhex("0100090a 00000009 00000009"), clock], opening_after(o))
    hold("'same' is an abort", o.fate(8) == "abort" and o.fate(6) == "old" and o.active() == [])
    hold("numbers told to commit are written down", known(o) == ["committed 7 8 7"], known(o))
    o = Outcomes()
    o.read([(1, f"committed {1} {1000} " + " ".join(str(n) for n in range(1, 1001, 2)))])
    o.last = 1000
    again = Outcomes()
    again.read(enumerate(known(o), 1))
    hold("in as many records as are needed", again.fates == o.fates and len(known(o)) == 6 and again.known_from == 1, known(o))
