"""A machine that loses its power. The daemon's own writes, forces and answers are written down as they happen; then, for many moments, the
file is made as a disk might have left it: what was forced is there, and of what was written behind it any sectors, in any sequence, with
zeros or old bytes of another journal in the place of the others. What had been told by then must be in the journal that is read from it.

What this does not show is whether the disk keeps what it confirmed as forced; no program can."""

import os
import random
import struct
import threading
from collections import Counter

import held
from held import FOLDER, Forked, folder, hold, messages, plain, say, test
from otm_file import FileJournal
from otm_journal import Damaged

SECTOR = 512


def noting(path):
    """Changes a daemon so that it writes down, in one sequence, what it writes, forces and sends."""

    def change():
        import otm_serve

        trace = os.open(path, os.O_WRONLY | os.O_CREAT | os.O_APPEND)
        pwrite, fdatasync, ftruncate, send = os.pwrite, os.fdatasync, os.ftruncate, otm_serve.Connection.send

        def note(word, at, data):
            os.write(trace, struct.pack(">cQI", word, at, len(data)) + data)

        def writing(fd, data, at):
            done = pwrite(fd, data, at)
            note(b"w", at, data[:done])
            return done

        def forcing(fd):
            fdatasync(fd)
            note(b"f", 0, b"")

        def cutting(fd, size):
            ftruncate(fd, size)
            note(b"c", size, b"")

        def sending(self):
            # noted before it is sent, so that nothing is told without being noted
            note(b"t", 0, b"".join(self.lines))
            send(self)

        os.pwrite, os.fdatasync, os.ftruncate, otm_serve.Connection.send = writing, forcing, cutting, sending

    return change


def events(path):
    data, at = open(path, "rb").read(), 0
    while at < len(data):
        word, place, length = struct.unpack_from(">cQI", data, at)
        at += 13
        yield word, place, data[at : at + length]
        at += length


def load(daemon, transactions):
    """Three clients, each with transactions at eight sites: much that is not forced between two that are."""
    tickets, lock = [0] * 8, threading.Lock()

    def work():
        with daemon.client() as c:
            for _ in range(transactions):
                line = c.send(say("begin 0,1,2,3,4,5,6,7"))
                if not line.startswith("begin "):
                    c.sweep()
                    continue
                n = int(line[6:])
                for s in range(8):
                    with lock:
                        tickets[s] += 1
                        k = tickets[s]
                    c.ticket(n, s, k)
                    c.prepared(n, s)
                c.send(say(f"decide {n}" if n % 5 else f"abort {n}"))
                c.sweep()

    with daemon.client() as c:
        c.open(1, [0] * 8)
    workers = [threading.Thread(target=work) for _ in range(3)]
    for w in workers:
        w.start()
    for w in workers:
        w.join()


def promised(told, sync):
    """Of the lines that were told, those that must be there again."""
    lines = told.decode().splitlines()
    return lines if sync == "always" else [line for line in lines if line.startswith(("begin", "commit", "cycle"))]


def image(dice, forced, written, old):
    """What a disk may have: the forced bytes, and any sectors of what was written since."""
    size = max([len(forced), *(at + len(data) for at, data in written)])
    full = bytearray(forced.ljust(size, b"\0"))
    for at, data in written:
        full[at : at + len(data)] = data
    for start in range(len(forced) // SECTOR * SECTOR, size, SECTOR):
        fate, end = dice.random(), min(start + SECTOR, size)
        if fate < 0.4:
            lost = old[start:end].ljust(end - start, b"\0") if fate < 0.1 else bytes(end - start)
            first = max(start, len(forced))  # forced bytes of the same sector stay
            full[first:end] = lost[first - start :]
    # the size is written by itself: any from what was forced on
    return bytes(full[: dice.choice([size, size, dice.randint(len(forced), size)])])


def losses(daemon, sync, times):
    """Loses the power at every moment of a run: how often that was, how often the journal opened, whether all that had to be was there, and
    how many bytes were at stake at most."""
    dice = random.Random(7)
    truth = [m for m, _ in daemon.messages()]
    answers = plain(truth)
    old = dice.randbytes(200) + open(daemon.journal, "rb").read()  # another journal's bytes, as old blocks have them
    forced, written, told = b"", [], b""
    tries, opened, kept, unforced = 0, 0, True, 0
    path = str(FOLDER / "image")
    fdatasync, fsync = os.fdatasync, os.fsync
    os.fdatasync = os.fsync = lambda fd: None  # here nothing has to be safe
    try:
        for word, at, data in events(daemon.folder / "trace"):
            if word == b"w":
                written.append((at, data))
            elif word == b"t":
                told += data
            elif word == b"f":
                full = bytearray(forced)
                for a, d in written:
                    full[a : a + len(d)] = d
                forced, written = bytes(full), []
            unforced = max(unforced, sum(len(d) for _, d in written))
            for _ in range(times):
                tries += 1
                with open(path, "wb") as f:
                    f.write(image(dice, forced, written, old))
                try:
                    FileJournal(path).close()
                except Damaged:
                    continue
                opened += 1
                got = [m for m, _ in messages(path)]
                here, due = answers[: len(got)], [] if sync == "never" else promised(told, sync)
                kept = kept and got == truth[: len(got)] and not Counter(due) - Counter(here)
    finally:
        os.fdatasync, os.fsync = fdatasync, fsync
    return tries, opened, kept, unforced


@test
def power_is_lost():
    for sync in ("answers", "always", "never"):
        where = folder()
        daemon = Forked(noting(where / "trace"), where=where, options=["--sync", sync])
        daemon.up()
        load(daemon, 12 if held.FULL else 3)
        daemon.end()
        tries, opened, kept, unforced = losses(daemon, sync, 12 if held.FULL else 1)
        hold(f"--sync {sync}: after each of {tries} losses the journal opens", opened == tries > 250, (opened, tries))
        hold(f"--sync {sync}: and has a first part of the messages, with every one whose answer may not be lost", kept)
        if sync == "answers":
            hold("--sync answers: much was written that was not forced", unforced > 2 * SECTOR, unforced)


@test
def a_force_that_is_none():
    """The tests above notice a daemon that does not force: journals with holes in what it said was safe, or numbers told that are gone."""
    where = folder()

    def lying():
        noting(where / "trace")()
        os.fdatasync = lambda fd: None

    daemon = Forked(lying, where=where)
    daemon.up()
    load(daemon, 2)
    daemon.end()
    tries, opened, kept, _ = losses(daemon, "answers", 2)
    hold("a daemon that does not force is noticed", opened < tries and not kept, (tries, opened, kept))


@test
def order_of_things():
    """Between a message's record and its answer there is a force, if it is a begin or a decide; and always the answer's record."""
    for sync in ("answers", "always"):
        where = folder()
        daemon = Forked(noting(where / "trace"), where=where, options=["--sync", sync])
        daemon.up()
        load(daemon, 3)
        daemon.end()
        written, forced, good, seen = b"", 0, True, 0
        for word, at, data in events(where / "trace"):
            if word == b"w":
                good = good and at == len(written)
                written += data
            elif word == b"f":
                forced = len(written)
            elif word == b"t":
                for line in promised(data, sync):
                    if not line.startswith(("begin", "commit", "cycle")):
                        continue
                    seen += 1
                    text = written.decode()
                    out = [row.split() for row in text.splitlines() if row.split()[1] == "out" and " ".join(row.split()[3:-1]) == line]
                    asked = [row for row in text[:forced].splitlines(keepends=True) if out and row.split()[0] == out[0][2] and row.endswith("\n")]
                    good = good and len(out) == 1 and len(asked) == 1
        hold(f"--sync {sync}: recorded, forced, answered, recorded, told, in this sequence", good and seen > 10, seen)
