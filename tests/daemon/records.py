"""The journal in a file: what is read back from a file that was cut, changed, zeroed or is something else."""

import os

from held import FOLDER, STEPS, Forked, folder, hold, messages, otm, plain, test
from otm_file import FileJournal, line_of, read
from otm_journal import Damaged, Taken, numbers_in, ranges_of
from otm_table import Table

import held


def journal_of_the_story():
    """A journal that a daemon wrote of the story, one call after the other."""
    daemon = Forked()
    daemon.up()
    with daemon.client() as c:
        hold("the daemon answers the story as the script expects", [c.send(s.message) for s in STEPS] == [s.expected for s in STEPS])
    hold("it ends with status 0", daemon.end() == 0)
    with open(daemon.journal, "rb") as f:
        return f.read()


def opens(data):
    """The messages that a file of these bytes gives to whoever takes it up, or why it does not."""
    path = str(FOLDER / "cut")
    with open(path, "wb") as f:
        f.write(data)
    try:
        FileJournal(path).close()
    except Damaged as e:
        with open(path, "rb") as f:
            return str(e) if f.read() == data else "damaged, and changed by the reading"
    return [m for m, _ in messages(path)]


@test
def cut_at_every_byte():
    data = journal_of_the_story()
    lines = data.splitlines(keepends=True)
    stream = [s.message for s in STEPS if not s.text.startswith(("order", "propose"))]
    hold("the journal has the messages that can change the table, in sequence", opens(data) == stream)
    texts = [line.split(b" ", 1)[1] for line in lines]
    good = True
    for at in range(len(data) - len(b"".join(lines[-3:])), len(data) + 1):
        whole = data[:at].count(b"\n")
        good = good and opens(data[:at]) == stream[: sum(t.startswith(b"in ") for t in texts[:whole])]
    hold("cut at every byte of its last three records, it opens with the whole ones", good)
    good = all(opens(data[:at]) == stream[: sum(t.startswith(b"in ") for t in texts[: data[:at].count(b"\n")])] for at in range(0, len(data), 7))
    hold("cut at every seventh byte of all, too", good)


@test
def changed_in_the_middle():
    data = journal_of_the_story()
    lines = data.splitlines(keepends=True)
    forced = [int(line.split()[2]) if line.split()[1] == b"forced" else 0 for line in lines]
    good, refused = True, 0
    for i, line in enumerate(lines):
        for at in (0, len(line) // 2, len(line) - 3):
            other = line[:at] + bytes([line[at] ^ 1]) + line[at + 1 :]
            got = opens(b"".join([*lines[:i], other, *lines[i + 1 :]]))
            was_forced = i == 0 or any(n > i for n in forced[i + 1 :])
            good = good and isinstance(got, str) == was_forced and "changed by" not in got
            refused += isinstance(got, str)
    hold("a byte changed in what had been forced is refused and nothing is touched, behind that it is cut off", good and refused > 60, refused)
    hold("a line missing is noticed", "damaged or missing" in opens(b"".join(lines[:9] + lines[10:])))
    hold("lines swapped are noticed", "damaged or missing" in opens(b"".join([*lines[:9], lines[10], lines[9], *lines[11:]])))
    head, other = b"".join(lines[:9]), b"".join(journal_of_the_story().splitlines(keepends=True)[9:])
    hold("another journal's lines are not taken for its own", opens(head + other) == opens(head))


@test
def what_is_no_journal():
    hold("a text", "is no journal" in opens(b"open 1 floors 0\n"))
    hold("something longer", "is no journal" in opens(b"\x7fELF" + bytes(500)))
    hold("an empty file is a new journal", opens(b"") == [])
    hold("so is one that was torn as it was made", opens(b"1 journal 1 00a") == [] and opens(bytes(40)) == [])
    path = str(folder() / "j")
    first = FileJournal(path)
    try:
        FileJournal(path)
        hold("a second one is refused", False)
    except Taken:
        hold("a second one is refused", True)
    hold("its file is for its owner alone", os.stat(path).st_mode & 0o777 == 0o600)
    first.close()
    FileJournal(path).close()
    hold("and may be taken up when the first is closed", True)


@test
def another_service():
    """Answers that a replay does not give are refused."""
    path = str(folder() / "j")
    journal = FileJournal(path)
    table = Table(journal, held.SERVICE)
    table.start()
    lines = table.answer([s.message for s in STEPS])
    hold("a table answers many messages at once", lines == [s.expected for s in STEPS], lines)
    table.end()
    with open(path, "rb") as f:
        data = f.read()
    name = data.split(b" ", 4)[3]
    number, asked = [(n, t.split()[1]) for n, t in read(path) if t.endswith("commit 1")][0]
    lines = data.splitlines(keepends=True)
    lines[number - 1] = line_of(name, number, f"out {asked} cycle 1")
    with open(path, "wb") as f:
        f.write(b"".join(lines))
    daemon = Forked(journal=path)
    hold("a daemon does not start where a replay gives another answer", daemon.wait() == 2 and "was answered 'cycle 1', and now it is 'commit 1'" in daemon.said(),
         daemon.said())
    checked = otm("journal", "check", path)
    hold("otm journal check says so", checked.returncode == 1 and "was answered 'cycle 1'" in checked.out, checked)


@test
def ranges():
    for numbers, text in [((), ""), ((3,), "3"), ((1, 2, 3, 7), "1-3 7"), ((9, 1), "1 9")]:
        hold(f"'{text}' and back", " ".join(ranges_of(numbers)) == text and list(numbers_in(text)) == sorted(numbers))
    hold("a plain service agrees with the story", plain(s.message for s in STEPS) == [s.expected for s in STEPS])
