"""A journal in a file: a record a line, `NUMBER TEXT CHECK`, so that a line's number is its record's.

CHECK is the CRC-32 of the journal's name, the number and the text; with the name in it, no record of another file that stood in the same
blocks of the disk is taken for one of this. Whoever writes holds a lock on the file (flock), which ends with its process.
"""

import fcntl
import os
import zlib

from otm_journal import Damaged, Full, Journal, Lost, Taken, new_name, paired

HEAD = b"1 journal 1 "


def line_of(name, number, text):
    body = f"{number} {text}".encode("ascii")
    return b"%s %08x\n" % (body, zlib.crc32(body, zlib.crc32(name)))


def record_of(name, line):
    """The number and text of a line, or None if it is no whole record."""
    body, _, check = line.rpartition(b" ")
    if not line.endswith(b"\n") or check[:-1] != b"%08x" % zlib.crc32(body, zlib.crc32(name)):
        return None
    number, _, text = body.partition(b" ")
    return int(number), text.decode("ascii")


class Reading:
    """The records of a file in sequence, up to the first that is not whole; `end` is how many bytes those have."""

    def __init__(self, file, path):
        self._file, self._path = file, path
        self.end, self.last, self.name = 0, 0, b""

    def __iter__(self):
        self._file.seek(0)
        line = self._file.readline()
        if not line.strip(b"\0") and len(line) < 80:
            return  # new, or torn while it was made
        if not line.startswith(HEAD[: len(line)]):
            raise Damaged(f"{self._path} is no journal.")
        self.name = line[len(HEAD) : -10]
        # The first record is forced before anything else is written, so only alone can it be torn.
        if record_of(self.name, line) is None and line.endswith(b"\n"):
            raise Damaged(f"Line 1 of {self._path} is damaged. Nothing was changed.")
        while line:
            record = record_of(self.name, line)
            if record is None or record[0] != self.last + 1:
                break
            self.end, self.last = self.end + len(line), record[0]
            yield record
            line = self._file.readline()

    def rest(self):
        """What stands behind the whole records. Behind a crash these are records that were never forced: the last one torn, or, since a
        disk writes pages in any sequence, some missing before others. But if one of them says that the first missing one had been
        forced, the disk has lost what it had confirmed, and nothing may be cut off."""
        self._file.seek(self.end)
        rest = self._file.read()
        for line in rest.splitlines(keepends=True):
            record = record_of(self.name, line)
            if record and record[1].startswith("forced ") and int(record[1][7:]) > self.last:
                raise Damaged(
                    f"Line {self.last + 1} of {self._path} is damaged or missing, and record {record[0]} shows that it had reached the disk. "
                    f"Nothing was changed. Answers may have been given that stand on what is lost: look for a copy of the file. The "
                    f"{self.last} lines before are whole."
                )
        return rest


def read(path):
    """The records of a file that someone else may be writing; a torn end is left out."""
    with open(path, "rb") as file:
        yield from Reading(file, path)


def _boot():
    try:
        with open("/proc/sys/kernel/random/boot_id") as f:
            return f.read().strip()
    except OSError:
        return "-"


def locked(path, create=True):
    """The file, open and locked. Compaction puts another file in its place, so what was locked must still be what the path names."""
    while True:
        fd = os.open(path, os.O_RDWR | os.O_CLOEXEC | (os.O_CREAT if create else 0), 0o600)
        try:
            fcntl.flock(fd, fcntl.LOCK_EX | fcntl.LOCK_NB)
            if os.path.samestat(os.fstat(fd), os.stat(path)):
                return fd
        except BlockingIOError:
            os.close(fd)
            raise Taken(f"Another process has the journal {path}.") from None
        except FileNotFoundError:
            pass
        except BaseException:
            os.close(fd)
            raise
        os.close(fd)


def sync_folder(path):
    """A file that was made or renamed is safe once its folder is."""
    fd = os.open(os.path.dirname(os.path.abspath(path)), os.O_RDONLY)
    try:
        os.fsync(fd)
    finally:
        os.close(fd)


class FileJournal(Journal):
    def __init__(self, path, create=True):
        super().__init__()
        self.path = os.path.realpath(path)  # compaction renames over it, and a link must stay one
        self._fd = locked(self.path, create)
        try:
            self._take_up()
        except BaseException:
            os.close(self._fd)
            raise

    def _take_up(self):
        self.boot, last_boot = _boot(), None
        with open(self._fd, "rb", closefd=False) as file:
            reading = Reading(file, self.path)
            for _, text in reading:
                if text.startswith("start "):
                    last_boot = text.split()[3]
            rest = reading.rest()
        self._name, self._end, self.next = reading.name, reading.end, reading.last + 1
        self.same_boot = self.boot == last_boot != "-"
        if rest:
            os.ftruncate(self._fd, self._end)
            os.fsync(self._fd)  # or what was cut off might come back behind what is written next
            self.cut = f"{len(rest)} bytes behind record {reading.last} were no whole record, and were cut off"
        if self.next == 1:
            self._name = new_name().encode()
            self._store([f"journal 1 {self._name.decode()}"], True)
            self.next = 2
            sync_folder(self.path)

    def records(self, last=None):
        """The records, up to a last one."""
        with open(self.path, "rb") as file:
            for record in Reading(file, self.path):
                if last is not None and record[0] > last:
                    return
                yield record

    def _store(self, texts, force):
        data = b"".join(line_of(self._name, self.next + i, text) for i, text in enumerate(texts))
        try:
            at = 0
            while at < len(data):
                at += os.pwrite(self._fd, data[at:], self._end + at)
        except OSError as e:
            try:
                os.ftruncate(self._fd, self._end)
            except OSError as also:
                raise Lost(f"{self.path} cannot be written ({e.strerror}) nor cut back ({also.strerror}).") from e
            raise Full(f"{self.path} cannot be written: {e.strerror}.") from e
        if force:
            try:
                os.fdatasync(self._fd)
            except OSError as e:
                # What a second try would say is no proof: the system may have dropped what it could not write.
                raise Lost(f"{self.path} could not be forced to the disk: {e.strerror}.") from e
        self._end += len(data)

    def replace(self, texts):
        """Puts a new journal in this one's place, at once or not at all. The old one stays beside it, under PATH.old."""
        new, old = f"{self.path}.new", f"{self.path}.old"
        if os.path.exists(new):
            os.unlink(new)  # of a compaction that was cut off
        other = FileJournal(new)  # which has its lock, also under the name that it gets
        try:
            other.append(texts, force=True)
            for _ in paired(other.records()):
                pass  # Damaged, if what was written does not fit together
            if os.path.exists(old):
                os.unlink(old)
            os.link(self.path, old)
            os.replace(new, self.path)
            sync_folder(self.path)
        finally:
            other.close()

    def close(self):
        os.close(self._fd)
