"""A journal by its name: a file's path, or postgresql: and what psql takes for a database."""

import os
import time

import otm_file
from otm_journal import Damaged, Taken

POSTGRESQL = "postgresql:"


def open_journal(where, standby=False, log=lambda words: None, create=True):
    """The journal, to write it. A standby waits for a file until nobody else has it; a table it follows meanwhile (Journal.taken_up)."""
    if where.startswith(POSTGRESQL):
        import otm_postgresql

        return otm_postgresql.open_journal(where[len(POSTGRESQL) :], standby, create)
    waits = False
    while True:
        try:
            return otm_file.FileJournal(where, create)
        except Taken:
            if not standby:
                raise
            if not waits:
                log(f"standing by until nobody has the journal {where}")
            waits = True
            time.sleep(0.1)
        except OSError as e:
            raise Damaged(f"The journal {where} cannot be opened: {e.strerror}.") from None


def read_journal(where):
    """The records, which someone else may be writing."""
    if where.startswith(POSTGRESQL):
        import otm_postgresql

        return otm_postgresql.read(where[len(POSTGRESQL) :])
    if not os.path.isfile(where):
        raise Damaged(f"There is no journal {where}.")
    return otm_file.read(where)


def make_sure(where):
    """Forces to the disk what was read of a journal: the daemon may have written a decision and not forced it yet, and whoever is told of it
    acts on it. What PostgreSQL shows of decisions is safe already."""
    if not where.startswith(POSTGRESQL):
        fd = os.open(where, os.O_RDONLY)
        try:
            os.fsync(fd)
        except OSError as e:
            raise Damaged(f"The journal {where} could not be forced to the disk, so what it says may yet be lost: {e.strerror}.") from None
        finally:
            os.close(fd)
