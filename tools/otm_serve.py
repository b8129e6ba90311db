"""otm serve: one table for many clients, over a socket. docs/DAEMON.md is for who runs it."""

import os
import selectors
import signal
import socket
import sys
import time

from otm_connection import Connection
from otm_journal import Damaged, Full, Lost, Taken
from otm_listening import CannotStart, allow_files, listen_at, listen_on, tell_systemd
from otm_table import Differs, Table
from otm_where import open_journal

BATCH = 256  # messages that share a write to the journal and a force to the disk
SHARE = 32  # of these, at most so many from one connection, if others wait
WAITING = 65536  # bytes of a connection that wait to be read, or to be sent, after which it is not read from


class Daemon:
    def __init__(self, table, listeners, connections, patience, log):
        self._table, self._most, self._patience, self._log = table, connections, patience, log
        self._listeners = listeners
        self._select = selectors.DefaultSelector()
        self._connections = {}
        self._ready = {}  # connections that may have whole messages, in the sequence in which they get their turn
        self._count = 0
        for sock in listeners:
            sock.setblocking(False)
            self._select.register(sock, selectors.EVENT_READ, self._accept)
        # A signal makes the pipe readable, so that the loop wakes up.
        self._woken, wake = os.pipe()
        for fd in (self._woken, wake):
            os.set_blocking(fd, False)
        signal.set_wakeup_fd(wake)
        self._select.register(self._woken, selectors.EVENT_READ, None)
        self._stop = False
        for number in (signal.SIGTERM, signal.SIGINT):
            signal.signal(number, self._told_to_stop)

    def _told_to_stop(self, *_):
        self._stop = True

    def run(self):
        """Serves until a signal says stop. Then no more is read; what was read is answered."""
        tick = time.monotonic()
        while not self._stop:
            for key, mask in self._select.select(0 if self._ready else 1):
                if key.data == self._accept:
                    self._accept(key.fileobj)
                elif key.data is not None:
                    self._serve(key.data, mask)
            self._turn()
            if time.monotonic() - tick > 1:
                tick = time.monotonic()
                self._look_after()
        for sock in self._listeners:
            self._select.unregister(sock)
            sock.close()
        while self._ready:
            self._turn()
        end = time.monotonic() + 2
        while time.monotonic() < end and any(c.lines for c in self._connections.values()):
            for key, mask in self._select.select(0.1):
                if isinstance(key.data, Connection) and mask & selectors.EVENT_WRITE:
                    self._serve(key.data, selectors.EVENT_WRITE)
        for c in list(self._connections.values()):
            self._close(c)
        self._table.disown([])

    # ---- connections

    def _accept(self, listener):
        try:
            sock, _ = listener.accept()
        except OSError:
            return
        if len(self._connections) >= self._most:
            self._log(f"{self._most} connections are open, so another was turned away")
            sock.close()
            return
        sock.setblocking(False)
        if sock.family != socket.AF_UNIX:
            sock.setsockopt(socket.IPPROTO_TCP, socket.TCP_NODELAY, 1)
            sock.setsockopt(socket.SOL_SOCKET, socket.SO_KEEPALIVE, 1)
        self._count += 1
        c = Connection(sock, self._count)
        self._connections[c.number] = c
        self._watch(c)

    def _serve(self, c, mask):
        try:
            if mask & selectors.EVENT_READ:
                data = c.sock.recv(WAITING)
                c.since = time.monotonic()
                c.came += data
                c.over = c.over or not data
                self._ready[c.number] = c
            if mask & selectors.EVENT_WRITE:
                c.send()
                self._ready[c.number] = c
        except BlockingIOError:
            pass
        except OSError:
            self._close(c)
            return
        self._watch(c)

    def _watch(self, c):
        """What to wait for at a connection. One that does not take its answers is not asked for more."""
        if c.number not in self._connections:
            return
        if c.over and not c.came and not c.lines:
            self._close(c)
            return
        events = selectors.EVENT_WRITE if c.lines else 0
        if not c.over and c.waiting < WAITING and len(c.came) < WAITING:
            events |= selectors.EVENT_READ
        if events == c.events:
            return
        if not c.events:
            self._select.register(c.sock, events, c)
        elif not events:
            self._select.unregister(c.sock)
        else:
            self._select.modify(c.sock, events, c)
        c.events = events

    def _close(self, c):
        if self._connections.pop(c.number, None):
            self._ready.pop(c.number, None)
            if c.events:
                self._select.unregister(c.sock)
            c.sock.close()
            if c.untold():
                self._table.disown(c.untold())

    def _look_after(self):
        """Once a second: half a message for too long ends as if the input had ended inside it, and who does not read is left alone."""
        late = time.monotonic() - self._patience
        for c in list(self._connections.values()):
            if c.since < late and c.lines:
                self._log(f"connection {c.number} takes no answers, and is closed")
                self._close(c)
            elif c.since < late and c.came and not c.over and c.number not in self._ready:
                self._log(f"connection {c.number} has half a message for {self._patience:.0f} seconds, and is ended")
                c.over = True
                self._ready[c.number] = c
        self._table.disown([])

    # ---- turns

    def _turn(self):
        """Answers the next messages of all who wait, by one write to the journal."""
        if not self._ready:
            return
        batch, turn, again, self._ready = [], self._ready, {}, {}
        share = max(SHARE, BATCH // len(turn))
        for number, c in turn.items():
            if c.waiting >= WAITING:
                continue  # its turn comes when it has taken its answers
            if len(batch) >= BATCH:
                self._ready[number] = c
                continue
            got = c.messages(min(share, BATCH - len(batch)))
            batch += [(c, m) for m in got]
            if got and got[-1] is not None and c.came:
                again[number] = c
        self._ready.update(again)  # behind those that had no turn
        try:
            lines = iter(self._table.answer([m for _, m in batch if m is not None]) if batch else ())
        except Full as e:
            self._log(f"{e} Those who asked are not answered")
            for c in {c.number: c for c, _ in batch}.values():
                self._close(c)
            return
        for c, message in batch:
            c.say(b"refused 11\n" if message is None else next(lines).encode("ascii") + b"\n")
        for c in {c.number: c for c, _ in batch}.values() if batch else ():
            try:
                c.send()
            except OSError:
                self._close(c)
        for c in turn.values():
            self._watch(c)


# ---- the whole of it


def serve(options, program):
    """Runs a daemon until it is told to stop. Status 0: told to stop. 1: it had to. 2: it could not start."""

    def log(words):
        try:
            print(words, file=sys.stderr, flush=True)
        except OSError:
            pass  # a full disk may be the log's, too

    path, listeners, table = options["--socket"], [], None
    try:
        allow_files(options["--connections"] + 32)
        journal = open_journal(options["--journal"], options["--standby"], log)
        table = Table(journal, program, options["--sync"], log)
        if journal.cut:
            log(journal.cut)
        table.start()
        listeners.append(listen_at(path, options["--mode"]))
        own = os.stat(path)
        if options["--tcp"]:
            listeners.append(listen_on(*options["--tcp"], log))
        daemon = Daemon(table, listeners, options["--connections"], options["--patience"], log)
        log(f"listening at {path}" + (" and {}:{}".format(*listeners[1].getsockname()[:2]) if len(listeners) > 1 else ""))
        tell_systemd(b"READY=1")
        daemon.run()
        tell_systemd(b"STOPPING=1")
        log("told to stop: everything that was read is answered")
        return 0
    except (Damaged, Taken, Differs, CannotStart) as e:
        log(str(e))
        return 2
    except (Lost, Full) as e:
        log(f"{e} The daemon stops, and answers nothing more; start it again.")
        return 1
    finally:
        for sock in listeners:
            sock.close()
        try:
            if listeners and os.path.samestat(own, os.stat(path)):
                os.unlink(path)
        except OSError:
            pass
        if table:
            table.end()
