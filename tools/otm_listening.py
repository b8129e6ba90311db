"""Where the daemon listens, and what it asks of the system for it."""

import os
import resource
import socket
import stat

BACKLOG = 1024  # connections that the system lines up until they are accepted


class CannotStart(Exception):
    """Why the daemon cannot start, in a sentence."""


def listen_at(path, mode):
    """A listening socket at a path; one that a dead daemon left there is taken away."""
    try:
        if not stat.S_ISSOCK(os.lstat(path).st_mode):
            raise CannotStart(f"{path} is there already, and is no socket.")
        with socket.socket(socket.AF_UNIX) as probe:
            probe.settimeout(5)
            try:
                probe.connect(path)
                raise CannotStart(f"Another daemon listens at {path}.")
            except (ConnectionRefusedError, FileNotFoundError):
                os.unlink(path)
    except FileNotFoundError:
        pass
    except OSError as e:
        raise CannotStart(f"A socket is at {path} already, and cannot be tried: {e.strerror or e}.") from None
    sock = socket.socket(socket.AF_UNIX)
    before = os.umask(0o777 & ~mode)
    try:
        sock.bind(path)
    except OSError as e:
        raise CannotStart(f"No socket can be made at {path}: {e.strerror or e}.") from None
    finally:
        os.umask(before)
    sock.listen(BACKLOG)
    return sock


def listen_on(host, port, log):
    try:
        family, _, _, _, address = socket.getaddrinfo(host, port, type=socket.SOCK_STREAM, flags=socket.AI_PASSIVE)[0]
        sock = socket.create_server(address[:2], family=family, backlog=BACKLOG)
    except OSError as e:
        raise CannotStart(f"{host}:{port} cannot be listened on: {e.strerror or e}.") from None
    if not (address[0].startswith("127.") or address[0] == "::1"):
        log(f"{host}:{port} can be reached from other machines, and whoever reaches it can do everything: see docs/DAEMON.md")
    return sock


def tell_systemd(state):
    """Where systemd waits for it, says that the daemon is ready, or ends."""
    where = os.environ.get("NOTIFY_SOCKET")
    if where:
        with socket.socket(socket.AF_UNIX, socket.SOCK_DGRAM) as s:
            try:
                s.sendto(state, "\0" + where[1:] if where[0] == "@" else where)
            except OSError:
                pass


def allow_files(count):
    """Every connection is an open file, of which a process may have so many."""
    soft, hard = resource.getrlimit(resource.RLIMIT_NOFILE)
    if soft != resource.RLIM_INFINITY and soft < count:
        if hard != resource.RLIM_INFINITY and hard < count:
            raise CannotStart(f"This process may open {hard} files, and needs {count}: give fewer --connections.")
        resource.setrlimit(resource.RLIMIT_NOFILE, (count, hard))
