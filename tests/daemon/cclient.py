"""The C client, built with all warnings as errors, against a daemon."""

import os
import re
import socket
import subprocess
import threading

import held
from held import ROOT, Daemon, folder, hold, test


@test
def c_client():
    where = folder()
    program = where / "client"
    # target/ is where the project builds; this one goes with the test's folder.
    build = subprocess.run([os.environ.get("CC", "cc"), "-std=c99", "-O2", "-Wall", "-Wextra", "-Werror", "-pedantic", f"-I{ROOT / 'clients' / 'c'}",
                            str(ROOT / "tests" / "daemon" / "client.c"), str(ROOT / "clients" / "c" / "delphrimock.c"), "-o", str(program)],
                           capture_output=True, text=True)
    hold("the C client builds without a warning", build.returncode == 0, build.stderr)
    if build.returncode:
        return
    daemon = Daemon("--tcp", "127.0.0.1:0")
    daemon.up()
    port = daemon.said().strip().rsplit(":", 1)[1]
    answers = [b"swept x\n", b"begin 4294967296\n"]  # no number, and one too large

    def nonsense(listener):
        for answer in answers:
            c, _ = listener.accept()
            c.recv(100)
            c.sendall(answer)
            c.close()

    listeners = []
    for name in ("nonsense", "silent"):
        listener = socket.socket(socket.AF_UNIX)
        listener.bind(str(where / name))
        listener.listen()
        listeners.append(listener)
    threading.Thread(target=nonsense, args=listeners[:1], daemon=True).start()
    done = subprocess.run([program, daemon.socket, port, where / "nonsense", where / "silent"], capture_output=True, text=True, timeout=60)
    for listener in listeners:
        listener.close()
    last = re.fullmatch(r"(\d+) passed, (\d+) failed", (done.stdout.splitlines() or [""])[-1])
    hold("the C client's test comes to its end", last is not None, (done.returncode, done.stdout, done.stderr))
    if last:
        held.passed += int(last[1])
        held.failed += int(last[2])
        for line in done.stdout.splitlines()[:-1]:
            print(line)
