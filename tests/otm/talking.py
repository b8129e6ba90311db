"""`otm talk`, through pipes and at a terminal."""

import os
import pty
import signal
import subprocess
import sys
import threading

import held
from held import OTM, hold, otm, test


@test
def talking():
    talk = subprocess.Popen([OTM, "talk"], stdin=subprocess.PIPE, stdout=subprocess.PIPE, stderr=subprocess.PIPE, text=True,
                            bufsize=1, env=dict(os.environ, OTM_SERVICE=held.SERVICE))
    late = threading.Timer(60, talk.kill)
    late.start()
    for line, words in [
        ("open 1 floors 0 0", "ok           the table is open: sites 0 and 1; first number 1"),
        ("begin 0,1", "begin 1 "),
        ("begin zero", "'zero' stands where a site is due"),
        ("bytes 01 00", "its other bytes are still to come"),
        ("bytes 02 01 01", "begin 2 "),
        ("", None),
        ("abort 1 -> ok", "transaction 1 is aborted"),
    ]:
        talk.stdin.write(line + "\n")
        if words:
            answer = talk.stdout.readline()
            hold(f"talk answers '{line}' at once", words in answer, answer)
    out, err = talk.communicate("quit\nsweep\n")
    late.cancel()
    hold("quit ends it", out == "" and err == "" and talk.returncode == 1, (out, err, talk.returncode))
    said = otm("talk", given="help\nsweep")
    hold("help is there, and a last line without its end is read", "propose 2 1" in said.out and "refused 1 " in said.out and said.status == 0, said)
    said = otm("talk", given="sweep\nbytes 03\nsweep\n")
    hold("an 11 ends it", said.status == 1 and said.out.count("refused") == 2 and "stopped reading" in said.out, said)
    said = otm("talk", given="sweep\nbytes 01 00\n")
    hold("an end inside a message", "(the end of the input)       refused 11" in said.out, said)
    hold("wrong expectations are told", otm("talk", given="sweep -> ok\n").status == 1)


@test
def talking_at_a_terminal():
    child, screen = pty.fork()
    if child == 0:
        os.environ.update(OTM_SERVICE=held.SERVICE, TERM="dumb")
        os.execv(sys.executable, [sys.executable, str(OTM), "talk"])
    late = threading.Timer(60, os.kill, (child, signal.SIGKILL))
    late.start()
    os.write(screen, b"open 1 floors 0\nbegin 3\nbegin 0\nfly\nquit\n")
    seen = b""
    try:
        while got := os.read(screen, 4096):
            seen += got
    except OSError:
        pass  # the terminal is gone with its program
    late.cancel()
    _, status = os.waitpid(child, 0)
    text = seen.decode().replace("\r", "")
    for words in ("otm> ", "  ok: the table is open", "  refused 3: no site", "    What to do: ", "  begin 1: ", "'fly' is no call"):
        hold(f"a person at a terminal sees '{words}'", words in text, text)
    hold("and leaves with status 0", status == 0, status)
