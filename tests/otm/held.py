"""What the tests share: counting, running otm, and where the service is."""

import os
import subprocess
import sys
from pathlib import Path

ROOT = Path(__file__).resolve().parent.parent.parent
OTM = ROOT / "tools" / "otm"
SERVICE = os.environ.get("OTM_SERVICE") or str(ROOT / "target" / "bin" / "service")
os.environ["PYTHONDONTWRITEBYTECODE"] = "1"
sys.path.insert(0, str(ROOT / "tools"))

from otm_script import frames, parse, unparse  # noqa: E402, F401

from delphrimock import Call, Coordinator, Refused, ServiceEnded, read_body  # noqa: E402, F401

passed = failed = 0
TESTS = []


def test(f):
    """Marks a test. Its sentence is what holds if it passes."""
    TESTS.append(f)
    return f


def hold(what, good, seen=""):
    global passed, failed
    if good:
        passed += 1
    else:
        failed += 1
        print(f"not so: {what}" + (f"\n    seen: {seen!r}" if seen != "" else ""))


def make(*command):
    done = subprocess.run(command, cwd=ROOT, stdout=subprocess.PIPE, stderr=subprocess.STDOUT, text=True)
    if done.returncode:
        print("\n".join(done.stdout.splitlines()[-20:]))
        print(f"This failed: {' '.join(command)}")
        print("0 passed, 1 failed")
        sys.exit(1)


class Said:
    def __init__(self, done):
        self.status, self.bytes = done.returncode, done.stdout
        self.out, self.err = done.stdout.decode("utf-8", "replace"), done.stderr.decode("utf-8", "replace")

    def __repr__(self):
        return f"status {self.status}, out {self.out[-600:]!r}, err {self.err[-600:]!r}"


def otm(*words, given=b"", service=None):
    environment = dict(os.environ, OTM_SERVICE=service or SERVICE)
    given = given.encode() if isinstance(given, str) else given
    return Said(subprocess.run([sys.executable, "-S", OTM, *words], input=given, capture_output=True, env=environment))


def scripts():
    return sorted(ROOT.glob("examples/**/*.otm"))
