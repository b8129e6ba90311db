"""The project's own client of the coordinator, and the service that it starts."""

import contextlib
import os
import sys
from pathlib import Path

ROOT = Path(__file__).resolve().parent.parent.parent
sys.path.insert(0, str(ROOT / "clients" / "python"))

from delphrimock import Coordinator, Refused, ServiceEnded  # noqa: E402, F401

SERVICE = os.environ.get("OTM_SERVICE") or str(ROOT / "target" / "bin" / "service")


@contextlib.contextmanager
def opened():
    """A coordinator with an open table of two sites, which ends with its `with`."""
    with Coordinator(SERVICE) as c:
        c.open(first=1, floors=[0, 0])
        yield c
