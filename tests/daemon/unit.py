"""The systemd unit: its command is one that the daemon takes, and systemd, where it is installed, finds nothing wrong with it."""

import re
import shlex
import shutil
import subprocess

import held
from held import ROOT, folder, hold, left_out, test
from otm_options import read_options


@test
def unit():
    text = (ROOT / "tools" / "systemd" / "delphrimock.service").read_text()
    command = shlex.split(re.search(r"^ExecStart=(.*)$", text, re.M)[1])
    hold("the unit's command is otm serve", command[0].endswith("/tools/otm") and command[1] == "serve", command)
    options = read_options(command[2:])
    hold("with options that the daemon takes", options["--mode"] == 0o660 and options["--sync"] == "answers" and not options["--tcp"], options)
    hold("its folders are those of the unit", "RuntimeDirectory=delphrimock" in text and options["--socket"].startswith("/run/delphrimock/")
         and "StateDirectory=delphrimock" in text and options["--journal"].startswith("/var/lib/delphrimock/"))
    if not shutil.which("systemd-analyze"):
        left_out.append("systemd's own look at the unit: systemd-analyze was not found (Debian: systemd)")
        return
    # Where the project is not under /opt, the paths are made those of this project, so that only the unit itself is looked at.
    path = folder() / "delphrimock.service"
    path.write_text(text.replace("/opt/delphrimock", str(ROOT)).replace(f"{ROOT}/target/bin/service", held.SERVICE))
    done = subprocess.run(["systemd-analyze", "verify", "--man=no", path], capture_output=True, text=True, timeout=60)
    ours = [line for line in (done.stdout + done.stderr).splitlines() if "delphrimock" in line]
    hold("systemd finds nothing wrong with it", not ours, ours)
