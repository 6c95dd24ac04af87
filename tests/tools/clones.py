"""Copies of the repository for tests of ./nfs41d and of what is installed, each with a stub of the toolchain's `rt`, so that nothing is proved."""
import os
import shutil
import signal
import subprocess
from pathlib import Path

from wire import TOP

SECONDS = 60

# A toolchain that notes each build, takes as long as it is told to, and makes a program that says its words and ends with the status that they name.
STUB = r'''#!/usr/bin/env python3
"""A stub of the toolchain."""
import os
import re
import sys
import time
import types
from pathlib import Path

rtlib = types.SimpleNamespace(crates_below=lambda folder: [], VERDICT=re.compile(r"proved\n\Z"))
must_fail = in_lanes = None
kit_sum = lambda: "stub"
STORE = os.path.join(os.path.dirname(os.path.abspath(__file__)), "store")
Kept = types.SimpleNamespace(of_edit=None)
PROGRAM = """#!/bin/sh
echo "ran $*"
case "$*" in *sleep*) exec sleep 60 ;; *status=*) exit "${*##*status=}" ;; *input*) exec cat ;; esac
"""


class Crate:
    ci = None


def main(words):
    with open(os.environ["STUB_LOG"], "a") as log:
        log.write(f"{os.getpid()} {' '.join(words)}\n")
    time.sleep(float(os.environ.get("STUB_SECONDS", "0")))
    out = Path("crates/nfs41d/out")
    out.mkdir(exist_ok=True)
    made = out / f"made-{os.getpid()}"
    made.write_text(PROGRAM)
    made.chmod(0o755)
    made.rename(out / "nfs41d")
    return int(os.environ.get("STUB_STATUS", "0"))


if __name__ == "__main__":
    print(os.environ.get("STUB_VERSION", "stub logic 1"))
'''


def hears():
    """What a child does before it becomes ./nfs41d: signals that this run ignores, as one behind `nohup` does, end it all the same."""
    for number in (signal.SIGINT, signal.SIGHUP, signal.SIGTERM, signal.SIGQUIT):
        signal.signal(number, signal.SIG_DFL)


class Clone:
    """A copy of the repository as it stands here, in a folder of its own with a stub of the toolchain."""

    def __init__(self, room, name="clone"):
        self.room, self.top, self.log = Path(room), Path(room) / name, Path(room) / f"{name}.log"
        bin_ = self.room / "bin"
        bin_.mkdir(exist_ok=True)
        (bin_ / "rt").write_text(STUB, encoding="utf-8")
        (bin_ / "rt").chmod(0o755)
        listed = subprocess.run(["git", "ls-files", "-co", "--exclude-standard"], cwd=TOP, capture_output=True, text=True, check=True).stdout
        for path in listed.splitlines():
            if not path.startswith("tests/rows/") and "/must-fail/" not in path and (TOP / path).is_file():
                (self.top / path).parent.mkdir(parents=True, exist_ok=True)
                shutil.copy(TOP / path, self.top / path)
        self.git("init", "-q")
        self.git("add", "-A")
        self.git("-c", "user.name=n", "-c", "user.email=e", "commit", "-qm", "all")

    def git(self, *words):
        return subprocess.run(["git", *words], cwd=self.top, capture_output=True, text=True, check=True).stdout.strip()

    def environment(self, **more):
        path = f"{self.room / 'bin'}:{os.environ['PATH']}"
        return {**os.environ, "PATH": path, "STUB_LOG": str(self.log), "TMPDIR": str(self.room), "NFS41D": "", **more}

    def begun(self, *words, script=None, cwd=None, **more):
        """./nfs41d with these words, as a process."""
        how = {"stdin": subprocess.PIPE, "stdout": subprocess.PIPE, "stderr": subprocess.PIPE, "text": True}
        return subprocess.Popen([script or self.top / "nfs41d", *words], cwd=cwd or self.room, env=self.environment(**more), preexec_fn=hears, **how)

    def ran(self, *words, given="", **more):
        """How ./nfs41d with these words ended: its status and its two outputs."""
        with self.begun(*words, **more) as process:
            try:
                out, err = process.communicate(given, timeout=SECONDS)
            except subprocess.TimeoutExpired:
                process.kill()
                out, err = process.communicate()
        return process.returncode, out, err

    def builds(self):
        """How many builds there were since this was asked last."""
        count = len(self.log.read_text().splitlines()) if self.log.exists() else 0
        self.log.unlink(missing_ok=True)
        return count

    @property
    def program(self):
        return self.top / "crates/nfs41d/out/nfs41d"
