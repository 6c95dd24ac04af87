"""Which program is built here, and of what: beside it is a file of sums, by which a copy of both is as good as a build. A change of what its proof
and build read makes it old, and the time of a file does not."""
import hashlib
import os
import re
import shutil
import subprocess
import sys
from pathlib import Path
from typing import NamedTuple

TOP = Path(__file__).resolve().parent.parent
NAME = "nfs41d"
PARTS = ("src", "specs", "proofs", "c")


class Made(NamedTuple):
    """What a program was made of, and its own sum."""
    sources: str
    toolchain: str
    program: str


def toolchain():
    """What the toolchain says that it is, or none where there is no `rt`."""
    if not shutil.which("rt"):
        return None
    ran = subprocess.run(["rt", "version"], stdin=subprocess.DEVNULL, capture_output=True, text=True, check=False)
    return " ".join(ran.stdout.split())


class Build:
    """The program of a repository, and the file of sums beside it."""

    def __init__(self, top=TOP):
        self.top = Path(top)
        self.program = self.top / "crates" / NAME / "out" / NAME
        self.sums = self.program.with_name(f"{NAME}.sums")

    def lines(self):
        """What crates.txt says of the program and of the repository's crates that it stands on: of each the libraries below it."""
        text = (self.top / "crates.txt").read_text(encoding="utf-8")
        lines = {name: below.split() for name, below in re.findall(r"^(\w+):(.*)$", text, re.MULTILINE)}
        wanted, ahead = {}, [NAME]
        while ahead:
            name = ahead.pop()
            if name in lines and name not in wanted:
                wanted[name] = lines[name]
                ahead += lines[name]
        return wanted

    def sources(self):
        """A sum over all that the proof and the build of the program read, but for the toolchain; none where there is no such crate."""
        crates = self.lines() if (self.top / "crates.txt").is_file() else {}
        if NAME not in crates:
            return None
        found = hashlib.sha256(repr((sorted(crates.items()), (self.top / "HANDLES").read_text(encoding="utf-8"))).encode())
        for crate in sorted(crates):
            for part in PARTS:
                for at, folders, files in os.walk(self.top / "crates" / crate / part):
                    folders.sort()
                    for path in (Path(at) / name for name in sorted(files)):
                        text = path.read_bytes()
                        found.update(f"{path.relative_to(self.top)} {len(text)}\n".encode() + text)
        return found.hexdigest()

    def made(self):
        """What the file of sums says, or none."""
        try:
            said = dict(line.split(": ", 1) for line in self.sums.read_text(encoding="utf-8").splitlines())
            return Made(said["sources"], said["toolchain"], said["program"])
        except (OSError, ValueError, KeyError):
            return None

    def why_old(self):
        """Why the program is to be built, or none where it is that of these sources."""
        made = self.made()
        if not os.access(self.program, os.X_OK) or not self.program.is_file():
            return "it is not built yet"
        if not made or made.program != sum_of(self.program):
            return "nothing says what it was built of"
        if made.sources != self.sources():
            return "its sources have changed"
        # (without a toolchain nothing could be built anyway)
        return None if made.toolchain == (toolchain() or made.toolchain) else "the toolchain is another"

    def number(self):
        """The version's number."""
        return (self.top / "VERSION").read_text(encoding="utf-8").strip()

    def version(self):
        """The version, the commit, the toolchain, and whether the program is built, a line each."""
        old = self.why_old()
        return "\n".join([f"nfs41d {self.number()}", f"commit {self.commit()}", f"toolchain {toolchain() or 'rt is not on the path'}",
                          f"program {'to be built, since ' + old if old else 'built of these sources'}"])

    def told(self):
        """Of what the program that stands here was built, a line each."""
        made = self.made()
        return f"nfs41d {self.number()}\ncommit {self.commit()}\ntoolchain {made.toolchain}\nsha256 {made.program}\n"

    def commit(self):
        """The commit that is checked out, and whether it has changes beside it."""
        commit = of_git(self.top, "rev-parse", "HEAD") if (self.top / ".git").exists() else None
        return f"{commit} with changes" if commit and of_git(self.top, "status", "--porcelain") else commit or "unknown"

    def mark(self):
        """What tells whether the program was made anew."""
        try:
            found = os.stat(self.program)
        except OSError:
            return None
        return found.st_ino, found.st_size, found.st_mtime_ns

    def note(self, mark, sources):
        """Writes the file of sums, where the program is no longer that of the mark, and its sources are still those of the sum."""
        if self.mark() in (None, mark) or not sources or self.sources() != sources:
            return
        made = self.sums.with_name(f"{self.sums.name}-{os.getpid()}")
        made.write_text(f"sources: {sources}\ntoolchain: {toolchain()}\nprogram: {sum_of(self.program)}\n", encoding="utf-8")
        made.rename(self.sums)


def sum_of(path):
    """The SHA-256 of a file."""
    return hashlib.sha256(Path(path).read_bytes()).hexdigest()


def of_git(top, *words):
    """What git says of a repository, or none where it says nothing."""
    try:
        ran = subprocess.run(["git", "-C", str(top), *words], stdin=subprocess.DEVNULL, capture_output=True, text=True, check=False)
    except OSError:
        return None
    return ran.stdout.strip() if ran.returncode == 0 else None


if __name__ == "__main__":
    # (what tools/install asks: of what the program was built, or why there is none)
    found = Build()
    if why := found.why_old():
        sys.exit(f"the program is not that of these sources ({why}): ./nfs41d build builds it")
    print(found.told(), end="")
