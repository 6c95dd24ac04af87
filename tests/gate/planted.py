"""What tests/gate/believed has to turn red: laws, pages, pins, names and counts that show nothing, each planted in a
repository of one crate, `tried`. tests/gate/planted.txt has the files of that repository and other texts, and
tests/gate/planted.tsv the bugs. `tests/gate/selftest` stands on it."""

import contextlib
import functools
import io
import itertools
import os
import string
import subprocess
import tempfile
from pathlib import Path

import rattle
from cases import judge

TESTS = Path(__file__).resolve().parents[1]
BELIEVE = rattle.script(TESTS / "gate/believed")
TEXTS = rattle.sections_of(TESTS / "gate/planted.txt")
# what the repository has, and what more it has where bugs of laws are planted
OTHERS = ("both ", "tried.rlib/")
FILES = {name: text for name, text in TEXTS.items() if "/" in name and not name.startswith(OTHERS)
         or name in ("HANDLES", "crates.txt")} | {"crates/tried/must-fail/turned.edit": TEXTS["wrong"]}
FIRST = ("src/lib.rt", "auto)]\n", f"auto)]\n\n{TEXTS['shows']}\n", "src/laws.rt", "", TEXTS["laws"],
         *(it for name in ("Words", "Other", "Turned") for it in (f"specs/{name}.antt", "", TEXTS[name.lower()])))
UNMET = "- `tried Words.Met`: `tried laws::quotients`"


def told(what, is_well):
    judge(f"the gate does not hold: {what}", is_well)


def rows(case):
    """The lines of a case, with texts in the places of their names."""
    filled = lambda it: string.Template(it).substitute(TEXTS).replace("\\n", "\n").replace("\\t", "\t")
    return [[filled(it) for it in more] for name, *more in rattle.rows_of(TESTS / "gate/planted.tsv") if name == case]


class Repository:
    """A repository of one crate, `tried`, with an edit, or of other files, in which these changes are made."""

    def __init__(self, room, *changes, files=FILES):
        self.top = Path(room)
        for path, text in files.items():
            self.write(path, text)
        self.change(changes)

    def change(self, changes):
        """Makes changes: a file, what is there, and what comes in its place."""
        for file, old, new in itertools.zip_longest(*[iter(changes)] * 3, fillvalue=""):
            path = f"crates/tried/{file}" if file.startswith(("src/", "specs/", "must-fail/")) else file
            was = rattle.text_of(self.top / path)
            if old == "-":
                (self.top / path).unlink()
            elif old == "x":
                self.write(path, new)
                (self.top / path).chmod(0o644)
            elif old in ("", "+"):
                self.write(path, f"{was}\n{new}" if old else new)
            elif old in was:
                self.write(path, was.replace(old, new).removesuffix("\n"))
            else:
                raise ValueError(f"{path} has no {old}")

    def write(self, file, text):
        path = self.top / file
        path.parent.mkdir(parents=True, exist_ok=True)
        path.write_text(f"{text}\n", encoding="utf-8")
        path.chmod(0o755 if text.startswith("#!") else 0o644)

    def ran(self, *words):
        # (what it proves is kept for nobody)
        with tempfile.TemporaryDirectory(prefix="rt-kept-") as cache:
            return subprocess.run([TESTS / words[0], *words[1:]], cwd=self.top, stdin=subprocess.DEVNULL,
                                  stdout=subprocess.PIPE, stderr=subprocess.STDOUT, text=True, errors="replace",
                                  env={**os.environ, "XDG_CACHE_HOME": cache})


def said(repository, *flags):
    """What tests/gate/believed says of a repository, and its status, by a call in place of a process."""
    with contextlib.redirect_stdout(io.StringIO()) as text:
        status = BELIEVE.main([*flags, str(repository.top)])
    return status, text.getvalue()


def looked(changes, anew):
    """The same of a repository in which these changes are made after its page, which is made anew if so asked; and the
    page."""
    with tempfile.TemporaryDirectory(prefix="rt-tried-") as room:
        repository = Repository(room, *FIRST)
        said(repository, "--write")
        repository.change(changes)
        if anew:
            said(repository, "--write")
        return *said(repository), rattle.text_of(repository.top / "docs/BELIEVED.md")


def planted(case):
    """The bugs of a case: the check fails and says so or, where all is right, passes, and the calls lean on so much."""
    for what, ends, why, *changes in rows(case):
        status, text, page = looked(changes, ends != "stale")
        is_right, _, leans = ends.partition(" ")
        holds = status == 0 if is_right == "right" else status != 0 and why in text
        told(what, holds and (not leans or f"\n| The calls that the program makes | {leans} |" in page))


def premises_that_are_met():
    found = [UNMET in looked(changes, True)[2] for _, *changes in rows("premises_that_are_met")]
    told("a premise that no worked example meets", found == [True, False])


NAMES = ("statements", "pages", "contracts", "examples", "imports", "names", "meaning", "passed_on", "hidden",
         "ghosts", "pins", "fields", "counts", "spare", "libraries")
CASES = {**{name: functools.partial(planted, name) for name in NAMES}, "premises_that_are_met": premises_that_are_met}
