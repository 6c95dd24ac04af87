"""Reads the imports of definitions and proofs (`crates/*/specs/**/*.antt` and `crates/*/proofs/**/*.antt`), and finds
names that a file passes on (`pub use`) to nobody. `tests/gate/definitions.py` and `tests/gate/believed` stand on it.

A line may bring names of many modules, as `use Rattle.low.specs.{Grid.{area, side as edge}, Lines.all}` does."""

import itertools
import re
from collections import namedtuple

import rattle

IMPORT = re.compile(r"^((?:(?:pub|unfoldable)\s+)*)use\s+([^\n]*(?:\n[ \t}][^\n]*)*)", re.M)
IN_FULL = re.compile(r"(?<![\w.])Rattle\.\w+\.[^\s(){},;\[\]⟦⟧]+")


class Import(namedtuple("Import", "path name other is_passed")):
    """What an import brings: the path of a module, the name taken of it, if any, by which name; is it passed on?"""

    @property
    def is_all(self):
        return self.name == "*"

    def __str__(self):
        return f"{self.path}.{self.name}" if self.name else self.path


def parts_of(text):
    """The parts of a list between the commas that stand in no braces of it."""
    depths = itertools.accumulate((it == "{") - (it == "}") for it in text)
    parts = "".join("\n" if it == "," and not depth else it for it, depth in zip(text, depths)).split("\n")
    return [it.strip() for it in parts if it.strip()]


def paths_in(text):
    """Yields each path that a text with braces brings, and what it is called here."""
    head, opens, rest = text.partition("{")
    if opens:
        for part in parts_of(rest.rpartition("}")[0]):
            for path, other in paths_in(part):
                yield head.strip() + path, other
    else:
        path, _, other = head.strip().partition(" as ")
        yield path.strip(), other.strip()


def brought(said, is_passed=False):
    """What the text of an import brings, behind the word `use`."""
    text = " ".join(said.split())
    for path, other in paths_in(text):
        above, _, name = path.rpartition(".")
        is_name = "{" in text or name == "*"
        yield Import(above if is_name else path, name if is_name else None, other or name, is_passed)


def read(text):
    """What the imports of a file bring, whose comments are gone."""
    return [it for marks, said in IMPORT.findall(text) for it in brought(said, "pub" in marks.split())]


def unused(top):
    """The names that a file of definitions or of proofs passes on, and that no other file takes of it."""
    passed, taken = {}, set()
    for path in sorted(top.glob("crates/*/*/**/*.antt")):
        crate, kind, *inside = path.relative_to(top / "crates").with_suffix("").parts
        if kind in ("specs", "proofs"):
            text = rattle.without_comments(path.read_text(encoding="utf-8"))
            some, module = read(text), ".".join(["Rattle", crate, kind, *inside]).removesuffix(".Lib")
            passed.update({f"{module}.{it.other}": path for it in some if it.is_passed and it.name and not it.is_all})
            taken |= taken_by(text, some)
    for path in sorted(top.glob("crates/*/src/**/*.rt")):
        source = rattle.read(path)
        taken |= taken_by(source.plain, [it for said in source.ghost_uses for it in brought(said)])
    return [f"{path.relative_to(top / 'crates')}: it passes {name.rpartition('.')[2]} on, and no file takes that"
            for name, path in passed.items() if name not in taken]


def taken_by(text, some):
    """The paths of names that a file takes: by imports, in full, and behind the name of a module brought in whole."""
    behind = {it.other: it.path for it in some if not it.name}
    found = {str(it) for it in some if it.name} | {it.rstrip(".") for it in IN_FULL.findall(text)}
    for other, path in behind.items():
        found |= {f"{path}.{it}" for it in re.findall(rf"(?<![\w.]){re.escape(other)}\.([^\s(){{}},;\[\]⟦⟧.]+)", text)}
    return found
