"""The numbers of docs/TESTING.md: what each row of its table of numbers counts, by the sources or by tests/least.tsv; and the limits of
docs/OPERATING.md, by the constants of the sources. As a command it prints how many lines of Python each folder has."""
import ast
import re
import sys
from pathlib import Path

TOP = Path(__file__).resolve().parents[2]
sys.path[:0] = [str(TOP / "tools"), str(TOP / "tests/gate")]
import nfs4  # noqa: E402
import rattle  # noqa: E402
from words import Words  # noqa: E402
from wrong_servers import WRONG  # noqa: E402


def found(name):
    """The script or module of this name below tests."""
    return next(path for path in sorted((TOP / "tests").rglob(name)) if path.is_file())


def least():
    """How many cases each part passes by tests/least.tsv, the fewest and the most, and how many tests and asserts the crates have."""
    return {name: re.findall(r"\d+", number) for name, number, *_ in rattle.rows_of(TOP / "tests/least.tsv")}


def most(part):
    """The most cases that a part passes."""
    return int(least()[part][-1])


def tests_of_crates():
    return sum(int(counts[0]) for name, counts in least().items() if name.startswith("tests of "))


def constant(script, name):
    """A number that a script gives a name."""
    return int(re.search(rf"^ *{name}(?:, \w+)? = ([\d_]+)(?:, [\d_]+)?$", found(script).read_text(encoding="utf-8"), re.M)[1])


def seeds(script):
    first, after = re.search(r"^SEEDS = range\((\d+), (\d+)\)$", found(script).read_text(encoding="utf-8"), re.M).groups()
    return int(after) - int(first)


def rows():
    return sorted(found("INDEX.tsv").parent.rglob("*.script"))


def replies():
    """The replies that the rows expect."""
    return sum(len(list(nfs4.replies(path.with_suffix(".expected").read_bytes()))) for path in rows())


def wrong_servers():
    """The servers that docs/PROMISES.md lists as refused: the items below each "refuses a server that"."""
    text = (TOP / "docs/PROMISES.md").read_text(encoding="utf-8")
    return sum(it.count("\n  - ") for it in re.findall(r"efuses(?:\*\*)? a server that((?:\n  .*)+)", text))


def wrong_clients():
    """The planted faults of tests/judge."""
    table = re.search(r"^FAULTS = \{\n(.*?)^\}$", found("judge").read_text(encoding="utf-8"), re.M | re.S)[1]
    return len(re.findall(r'\w+: "', table))


PLAYED = ("network", "locks", "shares")
COUNTS = {
    "rows, each a conversation with a known answer": lambda: len(rows()),
    "replies in them, compared byte for byte": replies,
    "runs at random, each beside a record of its own": lambda: sum(seeds(it) for it in PLAYED),
    "events in these runs": lambda: sum(seeds(it) * constant(it, "EVENTS") for it in PLAYED),
    "records with changed bytes, sent beside a good client": lambda: constant("hostile", "MUTATED"),
    "wrong bodies, each refused by a contract": lambda: len(list(TOP.glob("crates/*/must-fail/*.edit"))),
    "tests of the crates": tests_of_crates,
    "wrong servers, each refused by a law": wrong_servers,
    "wrong servers that a judge of servers has to find": lambda: len(WRONG),
    "wrong clients that a judge of clients has to find": wrong_clients,
    "checks of runs in which memory is refused": lambda: most("tests/server/memory"),
    "checks of what hostile peers take from a good client": lambda: most("tests/server/hostile"),
    "checks with the Linux client": lambda: most("tests/client/linux"),
    "bugs planted to try the gate": lambda: most("tests/gate/selftest"),
}

# rows of the table of limits, each with its crate, its file and its constant, or the field of one
LIMITS = {
    "Client records": "nfs_names start clients",
    "Sessions": "nfs_names start sessions",
    "Slots of a session": "nfs_sessions channel MAX_SLOTS",
    "A request or a reply": "nfs_xdr limits MAX_RECORD",
    "Operations of one request": "nfs_sessions channel MAX_OPERATIONS",
    "The name of an owner": "nfs_xdr limits OPAQUE_LIMIT",
    "One READ or WRITE": "nfs_xdr limits MAX_TRANSFER",
    "Files, directories and links, with the root": "nfs_tree limits objects",
    "A file": "nfs_tree limits bytes",
    "Names of one object": "nfs_tree tree MAX_LINKS",
    "A name": "nfs_tree tree MAX_NAME",
    "The text of a symbolic link": "nfs_tree tree MAX_TEXT",
}


def limits(lines):
    """What is wrong with each row of LIMITS in a table, or None."""
    told = {what: number.split(" ")[0] for what, number in (re.findall(r"[^|]+", it)[:2] for it in (re.sub(r" *\| *", "|", it) for it in lines[2:]))}
    for what, place in LIMITS.items():
        crate, file, name = place.split(" ")
        number = int(re.search(rf"\b(?:const {name}: \w+ =|{name}:) ([\d_]+)[;,]", rattle.text_of(TOP / f"crates/{crate}/src/{file}.rt"))[1])
        yield None if told.get(what) == f"{number:,}" else f"{what}: it has {told.get(what)}, and the sources {number:,}"


def compared(lines):
    """The lines of the table of numbers as they are to be, and what is wrong with the names of its rows."""
    made, faults, seen = lines[:2], [], set()
    for line in lines[2:]:
        what, number, *rest = [it.strip() for it in line.strip().strip("|").split("|")]
        seen.add(what)
        if what not in COUNTS:
            faults.append(f"nothing counts '{what}'")
        made.append("| " + " | ".join([what, f"{COUNTS[what]():,}" if what in COUNTS else number, *rest]) + " |")
    return made, faults + [f"it has no line for '{what}'" for what in COUNTS if what not in seen]


def has_code(text):
    """How many lines of Python have code: no comment, no blank line, no docstring."""
    tree, lines = ast.parse(text), text.split("\n")
    of = lambda it: range(it.lineno, it.end_lineno + 1)
    words = {at for it in ast.walk(tree) if isinstance(it, ast.Constant) and isinstance(it.value, str) for at in of(it)}
    docs = {at for it in ast.walk(tree) if isinstance(it, ast.Expr) and isinstance(it.value, ast.Constant) for at in of(it)}
    return sum(1 for at, it in enumerate(lines, 1) if at not in docs and (at in words or it.strip() and not it.strip().startswith("#")))


def python_by_folder():
    """How many lines of code the scripts and modules of each folder have, in Python."""
    found = {}
    for path in (it for folder in ("tools", "tests", "bench", "docs", ".") for it in (TOP.glob("*") if folder == "." else (TOP / folder).rglob("*"))):
        if path.is_file() and "out" not in path.parts and (path.suffix == ".py" or not path.suffix and re.match(rb"#!.*python", path.read_bytes())):
            folder = "/".join(path.relative_to(TOP).parts[:-1][:2 if path.is_relative_to(TOP / "tests") else 1])
            found[folder or "nfs41d"] = found.get(folder or "nfs41d", 0) + has_code(path.read_text(encoding="utf-8"))
    return found


if __name__ == "__main__":
    Words(__doc__, prog="counted.py").parse_args()
    found = python_by_folder()
    print("\n".join([*(f"{it}\t{count}" for it, count in found.items()), f"in all\t{sum(found.values())}"]))
