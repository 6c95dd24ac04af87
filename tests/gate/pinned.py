"""What is pinned, so that it cannot vanish unseen: must-fail edits, how many tests and asserts each crate has, how many
cases of each part of ./test pass, and the lines at which a body makes want of memory up: contracts allow that at any
call which asks for memory, so a body could say so without need. `tests/gate/believed` stands on it."""

import re
from collections import Counter

import rattle
import spare
from rattle import crates, text_of
from statements import split, tokens_of

TESTS = ("nfs_testing", "nfs_tests")
ASSERT = re.compile(r"\bassert\w*!\s*(?=[(\[{])")
ADDED = re.compile(r"^ *add (.+)$", re.M)
PART = re.compile(r"^part (.+): (\d+) passed, 0 failed$", re.M)
RED = re.compile(r"^part (.+): \d+ passed, [1-9]\d* failed$", re.M)
NUMBER = re.compile(r"\d+(?P<range>-\d+)?(?P<none> or none)?")
# the parts that pass another number on another machine, and those that may have nothing to run
MAY_VARY = ("tests/tools/release", "tests/client/linux")
MAY_SKIP = ("tests/server/cost", "tests/client/linux", "tests/client/ganesha")
WANT = re.compile(r"\b(?:AllocError|Memory|Delay)\b")
RENAMED = re.compile(r"\b(?:AllocError|Memory|Delay)\s+as\b")
ASK = re.compile(r"\bwith_capacity\(|(?<!copy_)from_slice\(|\.reserve\((?!alloc\)|\))|\.resize\(")
WANTS = """\
# Lines of bodies that make want of memory up, or pass it on by its name, and those that ask for an amount, with
# what bounds that (tests/gate/believed --pin): crate, function, line, bound.
"""


def wrong_bodies(top):
    """The must-fail edits of the repository, as crate/name."""
    return sorted(f"{it.parent.parent.name}/{it.stem}" for it in top.glob("crates/*/must-fail/*.edit"))


def tests_of(folder):
    """How many tests a crate has, as the toolchain's runner counts them."""
    return sum("test" in it.attributes for source, _ in rattle.tree(folder).values() for it in source.functions)


def asserts_of(folder):
    """What each assert of a crate asks."""
    for source, _ in rattle.tree(folder).values():
        for it in ASSERT.finditer(source.plain):
            yield it[0].rstrip(), source.text[it.end() + 1 : source.end_of(it.end())]


def asks_nothing(word, asked):
    """Whether an assert compares a thing with itself, or asks for what is always so."""
    # (the runtime may stand in front of what is asked, and a message behind it)
    first, *more = split(split(tokens_of(asked), ";")[-1], ",")
    sides = [first, *more[:1]] if "_eq" in word else next(
        (it for sign in ("==", ">=", "<=") if len(it := split(first, sign)) == 2), [])
    return first == ["true"] or len(sides) == 2 and sides[0] == sides[1]


def counts(top):
    """How many tests and asserts the sources of each crate have that has any."""
    found = {}
    for folder in crates(top):
        if count := tests_of(folder):
            found |= {f"tests of {folder.name}": count, f"asserts of {folder.name}": len([*asserts_of(folder)])}
    return found


def bodies(top):
    """Each function with a body whose code is none of tests, with its crate's name and its source."""
    return ((folder.name, source, it) for folder in crates(top) if folder.name not in TESTS for _, source,
            it in rattle.bodies(folder))


def wants(top):
    """The lines at which a body names want of memory or asks for some, each with its crate and its function."""
    for crate, source, it in bodies(top):
        for line in source.plain[it.opens : it.closes].splitlines():
            if WANT.search(line) or ASK.search(line):
                yield "\t".join((crate, str(it), line.strip()))


def bounds(top):
    """What tests/gate/wants.tsv says that bounds what a line asks for."""
    return {"\t".join(it[:3]): it[3] for it in rattle.rows_of(top / "tests/gate/wants.tsv") if len(it) > 3}


def faults(top, rows):
    """Where wants of memory, edits, tests, asserts and parts are not as they are pinned."""
    listed = Counter("\t".join(it[:3]) for it in rattle.rows_of(top / "tests/gate/wants.tsv"))
    bound, there = bounds(top), Counter(wants(top))
    found = [f"tests/gate/wants.tsv: no body has {it}" for it in listed - there]
    unlisted = "want of memory that tests/gate/wants.tsv does not list (tests/gate/believed --pin)"
    found += [f"{unlisted}: {it}" for it in there - listed]
    found += [f"tests/gate/wants.tsv: it does not say what bounds {it}" for it in there
              if ASK.search(it) and len(bound.get(it, "").split()) < 2]
    for folder in crates(top):
        uses = [use for source, _ in rattle.tree(folder).values() for _, use, _ in source.uses]
        found += [f"{folder.name}: another name for want of memory: use {use}" for use in uses if RENAMED.search(use)]
        found += [f"{folder.name}: {word}({asked.strip()}) asks nothing" for word, asked in asserts_of(folder)
                  if asks_nothing(word, asked)]
    for it in sorted(top.glob("crates/*/must-fail/*")):
        is_list = it.name == "UNTURNED.md" or it.suffix == ".md" and it.with_suffix(".edit").is_file()
        if it.suffix != ".edit" and not is_list:
            found.append(f"{it.relative_to(top)}: it is no edit, and no list beside one")
    due = {it[0]: it[1] for it in rows if is_number(*it)}
    wrong = "no line of a name and a number, or of one that may vary and its reason"
    found += [f"tests/least.tsv: {wrong}: {' '.join(it)}" for it in rows if it[0] not in due]
    much = spare.found(top)
    for it in sorted(much.keys() | {it for it in due if it.startswith(spare.KINDS)}):
        most, there = int(due.pop(it, "0")), much.get(it, [])
        if len(there) != most:
            found.append(f"{it}: {len(there)}, and tests/least.tsv has {most}, which only falls (believed --pin)")
        found += there * (len(there) > most)
    counted = {**{it: 0 for it in due if " of " in it}, **counts(top)}
    found += [f"{name}: {count}, and tests/least.tsv has {due.get(name, 'none')} (tests/gate/believed --pin)"
              for name, count in sorted(counted.items()) if count != int(due.get(name, "0"))]
    # (./test, tests/least.tsv and the scripts of tests/ name the same parts)
    added, told = ADDED.findall(text_of(top / "test")), [it for it in due if " of " not in it]
    found += [f"tests/least.tsv: it says nothing of {it}, which ./test runs" for it in added if it not in told]
    found += [f"./test does not run {it}" for it in scripts(top) if not is_run(top, it, added)]
    return found + [f"./test does not run {it}, of which tests/least.tsv tells" for it in told if it not in added]


def is_number(name, number="", reason=""):
    """Whether a line of tests/least.tsv has a number, which only some parts may vary or lack, and with a reason."""
    of = NUMBER.fullmatch(number)
    is_free = of and (not of["range"] or name in MAY_VARY) and (not of["none"] or name in MAY_SKIP)
    return bool(is_free) and bool(reason) == bool(of["range"] or of["none"])


def scripts(top):
    """The scripts below tests/, whatever their mode is."""
    for it in sorted(top.glob("tests/**/*")):
        if it.is_file() and it.open("rb").read(2) == b"#!":
            yield str(it.relative_to(top))


def is_run(top, script, added):
    """Whether ./test runs a script, or one that it runs names it."""
    run = [it.split()[0] for it in added]
    return script in run or any(script.rpartition("/")[2] in text_of(top / it) for it in run)


def write(top, log):
    """Pins what is there and, where a log of ./test is given, how many cases of each of its green parts passed; a range
    stays. The status is 1, with a line for each, where a part of the log is red, or it has none: their numbers stay."""
    bound = bounds(top)
    lines = "".join(f"{it}\t{bound.get(it, '')}".rstrip() + "\n" for it in wants(top))
    (top / "tests/gate/wants.tsv").write_text(WANTS + lines, encoding="utf-8")
    path, passed = top / "tests/least.tsv", dict(PART.findall(log))
    was, much = {it[0]: it[1] for it in rattle.rows_of(path) if len(it) > 1}, spare.found(top)
    # (what proofs could do without only falls)
    numbers = {**counts(top), **{it: min(len(much[it]), int(was.get(it, len(much[it])))) for it in sorted(much)}}
    text = re.sub(rf"^(?:tests|asserts|{'|'.join(spare.KINDS)}) of \w+\t.*\n", "", text_of(path), flags=re.M)
    text = re.sub(r"^([^\t\n]+)\t\d+( or none\t.*)?$",
                  lambda it: f"{it[1]}\t{passed[it[1]]}{it[2] or ''}" if it[1] in passed else it[0], text, flags=re.M)
    path.write_text(text + "".join(f"{name}\t{count}\n" for name, count in numbers.items()), encoding="utf-8")
    kept = [f"{name} is red in the log: its number stays" for name in RED.findall(log)]
    if log and not passed and not kept:
        kept = ["the log has no line 'part NAME: N passed, 0 failed': no number of a part was taken"]
    print("".join(f"tests/gate/believed --pin: {line}\n" for line in kept), end="")
    return 1 if kept else 0
