"""The contract of each public function of each crate, a line each (tests/gate/believed --lists FOLDER), and which of
these functions only tests call. `tests/gate/believed` stands on it. docs/BELIEVED.md has a sum of all lines, so no
contract changes without a change of it. tests/gate/uncalled.tsv says why there are functions that only tests call."""

import re

import rattle
from edits import public
from pinned import TESTS, bodies

CALL = re.compile(r"(?:(\w+)(?:::<[^>]*>)?::|(\.)\s*|\b)(\w+)(?=\s*(?:::<|[(),;}]))")
HEAD = """\
# The contract of each public function (tests/gate/believed --lists): crate, function, clauses that ask, clauses
# that state, sum of what they lean on.
"""


def page(top, promises):
    """A line for each contract."""
    lines = []
    for folder in rattle.crates(top):
        places = {it: folder / file for file, (source, _) in rattle.tree(folder).items() for it in source.functions}
        for path, it in sorted(public(folder).items()):
            asks = sum(clause.kind != "ensures" for clause in it.clauses)
            cited = set().union(*(promises.all.cited_in(places[it], clause) for clause in it.clauses))
            needed, _, types = promises.behind(cited)
            said = [line for clause in it.clauses for line in promises.all.meaning_in(places[it], clause)]
            summed = rattle.sum_of([" ".join(it.takes.split()), *said, *promises.all.text_of(needed, types)])[:10]
            lines.append(f"{folder.name}\t{path}\t{asks}\t{len(it.clauses) - asks}\t{summed}\n")
    return HEAD + "".join(lines)


def uncalled(top):
    """The public functions that only tests call, as far as names tell."""
    # (what is called by code that is none of tests: by its name, who calls it, and the word in front of it)
    called = {}
    for _, source, it in bodies(top):
        for call in CALL.finditer(source.plain, it.opens, it.closes):
            called.setdefault(call[3], set()).add((it, call[1] or call[2] or ""))
    for folder in rattle.crates(top):
        is_library = (folder / "src/lib.rt").is_file() and folder.name not in TESTS
        for path, it in public(folder).items() if is_library else ():
            owner = it.owner.name if it.owner else ""
            is_method = re.search(r"\(\s*(?:&\s*)?(?:'\w+\s+)?(?:mut\s+)?self\b", it.takes)
            module = path.rpartition("::")[0].rpartition("::")[2]
            fits = (".", owner, "Self") if is_method else (owner, "Self") if owner else ("", module, folder.name)
            is_called = any(who is not it and front in fits for who, front in called.get(it.name, ()))
            if it.sees == "pub" and not path.startswith("laws::") and not is_called:
                yield f"{folder.name}\t{path}"


def faults(top, rows):
    """Where a function that only tests call has no reason."""
    told, there = {"\t".join(it[:2]): it[2:] for it in rows}, {*uncalled(top)}
    found = [f"{' '.join(it.split())}: only tests call it, and tests/gate/uncalled.tsv has no reason for it"
              for it in sorted(there - told.keys())]
    found += [f"tests/gate/uncalled.tsv: {' '.join(it.split())}: it is called, or it is not there"
              for it in sorted(told.keys() - there)]
    bare = [it for it, why in told.items() if len(" ".join(why).split()) < 3]
    return found + [f"tests/gate/uncalled.tsv: it gives no reason for {it}" for it in bare]


def proved(top):
    """How many functions of built libraries have by the toolchain the contract that is read here, and which have not:
    out/rlib/NAME.rlib/lang/src has the heads and clauses of a library's sources as the checker took them."""
    same, found = 0, []
    said = lambda it: [(one.kind, "".join(one.text.split())) for one in it.clauses]
    clauses_of = lambda source: {(it.owner.holder if it.owner else "", it.name): said(it)
                                 for it in source.functions if not it.is_test}
    for folder in rattle.crates(top):
        built = folder / f"out/rlib/{folder.name}.rlib/lang"
        if (folder / "src/lib.rt").is_file() and not built.is_dir():
            found.append(f"{folder.name}: it was not built, so nothing tells what was proved of it")
        for file, (source, is_test) in rattle.tree(folder).items() if built.is_dir() else ():
            mine = {} if is_test else clauses_of(source)
            told = clauses_of(rattle.read(built / file)) if (built / file).is_file() else {}
            wrong = [it for it in mine if told.get(it) != mine[it]]
            for it in wrong:
                took = f"the checker took {told.get(it, 'no such function')}, and not {mine[it]}"
                found.append(f"{folder.name} {file}: {'::'.join(filter(None, it))}: {took}")
            same += len(mine) - len(wrong)
    return same, found
