"""What proofs have that they could do without: a statement that is proved twice, a lemma that nothing names, and a name
that a file imports and does not use. `tests/gate/believed` stands on it: tests/least.tsv has how many there are in each
crate, and those numbers only fall."""

import re
from collections import Counter, defaultdict

import imports
import rattle

HEAD = re.compile(r"( {0,2})(?:(?:pub|abbrev|unfoldable|opaque) )*([A-Za-z_][\w'-]*) :\s+(?!≡)(\S.*)")
BOUND = re.compile(r"[({]([A-Za-z_][\w' -]*?) :|λ ([\w' -]+)\.")
# files that answer the goals of a function: their names are the goals'
ANSWERS = ("Answers", "Invariants", "Proof")
KINDS = ("twins", "dead lemmas", "unused imports")
# a statement of fewer letters says little, and may well be there twice
SHORT = 30


def words_of(text):
    """The words of a text, each part of a path by itself."""
    return [part for it in rattle.WORD.findall(text) for part in re.split(r"[.:]+", it) if part]


class Lemma:
    """A definition of a file of proofs: its name, its statement, and how often its own text has its name."""

    def __init__(self, place, name, first):
        self.place, self.name, self.statement, self.own, self.has_body = place, name, [first], 1, False

    def __str__(self):
        return f"{self.place} {self.name}"

    def take(self, line):
        """Takes a line of it: its statement goes on in lines that begin with an arrow."""
        self.own += words_of(line).count(self.name)
        is_more = not self.has_body and line.lstrip().startswith(("→", "(let"))
        self.has_body = not is_more
        self.statement += [line.strip()] if is_more else []

    def blind(self):
        """The statement without the names that it binds, and without blanks more than one."""
        text, names = " ".join(self.statement), {}
        for it in BOUND.finditer(text):
            for name in (it[1] or it[2]).split():
                names.setdefault(name, f"v{len(names)}")
        put = lambda it: names.get(it[0], it[0])
        return " ".join(re.sub(r"(?<![\w.'-])[A-Za-z_][\w'-]*", put, text).split())


def lemmas(place, text):
    """The lemmas of a file of proofs; in a section they stand two columns further in."""
    now, indent = None, ""
    for line in (it for it in imports.IMPORT.sub("", text).splitlines() if it.strip()):
        if line.startswith("module ") or line[0] != " ":
            indent = "  " * line.startswith("module ")
        if not line.startswith(f"{indent} ") and (not indent or line.startswith(indent)):
            head = HEAD.match(line)
            if head:
                now = Lemma(place, head[2], head[3])
                yield now
                continue
            # (an equation goes on with it; a record, data or a module does not)
            now = now if now and words_of(line)[:1] == [now.name] else None
        if now:
            now.take(line)


def unused_imports(text):
    """The names that a file imports and does not use."""
    there = {*words_of(imports.IN_FULL.sub("", imports.IMPORT.sub("", text)))}
    for it in imports.read(text):
        # (an operator is used by its signs, or by its name: `◌≢◌ {A = ℕ} 5 0`)
        parts = {it.other, *(part for part in it.other.split("◌") if part)}
        is_used = there & parts or {">>", ">>="} & parts and {"do", "←"} & there or it.other == "[]" and "[" in text
        if not (it.is_passed or it.is_all or is_used):
            yield it.other


def found(top):
    """What of each kind each crate has that its proofs could do without."""
    words, twins, every, spare = Counter(), defaultdict(list), [], defaultdict(list)
    find = lambda kind, place, what: spare[f"{kind} of {place.parts[0]}"].append(what)
    for path in sorted(it for part in ("specs", "proofs") for it in top.glob(f"crates/*/{part}/**/*.antt")):
        place, text = path.relative_to(top / "crates"), rattle.without_comments(path.read_text(encoding="utf-8"))
        words.update(words_of(text))
        for it in unused_imports(text):
            find("unused imports", place, f"{place}: it does not use {it}")
        if place.parts[1] == "proofs" and path.stem not in ANSWERS:
            every += lemmas(place, text)
    for path in top.glob("crates/*/src/**/*.rt"):
        words.update(words_of(rattle.read(path).plain))
    for it in every:
        twins[it.blind()].append(it)
        if words[it.name] <= it.own:
            find("dead lemmas", it.place, f"{it}: nothing names it")
    for statement, (first, *others) in twins.items():
        for it in others if len(statement) >= SHORT else ():
            find("twins", it.place, f"{it}: it states what {first} does")
    return spare
