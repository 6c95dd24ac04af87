"""Reads the definitions of a repository's crates (`crates/*/specs/**/*.antt`), what each of them names, and the
contracts of its sources (`crates/*/src/**/*.rt`). `tests/gate/believed` stands on it.

A name that a file passes on (`pub use`) is that of the file that defines it, through however many. A folder's list of
files may pass on names too, all those of a file of the folder with `pub use FILE.*`. What a text means is in its sum:
its words, the path of each name that it takes of another file or of std, its sections, and the fixity of an operator.

What cannot be followed by the text is refused: an import that resolves to nothing or to itself, or whose path does not
begin with `Rattle.`; one that passes a module on, brings all of a module into a file of definitions, or has another
name for what is no definition and no module of the repository; a thing of one's own under a name that a reader takes
for the library's, as ⊥; a module with a name in a file of definitions; what rattle.hidden finds in a source."""

import functools
import re

import imports
import rattle
from imports import IN_FULL
from rattle import WORD, without_comments

MODULE = re.compile(r"^(?:pub )?mod .*", re.M)
HEAD = re.compile(r"((?:(?:pub|abbrev|unfoldable|opaque|data|record)\s+)+)([^\s(){}:]+)|()([^\s(){}:]+)\s*:(?=\s|$)")
SECTION = re.compile(r"( *)module (\S+)(?: .*)? where$")
FIELD = re.compile(r"^[ \t]+pub [^:\n]*:", re.M)
FIXITY = re.compile(r" *infix[lr]? +\d+ +(\S+)$")
# names that are nobody's: a reader takes each for the library's
TAKEN = "⊥ ⊤ tt absurd Unit ℕ ℤ Bool true false Option Some None Result Ok Err List Type × ⊎ ≡ ≢ ≤ ≥ < > ↔ ¬ →".split()
TYPES = "|".join(it for it in TAKEN[:18] if it not in "tt true false Some None Ok Err".split())
BOUND = rf"\s*(?:[^\s(){{}}:.=]+\s+)*?(?:{TYPES})(?=[\s:.=])[^(){{}}:.=]*[:.=](?!\w)"
BINDS, HEADS = re.compile(rf"(?:[(λ{{]|\blet\b){BOUND}"), re.compile(f"^{BOUND}", re.M)


class Definition:
    """A definition: its lines of meaning, the heads of the sections that it stands in, its fixity, and its kind."""

    def __init__(self, file, name, line, within=()):
        self.file, self.name, self.lines, self.within, self.fixity = file, name, [], list(within), []
        self.is_record, self.is_data = (bool(re.match(rf"(?:\w+ )*{it} ", line)) for it in ("record", "data"))

    def __str__(self):
        return f"{' '.join(self.file)}.{self.name}"


class Definitions:
    """The definitions of a repository's crates."""

    def __init__(self, top):
        self.top, self.faults = top, []
        self.files, self.names, self.imports, self.std = {}, {}, {}, {}
        # (what each file passes on, by its names; all names of a file below it by `*`)
        self.passed = {}
        # (of each source that was read; the text of each Rust type that is named; what each definition names)
        self.clauses, self.declared, self.known_by = {}, {}, {}
        brought = {}
        for path in sorted(top.glob("crates/*/specs/**/*.antt")):
            crate, _, *inside = path.relative_to(top / "crates").with_suffix("").parts
            is_list = path.name == "Lib.antt" or path.with_suffix("").is_dir()
            file = crate, ".".join(inside).removesuffix("Lib" * is_list).rstrip(".")
            text = without_comments(path.read_text(encoding="utf-8"))
            brought[file] = path, imports.read(text)
            (self.read_list if is_list else self.read)(file, path, text)
            self.pass_on(file, brought[file][1])
        for file, (path, some) in brought.items():
            is_list = file not in self.files
            self.imports[file], self.std[file] = self.imports_of(
                path, [it for it in some if not is_list or not it.is_all])
            for below in self.passed.get(file, {}).get("*", ()) if is_list else ():
                if below not in self.names:
                    self.faults.append(f"{self.place(path)}: there is no file {below[1]} to pass on")

    def place(self, path):
        return path.relative_to(self.top / "crates")

    # Files of definitions.

    def read_list(self, file, path, text):
        """Reads a folder's list of files, which may pass names on."""
        for line in imports.IMPORT.sub(lambda it: "" if "pub" in it[1].split() else it[0], text).splitlines():
            if line.strip() and not re.fullmatch(r"pub mod \w+\s*", line):
                self.faults.append(f"{path.relative_to(self.top)}: more than a list of files: {line.strip()}")
        if imports.IMPORT.search(text):
            self.names[file] = {}

    def pass_on(self, file, some):
        for it in (it for it in some if it.is_passed and it.name):
            passed = self.passed.setdefault(file, {})
            if it.is_all:
                passed.setdefault("*", []).append((file[0], f"{file[1]}.{it.path}".strip(".")))
            else:
                passed[it.other] = it

    def read(self, file, path, text):
        """Reads the definitions of a file: a line that begins one, those that go on with it, and its equations."""
        self.files[file], names = path, self.names.setdefault(file, {})
        now, within, fixities, faults = None, [], {}, []
        faults += [f"a module below a file of definitions: {it.strip()}" for it in MODULE.findall(text)]
        text = MODULE.sub("", imports.IMPORT.sub("", text))
        bound = (it[0].strip() for some in (BINDS, HEADS) for it in some.finditer(text))
        faults += [f"a name that is the library's: {it}" for it in bound]
        for line in (it for it in text.splitlines() if it.strip()):
            if fixity := FIXITY.match(line):
                fixities.update(dict.fromkeys(fixity[1].split(), line.strip()))
                continue
            while within and not line.startswith("  " * len(within)):
                within.pop()
            if section := SECTION.match(line):
                faults += [f"a module with a name: {line.strip()}"] * (section[2] != "_")
                within.append(line.strip())
                continue
            # (what stands in a section stands two columns further in)
            line = line[2 * len(within) :]
            if not line.startswith((" ", "\t", "|", ")", "}")):
                now = self.begun(names, file, line, within) or now
            elif (constructor := re.match(r"\s+\|?\s*([^\s(){}:]+) :(?=\s)", line)) and now:
                names.setdefault(constructor[1], now)
            if now:
                now.lines.append(line)
            else:
                faults.append(f"of no definition: {line.strip()}")
        for name, line in fixities.items():
            if name in names:
                names[name].fixity.append(line)
            else:
                faults.append(f"of no definition: {line}")
        faults += [f"a name that is the library's: {it}" for it in names if it in TAKEN]
        self.faults += [f"{self.place(path)}: {it}" for it in faults]

    def begun(self, names, file, line, within):
        """The definition that a line begins or goes on with, or none."""
        first = WORD.match(line)
        # (an equation of a definition that is named as a word of declarations is none, as of `opaque`)
        head = None if first and first[0] in names and re.match(r"[^:]* = ", line) else HEAD.match(line)
        name = head and (head[2] or head[4])
        if head and (head[1] or name not in names):
            now = names[name] = Definition(file, name, line, within)
            # the parts of an operator stand for it too
            names.update({part: now for part in name.split("◌") if part})
            return now
        return names.get(first[0]) if first else None

    def imports_of(self, path, some):
        """What imported names stand for, a definition, as (file, name), or a file, (file, None); and names of std."""
        found, std, place = {}, {}, self.place(path)
        for it in some:
            if not it.path.startswith("Rattle.") or it.is_all or it.is_passed and not it.name:
                self.faults.append(f"{place}: it cannot be seen what this brings: use {it}")
                continue
            home, rest = self.home_of(it.path, place)
            cited = self.known(home, rest or it.name, place) if home and (rest or it.name) else home and (home, None)
            last = it.path.rpartition(".")[2]
            is_own = cited and not isinstance(cited, str) and (
                isinstance(home[1], str) or it.name in (None, last, "TheVariants"))
            if it.other != (it.name or last) and not is_own:
                self.faults.append(f"{place}: another name for what is none of its own: {it} as {it.other}")
            if cited and not isinstance(cited, str):
                self.faults += [f"{place}: a name that is the library's: {it} as {it.other}"] * (it.other in TAKEN)
                found.setdefault(it.other, set()).add(cited)
            else:
                std.update(dict.fromkeys([it.other, *filter(None, (it.name or "").split("◌"))], cited or str(it)))
        return found, std

    def known(self, home, name, place=None):
        """What a name of a file leads to, as (file, name), or its path if to std; nothing is a fault at a place."""
        found, why = self.found(home, name)
        if found or not place:
            return found
        self.faults.append(f"{place}: {why}")
        return home, name

    def found(self, home, name, above=()):
        """The same, where a name that a file passes on leads to what it stands for there; or why there is nothing."""
        if home not in self.names or name in self.names[home]:
            return (home, name), None
        if (home, name) in above:
            return None, f"{home[0]} specs.{home[1]} passes {name} on to itself"
        passed, above = self.passed.get(home, {}), (*above, (home, name))
        if name in passed and name != "*":
            it = passed[name]
            there, rest = self.home_of(it.path, None)
            return self.found(there, rest or it.name, above) if there else (str(it), None)
        some = (self.found(below, name, above)[0] for below in passed.get("*", ()))
        return next(filter(None, some), None), f"{home[0]} specs.{home[1]} defines no {name}"

    def home_of(self, path, place):
        """The file of specs/ that a path leads to, and the name behind it; or a Rust type, as (crate, (path,)); none
        where it leads out of the repository."""
        if not path.startswith("Rattle.") or not (self.top / "crates" / path.split(".")[1]).is_dir():
            return None, None
        _, crate, part, *rest = path.split(".")
        # what a clause on a loan says of a type's row it says of the type
        if part == "specs" and rest[:1] in (["declared"], ["contracts"]):
            return self.type_of(crate, rest[1:], place), None
        for length in range(len(rest), -1, -1) if part == "specs" else []:
            if (crate, ".".join(rest[:length])) in self.names:
                return (crate, ".".join(rest[:length])), (rest[length:] or [None])[0]
        self.faults += [f"{place}: there is no file for {path}"] * bool(place)
        return None, None

    def type_of(self, crate, path, place):
        for length in range(len(path) - 1, -1, -1):
            place = self.top / "crates" / crate / "src" / ("/".join(path[:length] or ["lib"]) + ".rt")
            read = rattle.source_of(rattle.text_of(place))
            for block in (it for it in read.types if it.name == path[length]):
                found = crate, (".".join(path[: length + 1]),)
                self.declared[found] = read.declaration(block)
                return found
        self.faults += [f"{place}: there is no Rust type for {crate} specs: {'.'.join(path)}"] * bool(place)
        return None

    def at(self, cited):
        found = self.known(*cited) if cited[0] in self.names else None
        return self.names.get(found[0], {}).get(found[1]) if isinstance(found, tuple) else None

    # What a text names.

    def leads(self, text, scope, place):
        """Yields what words of a text lead to: a definition or Rust type, as (file, name), or a path of std."""
        brought, std, own = scope
        for word in IN_FULL.findall(text):
            home, name = self.home_of(word.rstrip("."), place)
            if cited := self.known(home, name, place) if home and name else None if home else word:
                yield word, cited
        parts = {part: name for name in brought if "◌" in name for part in name.split("◌") if part}
        words = WORD.findall(IN_FULL.sub("", text))
        for word in words + [">>="] * ("←" in words):
            first, *more = word.strip(".").split(".")
            if own and first in self.names[own]:
                yield first, (own, first)
            for home, name in sorted(brought.get(parts.get(first, first), ()), key=str):
                if name or home not in self.names:
                    yield first, (home, name)
                elif more and (cited := self.known(home, more[0])):
                    yield f"{first}.{more[0]}", cited
            if first in std:
                yield first, std[first]

    def cited(self, text, scope, place):
        """The definitions that a text names, and the Rust types."""
        return {it for _, it in self.leads(text, scope, place) if not isinstance(it, str)}

    def ways(self, text, scope, place):
        """What the words of a text stand for, a line each."""
        return sorted({f"{word} is {it}" for word, it in self.leads(text, scope, place)})

    def cited_by(self, cited):
        """What the text of a definition names."""
        one = self.at(cited)
        if one and one not in self.known_by:
            self.known_by[one] = self.named_in(one, self.whole(one))
        return self.known_by[one] if one else set()

    @staticmethod
    def whole(one):
        """The text of a definition with the sections that it stands in, and without the names of its fields."""
        return FIELD.sub("", "\n".join([*one.within, *one.lines]))

    def scope(self, one):
        """What names mean in the file of a definition, and how that is called."""
        return (self.imports[one.file], self.std[one.file], one.file), self.place(self.files[one.file])

    def named_in(self, one, text):
        """What a text names that stands in the file of a definition."""
        return self.cited(text, *self.scope(one))

    @functools.cache
    def meaning(self, one):
        """A sum of what a definition means: its sections, its fixity, its lines, and what its words stand for."""
        lines = [line.rstrip() for line in [*one.within, *one.fixity, *one.lines]]
        return f"{one}: {rattle.sum_of([*lines, *self.ways(self.whole(one), *self.scope(one))])}"

    # Contracts of sources.

    def read_source(self, path):
        """The clauses of a source, what it imports, and the names of std."""
        if path not in self.clauses:
            source, place = rattle.read(path), self.place(path)
            self.faults += [f"{place}: {it}" for it in rattle.hidden(source, path.name)]
            found = self.imports_of(path, [it for said in source.ghost_uses for it in imports.brought(said)])
            self.clauses[path] = source.clauses, *found
            bound = (it for one in source.clauses for it in BINDS.finditer(one.text))
            self.faults += [f"{place}: a name that is the library's: {it[0].strip()}" for it in bound]
        return self.clauses[path]

    def sources(self, crate):
        """The sources of a crate that its modules lead to, but those of tests."""
        folder = self.top / "crates" / crate
        return [folder / file for file, (_, is_test) in rattle.tree(folder).items() if not is_test]

    def text_of(self, needed, types):
        """What definitions and Rust types mean, each behind its name."""
        return sorted(map(self.meaning, needed)) + sorted(f"{it}: {self.declared.get(it, '')}" for it in types)

    def scope_of(self, path):
        """What names mean in the clauses of a source, and how that is called."""
        return (*self.read_source(path)[1:], None), self.place(path)

    def cited_in(self, path, clause):
        """What a clause of a source names."""
        return self.cited(clause.text, *self.scope_of(path))

    def meaning_in(self, path, clause):
        """What a clause of a source says, and what its words stand for."""
        return [f"{clause.kind}: {' '.join(clause.text.split())}", *self.ways(clause.text, *self.scope_of(path))]
