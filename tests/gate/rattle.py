"""Reads Rattle: the text of a source without its comments, and its items, functions and clauses. All readings of
sources in the gate go by this.

Comments are Rust's, and within the braces of a clause or a ghost antt's; blocks of both kinds nest. They, and what
stands in strings outside of clauses, are blanks in `Source.plain`, which is as long as the text. An item under
`#[cfg(test)]` or `#[test]` is one of tests."""

import functools
import hashlib
import importlib.machinery
import importlib.util
import os
import re
from collections import namedtuple
from pathlib import Path

# words, strings and signs that matter outside of clauses; a clause's head may go on over comments up to its brace
RUST = re.compile(r"//[^\n]*|/\*|[bc]?\"(?:\\.|[^\"\\])*\"|[bc]?r(#*)\".*?\"\1|b?'(?:\\[^\n']*.|[^\\'\n])'|"
                  r"\b(?:requires|ensures|ghost)\b|[\w*:=]+|\s+|.", re.S)
ANTT = re.compile(r"(?<![^\s(){}])--[^\n]*|\{-|\"(?:\\.|[^\"\\])*\"|[{}]")
HEAD = re.compile(r"(?P<pub>pub(?:\s*\([^)]*\))?\s+)?"
                  r"(?:(?:const|unsafe)\s+(?=(?:const|unsafe|fn|impl|trait|extern)\b))*"
                  r"(?P<word>ghost\s+use|[\w!]+)(?:\s+(?P<name>\w+))?")
CLAUSE = re.compile(r"(requires|ensures|ghost)\s*\*?(?:\s*(\w+))?(?:\s*:(?:\s*\w+)?)?\s*(?=\{)")
# (the toolchain gives a block of a trait a name of its own, behind `as`)
IMPL = re.compile(r"impl\s*(?P<own><(?:->|[^<>]|<(?:[^<>]|<[^<>]*>)*>)*>)?\s+(?:(?P<trait>[^{]+?)\s+for\s+)?"
                  r"(?P<type>[^{]+?)(?:\s+as\s+\w+)?\s*(?:\bwhere\b[^{]*)?\Z", re.S)
TYPES = ("struct", "enum", "union")
# words of antt, and words and brackets
WORD = re.compile(r"[^\s(){}\[\],;⟦⟧«»]+")
TOKEN = re.compile(rf"[(){{}}\[\],;⟦⟧]|{WORD.pattern}")


def text_of(path):
    """The text of a file, or none where there is no file."""
    return Path(path).read_text(encoding="utf-8") if os.path.isfile(path) else ""


def rows_of(path):
    """The rows of a table of tabs, without comments."""
    return [line.split("\t") for line in text_of(path).splitlines() if line.strip() and not line.startswith("#")]


def sections_of(path):
    """The sections of a text by their names, each behind a line `== NAME`."""
    return {name: text.strip("\n") for name, text in re.findall(
        r"^== ([^\n]+)\n(.*?)(?=^== |\Z)", text_of(path), re.M | re.S)}


def crates(top):
    """The folders of a repository's crates."""
    return sorted(it.parent for it in Path(top).glob("crates/*/src"))


def sum_of(lines):
    return hashlib.sha256("\n".join(lines).encode()).hexdigest()


def script(path):
    """A script without an ending, as a module."""
    loader = importlib.machinery.SourceFileLoader(os.path.basename(path), str(path))
    made = importlib.util.module_from_spec(importlib.util.spec_from_loader(loader.name, loader))
    loader.exec_module(made)
    return made


def nested(text, at, opens, closes):
    """Where a block of comment ends whose opening sign ends there."""
    depth, signs = 1, re.compile(f"{re.escape(opens)}|{re.escape(closes)}")
    while depth and (it := signs.search(text, at)):
        depth, at = depth + (1 if it[0] == opens else -1), it.end()
    return len(text) if depth else at


def blank(text):
    return re.sub(r"[^\n]", " ", text)


def without_comments(text, at=0, in_braces=False):
    """A text of antt without its comments, as long as it was; in braces up to where those close, and that place."""
    parts, depth, begun, ends = [], 1, at, len(text)
    while it := ANTT.search(text, at):
        at = it.end()
        depth += (it[0] == "{") - (it[0] == "}")
        if it[0].startswith(("{-", "--")):
            at = nested(text, at, "{-", "-}") if it[0] == "{-" else at
            parts += [text[begun : it.start()], blank(text[it.start() : at])]
            begun = at
        if in_braces and not depth:
            ends = at - 1
            break
    parts.append(text[begun:ends])
    return ("".join(parts), ends) if in_braces else "".join(parts)


def plain_of(text):
    """The text of a source with blanks for its comments, and for what stands in its strings outside of clauses."""
    parts, at, is_head, is_ghost = [], 0, False, False
    while it := RUST.match(text, at):
        word, end = it[0], it.end()
        if word == "/*":
            end = nested(text, end, "/*", "*/")
        if word.startswith(("//", "/*")):
            parts.append(blank(text[at:end]))
        elif word[-1] in "\"'" and len(word) > 1:
            parts.append(word[0] + blank(word[1:-1]) + word[-1])
        elif word == "{" and is_head:
            inside, end = without_comments(text, end, True)
            parts.append("{" + inside)
            # (a ghost of a trait has a type and then what it is by itself; a field of a struct, what it is by)
            is_head = is_ghost and bool(re.match(r"\}\s*(?:=|by\b)\s*\{", text[end : end + 80]))
        else:
            parts.append(word)
            is_ghost = word == "ghost" or is_ghost and word not in ("requires", "ensures")
            is_head = word in ("requires", "ensures", "ghost") or is_head and (
                word.isspace() or bool(re.fullmatch(r"[\w*:=]+", word)))
        at = end
    return "".join(parts)


class Clause(namedtuple("Clause", "kind text name owner is_public")):
    """A clause of a contract, or a ghost: what it is, its text, the name of its function, or its own, the type or trait
    that has that, if any, and whether it is public."""

    def __str__(self):
        return f"{self.owner}::{self.name}" if self.owner else self.name


class Block:
    """An impl block, a trait or a type: its name or that of its type, its trait, and where it stands."""

    def __init__(self, kind, name, head, at, opens, closes, is_test):
        it = IMPL.match(head) if kind == "impl" else None
        self.own, self.trait, self.type = (it["own"] or "", it["trait"], it["type"]) if it else ("", None, name)
        named = it and re.match(r"(?:\w+::)*(\w+)", self.type.lstrip("&' "))
        self.kind, self.name, self.is_test = kind, named[1] if named else name, is_test
        self.at, self.opens, self.closes = at, opens, closes

    @property
    def holder(self):
        """What the prover calls an impl block: the words of its type and its trait, without its own parameters."""
        own = [re.sub(r"^const ", "", it.strip()).partition(":")[0].strip() for it in self.own.strip("<>").split(",")]
        words = re.findall(r"[\w:]+", re.sub(r"'\w+", "", re.sub(r"\s*::\s*", "::", f"{self.type} {self.trait or ''}")))
        return "".join(it.rpartition("::")[2] for it in words if it not in own)


class Function:
    """A function: its name, its visibility, the block that has it, its attributes, its text between its name and its
    clauses, those, and where its body stands; -1 where it has none."""

    def __init__(self, name, sees, owner, attributes, is_test):
        self.name, self.sees, self.owner, self.attributes, self.is_test = name, sees, owner, attributes, is_test
        self.clauses, self.takes, self.opens, self.closes = [], "", -1, -1
        self.is_public = sees == "pub" or bool(owner) and (owner.kind == "trait" or bool(owner.trait))

    def __str__(self):
        return f"{self.owner.name}::{self.name}" if self.owner else self.name


class Source:
    """A source, in its items."""

    def __init__(self, text):
        self.text, self.plain = text, plain_of(text)
        self.functions, self.blocks, self.uses, self.ghost_uses = [], [], [], []
        self.modules, self.ghosts, self.others, self.attributes = [], [], [], []
        opened, self.pairs = [], {}
        for it in re.finditer(r"[(){}\[\]]", self.plain):
            if it[0] in "({[":
                opened.append(it.start())
            elif opened:
                self.pairs[opened.pop()] = it.start()
        self.items(0, len(text), None, False)

    def end_of(self, at):
        """Where the bracket is closed that opens there."""
        return self.pairs.get(at, len(self.plain) - 1)

    def behind(self, at):
        """The next place that is no blank."""
        return re.compile(r"\s*").match(self.plain, at).end()

    def items(self, at, end, owner, is_test):
        """Reads the items between two places."""
        while (at := self.behind(at)) < end:
            begun, attributes = at, []
            while self.plain.startswith("#", at) and (opens := self.plain.find("[", at)) >= 0:
                attributes.append(self.plain[opens + 1 : self.end_of(opens)].strip())
                at = self.behind(self.end_of(opens) + 1)
            self.attributes += attributes
            is_tests = is_test or any(re.fullmatch(r"cfg\s*\(\s*test\s*\)|test", it) for it in attributes)
            head = HEAD.match(self.plain, at)
            if not head or head.start() >= end:
                at = max(at, begun) + 1
            elif head["word"] == "fn":
                at = self.function(head, owner, attributes, is_tests)
            else:
                at = self.other(" ".join(head["word"].split()), head, owner, is_tests, attributes)

    def other(self, word, head, owner, is_test, attributes):
        """Reads an item that is no function; returns where it ends."""
        sees, name, begun = " ".join((head["pub"] or "").split()), head["name"] or "", head.start()
        has_block = word in ("impl", "trait", "mod", *TYPES) or word.endswith("!")
        # (the next of these signs that stands in no brackets which open behind the word)
        at, signs = head.end("word"), "{;" if has_block else ";"
        while (it := re.compile(rf"[({{\[{signs}]").search(self.plain, at)) and it[0] not in signs:
            at = self.end_of(it.start()) + 1
        opens = it.start() if it else len(self.plain)
        is_block = self.plain.startswith("{", opens)
        ends = self.end_of(opens) if is_block else opens
        said = " ".join(self.plain[head.end("word") : opens].split())
        if word in ("impl", "trait", *TYPES):
            made = Block(word, name, self.plain[begun:opens], begun, opens, ends, is_test)
            self.blocks.append(made)
            if word in ("impl", "trait") and is_block:
                self.items(opens + 1, ends, made, is_test)
            else:
                self.ghosts += self.clauses_in(opens, ends, made.name, is_test)
        elif word == "ghost use":
            self.ghost_uses.append(said)
        elif word == "use":
            self.uses.append((sees, said, is_test))
        elif word == "mod":
            self.modules.append((sees, name, is_block, is_test, attributes))
            self.items(opens + 1, ends, None, is_test) if is_block else None
        elif word == "ghost":
            self.ghosts += self.clauses_in(begun, ends, owner.name if owner else "", is_test)
        else:
            self.others.append((sees, word, name, self.plain[begun : ends + 1], owner, is_test))
        return ends + 1

    def clauses_in(self, at, end, owner, is_test):
        """The ghosts between two places, each with what a trait gives it where an impl does not."""
        found = []
        for it in re.compile(r"\bghost\s+(\w+)\s*[=:](?:\s*\w+)?\s*(?=\{)").finditer(self.plain, at, end):
            closes = self.end_of(it.end())
            said = self.plain[it.end() + 1 : closes]
            if more := re.compile(r"\}\s*(?:=|by)\s*(?=\{)").match(self.plain, closes):
                said += " " + self.plain[more.end() + 1 : self.end_of(more.end())]
            found += [] if is_test else [Clause("ghost", said, it[1], owner, True)]
        return found

    def function(self, head, owner, attributes, is_test):
        """Reads a function; returns where it ends."""
        made = Function(head["name"], " ".join((head["pub"] or "").split()), owner, attributes, is_test)
        at, signs, first = head.end(), re.compile(r"\b(?:requires|ensures|ghost)\b|[({\[;]"), None
        while (it := signs.search(self.plain, at)) and it[0] not in "{;":
            at = self.end_of(it.start()) + 1 if it[0] in "([" else it.end()
            if it[0] not in "([":
                first = first or it.start()
                if clause := CLAUSE.match(self.plain, it.start()):
                    at = self.end_of(clause.end()) + 1
                    said = self.plain[clause.end() + 1 : at - 1]
                    made.clauses.append(Clause(clause[1], said, made.name, owner.name if owner else "", made.is_public))
        ends = it.start() if it else len(self.plain)
        made.takes = self.plain[head.end() : first or ends]
        if it and it[0] == "{":
            made.opens, made.closes = ends + 1, self.end_of(ends)
            ends = made.closes
        self.functions.append(made)
        return ends + 1

    @property
    def types(self):
        return [it for it in self.blocks if it.kind in TYPES and not it.is_test]

    @property
    def clauses(self):
        """The clauses of functions and the ghosts of a source, but of its tests."""
        return [*(clause for it in self.functions if not it.is_test for clause in it.clauses), *self.ghosts]

    def declaration(self, block):
        """The text of a Rust type."""
        return " ".join(self.plain[block.at : block.closes].split())


def hidden(source, name):
    """Yields what a source of this name has that these readings do not follow; `laws.rt` may pass laws below it on."""
    rooms, is_root = {it for _, it, *_ in source.modules if name == "laws.rt"}, name == "lib.rt"
    for sees, use, _ in (it for it in source.uses if it[1].partition("::")[0] not in rooms):
        if sees and not is_root:
            yield f"names that are passed on: {sees} use {use}"
        elif sees and "*" in use:
            yield f"names that are passed on unseen: {sees} use {use}"
    for it in (
        *(f"mod {name}" for _, name, is_block, *_ in source.modules if is_block),
        *(f"#[{it}]" for it in source.attributes if re.match(r"path\b", it)),
        *(f"{word} {name}" for _, word, name, *_ in source.others if word in ("macro_rules!", "include!")),
    ):
        yield f"text that stands elsewhere, or a module written into a source: {it}"
    yield from (f"the trait's default {it.name} is no function of a type" for it in source.functions if it.opens >= 0
                and it.owner and it.owner.kind == "trait")


def shown(source):
    """What the root of a crate shows: the names of each module, none where it shows all; and uses that are unclear."""
    found, lost = {}, []
    for use in (use for sees, use, _ in source.uses if sees == "pub"):
        name, _, rest = re.sub(r"^(?:crate|self)::", "", use).partition("::")
        lost += [] if re.fullmatch(r"[\w ]+|\{[\w ,\s]*\}", rest) else [use]
        names = {it.partition(" as ")[0].strip() for it in rest.strip("{}").split(",")}
        found.setdefault(name, set()).update(names - {""})
    found.update({name: set() for sees, name, *_ in source.modules if sees == "pub"})
    return found, lost


source_of = functools.cache(Source)


def read(path):
    return source_of(Path(path).read_text(encoding="utf-8"))


@functools.cache
def tree_of(folder, _sums):
    lib = next((it for it in ("lib.rt", "main.rt") if os.path.isfile(f"{folder}/src/{it}")), None)
    found, due = {}, [(f"src/{lib}", "src", False)] if lib else []
    while due:
        file, place, is_test = due.pop()
        source = found[file] = (read(f"{folder}/{file}"), is_test)
        for _, name, is_block, is_tests, _ in source[0].modules:
            below = next((it for it in (f"{place}/{name}.rt", f"{place}/{name}/mod.rt")
                          if os.path.isfile(f"{folder}/{it}")), None)
            if below and not is_block and below not in found:
                due.append((below, f"{place}/{name}", is_test or is_tests))
    return dict(sorted(found.items()))


def tree(folder):
    """The sources of a crate that its modules lead to, by their files, each with whether it is one of tests."""
    files = sorted(f"{above}/{it}" for above, _, names in os.walk(f"{folder}/src") for it in names
                   if it.endswith(".rt"))
    return tree_of(str(folder), tuple((it, os.stat(it).st_mtime_ns) for it in files))


def module_of(file):
    """The words of the path of a file's module."""
    return [it for it in file.removeprefix("src/").removesuffix(".rt").split("/") if it not in ("lib", "main")]


def path_of(function, file, folder):
    """Returns the path of a function as the prover prints it below the crate, or None."""
    block = function.owner
    if not block:
        return "::".join([*module_of(file), function.name])
    # a method has the module before it that alone declares its type, wherever its block is; one of a trait the block's
    is_here = block.trait or block.kind == "trait"
    homes = [] if is_here else [it for it, (source, _) in tree(folder).items()
                                if any(one.name == block.name for one in source.blocks if one.kind in TYPES)]
    home = file if is_here or file in homes else homes[0] if len(homes) == 1 else None
    return "::".join([*module_of(home), block.holder, function.name]) if home else None


def bodies(folder):
    """Each function of a crate that has a body and is none of tests, with its file and its source."""
    for file, (source, is_test) in tree(folder).items():
        yield from ((file, source, it) for it in source.functions if it.opens >= 0 and not is_test and not it.is_test)
