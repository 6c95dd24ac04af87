"""What each promise of docs/PROMISES.md leans on. `tests/gate/believed` stands on it.

The first promise is of the calls that the program makes: the contracts of all that the crates which it stands on show.
Each further one is of the laws that a section of docs/PROMISES.md names in code, as `laws::exactly_once`, and of the
calls that its paragraph "Where" names, as `Server::replay` or `nfs_names::name_op`. A law is that of the crate that is
named with it, as `nfs_serve::laws::exactly_once`, or last before it in its section, if that has it; else there has to
be one crate that has it. Laws that no section names come last, and then the worked examples of tests/gate/worked.tsv:
they are told with the section that names them and count for none."""

import re
from collections import Counter, defaultdict

import rattle
from definitions import Definitions
from edits import public
from rattle import crates, rows_of, text_of
from statements import Statements, groups, parts_of_record, premises_of, split, tokens_of

CALLS = "The calls that the program makes"
OTHERS = "Laws that no promise names"
WORKED = "Worked examples"
ALL = "All of these"

HEADING = re.compile(r"^#{2,4} +(.*?)\s*$", re.M)
CODE = re.compile(r"`([^`\n]+)`")
LAW = re.compile(r"(?:(\w+)::)?laws::(\w+|\{[\w, ]+\})$")
CALL = re.compile(r"(\w+)::(\w+)(?:\(\))?$")
WHERE = re.compile(r"^- \*\*Where\.\*\*.*?(?=^- \*\*|\Z)", re.M | re.S)


class Promise:
    """A promise: its title, the laws or calls that state it, as (crate, name), their texts, and what these name."""

    def __init__(self, title):
        self.title, self.stated, self.texts, self.cited, self.needed, self.types = title, [], [], set(), set(), set()

    def sum(self, definitions):
        """A sum of all that the promise says: its clauses, what they lean on, and the Rust types that these name."""
        return rattle.sum_of([*sorted(self.texts), *definitions.text_of(self.needed, self.types)])[:12]


class Pin:
    """A law that pins a definition: what it pins, and what counts in the definition's place."""

    def __init__(self, crate, name, law):
        self.crate, self.law = crate, law.removeprefix("laws::")
        self.file, _, self.name = name.rpartition(".")
        self.fields, self.cited = set(), set()

    def __str__(self):
        return f"{self.crate} {self.file}.{self.name}"


def lines_by_crate(top):
    """How many lines of meaning of each crate a repository's promises lean on."""
    return Counter(one.file[0] for one in Promises(top).whole().needed for _ in one.lines)


class Promises:
    """The promises of a repository, in the order of docs/PROMISES.md, and what each leans on."""

    def __init__(self, top):
        self.all, self.faults, self.top = Definitions(top), [], top
        self.statements = Statements(self.all)
        # (the crates of crates.txt with what each stands on, in its order)
        lines = re.findall(r"^([^#:\n][^:\n]*):(.*)$", text_of(top / "crates.txt"), re.M)
        self.order = {name.strip(): rest.split() for name, rest in lines}
        # (each law's source and clauses; pins by their definitions; how many clauses were judged)
        self.laws, self.pinned, self.judged = {}, {}, 0
        for folder in crates(top):
            self.find_laws(folder.name)
        self.worked = [(crate, law.removeprefix("laws::")) for crate, law in rows_of(top / "tests/gate/worked.tsv")]
        self.faults += [f"tests/gate/worked.tsv: {crate} has no laws::{name}" for crate,
                        name in self.worked if (crate, name) not in self.laws]
        for it in rows_of(top / "tests/gate/pins.tsv"):
            self.pin(Pin(*it))
        self.promises = [self.of_calls(), *self.of_sections(text_of(top / "docs/PROMISES.md"))]
        told = {it for promise in self.promises for it in promise.stated}
        self.promises.append(self.take_laws(Promise(OTHERS), [it for it in self.laws if it not in told]))
        self.promises.append(self.take_laws(Promise(WORKED), [it for it in self.worked if it in self.laws]))
        asked = [self.lean(it) for it in self.promises]
        self.faults += [f"{it}: a part of it is true of everything, or of nothing that there is"
                        for it in sorted(self.whole().needed, key=str) if self.statements.is_hollow(it)]
        self.judge_pins(asked)

    # Laws, and whether they state anything.

    def find_laws(self, crate):
        """A law takes, asks for and answers nothing, its clauses state something, and no other of its crate says so."""
        first = {}
        for path in self.all.sources(crate):
            is_of_laws = rattle.module_of(str(path.relative_to(self.top / "crates" / crate)))[:1] == ["laws"]
            for it in (it for it in rattle.read(path).functions if is_of_laws and it.sees == "pub" and not it.is_test):
                some, what = [one for one in it.clauses if one.kind == "ensures"], f"{crate} laws::{it.name}"
                self.laws[crate, it.name] = path, some
                self.faults += [f"{what}: it ensures nothing"] * (not some)
                if "".join(it.takes.split()) != "()" or some != it.clauses:
                    self.faults.append(f"{what}: a law takes and answers nothing, and asks for nothing")
                self.must_state(path, some, what)
                other = first.setdefault(tuple(sorted(" ".join(one.text.split()) for one in some)), it.name)
                self.faults += [f"{what}: it states what laws::{other} does"] * (other != it.name)

    def must_state(self, path, clauses, what):
        _, imports, std = self.all.read_source(path)
        self.judged += len(clauses)
        for it in clauses:
            if not self.statements.states(it.text, imports, std):
                self.faults.append(f"{what}: this states nothing: {' '.join(it.text.split())[:80]}")

    # What states a promise.

    def of_calls(self):
        """The promise of the program's calls: all that it and the crates below it show or, without one, all crates."""
        made = Promise(CALLS)
        programs = [it for it in self.order if self.is_program(it)]
        some = {below for it in programs for below in (*self.order[it], it)} or self.order
        for crate in (it for it in self.order if it in some):
            shown = self.shown(crate)
            types = set().union(*shown.values())
            for path in self.all.sources(crate):
                names = shown.get(path)
                # (a type's block may stand in any source)
                is_shown = lambda it: it.owner in types or names is not None and (
                    not names or (it.owner or it.name) in names)
                clauses = [it for it in self.all.read_source(path)[0] if it.is_public and is_shown(it)]
                self.take(made, crate, path, clauses)
                made.stated += [(crate, it) for it in dict.fromkeys(str(it) for it in clauses if it.kind != "ghost")]
                for it in clauses:
                    if it.kind == "ensures":
                        self.must_state(path, [it], f"{crate} {it}")
                    elif it.kind == "ghost" and self.statements.is_of_nothing(it.text, *self.all.read_source(path)[1:]):
                        self.faults.append(f"{crate} {it}: there is no ghost value of {it.text.strip()}")
        self.take_held(made)
        return made

    def take_held(self, made):
        """Has the views of types that are shown nowhere state the promise too, where a type that is shown holds them:
        its own view goes by theirs. What only has to hold of them is proved, and states nothing here."""
        # (the ghosts, and the names in the declarations of all types of one name)
        ghosts, held = [], defaultdict(set)
        for crate, path in ((it.name, path) for it in crates(self.top) for path in self.all.sources(it.name)):
            ghosts += [(crate, path, it) for it in self.all.read_source(path)[0] if it.kind == "ghost"]
            source = rattle.read(path)
            for it in source.types:
                held[it.name].update(re.findall(r"\w+", source.declaration(it)))
        told = {it.partition(" ghost: ")[0] for it in made.texts}
        reached, due = set(), [it.owner for crate, _, it in ghosts if f"{crate} {it}" in told]
        while due:
            if (owner := due.pop()) not in reached:
                reached.add(owner)
                due += held[owner] & held.keys() if owner in held else ()
        for crate, path, it in ghosts:
            if it.owner in reached and it.name in ("Value", "view") and f"{crate} {it}" not in told:
                self.take(made, crate, path, [it])

    def is_program(self, crate):
        return (self.top / "crates" / crate / "src/main.rt").is_file()

    def shown(self, crate):
        """The sources from which a crate shows something, but its laws, and the names that it shows of each; all of
        them where it shows the module itself, as a program does to itself."""
        src, found = self.top / "crates" / crate / "src", {}
        if self.is_program(crate):
            return {it: set() for it in self.all.sources(crate) if it.stem != "main"}
        shown, lost = rattle.shown(rattle.source_of(text_of(src / "lib.rt")))
        self.faults += [f"{crate}: it cannot be seen what this shows: pub use {use}" for use in lost]
        for name, names in shown.items():
            if names and not (src / f"{name}.rt").is_file():
                self.faults.append(f"{crate}: it cannot be seen what this shows: pub use {name}")
            elif name != "laws":
                whole = [] if names else (src / name).glob("**/*.rt")
                found.update({it: names for it in [src / f"{name}.rt", *sorted(whole)]})
        for path in found:
            said = [whole for sees, word, _, whole, owner,
                    _ in rattle.read(path).others if (sees, word, owner) == ("pub", "type", None)]
            self.faults += [f"{crate}: it cannot be seen what this shows: {it}" for it in said]
        return {**found, src / "lib.rt": set()}

    def of_sections(self, text):
        """The promises of the sections that name laws."""
        parts, seen = HEADING.split(text), {}
        for title, body in zip(parts[1::2], parts[2::2]):
            made, crate = seen.setdefault(title, Promise(title)), ""
            for word in CODE.findall(body):
                if (self.top / "crates" / word).is_dir():
                    crate = word
                elif law := LAW.match(word):
                    for name in re.findall(r"\w+", law[2]):
                        self.state_by(made, law[1], crate, name)
            for word in (word for where in WHERE.findall(body) for word in CODE.findall(where)):
                if (call := CALL.match(word)) and call[1] != "laws":
                    self.take_call(made, *call.groups())
        return [it for it in seen.values() if it.stated]

    def take_call(self, made, owner, name):
        """Has the contract of a call state the promise: of a type's, or of a crate's own."""
        some = [(crate, it) for crate in self.order for it in public(self.top / "crates" / crate).values()
                if it.name == name and it.sees == "pub" and owner == (it.owner.name if it.owner else crate)]
        if len(some) != 1:
            self.faults.append(f"docs/PROMISES.md: {owner}::{name}: {len(some)} crates show such a call")
            return
        crate, it = some[0]
        if (crate, f"{owner}::{name}") not in made.stated:
            place = next(path for path in self.all.sources(crate) if it in rattle.read(path).functions)
            made.stated.append((crate, f"{owner}::{name}"))
            self.take(made, crate, place, it.clauses)

    def state_by(self, made, own, last, name):
        """Has the law of this name state the promise: of the crate that is named with it, or of the one named last."""
        some = [it for it, law in self.laws if law == name and own in (None, it)]
        some = [last] if last in some else some
        if len(some) != 1:
            several = f"{', '.join(some)} have such a law: name the crate in front of it"
            why = several if some else "no crate has such a law"
            self.faults.append(f"docs/PROMISES.md: laws::{name}: {why}")
        else:
            self.take_laws(made, [(some[0], name)])

    def take_laws(self, made, laws):
        """Has these laws state the promise; a worked example is told with it, and counts for none."""
        for law in (it for it in laws if it not in made.stated):
            made.stated.append(law)
            if made.title == WORKED or law not in self.worked:
                self.take(made, law[0], *self.laws[law])
        return made

    def take(self, made, crate, path, clauses):
        """Has these clauses state the promise."""
        made.cited |= {one for it in clauses for one in self.all.cited_in(path, it)}
        made.texts += [f"{crate} {it} {said}" for it in clauses for said in self.all.meaning_in(path, it)]

    def whole(self):
        """All that the promises say, as one."""
        made = Promise(ALL)
        for it in self.promises[:-1]:
            made.texts += it.texts
            made.needed |= it.needed
            made.types |= it.types
        return made

    def unnamed(self, text):
        """The laws that a text names and no promise does."""
        told = {name for it in self.promises if it.title not in (OTHERS, WORKED) for _, name in it.stated}
        found = [name for word in CODE.findall(text) if (law := LAW.match(word)) for name in re.findall(r"\w+", law[2])]
        return [it for it in dict.fromkeys(found) if it not in told]

    def unmet(self):
        """The premises of laws that no worked example speaks of, each with the laws that have it."""
        met, found = self.promises[-1].needed, {}
        for crate, name in self.laws.keys() - set(self.worked):
            premises, (path, clauses) = set(), self.laws[crate, name]
            imports = self.all.read_source(path)[1]
            for it in clauses:
                self.premises_in(tokens_of(it.text), lambda word: self.statements.found(imports, None, word), set(),
                                 premises)
            for one in premises - met:
                found.setdefault(str(one), []).append(f"{crate} laws::{name}")
        return {it: sorted(found[it]) for it in sorted(found)}

    def premises_in(self, tokens, named, seen, premises):
        """Adds the definitions that premises of a statement begin with, and of the definitions that it states."""
        _, front, last = premises_of(tokens)
        premises.update(one for it in map(groups, front) if it and len(it[0]) == 1 and (one := named(it[0][0])))
        parts, words = next((some for sign in "×⊎" if len(some := split(last, sign)) > 1), []), groups(last)
        for it in parts:
            self.premises_in(it, named, seen, premises)
        one = named(words[0][0]) if words and len(words[0]) == 1 and not parts else None
        if one and one not in seen and not one.is_data:
            seen.add(one)
            within = self.statements.scope(one.file)[0]
            for it in self.statements.types_in(one):
                self.premises_in(it, within, seen, premises)

    # What is leaned on.

    def lean(self, made):
        """Finds what a promise leans on; returns the pins that do not count, by a field that their law leaves open."""
        asked, new = {}, True
        while new:
            made.needed, made.passed, made.types = self.behind(made.cited, asked)
            new = {one: why for one in made.passed if (why := self.asked_of(one, made.needed))}
            asked.update(new)
        return asked

    def behind(self, cited, asked=()):
        """These definitions and what they name in turn, or what a law that pins them names; the pinned; the types."""
        due, seen, passed, types = set(cited), set(), set(), set()
        while due:
            file, _ = cited = due.pop()
            types |= {file} if file not in self.all.names else set()
            one = self.all.at(cited)
            if one in self.pinned and one not in asked:
                due |= self.pinned[one].cited if one not in passed else set()
                passed.add(one)
            elif one and one not in seen:
                seen.add(one)
                due |= self.all.cited_by(cited)
        return seen, passed, types

    def pin(self, pin):
        """Takes the words that a law has in a definition's place, if it pins it."""
        one = self.all.at(((pin.crate, pin.file), pin.name))
        path, clauses = self.laws.get((pin.crate, pin.law), (None, ()))
        if not one or not path:
            self.faults.append(f"{pin}: there is no such definition, or no public laws::{pin.law}")
            return
        imports = self.all.read_source(path)[1]
        fields, beside, leant = set(), set(), set()
        for field, words, stated in filter(None, (self.statements.pinned_by(one, it.text, imports) for it in clauses)):
            fields.add(field)
            beside |= {(it.file, it.name) for it in stated}
            for text in words:
                leant |= self.all.named_in(stated[-1], text) if stated else self.all.cited(
                    text, *self.all.scope_of(path))
        if not fields:
            why = "is no equation or equivalence of it with other words, for every argument"
            self.faults.append(f"{pin}: laws::{pin.law} {why}")
        elif one in {self.all.at(it) for it in leant} | self.behind(leant)[0]:
            self.faults.append(f"{pin}: the words that laws::{pin.law} has in its place lean on it")
        else:
            pin.fields, pin.cited = fields, leant | beside
            self.pinned[one] = pin

    def judge_pins(self, asked):
        """Each pin counts for a promise, and its law leans on no other that is pinned; `asked`: why one does not."""
        passed = set().union(*(it.passed for it in self.promises if it.title not in (OTHERS, WORKED)))
        for one, pin in self.pinned.items():
            whys = [it[one] for it in asked if one in it]
            if one not in passed:
                self.faults.append(f"{pin}: {whys[0] if whys else 'a law pins it, and no promise leans on it'}")
            others = {self.all.at(it) for it in pin.cited if self.all.at(it) in self.pinned} | self.behind(pin.cited)[1]
            self.faults += [f"{pin}: its law leans on {it}, which is pinned too" for it in others - {one}]

    def asked_of(self, one, needed):
        """What of these definitions asks for a field that a pin's law leaves open, by naming it or its record."""
        pin = self.pinned[one]
        if "" in pin.fields:
            return None
        kind = one.lines[0].split()[-1]
        record = next((it for it in self.all.names[one.file].values() if it.name == kind and it.is_record), None)
        ask = [it for it in needed if {one, record} & {
            self.all.at(cited) for cited in self.all.cited_by((it.file, it.name))}]
        for field in sorted(set(parts_of_record(record)[1]) - pin.fields) if record else ["value"]:
            asked = [it for it in ask if not record or re.search(rf"\.{re.escape(field)}\b", " ".join(it.lines))]
            if asked:
                return f"laws::{pin.law} says nothing of its {field}, which {asked[0]} may ask for"
        return None
