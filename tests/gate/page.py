"""Makes docs/BELIEVED.md of what the promises lean on. `tests/gate/believed` stands on it."""

import itertools
import re
import textwrap
from collections import defaultdict
from pathlib import Path

import contracts
from pinned import wrong_bodies
from promises import CALLS, WORKED
from rattle import sections_of, sum_of, text_of

RFC = re.compile(r"RFC (\d+)(?: (?:sections?|appendix) [A-Z\d][\d.]*(?:(?:, (?:and )?| and | to )\d[\d.]*)*(?<![.,]))?")
# the lists that are made on demand (tests/gate/believed --lists), by their files
LISTS = {"definitions.md": "definitions, by the promises that rest on them",
         "contracts.tsv": "contracts of public functions", "edits.txt": "must-fail edits"}
ROW = re.compile(r"^\| (.*?) \| ([\d,]+) \| ([\d,]+) \| ([\d,]+) \| ([\d,]+) \| `(\w+)` \|$", re.M)

TEXTS = sections_of(Path(__file__).with_name("page.txt"))


def wrapped(text, indent=""):
    return textwrap.fill(text, 80, subsequent_indent=indent, break_long_words=False, break_on_hyphens=False)


def listed(name, entries):
    """A section of entries, if there are any."""
    lines = "".join(wrapped(f"- {it}", "  ") + "\n" for it in entries)
    return f"{TEXTS[name]}\n\n{lines}" if lines else ""


def grouped(pairs):
    """The second ones of pairs by the first ones."""
    found = defaultdict(list)
    for key, it in pairs:
        found[key].append(it)
    return found


class Page:
    """The page of a repository's promises."""

    def __init__(self, promises):
        self.promises, self.all, self.links = promises, promises.all, {}
        self.whole = {it: len(text_of(path).splitlines()) for it, path in self.all.files.items()}
        self.rows, seen = [], set()
        for it in promises.promises:
            self.rows.append((it, it.needed - seen))
            seen |= it.needed
        self.believed = {it.file for it in seen}
        contract_lines = contracts.page(self.all.top, promises)
        self.contracts = sum(not it.startswith("#") for it in contract_lines.splitlines())
        edits = "".join(f"{it}\n" for it in wrong_bodies(self.all.top))
        self.made = {"definitions.md": self.definitions(), "contracts.tsv": contract_lines, "edits.txt": edits}

    def totals(self):
        """What the table at the top has of each promise: title, lines, new ones, lines of files, types, and sum."""
        whole, lines = self.promises.whole(), lambda some: sum(len(one.lines) for one in some)
        files = lambda some: sum(self.whole[file] for file in {one.file for one in some})
        rows = [*self.rows[:-1], (whole, whole.needed), self.rows[-1]]
        return [(it.title, lines(it.needed), lines(new), files(it.needed), len(it.types), it.sum(self.all)) for it,
                new in rows]

    def text(self):
        """The page: what each promise leans on, in numbers and sums, and the sums of lists that are made on demand."""
        lists = "\n".join(["| List | Lines | Sum |", "|---|---|---|", *self.listed_rows()])
        parts = [TEXTS["head"] + "\n", self.table(), *self.pins_and_premises(), TEXTS["lists"] + "\n", lists + "\n"]
        return "\n".join(filter(None, parts))

    def pins_and_premises(self):
        """Definitions that a law pins, and premises that no worked example meets."""
        pins = [f"`{pin}` by `laws::{pin.law}`" for pin in self.promises.pinned.values()]
        unmet = [f"`{it}`: {', '.join(f'`{law}`' for law in laws)}" for it, laws in self.promises.unmet().items()]
        return listed("pins", pins), listed("unmet", unmet)

    def listed_rows(self):
        """A row for each list: how many lines it has, and its sum."""
        for name, text in self.made.items():
            lines = [it for it in text.splitlines() if not it.startswith("#")]
            yield f"| {LISTS[name]} | {len(lines):,} | `{sum_of(lines)[:12]}` |"

    def definitions(self):
        """The list of the definitions: of each promise what states it, and its definitions by their files."""
        # (a file that only passes names on says nothing)
        files = self.in_order({it for it in self.all.files if self.all.names[it]} - self.believed)
        rest = grouped((crate, f"`{name}` {self.whole[crate, name]}") for crate, name in files)
        parts = [TEXTS["definitions"] + "\n", *(self.section(it, new) for it, new in self.rows)]
        parts += [listed("rest", [f"`{crate}`: {', '.join(some)}" for crate, some in rest.items()]),
                  listed("ghosts", self.ghosts())]
        parts.append("".join(f"[{label}]: {to}\n" for label, to in sorted(self.links.items())))
        return "\n".join(filter(None, parts))

    def table(self):
        lines = ["| Promise | Lines of meaning | New | Lines of their files | Rust types | Sum |",
                 "|---|---|---|---|---|---|"]
        lines += [f"| {title} | {' | '.join(f'{it:,}' for it in told)} | `{sum_of}` |"
                  for title, *told, sum_of in self.totals()]
        return "\n".join(lines) + "\n"

    def section(self, promise, new):
        lines = [f"## {promise.title}", "", *self.stated(promise), ""]
        files = {file: [it for it in dict.fromkeys(self.all.names[file].values()) if it in new]
                 for file in self.in_order({it.file for it in new})}
        for crate, entries in grouped((file[0], self.entry(file, some)) for file, some in files.items()).items():
            lines += [f"### {promise.title}: {crate}", "", *entries, ""]
        if types := grouped((crate, f"`{path[0]}`") for crate, path in sorted(promise.types)):
            told = "; ".join(f"`{crate}` {', '.join(some)}" for crate, some in types.items())
            lines.append(wrapped(f"Rust types: {told}."))
        return "\n".join(lines).rstrip("\n") + "\n"

    def stated(self, promise):
        """What states a promise: the calls of the program alone, or laws, each with what it says."""
        if promise.title == CALLS:
            said = grouped((crate, f"`{name}`") for crate, name in promise.stated)
            told = "; ".join(f"`{crate}`: " + ", ".join(some) for crate, some in said.items())
            return [wrapped(f"Stated by the contracts of {told}.")]
        lines = ["Stated by", ""] if promise.stated else ["There are none."]
        for crate, name in promise.stated:
            if (crate, name) not in self.promises.laws:
                lines.append(f"- `{crate}`: `{name}`, by its contract")
                continue
            said = [" ".join(it.text.split()) for it in self.promises.laws[crate, name][1]]
            is_told = promise.title != WORKED and (crate, name) in self.promises.worked
            of_it = "a worked example, which counts nowhere" if is_told else ", and ".join(f"`{it}`" for it in said)
            lines.append(wrapped(f"- `{crate}`: `laws::{name}`: {of_it}", "  "))
        return lines

    def entry(self, file, some):
        path = self.all.files[file]
        first_lines = itertools.takewhile(lambda line: line.startswith("--"), text_of(path).splitlines())
        said = " ".join(line.lstrip("- ") for line in first_lines)
        against = ", ".join(self.link(it[0]) for it in RFC.finditer(said))
        few, told = sum(len(it.lines) for it in some), ", ".join(f"`{it.name}` {len(it.lines)}" for it in some)
        link = f"[`{file[1]}`](../{path.relative_to(self.all.top)})"
        return wrapped(f"- {link} {few} of {self.whole[file]}{f' ({against})' if against else ''}: {told}", "  ")

    def link(self, said):
        rfc, *rest = said.split(" ")[1:]
        to = f"https://www.rfc-editor.org/rfc/rfc{rfc}"
        if rest:
            kind = "appendix-" if rest[0] == "appendix" else "section-"
            to += f"#{kind}{rest[1].strip(',.')}"
        self.links[said] = to
        return f"[{said}]"

    def in_order(self, files):
        """These files by their crates, and within a crate each after those that it uses."""
        crates, found = [*self.promises.order], []

        def visit(file, above):
            named = {home for some in self.all.imports[file].values() for home, _ in some}
            used = {it for it in named & self.all.files.keys() if it[0] == file[0]}
            for it in sorted(used - above - {*found}):
                visit(it, above | {it})
            found.extend({file} - {*found})

        place = lambda file: (crates.index(file[0]) if file[0] in crates else len(crates), file)
        for file in sorted(self.all.files, key=place):
            visit(file, {file})
        return [it for it in found if it in files]

    def ghosts(self):
        """The ghosts of each crate, by their types and sources."""
        found = []
        for path in sorted(self.all.clauses):
            crate, _, *place = self.all.place(path).parts
            for it in (it for it in self.all.clauses[path][0] if it.kind == "ghost"):
                count, where = sum(map(bool, map(str.strip, it.text.splitlines()))), "/".join(place)
                found.append((crate, (f"`{it.owner}` in `src/{where}`", f"{it.name} {count}".removesuffix(" 1"))))
        for crate, some in grouped(found).items():
            yield f"`{crate}`: " + "; ".join(f"{it} ({', '.join(names)})" for it, names in grouped(some).items())


def told_before(text):
    """The numbers that a page told of each promise, and the sum."""
    return {title: [*(int(it.replace(",", "")) for it in rest), sum_of] for title, *rest, sum_of in ROW.findall(text)}
