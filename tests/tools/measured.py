"""Of which commit the measurements are: each file of bench/results names its commit, and one that is old is in the table of docs/PERFORMANCE.md
that says so and why. And the tables of pages that show what was measured."""
import re
import subprocess
import sys
from pathlib import Path

TOP = Path(__file__).resolve().parents[2]
sys.path.insert(0, str(TOP / "tools"))
import results  # noqa: E402

RESULTS = TOP / "bench/results"
# so many commits after it a measurement is old
MOST = 50
# which columns a table shows, by its mark
WANTED = re.compile(r" of (?P<of>\w+)(?: by (?P<by>\w+))?(?: with(?P<only>(?: \w+=\w+)+))?(?: to (?P<to>\d))?")


def shown(word, digits=0):
    """A number as a document has it, rounded to so many digits if they are given; other words as they are."""
    try:
        number = float(word)
    except ValueError:
        return word
    if digits:
        return f"{float(f'{number:.{digits - 1}e}'):,.10g}"
    return f"{number:.1f}" if "." in word and abs(number) < 1_000 else f"{number:,.0f}"


def cells(line):
    return [it.strip() for it in line.strip().strip("|").split("|")]


def table_of(mark, head, rows):
    """The lines of a table with this mark and head as the results give them, or None where the mark does not say which."""
    wanted = WANTED.fullmatch(mark)
    if not wanted or not rows or wanted["of"] not in rows[0] or (wanted["by"] and wanted["by"] not in rows[0]):
        return None
    only, heads, key = dict(it.split("=") for it in (wanted["only"] or "").split()), cells(head), next(iter(rows[0]))
    digits, found = int(wanted["to"] or 0), {}
    for row in (it for it in rows if all(it.get(name) == value for name, value in only.items())):
        found.setdefault(row[key], {})[row[wanted["by"]] if wanted["by"] else ""] = row[wanted["of"]]
    columns = list(dict.fromkeys(it for values in found.values() for it in values))
    heads = [heads[0], *(map(shown, columns) if wanted["by"] else heads[1:2])]
    lines = [heads, *([shown(name) if wanted["by"] else name, *(shown(values.get(it, ""), digits) for it in columns)] for name, values in found.items())]
    made = ["| " + " | ".join(it) + " |" for it in lines]
    return [made[0], "|" + "---|" * len(heads), *made[1:]]


def commits_of(path):
    """The commits of the runs that a file is of, in words: its fact `commit`, or its column `commit`."""
    facts, rows = results.read(path)
    return sorted(set(filter(None, (it.get("commit") for it in (facts, *rows)))))


def since(commit):
    """How many commits came after one, or None if this history has no such commit."""
    asked = subprocess.run(["git", "-C", str(TOP), "rev-list", "--count", f"{commit}..HEAD"], capture_output=True, text=True, check=False)
    return int(asked.stdout) if asked.returncode == 0 else None


def is_whole():
    """Whether all of the history is here: a clone may have its last commits alone, and an archive has none."""
    asked = subprocess.run(["git", "-C", str(TOP), "rev-parse", "--is-shallow-repository"], capture_output=True, text=True, check=False)
    return asked.returncode == 0 and asked.stdout.strip() == "false"


def fault_of(name, commits, is_listed, after=since):
    """What is wrong with a file of results, or None; `is_listed` says whether the table has it with these commits."""
    if not commits:
        return f"{name} names no commit"
    changed = [it for it in commits if it.endswith(" with changes")]
    ages = {it: after(it.split()[0]) for it in commits}
    if unknown := [it for it, age in ages.items() if age is None]:
        return f"{name} is of {unknown[0]}, which this history has not"
    old = [f"{it}, {age} commits back" for it, age in ages.items() if age > MOST or it in changed]
    if old and not is_listed:
        return f"{name} is of {'; '.join(old)}: measure again, or say so in docs/PERFORMANCE.md (tests/tools/docs --write)"
    return f"{name} is not old: its line in docs/PERFORMANCE.md goes" if is_listed and not old else None


def listed(lines):
    """The files of a table of old results, each with the commits that its line names."""
    found = {}
    for line in lines[2:]:
        cells = [it.strip() for it in line.strip().strip("|").split("|")]
        words = re.findall(r"`([^`]+)`( with changes)?", cells[1]) if len(cells) == 3 and cells[2] else []
        found[cells[0].strip("`")] = sorted("".join(it) for it in words)
    return found


def is_old(commits, after=since):
    return any(it.endswith(" with changes") or (after(it.split()[0]) or 0) > MOST for it in commits)


def row_of(name, commits, lines):
    """The line of an old file; its reason is that of the line that the table has of it."""
    reasons = {cells[0].strip("`"): cells[-1] for cells in ([it.strip() for it in line.strip().strip("|").split("|")] for line in lines[2:])}
    words = " ".join(f"`{it.split()[0]}`{' with changes' if it.endswith(' with changes') else ''}" for it in commits)
    return f"| `{name}` | {words} | {reasons.get(name) or 'not yet'} |"


def made(lines):
    """The table of old results as it is to be; without the whole history as it is."""
    if not is_whole():
        return lines
    files = [(path.name, commits_of(path)) for path in sorted(RESULTS.glob("*.tsv"))]
    return lines[:2] + [row_of(name, commits, lines) for name, commits in files if is_old(commits)]


def compared(lines):
    """How many files of results are as the table of old ones says, what is wrong, and a line for each that is old. Without the whole history the ages
    are not known, and a line says so."""
    table, passed, faults, notes = listed(lines), 0, [], []
    names = {path.name: commits_of(path) for path in sorted(RESULTS.glob("*.tsv"))}
    if not is_whole():
        return len(names), [], ["this history is cut, so no age of a file of bench/results was looked at"]
    for name, commits in names.items():
        is_listed = table.get(name) == commits
        fault = fault_of(name, commits, is_listed) or (f"{name} is not of the commits that its line has" if name in table and not is_listed else None)
        passed += fault is None
        faults += [f"bench/results/{fault}"] if fault else []
        if is_listed and not fault:
            notes.append(f"bench/results/{name} is of {', '.join(commits)}, as docs/PERFORMANCE.md says")
    faults += [f"docs/PERFORMANCE.md: there is no bench/results/{name}" for name in table if name not in names]
    return passed, faults, notes


# What a file of some commits is judged, with how many commits came after each; and a word of what is said.
TRIED = [
    ((), {}, False, "names no commit"),
    (("a",), {"a": None}, False, "this history has not"),
    (("a",), {"a": 51}, False, "51 commits back"),
    (("a with changes",), {"a": 1}, False, "a with changes, 1 commits back"),
    (("a", "b"), {"a": 3, "b": 51}, False, "of b, 51 commits back"),
    (("a",), {"a": 50}, True, "is not old"),
    (("a",), {"a": 50}, False, None),
    (("a",), {"a": 51}, True, None),
]


def try_itself():
    """How many cases are judged as they are to be, and which are not."""
    wrong = []
    for commits, ages, is_listed, wanted in TRIED:
        said = fault_of("it", list(commits), is_listed, ages.get)
        if (said is None) != (wanted is None) or (wanted and wanted not in said):
            wrong.append(f"tests/tools/measured.py: of {commits} with {ages} it says {said}, and not {wanted}")
    lines = ["| File |", "|---|", "| `a.tsv` | `b` | why |"]
    for name, reason in (("a.tsv", "why"), ("c.tsv", "not yet")):
        row = row_of(name, ["b", "d with changes"], lines)
        if row != f"| `{name}` | `b` `d` with changes | {reason} |" or listed([*lines[:2], row]) != {name: ["b", "d with changes"]}:
            wrong.append(f"tests/tools/measured.py: it makes the line {row}")
    if [is_old(["a"], {"a": age}.get) for age in (None, 50, 51)] != [False, False, True] or not is_old(["a with changes"], {"a": 0}.get):
        wrong.append("tests/tools/measured.py: it calls another age old")
    return len(TRIED) + 3 - len(wrong), wrong
