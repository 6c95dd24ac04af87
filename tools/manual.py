"""Sections of the man page docs/nfs41d.8 as plain text."""
import re
import shlex
import textwrap
from pathlib import Path

PAGE = Path(__file__).resolve().parent.parent / "docs/nfs41d.8"
WIDTH = 80


def plain(line):
    """A line of the page without its macro and its escapes."""
    if line.startswith("."):
        macro, *words = shlex.split(line, posix=False)
        # (a macro of two letters puts its words together, in two fonts)
        line = ("" if len(macro) == 3 else " ").join(it[1:-1] if it[:1] == it[-1:] == '"' else it for it in words)
    return re.sub(r"\\f.|\\&", "", line).replace("\\-", "-").replace("\\(aq", "'").replace("\\e", "\\")


def section(name, page=PAGE):
    """The entries of a section: each the line that it begins with, and its text in one line; text before the first has no such line."""
    text = page.read_text(encoding="utf-8")
    found = re.search(rf"^\.SH {re.escape(name)}\n(.*?)(?=^\.SH|\Z)", text, re.MULTILINE | re.DOTALL)
    entries, is_tag = [["", []]], False
    for line in found[1].splitlines() if found else []:
        if line in (".TP", ".PP", ".br"):
            is_tag = line == ".TP"
        elif is_tag:
            entries.append([plain(line), []])
            is_tag = False
        else:
            entries[-1][1].append(plain(line))
    return [(tag, " ".join(lines)) for tag, lines in entries if tag or lines]


def shown(entries):
    """Entries as the lines of a help."""
    lines = []
    for tag, text in entries:
        lines += [f"  {tag}"] if tag else []
        lines += textwrap.wrap(text, WIDTH, initial_indent="      " if tag else "", subsequent_indent="      " if tag else "", break_on_hyphens=False)
    return "\n".join(lines)


def of_program():
    """What `nfs41d --help` prints: the forms of the synopsis, and the options."""
    forms = "\n       ".join(re.split(r" (?=nfs41d )", section("SYNOPSIS")[0][1]))
    return f"usage: {forms}\n\n{shown(section('OPTIONS'))}\n\nnfs41d(8) has the settings file, the status lines and more.\n"
