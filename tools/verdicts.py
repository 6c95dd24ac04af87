"""Verdicts for a gate: files of TAP and of JUnit, of cases that are each a name and what was wrong with it."""
from pathlib import Path
from xml.sax.saxutils import quoteattr


def options(words, what):
    """The words that ask for such files."""
    words.add_argument("--tap", type=Path, metavar="FILE", help=f"{what}, as TAP")
    words.add_argument("--junit", type=Path, metavar="FILE", help="the same as JUnit")


def lacking(*paths):
    """Why one of these files cannot be written, or none."""
    return next((f"there is no folder {path.parent}" for path in paths if path and not path.parent.is_dir()), None)


def written(chosen, suite, kind, cases, seconds):
    """Writes the files that were asked for."""
    if chosen.tap:
        tap(chosen.tap, cases)
    if chosen.junit:
        junit(chosen.junit, suite, kind, cases, seconds)


def tap(path, cases):
    """A line a case, and below it what was wrong."""
    out = [f"1..{len(cases)}"]
    for number, (name, faults) in enumerate(cases, 1):
        out.append(f"{'not ok' if faults else 'ok'} {number} - {name}")
        out += [f"  # {fault}" for fault in faults]
    path.write_text("\n".join(out) + "\n", encoding="utf-8")


def junit(path, suite, kind, cases, seconds):
    """A test case each, with a failure for what was wrong."""
    failed = sum(1 for _, faults in cases if faults)
    out = ['<?xml version="1.0" encoding="UTF-8"?>',
           f'<testsuite name={quoteattr(suite)} tests="{len(cases)}" failures="{failed}" time="{seconds:.1f}">']
    for name, faults in cases:
        out.append(f"  <testcase classname={quoteattr(kind)} name={quoteattr(name)}>")
        out += [f"    <failure message={quoteattr(fault)}/>" for fault in faults]
        out.append("  </testcase>")
    path.write_text("\n".join([*out, "</testsuite>"]) + "\n", encoding="utf-8")
