"""Compares the definitions that contracts name with those of the checker's own print of them, which `rt check --generated FOLDER` writes in the folder
of a crate: of each contract, with every name behind its module. The last line is 'N passed, M failed'."""
import re
import sys
from pathlib import Path

TOP = Path(__file__).resolve().parents[2]
sys.path[:0] = [str(TOP / "tools"), str(TOP / "tests/gate")]
import rattle  # noqa: E402
from promises import Promises  # noqa: E402
from words import Words  # noqa: E402

BROUGHT = re.compile(r"^use (\S+)(?: as (\S+))?$", re.M)
PRINTED = re.compile(r"[^\s(){},;\[\]⌜⌝]+")


def named(top, promises, folder):
    """How many contracts name no more definitions in the checker's own print of them than are found here, and which do."""
    same, found = 0, []
    for crate in rattle.crates(top):
        mine = {}
        for file, (source, is_test) in rattle.tree(crate).items():
            for it in source.functions if not is_test else ():
                cited = {one for clause in it.clauses for one in promises.all.cited_in(crate / file, clause)}
                mine[rattle.path_of(it, file, crate)] = {str(one) for it in cited if (one := promises.all.at(it))}
        for path in sorted(folder.glob(f"Rattle-{crate.name}*/**/contracts/**/*.antt")):
            text = rattle.without_comments(path.read_text(encoding="utf-8"))
            if "abbrev pub spec " in text:
                inside = path.with_suffix("").parts
                function = "::".join(inside[inside.index("contracts") + 1 :])
                more = printed(promises.all, text) - mine.get(function, set())
                found += [f"{crate.name} {function}: the checker's print of its contract names {', '.join(sorted(more))} too"] * bool(more)
                same += not more
    return same, found


def printed(definitions, text):
    """The definitions that such a print names."""
    modules, found = {other or path.rpartition(".")[2]: path for path, other in BROUGHT.findall(text)}, set()
    for word in PRINTED.findall(text):
        module, _, name = word.partition(".")
        home = definitions.home_of(modules[module], None)[0] if name and definitions.is_own(modules.get(module, "")) else None
        if home in definitions.files and (one := definitions.at((home, name.partition(".")[0]))):
            found.add(str(one))
    return found


def main():
    words = Words(__doc__, prog="named.py")
    words.add_argument("folder", type=Path, metavar="FOLDER", help="where the print is")
    same, found = named(TOP, Promises(TOP), words.parse_args().folder)
    print("\n".join([*found, f"{same} passed, {len(found)} failed"]))
    return 0 if same and not found else 1


if __name__ == "__main__":
    sys.exit(main())
