"""What is to be read and what the checker reads: lines to believe, other definitions, code, tests and proof, counted in the tree."""
import sys

import common
from svg import FAINT, INK, MUCH, OF_DEFINITIONS, OF_PROOF, ON_COLOUR, OURS, PAPER, Drawing, wide

sys.path.append(str(common.TOP / "tests/gate"))
from promises import lines_by_crate  # noqa: E402

ONLY_TEST = {"nfs_testing", "nfs_tests"}
AREAS = [("to believe", "definitions that the promises rest on", MUCH), ("other definitions", "between crates; laws; comments", OF_DEFINITIONS),
         ("code", "Rust with contracts", OURS), ("proof", "read by the checker alone", OF_PROOF)]
DEEP = {MUCH, OURS}


def lines(paths):
    return sum(len(path.read_text(encoding="utf-8").splitlines()) for path in paths)


def counted():
    """Of each crate its four numbers of lines, and the lines of tests of all."""
    few, crates, tests = lines_by_crate(common.TOP), {}, 0
    for folder in sorted((common.TOP / "crates").iterdir()):
        sources = sorted(folder.glob("src/**/*.rt"))
        trying = [path for path in sources if folder.name in ONLY_TEST or "#[test]" in path.read_text(encoding="utf-8")]
        tests += lines(trying)
        if folder.name not in ONLY_TEST and sources:
            definitions = lines(path for path in folder.glob("specs/**/*.antt"))
            own = few.get(folder.name, 0)
            crates[folder.name] = (own, definitions - own, lines(set(sources) - set(trying)), lines(folder.glob("proofs/**/*.antt")))
    return crates, tests


def draw():
    crates, tests = counted()
    totals = [sum(numbers[i] for numbers in crates.values()) for i in range(4)]
    picture = Drawing(1000, 610, "Lines to believe, definitions, code and proof",
                      "; ".join(f"{name}: {total:,} lines" for (name, _, _), total in zip(AREAS, totals)))
    top, width = 56, 880
    picture.text(20, 34, "What you read, and what the checker reads: lines, as areas", 16, weight="bold")
    # one band whose parts are as wide as their lines are many; the words of a narrow one are turned
    at, height = 20.0, 120
    for (name, _, colour), total in zip(AREAS, totals):
        part = total / sum(totals) * (width + 80)
        picture.rect(at, top, part, height, colour, PAPER)
        fill, middle = ON_COLOUR if colour in DEEP else INK, at + part / 2
        if part > wide(name, 15) + 8:
            picture.text(middle, top + 56, name, 15, "middle", fill, "bold")
            picture.text(middle, top + 78, f"{total:,} lines", 13, "middle", fill)
        else:
            picture.text(middle + 4, top + height / 2, f"{name.split()[-1]}: {total:,}", min(11, part * 0.8), "middle", fill, "bold", turn=-90)
        at += part
    for i, ((name, note, colour), total) in enumerate(zip(AREAS, totals)):
        x, y = 20 + i * 245, top + height + 24
        picture.rect(x, y - 11, 14, 14, colour)
        picture.text(x + 20, y, f"{name}, {total:,}", 12, weight="bold")
        picture.text(x + 20, y + 16, note, 11, fill=FAINT)
    bars(picture, crates, 250)
    picture.text(20, 596, f"All lines of the files are counted; of those to believe, lines without comments, imports and blanks. Tests have {tests:,} more "
                 "lines of Rust.", 12, fill=FAINT)
    return picture.svg()


def bars(picture, crates, top):
    """A bar for each crate, the largest first."""
    order = sorted(crates.items(), key=lambda item: -sum(item[1]))
    most, step = sum(order[0][1]), 330 / len(order)
    for i, (name, numbers) in enumerate(order):
        y, x = top + i * step, 150.0
        picture.text(142, y + step * 0.62, name, 12, "end")
        for (_, _, colour), count in zip(AREAS, numbers):
            picture.rect(x, y + 2, count / most * 740, step - 5, colour)
            x += count / most * 740
        picture.text(x + 6, y + step * 0.62, f"{sum(numbers):,}", 11, fill=FAINT)
