"""What an operation costs among few and among many objects, from bench/results/growth.tsv (bench/instructions --results)."""
import common
from svg import FAINT, INK, MUCH, OURS, RULE, Drawing, scale

GROWS, STEP = 2.0, 24


def series():
    """The facts, and of each operation its instructions by the number of objects."""
    facts, rows = common.table("growth")
    found = {}
    for row in rows:
        found.setdefault(row["operation"], []).append((int(row["objects"]), float(row["instructions"])))
    return facts, {name: sorted(points) for name, points in found.items()}


def line(picture, y, name, points):
    """The row of an operation: its name, a small curve of its cost relative to the first, the costs, and the ratio of last to first."""
    ratio = points[-1][1] / points[0][1]
    colour = MUCH if ratio >= GROWS else OURS
    across, up = scale(points[0][0], points[-1][0], 470, 560, True), scale(0, max(2.0, ratio), y + 4, y - 13)
    picture.text(20, y, name, 12, weight="bold" if ratio >= GROWS else None)
    picture.line(470, y + 4, 560, y + 4, RULE)
    picture.path([(across(count), up(cost / points[0][1])) for count, cost in points], colour, 2)
    for i, (_, cost) in enumerate(points):
        picture.text(670 + 100 * i, y, f"{cost:,.0f}", 12, "end")
    picture.text(980, y, f"{ratio:.2f}", 12, "end", colour, "bold" if ratio >= GROWS else None)


def draw():
    facts, found = series()
    ratios = {name: points[-1][1] / points[0][1] for name, points in found.items()}
    order = sorted((it for it in found.items() if ratios[it[0]] >= GROWS), key=lambda item: ratios[item[0]])
    others = [ratio for ratio in ratios.values() if ratio < GROWS]
    counts = sorted({count for points in found.values() for count, _ in points})
    picture = Drawing(1000, 144 + STEP * len(order), "Cost of an operation against the number of objects",
                      "A row for each operation that grows much: instructions among few and many objects, and how many times as many the last are; then how much all others grow at most.")
    picture.text(20, 30, "Instructions of one operation, among so many objects", 16, weight="bold")
    for i, count in enumerate(counts):
        picture.text(670 + 100 * i, 58, f"{count:,}", 12, "end", FAINT)
    picture.text(980, 58, "last to first", 12, "end", FAINT)
    for i, (name, points) in enumerate(order):
        line(picture, 82 + STEP * i, name, points)
    bottom = 82 + STEP * len(order)
    picture.text(20, bottom, f"each of the {len(others)} other operations", 12)
    picture.text(980, bottom, f"at most {max(others):.2f}", 12, "end", OURS)
    picture.line(20, bottom + STEP - 12, 980, bottom + STEP - 12, INK, 0.5)
    picture.notes(bottom + STEP + 6, f"{facts['how'].capitalize()}. The curve is the cost relative to that among the fewest.", common.told(facts))
    return picture.svg()
