"""How many times as many calls a second as another server, from bench/results/throughput.tsv (tools/load --results)."""
import common
from svg import FAINT, INK, OURS, RULE, Drawing, scale, short

PANELS = [((1, 1), "one connection, one call at a time"), ((1, 16), "one connection, sixteen calls outstanding"),
          ((16, 1), "sixteen connections, one call each"), ((16, 16), "sixteen connections, sixteen calls each")]
STEP = 22


def rates():
    """The facts, the kinds, the two servers, and of each kind, shape and server its best round."""
    facts, rows = common.table("throughput")
    found = {(row["kind"], (int(row["connections"]), int(row["outstanding"])), row["server"]): float(row["calls_a_second"]) for row in rows}
    ours, other = [name for name in dict.fromkeys(row["server"] for row in rows) if name != "ceiling"]
    return facts, list(dict.fromkeys(row["kind"] for row in rows)), (ours, other), found


def panel(picture, left, top, rows, at, title):
    """A bar for each kind, as long as the ratio, and the two rates beside it."""
    picture.text(left, top, title, 13, weight="bold")
    bottom = top + 14 + STEP * len(rows)
    picture.line(left + at(1), top + 10, left + at(1), bottom, RULE)
    for i, (kind, ours, other) in enumerate(rows):
        y = top + 16 + STEP * i
        if left < 250:
            picture.text(left - 8, y + 12, kind, 12, "end")
        picture.rect(left, y, at(ours / other), 15, OURS)
        picture.text(left + at(ours / other) + 6, y + 12, f"{ours / other:.2g} times", 12, fill=INK, weight="bold")
        picture.text(left + at(ours / other) + 72, y + 12, f"{short(float(f'{ours:.2g}'))} to {short(float(f'{other:.2g}'))}", 11, fill=FAINT)
    return bottom


def draw():
    facts, kinds, (ours, other), found = rates()
    panels = [(title, [(kind, found[kind, shape, ours], found[kind, shape, other]) for kind in kinds if (kind, shape, other) in found])
              for shape, title in PANELS]
    most = max(a / b for _, rows in panels for _, a, b in rows)
    at = scale(0, most, 0, 190)
    height = 150 + 2 * (STEP * len(kinds) + 50)
    picture = Drawing(930, height, f"Calls a second of {ours}, as a multiple of those of {other}",
                      "Bars as long as the ratio, for each kind of calls and four loads; beside each bar the two rates in calls a second.")
    picture.text(20, 30, f"Calls a second of {ours}, as a multiple of those of {other}", 16, weight="bold")
    picture.text(20, 50, "The thin line is at 1: equal. Beside each bar are the two rates.", 12, fill=FAINT)
    top = 84
    for row in range(2):
        for column in range(2):
            title, rows = panels[2 * row + column]
            bottom = panel(picture, 210 + 375 * column, top, rows, at, title)
        top = bottom + 40
    picture.notes(top - 8, f"{facts['how'].capitalize()}.", common.told(facts), facts.get("servers", ""))
    return picture.svg()
