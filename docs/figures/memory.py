"""The most memory that was resident when the server was full of one thing, from bench/results/memory.tsv (bench/memory --results)."""
import common
from svg import FAINT, OURS, RULE, Drawing, scale


def draw():
    facts, rows = common.table("memory")
    sizes = {row["full_of"]: float(row["megabytes"]) for row in rows}
    most = max(sizes.values())
    step = next(step for step in (5, 10, 20, 25, 50, 100, 200) if most / step <= 8)
    end = step * (int(most / step) + 1)
    height = 74 + 34 * len(sizes)
    picture = Drawing(1000, height + 74, "Resident memory of the server when it is full of one thing",
                      "; ".join(f"{name}: {size:.1f} MB" for name, size in sizes.items()))
    at = scale(0, end, 420, 930)
    picture.text(20, 30, "Most memory resident, in megabytes", 16, weight="bold")
    for value in range(0, end + 1, step):
        picture.line(at(value), 50, at(value), height, RULE)
        picture.text(at(value), height + 16, str(value), 11, "middle", FAINT)
    for i, (name, size) in enumerate(sizes.items()):
        y = 58 + 34 * i
        for j, line in enumerate(folded(name, 56)):
            picture.text(410, y + (16 if len(name) <= 56 else 9 + 14 * j), line, 12, "end")
        picture.rect(at(0), y, max(at(size) - at(0), 1), 22, OURS)
        picture.text(at(size) + 6, y + 16, f"{size:.1f}", 12)
    picture.notes(height + 42, "The most of a whole run of `nfs41d replay`, with the program itself.", common.told(facts), apart=18)
    return picture.svg()


def folded(text, most):
    """A text as one line, or as two of about the same length if it is longer than that."""
    if len(text) <= most:
        return [text]
    middle = text.rfind(" ", 0, len(text) // 2 + 8)
    return [text[:middle], text[middle + 1:]]
