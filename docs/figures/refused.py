"""A request's way through proved code, and a wrong server that its contract refuses: a must-fail edit of nfs_slots and the function it breaks."""
import common
from svg import CEILING, FAINT, INK, OURS, WRONG, Drawing

EDIT, SOURCE, LAW = "moves_on_when_misordered", "crates/nfs_slots/src/slot.rt", "repeats_change_nothing"
STEPS = [(("request", "bytes from a socket"), "outside"), (("Call::read", "valid XDR, or refused"), "proved"),
         (("Slot::judge", "new, repeat, misordered"), "proved"), (("World::compound", "runs the operations"), "proved"),
         (("reply", "bytes to a socket"), "outside")]
WIDTH, GAP, TOP = 168, 30, 66


def wrong_line():
    """The line of the code that the edit changes, and what it puts in its place."""
    text = (common.TOP / f"crates/nfs_slots/must-fail/{EDIT}.edit").read_text(encoding="utf-8").splitlines()
    old, new = ([it[5:].strip() for it in text if it.startswith(word)] for word in ("old: ", "new: "))
    source = (common.TOP / SOURCE).read_text(encoding="utf-8")
    laws = (common.TOP / "crates/nfs_exec/src/laws.rt").read_text(encoding="utf-8")
    if len(old) != 1 or len(new) != 1 or old[0] not in source or f"fn {LAW}" not in laws:
        raise common.Fault(f"{EDIT} is no edit of one line of {SOURCE}, or there is no law {LAW}")
    return old[0], new[0]


def way(picture):
    """The five stations of a request, and the short way of a repeat."""
    for i, (lines, kind) in enumerate(STEPS):
        x = 20 + i * (WIDTH + GAP)
        picture.box(x, TOP, WIDTH, 48, lines, kind)
        if i:
            picture.line(x - GAP + 2, TOP + 24, x - 3, TOP + 24, INK, 1.4, arrow=True)
    slot, reply = 20 + 2 * (WIDTH + GAP) + WIDTH / 2, 20 + 4 * (WIDTH + GAP) + WIDTH / 2
    picture.path([(slot, TOP + 48), (slot, TOP + 84), (reply, TOP + 84), (reply, TOP + 51)], OURS, 1.6, arrow=True)
    picture.text((slot + reply) / 2, TOP + 78, "a retransmission: the kept reply, and nothing runs", 12, "middle", OURS)


def wrong(picture, top):
    """The edit as lines of a change, and its end."""
    old, new = wrong_line()
    picture.text(20, top, "A wrong server: a late copy of an old request runs once more", 15, weight="bold")
    for i, (mark, line, colour) in enumerate((("-", old, FAINT), ("+", new, WRONG))):
        picture.add("text", f"{mark} {line if len(line) <= 84 else line[:82] + ' ..'}", x=28, y=top + 34 + 22 * i, font_size=12, fill=colour,
                    font_family="monospace")
    picture.line(690, top + 40, 726, top + 40, WRONG, 1.6, arrow=True)
    picture.rect(732, top + 12, 248, 56, "none", WRONG, radius=5)
    picture.text(856, top + 36, "rt check refuses Slot::judge", 13, "middle", WRONG, "bold")
    picture.text(856, top + 55, "no program is built", 12, "middle", WRONG)


def draw():
    picture = Drawing(1000, 350, "A wrong server is not built",
                      "A request goes through functions that are each proved to meet a contract. From the contracts follows the law that a repeated request never "
                      "runs again. A change of one line that breaks this is refused by the check, so no program is built.")
    picture.text(20, 34, "A request's way: each green step is proved to meet its contract", 15, weight="bold")
    way(picture)
    picture.line(20, TOP + 112, 980, TOP + 112, CEILING, 1, "3 4")
    picture.text(500, TOP + 136, f"From the contracts follows, for every run: laws::{LAW}. A retransmission gets the kept reply and changes nothing.", 13, "middle")
    picture.line(20, TOP + 152, 980, TOP + 152, CEILING, 1, "3 4")
    wrong(picture, TOP + 190)
    picture.notes(338, f"The change is crates/nfs_slots/must-fail/{EDIT}.edit. The gate tries it and hundreds of others: each has to be refused.")
    return picture.svg()
