"""A client's cache beside the server: what may be kept, what shows that it is still true, and the law that says so."""
import re

import common
from svg import FAINT, INK, OURS, PAPER, Drawing

# What a client keeps, whose change attribute shows that it is still true, and the law.
KEPT = [
    ("the bytes of a file", "file", "reads_are_alike"),
    ("its attributes: size, mode, owner, times", "file", "attributes_are_alike"),
    ("the object of a name", "directory", "names_are_alike"),
    ("that a name is not there", "directory", "names_are_alike"),
    ("a directory, after its own CREATE or REMOVE", "directory", "reports_are_true"),
]
SEEN = "changes_are_new"


def laws():
    """The laws that the picture names, which all stand in nfs_promises."""
    rooms = (common.TOP / "crates/nfs_promises/src/laws").glob("*.rt")
    there = {law for it in rooms for law in re.findall(r"^pub fn (\w+)", it.read_text(encoding="utf-8"), re.MULTILINE)}
    if lacking := {SEEN, *(law for _, _, law in KEPT)} - there:
        raise common.Fault(f"nfs_promises has no law {', '.join(sorted(lacking))}")


def rows(picture):
    """What the cache holds, one line each, with whose change it hangs on and its law."""
    for i, (what, whose, law) in enumerate(KEPT):
        y = 106 + 34 * i
        picture.rect(36, y - 20, 330, 28, PAPER, INK, radius=4)
        picture.text(48, y, what, 13)
        picture.text(384, y, f"change of the {whose}", 13, fill=OURS)
        picture.text(612, y, law, 12, fill=FAINT, style="italic")


def question(picture):
    """The one question, and the two answers."""
    picture.box(36, 318, 210, 44, ["client", "about to use what it kept"], "outside")
    picture.box(760, 306, 210, 68, ["server", "reports the change,", "whoever changed the object"], "proved")
    picture.line(246, 330, 760, 330, INK, 1.6, arrow=True)
    picture.text(503, 322, "GETATTR, attribute 3 (change)", 12, "middle")
    picture.line(760, 352, 246, 352, INK, 1.6, arrow=True)
    picture.text(503, 368, "the change now", 12, "middle")
    picture.text(36, 404, "The same as when it was kept:", 13, weight="bold")
    picture.text(276, 404, "it is still true, whatever came between and from whom.", 13)
    picture.text(36, 430, "Greater:", 13, weight="bold")
    picture.text(276, 430, f"ask again. Every change that was answered NFS4_OK raises it ({SEEN}).", 13)


def draw():
    laws()
    picture = Drawing(1000, 452, "What a client may keep, and what shows that it is still true",
                      "A client keeps bytes, attributes, names and absent names. While the change attribute of the file or directory is the same, what it kept "
                      "is still true. Every change that was answered NFS4_OK raises the attribute.")
    picture.text(36, 36, "The client's cache", 15, weight="bold")
    picture.text(48, 64, "what it keeps", 13, weight="bold")
    picture.text(384, 64, "is true while this is the same", 13, weight="bold")
    picture.text(612, 64, "law", 13, fill=FAINT)
    rows(picture)
    question(picture)
    return picture.svg()
