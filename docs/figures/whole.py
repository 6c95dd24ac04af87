"""The way of a record through the crates, and what of it is proved, tested or trusted. The places are in whole.tsv; that every crate of
crates.txt is there, but for the two that only test, is checked."""
import common
from svg import EDGE, INK, PANEL, Drawing

ONLY_TEST = {"nfs_testing", "nfs_tests"}
MEANS = [("proved", "proved: each answer meets its definition, and the code is safe and returns"),
         ("tested", "tested: safe and returning by proof, what it does by tests"), ("trusted", "trusted: neither")]


def crates():
    lines = (common.TOP / "crates.txt").read_text(encoding="utf-8").splitlines()
    return {line.partition(":")[0] for line in lines if line and not line.startswith("#")}


def draw():
    rows = [line.split("\t") for line in (common.HERE / "whole.tsv").read_text(encoding="utf-8").splitlines()]
    lacking = crates() - ONLY_TEST - {row[1] for row in rows}
    if lacking:
        raise common.Fault(f"docs/figures/whole.tsv has no box for {', '.join(sorted(lacking))}")
    picture = Drawing(1200, 490, "The way of a record through the server",
                      "A client's call comes over TCP to nfs_sockets, and goes through nfs_rpc and nfs_compound to nfs_exec, which runs its operations "
                      "over the tables; nfs_results and nfs_rpc put the reply. All within nfs_serve is proved, and of the program around it the "
                      "settings, the exit status and who has a place; the rest of it is tested. The operating system and the toolchain are trusted.")
    for kind, *words in rows:
        if kind == "text":
            picture.text(int(words[0]), int(words[1]), words[2], 12, "middle", style="italic")
        elif kind == "bracket":
            # from the box that runs the operations down to the tables
            first, last, y, bottom, begin = map(int, words)
            picture.line(begin, 220, begin, y, width=1.6)
            for x in (first, 777, 926, last):
                picture.path([(begin, y), (x, y), (x, bottom)], width=1.6, arrow=True)
        elif kind == "path":
            places = [*map(int, words)]
            picture.path([*zip(places[::2], places[1::2])], width=1.6, arrow=True)
        elif kind == "arrow":
            picture.line(*map(int, words), width=1.6, arrow=True)
        else:
            _, x, y, width, height, trust, text = words
            x, y, width, height = map(int, (x, y, width, height))
            if kind == "panel":
                picture.rect(x, y, width, height, PANEL, EDGE, radius=8)
                picture.text(x + width / 2, y + 22, text, 13, "middle", weight="bold")
            else:
                picture.box(x, y, width, height, list(filter(None, text.split("|"))), trust)
    for i, (trust, text) in enumerate(MEANS):
        picture.box(20, 372 + 28 * i, 26, 18, [], trust)
        picture.text(54, 386 + 28 * i, text, 12, fill=INK)
    return picture.svg()
