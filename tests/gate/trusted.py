"""Which libraries of the kit are trusted: what crates.txt and the sources say, and whether the documents say so.
`tests/gate/believed` stands on it."""

import re

import rattle

CODE = re.compile(r"`([^`\n]+)`")
# what every source may name without a line of crates.txt
OWN = {"std", "core", "alloc", "crate", "self", "super", "Self", "rt"}


def named(top, crate):
    """The libraries that the sources of a crate bring names from."""
    found = set()
    for path in sorted((top / "crates" / crate / "src").glob("**/*.rt")):
        source = rattle.read(path)
        modules = {it.stem for it in path.parent.glob("*.rt")} | {
            it.name for it in path.parent.iterdir() if it.is_dir()} | {name for _, name, *_ in source.modules}
        derived = [it for said in source.attributes if said.startswith("derive") for it in re.findall(r"(\w+)::", said)]
        used = [it[1] for _, use, _ in source.uses if (it := re.match(r"([a-z_]\w*)(?:::|$)", use))]
        ghosts = [it[1] for use in source.ghost_uses if (it := re.match(r"Rattle\.(\w+)\.", use))]
        found |= {it for it in (*used, *derived) if it not in modules} | set(ghosts)
    return found - OWN - {crate}


def faults(top, order):
    """Where crates.txt, the sources and the documents do not agree on the libraries of the kit."""
    crates = {it.name for it in rattle.crates(top)}
    found = [f"crates.txt: it has no line for {it}" for it in sorted(crates - set(order))]
    used = {crate: named(top, crate) for crate in sorted(crates & set(order))}
    for crate in used:
        found += [f"crates.txt: the sources of {crate} name {it}, and its line does not"
                  for it in sorted(used[crate] - set(order[crate]))]
    libraries = {it for below in (*order.values(), *used.values()) for it in below} - crates
    found += [f"crates.txt: no source names {it}" for it in sorted(libraries - set().union(*used.values()))]
    for name in ("README.md", "docs/PROMISES.md") if libraries else ():
        told, heading = set(), ""
        # (the paragraphs that speak of what is trusted, in their own words or in those of their heading)
        for block in re.split(r"\n\s*\n", rattle.text_of(top / name)):
            heading = block if block.startswith("#") else heading
            told.update(CODE.findall(block) if re.search(r"\btrusted\b", block + heading, re.I) else ())
        found += [f"{name}: {it} is of the kit, and not among what is trusted" for it in sorted(libraries - told)]
    return found
