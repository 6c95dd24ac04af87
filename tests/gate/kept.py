"""What later runs on this machine have of a run: the proofs of crates, and what the rounds came to in which
tests/gate/rounds.py tries must-fail edits. It stands in a folder that nobody else can write.

What is proved of a library goes by its own text and by the statements of the libraries below it (`statements`): a check
above one reads its interface, definitions, contracts and proofs, and of the rest nothing but names. So its edits are
not tried again where only bodies below changed, and its proof is looked at again over what was kept: the checker takes
each module that is up to date, and its verdict ends with `incremental=trusted`. Programs and tests go by all text."""

import contextlib
import functools
import hashlib
import json
import os
import re
import shutil
from pathlib import Path

import edits as of_edits
from rattle import text_of

# lines of a library's format that are sums, or that say what stands where in it
OF_FORMAT = re.compile(r"^(?:needs|carries|lists-free|free|free-alone|incremental|checked|sum)\b.*\n", re.M)
# the modules that the toolchain makes (lang/antt/made.json): a line with the name of each, and lines of what
MADE = re.compile(r'^"([^"\n]*)"\n(.*?)(?=^"[^"\n]*"\n|\Z)', re.M | re.S)
# modules of functions and their contracts, and files that answer goals of one: others name those of the facade alone
OF_FUNCTIONS = re.compile(r"(?:proofs|specs/contracts)/")
ANSWERS = re.compile(r"lang/antt/(proofs/.*/(?:Answers|Invariants|Proof))\.antt")


def sum_of(*parts):
    return hashlib.sha256(repr(parts).encode()).hexdigest()


def rule():
    """Returns a sum of the rules by which edits are judged: what they came to under others does not count."""
    folder = os.path.dirname(os.path.abspath(of_edits.__file__))
    return sum_of(*(text_of(f"{folder}/{it}.py") for it in ("edits", "rounds", "rattle")))


def statements(rlib):
    """Returns a sum of what the check of a crate reads of a library below it, as that was built."""
    place = Path(rlib)
    return statements_of(place, (place / "format").stat().st_mtime_ns)


@functools.cache
def statements_of(place, _time):
    # (of the toolchain's own folder and of lang/src the check of a library reads nothing; that of a program does)
    texts = {str(it.relative_to(place)): it for it in place.rglob("*") if it.is_file()}
    texts = {it: path.read_text(encoding="utf-8") for it,
             path in texts.items() if not it.startswith(("toolchain/", "lang/src/"))}
    made = dict(MADE.findall(texts.pop("lang/antt/made.json", "")))

    def is_read(name, text):
        is_list = text.startswith('{"Parent"') and not name.startswith("facade")
        return not is_list and (f"facade/{name}" in made or not OF_FUNCTIONS.match(name))

    found = {it: OF_FORMAT.sub("", text) if it.rpartition("/")[2] == "format" else text for it, text in texts.items()}
    found = {it: text for it, text in found.items() if not (answers := ANSWERS.fullmatch(it))
             or f"facade/{answers[1]}" in made}
    return sum_of(sorted(found.items()), sorted(it for it in made.items() if is_read(*it)))


def place(store):
    """The folder for what passed: beside the toolchain's own or, where that cannot be made, in the user's cache."""
    beside = f"{store}-in-rounds"
    if is_own(beside) or not os.path.lexists(beside) and os.access(os.path.dirname(beside), os.W_OK):
        return beside
    return os.path.join(os.environ.get("XDG_CACHE_HOME") or os.path.expanduser("~/.cache"), "gondzalif", "proved")


def is_own(folder):
    """Whether a folder is one that nobody but this user can write."""
    found = os.stat(folder) if os.path.isdir(folder) and not os.path.islink(folder) else None
    return found is not None and found.st_uid == os.geteuid() and not found.st_mode & 0o022


def linked(source, to, is_own=False):
    """The same file once more, in place of what was there; a copy if it has to be, or on another file system."""
    if os.path.lexists(to):
        os.remove(to)
    try:
        (shutil.copy2 if is_own else os.link)(source, to)
    except OSError:
        shutil.copy2(source, to)


class Store:
    """What passed, by sums of all that it was read from. It has what the script asks of its own (`rt.Kept`)."""

    # how many proofs are kept of each crate: those that were used last
    MOST = 3

    def __init__(self, rt, folder, is_taken=True):
        """Without `is_taken`, what earlier runs kept is as if it were not there."""
        os.makedirs(folder, 0o700, exist_ok=True)
        self.folder, self.is_taken, self.begun = folder, is_taken and is_own(folder), {}
        self.toolchain = rt.kit_sum()

    # The names of what is kept.

    def own(self, crate):
        """A sum of a crate's own text, its line of crates.txt, the handles that it may use, and the toolchain."""
        files = sorted(it for part in ("src", "specs", "proofs", "c") for it in Path(crate.folder, part).rglob("*")
                       if it.is_file())
        said = crate.name, crate.said, crate.is_program, [it.name for it in crate.deps], [*crate.of_kit]
        texts = [(str(it.relative_to(crate.folder)), it.read_bytes()) for it in files]
        return sum_of(self.toolchain, text_of("HANDLES"), said, texts)

    def first(self, crate):
        """The same, as it was when the run first asked for it."""
        return self.begun.setdefault(crate.name, self.own(crate))

    def is_untouched(self, crate):
        """Whether the crate and those below it are still as they were."""
        return all(self.first(it) == self.own(it) for it in [crate, *crate.below()])

    def whole(self, crate):
        """A sum of the crate and of those below it."""
        return sum_of(*map(self.first, [crate, *crate.below()]))

    def key(self, crate):
        """A sum of what is read to prove the crate over the libraries as built: of a program, which is linked, all."""
        return self.whole(crate) if crate.is_program else sum_of(
            self.first(crate), *(statements(it.rlib) for it in crate.below()))

    def of_edit(self, edit, key):
        return sum_of(key, rule(), text_of(edit), text_of(edit.removesuffix(".edit") + ".md"))

    # What tries came to.

    def tried(self, name):
        """What was kept under that name, a word and a text; or none."""
        said = text_of(f"{self.folder}/tries/{name}") if self.is_taken else ""
        return tuple(json.loads(said)) if said else None

    def keep_tried(self, name, came, text):
        os.makedirs(f"{self.folder}/tries", exist_ok=True)
        with open(f"{self.folder}/tries/{name}-{os.getpid()}", "w", encoding="utf-8") as it:
            json.dump([came, text], it)
        os.rename(it.name, f"{self.folder}/tries/{name}")

    # Proofs.

    def give(self, crate, tests=False, _key=None):
        """Puts the proof of the crate where its build would, and returns whether one was kept of this text."""
        kept = f"{self.folder}/proofs/{crate.name}/{self.whole(crate)}"
        if tests or not self.is_taken or not os.path.isdir(kept):
            return False
        os.utime(kept)
        shutil.rmtree(os.path.dirname(crate.rlib), ignore_errors=True)
        # (a program is a file of its own, so that whoever asks sees that it was made)
        put = functools.partial(linked, is_own=crate.is_program)
        # (the key alone is not what a build makes; a folder of proofs may have that name)
        shutil.copytree(kept, f"{crate.folder}/out", copy_function=put, dirs_exist_ok=True,
                        ignore=lambda at, _: ["key"] if at == kept else [])
        return True

    def like(self, crate):
        """Returns the library as it was proved last over the same statements, or none."""
        if crate.is_program or not self.is_taken:
            return None
        found = [it for it in self.proofs_of(crate) if text_of(it / "key") == self.key(crate)]
        return f"{found[-1]}/rlib/{crate.name}.rlib" if found else None

    def proofs_of(self, crate):
        """The proofs of a crate that were kept, those last that were used last."""
        return sorted(Path(self.folder, "proofs", crate.name).glob("*"), key=os.path.getmtime)

    def keep(self, crate, tests=False, _key=None):
        """Keeps what the build of a proved crate made: its library, or its programs."""
        if tests or not self.is_untouched(crate):
            return
        out, of_crate = f"{crate.folder}/out", f"{self.folder}/proofs/{crate.name}"
        made = f"{of_crate}/making-{os.getpid()}"
        is_of_program = lambda it: crate.is_program and it.startswith(crate.name) and os.path.isfile(f"{out}/{it}")
        others = lambda at, names: [it for it in names if at == out and it != "rlib" and not is_of_program(it)]
        shutil.copytree(out, made, copy_function=linked, ignore=others)
        Path(made, "key").write_text(self.key(crate), encoding="utf-8")
        shutil.rmtree(f"{of_crate}/{self.whole(crate)}", ignore_errors=True)
        os.rename(made, f"{of_crate}/{self.whole(crate)}")
        for old in self.proofs_of(crate)[: -self.MOST]:
            shutil.rmtree(old, ignore_errors=True)

    # What else the script asks of what it keeps.

    at, is_full = None, False

    @staticmethod
    def in_turn(*_):
        return contextlib.nullcontext(False)

    def tell(self, *_):
        """(what is not kept is proved by the next run, and a library is read where it stands: nothing is to be said)"""

    is_built = shrink = tell


# what a turn counts for among the tasks of a run, whose order is by the lines behind each
LINES_OF_A_TURN = 150


class Tries:
    """Has the script try a crate's edits in rounds, each a task of its own, and keep what was refused. What plain `rt
    ci` keeps stands elsewhere, so that no run takes what the other passed."""

    def __init__(self, rt, rounds, store):
        self.rt, self.rounds, self.store = rt, rounds, store
        rt.Kept, rt.add_edits = self.kept, self.add

    def kept(self, crates, anew=False):
        """What the script has in place of its own."""
        self.store.is_taken &= not anew
        for it in crates:
            self.store.first(it)
        return self.store

    def add(self, tasks, crate, edits, first, waits, is_well, kept, start=None, in_ci=True):
        """Adds the tasks that try a crate's edits, and returns what gives their results, in the edits' order, and what
        gives those of earlier runs, by their numbers."""
        earlier, found = {}, {}

        def tried(some, jobs):
            key = kept.key(crate) if in_ci else kept.whole(crate)
            named = {at: kept.of_edit(edits[at], key) for at in some}
            earlier.update({at: it for at in some if (it := kept.tried(named[at]))})
            due = [at for at in some if at not in earlier]
            came = self.rounds.all_of(crate, [edits[at] for at in due], ["--jobs", str(jobs)]) if due else []
            is_same = kept.is_untouched(crate)
            for at, (is_well, text) in zip(due, came):
                found[at] = self.rt.REFUSED if is_well else self.rt.MISSED, text
                if is_well and is_same:
                    kept.keep_tried(named[at], *found[at])

        rounds = self.rounds.planned(crate, edits) if edits else []
        left = iter(range(len(rounds))[::-1])
        for number, (some, turns) in enumerate(rounds):
            def call(given, jobs, some=some):
                if not in_ci or given[crate.name, "proof"]:
                    tried(some, jobs)
                # (the interpreter gives each number to one thread)
                if not next(left):
                    self.rounds.forget(crate)

            waits = [(crate.name, "proof")] if in_ci else []
            tasks[crate.name, "edits", number] = (waits, LINES_OF_A_TURN * turns, self.rt.need(crate), call)
        return lambda given: [{**found, **earlier}[at] for at in range(len(edits))], lambda: earlier
