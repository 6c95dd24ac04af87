"""Has the toolchain's script do no work twice in a run, and judges must-fail edits as tests/run_ci says.

- Edits of a crate are tried in rounds: one check of the crate with several edits, no two of which change the same
  function. It reads only the functions that its edits change and what those call. An edit that is not seen to be
  refused there is tried again alone, as `rt ci` would. Rounds run side by side, and what each came to is kept as soon
  as it ends.
- What is proved of a library is proved once. It is built from nothing, as always, and holds all that its check wrote,
  where that of `rt ci` holds its statements; the rounds of its edits are made from that.
- Tests are run under the toolchain's run-time checks (`rt try --test`), which takes minutes where their proofs take an
  hour. Plain `rt ci` proves them too: what that adds is that the tests' own code is safe and returns.
- tests/gate/kept.py keeps what was proved and what these rounds came to, for later runs on this machine.

The closing lines tell the minutes of processors of each crate's proofs, tests and edits (tools/progress.py)."""

import contextlib
import os
import re
import shutil
import subprocess
import tempfile
import threading
from collections import defaultdict
from pathlib import Path

import kept as for_later
import pinned
import progress
from built import Build
from edits import BY_PREMISE, Said, changed, listed, wanted
from progress import spent
from rattle import text_of

# the memory that tests under run-time checks take at most, in bytes
MEMORY_OF_TESTS = 2_000_000_000


class Rounds:
    """Tries the edits of a crate."""

    def __init__(self, rt, kept, is_this_run, unpacked=None):
        """`kept` has the folders of what was kept of crates; `unpacked` makes that of one proved by an earlier run."""
        self.rt, self.must_fail, self.unpacked = rt, rt.must_fail, unpacked
        self.kept, self.is_this_run = kept, is_this_run
        # what the last check of this thread said; of each crate, whether a function that no edit of a check changes
        # was seen to be proved in it, what its rounds begin with, and who makes that
        self.last, self.unchanged, self.starts, self.alone_in = threading.local(), {}, {}, defaultdict(threading.Lock)
        rt.checked = self.checked

    def checked(self, crate, texts, flags, kept, only=()):
        """Checks a copy of the crate with these texts in place of its own, over what kept holds, and returns how that
        ended. A library is built, which is checked just so, but offers no files for the proofs that are left open: a
        third of the time. Where it is given, no function is read but those of only and what they call."""
        rtlib = self.rt.rtlib
        with laid_out(crate.folder, rtlib.PARTS, texts) as room:
            verb, to = ("check", []) if crate.is_program or only else ("build", ["-o", f"{room}/{crate.name}.rlib"])
            to += [word for function in sorted(only) for word in ("--only", function)]
            words = [rtlib.RATTLE, verb, *crate.words(flags, keeps=False), *(["--incremental", kept] if kept else []),
                     *to]
            ran = ran_in(room, [*rtlib.guarded(), *words])
        ran.stdout = re.sub(r"^rattle build: nothing was built, .*\n\Z", "", ran.stdout, flags=re.MULTILINE)
        self.last.output = ran.stdout
        return ran

    def alone(self, crate, edit, flags, kept=None):
        """Tries one edit as `rt ci` does, and asks whether a contract refuses it."""
        label = f"must-fail {crate.name}/{os.path.basename(edit)}"
        functions, why = changed(self.rt, edit, crate.folder)
        came, text = (self.rt.BAD, f"{label}: BAD EDIT: {why}") if why else self.must_fail(crate, edit, flags, kept)
        is_well = came == self.rt.REFUSED
        if is_well:
            is_well, text = self.judged(crate, edit, functions, functions, Said(self.last.output))
        print("tried", text[:200], flush=True)
        return is_well, text

    def judged(self, crate, edit, functions, with_it, said):
        """Whether the functions of an edit are refused in a check with others, which change the functions with_it."""
        label = f"must-fail {crate.name}/{os.path.basename(edit)}"
        by, others = {it: said.refuses(it) for it in functions}, said.others(with_it)
        refused = [it for it in functions if by[it] == wanted(edit, it)]
        if others:
            beside = ", ".join(others)
            return False, f"{label}: SHOWS NOTHING: the prover also refuses {beside}, which it does not change"
        if not refused or listed(edit) and len(refused) < len(functions):
            return False, f"{label}: " + "; ".join(why_not(it, by[it]) for it in functions if it not in refused)
        self.unchanged[crate.name] = self.unchanged.get(crate.name, False) or said.proves_beside(with_it)
        return True, f"{label}: refused, as it must be, in {', '.join(refused)}"

    def rounds_of(self, crate, edits):
        """The edits in rounds, each with their texts. Those that change most come first, so a later round has few."""
        rounds, of_each = [], {it: set(changed(self.rt, it, crate.folder)[0]) for it in edits}
        for edit, functions in sorted(of_each.items(), key=lambda it: -len(it[1])):
            if not any(it["functions"].isdisjoint(functions) and self.join(crate, it, edit, functions)
                       for it in rounds):
                rounds.append({"edits": [], "functions": set(), "texts": {}})
                self.join(crate, rounds[-1], edit, functions)
        return [(it["edits"], it["texts"]) for it in rounds]

    def join(self, crate, one, edit, functions):
        """Adds the edit to a round, if its old texts still stand there once; returns whether it did."""
        with laid_out(crate.folder, ["src"], one["texts"]) as room:
            texts, why = self.rt.read_edit(edit, room)
        is_joined = not why or not one["edits"]
        if is_joined:
            one["texts"].update(texts or {})
            one["edits"].append(edit)
            one["functions"].update(functions)
        return is_joined

    def round_of(self, crate, edits, texts, flags, kept):
        """Tries the edits of a round together, and again alone those that are not seen to be refused there."""
        of_each = {it: changed(self.rt, it, crate.folder)[0] for it in edits}
        with_it, before = set().union(*of_each.values()), spent()
        with self.over(crate, kept) as copy:
            ran = self.checked(crate, texts, flags, copy, with_it)
        took = f"{(spent() - before) / 60:.1f} minutes of processors"
        print(f"a round of {crate.name}: {len(edits)} edits, {len(with_it)} functions, {took}", flush=True)
        lines = ran.stdout.rstrip("\n").split("\n")
        is_read = ran.returncode == 1 and lines[-1].startswith("only=") and not self.rt.rtlib.STALE.search(ran.stdout)
        is_read = is_read and not any(self.rt.unread(it, texts) for it in lines)
        tried, said = [], Said(ran.stdout)
        for edit in edits:
            is_well, text = self.judged(crate, edit, of_each[edit], with_it, said) if is_read else (False, "")
            if is_well:
                print("tried", text[:200], flush=True)
                tried.append((True, text))
            else:
                with self.over(crate, kept) as copy:
                    tried.append(self.alone(crate, edit, flags, copy))
        return tried

    @contextlib.contextmanager
    def over(self, crate, kept):
        """Gives what a check begins with: of a library a copy, so that each begins alike. Of a program nothing was
        kept, so its checks come one after another over one folder, and each reads what earlier ones did not check."""
        with self.alone_in[crate.name] if crate.is_program else copied(kept) as copy:
            yield kept if crate.is_program else copy

    def planned(self, crate, edits):
        """The edits of a crate in rounds, by their numbers, with each round's turns; the first has the unfit ones."""
        unfit = [it for it in edits if changed(self.rt, it, crate.folder)[1]]
        first, *others = [some for some, _ in self.rounds_of(crate, [it for it in edits if it not in unfit])] or [[]]
        turns = lambda some: sum(text_of(it).count("\nold: ") for it in some)
        return [([edits.index(it) for it in some], turns(some)) for some in [[*first, *unfit], *others] if some]

    def all_of(self, crate, edits, flags):
        """Tries edits of a crate in rounds, each over a copy of what was kept, where the crate itself is proved over
        that: a check without any edit shows it or, over what this run kept, the functions that an edit's check proves
        beside. What was not refused so is tried again from nothing, as is all where the crate is not proved so."""
        tried, able = {}, [it for it in edits if not changed(self.rt, it, crate.folder)[1]]
        kept, is_shown = self.start_of(crate, flags) if able else ("", False)
        if is_shown:
            for some, texts in self.rounds_of(crate, able):
                tried.update(zip(some, self.round_of(crate, some, texts, flags, kept)))
            if self.is_this_run and not self.is_unchanged(crate, flags, kept):
                tried = {}
        return [tried[it] if it in tried and tried[it][0] else self.alone(crate, it, flags) for it in edits]

    def start_of(self, crate, flags):
        """Returns the folder that a crate's rounds begin with, and whether the crate is proved over that: a check
        without any edit showed it, or the rounds over what this run kept show it themselves."""
        with self.alone_in[crate.name]:
            if self.is_this_run and crate.name not in self.kept:
                self.kept[crate.name] = self.unpacked(crate)
            if crate.name not in self.starts:
                # (where nothing was kept, the check without any edit fills the folder)
                kept = self.kept.get(crate.name) or tempfile.mkdtemp(prefix="rt-edits-")
                self.starts[crate.name] = kept, self.is_this_run or not self.checked(crate, {}, flags, kept).returncode
            return self.starts[crate.name]

    def forget(self, crate):
        """Drops what a crate's rounds began with: there are no more."""
        shutil.rmtree(self.starts.pop(crate.name, ("",))[0], ignore_errors=True)
        self.kept.pop(crate.name, None)

    def is_unchanged(self, crate, flags, kept):
        """Whether the crate is proved over what this run kept: by a round, or once by a check without any edit."""
        with self.alone_in[crate.name]:
            self.unchanged[crate.name] = self.unchanged.get(crate.name) or not self.checked(
                crate, {}, flags, kept).returncode
            return self.unchanged[crate.name]


def why_not(function, by):
    """Returns why a function does not count as refused, which the prover refuses by this."""
    if by == "premise":
        own = f"{BY_PREMISE}{function}"
        return f"ONLY A PREMISE of a call is refused in {function}: change a value, or let its list say '{own}'"
    if by:
        return f"its list says that only a premise of a call is refused in {function}, and its contract is"
    gone = "or only because a proof names a step that is gone: change a value and keep the names"
    return f"NOT REFUSED in {function}, {gone}"


@contextlib.contextmanager
def laid_out(folder, parts, texts):
    """Gives for a while a copy of these parts of a crate's folder with these texts in place of its own."""
    with tempfile.TemporaryDirectory(prefix="rt-edit-") as room:
        for part in (it for it in parts if os.path.isdir(f"{folder}/{it}")):
            shutil.copytree(f"{folder}/{part}", f"{room}/{part}")
        for path, text in texts.items():
            Path(room, path).write_text(text, encoding="utf-8")
        yield room


def ran_in(folder, words):
    """A command that has ended, with all that it said."""
    return subprocess.run(words, cwd=folder, stdin=subprocess.DEVNULL, stdout=subprocess.PIPE,
                          stderr=subprocess.STDOUT, errors="replace")


@contextlib.contextmanager
def copied(kept):
    """Gives a folder with the same files as another, which no check changes in place, for as long as it is wanted."""
    with tempfile.TemporaryDirectory(prefix="rt-copy-", dir=os.path.dirname(kept)) as room:
        yield shutil.copytree(kept, f"{room}/kept", copy_function=os.link)


def keep_all(rt, room, store):
    """Has each proof of a library keep all that it wrote, in new folders of the room; returns those by crates' names.
    That of a program begins empty, since no check both keeps its work and makes what two compilers build."""
    kept, ci = {}, rt.Crate.ci

    def ci_and_keep(crate, flags, tests):
        path = f"{room}/{crate.name}"
        shutil.rmtree(path, ignore_errors=True)
        os.mkdir(path)
        status = ci(crate, flags, tests) if crate.is_program else prove_once(rt, crate, flags, path, store)
        if not status and (crate.is_program or os.listdir(path)):
            kept[crate.name] = path
        return status

    rt.Crate.ci = ci_and_keep
    return kept


def prove_once(rt, crate, flags, path, store):
    """Builds a library, to hold all that its check wrote and not its statements alone, and unpacks that into the folder
    too. It is built from nothing, or over what was proved last of the same text over the same statements."""
    like = store.like(crate)
    if like:
        rt.say(f"{crate.name}: since it was proved only bodies below have changed: over what was kept", crate.out)
        unpacked(rt, crate, path, like)
    for over in [path, None] if like else [None]:
        shutil.rmtree(os.path.dirname(crate.rlib), ignore_errors=True)
        os.makedirs(os.path.dirname(crate.rlib))
        words = ["--incremental", over] if over else []
        status = crate.prove(["build", *crate.words(flags, keeps=False), *words, "-o", crate.rlib])
        if not status:
            shutil.rmtree(path)
            unpacked(rt, crate, path)
            break
    return status


def unpacked(rt, crate, path, rlib=None):
    """Unpacks what the check of a library that was built wrote into a folder for kept work, as the prover would have it
    there, and returns the folder; that of a program stays empty. A later check looks at each module whether it is that
    of the text as it stands; where a kit packs them otherwise, it finds none and proves them again."""
    os.makedirs(path, exist_ok=True)
    if crate.is_program:
        return path
    archive, pack = f"{rlib or crate.rlib}/toolchain/checked.a", [f"{rt.KIT}/toolchain/bin/llvm-ar"]
    names = [it for it in ran_in(path, [*pack, "t", archive]).stdout.splitlines() if "/" not in it]
    build = re.search(r"^--@ kernel (\S+)$", ran_in(path, [*pack, "p", archive, *names[:1]]).stdout, re.MULTILINE)
    if names and build:
        folder = f"{path}/{build[1].replace('/', '_')}"
        os.makedirs(folder, exist_ok=True)
        ran_in(folder, [*pack, "x", archive, *names])
    return path


def kept_by_hand(rt, names, room):
    """Copies what the developer's own checks of these crates kept into the room; returns the folders by their names."""
    own_of = {it.name: f"{it.folder}/out/incremental" for it in rt.rtlib.crates_below(os.getcwd()) if it.name in names}
    return {name: shutil.copytree(own, f"{room}/{name}") for name, own in own_of.items() if os.path.isdir(own)}


def over_kept(verdict):
    """Returns the form of a verdict that may say that it rests on what an earlier check kept."""
    return re.compile(verdict.pattern.replace(r"\n\Z", r"( incremental=trusted)?\n\Z"), re.MULTILINE)


def in_order(rt, tasks, store):
    """Returns the tasks of a run so that tests are run under run-time checks, which wait for no proof."""
    crates = {it.name: it for it in rt.rtlib.crates_below(os.getcwd())}
    return {key: ([], task[1] // 4, MEMORY_OF_TESTS, tests_of(rt, crates[key[0]], store)) if key[1] == "tests" else task
            for key, task in tasks.items()}


def tests_of(rt, crate, store):
    """The call that runs a crate's tests under run-time checks, unless an earlier run here saw the same ones pass."""
    def passed(given, jobs):
        if not crate.has_tests():
            return True
        name = for_later.sum_of(f"tests of {crate.name} under run-time checks", store.whole(crate))
        if store.tried(name):
            rt.say(f"{crate.name}: its tests passed in an earlier run, and nothing that they read has changed")
            return True
        ran = ran_in(crate.folder, [f"{rt.KIT}/bin/rt", "try", "--test"])
        ended = re.search(r"^test result: ok\. ([1-9]\d*) passed; 0 failed", ran.stdout, re.MULTILINE)
        # (a test that the reader of the sources finds and the runner does not is none, and the other way round)
        is_well = ran.returncode == 0 and ended is not None and int(ended[1]) == pinned.tests_of(crate.folder)
        print(f"== {crate.name}: its tests under run-time checks\n" + (ended[0] if is_well else ran.stdout[-4000:]),
              flush=True)
        if is_well:
            store.keep_tried(name, rt.REFUSED, ended[0])
        return is_well

    return passed


def run(rt, words):
    """Runs the toolchain's command with these words, and returns its status. The word `program` in the place of `ci`
    has the program proved and built, and nothing beside it."""
    progress.count_processors(rt)
    is_program, is_ci = words[0] == "program", words[0] != "must-fail"
    minutes, in_lanes = progress.Minutes(), rt.in_lanes
    in_lanes = progress.program_alone(rt, in_lanes, minutes) if is_program else in_lanes
    store = for_later.Store(rt, for_later.place(rt.STORE), "--anew" not in words)
    if store.is_taken:
        rt.rtlib.VERDICT = over_kept(rt.rtlib.VERDICT)
    rt.in_lanes = lambda tasks: in_lanes({key: (*task[:3], minutes.timed(key, task[3]))
                                          for key, task in in_order(rt, tasks, store).items()})
    build = Build(os.getcwd())
    sources, mark = build.sources(), build.mark()
    # (by this name the toolchain's script removes the folder of a run that was killed)
    with tempfile.TemporaryDirectory(prefix=f"rt-copy-{os.getpid()}-") as room:
        kept = keep_all(rt, room, store) if is_ci else kept_by_hand(rt, words[1:], room)
        rounds = Rounds(rt, kept, is_ci, lambda crate: unpacked(rt, crate, f"{room}/{crate.name}"))
        for_later.Tries(rt, rounds, store)
        try:
            status = rt.main(["ci", *words[1:]] if is_program else words)
        except progress.Ended as ended:
            status = 0 if ended.args[0] else 1
    build.note(mark, sources)
    print("\n".join(minutes.table()))
    return status
