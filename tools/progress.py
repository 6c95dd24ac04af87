"""What the tasks of a run of the gate take of the processors; and how far the proofs of a program are, and how long they still take: by the minutes
that bench/gate measured of each crate, at the pace that this run has shown."""

import csv
import functools
import heapq
import os
import sys
import threading
import time
from collections import defaultdict
from concurrent.futures import Future, ThreadPoolExecutor
from pathlib import Path

RESULTS = Path(__file__).resolve().parents[1] / "bench/results"

KINDS = ("proof", "tests", "edits")

# the minutes of processors that a run has to have worked off before its own pace is believed
ENOUGH = 4


class InPlace(ThreadPoolExecutor):
    """Runs what is submitted at once, in the thread that submits it, so that what a command takes counts for whoever waits for it."""

    def submit(self, call, *given):
        ended = Future()
        ended.set_result(call(*given))
        return ended


SPENT = threading.local()


def spent():
    """Returns the seconds of processors that the commands which this thread waited for have taken, with those that they waited for."""
    return getattr(SPENT, "seconds", 0.0)


def count_processors(rt):
    """Has each thread know what its commands take."""
    rt.rtlib.ThreadPoolExecutor = InPlace

    def waited(pid, options):
        pid, status, used = os.wait4(pid, options)
        if pid:
            SPENT.seconds = spent() + used.ru_utime + used.ru_stime
        return pid, status

    os.waitpid = waited


class Minutes:
    """What the tasks of a run take."""

    def __init__(self):
        self.began, self.seconds, self.running, self.ended = time.monotonic(), defaultdict(lambda: defaultdict(float)), {}, []

    def timed(self, key, call):
        """Returns the call of a task, which notes what it takes of processors."""
        def run(given, jobs):
            before, self.running[key] = spent(), time.monotonic()
            try:
                return call(given, jobs)
            finally:
                self.seconds[key[0]][key[1]] += spent() - before
                del self.running[key]
                self.ended += [key[0]] if key[1] == "proof" else []

        return run

    def table(self):
        """Returns a line for each crate, dearest first, and one for all: minutes of proofs, tests and edits."""
        of = {name: [took.get(kind, 0.0) / 60 for kind in KINDS] for name, took in self.seconds.items()}
        lines = [(name, took) for name, took in sorted(of.items(), key=lambda it: -sum(it[1])) if sum(took) > 0.05]
        lines.append(("in all", [sum(it) for it in zip(*of.values())] or [0.0] * len(KINDS)))
        return ["minutes of processors: proofs, tests, edits", *("  ".join([f"{name:14}", *(f"{it:6.1f}" for it in took)]) for name, took in lines)]


def measured():
    """Returns the minutes of processors that the proof of each crate took, the minutes by the clock of all of them, and on how many processors that
    was; nothing where it was not measured."""
    try:
        with open(RESULTS / "gate_by_crate.tsv", encoding="utf-8", newline="") as table:
            rows = [it for it in csv.DictReader(table, delimiter="\t") if (it["run"], it["work"]) == ("program", "proofs")]
        with open(RESULTS / "gate.tsv", encoding="utf-8", newline="") as table:
            clock = next(it for it in csv.DictReader(table, delimiter="\t") if (it["run"], it["measure"]) == ("program", "by the clock"))
        return {it["crate"]: float(it["minutes"]) for it in rows}, float(clock["minutes"]), int(clock["processors"])
    except (OSError, KeyError, ValueError, StopIteration):
        return {}, 0.0, 1


def spans(of, below, processors):
    """Returns when the proof of each crate begins and ends, in minutes: a crate waits for those below it, so many are proved at once, and those
    with the longest chain above them go first."""
    @functools.cache
    def chain(name):
        return of[name] + max((chain(other) for other in below if name in below[other]), default=0.0)

    waiting, running, ended, now, found = sorted(below, key=chain, reverse=True), [], set(), 0.0, {}
    while waiting or running:
        for name in [it for it in waiting if ended.issuperset(below[it])][:processors - len(running)]:
            waiting.remove(name)
            found[name] = now, now + of[name]
            heapq.heappush(running, (now + of[name], name))
        now, name = heapq.heappop(running)
        ended.add(name)
    return found


def reached(table, worked):
    """Returns the minute at which so many minutes of processors are worked off."""
    low, high = 0.0, max(end for _, end in table.values())
    for _ in range(40):
        middle = (low + high) / 2
        done = sum(min(max(middle - begin, 0.0), end - begin) for begin, end in table.values())
        low, high = (middle, high) if done < worked else (low, middle)
    return high


class Estimate:
    """How long proofs still take: of each crate what is below it, and what was measured."""

    def __init__(self, below, of, clock, processors):
        self.below, self.is_measured = below, bool(of)
        self.of = {name: of.get(name, 1.0) for name in below}
        self.stretch = clock / max(end for _, end in spans(self.of, below, processors).values()) if of else 1.0

    def minutes_left(self, took, running, since, processors):
        """Returns about how many minutes are left by the clock: `took` has the minutes of processors of the crates that have ended, `running` the
        minutes by the clock since each of the others began, and `since` those since the first began."""
        # (what an earlier run proved takes nothing, and tells nothing of the pace)
        of = {name: 0.0 if took.get(name, minutes) < minutes / 10 else minutes for name, minutes in self.of.items()}
        table, pace = spans(of, self.below, processors), self.stretch
        for _ in range(5):
            worked = sum(of[it] for it in took) + sum(min(0.9 * of[it], running[it] / pace) for it in running)
            at = reached(table, worked)
            pace = since / at if worked >= ENOUGH and at else self.stretch
        return pace * (max(end for _, end in table.values()) - at)

    def said(self, took, running, since, processors):
        """Returns a line that says how far it is."""
        now = ", ".join(f"{it} ({minutes:.0f} min)" for it, minutes in running.items())
        text = f"{len(took)} of {len(self.below)} crates proved, "
        if self.is_measured:
            left = self.minutes_left(took, running, since, processors)
            text += f"about {left:.0f} minutes left" if left >= 1.5 else "about a minute left"
        else:
            text += f"{since:.0f} minutes"
        return text + (f"; now {now}" if now else "")


def tell(minutes, below):
    """Says on standard error, each quarter of a minute and as long as the program runs, how far the proofs of the crates are."""
    estimate, processors = Estimate(below, *measured()), len(os.sched_getaffinity(0))

    def ever():
        while True:
            time.sleep(15)
            now = time.monotonic()
            took = {name: minutes.seconds[name]["proof"] / 60 for name in [*minutes.ended]}
            running = {name: (now - began) / 60 for (name, *_), began in sorted([*minutes.running.items()], key=lambda it: it[1])}
            print(f"nfs41d: {estimate.said(took, running, (now - minutes.began) / 60, processors)}", file=sys.stderr, flush=True)

    threading.Thread(target=ever, daemon=True).start()


class Ended(Exception):
    """The proofs of a program ended, all of them proved or not."""


def program_alone(rt, in_lanes, minutes):
    """Returns what runs of a run's tasks the proofs of the programs, and of what they stand on, and then ends the run."""
    def run(tasks):
        crates = rt.rtlib.crates_below(os.getcwd())
        wanted = {one.name: {other.name for other in one.below()} for it in crates if it.is_program for one in [it, *it.below()]}
        tell(minutes, wanted)
        raise Ended(all(in_lanes({key: it for key, it in tasks.items() if key[1] == "proof" and key[0] in wanted}).values()))

    return run
