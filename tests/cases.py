"""The cases of a part of ./test: each runs alone by its name, a fault in one ends no other, and the last line is 'N passed, M failed'."""
import fnmatch
import os
import random
import sys
import threading
import traceback

from wire import needed
from words import Words


class Judged:
    """What a part has judged: how much held, and the names of what did not."""

    def __init__(self):
        self.passed, self.failed, self.unheard, self.one_by_one = 0, [], [], threading.Lock()

    def __call__(self, name, holds, shown=""):
        with self.one_by_one:
            if holds:
                self.passed += 1
            else:
                self.failed.append(name)
                self.say(f"{name}: {shown}" if shown else name)

    def say(self, line):
        """Prints the line, at the end where what is tried now goes unheard."""
        if sys.stdout is sys.__stdout__:
            print(line)
        else:
            self.unheard.append(line)

    def last_line(self):
        """Prints the last line of a part, and returns the exit status."""
        print("".join(f"{it}\n" for it in self.unheard), end="")
        print(f"{self.passed} passed, {len(self.failed)} failed")
        return 1 if self.failed else 0


judge = Judged()


def named(cases):
    """Cases by their names. A case is a function, maybe with its first arguments, or stands in a dictionary under its name."""
    return cases if isinstance(cases, dict) else {getattr(case, "func", case).__name__: case for case in cases}


class Part:
    """The words of a part, and its cases, which judge by `judge`."""

    def __init__(self, text, needs_program=True):
        self.words, self.needs_program, self.given = Words(text), needs_program, None
        self.words.add_argument("-k", metavar="NAME", action="append", help="the cases whose names have this in them alone; * and ? stand for any letters")
        self.words.add_argument("--list", action="store_true", help="the names of the cases, and nothing else")

    def parsed(self):
        """The words that it was called with; the script ends here if it wants the program and there is none."""
        self.given = self.words.parse_args()
        if self.needs_program and not self.given.list:
            needed()
        return self.given

    def chosen(self, names):
        """Which of these names were asked for: all, where none was. The script ends here where the names alone were, or something that is none."""
        asked = self.given.k or ["*"]
        found = [name for name in names if any(fnmatch.fnmatchcase(name, f"*{it}*") for it in asked)]
        if not found:
            self.words.error(f"no case is like {' or '.join(asked)}; --list has them")
        if self.given.list:
            print("\n".join(found))
            sys.exit()
        return found

    @staticmethod
    def tried(name, case):
        """Runs a case; what it raises is a fault of it."""
        try:
            case()
        except Exception as fault:  # whatever it is, the others run
            *_, place = traceback.extract_tb(fault.__traceback__)
            judge(name, False, f"{fault!r} at {os.path.basename(place.filename)}:{place.lineno}")

    def ends(self, cases, tell=lambda: None):
        """Runs what was asked for of the cases, in their order, and prints the last line; the exit status. `tell` prints what comes before it."""
        cases = named(cases)
        for name in self.chosen(cases):
            self.tried(name, cases[name])
        tell()
        return judge.last_line()


def main(text, cases, needs_program=True):
    """A part that takes no other words; the exit status."""
    part = Part(text, needs_program)
    part.parsed()
    return part.ends(cases)


def main_at_random(text, cases):
    """The same of a part that draws at random: by the seed that it is given, or by one that it tells."""
    part = Part(text)
    part.words.add_argument("--seed", type=int, help="what is drawn at random, as an earlier run printed it")
    given = part.parsed()
    part.chosen(named(cases))
    seed = random.randrange(2**32) if given.seed is None else given.seed
    random.seed(seed)
    print(f"seed {seed}")
    return part.ends(cases)
