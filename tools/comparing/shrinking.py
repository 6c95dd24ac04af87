"""Makes a script small that shows a difference: fewer calls, then fewer operations, then plainer arguments, until nothing can go."""
import time

import nfs4

from . import rules
from .playing import Given, Play
from .symbols import State, Sym, Turn

# Plainer words of fields, tried where they are not there already.
PLAINER = {"name": "a", "newname": "b", "offset": "0", "length": "10", "share_deny": "0", "share_access": "3", "create_mode": "0", "data": "data",
           "count": "10", "attrs": "{}", "owner": "o", "maxcount": "8000", "dircount": "8000", "cache_this": "1", "eia_flags": "0x0", "locktype": "2",
           "claim_type": "0", "verifier": "0x0000000000000001", "stable": "2", "linkdata": "text", "access": "63", "high_slot_id": "0", "slot_id": "0"}


class Shrinker:
    """Delta debugging by plays. A difference like `want` has to stay: of its key, with its verdict or a stronger one."""

    def __init__(self, server, reference, want, seconds):
        self.server, self.reference, self.want = server, reference, want
        self.until, self.tries = time.monotonic() + seconds, 0
        self.outcome = None  # of the last play that showed it

    def shows(self, script):
        if time.monotonic() > self.until:
            return False
        self.tries += 1
        try:
            outcome = Play(self.server, self.reference, Given(script), self.want, steer=False).run()
        except (nfs4.Unreadable, ValueError, KeyError):
            return False  # a call that cannot be written
        found = any(difference.key == self.want.key and rules.is_as_strong(difference, self.want.verdict) for difference in outcome.differences)
        self.outcome = outcome if found else self.outcome
        return found

    def shrink(self, script, last):
        """Makes the script as small as it can be; `last` is the step at which the difference was seen. The outcome of the smallest, if it came again."""
        steps = script.steps
        at = next((i for i, step in enumerate(steps) if step.id == last), len(steps) - 1)
        steps = steps[:at + 1]
        if not self.shows(script.with_steps(steps)):
            return None
        size = None
        while size != (size := weight(steps)) and time.monotonic() < self.until:
            steps = fewer(steps, lambda trial: self.shows(script.with_steps(trial)))
            steps = self.one_session(script, steps)
            steps = self.fewer_operations(script, steps)
        steps = self.plainer_steps(script, steps)
        steps = self.plainer_operations(script, steps)
        fewer(steps, lambda trial: self.shows(script.with_steps(trial)))
        return self.outcome

    def one_session(self, script, steps):
        """The steps with the first session, and its client, in place of each other; what made the others can then go."""
        made = {kind: [sym for step in steps for op in step.ops if (sym := script.binds.get((op.id, kind)))] for kind in ("sessionid", "clientid")}
        for kind, syms in made.items():
            for other in dict.fromkeys(syms[1:]):
                of = lambda op, other=other, first=syms[0], kind=kind: op.with_(**{kind: first}) if op.get(kind) == other else op
                trial = [step.with_(ops=[*map(of, step.ops)]) if not step.again else step for step in steps]
                steps = trial if self.shows(script.with_steps(trial)) else steps
        return steps

    def with_step(self, script, steps, at, step):
        """The steps with one changed, where the difference stays, else as they are."""
        trial = [*steps[:at], step, *steps[at + 1:]]
        return trial if self.shows(script.with_steps(trial)) else steps

    def fewer_operations(self, script, steps):
        for at in range(len(steps) - 1, -1, -1):
            step = steps[at]
            if step.again or not step.ops:
                continue
            rest = fewer(step.ops[1:], lambda rest, at=at, step=step: self.shows(
                script.with_steps([*steps[:at], step.with_(ops=step.ops[:1] + rest), *steps[at + 1:]])))
            steps = [*steps[:at], step.with_(ops=step.ops[:1] + rest), *steps[at + 1:]]
        return steps

    def plainer_steps(self, script, steps):
        for at in range(len(steps)):
            for change in ({"tag": "0x"}, {"conn": 0}, {"uid": 0, "gid": 0, "gids": ()}, {"gids": ()}, {"flight": 0}):
                step = steps[at].with_(**change)
                if step != steps[at]:
                    steps = self.with_step(script, steps, at, step)
        return steps

    def plainer_operations(self, script, steps):
        for at in range(len(steps)):
            for i in range(len(steps[at].ops) if not steps[at].again else 0):
                for changed in plainer(steps[at].ops[i]):
                    ops = [*steps[at].ops[:i], changed, *steps[at].ops[i + 1:]]
                    steps = self.with_step(script, steps, at, steps[at].with_(ops=ops))
        return steps


def weight(steps):
    return sum(1 + len(step.ops) for step in steps)


def fewer(items, test):
    """The items without those that can go, in ever smaller pieces."""
    size = max(1, len(items) // 2)
    while items:
        at, dropped = 0, False
        while at < len(items):
            trial = items[:at] + items[at + size:]
            if test(trial):
                items, dropped = trial, True
            else:
                at += size
        if size == 1 and not dropped:
            return items
        size = max(1, size // 2)
    return items


def plainer(op):
    """The operation with one field plainer, and its masks with a single attribute."""
    for key, word in op.fields:
        if isinstance(word, (Sym, State, Turn)):
            continue
        if key == "attr_mask" and "," in str(word):
            for name in word.split(","):
                yield op.with_(attr_mask=name)
                yield op.with_(attr_mask=f"Filehandle,{name}")
        elif key == "attrs" and str(word).count(";") and isinstance(word, str):
            for name, value in nfs4.values_of(word) or ():
                yield op.with_(attrs=nfs4.word_of([(name, value)]))
        if key in PLAINER and word != PLAINER[key] and (key != "create_mode" or word == "1") and (op.name, key) != ("SETATTR", "attrs"):
            yield op.with_(**{key: PLAINER[key]})
