"""Plays at random beside a model: a script comes about event by event, and the model says what each reply must be. Where one is another, the play
is made small by the shrinker of tools/comparing, and the smallest script is shown and kept."""
import collections
import functools
import random
import sys
import time
from pathlib import Path

from wire import (LEASE, TOP, Script, compound, create_session, exchange_id, exchanged, marked, replayed, replies, result, results, sequence,
                  session_created, session_id)
import cases
from cases import judge
import lines
from comparing.shrinking import fewer

# how long a play that fails is made small, and where it is kept, which git ignores
SECONDS, KEPT = 60, TOP / "out"


class Play(Script):
    """A run: the script, and the replies that it must have, each with its connection. A kind of play has EVENTS, says how it `begins` and what an
    `event` is, and counts in `told` what has to happen in a run worth playing."""

    EVENTS, TOLD = 0, ()

    def __init__(self, seed, small=None):
        super().__init__()
        self.random, self.small = random.Random(seed), small
        self.answered, self.told = [], dict.fromkeys(self.TOLD, 0)

    def expect(self, xid, body, connection=0):
        super().expect(xid, body, connection)
        self.answered.append(len(self.script))

    def keeps(self):
        """Whether a part of an event is played: where the play is made small, some are not."""
        return self.small is None or self.small.keeps()

    def run(self):
        self.begins()
        for number in self.small.events(self) if self.small else range(self.EVENTS):
            self.event(number)
        return self

    def wrong(self, program):
        """How the program ended and the replies that came; and the place of the first that is not as it must be, if there is one."""
        ran = program(b"".join(self.script))
        found = replies(ran.stdout)
        differ = (n for n, pair in enumerate(zip(found, self.expected)) if pair[0] != pair[1])
        is_whole = (ran.returncode, ran.stderr, len(found)) == (0, b"", len(self.expected))
        return ran, found, next(differ, None if is_whole else min(len(found), len(self.expected)))


class Small:
    """Which parts a play has, where it is made small: its events, and parts of these, by their numbers. At first all are noted, with the state of
    chance before each event; so an event draws the same again, whichever others are left out."""

    def __init__(self):
        self.states, self.ends, self.parts, self.kept, self.at = [], [], [], None, None

    def events(self, play):
        for number in range(play.EVENTS) if self.kept is None else sorted({number for number, _ in self.kept}):
            if self.kept is None:
                self.states.append(play.random.getstate())
                self.parts.append((number, 0))
            else:
                play.random.setstate(self.states[number])
            self.at = number, 0
            yield number
            if self.kept is None:
                self.ends.append(len(play.expected))

    def keeps(self):
        if self.at is None:
            return True
        self.at = self.at[0], self.at[1] + 1
        if self.kept is None:
            self.parts.append(self.at)
        return self.kept is None or self.at in self.kept

    def up_to(self, place):
        """The parts of the events up to the one that has this reply."""
        last = sum(end <= place for end in self.ends)
        return [part for part in self.parts if part[0] <= last]


def smallest(kind, seed, program):
    """The smallest play of this kind and seed that still has a wrong reply, up to that reply: its script, and the replies that it must have."""
    small, until = Small(), time.monotonic() + SECONDS
    _, _, place = kind(seed, small).run().wrong(program)

    def played(parts):
        small.kept, small.at = set(parts), None
        return kind(seed, small).run()

    def shows(parts):
        if time.monotonic() > until:
            return False
        try:
            return played(parts).wrong(program)[2] is not None
        except Exception:  # a play that does not come about without what was left out
            return False

    play = played(fewer(small.up_to(place), shows))
    _, _, place = play.wrong(program)
    end = play.answered[place] if place < len(play.answered) else len(play.script)
    return play.script[:end], play.expected[:place + 1]


def shown(kind, seed, program):
    """Makes a play small, keeps its script, and says where, and what it says."""
    script, expected = smallest(kind, seed, program)
    KEPT.mkdir(exist_ok=True)
    path = KEPT / f"{Path(sys.argv[0]).name}_seed_{seed}.script"
    path.write_bytes(b"".join(script))
    at, wanted = expected[-1] if expected else (0, b"")
    return "\n".join([f"the smallest script is {path}:", *lines.lines_of(b"".join(script)), f"the last reply on connection {at} must be {wanted.hex()}"])


def played(kind, seed, program=replayed):
    """A play and the replies that came: it ends well, and every reply is as the model says."""
    play = kind(seed).run()
    ran, found, place = play.wrong(program)
    judge(f"seed {seed}: the run ends well", (ran.returncode, ran.stderr) == (0, b""), f"{ran.returncode} {ran.stderr}")
    judge(f"seed {seed}: every reply", place is None and len(found) == len(play.expected),
          "" if place is None else f"{len(found)} of {len(play.expected)}; reply {place} is {[it.hex() for _, it in found[place:place + 1]]} and not "
          f"{[it.hex() for _, it in play.expected[place:place + 1]]}; {shown(kind, seed, program)}")
    return play, found


def lies_are_made_small(kind, seed, about, most):
    """A program that changes the last byte of each reply that has these bytes in it: a script of few records shows it."""
    def lying(script):
        ran = replayed(script)
        told = [(at, it[:-1] + bytes([it[-1] ^ 1]) if about in it else it) for at, it in replies(ran.stdout)]
        ran.stdout = b"".join(at.to_bytes(4, "big") + marked(it) for at, it in told)
        return ran

    script, expected = smallest(kind, seed, lying)
    judge("a lie is made small", len(script) <= most and about in expected[-1][1], f"{len(script)} records")


def main(text, kind, seeds, judged, about, tell):
    """A part that has plays of these seeds, and a lie about something that is made small. `judged` judges a play by its seed and the replies that came,
    and gives what happened in it; `tell` says what happened in all."""
    sums, part = collections.Counter(), cases.Part(text)
    part.parsed()

    def one(seed):
        play, found = played(kind, seed)
        sums.update({"replies": len(found)} | judged(seed, play, found))

    every = {f"seed {seed}": functools.partial(one, seed) for seed in seeds}
    return part.ends({**every, "a lie is made small": functools.partial(lies_are_made_small, kind, 1, about, 10)}, lambda: tell(sums))


class Client:
    """A client record, and a session of which it uses the first slot."""

    def __init__(self, owner, verifier):
        self.owner, self.verifier = owner, verifier
        self.counter = self.session = None
        self.number = self.creating = self.renewed = 0


class Clients(Play):
    """A play of two clients over one connection. A kind of it says how a client's end is felt, by `forget`."""

    def __init__(self, seed, small=None, verifier=1):
        super().__init__(seed, small)
        self.clients = [Client(b"A", verifier), Client(b"B", verifier)]
        self.next_client = self.next_session = 1

    def until(self, moment):
        """Time passes; what a client whose lease has run out had is gone with the next record (RFC 8881 section 8.3)."""
        self.moment = moment
        for client in self.clients:
            if client.counter is not None and moment - client.renewed > LEASE:
                self.forget(client.counter)
                client.counter = None

    def looks_before(self, client):
        """What is seen while a new record of the client's owner is there, and the old one is not ended yet."""

    def mount(self, client):
        """EXCHANGE_ID gives a new record, and CREATE_SESSION confirms it: then the owner's old one goes, with what it has (section 18.36)."""
        old, client.counter = client.counter, self.next_client
        self.next_client += 1
        self.arrive(compound([exchange_id(client.owner, client.verifier)]), results(exchanged(client.counter, 1)))
        if old is not None:
            self.looks_before(client)
            self.forget(old)
        client.creating = 0
        self.begin_session(client)

    def begin_session(self, client):
        client.creating += 1
        client.session = session_id(client.counter, self.next_session)
        self.next_session += 1
        client.number, client.renewed = 0, self.moment
        self.arrive(compound([create_session(client.counter, client.creating)]), results(session_created(client.session, client.creating)))

    def is_there(self, client):
        """Whether the client has its session for a compound, which renews its lease; else it is told that it has none, and mounts."""
        if client.counter is None:
            self.arrive(compound([sequence(client.session, client.number + 1)]), results(result("SEQUENCE", "BADSESSION")))
            self.mount(client)
            return False
        client.number += 1
        client.renewed = self.moment
        return True
