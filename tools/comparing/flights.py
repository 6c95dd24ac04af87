"""Calls in flight: several are sent before any is answered. The server may run them in any order, so one order has to explain the replies. A
later reply may show that it was another one: then that is taken."""
from dataclasses import replace
from itertools import permutations
from typing import NamedTuple

from .server import Answer, Silence

READ_ONLY = set("ACCESS COMMIT GETATTR GETFH LOCKT LOOKUP LOOKUPP NVERIFY VERIFY PUTFH PUTROOTFH PUTPUBFH READ READDIR READLINK SAVEFH RESTOREFH "
                "TEST_STATEID SECINFO_NO_NAME".split())
WEIGHTS = {"deviation": 100, "unclear": 10}  # of differences, when an order of calls in flight is chosen


class Stand(NamedTuple):
    """Where a play stands, so that it can go back there."""
    twin: object
    differences: list
    log: list
    counts: dict
    stopped: str
    moment: int
    edited: set
    history: list
    avoid: dict
    sent: dict


class Fork(NamedTuple):
    """A flight: where the play stood before it, the order that was taken for its own, and how much differs then."""
    begun: Stand
    order: tuple
    weight: int


def changes(sent):
    """Does a call change what others may see?"""
    return any(op.name not in READ_ONLY | {"SEQUENCE"} for op in sent.operations)


class Flights:
    """What a play does with calls in flight."""

    def flight(self, steps):
        """Several calls are sent before any is answered. The server may run them in any order, so one order has to be right."""
        calls = [sent for sent in map(self.prepared, steps) if sent]
        low = self.now()
        try:
            for sent in calls:
                self.server.transport.send(sent.step.conn, sent.record)
            by_xid = {}
            for sent in calls:
                got = self.server.transport.receive(sent.step.conn)
                by_xid[got[:4]] = got
            for sent in calls:
                sent.got = by_xid[sent.record[:4]]
                sent.server = Answer(sent.got)
        except (Silence, KeyError) as fault:
            if calls:
                self.silent(calls, fault if isinstance(fault, Silence) else "another call's reply")
            return
        self.ordered(calls, (low, self.now()))

    def ordered(self, calls, window):
        """Keeps the order in which the reference's replies differ least, and remembers that there are others."""
        begun, best = self.stand(), None
        for sent in calls:
            sent.window = window
        for order in permutations(calls):
            weight = self.in_order(begun, order)
            if best is None or weight < best[0]:
                best = weight, self.stand(), order
            if weight == 0:
                break
        weight, stand, order = best
        self.restore(stand)
        self.between(len(begun.differences))
        if sum(map(changes, calls)) > 1:
            self.forks = [*self.forks[-1:], Fork(begun, order, weight)]
        for sent in calls:
            if sent.step.id in self.sent:
                self.learnt(self.sent[sent.step.id])

    def in_order(self, begun, order):
        """Judges calls in flight in an order; answers how much differs."""
        self.restore(begun)
        for sent in order:
            if not self.outcome.stopped:
                self.anew(sent)
        return self.weight(len(begun.differences))

    def weight(self, since):
        return sum(WEIGHTS.get(difference.verdict, 1) for difference in self.outcome.differences[since:])

    def anew(self, sent):
        """A call that was answered, judged where the reference is now."""
        sent = replace(sent, mine=b"")
        if sent.step.again:
            sent.mine = sent.xid.to_bytes(4, "big") + self.sent[sent.step.again].mine[4:]
        self.answered(sent)

    def between(self, since):
        """No order of whole calls explains a flight. A compound is no atom, so an order of their operations may."""
        for at, difference in enumerate(self.outcome.differences[since:], since):
            if difference.verdict == "deviation" and difference.key not in self.server.alone:
                self.outcome.differences[at] = replace(difference, verdict="unclear", section="16.2.3", looked_up=False,
                                                       why="of calls in flight: operations of other calls may come between those of one")

    def reconsidered(self, before):
        """Where a deviation is new, another order of an earlier flight may explain it."""
        new = {difference.key for difference in self.outcome.differences[before:] if difference.verdict == "deviation"} - self.server.alone
        if not self.forks:
            self.server.alone |= new
        elif new and not any(map(self.explains, self.forks)):
            self.server.alone |= new

    def explains(self, fork):
        """Goes back to another order of a flight, where less differs by now; answers whether it did."""
        now, least = self.stand(), self.weight(0)
        later = now.log[len(fork.begun.log) + len(fork.order):]
        for order in permutations(fork.order):
            if order == fork.order or self.in_order(fork.begun, order) > fork.weight:
                continue
            for sent in later:
                if not self.outcome.stopped:
                    self.anew(sent)
            if self.weight(0) < least and len(self.outcome.log) == len(now.log):
                self.forks = []
                return True
        self.restore(now)
        return False

    def stand(self):
        o = self.outcome
        return Stand(self.twin.copy(), list(o.differences), list(o.log), dict(o.counts), o.stopped, self.moment, set(self.edited),
                     list(self.reference.history), dict(self.server.avoid), dict(self.sent))

    def restore(self, stand):
        o = self.outcome
        o.differences[:], o.log[:], o.counts, o.stopped = stand.differences, stand.log, dict(stand.counts), stand.stopped
        self.twin, self.moment, self.edited, self.sent = stand.twin.copy(), stand.moment, set(stand.edited), dict(stand.sent)
        self.reference.history, self.server.avoid = list(stand.history), dict(stand.avoid)
