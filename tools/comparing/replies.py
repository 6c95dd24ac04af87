"""The two replies to a call, compared up to the first result whose statuses differ; and the two sides brought together again behind that."""
import nfs4

from . import repairs, rules
from .circumstances import Circumstances
from .differences import Difference, When
from .flights import READ_ONLY
from .results import CUT, Cursor, Results
from .symbols import Turn


class Replies:
    """Both replies to one call of a play."""

    def __init__(self, play, sent):
        self.play, self.sent, self.step, self.found = play, sent, sent.step, play.found
        self.mine, self.theirs = sent.reference, sent.server

    def compare(self):
        mine, theirs, step = self.mine, self.theirs, self.step
        self.form()
        if mine is None or mine.kind != theirs.kind:
            self.parted()
            return
        if mine.kind != "compound":
            return
        kept = step.again or (step.sequence and step.sequence.get("seqid") == Turn(0))
        if theirs.tag != step.tag and (not kept or step.again):
            self.found(Difference("COMPOUND", "tag", "that of the call", "none" if theirs.tag == "0x" else "another", step.id, when=When.KEPT if kept else None))
        if theirs.results and theirs.status != theirs.results[-1][1]:
            self.found(Difference("COMPOUND", "status", "the last result's", "another", step.id))
        if mine.status != theirs.status and not (mine.results and theirs.results):
            self.found(Difference("COMPOUND", "status without results", mine.status, theirs.status, step.id))
        self.count_slot()
        if not self.is_the_same():
            self.in_turn()

    def is_the_same(self):
        """Both repeats are, byte for byte, the replies that were compared the first time."""
        first = self.play.sent.get(self.step.again)
        return bool(first and first.reference and first.got[4:] == self.sent.got[4:] and first.reference.data[4:] == self.mine.data[4:])

    def form(self):
        """What is wrong with the reply by itself, and with a kept one beside the first."""
        theirs, step = self.theirs, self.step
        if theirs.dirty:
            self.found(Difference("RPC", "padding", "zeros", "other bytes", step.id, section="RFC 4506 section 3"))
        if theirs.fault:
            self.found(Difference("RPC", "form of the reply", "can be read", theirs.fault, step.id))
        first = self.play.sent.get(step.again)
        if first and first.got and begins_well(theirs) and begins_well(first.server):
            kept = first.operations[0].get("cache_this", "0") != "0"
            if first.got[4:] != self.sent.got[4:] and (kept or theirs.results[-1][1] != "RETRY_UNCACHED_REP"):
                self.found(Difference("SEQUENCE", "kept reply", "that of the first time", how_it_differs(first.server, theirs), step.id))

    def parted(self):
        mine, theirs = ("none" if answer is None else f"compound {answer.status}" if answer.kind == "compound" else answer.kind
                        for answer in (self.mine, self.theirs))
        self.found(Difference("RPC", "kind of reply", mine, theirs, self.step.id))
        if mine == "compound BADXDR" and theirs == "accepted 4":
            self.undo()  # the two have not parted but for the slot
            return
        self.play.outcome.stopped = "kind of reply"

    def undo(self):
        self.play.reference.undo()
        self.play.edited.add(self.step.id)

    def count_slot(self):
        sequence = self.step.sequence
        if sequence and begins_well(self.theirs) and not self.step.again and sequence.get("seqid") == Turn(1):
            key, slots = slot_of(sequence), self.play.twin.slots
            slots[key] = slots.get(key, 0) + 1

    def in_turn(self):
        """The results one behind the other, up to the first whose statuses differ."""
        cursor, step, outcome = Cursor(), self.step, self.play.outcome
        for at, op in enumerate(self.sent.operations):
            mine, theirs = (answer.results[at] if at < len(answer.results) else None for answer in (self.mine, self.theirs))
            if mine is None and theirs is None:
                return
            a, b = ("none" if result is None else result[1] for result in (mine, theirs))
            name = (mine or theirs)[0] if op.name == "bytes" else op.name
            outcome.counts[name, a] = outcome.counts.get((name, a), 0) + 1
            if {a, b} & {"TOOSMALL", "NOSPC"}:
                self.play.twin.refused.add(op.get("clientid"))
            if mine and theirs and mine[0] != theirs[0] and not (mine[0] == "PUTFH" and theirs[0] in ("PUTROOTFH", "PUTPUBFH")):
                self.found(Difference(name, "operation of the result", mine[0], theirs[0], step.id, at))
                outcome.stopped = "another operation"
                return
            if a != b:
                self.statuses(op, name, at, a, b, cursor)
                return

            def differ(what, left, right, when=None, name=name, at=at):
                self.found(Difference(name, what, left, right, step.id, at, when=when))

            Results(self.play, step, cursor, differ).compare(op, a, mine[2], theirs[2])
            if a != "OK" or outcome.stopped == CUT:
                return

    # statuses that differ

    def statuses(self, op, name, at, a, b, cursor):
        if a in ("OP_NOT_IN_SESSION", "NOT_ONLY_OP") and b == "none":
            name = "COMPOUND"
        difference = Difference(name, "status", a, b, self.step.id, at, when=Circumstances(self.play).of(self.sent, op, a, b, cursor))
        rules.verdict(difference)
        refused = b not in ("OK", "none") and (a != "OK" or name in repairs.RIGHTS)
        if difference.verdict == "deviation" and refused and at and not self.step.again and self.also_fails(at, b, cursor.here):
            difference.verdict, difference.section = "allowed", "15.1"
            difference.why, difference.looked_up = "another check that fails as well, by the reference; the order of checks is open", False
        self.found(difference)
        self.together(at, a, b, difference)

    def also_fails(self, at, status, here):
        step = self.step
        plain = [(op.name, self.lowered_then(op)) for op in self.sent.operations[:at + 1]]
        if any(name == "bytes" for name, _ in plain):
            return False
        asked = repairs.Asked(self.sent.xid, (step.uid, step.gid, step.gids), plain, at, self.sent.moment, here)
        return repairs.also_fails(self.play.reference, asked, status)

    def lowered_then(self, op):
        """The fields as they were sent to the reference: the slot was counted since."""
        fields = self.play.lowered(op, 0)
        if op is not self.sent.operations[0] or op.name != "SEQUENCE":
            return fields
        number = nfs4.Call(self.sent.mine).operations[0][1]
        return [(key, dict(number)["seqid"] if key == "seqid" else word) for key, word in fields]

    def together(self, at, a, b, difference):
        """Brings the two together again behind different statuses of operation `at`."""
        step, sequence = self.step, self.step.sequence
        if sequence and at == 0 and (step.again or sequence.get("seqid") == Turn(0)) or step.again and self.mine.results[0][1] == "OK":
            return  # a kept reply, given or not
        if a == "OK" and at == 0:
            self.undo()
        elif b != "OK" and a != "OK":
            return  # both refused: nothing changed
        elif a == "OK" and sequence and not step.again:
            self.take_back(at)
        elif b == "OK" and all(op.name in READ_ONLY for op in self.sent.operations[at:]):
            self.play.edited.add(step.id)
        else:
            self.play.outcome.stopped = f"the two have parted at {difference}"
            if a != "OK":
                key, avoid = (difference.operation, a), self.play.server.avoid
                avoid[key] = avoid.get(key, 0) + 1

    def take_back(self, at):
        """The reference runs what stands before operation `at`, and no more."""
        self.undo()
        sequence, slots = self.step.sequence, self.play.twin.slots
        counted = sequence.get("seqid") == Turn(1)
        slots[slot_of(sequence)] -= counted
        try:
            record = self.play.record(self.sent, 0, operations=self.sent.operations[:at])
        finally:
            slots[slot_of(sequence)] += counted
        self.play.reference.call(record, self.sent.moment)


def slot_of(sequence):
    return sequence.get("sessionid"), sequence.get("slot_id", "0")


def begins_well(answer):
    return bool(answer.results) and answer.results[0][1] == "OK"


def how_it_differs(old, new):
    """How two answers to one call differ."""
    for (name, status, fields), (name2, status2, fields2) in zip(old.results, new.results):
        if (name, status) != (name2, status2):
            return f"{name} {status} is {name2} {status2}"
        if fields != fields2:
            return f"another result of {name}"
    return "another number of results" if len(old.results) != len(new.results) else "other bytes"
