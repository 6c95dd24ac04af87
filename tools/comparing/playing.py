"""Plays a script to the server and to the reference. The server goes first: the reference is asked for the channel that the server
granted, and takes back what the server refused. Each reply is compared with the reference's; where the two part for good the script ends."""
import contextlib
import time
from dataclasses import dataclass, field

import nfs4

from . import rules
from .circumstances import ALONE
from .differences import Difference
from .flights import Flights
from .looks import Looks
from .reference import LEASE, T0
from .replies import Replies
from .results import CHANNEL
from .server import Answer, Silence
from .symbols import BASE
from .twin import Twin
from .wording import Unbound, Wording

NEEDED = ALONE | {"SEQUENCE"}
LONGEST = 66_560   # a record that the reference takes, in bytes
SLACK = 0.06       # seconds by which a server's clock may be coarse
PIECES = 4         # a wait, so that the tool's own clients can renew their leases
TIMES_PARTED = 3   # so often the two may part at one operation and status, before that is steered round


@dataclass
class Sent:
    """A call under way: what was sent to the server, what came back, and what the reference answered."""
    step: object
    operations: list
    xid: int
    record: bytes = b""
    got: bytes = b""
    server: Answer = None
    mine: bytes = b""
    reference: Answer = None
    moment: int = 0
    seconds: float = 0
    window: tuple = ()


@dataclass
class Outcome:
    """What stands after a play: the calls and what they had, the differences, and why it ended early."""
    log: list = field(default_factory=list)
    differences: list = field(default_factory=list)
    counts: dict = field(default_factory=dict)
    stopped: str = ""
    skipped: int = 0
    history: list = field(default_factory=list)  # what the reference was given
    binds: dict = field(default_factory=dict)


class Play(Flights, Wording):
    """One script on both sides. `source` gives the steps and learns what they had (`making.Maker`, or `Given`)."""

    def __init__(self, server, reference, source, want=None, steer=True):
        self.server, self.reference, self.source, self.want, self.steer = server, reference, source, want, steer
        self.twin, self.outcome = Twin(), Outcome()
        self.binds, self.known = source.binds, {}
        self.windows, self.sent, self.edited, self.owners = {}, {}, set(), {}
        self.xid, self.moment, self.skew = 0x100, T0, (0.0, 0.0)
        self.looks = Looks(self)
        self.forks = []  # the last flights that another order may explain as well

    # the run

    def run(self):
        try:
            name, handle = self.begin()
        except Silence:
            self.lost("before a script")
            return self.outcome
        try:
            while not self.outcome.stopped and (group := self.source.next()):
                self.group(group)
        finally:
            self.outcome.history, self.outcome.binds = list(self.reference.history), self.binds
            self.end(name, handle)
        return self.outcome

    def begin(self):
        """A new directory on the server, and how far its clock is from ours."""
        before = time.time()
        name, handle = self.server.base()
        after = time.time()
        told = self.server.control().in_session([("PUTFH", [("FileHandle", handle)]), ("GETATTR", [("attr_mask", "Time_Metadata")])])
        values = dict(nfs4.values_of(dict(told.results[-1][2])["attrs"]) or ()) if told.status == "OK" else {}
        if "Time_Metadata" in values:
            seconds, part = values["Time_Metadata"].split(".")
            at = int(seconds) + int(part) / 1e9
            if part == "000000000":  # whole seconds: it shows up to a second less than it is; and how far it is from ours is known by a second alone
                self.skew = (-1.0, 0.0) if before - 1 <= at <= after else (at - after - 1, at + 1 - before)
            else:
                self.skew = (0.0, 0.0) if before - SLACK <= at <= after + SLACK else 2 * (at - (before + after) / 2,)
        self.reference.begin()
        self.bind_base(self.reference.base, handle)
        return name, handle

    def bind_base(self, mine, theirs):
        self.twin.values[BASE] = mine, theirs
        self.twin.meet("fh", mine, theirs)
        self.known["fh", mine] = BASE

    def end(self, name, handle):
        """The script's clients and files go from the server."""
        if self.server.over:
            return
        try:
            for owner, users in self.owners.items():
                any(self.server.control().end(owner, uid) for uid in sorted(users))
            self.server.control().sweep(handle, name)
        except (Silence, KeyError, IndexError, TypeError) as fault:
            self.lost("in the cleaning up", "no reply" if isinstance(fault, Silence) else "a reply that lacks something")
            with contextlib.suppress(Silence, KeyError, IndexError, TypeError):
                self.server.control().sweep(handle, name)

    def lost(self, when, told="no reply"):
        """The tool's own client of the server got no reply that it can follow."""
        self.server.client, gone = None, self.server.is_gone()
        self.found(Difference("RPC", f"the server {when}", "alive", "gone" if gone else told))
        self.outcome.stopped = self.outcome.stopped or "no reply"
        if gone:
            self.server.revive()

    def group(self, steps):
        if len(steps) == 1:
            self.single(steps[0])
        else:
            self.flight(steps)

    def single(self, step):
        if step.wait:
            self.wait(step.wait)
        sent = self.prepared(step)
        if sent is None:
            return
        low = self.now()
        try:
            sent.got = self.server.transport.call(step.conn, sent.record)
        except Silence as fault:
            self.silent([sent], fault)
            return
        sent.server = Answer(sent.got)
        self.judged(sent, (low, self.now()))

    def wait(self, share):
        """So many leases pass on both sides; the tool's own clients renew theirs."""
        self.forks = []
        for _ in range(PIECES):
            time.sleep((share * self.server.lease + (1.2 if share > 1 else 0)) / PIECES)
            self.moment += int(share * LEASE) // PIECES
            self.server.control().in_session([])
            self.reference.renew(self.moment)

    def now(self):
        return time.time()

    def window(self, low, high):
        least, most = self.skew
        return low + least - SLACK, high + most + SLACK

    # one call

    def prepared(self, step):
        """The call of a step for the server, or None where there is nothing to send."""
        self.xid += 1
        if step.again:
            return self.prepared_again(step)
        operations = []
        for op in step.ops:
            try:
                self.lowered(op, 1)
                operations.append(op)
            except Unbound:
                if op.name in NEEDED:
                    self.outcome.skipped += 1
                    return None
        if self.steer and operations:
            operations = self.steered(step, operations)
        if not operations:
            return None
        sent = Sent(step, operations, self.xid)
        sent.record = self.record(sent, 1)
        if len(sent.record) > LONGEST:
            self.outcome.skipped += 1
            return None
        if operations[0].name == "EXCHANGE_ID":
            self.owners.setdefault(dict(self.lowered(operations[0], 1))["owner"], set()).add(step.uid)
        return sent

    def prepared_again(self, step):
        """The same bytes under another xid."""
        if step.again in self.edited or step.again not in self.sent:
            return None
        first = self.sent[step.again]
        sent = Sent(step, first.operations, self.xid)
        xid = self.xid.to_bytes(4, "big")
        sent.record, sent.mine = xid + first.record[4:], xid + first.mine[4:]
        return sent

    def silent(self, calls, fault):
        """No reply came, or none that can be taken."""
        for sent in calls:
            self.asked(sent)
            self.outcome.log.append(sent)
        gone = self.server.is_gone()
        words = ("the server", "alive", "gone") if gone else ("reply", "a reply", f"none ({fault})")
        self.found(Difference("RPC", *words, calls[-1].step.id))
        self.outcome.stopped = "no reply"
        if gone:
            self.server.revive()

    def judged(self, sent, window):
        """The reference answers the same call, and the two replies are compared."""
        sent.window = window
        before = len(self.outcome.differences)
        self.answered(sent)
        self.reconsidered(before)
        self.learnt(self.sent.get(sent.step.id, sent))

    def answered(self, sent):
        sent.seconds = sent.window[0]
        self.windows[self.moment] = self.window(*sent.window)
        self.asked(sent)
        self.outcome.log.append(sent)
        Replies(self, sent).compare()

    def asked(self, sent):
        sent.mine = sent.mine or self.record(sent, 0, granted(sent.server))
        sent.moment, self.moment = self.moment, self.moment + 1
        told = self.reference.call(sent.mine, sent.moment)
        sent.reference = Answer(told) if told is not None else None
        self.sent[sent.step.id] = sent

    def learnt(self, sent):
        """The source learns the results whose statuses both sides have."""
        if sent.reference and not sent.step.again:
            both = zip(sent.reference.results, sent.server.results)
            agreed = [mine for mine, theirs in both if mine[1] == theirs[1]]
            self.source.learn(sent.step, sent.operations, agreed, self)

    # steering

    def steered(self, step, operations):
        """The operations up to one at which the two are known to part; the reference is asked first."""
        if not any(times >= TIMES_PARTED for times in self.server.avoid.values()) or operations[0].name == "CREATE_SESSION":
            return operations
        told = self.reference.ask(self.record(Sent(step, operations, self.xid), 0), self.moment)
        for at, (name, status, _) in enumerate(Answer(told).results if told else ()):
            if self.server.avoid.get((name, status), 0) >= TIMES_PARTED and self.server.dice.random() < 0.9:
                self.edited.add(step.id)
                return operations[:at] if at > 1 else []
        return operations

    def found(self, difference):
        if difference.verdict == "deviation" and not difference.section:
            rules.verdict(difference)
        self.outcome.differences.append(difference)
        if self.want and difference.key == self.want.key and rules.is_as_strong(difference, self.want.verdict):
            self.outcome.stopped = self.outcome.stopped or "found"


class Given:
    """A script as it stands, as a source of steps."""

    def __init__(self, script):
        self.binds, self.steps, self.at = dict(script.binds), script.steps, 0

    def next(self):
        """The next step, or all of one flight."""
        if self.at >= len(self.steps):
            return None
        group = [self.steps[self.at]]
        while group[0].flight and self.at + len(group) < len(self.steps) and self.steps[self.at + len(group)].flight == group[0].flight:
            group.append(self.steps[self.at + len(group)])
        self.at += len(group)
        return group

    def learn(self, *_):
        """A script that stands learns nothing."""


def granted(answer):
    """The fore channel that a CREATE_SESSION granted."""
    for name, status, fields in answer.results if answer else ():
        if name == "CREATE_SESSION" and status == "OK":
            return {f"fore_{word}": int(dict(fields)[f"fore_{word}"]) for word in CHANNEL}
    return None
