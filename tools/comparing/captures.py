"""Scripts of recordings: captures of a client and a server (pcap), and scripts of `nfs41d replay`. Their identifiers become symbols."""
import subprocess

import capture
import nfs4
import pcap

from .flights import READ_ONLY
from .playing import LONGEST, Given, Play
from .reference import LEASE
from .server import Answer, Silence
from .symbols import BASE, Op, Script, Step, Sym, Turn, given, lifted

ROOT = ("PUTROOTFH", "PUTPUBFH")
NOTHING_CHANGED = READ_ONLY | {"SEQUENCE", "BIND_CONN_TO_SESSION", "SECINFO", "OP?"}


class Lift:
    """Calls and their replies, one behind the other, as a script. A call that names what no reply gave is left out: the reference cannot
    know it."""

    def __init__(self):
        self.known, self.binds, self.steps = {}, {}, []
        self.slots, self.bases, self.bodies, self.left_out = {}, {}, {}, {}
        self.unknown, self.lost = False, None  # lost: after how many steps a call was left out that changed something

    def symbol(self, kind, word):
        self.unknown |= kind in ("fh", "session", "state") and (kind, word) not in self.known
        return self.known.get((kind, word), word)

    def new(self, kind, word):
        return self.known.setdefault((kind, word), Sym(kind, len(self.known) + 1))

    def call(self, conn, record, reply):
        """One call; answers its step, or None where it is none that the reference knows."""
        try:
            call = nfs4.Call(record)
        except nfs4.Unreadable as fault:
            return self.dropped(str(fault))
        answer = Answer(reply)
        why = self.unfit(call, answer) or ("longer than the reference takes" if len(record) > LONGEST else None)
        if why:
            self.count(call, answer)
            return self.dropped(why, answer)
        again = self.bodies.get(record[4:], 0) if call.operations[0][0] == "SEQUENCE" else 0
        self.unknown = False
        ops = [self.operation(name, fields) for name, fields in call.operations]
        self.count(call, answer)
        if self.unknown:
            return self.dropped("an identifier that no reply of the capture gave", answer)
        step = Step(ops, conn, call.uid, call.gid, tuple(call.gids), nfs4.shown(call.tag), again)
        self.steps.append(step)
        if not again:
            self.bodies[record[4:]] = step.id
            self.learn(ops, answer)
        return step

    def dropped(self, why, answer=None):
        self.left_out[why] = self.left_out.get(why, 0) + 1
        if self.lost is None and answer and any(status == "OK" and name not in NOTHING_CHANGED for name, status, _ in answer.results):
            self.lost = len(self.steps)

    @staticmethod
    def unfit(call, answer):
        if call.procedure != 1:
            return "NULL"
        if call.flavor != 1 or call.minor != 1 or not call.operations:
            return "another flavor or minor version, or no operations"
        if call.fault:
            return f"unknown to the reference: {call.fault}"
        return "a reply that cannot be read" if answer.kind != "compound" else None

    def operation(self, name, fields):
        if name in ROOT:
            return Op("PUTFH", [("FileHandle", BASE)])
        out = dict(fields)
        made = lifted(name, fields, self.symbol)
        if name == "SEQUENCE":
            last = self.slots.get((out["sessionid"], out["slot_id"]), 0)
            made = [(key, Turn(pcap.ahead(int(word), last)) if key == "seqid" else word) for key, word in made]
        elif name == "CREATE_SESSION":
            made = [(key, Turn(pcap.ahead(int(word), self.bases.get(out["clientid"], 1))) if key == "seqid" else word) for key, word in made]
        return Op(name, made)

    def count(self, call, answer):
        """What the slot had, also where the call is left out."""
        if call.operations and call.operations[0][0] == "SEQUENCE" and answer.results[:1] and answer.results[0][1] == "OK":
            fields = dict(call.operations[0][1])
            self.slots[fields["sessionid"], fields["slot_id"]] = int(fields["seqid"])

    def learn(self, ops, answer):
        before = None
        for op, (name, status, fields) in zip(ops, answer.results):
            for place, kind, word in given(op.name, fields):
                if kind == "fh" and before is not None and before.name == "PUTFH" and before.get("FileHandle") == BASE:
                    self.known.setdefault((kind, word), BASE)
                self.binds[op.id, place] = self.new(kind, word)
            if name == "EXCHANGE_ID" and status == "OK":
                self.bases.setdefault(dict(fields)["clientid"], int(dict(fields)["seqid"]))
            before = op

    def script(self):
        return Script(self.steps, self.binds)


def recorded(path, port):
    """Each call of a capture that was answered: (its second, its reply's, connection, call, reply), in the order of the calls."""
    waiting, out, connections = {}, [], {}
    for moment, client, from_server, record in capture.heard(path, port, most=nfs4.LAST):
        conn = connections.setdefault(client, len(connections))
        if not from_server:
            waiting[client, record[:4]] = [moment, None, conn, record, None]
            out.append(waiting[client, record[:4]])
        elif (client, record[:4]) in waiting:
            call = waiting.pop((client, record[:4]))
            call[1], call[4] = moment, record
    return [call for call in out if call[4] is not None]


def of_script(script, reference):
    """The same of a script of replay, whose replies are the reference's."""
    output = subprocess.run(reference.command[:-2], input=script, capture_output=True, check=False).stdout
    calls, _ = nfs4.answered(script, output)
    return [[float(moment), float(moment), conn, call, replies[0][1]] for moment, conn, call, replies in calls if replies and replies[0][1]]


def lifted_calls(calls):
    """The script of recorded calls, and those calls that have a step in it."""
    lift, kept = Lift(), []
    for call in calls:
        if lift.call(call[2], call[3], call[4]) is not None:
            kept.append(call)
    return lift, kept


class Recording:
    """A capture's server as a transport: it gives the recorded replies in their turn."""

    def __init__(self, calls):
        self.calls, self.at = calls, -1

    def call(self, conn, record):
        if self.calls[self.at][4] is None:
            raise Silence("no reply in the capture")
        return self.calls[self.at][4]


class Recorded:
    """A recording in the place of a server under test."""

    def __init__(self, calls):
        self.transport, self.avoid, self.nonce, self.serial, self.lease = Recording(calls), {}, "", 0, 90
        self.over, self.alone = False, set()

    def is_gone(self):
        return False


class Judged(Play):
    """A recording judged: the server's side is what was recorded."""

    def __init__(self, calls, script, reference, make=(), lost=None):
        super().__init__(Recorded(calls), reference, Given(script), steer=False)
        self.calls, self.make, self.lost = calls, make, lost
        self.parted_at = None  # the call at which the two first parted, and the differences up to it

    def begin(self):
        self.reference.begin()
        for path in self.make:
            parts = [part for part in path.split("/") if part]
            for at in range(len(parts)):
                control = self.reference.control
                control.in_session([("PUTFH", [("FileHandle", self.reference.base)]), *(("LOOKUP", [("name", part)]) for part in parts[:at]),
                                    ("CREATE", [("type", "2"), ("name", parts[at]), ("attrs", "{Mode:0777}")])])
        self.bind_base(self.reference.base, self.first_handle())
        return "", ""

    def first_handle(self):
        """The handle that the recording's server gave for its root."""
        for step, call in zip(self.source.steps, self.calls):
            results = Answer(call[4]).results
            for before, op, (name, status, fields) in zip([None, *step.ops], step.ops, results):
                if name == "GETFH" and status == "OK" and before is not None and before.name == "PUTFH" and before.get("FileHandle") == BASE:
                    return dict(fields)["FileHandle"]
        return "0x3f"

    def end(self, name, handle):
        """Nothing is to be cleaned up."""

    def single(self, step):
        """One recorded call. As much of a lease passes in the reference as passed in the recording."""
        before = self.calls[max(self.server.transport.at, 0)][0]
        self.server.transport.at += 1
        if self.server.transport.at == self.lost:
            self.parted_at = self.parted_at or (self.lost + 1, len(self.outcome.differences))
        self.moment += int(max(self.now() - before, 0) * LEASE / self.server.lease)
        super().single(step)
        if self.outcome.stopped:
            self.parted_at = self.parted_at or (self.server.transport.at + 1, len(self.outcome.differences))
            self.outcome.stopped = ""

    def sequence_id(self, mine):
        """The number that the client sent: calls of the slot may have been left out."""
        fields = nfs4.Call(self.calls[self.server.transport.at][3]).operations[0][1]
        return dict(fields)["seqid"]

    def now(self):
        return self.calls[self.server.transport.at][0]

    def window(self, low, high):
        call = self.calls[self.server.transport.at]
        return call[0] - 1, call[1] + 1
