"""Conversations of clients with a server that answers as RFC 8881 says, as captures: what tests/tools/judge plants faults in. The ids are this module's own."""
import io
from typing import NamedTuple

from wire import nfs4
import pcap

PORT, LEASE, SLOTS = 2049, 30, 8
READING, WRITING = 1, 2


def stateid(seqid, number):
    return f"0x{seqid:08x}{number:024x}"


class Pending(NamedTuple):
    """A compound that was sent: where, under which xid, and its operations."""
    connection: int
    xid: int
    operations: list


class Talk:
    """What goes over the connections, which are those of the capture; and what the server knows."""

    def __init__(self):
        self.out = io.BytesIO()
        self.made = pcap.Written(self.out, PORT)
        self.moment, self.xid = 1_000, 0
        self.given = {"client": 0, "session": 0, "stateid": 0}
        self.seqids = {}

    def connect(self):
        return self.made.open(self.moment)

    def cut(self, connection):
        self.made.close(self.moment, connection)

    def pause(self, seconds):
        self.moment += seconds

    def next(self, kind):
        self.given[kind] += 1
        return self.given[kind]

    def send(self, connection, operations, uid=0, xid=None):
        """Sends a call of operations (name, fields); no fields are those of one that nobody here can read."""
        if xid is None:
            xid = self.xid = self.xid + 1
        made = [nfs4.u32(nfs4.NUMBERS[name]) + bytes(24) if fields is None else nfs4.op(name, **fields) for name, fields in operations]
        self.made.sent(self.moment, connection, True, nfs4.record(nfs4.compound(xid, made, uid)))
        return Pending(connection, xid, operations)

    def answer(self, pending, statuses=(), sequence=None):
        """Answers a call: each operation with NFS4_OK but for those whose statuses are given, by name, where it ends; SEQUENCE with other fields if they
        are given. The fields of the results by name."""
        ran = self.run(pending, statuses, sequence)
        self.tell(pending, ran)
        return ran[2]

    def tell(self, pending, ran):
        status, results, _ = ran
        self.made.sent(self.moment, pending.connection, False, nfs4.record(nfs4.write_reply(pending.xid, status, b"", results)))

    def run(self, pending, statuses=(), sequence=None):
        """Runs a call: its status, its results, and their fields by name."""
        results, told, status = [], {}, 0
        for name, fields in pending.operations:
            status = dict(statuses).get(name, 0)
            if status == 0:
                told[name] = sequence if name == "SEQUENCE" and sequence else self.result(name, fields)
            results.append(nfs4.write_result(name, status, told.get(name, {}).items()))
            if status:
                break
        return status, results, told

    def result(self, name, fields):
        """What an operation is answered that succeeds."""
        if name == "SEQUENCE":
            return {key: fields[key] for key in ("sessionid", "seqid", "slot_id")} | {"high_slot_id": SLOTS - 1, "target_high_slot_id": SLOTS - 1}
        if name == "EXCHANGE_ID":
            return {"clientid": 7 << 32 | self.next("client"), "seqid": 1, "major_id": b"nfs41d", "scope": b"nfs41d"}
        if name == "CREATE_SESSION":
            return {"sessionid": f"0x{self.next('session'):032x}", "seqid": fields["seqid"], "fore_max_reqs": min(SLOTS, fields["fore_max_reqs"])}
        if name == "OPEN":
            return {"StateID": self.moved(None)}
        if name in ("LOCK", "LOCKU", "OPEN_DOWNGRADE"):
            return {"StateID": self.moved(None if fields.get("new_lock_owner") else fields["StateID"])}
        return {"GETATTR": {"attrs": f"{{Lease_Time:{LEASE}}}"}, "CLOSE": {"StateID": stateid(0xffffffff, 0)}, "READ": {"eof": 1, "data": b"bytes"},
                "WRITE": {"count": len(nfs4.meant(fields.get("data", b""))), "committed": 2}}.get(name, {})

    def moved(self, word):
        """The stateid with its next seqid, or a new one."""
        number = int(word[10:], 16) if word else self.next("stateid")
        self.seqids[number] = self.seqids.get(number, 0) + 1
        return stateid(self.seqids[number], number)


class Caller:
    """A client with a session, that keeps to the rules unless it is told otherwise."""

    def __init__(self, talk, owner=b"a client", reclaims=True):
        self.talk, self.owner, self.numbers = talk, owner, [0] * SLOTS
        self.connection = talk.connect()
        self.id = self.alone("EXCHANGE_ID", owner=owner)["clientid"]
        self.session = self.make_session(1)
        if reclaims:
            self.do(0, ("RECLAIM_COMPLETE", {}))
            self.do(0, ("PUTROOTFH", {}), ("GETATTR", {"attr_mask": "Lease_Time"}))

    def alone(self, name, **fields):
        return self.talk.answer(self.talk.send(self.connection, [(name, fields)]))[name]

    def make_session(self, number):
        return self.alone("CREATE_SESSION", clientid=self.id, seqid=number, fore_max_reqs=SLOTS)["sessionid"]

    def send(self, slot, *operations, number=None, session=None, highest=None, uid=0, xid=None):
        """Sends the next compound of a slot, or one under another number; it waits."""
        if number is None:
            number = self.numbers[slot] = self.numbers[slot] + 1
        sequence = {"sessionid": session or self.session, "seqid": number, "slot_id": slot, "high_slot_id": SLOTS - 1 if highest is None else highest}
        return self.talk.send(self.connection, [("SEQUENCE", sequence), *operations], uid, xid)

    def do(self, slot, *operations, **how):
        """The same, and its reply: the fields of the results by name."""
        return self.talk.answer(self.send(slot, *operations, **how))

    def again(self, pending, *operations, highest=None, uid=0):
        """Connects anew, and sends a compound again; or other operations under its number."""
        self.talk.cut(self.connection)
        self.connection = self.talk.connect()
        return self.resent(pending, *operations, highest=highest, uid=uid)

    def resent(self, pending, *operations, highest=None, uid=0):
        """The same on the connection that stands."""
        (name, fields), *rest = pending.operations
        sequence = fields if highest is None else fields | {"high_slot_id": highest}
        return self.talk.send(self.connection, [(name, sequence), *(operations or rest)], uid, pending.xid)

    def open(self, slot=0, name=b"a file", access=READING | WRITING):
        asked = {"share_access": access, "clientid": self.id, "owner": b"its owner", "open_type": 1, "name": name}
        return self.do(slot, ("PUTROOTFH", {}), ("OPEN", asked))["OPEN"]["StateID"]

    def lock(self, opened, slot=0, offset=0, length=10):
        asked = {"offset": offset, "length": length, "new_lock_owner": 1, "StateID": opened, "clientid": self.id, "owner": b"its lock owner"}
        return self.do(slot, *at_file(("LOCK", asked)))["LOCK"]["StateID"]

    def unlock(self, locked, slot=0, offset=0, length=10):
        return self.do(slot, *at_file(("LOCKU", {"StateID": locked, "offset": offset, "length": length})))["LOCKU"]["StateID"]

    def close(self, opened, slot=0):
        self.do(slot, *at_file(("CLOSE", {"StateID": opened})))

    def leave(self):
        """Ends the session, the client and the connection."""
        self.alone("DESTROY_SESSION", sessionid=self.session)
        self.alone("DESTROY_CLIENTID", clientid=self.id)
        self.talk.cut(self.connection)


class File:
    """A file of a client that keeps to the rules: the stateids of its open and of its lock state, if it has them."""

    def __init__(self, name):
        self.name, self.opened, self.locked, self.ranges = name, None, None, []


class Steady:
    """A client that keeps to the rules at random: on several slots, with locks, and over connections that are cut while calls wait, so that
    some have run and are sent again with another highest slot."""

    def __init__(self, caller, chance, files=6):
        self.caller, self.chance = caller, chance
        self.files = [File(b"file %d" % number) for number in range(files)]
        # of each slot that is in use: the compound, the file, what is done with its reply, and how it ran if it did
        self.waiting, self.again = {}, 0

    def play(self, calls):
        while calls:
            lot = self.chance.random()
            idle = [slot for slot in range(SLOTS) if slot not in self.waiting]
            free = [file for file in self.files if all(file is not other for _, other, _, _ in self.waiting.values())]
            if lot < 0.5 and idle and free:
                self.begin(self.chance.choice(idle), self.chance.choice(free))
                calls -= 1
            elif lot < 0.97 and self.waiting:
                self.hear(self.chance.choice(list(self.waiting)))
            elif lot >= 0.995:
                self.reconnect()
            elif lot >= 0.99:
                self.hear_all()
                self.caller.talk.pause(self.chance.randint(1, LEASE))
                self.caller.do(0)
        self.hear_all()

    def begin(self, slot, file):
        operations, take = self.wish(file)
        self.waiting[slot] = [self.caller.send(slot, *operations, highest=max([slot, *self.waiting])), file, take, None]

    def wish(self, file):
        """What is done with a file next, and what its reply changes."""
        if file.opened is None:
            asked = {"share_access": READING | WRITING, "clientid": self.caller.id, "owner": b"its owner", "open_type": 1, "name": file.name}
            return [("PUTROOTFH", {}), ("OPEN", asked)], lambda told: setattr(file, "opened", told["OPEN"]["StateID"])
        lot, offset = self.chance.random(), self.chance.randrange(50)
        if lot < 0.5:
            word = self.chance.choice([file.opened, stateid(0, int(file.opened[10:], 16)), stateid(0, 0), file.locked or file.opened])
            asked = {"StateID": word, "offset": offset}
            return [*at_file(self.chance.choice([("READ", asked | {"count": 9}), ("WRITE", asked | {"data": b"some bytes"})]))], lambda told: None
        if lot < 0.7:
            held = {"StateID": file.locked} if file.locked else {"new_lock_owner": 1, "StateID": file.opened, "clientid": self.caller.id, "owner": b"its lock owner"}
            return [*at_file(("LOCK", {"offset": offset, "length": 10} | held))], lambda told: setattr(file, "locked", told["LOCK"]["StateID"])
        if lot < 0.9 and file.locked:
            return [*at_file(("LOCKU", {"StateID": file.locked, "offset": offset, "length": 10}))], lambda told: setattr(file, "locked", told["LOCKU"]["StateID"])
        return [*at_file(("CLOSE", {"StateID": file.opened}))], lambda told: file.__init__(file.name)

    def run(self, slot):
        """The server takes what waits on a slot."""
        pending, _, _, ran = self.waiting[slot]
        if ran is None:
            self.waiting[slot][3] = self.caller.talk.run(pending)

    def hear(self, slot):
        self.run(slot)
        pending, _, take, ran = self.waiting.pop(slot)
        self.caller.talk.tell(pending, ran)
        take(ran[2])

    def hear_all(self):
        for slot in list(self.waiting):
            self.hear(slot)

    def reconnect(self):
        """The connection is cut, and all that waits is sent again; of some the reply was lost."""
        for slot in self.waiting:
            if self.chance.random() < 0.5:
                self.run(slot)
        self.caller.talk.cut(self.caller.connection)
        self.caller.connection = self.caller.talk.connect()
        for slot, wait in self.waiting.items():
            wait[0] = self.caller.resent(wait[0], highest=self.chance.randint(slot, SLOTS - 1))
            self.again += 1

    def leave(self):
        for file in self.files:
            if file.opened:
                self.caller.close(file.opened)
        self.caller.leave()


def at_file(operation):
    """An operation on a file."""
    return ("PUTFH", {"FileHandle": b"a handle"}), operation
