"""Who is at the server in tests/server/hostile: clients that ask for whatever an attack wants, and the good client that stands beside each attack."""
import contextlib
import itertools
import random
import struct
import threading
import time

import wire
from caller import SLOTS, Client, Wrong
from program import waits_for
from wire import (GET_HANDLE, HERE, PUT_ROOT, SAVE, SECONDS, create, create_session, destroy_session, exchange_id, filehandle, nfs4, op, opaque,
                  open_file, putfh, read, rename, reply, result, results, sequence, sequenced, test_stateids, u32, u64, write)

DENIED = 10_010
# sessions that many clients make are of small channels, so that no figure is of memory that the system gives
SMALL = (4_096, 4_096, 4_096, 64, 1)


def Served(lease=30, connections=None, at_once=None, seats=None):  # noqa: N802 (it stands for the class)
    """The program as instance 7, in the profile of a server that lasts. (A number of connections alone would be served one after the other.)"""
    return wire.Served(connections, at_once or (16 if connections else None), seats=seats, instance=7, profile='"unix"', lease=lease)


def field(told, operation, name):
    """The bytes of a field in the first result of an operation."""
    fields = next(fields for found, _, fields in told.results if found == operation)
    return nfs4.meant(dict(fields)[name])


def number(told, operation, name):
    fields = next(fields for found, _, fields in told.results if found == operation)
    return int(dict(fields)[name], 0)


class Peer(Client):
    """A client of a server, which has much to ask."""

    def __init__(self, server, owner=None, source=HERE):
        super().__init__(server.port, owner, source)

    def hears(self, count, wanted=0):
        """How many of so many replies to the last records come in their order with this status, up to the first that does not."""
        for place, xid in enumerate(range(self.xid - count + 1, self.xid + 1)):
            if struct.unpack_from(">I20xI", self.reply()) != (xid, wanted):
                return place
        return count

    def pours(self, records, wanted=0):
        """Sends these records, the last ones that were made, while it hears their replies: how many are right."""
        sender = threading.Thread(target=self.stream.sendall, args=(b"".join(records),), daemon=True)
        sender.start()
        heard = self.hears(len(records), wanted)
        sender.join(SECONDS)
        return heard

    def does_all(self, begin, steps, many=62):
        """All of these operations, so many in a compound, each compound behind the operations of `begin`, over all slots; all must be done."""
        steps = iter(steps)
        # (some at a time: what makes the steps may take longer than a lease)
        while some := list(itertools.islice(steps, 50 * many)):
            groups = [some[at:at + many] for at in range(0, len(some), many)]
            heard = self.pours([self.next_on(n % SLOTS, *begin, *group) for n, group in enumerate(groups)])
            if heard != len(groups):
                raise Wrong(f"compound {heard} of {len(groups)} is not done")

    def opens(self, name, owner=b"owner", make=True):
        """OPEN of a file in the root: the stateid and the filehandle."""
        told = nfs4.Reply(self.asks(PUT_ROOT, open_file(owner, 3, name, make), GET_HANDLE))
        return field(told, "OPEN", "StateID"), field(told, "GETFH", "FileHandle")


def at(filehandle):
    return op("PUTFH", FileHandle=filehandle)


def lock_first(byte, opened, owner, kind=2, size=1):
    """LOCK of bytes by a new lock owner."""
    return wire.lock(kind, byte, size, opened, owner)


def lock_more(byte, locked, kind=2, size=1):
    """LOCK of bytes by a lock state."""
    return wire.lock(kind, byte, size, locked)


def unlock(byte, locked, size=1):
    return wire.unlock(byte, size, locked)


def lock_test(byte, owner, kind=2, size=1):
    return wire.lock_test(kind, byte, size, owner)


def any_seqid(stateid):
    """The stateid of the same state with seqid 0, which stands for whatever it is now."""
    return bytes(4) + stateid[4:]


class Good:
    """A good client: it has a file open, with ten bytes in it and ten bytes locked. In a thread it asks for all of that over and over, each time
    with a compound whose reply it knows to the last byte, and so renews its lease; it notes how long each reply took."""

    TEXT = b"good bytes"

    def __init__(self, server, pause=0.1, name=b"good", delay=0, source=HERE):
        self.peer, self.pause, self.delay = Peer(server, name, source), pause, delay
        self.opened, self.file = self.peer.opens(name + b" file", b"good owner")
        told = nfs4.Reply(self.peer.asks(at(self.file), write(self.opened, 0, self.TEXT),
                                         lock_first(0, self.opened, b"good locker", size=10)))
        self.locked = field(told, "LOCK", "StateID")
        self.waits, self.fault, self.ending = [], None, threading.Event()
        self.thread = threading.Thread(target=self.rounds, daemon=True)

    def asked(self):
        """Its compound and all of its reply: READ of its bytes, TEST_STATEID of its open and its lock, and a LOCKT that its lock stands against."""
        peer = self.peer
        record = peer.next_on(0, at(self.file), read(any_seqid(self.opened), 0, 100),
                              test_stateids([self.opened, self.locked]), lock_test(5, b"another"))
        held = u64(0, 10) + u32(2) + u64(peer.id) + opaque(b"good locker")
        return record, reply(peer.xid, results(
            sequenced(peer.session, peer.numbers[0], 0), result("PUTFH"), result("READ", "OK", u32(1) + opaque(self.TEXT)),
            result("TEST_STATEID", "OK", u32(2, 0, 0)), result("LOCKT", "DENIED", held)))

    def round(self):
        record, wanted = self.asked()
        begun = time.monotonic()
        self.peer.stream.sendall(record)
        told = self.peer.reply()
        self.waits.append(time.monotonic() - begun)
        if told != wanted:
            raise Wrong(f"round {len(self.waits)}: the reply is {told.hex()} and not {wanted.hex()}")

    def rounds(self):
        try:
            self.ending.wait(self.delay)
            while not self.ending.is_set():
                self.round()
                self.ending.wait(self.pause)
        except (OSError, ValueError, Wrong) as fault:
            self.fault = fault

    def __enter__(self):
        self.thread.start()
        return self

    def __exit__(self, *fault):
        self.stop()
        self.peer.close()

    def stop(self):
        self.ending.set()
        self.thread.join(SECONDS)

    def stood(self):
        """Its rounds end, and then it gives its lock up: whether all that it was told was right, its lock stood until then, and it was heard."""
        waits_for(lambda: not self.thread.is_alive() or len(self.waits) >= 5)
        self.stop()
        if self.fault or self.thread.is_alive():
            return False
        try:
            self.round()
            told = self.peer.asks(at(self.file), unlock(0, self.locked, 10))
        except (OSError, Wrong) as fault:
            self.fault = fault
            return False
        return told.endswith(result("LOCKU") + u32(2) + self.locked[4:])

    def shown(self):
        return f"{len(self.waits)} rounds, {self.fault!r}"


@contextlib.contextmanager
def repeated(act, pause):
    """An act that is done over and over in a thread, as long as it can be."""
    ending = threading.Event()

    def acts():
        with contextlib.suppress(OSError, Wrong):
            while not ending.wait(pause):
                act()

    thread = threading.Thread(target=acts, daemon=True)
    thread.start()
    yield
    ending.set()
    thread.join(SECONDS)


def many_clients(server, count, verifier=1):
    """So many clients, each with an open of a file of its own, and none with a session any more: their ids. A session of each is made and
    destroyed, fifty at a time."""
    ids = []
    with Peer(server) as peer:
        for first in range(0, count, 50):
            numbers = range(first, min(count, first + 50))
            ids += fifty(peer, [b"client %d" % n for n in numbers], verifier)
    return ids


def fifty(peer, owners, verifier):
    """Some of these clients; each step of all of them goes in one piece."""
    def asked(operations):
        peer.stream.sendall(b"".join(peer.record(*some) for some in operations))
        told = [nfs4.Reply(peer.reply()) for _ in operations]
        if any(one.status != "NFS4_OK" for one in told):
            raise Wrong(f"a client is answered {[one.status for one in told]}")
        return told

    told = asked([[exchange_id(owner, verifier)] for owner in owners])
    ids = [number(one, "EXCHANGE_ID", "clientid") for one in told]
    told = asked([[create_session(client & 0xffff_ffff, number(one, "EXCHANGE_ID", "seqid"), SMALL)] for client, one in zip(ids, told)])
    sessions = [field(one, "CREATE_SESSION", "sessionid") for one in told]
    asked([[sequence(session, 1), PUT_ROOT, open_file(b"owner", 3, owner, True)] for session, owner in zip(sessions, owners)])
    asked([[destroy_session(session)] for session in sessions])
    return ids


def chain(peer, name, depth):
    """A chain of so many directories, whose numbers have nothing to do with their order in it: the filehandles of the last two."""
    made = nfs4.Reply(peer.asks(PUT_ROOT, create(name + b" 0"), GET_HANDLE))
    first = int.from_bytes(field(made, "GETFH", "FileHandle")[8:], "big")
    peer.does_all([], [step for n in range(1, depth) for step in (PUT_ROOT, create(name + b" %d" % n))])
    order = list(range(depth))
    random.shuffle(order)
    peer.does_all([], [step for above, below in zip(order, order[1:]) for step in (
        PUT_ROOT, SAVE, putfh(first + above), rename(name + b" %d" % below, b"next"))], 60)
    last, before = filehandle(first + order[-1]), filehandle(first + order[-2])
    peer.asks(at(last), create(b"moved"), create(b"entry"))
    return last, before
