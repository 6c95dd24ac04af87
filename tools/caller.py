"""The client of NFS version 4.1 that tests, measurements and tools/load are, whose calls and replies are those of nfs4.py; and streams of records."""
import collections
import socket
import struct

import nfs4
from nfs4 import op, u64
from program import HERE, SECONDS, connected

SLOTS = 16


class Wrong(Exception):
    """A reply that is not what it is to be, or a server that is not there."""


class Cut(Wrong):
    """The connection was cut, behind so many bytes of a reply."""

    def __str__(self):
        return f"the connection was cut behind {self.args[0]} bytes of a reply"


def channel(request=66_560, response=66_560, cached=66_560, operations=64, slots=16):
    """The attributes of a channel, in their order."""
    return request, response, cached, operations, slots


def sizes(side, attributes):
    """The same as fields of CREATE_SESSION."""
    names = ("max_req_size", "max_resp_size", "max_resp_size_cached", "max_ops", "max_reqs")
    return {f"{side}_{name}": value for name, value in zip(names, attributes, strict=True)}


def resets(connection):
    """Its close will be a reset, and not an orderly end."""
    connection.setsockopt(socket.SOL_SOCKET, socket.SO_LINGER, struct.pack("ii", 1, 0))


class Stream:
    """The records that come over a socket, each in one fragment or more."""

    def __init__(self, source):
        self.source, self.records, self.whole = source, nfs4.Records(nfs4.LAST), collections.deque()

    def next(self):
        """The next record, without its marks; Cut, with how many of its bytes came, where the stream ends before."""
        while not self.whole:
            try:
                piece = self.source.recv(65_536)
            except ConnectionResetError:
                piece = b""
            if not piece:
                raise Cut(len(self.records.whole) + len(self.records.kept))
            self.whole += self.records.feed(piece)
        return self.whole.popleft()


class Client:
    """A client on a connection of its own. It counts its xids and, once it has a session, the numbers of its slots. What it calls may be answered in
    any order, late, or not at all."""

    # what it asks for, of both channels, and what its SEQUENCE says beside session, number and slot; and what else its CREATE_SESSION says
    fore, back, slots, highest, keeps, more = channel(), channel(), SLOTS, None, 0, {}

    def __init__(self, port, owner=None, source=None, host=HERE):
        self.port, self.source, self.host = port, source, host
        self.xid, self.numbers = 0, [0] * self.slots
        self.stream = self.records = None
        self.connect()
        if owner is not None:
            self.begin(owner)

    def connect(self):
        """A connection in place of the one before."""
        self.close()
        self.stream = connected(self.host, self.port, source=self.source)
        self.records = Stream(self.stream)

    def close(self):
        if self.stream:
            self.stream.close()

    def __enter__(self):
        return self

    def __exit__(self, *fault):
        self.close()

    # what is asked

    def record(self, *operations, uid=0):
        """A record of a compound under the next xid."""
        self.xid += 1
        return nfs4.record(nfs4.compound(self.xid, operations, uid))

    def next_on(self, slot, *operations, again=False):
        """The record of a compound on a slot under its next number, or again under the last one."""
        self.numbers[slot] += not again
        highest = slot if self.highest is None else self.highest
        return self.record(nfs4.sequence_of(self.session, self.numbers[slot], slot, highest, self.keeps), *operations)

    def send(self, *records):
        try:
            self.stream.sendall(b"".join(records))
        except (ConnectionResetError, BrokenPipeError):
            raise Cut(0) from None

    # what is answered

    def reply(self):
        """The next reply, without its mark."""
        return self.records.next()

    def take(self, patience=SECONDS):
        """The next reply as nfs4.Reply reads it; nothing if none comes in so many seconds."""
        self.stream.settimeout(patience)
        try:
            return nfs4.Reply(self.reply())
        except TimeoutError:
            return None
        finally:
            self.stream.settimeout(SECONDS)

    @staticmethod
    def fields(reply, at=-1):
        """The fields of a reply's result."""
        return dict(reply.results[at][2])

    def alone(self, operation, uid=0):
        """The reply to a compound of one operation, whatever its status."""
        self.send(self.record(operation, uid=uid))
        return nfs4.Reply(self.reply())

    def does(self, *operations, slot=0):
        """The reply to a compound on a slot, whatever its status; nothing if none comes."""
        self.send(self.next_on(slot, *operations))
        return self.take()

    def asks(self, *operations, wanted=0, slot=0):
        """The bytes of the reply to a compound on a slot, which must have this status."""
        self.send(self.next_on(slot, *operations))
        told = self.reply()
        if struct.unpack_from(">I20xI", told) != (self.xid, wanted):
            raise Wrong(f"a reply is {told.hex()[:400]}, and not of xid {self.xid} and status {wanted}")
        return told

    # clients and sessions

    def begin(self, owner, verifier=1, fore=None):
        """EXCHANGE_ID and CREATE_SESSION: a client and a session."""
        known = self.must(op("EXCHANGE_ID", verifier=u64(verifier), owner=owner))
        self.id, number = int(known["clientid"], 0), int(known["seqid"])
        sides = sizes("fore", fore or self.fore) | sizes("back", self.back)
        self.granted = self.must(op("CREATE_SESSION", clientid=self.id, seqid=number, **sides, **self.more))
        self.session = nfs4.meant(self.granted["sessionid"])
        self.numbers = [0] * self.slots

    def must(self, operation):
        """The fields of the result of an operation that is alone and must be done."""
        told = self.alone(operation)
        if told.status != "NFS4_OK":
            raise Wrong(f"{told.results[0][0]} is {told.status}")
        return self.fields(told)


class Small(Client):
    """A client with a session of four slots of small channels, all of which it says that it uses, and whose replies are kept."""

    fore = back = channel(8_192, 8_192, 8_192, 16, 4)
    slots, highest, keeps = 4, 3, 1
