"""What the tests that make their own calls share: calls and replies of this program as bytes, by tools/nfs4.py, and by tools/program.py the built
program."""
import os
import shutil
import subprocess
import sys
from pathlib import Path

sys.dont_write_bytecode = True
sys.path.insert(0, str(Path(__file__).resolve().parent.parent / "tools"))

import nfs4  # noqa: E402
from nfs4 import NUMBERS, entry, op, opaque, u32, u64  # noqa: E402, F401 (the tests take them from here)
from nfs4 import record as marked, reply_head, write_result  # noqa: E402, F401
from caller import channel, sizes  # noqa: E402, F401
from program import HERE, PROGRAM, SECONDS, TOP, Served, needed, replayed  # noqa: E402, F401

ROWS = TOP / "tests/rows"
INSTANCE = 7
LEASE = 90
ALL_ONES = 2**64 - 1

# the numbers of statuses by their words
STATUS = {word.partition("_")[2]: number for word, number in nfs4.STATUS_NUMBERS.items()}
ANONYMOUS = bytes(16)
# the state whose stateid the operation before it gave (RFC 8881 section 16.2.3.1.2)
CURRENT = u32(1, 0, 0, 0)

PUT_ROOT, SAVE, GET_HANDLE = op("PUTROOTFH"), op("SAVEFH"), op("GETFH")


def preloaded(source, folder):
    """The library of a file in C, to be preloaded into the program; none where no compiler makes it."""
    library = Path(folder) / f"{source.stem}.so"
    compiler = next(filter(shutil.which, filter(None, (os.environ.get("CC"), "cc", "gcc", "clang"))), None)
    made = compiler and subprocess.run([compiler, "-shared", "-fPIC", "-O1", "-o", library, source], check=False)
    return library if made and not made.returncode else None


# Two names whose bytes, taken as a number to the base of the golden ratio's 64 bits, are equal modulo 2^64; and so are any two that are made of
# them in whatever order.
PAIR = b"eadaaenaaaai", b"akaihaalsioa"


def colliding(n, length=12):
    """The n-th of 2^length names that are one such number."""
    return b"".join(PAIR[n >> bit & 1] for bit in range(length))


def client_id(counter):
    return u32(INSTANCE, counter)


def session_id(client, counter):
    return client_id(client) + u64(counter)


def stateid(seqid, counter):
    return u32(seqid, INSTANCE) + u64(counter)


def filehandle(number):
    return u32(INSTANCE, 0) + u64(number)


def number_of(client):
    """A client id as a number."""
    return INSTANCE << 32 | client


def compound(operations, uid=0):
    """A COMPOUND call of minor version 1 without a tag, from its RPC version on: what is after the xid and the message type."""
    return nfs4.compound(0, operations, uid)[8:]


def call(xid, body):
    return u32(xid, 0) + body


def exchange_id(owner, verifier=1):
    return op("EXCHANGE_ID", verifier=u64(verifier), owner=owner)


def create_session(client, number, fore=channel(), back=channel()):
    return op("CREATE_SESSION", clientid=number_of(client), seqid=number, **sizes("fore", fore), **sizes("back", back))


def sequence(session, number, slot=0):
    return nfs4.sequence_of(session, number, slot, slot)


def putfh(number):
    return op("PUTFH", FileHandle=filehandle(number))


def create(name):
    """CREATE of a directory, without attributes."""
    return op("CREATE", type=2, name=name)


def remove(name):
    return op("REMOVE", name=name)


def symlink(name, text):
    return op("CREATE", type=5, linkdata=text, name=name)


def link(name):
    return op("LINK", name=name)


def lookup(name):
    return op("LOOKUP", name=name)


def rename(old, new):
    return op("RENAME", name=old, newname=new)


def open_file(owner, access, name, make=False, deny=0):
    """OPEN by name; a file that is to be made is made UNCHECKED and without attributes."""
    return op("OPEN", share_access=access, share_deny=deny, owner=owner, open_type=int(make), name=name)


def open_current(owner, access=3):
    """OPEN of the current filehandle (CLAIM_FH), which takes 40 bytes and the owner."""
    return op("OPEN", share_access=access, owner=owner, claim_type=4)


def close(given):
    return op("CLOSE", StateID=given)


def read(given, offset, count):
    return op("READ", StateID=given, offset=offset, count=count)


def write(given, offset, data):
    return op("WRITE", StateID=given, offset=offset, data=data)


def lock(kind, offset, length, given, owner=None):
    """LOCK by a lock state, or by an open for a lock owner."""
    new = {} if owner is None else {"owner": owner}
    return op("LOCK", locktype=kind, offset=offset, length=length, new_lock_owner=len(new), StateID=given, **new)


def unlock(offset, length, given):
    return op("LOCKU", locktype=2, StateID=given, offset=offset, length=length)


def lock_test(kind, offset, length, owner):
    return op("LOCKT", locktype=kind, offset=offset, length=length, owner=owner)


def test_stateids(given):
    return nfs4.write_operation("TEST_STATEID", [("num_stateids", len(given)), *(("StateID", it) for it in given)])


def free_stateid(given):
    return op("FREE_STATEID", StateID=given)


def destroy_session(session):
    return op("DESTROY_SESSION", sessionid=session)


def destroy_client(client):
    return op("DESTROY_CLIENTID", clientid=number_of(client))


def result(operation, status="OK", body=b""):
    """A result of an operation, with the bytes of what comes under that status."""
    return u32(NUMBERS[operation], STATUS[status]) + body


def results(*parts):
    """A COMPOUND's result without a tag, of the results of its operations; its status is that of the last."""
    return nfs4.compound_results(parts)


def reply(xid, body):
    """An accepted reply that succeeded, and what is after its head."""
    return reply_head(xid) + body


def exchanged(client, number, confirmed=False):
    """A good EXCHANGE_ID: the client id, the number expected of CREATE_SESSION, and whether the record is confirmed."""
    flags = 0x0001_0000 | (0x8000_0000 if confirmed else 0)
    return write_result("EXCHANGE_ID", 0, {"clientid": number_of(client), "seqid": number, "eir_flags": flags, "major_id": b"nfs41d",
                                           "scope": b"nfs41d"}.items())


def session_created(session, number, fore=channel(), back=channel()):
    fields = {"sessionid": session, "seqid": number} | sizes("fore", fore) | sizes("back", back)
    return write_result("CREATE_SESSION", 0, fields.items())


def sequenced(session, number, slot, last=15):
    """A good SEQUENCE, of a session whose highest slot is `last`."""
    fields = {"sessionid": session, "seqid": number, "slot_id": slot, "high_slot_id": last, "target_high_slot_id": last}
    return write_result("SEQUENCE", 0, fields.items())


def changed(before, after):
    """change_info4, atomic."""
    return u32(1) + u64(before, after)


def replies(output):
    """The replies of an output, each with its connection."""
    return [(connection, told or b"") for connection, told in nfs4.replies(output)]


# Scripts of `nfs41d replay`.

class Script:
    """A script as it comes about, and the replies that it must have, each with its connection."""

    def __init__(self):
        self.script, self.expected = [], []
        self.moment, self.xid = 100, 0

    def bring(self, data, connection=0):
        """Bytes arrive, in as few pieces as they can."""
        for at in range(0, len(data), nfs4.MOST_PIECE):
            self.script.append(entry(self.moment, connection, data[at:at + nfs4.MOST_PIECE]))

    def cut(self, connection):
        self.script.append(entry(self.moment, connection, b""))

    def expect(self, xid, body, connection=0):
        self.expected.append((connection, reply(xid, body)))

    def arrive(self, body, wanted):
        """A call under the next xid, and the reply that it must have."""
        self.xid += 1
        self.bring(marked(call(self.xid, body)))
        self.expect(self.xid, wanted)


def script_of(bodies, first=1):
    """The script of calls on connection 0 at moment 100, under xids from the first on."""
    return b"".join(entry(100, 0, marked(call(xid, body))) for xid, body in enumerate(bodies, first))


class Calls:
    """The calls of a client on slot 0 of a session, in their order, behind others: the bodies so far."""

    def __init__(self, session, *before):
        self.session, self.number, self.bodies = session, 0, list(before)

    def asks(self, *operations):
        self.number += 1
        self.bodies.append(compound([sequence(self.session, self.number), *operations]))


# Streams of the tests over TCP.

def received(client, size):
    """So many bytes, or those that came until the other side closed."""
    got = bytearray()
    while len(got) < size:
        more = client.recv(min(65_536, size - len(got)))
        if not more:
            break
        got += more
    return bytes(got)


def until_closed(client):
    """What comes until the other side has closed; a reset ends it too."""
    got = bytearray()
    try:
        while more := client.recv(65_536):
            got += more
    except ConnectionResetError:
        pass
    return bytes(got)


def null(xid):
    """A NULL call with AUTH_NONE, as a record."""
    return marked(nfs4.null_call(xid))


def null_reply(xid):
    return marked(reply_head(xid))
