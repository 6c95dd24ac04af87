#!/usr/bin/env python3
"""Scripts for `nfs41d replay` of very many calls. Those that end in `among_leases` are the same with 1,000 leases; those of operations on names
and files are of one session of 16 slots.

    bench/scripts.py NAME

writes one to standard output. As a module it makes scripts of any calls: functions that end in `_of` or take calls give entries, and all else
gives operations."""
import sys

import measure  # noqa: F401 (it says where the encoder is)
import nfs4
import wire
from caller import SLOTS, channel
from nfs4 import op
from wire import CURRENT, PUT_ROOT as ROOT, SAVE as SAVEFH, create, lookup, putfh, remove, rename, session_id  # noqa: F401 (others take them from here)
from words import Words

CLOSE = wire.close(CURRENT)


def entry(call):
    """The entry of a call: it comes as one record, at second 100 on connection 0."""
    return nfs4.entry(100, 0, nfs4.record(call))


def compound(xid, *operations):
    return entry(nfs4.compound(xid, operations))


def stateid(counter):
    """The state of this counter, with whatever seqid it has."""
    return wire.stateid(0, counter)


def exchange_id(xid, owner, verifier=1):
    return compound(xid, wire.exchange_id(owner, verifier))


def create_session(client, number=1, most=4_096, cached=4_096):
    """A session of 16 slots for the client of this counter."""
    sides = channel(most, most, cached, 8)
    return compound(client if number == 1 else number, wire.create_session(client, number, sides, sides))


# Operations.

def readdir(cookie, most):
    return op("READDIR", cookie=cookie, maxcount=most, attr_mask="FileId")


def getattr_():
    return op("GETATTR", attr_mask="Type,Change,Size,FSID,FileId,Mode,NumLinks,Owner,Owner_Group,Space_Used,Time_Access,Time_Metadata,Time_Modify,"
                                   "Mounted_on_FileId")


def open_file(name, owner=b"owner", access=3):
    """An OPEN that makes the file if it is not there."""
    return wire.open_file(owner, access, name, True)


def close_of(counter):
    return wire.close(stateid(counter))


def read(size, offset=0):
    return wire.read(wire.ANONYMOUS, offset, size)


def write(offset, data):
    """WRITE by the anonymous stateid."""
    return op("WRITE", offset=offset, stable=2, data=data)


def lock(first, length, owner=None, opened=CURRENT, counter=0):
    """A LOCK for writing: by a new lock owner under an open, or by a lock state."""
    return wire.lock(2, first, length, stateid(counter) if owner is None else opened, owner)


def unlock(first, length, counter):
    return wire.unlock(first, length, stateid(counter))


# Scripts.

def null():
    for xid in range(1_000_000):
        yield entry(nfs4.null_call(xid))


def exchanges():
    for owner in range(1_000):
        yield exchange_id(owner, b"owner %d" % owner)
    again = exchange_id(1_000, b"owner 999")
    for _ in range(900_000):
        yield again


def sequences(clients, sessions, times):
    """SEQUENCE alone over 16 slots of so many sessions in turn, each call so many times."""
    for client in range(clients):
        yield exchange_id(client, b"owner %d" % client)
    for session in range(1, sessions + 1):
        yield create_session(session)
    for n in range(900_000 // times):
        session, slot, number = n % sessions + 1, n // sessions % SLOTS, n // sessions // SLOTS + 1
        asked = compound(n, nfs4.sequence_of(session_id(session, session), number, slot, SLOTS - 1))
        for _ in range(times):
            yield asked


def null_among_leases():
    for client in range(1_000):
        yield exchange_id(client, b"owner %d" % client)
    for xid in range(900_000):
        yield entry(nfs4.null_call(xid))


def calls(*groups):
    """Compounds of one session of 16 slots: each group is how many, and a function from the number of one to its operations."""
    yield exchange_id(0, b"owner")
    yield create_session(1, most=66_560)
    session, n = session_id(1, 1), 0
    for count, operations in groups:
        for place in range(count):
            yield compound(n, nfs4.sequence_of(session, n // SLOTS + 1, n % SLOTS, SLOTS - 1), *operations(place))
            n += 1


def again(count, *operations):
    """A group of compounds that are alike."""
    return count, lambda _: operations


def listing():
    return calls((1_000, lambda n: [ROOT, create(b"entry %d" % n)]), again(1_000, ROOT, readdir(0, 65_000)))


def reads(size, count):
    return calls(again(1, ROOT, open_file(b"f"), write(0, bytes(size))), again(count, ROOT, lookup(b"f"), read(size)))


def writes(size, count):
    return calls(again(1, ROOT, open_file(b"f")), again(count, ROOT, lookup(b"f"), write(0, bytes(size))))


def locks_between(*held):
    """LOCK and LOCKU of one byte in the gaps of what these groups hold."""
    found = lookup(b"f")
    turns = [[ROOT, found, lock(4 * gap + 2, 1, counter=2), unlock(4 * gap + 2, 1, 2)] for gap in range(1_000)]
    return calls(*held, (100_000, lambda n: turns[n % 1_000]))


def locks():
    """Where nothing else is locked."""
    return locks_between(again(1, ROOT, open_file(b"f"), lock(0, 1, b"locker")))


def locks_of_one():
    """In the gaps of 1,000 ranges that the same owner holds."""
    return locks_between(again(1, ROOT, open_file(b"f"), lock(0, 1, b"locker")), (1_000, lambda n: [ROOT, lookup(b"f"), lock(4 * n, 1, counter=2)]))


def locks_of_many():
    """In the gaps of 1,000 ranges that 1,000 others hold."""
    return locks_between(again(1, ROOT, open_file(b"f"), lock(2, 1, b"locker")),
                         (1_000, lambda n: [ROOT, lookup(b"f"), lock(4 * n, 1, b"locker %d" % n, opened=stateid(1))]))


SCRIPTS = {
    "null": null, "null_among_leases": null_among_leases, "exchange_id": exchanges, "sequence": lambda: sequences(1, 1, 1),
    "sequence_among_leases": lambda: sequences(1_000, 1, 1), "sequence_twice": lambda: sequences(1, 1, 2),
    "sequence_of_many": lambda: sequences(1_000, 64, 1), "getattr": lambda: calls(again(300_000, ROOT, getattr_())),
    "lookup": lambda: calls(again(1, ROOT, create(b"d")), again(300_000, ROOT, lookup(b"d"))),
    "create_and_remove": lambda: calls(again(150_000, ROOT, create(b"d"), ROOT, remove(b"d"))), "readdir": listing,
    "open_and_close": lambda: calls(again(150_000, ROOT, open_file(b"f"), CLOSE)),
    "read_4k": lambda: reads(4_096, 50_000), "read_32k": lambda: reads(32_768, 10_000),
    "write_4k": lambda: writes(4_096, 50_000), "write_32k": lambda: writes(32_768, 10_000),
    "lock": locks, "lock_among_ranges": locks_of_one, "lock_among_owners": locks_of_many}


def main():
    options = Words(__doc__)
    options.add_argument("name", choices=SCRIPTS, metavar="NAME", help=", ".join(SCRIPTS))
    try:
        for piece in SCRIPTS[options.parse_args().name]():
            sys.stdout.buffer.write(piece)
        sys.stdout.flush()
    except BrokenPipeError:
        sys.stderr.close()


if __name__ == "__main__":
    main()
