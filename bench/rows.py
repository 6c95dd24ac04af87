"""Operations among many things, as scripts of `nfs41d replay`, which bench/instructions measures."""
import typing

import scripts
from scripts import CLOSE, ROOT, SAVEFH, calls, close_of, create, getattr_, lock, lookup, open_file, putfh, read, readdir, remove, rename, write


def name(n):
    return b"entry %d" % n


def spread(n, count):
    """Numbers below count that lie far from one another."""
    return n * 7_919 % count


def in_root(n):
    """The compound that makes object 2 + n."""
    return [ROOT, create(name(n))]


def below_another(n):
    """The same, with each object as the directory of the next."""
    return [putfh(1 + n), create(b"next")]


def to_the_bottom(moved, count):
    """A directory goes below all others, and back."""
    there = [ROOT, SAVEFH, putfh(1 + count), rename(moved, moved)]
    return [*there, SAVEFH, ROOT, rename(moved, moved)]


class Row(typing.NamedTuple):
    """An operation that is measured: its script among so many things with so many turns, how many turns are timed (none: it comes once, and to each of
    the things), how many operations a turn has, and the lines of settings."""
    title: str
    script: typing.Callable
    turns: int = 20_000
    operations: int = 1
    settings: str = ""


def of_tree(title, turns, compound, operations=1, made=in_root):
    """A row of compounds among objects, each made so: the compound of a number among so many."""
    def script(count, turned):
        moved = [[ROOT, create(b"empty")], [ROOT, create(b"full"), create(b"entry")], [putfh(1 + count), create(b"inner"), create(b"entry")]]
        return calls((count, made), (len(moved), lambda n: moved[n]), (turned, lambda n: compound(n, count)))
    return Row(title, script, turns, operations)


TREE = (
    of_tree("SEQUENCE alone", 100_000, lambda n, count: []),
    of_tree("GETATTR by filehandle", 100_000, lambda n, count: [putfh(2 + spread(n, count)), getattr_()]),
    of_tree("LOOKUP", 100_000, lambda n, count: [ROOT, lookup(name(spread(n, count)))]),
    of_tree("CREATE with REMOVE", 100_000, lambda n, count: [ROOT, create(b"new"), ROOT, remove(b"new")]),
    of_tree("RENAME", 50_000, lambda n, count: [ROOT, SAVEFH, rename(name(spread(n, count)), b"new"), rename(b"new", name(spread(n, count)))], 2),
    # a page of about 100 entries, the last of the directory
    of_tree("READDIR, a page at the end", 5_000, lambda n, count: [ROOT, readdir(2 + count - 100, 8_192)]),
    of_tree("RENAME to the bottom and back", 100, lambda n, count: to_the_bottom(b"empty", count), made=below_another),
    of_tree("RENAME to the bottom and back, with an entry", 100, lambda n, count: to_the_bottom(b"full", count), made=below_another),
    of_tree("RENAME at the bottom, of one with an entry", 1_000,
            lambda n, count: [putfh(1 + count), SAVEFH, rename(b"inner", b"other"), rename(b"other", b"inner")], 2, below_another),
)


def file_name(n):
    return b"file %05d" % n


def opened(n):
    return n, lambda place: [ROOT, open_file(file_name(place))]


def read_each(files, times):
    """READ by the anonymous stateid, of each open file in turn."""
    return calls(opened(files), (times, lambda place: [ROOT, lookup(file_name(place % files)), read(4)]))


def open_new(files, times):
    """OPEN, which makes the file, CLOSE and REMOVE, beside the open files."""
    return calls(opened(files), scripts.again(times, ROOT, open_file(b"other"), CLOSE, ROOT, remove(b"other")))


def open_again(files, times):
    """OPEN and CLOSE of the file in the middle of the others by a second owner."""
    return calls(opened(files), scripts.again(times, ROOT, open_file(file_name(files // 2), b"other"), CLOSE))


def close_oldest(files, times):
    """OPEN of a new file, and CLOSE of the oldest open, beside the others. The open of a number is that of the file before it."""
    return calls(opened(files), (times, lambda place: [
        ROOT, open_file(file_name(files + place)), ROOT, lookup(file_name(place)), close_of(place + 1)]))


def close_locked(files, times):
    """OPEN of a new file, LOCK of a byte, CLOSE and REMOVE, beside open files that have a lock each. An open and its lock take a number each."""
    held = files, lambda place: [ROOT, open_file(file_name(place)), lock(0, 1, b"locker %d" % place)]
    return calls(held, (times, lambda place: [
        ROOT, open_file(b"other"), lock(0, 1, b"another"), close_of(2 * (files + place) + 1), ROOT, remove(b"other")]))


def close_oldest_locked(files, times):
    """OPEN and LOCK of a new file, and CLOSE of the oldest open with its lock state, beside open files that have a lock each."""
    def locked(place):
        return [ROOT, open_file(file_name(place)), lock(0, 1, b"locker %d" % place)]
    return calls((files, locked), (times, lambda place: [*locked(files + place), ROOT, lookup(file_name(place)), close_of(2 * place + 1)]))


def shared_by(owner, access=3):
    """OPEN of one file by this owner."""
    return [ROOT, open_file(b"shared", owner, access)]


def open_shared(owners, times):
    """OPEN and CLOSE, by one more owner, of a file that as many owners have open."""
    return calls((owners, lambda place: shared_by(b"own%05d" % place)), scripts.again(times, *shared_by(b"another"), CLOSE))


def write_shared(owners, times):
    """The same for reading and writing, of a file that all the others have open for reading."""
    return calls((owners, lambda place: shared_by(b"own%05d" % place, 1)), scripts.again(times, *shared_by(b"another"), CLOSE))


def read_shared(owners, times):
    """READ by the anonymous stateid of a file that all these owners have open for writing."""
    return calls((owners, lambda place: shared_by(b"own%05d" % place, 2)), scripts.again(times, ROOT, lookup(b"shared"), read(4)))


def lock_shared(owners, times):
    """OPEN, LOCK of a byte and CLOSE, by one more owner, of a file on which as many owners have a lock each."""
    held = owners, lambda place: [*shared_by(b"own%05d" % place), lock(place, 1, b"locker %d" % place)]
    return calls(held, (times, lambda place: [*shared_by(b"another"), lock(1 << 40, 1, b"another"), close_of(2 * (owners + place) + 1)]))


def end(files, times):
    """The end of a client that has removed its open files: the same owner comes again with another verifier, and makes a session."""
    yield from calls((files, lambda place: [ROOT, open_file(file_name(place)), ROOT, remove(file_name(place))]))
    yield scripts.exchange_id(0, b"owner", 2)
    if times:
        yield scripts.create_session(2)

# Every 256 KiB of a file the first 32 KiB are written: the program keeps pages that lie so near together as one thing.
NEAR, PIECE = 262_144, 32_768


def of_file(title, operation):
    """A row of operations at places that are far apart, on a file of so many times 256 KiB."""
    def script(count, times):
        held = count, lambda n: [ROOT, lookup(b"f"), write(n * NEAR, bytes(PIECE))]
        return calls((1, lambda _: [ROOT, open_file(b"f")]), held, (times, lambda n: [ROOT, lookup(b"f"), operation(spread(n, count) * NEAR)]))
    return Row(title, script, settings=f"file_bytes = {2 ** 40}\n")


FILES = (
    of_file("READ of 4 KiB of a large file", lambda at: read(4_096, at)),
    of_file("READ of 32 KiB of a large file", lambda at: read(PIECE, at)),
    of_file("WRITE of 4 KiB of a large file", lambda at: write(at, bytes(4_096))),
    of_file("WRITE of 32 KiB of a large file", lambda at: write(at, bytes(PIECE))),
)

ROWS = (
    *TREE,
    *FILES,
    Row("READ by the anonymous stateid", read_each),
    Row("OPEN and CLOSE of a new file, REMOVE", open_new),
    Row("OPEN and CLOSE of a file that is open", open_again),
    Row("OPEN of a new file, CLOSE of the oldest open", close_oldest),
    Row("OPEN, LOCK and CLOSE of a new file, REMOVE", close_locked),
    Row("OPEN, LOCK of a new file, CLOSE of the oldest locked", close_oldest_locked),
    Row("OPEN and CLOSE of a file that as many owners have open", open_shared),
    Row("OPEN for writing of one that as many have for reading", write_shared),
    Row("READ of one that as many have open for writing", read_shared),
    Row("OPEN, LOCK and CLOSE of one that as many have locked", lock_shared),
    Row("the end of a client, for each open of a removed file", end, 0),
)
