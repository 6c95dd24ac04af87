"""Limits of objects and of a file's bytes as settings give them: what just reaches each is granted, one more is refused, and what a file has is
compared with a record of its own, at places that are far apart. tests/server/limits plays these runs."""
import random
import sys
import tempfile

sys.path.append(f"{sys.path[0]}/..")
from wire import (INSTANCE, PUT_ROOT, channel, create, create_session, exchange_id, exchanged, nfs4, op, opaque, open_file, read, remove, replayed, replies,
                  result, session_created, session_id, stateid, symlink, u32, u64, write)
from cases import judge

ROOT, PAGE = 1, 4_096
AT_ROOT = PUT_ROOT, result("PUTROOTFH")
# the most bytes of a file, and the most objects
LIMITS = [(1, 1), (PAGE, 3), (PAGE + 1, 2), (65_536, 5), (2**20 - 1, 64), (2**20 + 1, 3), (2**31, 4), (2**32 - 1, 3), (2**32, 3),
          (2**32 + PAGE, 9), (2**40, 200)]
# the same for plays at random, each with its seed
AT_RANDOM = [(PAGE, 3, 1), (3 * PAGE + 5, 3, 2), (2**20, 2, 3), (2**32 + 3, 4, 4), (2**33, 3, 5), (2**40, 5, 6)]
STEPS = 150


def refused(operation, status, behind=b""):
    return operation, result(nfs4.OPERATIONS[int.from_bytes(operation[:4], "big")], status, behind)


def written(count):
    return result("WRITE", "OK", u32(count, 2, INSTANCE, 0))


class Sparse:
    """What a file has: its size, and those of its bytes that are not zero."""

    def __init__(self, number, by):
        self.number, self.by = number, by
        self.size, self.bytes = 0, {}

    def put(self, at, data):
        self.bytes = {place: it for place, it in self.bytes.items() if not at <= place < at + len(data)}
        self.bytes |= {place: it for place, it in enumerate(data, at) if it}
        self.size = max(self.size, at + len(data)) if data else self.size

    def cut(self, size):
        self.bytes = {place: it for place, it in self.bytes.items() if place < size}
        self.size = size

    # steps, and what they leave

    def write(self, at, data, most):
        if data and at + len(data) > most:
            return refused(write(self.by, at, data), "FBIG")
        self.put(at, data)
        return write(self.by, at, data), written(len(data))

    def resize(self, size, most):
        operation = op("SETATTR", StateID=self.by, attrs=f"{{Size:{size}}}")
        if size > most:
            return refused(operation, "FBIG", u32(0))
        self.cut(size)
        return operation, result("SETATTR", "OK", u32(1, 0x10))

    def read(self, at, count):
        end = max(at, min(self.size, at + count))
        data = bytes(self.bytes.get(place, 0) for place in range(at, end))
        return read(self.by, at, count), result("READ", "OK", u32(end >= self.size) + opaque(data))


def begin(run):
    """A client with a session."""
    run.client, run.session = 1, session_id(1, run.server.session())
    run.alone(exchange_id(b"of other limits"), exchanged(1, 1))
    run.alone(create_session(1, 1, channel(), channel()), session_created(run.session, 1))


def a_file(run, name):
    run.send(AT_ROOT, run.opened(b"o", ROOT, name))
    return Sparse(run.server.last_object, stateid(0, run.server.last_state))


def told(run, most):
    """GETATTR of maxfilesize."""
    run.send(AT_ROOT, (op("GETATTR", attr_mask="MaxFileSize"), result("GETATTR", "OK", u32(1, 1 << 27) + opaque(u64(most)))))


def sizes_of(run, file, most):
    """Sizes and bytes up to the most, and one more."""
    at = run.at(file.number)
    run.send(at, file.resize(most, most), file.read(most - 1, 2), file.read(most, 1), file.read(0, 5))
    run.send(at, file.resize(most + 1, most))
    run.send(at, file.write(most - 1, b"x", most), file.read(max(0, most - 5), 9), file.write(most, b"", most))
    run.send(at, file.write(most, b"x", most))
    run.send(at, file.write(most - 1, b"xy", most))
    run.send(at, file.write(2**64 - 1, b"x", most))
    middle = max(0, most // 2 - 3)
    run.send(at, file.resize(0, most), file.write(middle, b"across"[:most - middle], most), file.read(max(0, middle - 2), 10), file.read(0, 4))
    run.send(at, file.resize(middle + 1, most), file.resize(most, most), file.read(max(0, middle - 2), 10), file.resize(0, most), file.read(0, 1))


def objects_of(run, count):
    """Files up to the most objects, and one more; one that goes makes room."""
    while run.server.objects < count:
        run.send(AT_ROOT, run.made(ROOT, b"%d" % run.server.objects))
    full = refused(create(b"more"), "NOSPC"), refused(symlink(b"more", b"t"), "NOSPC"), refused(open_file(b"o", 3, b"more", True), "NOSPC")
    for step in full:
        run.send(AT_ROOT, step)
    if run.server.rows[ROOT].pop(b"2", None):
        run.send(AT_ROOT, (remove(b"2"), result("REMOVE", "OK", run.server.changed(ROOT))), run.made(ROOT, b"in its place"), full[0])


def at_limits(run, most, objects):
    begin(run)
    told(run, most)
    if objects > 1:
        sizes_of(run, a_file(run, b"f"), most)
    objects_of(run, objects)


def at_random(run, most, objects, seed):
    """WRITE, READ and SETATTR of size at random, near the ends of pages, of 2^32 and of the most."""
    chance = random.Random(seed)
    begin(run)
    files = [a_file(run, b"file %d" % n) for n in range(1, objects)]
    marks = [mark for mark in (0, PAGE, 2 * PAGE, 2**32, most // 2, most) if mark <= most]
    for _ in range(STEPS):
        file, place = chance.choice(files), max(0, chance.choice(marks) + chance.randrange(-PAGE - 9, 9))
        kind, size = chance.random(), chance.choice((0, 1, chance.randrange(20), chance.randrange(2 * PAGE + 9)))
        if kind < 0.45:
            step = file.write(place, chance.randbytes(size), most)
        elif kind < 0.6:
            step = file.resize(place, most)
        else:
            step = file.read(place, size)
        run.send(run.at(file.number), step, *[] if step[1][4:8] != u32(0) else [file.read(max(0, place - 3), 9)])
    for file in files:
        for mark in marks:
            run.send(run.at(file.number), file.read(max(0, mark - PAGE - 9), 2 * PAGE))
    objects_of(run, objects)


def plays(name, run, most, objects):
    """Plays a run under these settings."""
    with tempfile.NamedTemporaryFile("w", suffix=".toml") as file:
        file.write(f"objects = {objects}\nfile_bytes = {most}\n")
        file.flush()
        ran = replayed(b"".join(run.script), words=("--settings", file.name))
    found = replies(ran.stdout)
    wrong = next((n for n, it in enumerate(run.expected) if n >= len(found) or found[n] != it), None)
    shown = "" if wrong is None else f"reply {wrong} is {[it[1].hex()[:400] for it in found[wrong:wrong + 1]]} and not {run.expected[wrong][1].hex()[:400]}"
    judge(name, (ran.returncode, ran.stderr) == (0, b"") and found == run.expected, f"{ran.returncode} {ran.stderr} {shown}")
