"""What tests/server/hostile does to the leases of good clients: others send records that take long, and a client that renews in time is to lose nothing."""
import contextlib
import functools
import itertools
import statistics
import threading
import time
from pathlib import Path

from cases import judge
from generator import compiled
from hostile_clients import SLOTS, Good, Peer, Served, Wrong, at, chain, lock_first, lock_more, lock_test, repeated
from program import ran
from wire import CURRENT, SAVE, create, null, null_reply, received, rename

HERE = Path(__file__).resolve().parent

# what the attacks with large numbers came to: of each, figures by their names
found = []


def spread_owners(peer, count, name=b"spread"):
    """A file with so many lock owners, each with a byte before a gap in the middle and a byte behind it: the filehandle, and a LOCKT in the gap,
    about which no single lock owner says anything."""
    opened, file = peer.opens(name)
    # (in parts, so that its lease does not run out while they are made)
    for first in range(0, count, 2_000):
        peer.does_all([at(file)], [step for n in range(first, min(count, first + 2_000)) for step in (
            lock_first(2 * n, opened, b"spread %d" % n), lock_more(2 * (2 * count + n), CURRENT))])
    return file, lock_test(3 * count, b"another")


class Attack:
    """A client on a connection of its own that asks for the same compounds over and over, in turns, with two calls outstanding. It counts those that
    succeed, and ends with one that does not."""

    def __init__(self, server, owner, *compounds, **where):
        self.peer, self.compounds, self.came, self.ending = Peer(server, owner, **where), compounds, 0, threading.Event()
        self.thread = threading.Thread(target=self.asks, daemon=True)

    def asks(self):
        with contextlib.suppress(OSError, Wrong):
            for turn in range(10**9):
                if turn >= 2 and self.peer.reply()[24:28] != bytes(4):
                    return
                self.came += turn >= 2
                if self.ending.is_set():
                    return
                self.peer.stream.sendall(self.peer.next_on(turn % SLOTS, *self.compounds[turn % len(self.compounds)]))

    def __enter__(self):
        self.thread.start()
        return self

    def __exit__(self, *fault):
        self.ending.set()
        is_there = self.thread.is_alive()
        with contextlib.suppress(OSError):
            self.peer.stream.shutdown(2)
        self.thread.join(10)
        self.peer.close()
        self.lasted = is_there and self.came > 0


def notes(name, goods, lost, waits):
    """Figures of an attack: how many good clients there were, how many lost something, and how long they waited."""
    found.extend((name, figure, value) for figure, value in (
        ("good clients", goods), ("who lost something", lost), ("wait in the middle, seconds", f"{statistics.median(waits):.2f}"),
        ("longest wait, seconds", f"{max(waits):.1f}")))


def renewed_in_time(name, lease, phases, goods=6):
    """Good clients, each of which renews at 0.7 of a lease behind the reply to its last renewal, at as many phases. `phases` gives functions that
    begin attacks on a server, each with the seconds that they last. All goods keep what they hold."""
    with Served(lease) as server, contextlib.ExitStack() as stack:
        attackers = phases(server, stack)
        good = []
        for n in range(goods):
            good.append(stack.enter_context(Good(server, 0.7 * lease, b"good %d" % n, lease * n / goods)))
        for attacks, seconds in attackers:
            with contextlib.ExitStack() as during:
                started = [during.enter_context(attack()) for attack in attacks]
                time.sleep(seconds)
                print(f"{name}: {len(started)} connections were answered {sum(attack.came for attack in started)} times in {seconds} s")
            judge(f"{name}: each of {len(started)} attacks goes on to its end", all(attack.lasted for attack in started), [it.came for it in started])
        waits = sorted(wait for one in good for wait in one.waits) or [0]
        print(f"{name}: good clients waited {1e3 * statistics.median(waits):.1f} ms in the middle and {1e3 * waits[-1]:.1f} at most, {len(waits)} times")
        lost = [f"{n}: {one.shown()}" for n, one in enumerate(good) if not one.stood()]
        notes(name, goods, len(lost), waits)
        judge(f"{name}: of {goods} clients that renew in time none loses anything", not lost, lost)


def between_lock_owners(lease=4, owners=30_000, last=20, seconds=(9, 9)):
    """58 LOCKTs between the bytes of many lock owners, over three connections, and then so many over one."""
    def phases(server, stack):
        holds = stack.enter_context(Peer(server, b"holds"))
        file, test = spread_owners(holds, owners)
        stack.enter_context(repeated(holds.asks, lease / 4))
        attack = lambda n, many: lambda: Attack(server, b"tests %d" % n, [at(file)] + [test] * many)
        return [([attack(n, 58) for n in range(3)], seconds[0]), ([attack(3, last)], seconds[1])]

    renewed_in_time(f"leases of {lease} s beside LOCKTs between {owners} owners", lease, phases)


def renames_below(server, makes, depth, connections):
    """So many attacks, each of 60 RENAMEs at the bottom of a chain of directories: 60 directories with an entry each, from one place to another and
    back."""
    last, before = chain(makes, b"d", depth)

    def attack(n):
        names = [b"%d of %d" % (one, n) for one in range(60)]
        makes.does_all([], [step for name in names for step in (at(last), create(name), create(b"entry"))], 60)
        moves = [rename(name, name) for name in names]
        return lambda: Attack(server, b"renames %d" % n, [at(last), SAVE, at(before), *moves], [at(before), SAVE, at(last), *moves])

    return [attack(n) for n in range(connections)]


def below_many_directories(lease=4, depth=2_000, connections=8, seconds=(9, 9)):
    """60 RENAMEs at the bottom of a chain of directories, over all connections but two and then over those two."""
    def phases(server, stack):
        attacks = renames_below(server, stack.enter_context(Peer(server, b"makes")), depth, connections)
        return [(attacks[2:], seconds[0]), (attacks[:2], seconds[1])]

    renewed_in_time(f"leases of {lease} s beside RENAMEs {depth} directories down", lease, phases)


def asks_below_many_directories(depth=2_000, counts=(1, 14), seconds=9):
    """A good client that asks all the time, beside such RENAMEs over one connection, and over as many as there are places."""
    with Served(30) as server, Good(server, 0.01) as good:
        with Peer(server, b"makes") as makes:
            attacks = iter(renames_below(server, makes, depth, sum(counts)))
        for count in counts:
            name, begun = f"RENAMEs {depth} directories down over {count} connection{'s' * (count > 1)}", len(good.waits)
            with contextlib.ExitStack() as stack:
                started = [stack.enter_context(attack()) for attack in itertools.islice(attacks, count)]
                time.sleep(seconds)
            waits = good.waits[begun:] or [seconds]
            judge(f"{name}: all go on to the end", all(attack.lasted for attack in started), [it.came for it in started])
            print(f"{name}: the good client waited {1e3 * statistics.median(waits):.1f} ms in the middle and {1e3 * max(waits):.1f} at most, {len(waits)} times")
            notes(name, 1, int(good.fault is not None), waits)
        judge(f"RENAMEs {depth} directories down: the good client is told what is right, and its lock stands", good.stood(), good.shown())


def one_attacker():
    """The waits of a good client beside one connection that streams records of some milliseconds, and without it."""
    name = "one attacker"
    with Served(30) as server, Peer(server, b"attacks") as peer, Good(server, 0.01) as good:
        file, test = spread_owners(peer, 4_000)
        found = []
        for attacks in ([], [Attack(server, b"streams", [at(file)] + [test] * 58)]):
            begun = len(good.waits)
            with contextlib.ExitStack() as stack:
                for attack in attacks:
                    stack.enter_context(attack)
                time.sleep(4)
            waits = sorted(good.waits[begun:]) or [4]
            found.append((max(0.001, statistics.median(waits)), max(0.005, waits[-1])))
        (middle, longest), (beside, most) = found
        print(f"{name}: the good client waited {1e3 * beside:.1f} ms in the middle and {1e3 * most:.1f} at most; "
              f"without it no more than {1e3 * middle:.1f} and {1e3 * longest:.1f}")
        judge(f"{name}: a good client waits no more than 50 times as long beside it", beside <= 50 * middle and most <= 50 * longest, found)
        judge(f"{name}: the good client is told what is right, and its lock stands", good.stood(), good.shown())


def idle_for_long():
    """Nobody asks for five leases; the lock of a client that is gone goes with its lease all the same."""
    name, lease = "an idle server", 2
    with Served(lease) as server, Peer(server, b"gone") as gone:
        opened, file = gone.opens(b"file")
        gone.asks(at(file), lock_first(0, opened, b"locker"))
        time.sleep(5 * lease)
        with Peer(server, b"later") as later:
            own, _ = later.opens(b"file")
            status = later.does(at(file), lock_first(0, own, b"another")).status
        judge(f"{name}: the lock of a client that is gone is free", status == "NFS4_OK", status)


def by_turns(server, count):
    """How many of so many connections, one after the other, bring a NULL call that is answered."""
    right = 0
    for n in range(count):
        # (an address has some 28,000 ports for this, and each stays taken for a minute)
        with server.connect(f"127.0.{n // 20_000 + 1}.1") as stream:
            stream.sendall(null(n))
            right += received(stream, 28) == null_reply(n)
    return right


def by_knocks(server, count):
    """The same, by a program in C."""
    status, told, _ = ran(compiled(HERE / "knock.c"), server.port, count, seconds=3_600)
    return int(told) if not status else -1


def calls_without_a_session(count=2_000, calls=by_turns):
    """Connections with a NULL call each, more than the program is to serve: they end nothing, and the next client is served."""
    name = f"NULL on each of {count} connections"
    with Served(connections=20) as server:
        begun = time.monotonic()
        right = calls(server, count)
        took = time.monotonic() - begun, server.seconds()
        print(f"{name}: they took {took[0]:.0f} s, and {took[1]:.0f} of a processor")
        found.extend((name, figure, f"{value:.0f}") for figure, value in zip(("seconds", "of a processor"), took))
        judge(f"{name}: each is answered", right == count, right)
        with Peer(server, b"later") as later:
            judge(f"{name}: a client behind them is served", bool(later.asks()))


def idle_to_the_end():
    """All connections that are to count have come; one more stays open and says nothing. A lease later the program ends all the same."""
    name, lease = "an idle connection at the end", 2
    with Served(lease, connections=2) as server, server.connect():
        for n in range(2):
            with Peer(server, b"counts %d" % n) as peer:
                peer.asks()
        begun = time.monotonic()
        status = server.ended()[0]
        took = time.monotonic() - begun
        judge(f"{name}: the program ends with status 0", status == 0, status)
        judge(f"{name}: a lease later at most", took < 3 * lease, took)


PARTS = (between_lock_owners, below_many_directories, one_attacker, idle_for_long, calls_without_a_session, idle_to_the_end)

# the same with numbers that take minutes
LONG = {
    "leases of 90 s beside LOCKTs": functools.partial(between_lock_owners, lease=90, owners=100_000, last=58, seconds=(60, 140)),
    "leases of 10 s beside LOCKTs": functools.partial(between_lock_owners, lease=10, owners=100_000, last=58, seconds=(30, 30)),
    "leases of 10 s beside RENAMEs": functools.partial(below_many_directories, lease=10, connections=9, seconds=(30, 30)),
    "waits beside RENAMEs": functools.partial(asks_below_many_directories, seconds=20),
    "a million NULL calls": functools.partial(calls_without_a_session, count=1_000_000, calls=by_knocks),
}
