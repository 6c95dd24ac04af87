"""What those without a seat can do to those who have one, in tests/server/hostile: each at leases of 4 and 10 seconds, and of 90 with --long."""
import concurrent.futures
import contextlib
import functools
import socket
import time

from cases import judge
from hostile_clients import Good, Peer, Served, Wrong, at, repeated
from hostile_leases import Attack, spread_owners
from wire import HERE, SECONDS, null, null_reply, received


def newcomer_is_served(name, server, seconds, source=HERE):
    """One more connection is answered in so many seconds."""
    with server.connect(source) as peer:
        peer.settimeout(seconds)
        peer.sendall(null(1))
        try:
            answer = received(peer, 28)
        except OSError as fault:
            answer = repr(fault)
        judge(f"{name}: a newcomer is served", answer == null_reply(1), answer)


# Seats: what those without one can do to those who have one.

@contextlib.contextmanager
def seated(name, lease=4, goods=8, sources=(HERE,), patience=20, **served):
    """Good clients at these addresses in turn, each of which renews at 0.7 of a lease behind the reply to its last renewal, at as many phases, beside
    what is done. Each keeps its connection and its lock, and a newcomer is served at the end in so many seconds."""
    name = f"{name}, leases of {lease} s"
    with Served(lease, **served) as server, contextlib.ExitStack() as stack:
        good = [stack.enter_context(Good(server, 0.7 * lease, b"seated %d" % n, lease * n / goods, sources[n % len(sources)])) for n in range(goods)]
        for it in good:
            it.peer.stream.settimeout(max(SECONDS, 3 * lease))
        yield server, stack
        newcomer_is_served(name, server, patience, "127.0.2.1")
        judge(f"{name}: those with seats keep connection and lock", all([it.stood() for it in good]), ", ".join(it.shown() for it in good))


def come_again(server, peers, sources, said):
    """Each stranger that is not connected any more comes again, and says what it says."""
    for n, source in enumerate(sources):
        try:
            if peers[n] is None:
                peers[n] = server.connect(source)
            peers[n].sendall(said)
        except OSError:
            peers[n] = None


def knocks(server, sources, said, seconds, pause, anew=False):
    """Strangers at these addresses say the same again and again for so long, or come anew each time."""
    peers, until = [None] * len(sources), time.monotonic() + seconds
    while time.monotonic() < until:
        come_again(server, peers, sources, said)
        time.sleep(pause)
        for n, peer in enumerate(peers):
            if anew and peer is not None:
                peer.close()
                peers[n] = None
    for peer in peers:
        if peer is not None:
            peer.close()


STRANGERS = [f"127.0.1.{n}" for n in range(1, 16)]


def strangers_that_say_null(lease=4):
    """Fifteen strangers, each at an address of its own, say NULL each third of a lease."""
    with seated("strangers that say NULL", lease, at_once=16) as (server, _):
        knocks(server, STRANGERS, null(1), 3 * lease, lease / 3)


def strangers_that_are_silent(lease=4):
    """Fifteen strangers connect, say nothing, and come anew."""
    with seated("strangers that are silent", lease, at_once=16) as (server, _):
        knocks(server, STRANGERS, b"", 3 * lease, 1.5, anew=True)


def strangers_at_their_address(lease=4):
    """Eight strangers at the good clients' own address say NULL again and again, and one at another comes and goes."""
    with seated("strangers at their address", lease, 6, at_once=16) as (server, _), repeated(lambda: server.connect("127.0.1.1").close(), 0.4):
        knocks(server, [HERE] * 8, null(1), 3 * lease, 0.2)


def many_calls(lease=4, calls=70_000):
    """A good client makes many calls, one after the other, and keeps its connection, while strangers hold what places there are and others wait."""
    with seated("many calls", lease, 3, at_once=16) as (server, stack):
        peers = [None] * len(STRANGERS)
        stack.enter_context(repeated(lambda: come_again(server, peers, STRANGERS, null(1)), lease / 3))
        caller = stack.enter_context(Peer(server, b"calls", "127.0.4.1"))
        for _ in range(calls):
            caller.asks()


def long_sweeps(lease=4, owners=20_000):
    """Twelve clients, each at an address of its own, ask for LOCKTs between the bytes of many lock owners, and strangers come and say NULL. The good
    clients have addresses of their own."""
    sources = [f"127.0.4.{n}" for n in range(1, 4)]
    # (one comes in at each sweep, and some strangers wait before the newcomer)
    with seated("long sweeps", lease, 3, sources, 12 * lease, seats=16) as (server, stack):
        holds = stack.enter_context(Peer(server, b"holds"))
        file, test = spread_owners(holds, owners)
        stack.enter_context(repeated(holds.asks, lease / 4))
        attacks = [stack.enter_context(Attack(server, b"tests %d" % n, [at(file)] + [test] * 62, source=f"127.0.3.{n + 1}")) for n in range(12)]
        knocks(server, STRANGERS, null(1), 3 * lease, lease / 3)
        judge(f"long sweeps, leases of {lease} s: they are asked for to the end", all(it.came > 0 for it in attacks), [it.came for it in attacks])


def strangers_with_sessions():
    """Twenty clients with sessions, each at an address of its own, ask again and again: more than there are seats."""
    with seated("strangers with sessions", 6, at_once=16) as (server, stack):
        peers, until = {}, time.monotonic() + 18
        while time.monotonic() < until:
            for n in range(20):
                try:
                    if n not in peers:
                        peers[n] = stack.enter_context(Peer(server, b"stranger %d" % n, f"127.0.1.{n + 1}"))
                    peers[n].stream.settimeout(0.05)
                    peers[n].asks()
                except (OSError, ValueError, Wrong):
                    peers.pop(n, None)


def a_pause_beside_strangers(lease=4):
    """The process stands still for one and a half leases, while the renewals of good clients wait in their sockets and strangers wait for a place."""
    with seated("a pause beside strangers", lease, at_once=16) as (server, stack):
        strangers = [stack.enter_context(server.connect(source)) for source in STRANGERS]
        for stranger in strangers:
            stranger.sendall(null(1))
        time.sleep(lease)
        with server.stopped():
            time.sleep(1.5 * lease)
        time.sleep(lease)


def twenty_machines():
    """Twenty machines mount at once, beside sixty strangers at as many addresses, each of which says nothing."""
    with seated("twenty machines", goods=20) as (server, stack):
        for n in range(60):
            stack.enter_context(server.connect(f"127.0.3.{n + 1}"))
        time.sleep(12)


def more_than_the_settings_say():
    """A server of four seats: its four clients keep them, while eight strangers stand in the hall and one more comes."""
    with seated("four seats", goods=4, seats=4) as (server, stack):
        for n in range(8):
            stack.enter_context(server.connect(f"127.0.3.{n + 1}"))
        time.sleep(12)


def forty_sessions():
    """A stranger at forty addresses has forty clients with sessions. A new machine that mounts beside them keeps its session."""
    lease = 6
    with seated("forty sessions", lease, 6) as (server, stack):
        many = [stack.enter_context(Peer(server, b"stranger %d" % n, f"127.0.3.{n + 1}")) for n in range(40)]
        late = stack.enter_context(Peer(server, b"late", "127.0.4.1"))
        until = time.monotonic() + 3 * lease
        while time.monotonic() < until:
            for peer in many:
                peer.asks()
            late.asks()
            time.sleep(0.3 * lease)


def one_session_on_many_connections():
    """One session is used on 24 connections, more than there are seats: others keep theirs."""
    with seated("one session on 24 connections", goods=6, at_once=16) as (server, stack):
        first = stack.enter_context(Peer(server, b"has many", "127.0.3.1"))
        until, peers = time.monotonic() + 12, {}
        while time.monotonic() < until:
            for n in range(24):
                try:
                    if n not in peers:
                        peers[n] = stack.enter_context(Peer(server, source="127.0.3.1"))
                    peers[n].stream.settimeout(0.05)
                    peers[n].session, peers[n].numbers = first.session, first.numbers
                    peers[n].asks()
                except (OSError, ValueError, Wrong):
                    # (a call that was not heard is made again under its number)
                    first.numbers[0] -= 1
                    if gone := peers.pop(n, None):
                        gone.stream.close()


def many_newcomers(seats=64, silent=0, most=0.3):
    """900 newcomers a second, of two hundred addresses, each of which says NULL and stays for a while, beside good clients and strangers that are
    silent. A new machine that mounts beside them is served, and the server takes so many milliseconds of a processor for each at most."""
    name, stay = f"many newcomers at {seats} seats", 32
    with seated(name, seats=seats) as (server, stack):
        for n in range(silent):
            stack.enter_context(server.connect(f"127.0.5.{n % 200 + 1}"))
        begun, before, came = time.monotonic(), server.seconds(), []

        def comes():
            for n in range(len(came), int(900 * (time.monotonic() - begun))):
                with contextlib.suppress(OSError):
                    came.append(socket.create_connection((HERE, server.port), 1, (f"127.0.5.{n % 200 + 1}", 0)))
                    came[-1].sendall(null(1))
                    if len(came) > stay:
                        came[-stay - 1].close()

        with repeated(comes, 0.005):
            time.sleep(4)
            each = 1e3 * (server.seconds() - before) / len(came)
            late = stack.enter_context(Peer(server, b"late", "127.0.4.1"))
            took, rate = time.monotonic() - begun - 4, len(came) / (time.monotonic() - begun)
            print(f"{name}: {rate:.0f} a second came, each took {each:.2f} ms of a processor; a new machine was mounted beside them in {took:.1f} s")
            judge(f"{name}: a newcomer takes at most {most} ms", 0 < each <= most, each)
            judge(f"{name}: a new machine is mounted beside them", took < 10, took)
            for _ in range(8):
                late.asks()
                time.sleep(1)
        for stranger in came[-stay:]:
            stranger.close()


def newcomers_beside_many():
    """The same where there are as many seats as may be, and as many strangers: a pass over them for each would cost more."""
    many_newcomers(1_024, 1_024, 0.5)


def one_client_on_all_seats(connections=1_022, share=0.25):
    """One client has a connection on each of 1,024 seats but those of the good ones, and further ones in the hall, while a stranger comes and goes: what
    the server does for them takes this share of a processor at most."""
    name = "one client on all seats"
    with seated(name, seats=1_024) as (server, stack):
        first = stack.enter_context(Peer(server, b"has all", "127.0.3.1"))
        for _ in range(connections):
            peer = stack.enter_context(Peer(server, source="127.0.3.1"))
            peer.session, peer.numbers = first.session, first.numbers
            peer.asks()

        def comes():
            server.connect("127.0.5.1").close()

        with repeated(comes, 0.005):
            time.sleep(1)
            begun, before = time.monotonic(), server.seconds()
            time.sleep(3)
            took = (server.seconds() - before) / (time.monotonic() - begun)
        print(f"{name}: {took:.2f} of a processor")
        judge(f"{name}: that takes at most {share} of a processor", took <= share, took)


def a_dead_connection(lease=4):
    """Three clients' connections die without a word, each at another moment of its lease, while all seats are taken and strangers stand in the hall: on
    its next one each is answered at once, and keeps its session."""
    name, whens = f"a dead connection, leases of {lease} s", (0.3, 0.5, 0.8)
    with seated("a dead connection", lease, 4, seats=7) as (server, stack):
        dead = [stack.enter_context(Peer(server, b"dies %d" % n, f"127.0.3.{n + 1}")) for n in range(len(whens))]
        for n in range(8):
            stack.enter_context(server.connect(f"127.0.1.{n + 1}"))
        begun, took, again = time.monotonic(), [], []
        for peer in dead:
            peer.asks()
        for peer, when in zip(dead, whens):
            time.sleep(max(0, begun + max(1.2, when * lease) - time.monotonic()))
            again.append(stack.enter_context(Peer(server, source=peer.source)))
            again[-1].session, again[-1].numbers, again[-1].id = peer.session, peer.numbers, peer.id
            asked = time.monotonic()
            again[-1].asks()
            took.append(time.monotonic() - asked)
        judge(f"{name}: the next one is answered within a second", max(took) < 1, took)
        for _ in range(3):
            for peer in again:
                peer.asks()
            time.sleep(0.7 * lease)


# What a stranger could do to who has a seat, before there were any, and what happened without one.
ROWS = (strangers_that_say_null, strangers_that_are_silent, strangers_at_their_address, many_calls, a_pause_beside_strangers, long_sweeps, a_dead_connection)


def at_once(**rows):
    """All of these, each on a server of its own."""
    with concurrent.futures.ThreadPoolExecutor(len(rows)) as threads:
        for row in [threads.submit(row) for row in rows.values()]:
            row.result()


def all_rows(lease, **further):
    """All rows at this lease, with what one of them is given further."""
    def plays():
        at_once(**{row.__name__: functools.partial(row, lease, **further.get(row.__name__, {})) for row in ROWS})

    return plays


def leases_of_ten_seconds():
    """The same, with a longer lease."""
    all_rows(10)()


PARTS = (*ROWS, leases_of_ten_seconds, strangers_with_sessions, twenty_machines, more_than_the_settings_say, forty_sessions,
         one_session_on_many_connections, many_newcomers, newcomers_beside_many, one_client_on_all_seats)

# the same with numbers that take minutes
LONG = {"seats for 90 s": all_rows(90, many_calls={"calls": 1_000_000}, long_sweeps={"owners": 100_000})}
