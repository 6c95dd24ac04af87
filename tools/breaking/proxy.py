"""The proxy of tools/faults: connections of clients, each with one of its own to the server; what is said on them; and the faults."""
import asyncio
import collections
import contextlib
import signal
import socket
import threading
import time

import nfs4
from caller import resets

from . import answers
from .plan import OF_ALL

PIECE = 65_536
# The longest record that is looked into: what other servers grant, with room. Behind a longer one a stream is handed on as it comes.
MOST_RECORD = 4 << 20
# How long a reply is kept for the next one to overtake it, and a connection to the server for what a client asked that is cut off.
PATIENCE = 1


class Connection:
    """A client's connection and the one to the server: what goes to either, and the faults that wait for replies."""

    def __init__(self, number, reader, writer):
        self.number, self.reader, self.writer = number, reader, writer
        self.back_reader = self.back = None
        # by xid: the rule, its fault, the call and its number
        self.waiting, self.kept = {}, []
        self.is_cut = False
        whole(writer)

    async def reach(self, server):
        self.back_reader, self.back = await asyncio.open_connection(*server)
        whole(self.back)

    def cut(self):
        """Ends the client's connection by a reset, and not in an orderly way."""
        self.is_cut = True
        with contextlib.suppress(OSError):
            resets(self.writer.get_extra_info("socket"))
        self.writer.transport.abort()

    def close(self):
        for one in (self.writer, self.back):
            if one:
                one.close()


def whole(writer):
    """What is written goes out at once, and `drain` waits for all of it."""
    writer.transport.set_write_buffer_limits(high=0)
    with contextlib.suppress(OSError):
        writer.get_extra_info("socket").setsockopt(socket.IPPROTO_TCP, socket.TCP_NODELAY, 1)


async def pieces(reader):
    """The records of a stream, as (True, record); and behind one that is too long all that comes, as (False, bytes)."""
    records = nfs4.Records(MOST_RECORD)
    while piece := await reader.read(PIECE):
        if records is None:
            yield False, piece
            continue
        for record in records.feed(piece):
            yield True, record
        if records.lost:
            yield False, (nfs4.u32(len(records.whole)) + records.whole if records.whole else b"") + records.kept
            records = None


def readable(record):
    """The call of a record, or nothing if it is none of NFS version 4."""
    try:
        return nfs4.Call(record)
    except nfs4.Unreadable:
        return None


def named(call):
    """A call by what it does: its operations but those that only lead there."""
    if call is None:
        return "a record that is no call of NFS"
    if call.procedure == 0:
        return "NULL"
    leading = {"SEQUENCE", "PUTFH", "PUTROOTFH", "SAVEFH", "RESTOREFH", "GETFH", "GETATTR", "ACCESS"}
    names = [name for name, _ in call.operations]
    return " ".join([name for name in names if name not in leading] or names) or "COMPOUND"


def slot_of(call):
    """The session, slot and number of a call, if SEQUENCE begins it."""
    if call is None or not call.operations or call.operations[0][0] != "SEQUENCE":
        return None
    fields = dict(call.operations[0][1])
    return fields["sessionid"], fields["slot_id"], fields["seqid"]


class Between:
    """Stands between clients and one of `servers`, and does the faults of a plan. `told` takes a line of what it did, `seen` what a client sent
    or was sent: its connection, whether it came from the server, and the bytes; None is the connection's end."""

    def __init__(self, listen, servers, plan, told=lambda line: None, seen=lambda connection, from_server, data: None):
        self.listen, self.servers, self.plan, self.told, self.seen = listen, list(servers), plan, told, seen
        self.begun = time.monotonic()
        self.port = self.opened = self.loop = self.ending = None
        self.server = 0
        self.connections, self.count, self.calls = set(), 0, 0
        self.done = collections.Counter()
        # by session and slot: the number of a call that was answered in part here, with the place and the status
        self.answered = {}

    def seconds(self):
        return time.monotonic() - self.begun

    def tell(self, rule, what, where=""):
        """Says that a fault was done, and counts it."""
        if rule:
            rule.done += 1
        self.done[str(what).partition(" at ")[0]] += 1
        line = f"  [line {rule.line}]" if rule and rule.line else ""
        self.told(f"{self.seconds():9.3f} s  {where}{what}{line}")

    async def run(self, ready=None):
        """Serves until `stop` is called."""
        self.loop, self.ending, self.opened = asyncio.get_running_loop(), asyncio.Event(), asyncio.Event()
        self.loop.set_exception_handler(lambda _, fault: self.told(f"{self.seconds():9.3f} s  {fault.get('exception') or fault['message']!r}"))
        self.opened.set()
        server = await asyncio.start_server(self.accepted, *self.listen, backlog=64)
        self.port = server.sockets[0].getsockname()[1]
        self.begun = time.monotonic()
        timed = [asyncio.ensure_future(self.at_moments(rule)) for rule in self.plan.rules if rule.moments()]
        if ready:
            ready()
        await self.ending.wait()
        server.close()
        for task in timed:
            task.cancel()
        for connection in list(self.connections):
            connection.close()

    async def run_until_stopped(self, name, seconds=None):
        """The same until ctrl-C, SIGTERM, or so many seconds; a line under this name says where it listens."""
        loop = asyncio.get_running_loop()
        for one in (signal.SIGINT, signal.SIGTERM):
            loop.add_signal_handler(one, self.stop)
        if seconds:
            loop.call_later(seconds, self.stop)
        await self.run(lambda: print(f"{name}: listening on {self.listen[0]}:{self.port}", flush=True))

    def stop(self):
        self.ending.set()

    async def at_moments(self, rule):
        """Does a timed fault of all connections, once or again and again."""
        first, apart = rule.moments()
        await asyncio.sleep(first)
        self.to_all(rule, rule.fault)
        while apart:
            await asyncio.sleep(apart)
            self.to_all(rule, rule.fault)

    def to_all(self, rule, fault):
        """A fault of all connections."""
        if fault.what == "stop":
            self.silent_for(fault.seconds)
        elif fault.what == "hand over":
            self.hand_over()
        elif not self.connections:
            return
        else:
            self.cut_all()
        self.tell(rule, fault)

    def cut_all(self):
        for connection in list(self.connections):
            connection.cut()

    def silent_for(self, seconds):
        """Nothing is handed on for so many seconds, and connections stay."""
        self.opened.clear()
        self.loop.call_later(seconds, self.opened.set)

    def hand_over(self, server=None):
        """The next server is the one of all connections from now on, or another that is given."""
        if server:
            self.servers.append(server)
        self.server = len(self.servers) - 1 if server else (self.server + 1) % len(self.servers)
        self.answered = {}
        self.cut_all()

    async def accepted(self, reader, writer):
        """A connection of a client, until either side ends it."""
        self.count += 1
        it = Connection(self.count, reader, writer)
        self.connections.add(it)
        try:
            await self.opened.wait()
            await it.reach(self.servers[self.server])
            sides = [asyncio.ensure_future(side) for side in (self.from_client(it), self.from_server(it))]
            done, _ = await asyncio.wait(sides, return_when=asyncio.FIRST_COMPLETED)
            if it.is_cut and it.waiting and sides[0] in done:
                # what was asked before the cut is run and answered yet, to nobody
                await asyncio.wait([sides[1]], timeout=PATIENCE)
            for side in sides:
                side.cancel()
            await asyncio.gather(*sides, return_exceptions=True)
        except OSError as fault:
            self.told(f"{self.seconds():9.3f} s  connection {it.number}: {fault}")
        finally:
            self.connections.discard(it)
            self.seen(it, False, None)
            it.close()

    async def from_client(self, it):
        with contextlib.suppress(OSError):
            async for is_record, data in pieces(it.reader):
                self.seen(it, False, nfs4.record(data) if is_record else data)
                await self.opened.wait()
                if is_record:
                    await self.call(it, data)
                else:
                    await sent(it.back, data)

    async def from_server(self, it):
        with contextlib.suppress(OSError):
            async for is_record, data in pieces(it.back_reader):
                await self.opened.wait()
                if is_record:
                    await self.reply(it, data)
                else:
                    await self.to_client(it, data)

    async def to_client(self, it, data):
        if not it.is_cut:
            self.seen(it, True, data)
            await sent(it.writer, data)

    async def call(self, it, record):
        """A call goes to the server, unless a fault is done to it; a fault of its reply waits for that."""
        self.calls += 1
        call, number = readable(record), self.calls
        rule, fault = self.plan.fault_for(number, call, self.seconds())
        where = f"connection {it.number}, call {number} ({named(call)}): "
        what = fault.what if fault else ""
        if what in OF_ALL:
            self.to_all(rule, fault)
            await self.opened.wait()
        if what == "cut" or what == "hand over" or it.is_cut:
            return
        if what == "answer" or slot_of(call) and self.again(call):
            await self.answer(it, call, rule, fault, where)
        elif what.endswith("call") or what.startswith("call"):
            self.tell(rule, fault, where)
            await self.fault_of_call(it, record, fault)
        else:
            it.waiting[record[:4]] = rule, fault, where, None
            await sent(it.back, nfs4.record(record))

    async def fault_of_call(self, it, record, fault):
        data = nfs4.record(record)
        if fault.what == "call twice":
            await sent(it.back, data + data)
        elif fault.what == "call held":
            self.loop.call_later(fault.seconds, it.back.write, data)
        elif fault.what == "cut inside call":
            await sent(it.back, data[:min(fault.place or len(data) // 2, len(data) - 1)])
            it.cut()
            it.back.close()
        elif fault.what == "cut before call":
            it.cut()
            it.back.close()
        elif fault.what == "cut after call":
            it.waiting[record[:4]] = None, None, "", None
            await sent(it.back, data)
            it.cut()

    def again(self, call):
        """Whether a call is the repeat of one that was answered in part here: the place and the status."""
        *slot, number = slot_of(call)
        found = self.answered.get(tuple(slot))
        return found[1:] if found and found[0] == number and len(call.places) >= found[1] else None

    async def answer(self, it, call, rule, fault, where):
        """An operation is answered here. The server is asked for those before it, so that its slots stay those of the client."""
        place, status = (fault.place, fault.status) if fault and fault.what == "answer" else self.again(call)
        if fault:
            self.tell(rule, fault, where)
        made = answers.refused(call, place, status)
        if made is not None:
            await self.to_client(it, nfs4.record(made))
            return
        if slot := slot_of(call):
            self.answered[slot[:2]] = (slot[2], place, status)
        it.waiting[call.data[:4]] = None, None, where, (call.operations[place - 1][0], place, status)
        await sent(it.back, nfs4.record(answers.call_before(call, place)))

    async def reply(self, it, record):
        """A reply goes to the client, unless a fault is done to it."""
        rule, fault, where, refusal = it.waiting.pop(record[:4], (None, None, "", None))
        if refusal:
            record = answers.with_refusal(record, *refusal)
        kept, it.kept = it.kept, []
        data = nfs4.record(record)
        if fault is None or fault.what in OF_ALL:
            await self.to_client(it, data)
        elif not it.is_cut:
            self.tell(rule, fault, where)
            await self.fault_of_reply(it, data, fault)
        for one in kept:
            await self.to_client(it, one)
        if it.is_cut and not it.waiting:
            it.back.close()

    async def fault_of_reply(self, it, data, fault):
        what = fault.what
        if what == "reply twice":
            await self.to_client(it, data + data)
        elif what == "reply held":
            self.loop.call_later(fault.seconds, self.to_client_later, it, data)
        elif what == "reply after next":
            it.kept.append(data)
            self.loop.call_later(PATIENCE, self.to_client_kept, it, data)
        elif what == "cut inside reply":
            await self.to_client(it, data[:min(fault.place or len(data) // 2, len(data) - 1)])
            it.cut()
        elif what == "cut after reply":
            await self.to_client(it, data)
            it.cut()
        elif what == "cut before reply":
            it.cut()

    def to_client_later(self, it, data):
        """A reply that was held."""
        if not it.is_cut and not it.writer.is_closing():
            self.seen(it, True, data)
            it.writer.write(data)

    def to_client_kept(self, it, data):
        """A reply that no other came to overtake."""
        if data in it.kept:
            it.kept.remove(data)
            self.to_client_later(it, data)


async def sent(writer, data):
    writer.write(data)
    await writer.drain()


class Running:
    """A proxy that runs beside the caller, in a thread of its own."""

    def __init__(self, *given, **more):
        self.between = Between(*given, **more)
        is_ready, self.fault = threading.Event(), None
        self.thread = threading.Thread(target=self.run, args=(is_ready,), daemon=True)
        self.thread.start()
        is_ready.wait()
        if self.fault:
            raise self.fault

    def run(self, is_ready):
        try:
            asyncio.run(self.between.run(is_ready.set))
        except OSError as fault:
            self.fault = fault
        finally:
            is_ready.set()

    @property
    def port(self):
        return self.between.port

    @property
    def done(self):
        """How often each fault was done."""
        return self.between.done

    def do(self, call, *given):
        """Has the proxy do something that it can do, such as `cut_all`."""
        self.between.loop.call_soon_threadsafe(call, *given)

    def stop(self):
        if self.thread.is_alive():
            self.do(self.between.stop)
        self.thread.join()
