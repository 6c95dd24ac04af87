"""The server under test: its connections, and the tool's own client of it, which makes a directory for each script."""
import contextlib
import os
import random
import subprocess
import time

import nfs4
from caller import Cut, Stream
from program import connected, waits_for

from .symbols import ANONYMOUS, entries_of

CONTROL, PROBE = 99, 98  # connections that no script has
OLD = {"10018": "RESOURCE"}  # of minor version 0 alone
RESTARTING = 60          # seconds that a server may take to start
CHANNEL = {"max_req_size": "40000", "max_resp_size": "40000", "max_resp_size_cached": "8192", "max_ops": "32", "max_reqs": "1"}


class Silence(Exception):
    """No reply: the connection was closed, or nothing came."""


class Gone(Exception):
    """The server is gone, and nothing starts it anew."""


class Strict(nfs4.Reader):
    """A reader that goes on behind padding that is not zero, and remembers it."""
    dirty = False

    def opaque(self):
        part = self.take(self.number())
        self.dirty |= any(self.take(-len(part) % 4))
        return part


class Answer:
    """A reply as it is compared: `kind` is 'compound' or how the call was refused; `fault` says what cannot be read."""

    def __init__(self, data):
        c = Strict(data)
        self.data, self.results, self.status, self.tag, self.fault, self.dirty = data, [], None, None, None, False
        try:
            self.kind = self.head(c)
            if self.kind == "compound":
                self.status, self.tag = word_of_status(c.number()), nfs4.shown(c.opaque())
                for _ in range(c.number()):
                    self.results.append(self.result(c))
            if c.at != len(data):
                self.fault = "bytes behind the last result"
        except (nfs4.Unreadable, ValueError) as fault:
            self.kind, self.fault = getattr(self, "kind", "unreadable"), str(fault)
        self.dirty = c.dirty

    @staticmethod
    def head(c):
        c.number()
        if c.number() != 1:
            raise nfs4.Unreadable("no reply")
        if c.number():
            return f"denied {c.number()} {c.number()}"
        c.number()
        c.opaque()
        accepted = c.number()
        if accepted == 2:
            c.number(), c.number()
        return f"accepted {accepted}" if accepted or c.at == len(c.data) else "compound"

    @staticmethod
    def result(c):
        name, status, fields = nfs4.read_result(c)
        return name, plain(status), list(fields)


def plain(status):
    """A status's word without its prefix."""
    return "OK" if status == "NFS4_OK" else OLD.get(status, status.removeprefix("NFS4ERR_"))


def word_of_status(number):
    return plain(nfs4.STATUSES.get(number, str(number)))


class Tcp:
    """Calls over TCP, a connection of its own for each number."""

    def __init__(self, host, port, patience=20):
        self.where, self.patience, self.streams = (host, port), patience, {}

    def send(self, conn, record):
        try:
            if conn not in self.streams:
                self.streams[conn] = Stream(connected(*self.where, self.patience))
            self.streams[conn].source.sendall(nfs4.record(record))
        except OSError as fault:
            raise self.closed(conn, fault) from fault

    def receive(self, conn):
        try:
            return self.streams[conn].next()
        except (OSError, KeyError) as fault:
            raise self.closed(conn, fault) from fault
        except Cut as fault:
            raise self.closed(conn, "the connection was closed") from fault

    def call(self, conn, record):
        self.send(conn, record)
        return self.receive(conn)

    def closed(self, conn, fault):
        if conn in self.streams:
            with contextlib.suppress(OSError):
                self.streams.pop(conn).source.close()
        return Silence(getattr(fault, "strerror", None) or str(fault) or "closed")

    def alive(self):
        """Does it answer NULL, twice with a pause between? (A process that dies may still accept.)"""
        null = nfs4.call_head(1, procedure=0)
        try:
            for _ in range(2):
                time.sleep(0.3)
                self.closed(PROBE, "")
                self.call(PROBE, null)
            return True
        except Silence:
            return False

    def forget(self):
        for conn in list(self.streams):
            self.closed(conn, "")


class Client:
    """The tool's own client of a server, over `call(conn, record)`."""

    def __init__(self, call, path=(), nonce=""):
        self.call, self.path, self.nonce = call, path, nonce
        self.xid, self.session, self.number, self.id = 0, None, 0, None
        self.refused = ""  # the last call that `asked` got no success for, and its answer

    def ask(self, operations, uid=0):
        self.xid += 1
        made = [nfs4.write_operation(name, fields) for name, fields in operations]
        return Answer(self.call(CONTROL, nfs4.compound(0x43000000 + self.xid, made, uid)))

    def asked(self, operations, uid=0):
        """The last result's fields where all went well, else None."""
        answer = self.ask(operations, uid)
        if answer.status == "OK" and answer.results:
            return dict(answer.results[-1][2])
        self.refused = f"{operations[-1][0]} is answered by {answer.status or answer.kind}"
        return None

    def in_session(self, operations):
        """The same behind the SEQUENCE of a session of its own."""
        if self.session is None:
            self.open()
        answer = self.ask([self.sequence(), *operations])
        if answer.status in ("BADSESSION", "DEADSESSION"):  # its lease ran out
            self.open()
            answer = self.ask([self.sequence(), *operations])
        return answer

    def sequence(self):
        self.number += 1
        return "SEQUENCE", [("sessionid", self.session), ("seqid", str(self.number))]

    def mounted(self, owner, uid=0):
        """A new session's id and its client's, or None."""
        told = self.asked([("EXCHANGE_ID", [("verifier", "0x" + os.urandom(8).hex()), ("owner", owner)])], uid)
        if told is None:
            return None, None
        channel = [(f"{side}_{word}", value) for side in ("fore", "back") for word, value in CHANNEL.items()]
        made = self.asked([("CREATE_SESSION", [("clientid", told["clientid"]), ("seqid", told["seqid"]), *channel,
                                               ("cb_program", "0x40000000"), ("cb_sec", "1"), ("flavor", "0")])], uid)
        return made and made["sessionid"], told["clientid"]

    def open(self):
        self.session, self.id = self.mounted(f"compare-{self.nonce}")
        if self.session is None:
            raise Gone(f"no session can be made: {self.refused}")
        self.number = 0
        self.in_session([("RECLAIM_COMPLETE", [])])

    @property
    def home(self):
        return [("PUTROOTFH", [])] + [("LOOKUP", [("name", name)]) for name in self.path]

    def base(self, name):
        """A new directory that all may change: its filehandle."""
        mode = [("attrs", "{Mode:0777}")]
        answer = self.in_session([*self.home, ("CREATE", [("type", "2"), ("name", name), *mode]),
                                  ("SETATTR", [("StateID", ANONYMOUS), *mode]), ("GETFH", [])])
        last, status, fields = answer.results[-1] if answer.results else ("the call", answer.status or answer.kind, [])
        if answer.status != "OK" or "FileHandle" not in dict(fields):
            raise Gone(f"no directory can be made where PATH is: {last} is answered by {status}; docs/CLIENTS.md says what the server has to export")
        return dict(fields)["FileHandle"]

    def sweep(self, handle, name=None):
        """What is below a directory is removed as far as that can be, and then itself."""

        for _ in range(50):
            answer = self.in_session([("PUTFH", [("FileHandle", handle)]),
                                      ("READDIR", [("dircount", "8000"), ("maxcount", "8000"), ("attr_mask", "Type,Filehandle")])])
            found = entries_of(answer.results[-1][2]) if answer.status == "OK" else []
            for entry, _, attrs in found:
                values = dict(nfs4.values_of(attrs) or ())
                if values.get("Type") == "2":
                    self.sweep(values["Filehandle"])
                self.in_session([("PUTFH", [("FileHandle", handle)]), ("REMOVE", [("name", entry)])])
            if not found:
                break
        if name:
            self.in_session([*self.home, ("REMOVE", [("name", name)])])

    def leave(self):
        """The tool's own client goes."""
        if self.session:
            self.ask([("DESTROY_SESSION", [("sessionid", self.session)])])
            self.ask([("DESTROY_CLIENTID", [("clientid", self.id)])])

    def end(self, owner, uid):
        """A client that a script made goes, with all its state; answers whether it did."""
        session, client = self.mounted(owner, uid)
        if session:
            self.ask([("DESTROY_SESSION", [("sessionid", session)])], uid)
        if client:
            self.ask([("DESTROY_CLIENTID", [("clientid", client)])], uid)
        return session is not None


class Server:
    """The server under test. Between scripts it keeps what was learnt of it: its clock, its lease, and where it parts from the reference."""

    def __init__(self, transport, path=(), restart=None):
        self.transport, self.path, self.restart = transport, path, restart
        self.nonce, self.serial, self.gone = os.urandom(4).hex(), 0, 0
        self.avoid, self.dice, self.lease = {}, random.Random(1), None
        self.client, self.over = None, False  # over: it is gone, and stays so
        self.alone = set()  # keys of deviations that no order of calls in flight explains

    def control(self):
        """The tool's own client, with its session."""
        if self.client is None:
            client = Client(self.transport.call, self.path, f"{self.nonce}-{self.gone}")
            client.open()
            self.client = client
            told = self.client.in_session([("PUTROOTFH", []), ("GETATTR", [("attr_mask", "Lease_Time")])])
            values = dict(nfs4.values_of(dict(told.results[-1][2])["attrs"]) or ()) if told.status == "OK" else {}
            self.lease = int(values.get("Lease_Time", 90))
        return self.client

    def base(self):
        """A new directory for one script: its name and filehandle."""
        self.serial += 1
        name = f"cmp-{self.nonce}-{self.serial}"
        return name, self.control().base(name)

    def is_gone(self):
        return not self.transport.alive()

    def revive(self):
        """Starts a server anew that is gone, and waits until it answers."""
        self.transport.forget()
        self.client, self.over = None, True
        self.gone += 1
        if self.restart is None:
            raise Gone("the server is gone, and no --restart says how it is started")
        subprocess.run(self.restart, shell=True, stdout=subprocess.DEVNULL, stderr=subprocess.DEVNULL, stdin=subprocess.DEVNULL, check=False)
        if not waits_for(self.transport.alive, RESTARTING):
            raise Gone(f"the server does not answer {RESTARTING} seconds behind --restart")
        self.over = False
