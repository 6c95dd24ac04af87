"""The reference: `nfs41d replay` over all calls so far. A call is taken back by leaving it out, and one is tried by a run that is not
remembered; each of these is a run anew, over all calls. In between one run goes on, and gets a call at a time."""
import os
import select
import shlex
import subprocess
import tempfile

import nfs4
from program import PROGRAM

from .server import Answer, Client

T0 = 1_000_000_000  # the moment of step k is T0 + k, so a time that is read tells the step that set it
LEASE = 86_400
FILLING = 15        # the connection of the calls that fill the program's buffer
FILLERS = 64        # so many replies of more than 1,024 bytes are more than it holds
FILLER = 0xf0000000  # their xid; that of the first of each batch is counted from here


class NoReference(Exception):
    """The program cannot be run, or answers what cannot be read."""


class Reference:
    """The proved machine over a list of calls. It begins with a client of its own, the directory that scripts have for their root, and
    three objects beside it, by which repaired calls are asked."""

    def __init__(self, command=None):
        self.settings = tempfile.NamedTemporaryFile("w", suffix=".toml")
        self.settings.write(f"lease = {LEASE}\ninstance = 7\n")
        self.settings.flush()
        words = shlex.split(command) if command else [str(PROGRAM), "replay"]
        self.command = [*words, "--settings", self.settings.name]
        self.going = None
        self.runs, self.history, self.now = 0, [], T0 - 1
        self.control = Client(lambda conn, record: self.call(record, self.now))
        self.control.open()
        self.base = self.control.base("base")
        self.spare = {"dir": self.control.base("spare"), "file": self.made("OPEN", share_access="3", owner="spare", open_type="1", attrs="{Mode:0777}", name="file"),
                      "link": self.made("CREATE", type="5", linkdata="text", name="link")}
        self.begun = list(self.history), self.control.number, self.control.xid

    def made(self, operation, /, **fields):
        """What an operation makes in the root: its filehandle."""
        made = self.control.in_session([("PUTROOTFH", []), (operation, fields.items()), ("GETFH", [])])
        return dict(made.results[-1][2])["FileHandle"]

    def begin(self):
        """All calls of a script are forgotten."""
        self.history = list(self.begun[0])
        self.control.number, self.control.xid = self.begun[1:]
        self.now = T0 - 1

    def renew(self, moment):
        """The tool's own client renews its lease."""
        self.now = moment
        self.control.in_session([])

    def call(self, record, moment):
        """The reply to a call behind all others, which it joins; None where there is none."""
        if self.going is None or self.going.fed != self.history:
            if self.going:
                self.going.end()
            self.going = Going(self.command)
        self.history.append(entry(record, moment))
        self.runs += 1
        return self.going.ask(self.history, record[:4], moment)

    def ask(self, record, moment, without_last=False):
        """The same of a call that does not join them."""
        return self.run([*(self.history[:-1] if without_last else self.history), entry(record, moment)], record[:4])

    def undo(self):
        """The last call is taken back."""
        self.history.pop()

    def look(self, operations, moment, without_last=False):
        """The results of operations behind all calls, in the tool's own session. They change nothing that stays."""
        c = self.control
        made = [nfs4.write_operation("SEQUENCE", [("sessionid", c.session), ("seqid", str(c.number + 1))])]
        made += [nfs4.write_operation(name, fields) for name, fields in operations]
        return Answer(self.ask(nfs4.compound(0x43ffffff, made), moment, without_last)).results[1:]

    def run(self, entries, xid):
        self.runs += 1
        ran = started(self.command)
        output, error = ran.communicate(b"".join(entries))
        if ran.returncode:
            raise NoReference(f"{self.command[0]} ended with status {ran.returncode}: {error.decode(errors='replace').strip()}")
        *_, (_, last) = [(0, None), *nfs4.replies(output)]
        return last if last and last[:4] == xid else None


def started(command):
    try:
        return subprocess.Popen(command, stdin=subprocess.PIPE, stdout=subprocess.PIPE, stderr=subprocess.PIPE, bufsize=0)
    except OSError as fault:
        raise NoReference(f"{command[0]}: {fault.strerror}") from fault


class Going:
    """A run that goes on. The program keeps replies in a buffer until that is full. So each call is followed by others, on a connection of their
    own, which change nothing (their minor version is one that nobody has) and whose replies fill the buffer."""

    rest = nfs4.record(nfs4.compound(FILLER, [], tag=b"f" * 1024, minor=0xffffffff)) * FILLERS

    def __init__(self, command):
        self.process, self.fed, self.left, self.batch = started(command), [], b"", FILLER
        self.at = 0
        self.taker, self.giver = self.process.stdin.fileno(), self.process.stdout.fileno()
        os.set_blocking(self.taker, False)

    def end(self):
        for pipe in (self.process.stdin, self.process.stdout, self.process.stderr):
            pipe.close()
        self.process.wait()

    def ask(self, entries, xid, moment):
        """The reply to the last entry, whose call has this xid; None where there is none."""
        new, self.fed, self.batch = entries[len(self.fed):], list(entries), self.batch + 1
        filler = nfs4.record(nfs4.compound(self.batch, [], minor=0xffffffff)) + self.rest
        self.write(b"".join(new) + entry_of(filler, moment, FILLING))
        found, mark = None, self.batch.to_bytes(4, "big")
        while (told := self.next())[:4] != mark:
            if told[:4] == xid:
                found = told
        return found

    def write(self, data):
        """Puts the bytes, and takes what comes meanwhile, so that neither side waits for the other."""
        data = memoryview(data)
        try:
            while data:
                readable, writable, _ = select.select([self.giver], [self.taker], [])
                if readable:
                    self.read()
                if writable:
                    data = data[os.write(self.taker, data):]
        except OSError as fault:
            raise NoReference(f"the reference takes no more calls: {fault.strerror}") from fault

    def read(self):
        piece = os.read(self.giver, 1 << 20)
        if not piece:
            raise NoReference(f"the reference ended: {self.process.stderr.read().decode(errors='replace').strip()}")
        self.left, self.at = self.left[self.at:] + piece, 0

    def next(self):
        """The next reply."""
        while True:
            begin, size = self.at + 8, int.from_bytes(self.left[self.at + 4:self.at + 8], "big") & ~nfs4.LAST
            if len(self.left) >= begin and len(self.left) >= begin + size:
                self.at = begin + size
                return self.left[begin:self.at]
            self.read()


def entry(record, moment):
    """The entries of a script that bring a call."""
    return entry_of(nfs4.record(record), moment, 0)


def entry_of(marked, moment, conn):
    return b"".join(nfs4.entry(moment, conn, marked[at:at + nfs4.MOST_PIECE]) for at in range(0, len(marked), nfs4.MOST_PIECE))
