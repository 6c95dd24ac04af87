"""Scripts of `nfs41d replay` in which clients come to hold very many things, in compounds of as many operations as a client may send. What the
server gives out is counted along: clients, sessions, opens with lock states, and objects."""
import measure  # noqa: F401 (it says where the encoder is)
import nfs4
import wire
from caller import SLOTS
from nfs4 import op
from scripts import ROOT, SAVEFH, create, lock, open_file, putfh, session_id, stateid
from wire import open_current

MOST = 62


class Script(wire.Script):
    """A script, and how much of each kind the server has given out in it."""

    def __init__(self):
        super().__init__()
        self.clients = self.sessions = self.states = 0
        self.objects = 1

    def sends(self, *operations):
        self.bring(nfs4.record(nfs4.compound(1, operations)))

    def sent(self):
        return b"".join(self.script)

    def mark(self):
        """How many bytes there are so far."""
        return sum(map(len, self.script))


class Client:
    """A client of a script, with a session of 16 slots that take turns."""

    def __init__(self, script, owner):
        self.script, self.owner, self.turn = script, owner, 0
        self.exchanges(1)
        self.begins()

    def exchanges(self, verifier):
        """EXCHANGE_ID, which makes a new record."""
        self.script.sends(wire.exchange_id(self.owner, verifier))
        self.script.clients += 1
        self.client, self.number = self.script.clients, 0

    def begins(self):
        """CREATE_SESSION."""
        self.number += 1
        self.script.sends(wire.create_session(self.client, self.number))
        self.script.sessions += 1
        self.session, self.turn = session_id(self.client, self.script.sessions), 0

    def asks(self, *operations):
        """A compound behind a SEQUENCE."""
        number, slot = divmod(self.turn, SLOTS)
        self.turn += 1
        self.script.sends(nfs4.sequence_of(self.session, number + 1, slot, SLOTS - 1), *operations)

    def does(self, begin, steps, most=MOST):
        """All of these operations, so many in a compound, each compound behind those of `begin`."""
        for at in range(0, len(steps), most):
            self.asks(*begin, *steps[at:at + most])

    # what it comes to hold; each returns the number of what came first

    def file(self, name, owner=b"owner"):
        """A file that is made and opened: its number, and that of the open."""
        self.asks(ROOT, open_file(name, owner))
        self.script.objects += 1
        self.script.states += 1
        return self.script.objects, self.script.states

    def opens(self, file, count, name=lambda n: b"%d" % n):
        """So many opens of a file, each of an owner of its own."""
        first = self.script.states + 1
        self.does([putfh(file)], [open_current(name(n)) for n in range(count)], MOST - 1)
        self.script.states += count
        return first

    def locks(self, file, opened, count, name=lambda n: b"%d" % n, begin=0):
        """So many lock owners, who hold every second byte."""
        first = self.script.states + 1
        self.does([putfh(file)], [lock(2 * (begin + n), 1, name(n), stateid(opened)) for n in range(count)])
        self.script.states += count
        return first

    def intervals(self, file, opened, count, kind=1):
        """So many bytes of one lock state, not next to each other, from byte 10 on."""
        self.asks(putfh(file), lock(8, 1, b"locker", stateid(opened)))
        self.script.states += 1
        locked = self.script.states
        self.does([putfh(file)], [wire.lock(kind, 2 * n + 10, 1, stateid(locked)) for n in range(count)])
        return locked

    def directories(self, count, name=lambda n: b"%d" % n):
        """So many directories in the root."""
        first = self.script.objects + 1
        self.does([], [step for n in range(count) for step in (ROOT, create(name(n)))])
        self.script.objects += count
        return first

    def links(self, file, directory, count):
        self.does([putfh(file), SAVEFH, putfh(directory)], [wire.link(b"%d" % n) for n in range(count)], MOST - 3)

    def pages(self, file, opened, count):
        """A byte in each of so many pages of a file, at most 256."""
        self.does([putfh(file)], [op("WRITE", StateID=stateid(opened), offset=4_096 * n, stable=2, data=b"x") for n in range(count)])


def one_file(name=b"file"):
    """A script, a client and a file that it made and opened, with the open."""
    script = Script()
    client = Client(script, b"client")
    return script, client, *client.file(name)
