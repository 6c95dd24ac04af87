"""What a maker of scripts knows of the state that its calls have made: clients, sessions, objects, opens and locks, by their symbols."""
from dataclasses import dataclass, field

from .symbols import BASE, State, Sym


@dataclass
class Client:
    sym: Sym
    owner: str
    verifier: str
    user: tuple
    sessions: int = 0     # that CREATE_SESSION made so far: the next has this number
    confirmed: bool = False
    ready: bool = False   # said RECLAIM_COMPLETE


@dataclass
class Session:
    sym: Sym
    client: Client
    slots: int
    used: dict = field(default_factory=dict)  # slot -> the steps that ran on it, by id


@dataclass
class Thing:
    sym: Sym
    kind: str             # dir, file, link
    children: dict = field(default_factory=dict)  # name -> Sym or None
    gone: bool = False    # its last known name was removed


@dataclass
class Held:
    """An open (`under` is None) or a lock state."""
    sym: Sym
    seqid: int
    file: Sym
    client: Client
    owner: str
    access: int = 3
    deny: int = 0
    under: object = None
    ranges: list = field(default_factory=list)


class View:
    """The state, learnt from results."""

    def __init__(self):
        self.clients, self.sessions, self.opens, self.locks = [], [], [], []
        self.ended, self.closed = [], []  # sessions and states that are not there any more
        self.things = {BASE: Thing(BASE, "dir")}
        self.cookies = []     # (directory, cookie's Sym)
        self.values = []      # (object, attribute, Sym) that a GETATTR told

    def of(self, kind, gone=False):
        """The objects of a kind that have a name, or all."""
        return [thing for thing in self.things.values() if thing.kind == kind and (gone or not thing.gone)]

    def files(self):
        return self.of("file")

    def learn(self, step, operations, results, place):
        """`place(op, name)` is the symbol of a place of a reply, or None."""
        self.here, self.saved, self.coming, self.last_open = None, None, None, None
        session = next((s for s in self.sessions if step.sequence and s.sym == step.sequence.get("sessionid")), None)
        if session and results and results[0][1] == "OK":
            session.used.setdefault(int(step.sequence.get("slot_id", "0")), []).append(step.id)
        for op, (name, status, fields) in zip(operations, results):
            if status != "OK":
                self.learn_refusal(op, status, session)
                return
            learn = getattr(self, f"learn_{op.name.lower()}", None)
            if learn:
                learn(op, dict(fields), lambda name, op=op: place(op, name), session)

    # clients

    def learn_refusal(self, op, status, session):
        """Who is not there any more."""
        if op.name == "CREATE_SESSION" and status == "STALE_CLIENTID":
            self.learn_destroy_clientid(op)
        elif op.name == "SEQUENCE" and status == "BADSESSION" and session:
            self.sessions.remove(session)

    def learn_exchange_id(self, op, told, place, _):
        sym = place("clientid")
        if sym is None or any(client.sym == sym for client in self.clients):
            return
        self.clients.append(Client(sym, op.get("owner"), op.get("verifier"), self.user))

    def learn_create_session(self, op, told, place, _):
        client = next((c for c in self.clients if c.sym == op.get("clientid")), None)
        sym = place("sessionid")
        if client is None or sym is None or any(session.sym == sym for session in self.sessions):
            return
        for other in [c for c in self.clients if c.owner == client.owner and c is not client]:
            self.forget(other)
        client.sessions, client.confirmed = client.sessions + 1, True
        self.sessions.append(Session(sym, client, int(told["fore_max_reqs"])))

    def learn_destroy_session(self, op, *_):
        self.ended += [s for s in self.sessions if s.sym == op.get("sessionid")]
        self.sessions = [s for s in self.sessions if s.sym != op.get("sessionid")]

    def learn_destroy_clientid(self, op, *_):
        for client in [c for c in self.clients if c.sym == op.get("clientid")]:
            self.forget(client)

    def forget(self, client):
        """A client goes with all that is its own."""
        self.clients.remove(client)
        self.ended += [s for s in self.sessions if s.client is client]
        self.closed += [held for held in self.opens + self.locks if held.client is client]
        self.sessions = [s for s in self.sessions if s.client is not client]
        self.opens = [o for o in self.opens if o.client is not client]
        self.locks = [lock for lock in self.locks if lock.client is not client]

    def learn_reclaim_complete(self, op, told, place, session):
        if session:
            session.client.ready |= op.get("one_fs", "0") == "0"

    # where a compound is

    def learn_putfh(self, op, *_):
        self.here = op.get("FileHandle") if isinstance(op.get("FileHandle"), Sym) else None

    def learn_savefh(self, *_):
        self.saved = self.here

    def learn_restorefh(self, *_):
        self.here = self.saved

    def learn_lookup(self, op, *_):
        self.coming = None
        parent = self.things.get(self.here)
        self.here = parent and parent.children.get(op.get("name"))

    def learn_lookupp(self, *_):
        self.here = self.coming = None

    def learn_getfh(self, op, told, place, _):
        sym = place("FileHandle")
        if sym is None:
            return
        self.here = sym
        if self.coming:
            kind, parent, name = self.coming
            self.things.setdefault(sym, Thing(sym, kind)).gone = False
            if parent in self.things:
                self.things[parent].children[name] = sym
            if self.last_open:
                self.last_open.file = sym
        self.coming = None

    # names

    def learn_create(self, op, *_):
        self.coming = ("link" if op.get("type") == "5" else "dir"), self.here, op.get("name")
        self.child(op.get("name"), None)
        self.here = None

    def child(self, name, sym, parent=None):
        parent = self.things.get(parent or self.here)
        if parent:
            parent.children[name] = sym

    def learn_link(self, op, *_):
        self.child(op.get("name"), self.saved)

    def learn_remove(self, op, *_):
        parent = self.things.get(self.here)
        thing = self.things.get(parent.children.pop(op.get("name"), None)) if parent else None
        if thing:
            thing.gone = True

    def learn_rename(self, op, *_):
        source = self.things.get(self.saved)
        moved = source.children.pop(op.get("name"), None) if source else None
        self.child(op.get("newname"), moved)

    # opens and locks

    def learn_open(self, op, told, place, session):
        sym = place("StateID")
        if sym is None or session is None:
            return
        by_name = op.get("claim_type", "0") == "0"
        parent, name = self.things.get(self.here), op.get("name")
        file = self.here if not by_name else parent and parent.children.get(name)
        seqid, access, deny = int(told["StateID"][2:10], 16), int(op.get("share_access"), 0) & 3, int(op.get("share_deny", "0"), 0)
        old = next((o for o in self.opens if o.sym == sym), None)
        if old:
            old.seqid, old.access, old.deny = seqid, old.access | access, old.deny | deny
        else:
            self.opens.append(Held(sym, seqid, file, session.client, op.get("owner"), access, deny))
        self.last_open = old or self.opens[-1]
        if by_name:
            self.coming = "file", self.here, name
            self.here = file

    def state(self, op, *tables):
        word = op.get("StateID")
        sym = word.other if isinstance(word, State) else None
        return next((held for table in tables for held in table if held.sym == sym), None)

    def learn_open_downgrade(self, op, told, *_):
        if held := self.state(op, self.opens):
            held.seqid += 1
            held.access, held.deny = int(op.get("share_access"), 0), int(op.get("share_deny"), 0)

    def learn_close(self, op, *_):
        if held := self.state(op, self.opens):
            self.opens.remove(held)
            self.closed.append(held)
            self.locks = [lock for lock in self.locks if lock.under is not held]

    def learn_lock(self, op, told, place, session):
        sym, seqid = place("StateID"), int(told["StateID"][2:10], 16)
        held = next((lock for lock in self.locks if lock.sym == sym), None)
        if held is None and sym is not None and session is not None:
            under = self.state(op, self.opens)
            held = Held(sym, seqid, under.file if under else self.here, session.client, op.get("owner", "0x"), under=under)
            self.locks.append(held)
        if held:
            held.seqid = seqid
            held.ranges.append((int(op.get("offset"), 0), int(op.get("length"), 0)))

    def learn_locku(self, op, *_):
        if held := self.state(op, self.locks):
            held.seqid += 1

    def learn_free_stateid(self, op, *_):
        if held := self.state(op, self.locks):
            self.locks.remove(held)

    # what replies tell

    def learn_getattr(self, op, told, place, _):
        for name in ("Change", "FileId", "Filehandle", "Time_Modify"):
            sym = place((name,))
            if sym is not None and self.here is not None:
                self.values.append((self.here, name, sym))
