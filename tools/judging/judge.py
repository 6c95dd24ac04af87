"""The judge: takes records as they come, calls and replies, and keeps what each client, session and slot has done by then."""
import collections

import nfs4

from .clients import Client, Session
from .rules import RULES, Finding
from .slots import Sent
from .stateids import Current

# how many bytes of a name or of data are kept as words
CUT = 32
ALONE = ("EXCHANGE_ID", "CREATE_SESSION", "DESTROY_SESSION", "DESTROY_CLIENTID", "BIND_CONN_TO_SESSION")
# fields that choose between things of which a server may have one and not another
CHOICES = ("claim_type", "open_type", "create_mode", "type", "reclaim", "style")
GONE = ("NFS4ERR_BADSESSION", "NFS4ERR_DEADSESSION")
LACKING = ("NFS4ERR_NOTSUPP", "NFS4ERR_OP_ILLEGAL")
CONFIRMED = 0x8000_0000
PREVIOUS = "1"      # CLAIM_PREVIOUS
MOST_FOUND, MOST_XIDS = 1_000, 1 << 20


class Alone:
    """A call that is no compound on a slot."""

    def __init__(self, call, frame, moment):
        self.call, self.frame, self.moment = call, frame, moment


class Connection:
    """What waits on a connection, by xid; the sessions that were used on it; whether bytes of it are lacking."""

    def __init__(self, number):
        self.number, self.waiting, self.sessions = number, collections.defaultdict(list), set()
        self.has_ended = self.has_hole = False


class Judge:
    """Takes records in the order in which the client's side had them: `record`, `ended` and `hole` for a connection, `finish` at the end. A place is the
    number of a frame. `watch` is called with each finding as it comes. What `known` expects is counted beside the findings."""

    def __init__(self, lease=None, watch=None, known=()):
        self.lease, self.told_lease, self.watch, self.known = lease, lease is not None, watch, known
        self.connections, self.sessions, self.clients, self.owners = {}, {}, {}, {}
        self.xids = {}
        # of what the server answered that it does not have: the frame, the status, and whether it was said that it was called again
        self.lacking = {}
        self.found, self.counts, self.broken = [], collections.Counter(), {}
        self.expected = collections.Counter()
        self.seen = collections.Counter()
        self.begun = self.moment = self.place = None
        # what the server calls itself
        self.server = None

    # what comes

    def record(self, moment, connection, to_server, data, place):
        """A whole record, without its mark: a call, or a reply to the client."""
        self.at(moment, place)
        self.seen["connections"] += connection not in self.connections
        link = self.connections.setdefault(connection, Connection(len(self.connections) + 1))
        try:
            if to_server:
                self.call(moment, connection, link, nfs4.Call(data, CUT), place)
            else:
                self.reply(moment, link, nfs4.Reply(data, CUT), place)
        except nfs4.Unreadable:
            self.seen["unreadable"] += 1

    def ended(self, moment, connection, place):
        """The connection has ended."""
        self.at(moment, place)
        if connection in self.connections:
            link = self.connections[connection]
            link.has_ended = True
            link.waiting.clear()

    def hole(self, moment, connection, place, is_beginning=False):
        """Bytes of a connection are lacking here, or what was before."""
        self.at(moment, place)
        self.seen["begun before" if is_beginning else "holes"] += 1
        link = self.connections.setdefault(connection, Connection(len(self.connections) + 1))
        link.has_hole = True
        link.waiting.clear()
        for session in link.sessions:
            self.forget(session, moment, place)
        # (one of them may have made a session here)
        with_session = {session.client for session in self.sessions.values()}
        for client in self.clients.values():
            if client not in with_session:
                client.forget(moment, place)

    def finish(self):
        """The end of what is judged."""
        for session in self.sessions.values():
            for slot in session.slots.values():
                slot.finish()
        for client in self.clients.values():
            links = [link for session in self.sessions.values() if session.client is client for link in session.links]
            client.finish(self.moment, self.place, all(link.has_ended for link in links))
            if self.lease is not None and client.longest and client.longest[0] > self.lease:
                client.say("lease", client.longest[1], f"{client.longest[0]:.1f} s without a renewal, at a lease of {self.lease} s")

    def at(self, moment, place):
        self.begun = moment if self.begun is None else self.begun
        self.moment, self.place = moment, place

    def forget(self, session, moment, place):
        session.forget()
        session.client.forget(moment, place)

    # calls

    def call(self, moment, connection, link, call, place):
        self.seen["calls"] += 1
        first, fields = call.operations[0] if call.operations and call.minor == 1 else (None, [])
        if first == "SEQUENCE":
            self.compound(moment, connection, link, Sent(call, connection, place, moment), place)
            return
        link.waiting[call.xid].append(Alone(call, place, moment))
        if call.minor == 1:
            self.calls_again(call, self.caller(link, call), place)
        if first is None:
            self.seen["not judged"] += call.procedure != 0
            return
        if first == "CREATE_SESSION" and (client := self.clients.get(dict(fields)["clientid"])):
            client.makes_session(dict(fields), place)
        if first not in ALONE:
            self.say("sequence-first", link_name(link), "", (place,), f"{first} comes first")

    def compound(self, moment, connection, link, new, place):
        session = self.session(new.session, link, moment, place)
        client = session.client
        sent = None
        if session.destroyed is not None:
            client.say("wrong-session", (session.destroyed, place), "it was destroyed", f"session {session.name}")
        elif self.is_within(session, new, place):
            self.look_at_xid(new, client, place)
            sent = session.slot(new.slot, client.say).send(new, lambda one: self.connections[one].has_ended)
        link.waiting[new.call.xid].append(sent or Alone(new.call, place, moment))
        client.sends(moment, place)
        if sent is new:
            client.calls += 1
            self.asks(client, new, place)

    def session(self, name, link, moment, place):
        """The session of a compound; one whose beginning is not known has a client of its own."""
        if name not in self.sessions:
            client = self.clients.setdefault(name, Client(f"of session {name}", None, False, self.say))
            self.sessions[name] = Session(name, client)
        session = self.sessions[name]
        session.links.add(link)
        if session not in link.sessions:
            link.sessions.add(session)
            if link.has_hole and session.is_known:
                self.forget(session, moment, place)
        return session

    def is_within(self, session, new, place):
        """Whether the slot is one of the session's."""
        size = session.size
        if size is not None and new.slot < size <= new.highest or new.highest < new.slot:
            text = f"sa_highest_slotid {new.highest} on slot {new.slot}, of {size or 'unknown'} slots"
            session.client.say("slot-beyond", (place,), text, f"session {session.name}")
        if size is not None and new.slot >= size:
            session.client.say("slot-beyond", (place,), f"slot {new.slot} of {size}", f"session {session.name}")
            return False
        return True

    def look_at_xid(self, new, client, place):
        of = new.session, new.slot, new.number
        was, frame = self.xids.setdefault((client.name, new.call.xid), (of, place))
        if was != of:
            client.say("one-xid", (frame, place), f"xid 0x{new.call.xid:08x} is that of number {was[2]} on slot {was[1]}, and of number {of[2]} on slot {of[1]}")
            self.xids[client.name, new.call.xid] = of, place
        if len(self.xids) > MOST_XIDS:
            self.xids.clear()

    def caller(self, link, call):
        """The name of the client of a call that is no compound on a slot, as far as it can be told."""
        fields = dict(call.operations[0][1]) if call.operations else {}
        session = self.sessions.get(fields.get("sessionid")) or next(iter(link.sessions), None)
        return session.client.name if session else fields.get("clientid", f"of connection {link.number}")

    def calls_again(self, call, client, place):
        """A call is sent for the first time: whether the server does not have something of it."""
        for name in asked_of(call):
            first, status, is_told = self.lacking.get((client, name), (None, None, True))
            if not is_told:
                self.say("unsupported", client, "", (first, place), f"{name} is called again, which was answered {status}")
                self.lacking[client, name] = first, status, True

    def asks(self, client, new, place):
        """What the operations of a new compound ask for."""
        self.calls_again(new.call, client.name, place)
        for name, fields in new.call.operations[1:]:
            client.stateids.use(name, fields, place, lambda other: any(other in one.stateids.given for one in self.clients.values()))
            words = dict(fields)
            if name == "RECLAIM_COMPLETE" and words["one_fs"] == "0":
                client.reclaims(place)
            elif name == "OPEN" and words["claim_type"] != PREVIOUS or name == "LOCK" and words["reclaim"] == "0":
                client.locks(place, name)
            elif name == "CREATE_SESSION" and (other := self.clients.get(words["clientid"])):
                other.makes_session(words, place)

    # replies

    def reply(self, moment, link, reply, place):
        self.seen["replies"] += 1
        waiting = link.waiting.get(reply.xid)
        if not waiting:
            self.seen["unmatched"] += 1
            return
        first = reply.results[0] if reply.results else None
        asked = next((one for one in waiting if isinstance(one, Sent) and first and is_answer(one, first)), waiting[-1])
        waiting.remove(asked)
        if not waiting:
            del link.waiting[reply.xid]
        self.lacks(asked, reply.results, link, place)
        if isinstance(asked, Alone):
            self.results(None, asked, reply.results, moment, place)
        elif first is None or first[0] != "SEQUENCE":
            asked.refused = asked.refused if asked.answered else reply.status
        else:
            self.sequenced(asked, reply.results, moment, place)

    def sequenced(self, sent, results, moment, place):
        session = self.sessions[sent.session]
        client = session.client
        is_first = session.slot(sent.slot, client.say).reply(sent, place, results[0])
        if results[0][1] == "NFS4_OK":
            session.is_answered = True
        if is_first:
            client.renews(moment, place, (sent.moment, sent.sendings[0]))
            self.results(client, sent, results[1:], moment, place, 1)
        elif results[0][1] in GONE:
            self.gone(session, client, moment, place)

    def gone(self, session, client, moment, place):
        """The server does not know a session: one that was never given, or one that it has ended."""
        if session.size is None and not session.is_answered:
            client.say("wrong-session", (place,), "no reply gave it", f"session {session.name}")
        elif session.destroyed is None:
            session.is_lost = True
            mine = [one for one in self.sessions.values() if one.client is client]
            if all(one.is_lost or one.destroyed for one in mine):
                client.ends("the server did not know its session any more", moment, place)

    def lacks(self, asked, results, link, place):
        """Notes what the server answers that it does not have, which is at the last result."""
        names = asked_of(asked.call) if asked.call and results and results[-1][1] in LACKING else []
        if names and len(results) <= len(names):
            name = names[len(results) - 1]
            client = self.sessions[asked.session].client.name if isinstance(asked, Sent) else self.caller(link, asked.call)
            self.lacking.setdefault((client, name), (place, results[-1][1], False))
            self.seen["lacking " + name] += 1

    def results(self, client, sent, results, moment, place, first=0):
        """The results of a compound that was answered for the first time, from that of operation `first` on."""
        operations, current = sent.call.operations, Current()
        for at, (name, status, told) in enumerate(results, first):
            asked = operations[at][1] if at < len(operations) and operations[at][0] == name else None
            if status != "NFS4_OK" or asked is None:
                continue
            if client:
                asked = current.meant(asked)
                current.move(name, dict(told))
                client.stateids.answer(name, asked, told, place, sent)
                if name == "RECLAIM_COMPLETE" and dict(asked)["one_fs"] == "0":
                    client.reclaimed = place
            if name in ANSWERS:
                ANSWERS[name](self, dict(asked), dict(told), moment, place)

    def exchanged(self, asked, told, moment, place):
        self.server = told["major_id"]
        name, is_confirmed = told["clientid"], bool(int(told["eir_flags"], 0) & CONFIRMED)
        if name not in self.clients:
            self.clients[name] = Client(name, asked["owner"], not is_confirmed, self.say)
            self.owners.setdefault(asked["owner"], []).append(name)
        if not is_confirmed:
            self.clients[name].number = int(told["seqid"])

    def created(self, asked, told, moment, place):
        name, session = asked["clientid"], told["sessionid"]
        client = self.clients.setdefault(name, Client(name, None, False, self.say))
        self.sessions.setdefault(session, Session(session, client, int(told["fore_max_reqs"])))
        client.made_session(int(asked["seqid"]))
        client.renews(moment, place, None)
        for other in self.owners.get(client.owner, []):
            if other != name:
                self.clients[other].ends("its owner has another client id")

    def destroyed(self, asked, told, moment, place):
        if asked["sessionid"] in self.sessions:
            self.sessions[asked["sessionid"]].destroyed = place

    def destroyed_client(self, asked, told, moment, place):
        if asked["clientid"] in self.clients:
            self.clients[asked["clientid"]].ends("DESTROY_CLIENTID")

    def attributes(self, asked, told, moment, place):
        """The lease is an attribute, 10."""
        if not self.told_lease and told["attrs"].startswith("{"):
            lease = dict(nfs4.values_of(told["attrs"])).get("Lease_Time")
            self.lease = int(lease) if lease else self.lease

    # what is found

    def say(self, rule, client, place, frames, text):
        finding = Finding(rule, client, place, frames, text)
        if RULES[rule].premise_of:
            self.broken.setdefault((rule, client, place), finding)
        if expected := next((it for it in self.known if it.expects(finding)), None):
            self.expected[client, expected] += 1
            return
        self.counts[rule, client] += 1
        if self.counts[rule, client] <= MOST_FOUND:
            self.found.append(finding)
        if self.watch:
            self.watch(finding)


ANSWERS = {"EXCHANGE_ID": Judge.exchanged, "CREATE_SESSION": Judge.created, "DESTROY_SESSION": Judge.destroyed,
           "DESTROY_CLIENTID": Judge.destroyed_client, "GETATTR": Judge.attributes}


def is_answer(sent, result):
    return result[0] == "SEQUENCE" and result[1] == "NFS4_OK" and sent.is_answer(result)


def asked_of(call):
    """What the operations of a call ask a server to have: their names, with what they choose by a field; and the name of one that cannot be read."""
    named = [" ".join([name, *(f"{field}={word}" for field, word in fields if field in CHOICES and word != "0")]) for name, fields in call.operations]
    behind = " after SEQUENCE" if named[:1] == ["SEQUENCE"] else ""
    return [name + behind if name.partition(" ")[0] in ALONE else name for name in [*named, *([call.unread] if call.unread else [])]]


def link_name(link):
    return next((session.client.name for session in link.sessions), "unknown")
