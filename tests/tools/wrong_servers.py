#!/usr/bin/env python3
"""Servers that are wrong: a proxy that changes what goes to a server, or what comes from it, in one way. tools/compare is tried against them.

    tests/tools/wrong_servers.py --list
    tests/tools/wrong_servers.py NAME HOST:PORT [--listen PORT]

The first line that the second form prints is the port on which the wrong server listens, a free one by itself."""
import socket
import sys
import threading
from pathlib import Path

sys.dont_write_bytecode = True
sys.path.insert(0, str(Path(__file__).resolve().parents[2] / "tools"))
import nfs4  # noqa: E402
from caller import Cut, Stream  # noqa: E402
from program import connected  # noqa: E402
from words import Words  # noqa: E402

ALL_ONES = 2**64 - 1
WRONG = {}


class Wrong:
    """A way to be wrong: it may change a call before the server sees it, a reply before the client does, and the reply's bytes."""

    def __init__(self):
        self.kept = {}

    def call(self, call):
        """Changes `call` in place."""

    def reply(self, call, results):
        """Changes the list of [operation, status, fields] in place; `call` is as it came from the client."""

    def finish(self, call, reply):
        """The reply's bytes."""
        return reply

    def answer(self, call):
        """A reply without the server's, or None."""


def wrong(name, what):
    """Adds a class to the table."""
    def add(kind):
        WRONG[name] = what, kind
        return kind
    return add


def made(name, what, **ways):
    """Adds a row whose class has these methods."""
    WRONG[name] = what, type("Made", (Wrong,), ways)


def in_calls(name, what, operations, change):
    """A row that changes the fields (a dictionary) of some operations of calls."""
    def call(self, call):
        for at, (op, fields) in enumerate(call.operations):
            if op in operations:
                call.operations[at] = op, changed(fields, change)
    made(name, what, call=call)


def in_results(name, what, operations, change, statuses=("NFS4_OK",)):
    """One that changes some results, each a list of operation, status and fields."""
    def reply(self, call, results):
        for result in results:
            if result[0] in operations and result[1] in statuses:
                change(result)
    made(name, what, reply=reply)


def in_replies(name, what, operations, change, statuses=("NFS4_OK",)):
    """One that changes the fields of some results."""
    in_results(name, what, operations, lambda result: result.append(changed(result.pop(), change)), statuses)


def statuses(name, what, operations, old, new):
    """One that answers another status."""
    def change(result):
        result[1:] = new, result[2] if result[0] == "SETATTR" else []
    in_results(name, what, operations, change, (old,))


def attributes(name, what, operations, attribute, change):
    """One that changes an attribute in replies."""
    in_results(name, what, operations, lambda result: result.append(
        [(key, in_word(word, attribute, change) if key == "attrs" else word) for key, word in result.pop()]))


def listing(name, what, change):
    """One that changes the list of the entries of READDIR, each its fields."""
    def in_fields(result):
        fields, starts = result[2], [i for i, (key, _) in enumerate(result[2]) if key == "cookie"]
        entries = change([fields[i - 1:i + 3] for i in starts])
        result[2] = [fields[0], *(field for entry in entries for field in entry), ("value_follows", "0"), fields[-1]]
    in_results(name, what, {"READDIR"}, in_fields)


def instead(name, what, operation, other, result):
    """One that runs another operation in the place of one, and answers as if it had run the first."""
    def call(self, call):
        call.operations[:] = [other if op[0] == operation else op for op in call.operations]

    def reply(self, call, results):
        for at, (name, _) in enumerate(call.operations[:len(results)]):
            if name == operation:
                good = results[at][1] == "NFS4_OK"
                results[at] = [operation, results[at][1], result if good else []]
    made(name, what, call=call, reply=reply)


def changed(fields, change):
    """The fields after `change(words)` has changed a dictionary of them."""
    words = dict(fields)
    change(words)
    return [(key, words[key]) if [k for k, _ in fields].count(key) == 1 else (key, word) for key, word in fields if key in words]


def in_word(word, attribute, change):
    values = nfs4.values_of(word)
    return word if values is None else nfs4.word_of([(key, change(value) if key == attribute else value) for key, value in values])


def put(**words):
    """A change that sets fields."""
    def change(fields):
        fields.update({key: word for key, word in words.items() if key in fields})
    return change


def add(key, number, least=0, most=2**63):
    """A change that adds to a number within bounds."""
    def change(fields):
        if key in fields and least <= int(fields[key], 0) <= most:
            fields[key] = str(int(fields[key], 0) + number)
    return change


def bits(key, without):
    def change(fields):
        fields[key] = str(int(fields[key], 0) & ~without)
    return change


def cut(key):
    """A change that takes the last byte of an opaque."""
    def change(fields):
        fields[key] = nfs4.shown(nfs4.meant(fields[key])[:-1])
    return change


def seqid(number):
    def change(fields):
        if "StateID" in fields and fields["StateID"][10:] not in ("0" * 24, "f" * 24):
            fields["StateID"] = f"0x{number:08x}{fields['StateID'][10:]}"
    return change


# What goes to the server.
in_calls("no deny", "OPEN denies nothing to others", {"OPEN"}, put(share_deny="0"))
in_calls("lock short", "LOCK takes one byte too few at its end", {"LOCK"}, add("length", -1, 2))
in_calls("lock long", "LOCK takes one byte too many at its end", {"LOCK"}, add("length", 1))
in_calls("unlock short", "LOCKU leaves the last byte", {"LOCKU"}, add("length", -1, 2))
in_calls("unlock long", "LOCKU takes one byte too many", {"LOCKU"}, add("length", 1))
in_calls("lock late", "LOCK begins a byte too late", {"LOCK"}, add("offset", 1))
in_calls("read locks are write locks", "LOCK for reading locks for writing", {"LOCK"}, lambda f: f.update(locktype={"1": "2", "3": "4"}.get(f["locktype"], f["locktype"])))
in_calls("lockt asks for writing", "LOCKT for reading asks as for writing", {"LOCKT"}, put(locktype="2"))
in_calls("write late", "WRITE puts its bytes one later", {"WRITE"}, add("offset", 1, 0, 2**40))
in_calls("old stateids", "READ and WRITE take stateids of any seqid", {"READ", "WRITE"}, seqid(0))
in_calls("guarded is unchecked", "a guarded create of what is there succeeds", {"OPEN"}, lambda f: f.update(create_mode="0") if f.get("create_mode") == "1" else None)
in_calls("umask", "CREATE and OPEN take bits from the mode given", {"CREATE", "OPEN"},
         lambda f: f.update(attrs=in_word(f["attrs"], "Mode", lambda mode: f"0{int(mode, 8) & ~0o022:o}")) if "attrs" in f else None)
in_calls("readdir begins anew", "READDIR does not look at the cookie", {"READDIR"}, put(cookie="0"))
in_calls("names without case", "names differ by case no more", {"LOOKUP", "CREATE", "OPEN", "REMOVE"},
         lambda f: f.update(name=nfs4.shown(nfs4.meant(f["name"]).lower())) if "name" in f else None)
in_calls("one verifier", "EXCHANGE_ID does not see that a client began anew", {"EXCHANGE_ID"}, put(verifier="0x0000000000000007"))
in_calls("anonymous passes", "READ by the anonymous stateid passes share reservations", {"READ"},
         lambda f: f.update(StateID="0x" + "f" * 32) if f["StateID"] == "0x" + "0" * 32 else None)
in_calls("one lock owner", "all lock owners are one", {"LOCK"}, lambda f: f.update(owner="one") if "owner" in f else None)
in_calls("one open owner", "all open owners of a client are one", {"OPEN"}, put(owner="one"))
in_calls("access for all", "OPEN gives reading and writing whatever is asked", {"OPEN"}, put(share_access="3"))
in_calls("no exclusive verifier", "an exclusive create is any other", {"OPEN"}, lambda f: f.update(verifier="0x0000000000000009") if "verifier" in f else None)
instead("close stays", "CLOSE closes nothing", "CLOSE", ("GETFH", []), [("StateID", "0xffffffff" + "0" * 24)])
instead("remove stays", "REMOVE removes nothing", "REMOVE", ("GETFH", []), [("atomic", "1"), ("changeid_before", "3"), ("changeid_after", "4")])
instead("no lookupp", "LOOKUPP stays in the directory", "LOOKUPP", ("GETFH", []), [])
instead("no restorefh", "RESTOREFH does nothing", "RESTOREFH", ("GETFH", []), [])
instead("no savefh", "SAVEFH does nothing", "SAVEFH", ("GETFH", []), [])
instead("verify passes", "VERIFY always passes", "VERIFY", ("GETFH", []), [])


made("everybody is root", "the caller's uid is not looked at", call=lambda self, call: setattr(call, "uid", 0))
made("groups do not count", "the groups of the credential beside its own do not count", call=lambda self, call: setattr(call, "gids", []))


@wrong("size is not set", "SETATTR of a size does nothing, and says that it did")
class NoSize(Wrong):
    def call(self, call):
        for at, (name, fields) in enumerate(call.operations):
            if name == "SETATTR" and "Size:" in dict(fields)["attrs"]:
                call.operations[at] = name, changed(fields, put(attrs="{}"))

    def reply(self, call, results):
        for (name, fields), result in zip(call.operations, results):
            if name == "SETATTR" and result[1] == "NFS4_OK" and "Size:" in dict(fields)["attrs"]:
                result[2] = [("attr_mask", ",".join(key for key, _ in nfs4.values_of(dict(fields)["attrs"])))]


@wrong("write loses its last byte", "WRITE drops a byte, and counts it")
class LastByte(Wrong):
    def call(self, call):
        for at, (name, fields) in enumerate(call.operations):
            if name == "WRITE" and len(nfs4.meant(dict(fields)["data"])) > 1:
                call.operations[at] = name, changed(fields, cut("data"))

    def reply(self, call, results):
        for (name, fields), result in zip(call.operations, results):
            if name == "WRITE" and result[1] == "NFS4_OK":
                result[2] = changed(result[2], put(count=str(len(nfs4.meant(dict(fields)["data"])))))


class Slots(Wrong):
    """Wrong about slots: it numbers the calls of each slot anew."""

    def slot(self, call):
        if call.operations and call.operations[0][0] == "SEQUENCE":
            fields = dict(call.operations[0][1])
            return fields["sessionid"], fields["slot_id"], int(fields["seqid"])
        return None

    def renumber(self, call, number):
        call.operations[0] = "SEQUENCE", changed(call.operations[0][1], put(seqid=str(number)))

    def reply(self, call, results):
        told = self.slot(call)
        if told and results and results[0][1] == "NFS4_OK":
            results[0][2] = changed(results[0][2], put(seqid=str(told[2])))


@wrong("repeats run again", "a call that is repeated is run a second time")
class Again(Slots):
    def call(self, call):
        if told := self.slot(call):
            last, ran = self.kept.get(told[:2], (0, 0))
            if told[2] in (last, last + 1) and told[2]:
                ran += 1
                self.kept[told[:2]] = told[2], ran
                self.renumber(call, ran)


@wrong("any number will do", "SEQUENCE takes each number that is not the last one")
class AnyNumber(Slots):
    def call(self, call):
        if told := self.slot(call):
            last, ran = self.kept.get(told[:2], (0, 0))
            ran += told[2] != last
            self.kept[told[:2]] = told[2], ran
            self.renumber(call, ran)


@wrong("repeat of the one before", "a repeat is answered with the reply that the slot kept before")
class Before(Slots):
    def reply(self, call, results):
        told = self.slot(call)
        if told and results and results[0][1] == "NFS4_OK":
            number, newer, older = self.kept.get(told[:2], (0, None, None))
            if told[2] == number:
                results[:] = older or newer
            else:
                self.kept[told[:2]] = told[2], [list(result) for result in results], newer


@wrong("kept reply is cut", "a repeat is answered without its last result")
class CutKept(Slots):
    def reply(self, call, results):
        told = self.slot(call)
        if told and len(results) > 1 and self.kept.get(told[:2]) == told[2]:
            del results[-1]
        elif told:
            self.kept[told[:2]] = told[2]


in_calls("one slot for all", "the numbers of all slots of a session are one", {"SEQUENCE"}, put(slot_id="0"))


@wrong("destroy_session stays", "DESTROY_SESSION answers, and the session lives on")
class Stays(Wrong):
    def answer(self, call):
        if [name for name, _ in call.operations] == ["DESTROY_SESSION"]:
            return nfs4.write_reply(call.xid, "NFS4_OK", call.tag, [nfs4.write_result("DESTROY_SESSION", "NFS4_OK", [])])
        return None


@wrong("two sessions of one call", "CREATE_SESSION that is repeated makes another session")
class Twice(Wrong):
    def call(self, call):
        if call.operations and call.operations[0][0] == "CREATE_SESSION":
            fields = dict(call.operations[0][1])
            number, client = int(fields["seqid"]), fields["clientid"]
            last, more = self.kept.get(client, (None, 0))
            more += last == number
            self.kept[client] = number, more
            call.operations[0] = "CREATE_SESSION", changed(call.operations[0][1], put(seqid=str(number + more)))


# What comes from the server.
in_replies("no end", "READ never tells the end", {"READ"}, put(eof="0"))
in_replies("always the end", "READ always tells the end", {"READ"}, put(eof="1"))
in_replies("read loses a byte", "READ drops its last byte", {"READ"}, cut("data"))
in_replies("not confirmed", "EXCHANGE_ID never says that a client is confirmed", {"EXCHANGE_ID"},
           lambda f: f.update(eir_flags=hex(int(f["eir_flags"], 0) & 0x7fffffff)))
in_replies("seqid stays", "the seqid of a stateid stays 1", {"OPEN", "LOCK", "LOCKU", "OPEN_DOWNGRADE"}, seqid(1))
in_replies("no change told", "change info has one number twice", {"CREATE", "REMOVE", "LINK", "OPEN"}, lambda f: f.update(changeid_after=f["changeid_before"]))
in_replies("change of rename", "RENAME tells the target's change of the source too", {"RENAME"}, lambda f: f.update(source_after=f["source_before"]))
in_replies("another holder", "LOCK and LOCKT name another owner of the lock in the way", {"LOCK", "LOCKT"}, put(owner="nobody"), ("NFS4ERR_DENIED",))
in_replies("holder begins late", "LOCK and LOCKT tell a lock that begins a byte later", {"LOCK", "LOCKT"}, add("offset", 1, 0, 2**62), ("NFS4ERR_DENIED",))
in_replies("holder is longer", "LOCK and LOCKT tell a lock that is a byte longer", {"LOCK", "LOCKT"}, add("length", 1), ("NFS4ERR_DENIED",))
in_replies("no reading", "ACCESS never grants reading", {"ACCESS"}, bits("access_rights", 1))
in_replies("no cookie", "READDIR gives the cookie 0", {"READDIR"}, put(cookie="0"))
in_replies("link is cut", "READLINK drops the last byte", {"READLINK"}, cut("linkdata"))
in_replies("one more written", "WRITE counts a byte too many", {"WRITE"}, add("count", 1))
in_replies("not committed", "WRITE says that nothing is stable", {"WRITE"}, put(committed="0"))
in_replies("another slot", "SEQUENCE names another slot", {"SEQUENCE"}, add("slot_id", 1))
in_replies("state revoked", "SEQUENCE says that state was revoked", {"SEQUENCE"}, put(status_flags="8"))
in_replies("nothing set", "SETATTR says that nothing was set", {"SETATTR"}, put(attr_mask="-"))
in_replies("more slots", "CREATE_SESSION grants a slot more than was asked for", {"CREATE_SESSION"}, add("fore_max_reqs", 1))
in_replies("wrong number of session", "CREATE_SESSION names another sequence id", {"CREATE_SESSION"}, add("seqid", 1))
in_replies("open to be confirmed", "OPEN wants OPEN_CONFIRM", {"OPEN"}, lambda f: f.update(result_flags=str(int(f["result_flags"]) | 2)))
attributes("size one more", "the size of an object is told one too high", {"GETATTR"}, "Size", lambda word: str(int(word) + 1))
attributes("one link", "each object has one name", {"GETATTR", "READDIR"}, "NumLinks", lambda word: "1")
attributes("nine bits", "the mode has nine bits", {"GETATTR"}, "Mode", lambda word: f"0{int(word, 8) & 0o777:o}")
attributes("all is root's", "each object is root's", {"GETATTR"}, "Owner", lambda word: "0")
attributes("one fileid", "all objects have one number", {"GETATTR", "READDIR"}, "FileId", lambda word: "5")
attributes("change stays", "the change attribute stays", {"GETATTR", "READDIR"}, "Change", lambda word: "1")
attributes("old times", "the time of the last change is long ago", {"GETATTR"}, "Time_Metadata", lambda word: "1000.000000000")
attributes("early times", "the time of a modification is two seconds early", {"GETATTR"}, "Time_Modify",
           lambda word: f"{int(word.split('.')[0]) - 2}.{word.split('.')[1]}")
statuses("noent is access", "LOOKUP of what is not there is a matter of rights", {"LOOKUP"}, "NFS4ERR_NOENT", "NFS4ERR_ACCESS")
statuses("exist is notempty", "CREATE of what is there answers NOTEMPTY", {"CREATE"}, "NFS4ERR_EXIST", "NFS4ERR_NOTEMPTY")
statuses("notempty is inval", "REMOVE of a directory with entries answers INVAL", {"REMOVE"}, "NFS4ERR_NOTEMPTY", "NFS4ERR_INVAL")
statuses("illegal is notsupp", "an unknown operation is not supported", {"ILLEGAL"}, "NFS4ERR_OP_ILLEGAL", "NFS4ERR_NOTSUPP")
statuses("no filehandle is bad", "no current filehandle is a bad one", {"GETFH", "GETATTR"}, "NFS4ERR_NOFILEHANDLE", "NFS4ERR_BADHANDLE")
statuses("locks are free", "FREE_STATEID of a lock that is held succeeds", {"FREE_STATEID"}, "NFS4ERR_LOCKS_HELD", "NFS4_OK")
statuses("complete again", "RECLAIM_COMPLETE succeeds twice", {"RECLAIM_COMPLETE"}, "NFS4ERR_COMPLETE_ALREADY", "NFS4_OK")
statuses("busy clients go", "DESTROY_CLIENTID of a client with sessions answers that it went", {"DESTROY_CLIENTID"}, "NFS4ERR_CLIENTID_BUSY", "NFS4_OK")
statuses("same is not same", "NVERIFY of equal attributes passes", {"NVERIFY"}, "NFS4ERR_SAME", "NFS4_OK")
statuses("lockt sees nothing", "LOCKT sees no lock", {"LOCKT"}, "NFS4ERR_DENIED", "NFS4_OK")
statuses("bad session is stale", "an unknown session is an unknown client", {"SEQUENCE"}, "NFS4ERR_BADSESSION", "NFS4ERR_STALE_CLIENTID")
statuses("no such slot is misordered", "a slot that is not there is misordered", {"SEQUENCE"}, "NFS4ERR_BADSLOT", "NFS4ERR_SEQ_MISORDERED")
in_results("test_stateid knows all", "TEST_STATEID finds each stateid good", {"TEST_STATEID"}, lambda result: result.append(
    [(key, "0" if key == "StateID_status" else word) for key, word in result.pop()]))
listing("readdir loses the last", "READDIR leaves the last entry out", lambda entries: entries[:-1])
listing("readdir twice", "READDIR gives the first entry twice", lambda entries: entries[:1] + entries)
listing("readdir without attributes", "READDIR gives no attributes",
        lambda entries: [[(key, "{}" if key == "attrs" else word) for key, word in entry] for entry in entries])


@wrong("another verifier", "each WRITE has another verifier")
class Verifiers(Wrong):
    def reply(self, call, results):
        for result in results:
            if result[0] == "WRITE" and result[1] == "NFS4_OK":
                self.kept["n"] = self.kept.get("n", 0) + 1
                result[2] = changed(result[2], put(verifier=f"0x{self.kept['n']:016x}"))


@wrong("old memory", "the padding of a tag is not zeros")
class Padding(Wrong):
    def finish(self, call, reply):
        at = 32 + len(call.tag)
        rest = -len(call.tag) % 4
        return reply[:at] + b"\x55" * rest + reply[at + rest:]


made("no tag", "the reply has no tag", call=lambda self, call: setattr(call, "tag", b""))
made("all is well", "the compound's status is NFS4_OK whatever its last result has", finish=lambda self, call, reply: reply[:24] + bytes(4) + reply[28:])
made("a byte behind", "four bytes stand behind the last result", finish=lambda self, call, reply: reply + bytes(4))


class Proxy:
    """The wrong server: it listens, and each of its connections has one to the server behind it."""

    def __init__(self, kind, server, port=0):
        self.way, self.server, self.lock = kind(), server, threading.Lock()
        self.listener = socket.create_server(("127.0.0.1", port))
        self.port = self.listener.getsockname()[1]
        threading.Thread(target=self.listen, daemon=True).start()

    def listen(self):
        while True:
            try:
                peer, _ = self.listener.accept()
            except OSError:
                return
            threading.Thread(target=self.serve, args=(peer,), daemon=True).start()

    def close(self):
        self.listener.close()

    def serve(self, peer):
        with peer, connected(*self.server, timeout=None) as behind:
            peer.setsockopt(socket.IPPROTO_TCP, socket.TCP_NODELAY, 1)
            calls, answers = Stream(peer), Stream(behind)
            while (record := received(calls)) is not None:
                answer = self.answer(record, answers)
                if answer is None:
                    return
                peer.sendall(nfs4.record(answer))

    def answer(self, record, behind):
        try:
            call = nfs4.Call(record)
        except nfs4.Unreadable:
            call = None
        if call is None or call.procedure != 1 or call.flavor != 1:
            return replied(behind, record)
        with self.lock:
            return self.changed(call, behind)

    def changed(self, call, behind):
        if (answer := self.way.answer(call)) is not None:
            return answer
        record = call.data
        if not call.fault:
            asked = nfs4.Call(call.data)
            self.way.call(asked)
            made = [nfs4.write_operation(name, fields) for name, fields in asked.operations]
            record = nfs4.compound(call.xid, made, asked.uid, asked.gid, asked.gids, asked.tag, call.minor)
        reply = replied(behind, record)
        told = reply and nfs4.Reply(reply)
        if not told or told.fault or not hasattr(told, "tag"):
            return reply
        results = [[name, status, list(fields)] for name, status, fields in told.results]
        self.way.reply(call, results)
        return self.way.finish(call, rewritten(call.xid, told, results))


def rewritten(xid, told, results):
    """The reply with these results, up to the first that is not OK."""
    end = next((at + 1 for at, result in enumerate(results) if result[1] != "NFS4_OK"), len(results))
    results = results[:end]
    status = results[-1][1] if results else told.status
    return nfs4.write_reply(xid, status, told.tag, [nfs4.write_result(*result) for result in results])


def replied(stream, record):
    """The reply to a record, or None at the end."""
    stream.source.sendall(nfs4.record(record))
    return received(stream)


def received(stream):
    """The next record, or None at the end."""
    try:
        return stream.next()
    except (OSError, Cut):
        return None


def main():
    options = Words(__doc__)
    options.add_argument("name", nargs="?", metavar="NAME")
    options.add_argument("server", nargs="?", metavar="HOST:PORT")
    options.add_argument("--listen", type=int, default=0, metavar="PORT")
    options.add_argument("--list", action="store_true", help="the ways to be wrong")
    chosen = options.parse_args()
    if chosen.list:
        print("\n".join(f"{name}: {what}" for name, (what, _) in WRONG.items()))
        return
    if chosen.name not in WRONG or not chosen.server:
        options.error("say a NAME of --list, and the server that answers")
    host, _, port = chosen.server.partition(":")
    print(Proxy(WRONG[chosen.name][1], (host, int(port)), chosen.listen).port, flush=True)
    threading.Event().wait()


if __name__ == "__main__":
    main()
