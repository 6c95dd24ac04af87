"""Two results of one operation that have the same status, compared field by field. What is one server's own (identifiers, change, time,
cookies) is compared by what it stands for, and all else by its word."""
import nfs4

from .differences import When
from .reference import T0
from .symbols import State, entries_of, given, is_special
from .twin import moment_of, values_of

SHOWN = {"Type", "Named_Attr"}
ACCESS_BITS = {1: "READ", 2: "LOOKUP", 4: "MODIFY", 8: "EXTEND", 16: "DELETE", 32: "EXECUTE"}
CHANNEL = ("hdr_pad_size", "max_req_size", "max_resp_size", "max_resp_size_cached", "max_ops", "max_reqs")
QUIET_FLAGS = 0x203  # SEQUENCE: the callback path is down, for this session or all, or the back channel is at fault
IDENTITIES = {"Filehandle": "fh", "FileId": "FileId", "Mounted_on_FileId": "FileId", "FSID": "FSID"}
TIMES = {"Time_Access", "Time_Metadata", "Time_Modify"}
SETGID = 0o2000
CUT = "a file was cut on one side"
SET_TIMES = {"Time_Access", "Time_Modify", "Time_Access_Set", "Time_Modify_Set"}


class Cursor:
    """Where a compound is: the reference's current and saved filehandle, and how the object was made that GETFH will name."""

    def __init__(self):
        self.here, self.saved, self.made = None, None, None  # made: marks, type and directory of what was just made


class Results:
    """Compares the results of one step; each difference is told to `differ(what, reference, server, when)`."""

    def __init__(self, play, step, cursor, differ):
        self.play, self.twin, self.step, self.cursor, self.differ = play, play.twin, step, cursor, differ

    def compare(self, op, status, mine, theirs):
        """One operation's fields; both sides have the same status."""
        r, s = dict(mine), dict(theirs)
        self.identifiers(op, mine, theirs)
        if status == "DENIED":
            self.denied(op, r, s)
        elif op.name in ("SETATTR", "OPEN", "CREATE") and "attr_mask" in r:
            self.attributes_set(op, r, s)
        special = getattr(self, op.name.lower() + "_", None)
        if special and status == "OK":
            special(op, r, s, mine, theirs)
        if "changeid_before" in r:
            self.change_info(self.cursor.here, r, s, "atomic", "changeid_before", "changeid_after")
        if status == "OK":
            self.move(op, r)

    # identifiers

    def identifiers(self, op, mine, theirs):
        told = {place: word for place, _, word in given(op.name, theirs)}
        for place, kind, word in given(op.name, mine):
            sym = self.play.symbol_at(op, place, kind, word)
            if place not in told:
                continue
            other = told[place]
            if kind in ("change", "time", "fileid", "cookie"):
                self.twin.values[sym] = word, other
                continue
            self.twin.values.setdefault(sym, (word, other))
            if op.name == "READDIR" or isinstance(place, tuple):
                continue
            fault = self.twin.meet(kind, word, other)
            if fault:
                self.differ(f"identity of {kind}", *fault)
        if op.name != "EXCHANGE_ID":
            self.stateid(op, dict(mine), dict(theirs))

    def stateid(self, op, r, s):
        if "StateID" not in r or "StateID" not in s:
            return
        if op.name == "CLOSE":
            if r["StateID"] != s["StateID"]:
                self.differ("stateid of CLOSE", "the invalid special one", "another")
        elif is_special(s["StateID"]) != is_special(r["StateID"]):
            self.differ("stateid", "one of its own", "a special one")
        elif r["StateID"][:10] != s["StateID"][:10]:
            self.differ("seqid of the stateid", int(r["StateID"], 16) >> 96, int(s["StateID"], 16) >> 96)

    # operations

    def access_(self, op, r, s, *_):
        asked = int(op.get("access"), 0)
        mine, theirs = [[int(side[name]) for name in ("supported", "access_rights")] for side in (r, s)]
        for bit, word in ACCESS_BITS.items():
            if (mine[1] ^ theirs[1]) & mine[0] & theirs[0] & bit:
                when = When.MODE_NOT_GIVEN if "default" in self.twin.marks.get(self.cursor.here, "") else When.A_LINK if self.is_link() else None
                self.differ(f"bit {word}", bool(mine[1] & bit), bool(theirs[1] & bit), when)
        if theirs[0] & ~asked or theirs[1] & ~theirs[0]:
            self.differ("bits not asked for", 0, theirs[0] & ~asked | theirs[1] & ~theirs[0])
        if mine[0] & ~theirs[0] & 0x3f:
            self.differ("bits supported", mine[0], theirs[0])

    def is_link(self):
        """Is the current object a symbolic link?"""
        return (self.twin.kinds.get(self.cursor.here) or self.play.looks.attribute_of(self.cursor.here, "Type")) == "5"

    def read_(self, op, r, s, *_):
        mine, theirs = nfs4.meant(r["data"]), nfs4.meant(s["data"])
        if mine != theirs:
            short = mine.startswith(theirs) and theirs and s["eof"] == "0"
            self.differ("fewer bytes" if short else "data", shown(r["data"]), shown(s["data"]))
        elif r["eof"] != s["eof"]:
            self.differ("eof" if int(op.get("count", "0"), 0) else "eof of no bytes", r["eof"], s["eof"])

    def write_(self, op, r, s, *_):
        if r["count"] != s["count"]:
            more = int(s["count"]) > int(r["count"])
            self.differ("more bytes" if more else "fewer bytes", "those given", "more" if more else "fewer")
        if int(s["committed"]) < int(op.get("stable", "0"), 0):
            self.differ("committed", f"at least {op.get('stable')}", s["committed"])
        self.verifier(s)

    def commit_(self, op, r, s, *_):
        self.verifier(s)

    def verifier(self, s):
        if self.twin.written and self.twin.written[0] != s["verifier"]:
            self.differ("verifier of writes", "as before", "another")
        self.twin.written[:] = [s["verifier"]]

    def readlink_(self, op, r, s, *_):
        if r["linkdata"] != s["linkdata"]:
            self.differ("text", shown(r["linkdata"]), shown(s["linkdata"]))

    def getattr_(self, op, r, s, *_):
        self.attributes(r["attrs"], s["attrs"], op.get("attr_mask", "-"), self.cursor.here)

    def getfh_(self, op, r, s, *_):
        if self.cursor.made:
            self.made(r["FileHandle"])

    def made(self, handle):
        """An object is new: how it was made, its type, and where."""
        self.twin.marks[handle], self.twin.kinds[handle], self.twin.homes[handle] = self.cursor.made

    def open_(self, op, r, s, *_):
        if s["delegation_type"] in ("1", "2"):
            self.differ("delegation", "none", s["delegation_type"])
        if int(s["result_flags"]) & 2:
            self.differ("flag OPEN4_RESULT_CONFIRM", "never in minor version 1", "set")
        if op.get("claim_type", "0") == "0" or op.get("claim_type") == "4":
            access, deny = int(op.get("share_access", "1"), 0) & 3, int(op.get("share_deny", "0"), 0)
            who = self.play.caller(self.step), op.get("owner")
            old = self.twin.opens.get(r["StateID"][10:], (None, None, 0, 0, None))
            self.twin.opens[r["StateID"][10:]] = (*who, access | old[2], deny | old[3], self.step.uid)

    def close_(self, op, r, s, *_):
        word = op.get("StateID")
        if isinstance(word, State):
            self.twin.opens.pop(self.twin.values[word.other][0], None)

    def rename_(self, op, r, s, *_):
        if r["source_before"] != r["source_after"] and (moved := self.play.looks.handle_of(self.cursor.here, op.get("newname"))):
            self.twin.moved.setdefault(moved, []).append(self.play.moment - 1)
            self.twin.stirred.add(moved)
        self.change_info(self.cursor.saved, r, s, "source_atomic", "source_before", "source_after")
        self.change_info(self.cursor.here, r, s, "target_atomic", "target_before", "target_after")

    def secinfo_no_name_(self, op, r, s, mine, theirs):
        if ("flavor", "1") not in theirs:
            self.differ("flavors", [word for key, word in mine if key == "flavor"], [word for key, word in theirs if key == "flavor"])

    def test_stateid_(self, op, r, s, mine, theirs):
        mine, theirs = ([word for key, word in side if key == "StateID_status"] for side in (mine, theirs))
        if len(mine) != len(theirs):
            self.differ("number of statuses", len(mine), len(theirs))
        for a, b in zip(mine, theirs):
            if a != b:
                self.differ("status of one", *(nfs4.STATUSES.get(int(x), x).removeprefix("NFS4ERR_").replace("NFS4_OK", "OK") for x in (a, b)))

    def exchange_id_(self, op, r, s, *_):
        mine, theirs = int(r["eir_flags"], 0), int(s["eir_flags"], 0)
        if (mine ^ theirs) & 0x80000000:
            self.differ("flag CONFIRMED", mine >> 31, theirs >> 31)
        if not theirs & 0x70000:
            self.differ("flag of pNFS use", "one of three", "none")
        self.twin.owners[int(r["clientid"], 0)] = op.get("owner")
        self.twin.users.setdefault(op.get("owner"), set()).add(self.step.uid)
        sym = self.play.symbol_at(op, "clientid", "client", r["clientid"])
        first = self.twin.bases.setdefault(sym, (int(r["seqid"]), int(s["seqid"])))
        self.counted(sym, int(r["seqid"]) - first[0], int(s["seqid"]) - first[1])

    def counted(self, client, mine, theirs):
        if mine != theirs:
            when = When.BEHIND_A_REFUSAL if client in self.twin.refused else None
            self.differ("sequence id", f"{mine} behind the first", f"{theirs} behind the first", when)

    def create_session_(self, op, r, s, *_):
        first = self.twin.bases.get(op.get("clientid"), (1, 1))
        self.counted(op.get("clientid"), int(r["seqid"]) - first[0], int(s["seqid"]) - first[1])
        number = op.get("clientid"), op.get("seqid")
        kept, self.twin.created = number in self.twin.created, self.twin.created | {number}
        for word in CHANNEL:
            asked, granted = int((r if kept else dict(op.fields)).get(f"fore_{word}", "0"), 0), int(s[f"fore_{word}"])
            if granted > asked:
                self.differ(f"more than was asked of {word}", asked, granted)
            elif granted < asked:
                self.differ(f"grant of {word}", asked, granted)
        if int(s["csr_flags"], 0) & ~int(op.get("csa_flags", "0"), 0):
            self.differ("flags not asked for", 0, s["csr_flags"])

    def sequence_(self, op, r, s, *_):
        pair = self.twin.values.get(op.get("sessionid"))
        if pair and pair[1] != s["sessionid"]:
            self.differ("session", "that of the call", "another")
        if s["seqid"] != self.play.sequence_id(r["seqid"]):
            self.differ("seqid", "that of the call", "another")
        if s["slot_id"] != r["slot_id"]:
            self.differ("slot_id", "that of the call", "another")
        if int(s["status_flags"]) & ~QUIET_FLAGS:
            self.differ("status flags", "none", hex(int(s["status_flags"])))

    def reclaim_complete_(self, op, r, s, *_):
        if op.get("one_fs", "0") == "0":
            self.twin.ready.add(self.play.caller(self.step))

    # locks

    def denied(self, op, r, s):
        held = all(r[word] == s[word] for word in ("offset", "length", "locktype", "owner")) or self.play.looks.is_held(self.cursor.here, op, s)
        for word in ("offset", "length", "locktype", "owner"):
            if r[word] != s[word]:
                self.differ(f"denied {word}", r[word], s[word], When.HELD if held else None)
                return
        if self.twin.meet("client", f"{int(r['clientid'], 0):#x}", f"{int(s['clientid'], 0):#x}"):
            self.differ("denied clientid", "the holder's", "another")

    # directories

    def readdir_(self, op, r, s, mine, theirs):
        a, b = ({name: (cookie, attrs) for name, cookie, attrs in entries_of(side)} for side in (mine, theirs))
        if len(b) != len(entries_of(theirs)):
            self.differ("a name", "once", "twice")
        asked = self.play.server_word(op, "cookie")
        if int(asked, 0) and any(cookie == asked for cookie, _ in b.values()):
            self.differ("an entry", "behind the cookie", "the cookie's own")
        if any(int(cookie) < 3 for cookie, _ in b.values()):
            self.differ("a cookie", "above 2", "0 to 2")
        for name in (name for name in a if name in b):
            self.entry(op, name, a[name], b[name], s["cookie_verf"])
        self.which(op, a, b, r["eof"], s["eof"])

    def entry(self, op, name, mine, theirs, verifier):
        self.twin.verifiers[self.play.symbol_at(op, ("cookie", name), "cookie", mine[0])] = verifier
        handle = (values_of(mine[1]) or {}).get("Filehandle")
        self.attributes(mine[1], theirs[1], op.get("attr_mask", "-"), handle)

    def which(self, op, a, b, mine, theirs):
        """Which entries there are."""
        if mine == theirs == "1" and op.get("cookie", "0") == "0":
            for name in sorted(set(a) - set(b))[:1]:
                self.differ("an entry", "there", "missing")
            for name in sorted(set(b) - set(a))[:1]:
                self.differ("an entry", "not there", "there")
        elif len(a) != len(b) or mine != theirs:
            if not b and theirs == "0":
                self.differ("no entries and no end", f"{len(a)} entries", "none")
            self.differ("fewer entries" if len(b) <= len(a) else "more entries", len(a), len(b))
        elif set(a) != set(b):
            self.differ("order", len(a), len(b))

    # attributes

    def attributes_set(self, op, r, s):
        mine, theirs = ({word for word in side.get("attr_mask", "-").partition(":")[0].split(",") if word != "-"} for side in (r, s))
        extra = theirs - mine
        if op.name == "OPEN" and int(op.get("create_mode", "0"), 0) >= 2:
            extra -= SET_TIMES  # where a verifier may be kept
        for word in sorted(extra):
            self.differ(f"attribute set {word}", "no", "yes")
        for word in sorted(mine - theirs):
            self.differ(f"attribute set {word}", "yes", "no")
        if op.name == "SETATTR":
            if "Mode" in mine and self.is_link():
                self.twin.modes.add(self.cursor.here)
        elif op.name == "OPEN" and "Size" in extra:
            self.play.outcome.stopped = CUT
        elif op.name == "CREATE" or r.get("changeid_before") != r.get("changeid_after"):
            self.cursor.made = self.how_made(op, mine, theirs), op.get("type", "1"), self.cursor.here
            if next_name(self.step, op) != "GETFH" and self.cursor.made[0] and (handle := self.play.looks.handle_of(self.cursor.here, op.get("name"))):
                self.made(handle)

    @staticmethod
    def how_made(op, mine, theirs):
        """How an object was made: where a verifier may be kept, and what was not given."""
        exclusive = op.name == "OPEN" and int(op.get("create_mode", "0"), 0) >= 2 and theirs & SET_TIMES
        marks = {"exclusive": exclusive, "default": "Mode" not in mine, "group": "Owner_Group" not in mine}
        return " ".join(mark for mark, holds in marks.items() if holds)

    def attributes(self, mine, theirs, asked, handle):
        r, s = values_of(mine), values_of(theirs)
        if r is None or s is None:
            if (r is None) != (s is None):
                self.differ("attributes", "can be read", "cannot be read")
            return
        handle = r.get("Filehandle", handle)
        if "Type" in r and handle:
            self.twin.kinds[handle] = r["Type"]
        if s.get("RDAttr_Error", "0") != r.get("RDAttr_Error", "0"):
            self.differ("attr RDAttr_Error", "none", "an error")
            return
        for name in [*r, *(name for name in s if name not in r)]:
            if name not in s:
                self.differ(f"attr {name} missing", name, "none")
            elif name in r:
                self.attribute(name, r[name], s[name], handle)
            elif name not in asked.split(","):
                self.differ(f"attr {name}", "not asked for", "there")

    def attribute(self, name, mine, theirs, handle):
        if name == "Change":
            if handle:
                self.changed(handle, mine, theirs, "attr Change")
        elif name in TIMES:
            is_exclusive = "exclusive" in self.twin.marks.get(handle, "") and name != "Time_Metadata"
            self.time(f"attr {name}", mine, theirs, handle, When.EXCLUSIVE if is_exclusive else None)
        elif name in IDENTITIES:
            fault = self.twin.meet(IDENTITIES[name], mine, theirs)
            if fault:
                self.differ(f"identity by {name}", *fault)
        elif mine != theirs and not self.same_owner(name, mine, theirs):
            what, when = self.named(name, handle)
            self.differ(what, mine if name in SHOWN else "one value", theirs if name in SHOWN else "another", when)

    def same_owner(self, name, mine, theirs):
        """A name in the place of a number is the same one where it stands for that number alone."""
        owner = nfs4.meant(theirs).partition(b"@")[0]
        return name in ("Owner", "Owner_Group") and not owner.isdigit() and not self.twin.meet(name, mine, owner)

    def named(self, name, handle):
        """The attribute's name, and what the rules have to know of its object."""
        made = self.twin.marks.get(handle) or ""
        if name in ("Size", "NumLinks", "Space_Used") and self.twin.is_directory(handle):
            return f"attr {name} of a directory", None
        if name in ("Mode", "Size") and self.twin.kinds.get(handle) == "5":
            return f"attr {name} of a link", None
        if name == "Mode" and "default" in made or name == "Owner_Group" and "group" in made:
            return f"attr {name}", When.NOT_GIVEN
        if name == "Mode" and self.is_below_setgid(handle):
            return "attr Mode", When.BELOW_SETGID
        return f"attr {name}", None

    def is_below_setgid(self, handle):
        """Does a directory in which it was made, or that one in turn, have the bit that may be handed down?"""
        while handle := self.twin.homes.get(handle):
            if int(self.play.looks.attribute_of(handle, "Mode") or "0", 8) & SETGID:
                return True
        return False

    def time(self, what, mine, theirs, handle, when):
        """The server's time has to lie in the interval of the call that set it, where the reference's names one."""
        at, seconds = moment_of(theirs), int(moment_of(mine))
        window = self.play.windows.get(seconds) if mine.endswith(".000000000") else None
        if window:
            if at > window[1]:
                moved = any(low <= at <= high for low, high in map(self.play.windows.get, self.twin.moved.get(handle, ())))
                self.differ(what, "set by an earlier call", "later", When.MOVED if moved else when)
            elif at < window[0]:
                self.differ(what, "set by a later call", "earlier", When.A_LINKS_MODE if handle in self.twin.modes else when)
        elif seconds == T0 - 1 or T0 <= seconds < T0 + 10**8:
            return
        elif mine != theirs:
            first = min((low for low, _ in self.play.windows.values()), default=0)
            self.differ(what, "a time given", "later" if at >= first - 1 else "another", when)

    # changes

    def change_info(self, handle, r, s, atomic, before, after):
        if s[atomic] == "0":
            self.differ("change info is atomic", 1, 0)
            return
        if (r[before] == r[after]) != (s[before] == s[after]):
            word = {True: "same", False: "changed"}
            self.differ("change info", word[r[before] == r[after]], word[s[before] == s[after]])
        elif handle is not None:
            self.changed(handle, r[before], s[before], "change before")
            self.changed(handle, r[after], s[after], "change after")

    def changed(self, handle, mine, theirs, what):
        known = self.twin.changes.setdefault(handle, {})
        if mine in known:
            if known[mine] != theirs:
                self.differ(what, "as before", "another", When.MOVED if handle in self.twin.stirred else None)
        elif theirs in known.values():
            self.differ(what, "another", "as before", When.A_LINKS_MODE if handle in self.twin.modes else None)
        known[mine] = theirs
        self.twin.stirred.discard(handle)

    # where the compound is

    def move(self, op, r):
        """The reference's current filehandle behind this operation, as far as it is known."""
        c = self.cursor
        if op.name == "PUTFH":
            c.here = self.play.reference_word(op, "FileHandle")
        elif op.name == "GETFH":
            c.here = r["FileHandle"]
        elif op.name == "SAVEFH":
            c.saved = c.here
        elif op.name == "RESTOREFH":
            c.here = c.saved
        elif op.name in ("CREATE", "LOOKUP", "LOOKUPP", "SECINFO_NO_NAME") or op.name == "OPEN" and op.get("claim_type", "0") != "4":
            c.here = None
        elif op.name == "GETATTR":
            c.here = (values_of(r["attrs"]) or {}).get("Filehandle", c.here)
        if op.name not in ("OPEN", "CREATE"):
            c.made = None


def shown(word):
    """Bytes as a finding names them: it is the same for the same bytes, and short."""
    return word if len(word) <= 40 else f"{len(nfs4.meant(word))} bytes from {word[:18]}"


def next_name(step, op):
    """The name of the operation behind one."""
    at = step.ops.index(op) if op in step.ops else len(step.ops)
    return step.ops[at + 1].name if at + 1 < len(step.ops) else ""
