"""In which circumstance two servers answer an operation with different statuses, as far as the tables of `rules` have to know."""
import nfs4

from .differences import When
from .reference import LEASE, T0
from .symbols import ANONYMOUS, BYPASS, State, Turn, compares_a_time

ALONE = {"EXCHANGE_ID", "CREATE_SESSION", "DESTROY_SESSION", "DESTROY_CLIENTID"}


class Circumstances:
    """The circumstances of the calls of a play."""

    def __init__(self, play):
        self.play, self.looks = play, play.looks

    def of(self, sent, op, a, b, cursor):
        """What else the rules have to know of a difference of statuses."""
        step = sent.step
        if b == "RETRY_UNCACHED_REP" and step.again and self.play.sent[step.again].operations[0].get("cache_this", "0") == "0":
            return When.NOT_KEPT
        if b == "SEQ_FALSE_RETRY" and a == "OK" and step.again:
            return When.KEPT
        if op.name == "SEQUENCE" and op.get("seqid") == Turn(0) and not self.play.twin.slots.get((op.get("sessionid"), op.get("slot_id", "0"))):
            return When.UNUSED_SLOT
        if b == "GRACE" and self.play.caller(step) not in self.play.twin.ready:
            return When.BEFORE_RECLAIM_COMPLETE
        if compares_a_time(op):
            return When.A_TIME
        if op.name in ALONE and step.sequence:
            return When.IN_A_SESSION
        if op.name == "CREATE_SESSION" and op.get("clientid") in self.play.twin.refused:
            return When.BEHIND_A_REFUSAL
        if {a, b} & {"BADSESSION", "STALE_CLIENTID"} and len(self.play.twin.users.get(self.play.owner(op), ())) > 1:
            return When.OWNER_IN_DOUBT
        if b in ("BAD_RANGE", "INVAL", "FBIG") and op.name in ("READ", "WRITE", "COMMIT", "LOCK", "LOCKT", "LOCKU") and ends_beyond(op):
            return When.BEYOND
        if self.source_waited() and (a in ("BADSESSION", "STALE_CLIENTID", "BAD_STATEID") or b in ("BADSESSION", "STALE_CLIENTID", "EXPIRED")):
            return When.LEASE_OVER
        return self.of_objects(sent, op, a, b, cursor) or self.of_rights(sent, op, a, b, cursor) or self.of_opens(step, op, a, b)

    def source_waited(self):
        return self.play.moment - T0 > LEASE

    def of_objects(self, sent, op, a, b, cursor):
        if b == "STALE" or a == "OK" and b == "NOENT" or op.name == "LINK" and a == "NOENT":
            handle = self.play.reference_word(op, "FileHandle") if op.name == "PUTFH" else cursor.saved if op.name == "LINK" else cursor.here
            if handle and "0" in (self.looks.told(sent, handle, "NumLinks"), self.looks.told(sent, handle, "NumLinks", False)):
                return When.REMOVED_OPEN
        if op.name in ("VERIFY", "NVERIFY") and cursor.here in self.play.twin.stirred and "Change:" in str(op.get("attrs")):
            return When.MOVED
        if op.name in ("VERIFY", "NVERIFY") and "Size:" in str(op.get("attrs")) and self.looks.told(sent, cursor.here, "Type") != "1":
            return When.SIZE_OF_NO_FILE
        if a == "BADCHAR" and b not in ("NOENT", "INVAL", "BADNAME") and any(b"\0" in nfs4.meant(op.get(word, "0x")) for word in ("name", "newname")):
            return When.ZERO_BYTE
        if op.name in ("READ", "WRITE") and b == "BAD_STATEID" and op.get("StateID", ANONYMOUS) not in (ANONYMOUS, BYPASS):
            return None if self.looks.told(sent, cursor.here, "Type") == "1" else When.NO_FILE
        if a == "LOCKED" and b == "OK" and "0" in (op.get("count"), str(len(nfs4.meant(op.get("data", "0x61"))))):
            return When.NO_BYTES
        return None

    def of_rights(self, sent, op, a, b, cursor):
        if a == "OK" and b in ("ACCESS", "PERM", "WRONG_CRED") and isinstance(op.get("StateID"), State):
            held = self.play.twin.opens.get(self.play.twin.values[op.get("StateID").other][0])
            if held is None or held[4] != sent.step.uid:
                return When.ANOTHER_USER
        if a == "ACCESS" and b == "OK" and self.looks.told(sent, cursor.here, "Owner") == str(sent.step.uid):
            return When.OWNER_OF_THE_FILE
        if self.made_without_mode(sent, op, a, b, cursor):
            return When.MODE_NOT_GIVEN
        if a == "ACCESS" and b == "OK" and self.looks.told(sent, cursor.here, "Type") == "5":
            return When.A_LINK
        if op.name == "SETATTR" and a == "OK" and b in ("PERM", "ACCESS") and self.is_there_already(sent, op, cursor):
            return When.AS_IT_IS
        if op.name == "RENAME" and a == "ACCESS" and b == "OK":
            old, new = self.looks.handle_of(cursor.saved, op.get("name"), sent), self.looks.handle_of(cursor.here, op.get("newname"), sent)
            return When.NOTHING_TO_DO if old and old == new else None
        if op.name == "RENAME" and b == "ACCESS" and cursor.saved != cursor.here and self.looks.told_of(sent, cursor.saved, op.get("name"), "Type") == "2":
            return When.ANOTHER_PARENT
        return None

    def of_opens(self, step, op, a, b):
        if op.name == "OPEN" and int(op.get("share_access", "1"), 0) & ~3:
            return When.NO_MEANING
        if op.name == "OPEN" and b == "SHARE_DENIED" and self.own_deny(step, op):
            return When.OWN_DENY
        if op.name == "OPEN" and op.get("open_type") == "1" and int(op.get("create_mode", "0"), 0) >= 2:
            if b in ("INVAL", "ATTRNOTSUPP") and op.get("attrs", "{}") not in ("{}", "{Mode:0644}"):
                return When.EXCLUSIVE_ATTRIBUTES
            if "EXIST" in (a, b):
                return When.EXCLUSIVE_AGAIN
        return None

    def made_without_mode(self, sent, op, a, b, cursor):
        """Is this a matter of the mode of an object that was made without one? Then servers may give it different ones."""
        marks = self.play.twin.marks.get(cursor.here, "")
        if op.name in ("VERIFY", "NVERIFY"):
            attrs = str(op.get("attrs"))
            return "Mode:" in attrs and "default" in marks or "Owner_Group:" in attrs and "group" in marks
        if "ACCESS" not in (a, b):
            return False
        handles = [cursor.here, cursor.saved] + ([self.looks.handle_of(cursor.here, op.get("name"), sent)] if op.name == "OPEN" and op.get("name") else [])
        return any("default" in self.play.twin.marks.get(handle, "") for handle in handles)

    def is_there_already(self, sent, op, cursor):
        """Are the owner and the group that are to be set those that the object has?"""
        values = dict(nfs4.values_of(str(op.get("attrs"))) or ())
        asked = {name: word for name, word in values.items() if name in ("Owner", "Owner_Group")}
        return bool(asked) and all(self.looks.told(sent, cursor.here, name) == word for name, word in asked.items())

    def own_deny(self, step, op):
        """Does an open of the same owner clash with this one?"""
        access, deny = int(op.get("share_access", "1"), 0) & 3, int(op.get("share_deny", "0"), 0)
        mine = self.play.caller(step), op.get("owner")
        return any(held[:2] == mine and (access & held[3] or deny & held[2]) for held in self.play.twin.opens.values())


def ends_beyond(op):
    length = op.get("length") or op.get("count") or str(len(nfs4.meant(op.get("data", "0x"))))
    return int(op.get("offset", "0"), 0) + (0 if length == str(2**64 - 1) else int(length, 0)) > 2**63 - 1
