"""All checks that fail, and not the first alone. Where an operation is refused for several reasons any of their statuses is right, since
RFC 8881 leaves their order open. The reference answers the first. Which others fail is asked of the reference too: one, two or three
parts of the call are repaired, and what it answers then is another check that fails, where that check does not look at what was repaired.
So each status in the set is an answer of the program; what is written here is only which checks look at which part."""
from itertools import combinations
from typing import NamedTuple

import nfs4

from .server import Answer
from .symbols import ANONYMOUS

NAMES = {"NOENT", "EXIST", "NOTEMPTY", "ISDIR", "SYMLINK", "SHARE_DENIED", "NOTDIR", "WRONG_TYPE", "MLINK"}
# What depends on the arguments alone, whatever the object.
ARGUMENTS = {"INVAL", "NAMETOOLONG", "BADCHAR", "BADNAME", "BADOWNER", "ATTRNOTSUPP", "BADXDR", "BADTYPE", "TOOSMALL", "NO_GRACE", "NOTSUPP",
             "BAD_COOKIE", "FBIG"}


class Repair(NamedTuple):
    """The fields that get good values (None: they go), and the statuses that cannot be believed then."""
    values: dict
    looks_at: set


REPAIRS = {
    "name": Repair({"name": "repaired", "newname": "repaired2"}, NAMES),
    "attributes": Repair({"attrs": "{}"}, set()),
    "range": Repair({"offset": "0", "length": "1"}, {"DENIED"}),
    "access": Repair({"share_access": "1"}, {"SHARE_DENIED", "OPENMODE", "ACCESS"}),
    "deny": Repair({"share_deny": "0"}, {"SHARE_DENIED"}),
    "stateid": Repair({"StateID": ANONYMOUS}, {"LOCKED", "BAD_STATEID", "OLD_STATEID", "OPENMODE"}),
    "cookie": Repair({"cookie": "0", "cookie_verf": "0x0000000000000000"}, set()),
    "count": Repair({"maxcount": "8000", "dircount": "8000"}, set()),
    "text": Repair({"linkdata": "text"}, set()),
    "reclaim": Repair({"reclaim": "0"}, set()),
    "kind": Repair({"locktype": "1"}, {"DENIED", "OPENMODE"}),
    "create": Repair({"create_mode": "0", "verifier": None}, set()),
}
WITH_SAVED = ("LINK", "RENAME")
# What the saved object of a LINK has a part in.
OF_SAVED = {"ISDIR", "MLINK", "XDEV", "STALE", "WRONG_TYPE"}
# Operations that may be refused for want of a right which the reference does not ask for, and the bits of ACCESS that they may want.
RIGHTS = {"LOCK": 1 | 4, "LOCKT": 1 | 4, "LOCKU": 1 | 4, "COMMIT": 4}


class Asked(NamedTuple):
    """A call that the reference refused at operation `at`, where `here` was the current filehandle, in plain words."""
    xid: int
    user: tuple
    operations: list
    at: int
    moment: int
    here: str


def repaired(asked, parts, spare):
    """The call with these parts repaired, and the statuses that cannot be believed of it."""
    operations, user, hidden = list(asked.operations), asked.user, set()
    name, fields = operations[asked.at]
    for part in parts:
        if part == "user":
            user = (0, 0, ())
        elif part in REPAIRS:
            fields = [(key, REPAIRS[part].values.get(key, word)) for key, word in fields if REPAIRS[part].values.get(key, word) is not None]
            hidden |= REPAIRS[part].looks_at
    operations[asked.at] = name, fields
    for part in parts:
        if part in spare:
            put = [("PUTFH", [("FileHandle", spare[part])])] + ([("SAVEFH", [])] if name in WITH_SAVED else [])
            is_link = name == "LINK" and asked.here
            operations[asked.at:asked.at] = put + ([("PUTFH", [("FileHandle", asked.here)])] if is_link else [])
            hidden |= OF_SAVED if is_link else set(nfs4_words()) - ARGUMENTS
    return user, operations, hidden


def nfs4_words():
    return [word.removeprefix("NFS4ERR_") for word in nfs4.STATUSES.values()]


def parts_of(asked, spare):
    """The parts of a call that can be repaired."""
    present = {key for key, _ in asked.operations[asked.at][1]}
    parts = [part for part, repair in REPAIRS.items() if present & set(repair.values)]
    return (["user"] if asked.user[0] else []) + parts + list(spare)


def also_fails(reference, asked, status):
    """Whether the reference would answer this status for the call too, had its other faults been mended."""
    name = asked.operations[asked.at][0]
    if status == "DENIED" and name == "LOCK":
        return is_denied(reference, asked)
    if status == "ACCESS" and name in RIGHTS:
        return lacks_a_right(reference, asked, RIGHTS[name])
    parts = parts_of(asked, reference.spare)
    for size in (1, 2, 3):
        for chosen in combinations(parts, size):
            if sum(part in reference.spare for part in chosen) > 1:
                continue
            user, operations, hidden = repaired(asked, chosen, reference.spare)
            if status not in hidden and status == answered(reference, asked, user, operations):
                return True
    return False


def is_denied(reference, asked):
    """Whether LOCKT of the same bytes is denied: what is wrong with the stateid of a LOCK cannot be mended."""
    operations = list(asked.operations)
    words = dict(operations[asked.at][1])
    operations[asked.at] = "LOCKT", [("locktype", words["locktype"]), ("offset", words["offset"]), ("length", words["length"]),
                                     ("clientid", "0"), ("owner", words.get("owner", "a-stranger"))]
    return answered(reference, asked, asked.user, operations) == "DENIED"


def lacks_a_right(reference, asked, bits):
    """Whether the user lacks one of these rights on the object, by ACCESS."""
    operations = [*asked.operations[:asked.at], ("ACCESS", [("access", str(bits))])]
    _, status, fields = result(reference, asked, asked.user, operations) or (None, None, [])
    return status == "OK" and int(dict(fields)["access_rights"]) != bits


def answered(reference, asked, user, operations):
    """The status of the repaired operation, or None."""
    found = result(reference, asked, user, operations)
    return found and found[1]


def result(reference, asked, user, operations):
    """The result of the repaired operation, or None."""
    try:
        made = [nfs4.write_operation(name, fields) for name, fields in operations]
    except (nfs4.Unreadable, ValueError):
        return None
    told = Answer(reference.ask(nfs4.compound(asked.xid, made, *user), asked.moment, without_last=True))
    at = asked.at + len(operations) - len(asked.operations)
    return told.results[at] if len(told.results) > at else None
