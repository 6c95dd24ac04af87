"""What a difference is. The tables here are written by hand, so a verdict is a proof and a table, and never a proof alone.

No row was looked up in the text of RFC 8881, which was not at hand: each is from memory, and says so until somebody has looked it up and
sets `looked_up`. A section is where to look."""
import re
from dataclasses import dataclass, field

from .differences import When

SECTION = {name: f"18.{number}" for number, name in [pair.split() for pair in (
    "1 ACCESS,2 CLOSE,3 COMMIT,4 CREATE,7 GETATTR,8 GETFH,9 LINK,10 LOCK,11 LOCKT,12 LOCKU,13 LOOKUP,14 LOOKUPP,15 NVERIFY,16 OPEN,"
    "18 OPEN_DOWNGRADE,19 PUTFH,20 PUTPUBFH,21 PUTROOTFH,22 READ,23 READDIR,24 READLINK,25 REMOVE,26 RENAME,27 RESTOREFH,28 SAVEFH,"
    "30 SETATTR,31 VERIFY,32 WRITE,35 EXCHANGE_ID,36 CREATE_SESSION,37 DESTROY_SESSION,38 FREE_STATEID,45 SECINFO_NO_NAME,46 SEQUENCE,"
    "48 TEST_STATEID,50 DESTROY_CLIENTID,51 RECLAIM_COMPLETE,52 ILLEGAL").split(",")]}
SECTION |= {"COMPOUND": "16.2", "RPC": "2.2.1"}

_any = "BADXDR DEADSESSION DELAY OP_NOT_IN_SESSION REP_TOO_BIG REP_TOO_BIG_TO_CACHE REQ_TOO_BIG RETRY_UNCACHED_REP SERVERFAULT TOO_MANY_OPS UNSAFE_COMPOUND "
_fh = _any + "FHEXPIRED MOVED NOFILEHANDLE STALE "
_state = "ADMIN_REVOKED BAD_STATEID EXPIRED OLD_STATEID WRONG_CRED "
_name = "BADCHAR BADNAME INVAL NAMETOOLONG "
# The errors that section 15.2 lists for each operation.
LISTED = {name: set(words.split()) for name, words in {
    "ACCESS": _fh + "ACCESS INVAL IO",
    "CLOSE": _fh + _state + "LOCKS_HELD",
    "COMMIT": _fh + "ACCESS IO ISDIR SYMLINK WRONG_TYPE",
    "CREATE": _fh + _name + "ACCESS ATTRNOTSUPP BADOWNER BADTYPE DQUOT EXIST IO MLINK NOSPC NOTDIR PERM ROFS",
    "GETATTR": _fh + "ACCESS INVAL IO WRONG_TYPE",
    "GETFH": _fh,
    "LINK": _fh + _name + "ACCESS DQUOT EXIST FILE_OPEN GRACE IO ISDIR MLINK NOENT NOSPC NOTDIR NOTSUPP ROFS SYMLINK WRONGSEC WRONG_TYPE XDEV",
    "LOCK": _fh + _state + "ACCESS BAD_RANGE DEADLOCK DENIED GRACE INVAL ISDIR LOCK_NOTSUPP LOCK_RANGE NO_GRACE OPENMODE RECLAIM_BAD "
            "RECLAIM_CONFLICT ROFS SYMLINK WRONG_TYPE",
    "LOCKT": _fh + "ACCESS BAD_RANGE DENIED GRACE INVAL ISDIR LOCK_RANGE ROFS SYMLINK WRONG_CRED WRONG_TYPE",
    "LOCKU": _fh + _state + "ACCESS BAD_RANGE INVAL LOCK_RANGE",
    "LOOKUP": _fh + _name + "ACCESS IO NOENT NOTDIR SYMLINK WRONGSEC",
    "LOOKUPP": _fh + "ACCESS IO NOENT NOTDIR SYMLINK WRONGSEC",
    "NVERIFY": _fh + "ACCESS ATTRNOTSUPP BADCHAR INVAL IO SAME UNKNOWN_LAYOUTTYPE WRONG_TYPE",
    "VERIFY": _fh + "ACCESS ATTRNOTSUPP BADCHAR INVAL IO NOT_SAME UNKNOWN_LAYOUTTYPE WRONG_TYPE",
    "OPEN": _fh + _state + _name + "ACCESS ATTRNOTSUPP BADOWNER DELEG_ALREADY_WANTED DELEG_REVOKED DQUOT EXIST FBIG GRACE IO ISDIR NOENT NOSPC "
            "NOTDIR NO_GRACE PERM RECLAIM_BAD RECLAIM_CONFLICT ROFS SHARE_DENIED SYMLINK WRONGSEC WRONG_TYPE",
    "OPEN_DOWNGRADE": _fh + _state + "INVAL ROFS",
    "PUTFH": _any + "BADHANDLE MOVED STALE WRONGSEC",
    "PUTROOTFH": _any + "WRONGSEC",
    "PUTPUBFH": _any + "WRONGSEC",
    "READ": _fh + _state + "ACCESS DELEG_REVOKED GRACE INVAL IO ISDIR LOCKED OPENMODE PNFS_IO_HOLE PNFS_NO_LAYOUT SYMLINK WRONG_TYPE",
    "READDIR": _fh + "ACCESS BAD_COOKIE INVAL IO NOTDIR NOT_SAME TOOSMALL",
    "READLINK": _fh + "ACCESS INVAL IO WRONG_TYPE",
    "REMOVE": _fh + _name + "ACCESS FILE_OPEN GRACE IO NOENT NOTDIR NOTEMPTY ROFS",
    "RENAME": _fh + _name + "ACCESS DQUOT EXIST FILE_OPEN GRACE IO MLINK NOENT NOSPC NOTDIR NOTEMPTY ROFS WRONGSEC XDEV",
    "RESTOREFH": _fh + "WRONGSEC",
    "SAVEFH": _fh,
    "SETATTR": _fh + _state + "ACCESS ATTRNOTSUPP BADCHAR BADOWNER DELEG_REVOKED DQUOT FBIG GRACE INVAL IO LOCKED NOSPC OPENMODE PERM ROFS "
               "UNKNOWN_LAYOUTTYPE WRONG_TYPE",
    "WRITE": _fh + _state + "ACCESS DELEG_REVOKED DQUOT FBIG GRACE INVAL IO ISDIR LOCKED NOSPC OPENMODE PNFS_NO_LAYOUT ROFS SYMLINK WRONG_TYPE",
    "EXCHANGE_ID": _any + "BADCHAR CLID_INUSE ENCR_ALG_UNSUPP HASH_ALG_UNSUPP INVAL NOENT NOT_ONLY_OP NOT_SAME PERM",
    "CREATE_SESSION": _any + "CLID_INUSE INVAL NOENT NOT_ONLY_OP NOSPC SEQ_MISORDERED STALE_CLIENTID TOOSMALL WRONG_CRED",
    "DESTROY_SESSION": _any + "BACK_CHAN_BUSY BADSESSION CB_PATH_DOWN CONN_NOT_BOUND_TO_SESSION NOT_ONLY_OP STALE_CLIENTID WRONG_CRED",
    "DESTROY_CLIENTID": _any + "CLIENTID_BUSY NOT_ONLY_OP STALE_CLIENTID WRONG_CRED",
    "SEQUENCE": _any + "BADSESSION BADSLOT BAD_HIGH_SLOT CONN_NOT_BOUND_TO_SESSION SEQUENCE_POS SEQ_FALSE_RETRY SEQ_MISORDERED",
    "FREE_STATEID": _any + "BAD_STATEID LOCKS_HELD OLD_STATEID WRONG_CRED",
    "TEST_STATEID": _any,
    "SECINFO_NO_NAME": _fh + "ACCESS INVAL NOENT NOTDIR NOTSUPP",
    "RECLAIM_COMPLETE": _fh + "COMPLETE_ALREADY INVAL WRONG_CRED WRONG_TYPE",
    "ILLEGAL": "OP_ILLEGAL"}.items()}


# in the place of a circumstance: whichever it is, or none
ANY = object()


@dataclass
class Row:
    """A difference that is known: patterns (whole) of the operation, of what differs, and of both sides; then section and reason, and the circumstance
    in which it counts, where that is a certain one."""
    operation: str
    what: str
    reference: str
    server: str
    section: str
    why: str
    when: When = None
    looked_up: bool = False
    pattern: re.Pattern = field(init=False)

    def __post_init__(self):
        self.pattern = re.compile("\n".join(f"(?:{part})" for part in (self.operation, self.what, self.reference, self.server)), re.S)

    def meets(self, difference):
        return self.when in (ANY, difference.when) and self.pattern.fullmatch("\n".join(difference.words))


# What RFC 8881 leaves to a server.
ALLOWED = [Row(*words) for words in (
    # sessions and clients
    ("SEQUENCE", "status", "SEQ_FALSE_RETRY", "OK", "2.10.6.1.3.1", "a server need not find out a false retry, and gives the kept reply"),
    ("SEQUENCE", "status", "SEQ_FALSE_RETRY", "SEQ_MISORDERED|RETRY_UNCACHED_REP", "2.10.6.1.3.1", "a server need not find out a false retry"),
    ("SEQUENCE", "status", "OK", "SEQ_FALSE_RETRY", "2.10.6.1.3.1", "which callers count as one under AUTH_SYS is open", When.KEPT),
    (".*", "status", ".*", "RETRY_UNCACHED_REP", "2.10.6.1.3", "the caller did not ask that the reply be kept", When.NOT_KEPT),
    (".*", "status", "REP_TOO_BIG", "OK", "2.10.6.4", "how large a reply will be is the server's estimate"),
    (".*", "status", ".*", "REP_TOO_BIG_TO_CACHE", "2.10.6.4", "the reply would not fit what the channel keeps"),
    ("SEQUENCE", "status", "TOO_MANY_OPS|REQ_TOO_BIG|SEQ_MISORDERED|BAD_HIGH_SLOT", "TOO_MANY_OPS|REQ_TOO_BIG|SEQ_MISORDERED|BAD_HIGH_SLOT", "15.1",
     "the order of the checks"),
    ("SEQUENCE", "status", "TOO_MANY_OPS", "OK", "15.2", "the error is listed for each operation, so one behind may bear it"),
    ("COMPOUND", "tag", ".*", ".*", "2.10.6.1.3", "a kept reply has the tag of its own call", When.KEPT),
    (".*", "status", ".*", "DELAY", "15.1.1.3", "the caller is to try again"),
    ("CREATE_SESSION", "grant of .*", ".*", ".*", "18.36.3", "a channel may be granted less than was asked for"),
    ("CREATE_SESSION", "status", "OK", "TOOSMALL", "18.36.3", "what is too small a channel is the server's matter"),
    ("CREATE_SESSION", "status", "TOOSMALL", "OK", "18.36.3", "what is too small a channel is the server's matter"),
    ("EXCHANGE_ID", "status", "PERM|NOT_SAME|NOENT", "NOT_SAME|PERM|NOENT", "18.35.4", "the order of the checks of an update"),
    ("SEQUENCE|DESTROY_SESSION|CREATE_SESSION|.*", "status", "BADSESSION|STALE_CLIENTID|BAD_STATEID|OK", ".*", "8.4.2.4",
     "a server may let a client be whose lease has run out", When.LEASE_OVER),
    ("CREATE_SESSION|EXCHANGE_ID", "status|sequence id", ".*", ".*", "18.36.4", "which refusals of CREATE_SESSION use a number up", When.BEHIND_A_REFUSAL),
    # opens and state
    ("OPEN", "delegation", ".*", ".*", "10.4", "a delegation is the server's choice"),
    ("OPEN", "result flags", ".*", ".*", "18.16.3", "they tell the server's ways"),
    ("CLOSE", "stateid of CLOSE", ".*", ".*", "18.2.4", "it is of no use, and the invalid special one a SHOULD"),
    ("TEST_STATEID|FREE_STATEID", "status.*", "OLD_STATEID|BAD_STATEID", "OLD_STATEID|BAD_STATEID|EXPIRED", "18.48.3", "which of the errors", ANY),
    ("LOCK|LOCKT", "denied (offset|length|locktype|owner|clientid)", ".*", ".*", "18.10.4", "any lock that clashes may be told", When.HELD),
    ("PUTFH", "status", "STALE|BADHANDLE", "STALE|BADHANDLE", "18.19.3", "a handle that no server gave, or of an object that is gone"),
    (".*", "status", ".*", "STALE|NOENT", "18.25.4", "a removed file need not live on while it is open", When.REMOVED_OPEN),
    ("LINK", "status", "NOENT", "OK|STALE", "18.9.4", "an open file without a name may get one", When.REMOVED_OPEN),
    (".*", "status", "STALE", "OK", "4.2.1", "a handle of a removed object may stay good for a while"),
    ("CLOSE", "status", "OK", "LOCKS_HELD", "18.2.3", "a server may refuse to close while locks are held"),
    ("READ", "status", "OPENMODE", "OK|LOCKED", "9.1.2", "a server may let an open for writing read, where no other open denies it"),
    ("WRITE|SETATTR|READ", "status", "LOCKED|ACCESS", "ACCESS|LOCKED|OPENMODE", "9.1.2", "the order of the checks"),
    ("READ|WRITE", "status", "ISDIR|SYMLINK|INVAL|WRONG_TYPE", "BAD_STATEID", "15.1", "no file, and so no open of it: the order of the checks", When.NO_FILE),
    ("READ|WRITE|SETATTR|OPEN_DOWNGRADE|LOCK|LOCKU|CLOSE", "status", "OK", "ACCESS|PERM|WRONG_CRED", "18.22.4",
     "permission may be judged anew for the user of each request", When.ANOTHER_USER),
    ("READ|WRITE|SETATTR", "status", "ACCESS", "OK", "18.22.4", "a server may let the owner of a file read and write it", When.OWNER_OF_THE_FILE),
    ("OPEN|CREATE|SETATTR", "status", "BADOWNER", ".*", "5.9", "which texts name an owner is the server's matter"),
    ("OPEN|CREATE|SETATTR", "status", ".*", "BADOWNER", "5.9", "which texts name an owner is the server's matter"),
    ("OPEN", "status", ".*", "INVAL|ATTRNOTSUPP", "18.16.3", "an attribute that an exclusive create does not take", When.EXCLUSIVE_ATTRIBUTES),
    ("OPEN", "status", ".*", "EXIST", "18.16.3", "the verifier may be lost once the file was used", When.EXCLUSIVE_AGAIN),
    (".*", "status", "BAD_STATEID", "OLD_STATEID", "8.2.2", "a seqid far ahead is one from before a wrap"),
    ("READ", "eof of no bytes", ".*", ".*", "18.22.3", "whether a READ of no bytes tells the end"),
    ("OPEN|CREATE|LOOKUP|REMOVE|RENAME|LINK", "status", "BADCHAR|BADNAME", "OK|NOENT|INVAL|EXIST|BADNAME|BADCHAR|NOTEMPTY|ISDIR", "14.5",
     "which characters a name may have is the server's matter"),
    ("CREATE|OPEN", "status", "NAMETOOLONG", "OK", "5.8.2", "how long the text of a link may be"),
    ("RENAME", "status", "OK", "NAMETOOLONG", "18.26.4", "how deep a directory may come to lie is the server's matter"),
    (".*", "attr Time_(Access|Modify)", ".*", ".*", "18.16.3", "an exclusive create may keep its verifier there", When.EXCLUSIVE),
    (".*", "attr Mode of a link", ".*", ".*", "6.2.4", "a link's mode has no use"),
    (".*", "(attr|change) .*", ".*", ".*", "6.2.4", "a link's mode has no use", When.A_LINKS_MODE),
    (".*", "status|bit .*", ".*", ".*", "6.2.4", "a link's mode has no use", When.A_LINK),
    (".*", "(attr|change|status).*", ".*", ".*", "18.26.3", "whether RENAME is a change of the object that it moves", When.MOVED),
    (".*", "attr Mode", ".*", ".*", "18.16.3", "no mode was given", When.NOT_GIVEN),
    (".*", "attr Owner_Group", ".*", ".*", "5.8.2.27", "no group was given, and the directory's may be taken", When.NOT_GIVEN),
    ("LOCK|LOCKT|LOCKU", "status", ".*", "BAD_RANGE|INVAL", "18.10.3", "a server may keep ranges of fewer bits", When.BEYOND),
    ("READ|WRITE|COMMIT", "status", ".*", "INVAL|FBIG", "18.32.4", "a server may have smaller files", When.BEYOND),
    ("WRITE|SETATTR|OPEN", "status", "FBIG", "OK|NOSPC", "5.8.2", "how large a file may be is the server's matter"),
    ("LOCK", "status", "DENIED", "DEADLOCK", "18.10.4", "a server may find a deadlock"),
    # attributes
    (".*", "attr .* missing", "(?!Supported_Attrs|Type|FH_Expire_Type|Change|Size|Link_Support|Symlink_Support|Named_Attr|FSID|Unique_Handles|Lease_Time|"
     "RDAttr_Error|Filehandle|Suppattr_ExclCreat).*", ".*", "5.2", "an attribute that is not required need not be supported"),
    (".*", "attr (Supported_Attrs|FH_Expire_Type|Link_Support|Symlink_Support|Named_Attr|Unique_Handles|Lease_Time|MaxFileSize|MaxLink|MaxName|MaxRead|"
     "MaxWrite|Suppattr_ExclCreat|Space_Used)", ".*", ".*", "5.8", "a property of the server"),
    (".*", "attr (Size|NumLinks|Space_Used) of a directory", ".*", ".*", "5.8", "no meaning is given for directories"),
    (".*", "attr Time_Access", ".*", "later", "5.8.2.37", "reading may move it"),
    ("READDIR", "fewer entries|more entries|order", ".*", ".*", "18.23.3", "how many entries a reply holds, and their order"),
    ("READDIR", "status", "OK|TOOSMALL", "TOOSMALL|OK", "18.23.3", "how much room an entry takes is the server's matter"),
    ("READDIR", "status", "NOT_SAME|BAD_COOKIE", "OK|NOT_SAME|BAD_COOKIE", "18.23.3", "a server need not look at the verifier, or know which cookies it gave"),
    ("ACCESS", "bit (EXTEND|DELETE|EXECUTE|MODIFY)|bits supported", ".*", ".*", "18.1.3", "what a server cannot tell for sure"),
    ("ACCESS", "status", "OK", "INVAL", "18.1.3", "bits that the protocol does not know"),
    ("READ", "fewer bytes", ".*", ".*", "18.22.3", "fewer bytes may be given"),
    ("SETATTR|OPEN|CREATE|VERIFY|NVERIFY", "status", "ATTRNOTSUPP", ".*", "5.5", "the server knows more attributes"),
    ("VERIFY|NVERIFY", "status", "INVAL", "ATTRNOTSUPP|NOT_SAME|OK|SAME", "18.31.3", "an attribute that cannot be compared"),
    ("VERIFY", "status", "NOT_SAME", "OK", "5.8.2", "a server's clock may be so coarse that two calls have one time", When.A_TIME),
    ("NVERIFY", "status", "OK", "SAME", "5.8.2", "a server's clock may be so coarse that two calls have one time", When.A_TIME),
    ("SECINFO_NO_NAME", "flavors", ".*", ".*", "18.45.4", "which flavors a server takes"),
    ("GETATTR|READDIR", "status", "INVAL", "OK", "5.5", "an attribute that is only set: INVAL, or left out"),
    (".*", "identity by FileId", "new", "one given before", "5.8.2.14", "the number of a removed object may be given again"),
    (".*", "identity by Mounted_on_FileId", ".*", ".*", "5.8.2.19", "an object that is mounted on has two numbers"),
    (".*", "identity by FSID", ".*", ".*", "5.8.1.9", "what a file system begins with is the server's matter"),
    (".*", "change info is atomic", ".*", ".*", "18.25.4", "atomic change info is the server's choice"),
    ("RPC", "kind of reply", "compound BADXDR", "accepted 4", "15.1.1.1", "a compound may be read whole before any of it runs"),
    ("WRITE", "fewer bytes", ".*", ".*", "18.32.4", "fewer bytes may be written"),
    (".*", "status|bit .*", ".*", ".*", "18.16.3", "no mode was given, so the object may have another", When.MODE_NOT_GIVEN),
)]

# Where this project's profile departs from RFC 8881, and the reference is not to be believed (docs/PROTOCOL.md, docs/DECISIONS.md).
OURS = [Row(*words) for words in (
    ("OPEN", "status", ".*", "INVAL|BADXDR", "18.16.3", "the profile looks at the two low bits of the access alone", When.NO_MEANING),
    ("OPEN", "status", ".*", "SHARE_DENIED", "9.7", "the RFC excepts no open of the same owner, the profile does", When.OWN_DENY),
    ("OPEN_DOWNGRADE", "status", "OK", "INVAL", "18.18.3", "the RFC asks for what some of the owner's OPENs gave, the profile for a part of the bits"),
    ("OPEN|LOCK", "status", ".*", "GRACE", "18.51.3", "the RFC wants RECLAIM_COMPLETE first, the profile does not", When.BEFORE_RECLAIM_COMPLETE),
    ("LOCK", "identity of state|seqid of the stateid", ".*", ".*", "8.2.1", "the RFC has a lock state for each open, the profile one for each owner and file"),
    ("DESTROY_SESSION", "status", "OK", "CONN_NOT_BOUND_TO_SESSION", "18.37.3", "the RFC wants a connection of the session, the profile any"),
    (".*", "status", "NOTSUPP", ".*", "17", "operations and claims that the profile leaves out"),
    ("CREATE", "status", "BADTYPE", ".*", "18.4.3", "devices, sockets and fifos, which the profile leaves out"),
    ("EXCHANGE_ID|CREATE_SESSION|DESTROY_SESSION|DESTROY_CLIENTID", "status", "NOTSUPP", ".*", "18.37.3",
     "the RFC lets them be sent behind SEQUENCE, the profile does not", When.IN_A_SESSION),
    ("READDIR", "dircount", ".*", ".*", "18.23.3", "the profile does not look at dircount"),
)]

# What is not settled by what we know of the RFC.
UNCLEAR = [Row(*words) for words in (
    ("EXCHANGE_ID|CREATE_SESSION", "status", "CLID_INUSE|OK", "OK|CLID_INUSE", "18.35.4", "what another user meets who has the same owner"),
    ("SEQUENCE|DESTROY_SESSION|DESTROY_CLIENTID|CREATE_SESSION", "status", ".*", ".*", "18.35.4",
     "whether EXCHANGE_ID by another user ends the old record at once, or CREATE_SESSION does", When.OWNER_IN_DOUBT),
    ("OPEN", "attribute set .*", "no", "yes", "18.16.3", "attributes of a file that was there are told as set"),
    ("READLINK", "status", "WRONG_TYPE", "INVAL", "18.24.4", "which of the errors"),
    ("OPEN", "status", "NOTDIR", "SYMLINK", "18.16.3", "what a link in the place of the directory is"),
    ("SEQUENCE", "status", ".*", ".*", "18.46.3", "whether the number 0 repeats something on a slot that was not used", When.UNUSED_SLOT),
    ("VERIFY|NVERIFY", "status", ".*", ".*", "5.8.1.5", "what the size of a link or of a directory is", When.SIZE_OF_NO_FILE),
    ("attributes", "attr Size of a link", ".*", ".*", "5.8.1.5", "whether the size of a link is that of its text"),
    ("attributes", "attr RDAttr_Error", "none", "an error", "5.8.1.12", "whether the attributes of an entry want the right to search the directory"),
    ("SEQUENCE", "status", "BAD_HIGH_SLOT", "OK", "18.46.3", "whether the highest slot must be judged"),
    ("SETATTR|OPEN|CREATE", "status", "INVAL", "OK", "5.8.2", "bits above 4,095 in a mode"),
    (".*", "status", ".*", ".*", "14.5", "whether a name may have a zero byte; what ends a name there may take it for another", When.ZERO_BYTE),
    ("LOOKUPP", "status", "ACCESS", "OK", "18.14.3", "whether the way up wants the right to search"),
    (".*", "attr Mode", ".*", ".*", "6.2.4", "whether what is made in a directory whose mode has 02000 has it too", When.BELOW_SETGID),
    ("READ|WRITE", "status", ".*", ".*", "18.22.3", "whether an open that denies is in the way of no bytes", When.NO_BYTES),
    ("SETATTR", "status", ".*", ".*", "18.30.3", "whether anybody may set the owner and the group that are there", When.AS_IT_IS),
    ("RENAME", "status", ".*", ".*", "18.26.3", "whether that wants the right to write the directory itself", When.ANOTHER_PARENT),
    ("RENAME", "status", ".*", ".*", "18.26.3", "whether rights are asked for where both names are of one object", When.NOTHING_TO_DO),
    (".*", "status.*", "BAD_STATEID", "EXPIRED", "8.2.4", "what the state is that ended with its client", ANY),
)]


ORDER = ("deviation", "unclear", "ours", "allowed")


def is_as_strong(difference, word):
    """Does a difference have this verdict or a stronger one?"""
    return ORDER.index(difference.verdict) <= ORDER.index(word)


def verdict(difference):
    """Sets the verdict of a difference, its section and the reason."""
    for word, table in (("ours", OURS), ("allowed", ALLOWED), ("unclear", UNCLEAR)):
        row = next((row for row in table if row.meets(difference)), None)
        if row:
            difference.verdict, difference.section, difference.why = word, row.section, row.why
            difference.looked_up = row.looked_up
            return
    of_operation = difference.what == "status"
    if of_operation and difference.operation != "COMPOUND" and difference.reference not in ("OK", "none") and difference.reference not in LISTED.get(difference.operation, difference.reference):
        difference.verdict, difference.section, difference.looked_up = "ours", "15.2", False
        difference.why = f"the reference answers an error that is not listed for {difference.operation}"
        return
    difference.verdict, difference.section = "deviation", SECTION.get(difference.operation, "")
    if of_operation and difference.operation != "COMPOUND" and difference.server not in ("OK", "none") and difference.server not in LISTED.get(difference.operation, ()):
        difference.section, difference.looked_up = difference.section + ", 15.2", False
        difference.why = f"{difference.server} is not listed for {difference.operation}"


def kind(difference):
    """What sort of difference it is."""
    if not difference.what.startswith("status"):
        return "value"
    if difference.server == "OK":
        return "accepts"
    return "refuses" if difference.reference == "OK" else "no result" if difference.server == "none" else "another error"
