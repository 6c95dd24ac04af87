"""What the tools share: XDR (RFC 4506), records and heads of RPC (RFC 5531), the operations of NFS version 4 minor version 1
(RFC 8881 section 18, RFC 5662), scripts of `nfs41d replay` and what it puts out. Fields have the words of tshark's dissector,
where it has them. An operation is described once, by a function that is called with a reader or with a writer."""
import functools
import operator
import re
import struct
import sys
from urllib.parse import quote, unquote_to_bytes

OPERATIONS = dict(enumerate(
    "ACCESS CLOSE COMMIT CREATE DELEGPURGE DELEGRETURN GETATTR GETFH LINK LOCK LOCKT LOCKU LOOKUP LOOKUPP NVERIFY OPEN OPENATTR "
    "OPEN_CONFIRM OPEN_DOWNGRADE PUTFH PUTPUBFH PUTROOTFH READ READDIR READLINK REMOVE RENAME RENEW RESTOREFH SAVEFH SECINFO SETATTR "
    "SETCLIENTID SETCLIENTID_CONFIRM VERIFY WRITE RELEASE_LOCKOWNER BACKCHANNEL_CTL BIND_CONN_TO_SESSION EXCHANGE_ID CREATE_SESSION "
    "DESTROY_SESSION FREE_STATEID GET_DIR_DELEGATION GETDEVICEINFO GETDEVICELIST LAYOUTCOMMIT LAYOUTGET LAYOUTRETURN SECINFO_NO_NAME "
    "SEQUENCE SET_SSV TEST_STATEID WANT_DELEGATION DESTROY_CLIENTID RECLAIM_COMPLETE".split(), 3))
OPERATIONS[10044] = "ILLEGAL"
NUMBERS = {name: number for number, name in OPERATIONS.items()}

STATUSES = {0: "NFS4_OK"} | {number: "NFS4ERR_" + name for name, number in re.findall(
    r"(\w+) (\d+)",
    "PERM 1 NOENT 2 IO 5 NXIO 6 ACCESS 13 EXIST 17 XDEV 18 NOTDIR 20 ISDIR 21 INVAL 22 FBIG 27 NOSPC 28 ROFS 30 MLINK 31 NAMETOOLONG 63 "
    "NOTEMPTY 66 DQUOT 69 STALE 70 BADHANDLE 10001 BAD_COOKIE 10003 NOTSUPP 10004 TOOSMALL 10005 SERVERFAULT 10006 BADTYPE 10007 "
    "DELAY 10008 SAME 10009 DENIED 10010 EXPIRED 10011 LOCKED 10012 GRACE 10013 FHEXPIRED 10014 SHARE_DENIED 10015 WRONGSEC 10016 "
    "CLID_INUSE 10017 MOVED 10019 NOFILEHANDLE 10020 MINOR_VERS_MISMATCH 10021 STALE_CLIENTID 10022 STALE_STATEID 10023 "
    "OLD_STATEID 10024 BAD_STATEID 10025 BAD_SEQID 10026 NOT_SAME 10027 LOCK_RANGE 10028 SYMLINK 10029 RESTOREFH 10030 "
    "LEASE_MOVED 10031 ATTRNOTSUPP 10032 NO_GRACE 10033 RECLAIM_BAD 10034 RECLAIM_CONFLICT 10035 BADXDR 10036 LOCKS_HELD 10037 "
    "OPENMODE 10038 BADOWNER 10039 BADCHAR 10040 BADNAME 10041 BAD_RANGE 10042 LOCK_NOTSUPP 10043 OP_ILLEGAL 10044 DEADLOCK 10045 "
    "FILE_OPEN 10046 ADMIN_REVOKED 10047 CB_PATH_DOWN 10048 BADIOMODE 10049 BADLAYOUT 10050 BAD_SESSION_DIGEST 10051 BADSESSION 10052 "
    "BADSLOT 10053 COMPLETE_ALREADY 10054 CONN_NOT_BOUND_TO_SESSION 10055 DELEG_ALREADY_WANTED 10056 BACK_CHAN_BUSY 10057 "
    "LAYOUTTRYLATER 10058 LAYOUTUNAVAILABLE 10059 NOMATCHING_LAYOUT 10060 RECALLCONFLICT 10061 UNKNOWN_LAYOUTTYPE 10062 "
    "SEQ_MISORDERED 10063 SEQUENCE_POS 10064 REQ_TOO_BIG 10065 REP_TOO_BIG 10066 REP_TOO_BIG_TO_CACHE 10067 RETRY_UNCACHED_REP 10068 "
    "UNSAFE_COMPOUND 10069 TOO_MANY_OPS 10070 OP_NOT_IN_SESSION 10071 HASH_ALG_UNSUPP 10072 CLIENTID_BUSY 10074 PNFS_IO_HOLE 10075 "
    "SEQ_FALSE_RETRY 10076 BAD_HIGH_SLOT 10077 DEADSESSION 10078 ENCR_ALG_UNSUPP 10079 PNFS_NO_LAYOUT 10080 NOT_ONLY_OP 10081 "
    "WRONG_CRED 10082 WRONG_TYPE 10083 DIRDELEG_UNAVAIL 10084 REJECT_DELEG 10085 RETURNCONFLICT 10086 DELEG_REVOKED 10087") for number in [int(number)]}

STATUS_NUMBERS = {word: number for number, word in STATUSES.items()}

# Attributes: the number, tshark's word, and how the value is spelled: b bool, n number, m number in octal, N long number, o bytes, M mask,
# f fsid, t time, s time that is set.
ATTRIBUTES = {int(number): (name, kind) for number, name, kind in re.findall(
    r"(\d+) (\w+) (\w)",
    "0 Supported_Attrs M 1 Type n 2 FH_Expire_Type n 3 Change N 4 Size N 5 Link_Support b 6 Symlink_Support b 7 Named_Attr b 8 FSID f "
    "9 Unique_Handles b 10 Lease_Time n 11 RDAttr_Error n 19 Filehandle o 20 FileId N 27 MaxFileSize N 28 MaxLink n 29 MaxName n "
    "30 MaxRead N 31 MaxWrite N 33 Mode m 35 NumLinks n 36 Owner o 37 Owner_Group o 45 Space_Used N 47 Time_Access t 48 Time_Access_Set s "
    "52 Time_Metadata t 53 Time_Modify t 54 Time_Modify_Set s 55 Mounted_on_FileId N 75 Suppattr_ExclCreat M")}
# Those that other servers have beside them, where their values can be spelled: d two numbers, A an array of numbers.
ATTRIBUTES |= {int(number): (name, kind) for number, name, kind in re.findall(
    r"(\d+) (\w+) (\w)",
    "13 ACLSupport n 14 Archive b 15 CanSetTime b 16 Case_Insensitive b 17 Case_Preserving b 18 Chown_Restricted b 21 Files_Avail N "
    "22 Files_Free N 23 Files_Total N 26 Homogeneous b 34 No_Trunc b 41 RawDev d 42 Space_Avail N 43 Space_Free N 44 Space_Total N "
    "50 Time_Create t 51 Time_Delta t 62 FS_Layout_Type A 65 Layout_blksize n")}
# tshark's words of the others, which stand in masks; their values are shown as they came.
OTHERS = {int(number): name for number, name in re.findall(
    r"(\d+) (\w+)",
    "12 ACL 24 FS_Locations 25 Hidden 32 MimeType 38 Quota_Avail_Hard 39 Quota_Avail_Soft 40 Quota_Used 46 System 49 Time_Backup 56 "
    "Dir_Notif_Delay 58 DACL 59 SACL 60 Change_Policy 61 FS_Status 63 Layout_hint 64 Layout_type 66 Layout_alignment 67 FS_Locations_info 68 "
    "MDS_Threshold 69 Retention_Get 70 Retention_Set 71 RetentEvt_Get 72 RetentEvt_Set 73 Retention_Hold 74 Mode_Set_Masked 76 FS_Charset_Cap "
    "77 Clone_Block_Size 78 Space_Freed 79 Change_Attr_Type 80 Security_Label 81 Mode_Umask 82 Xattr_Support 83 Offline 84 Time_Deleg_Access "
    "85 Time_Deleg_Modify")}
# The numbers of a value's kind, as struct has them.
FORMS = {"n": ">I", "m": ">I", "b": ">I", "N": ">Q", "d": ">II", "f": ">QQ", "t": ">QI", "s": ">QI"}
WORDS = OTHERS | {number: name for number, (name, _) in ATTRIBUTES.items()}
ATTRIBUTE_NUMBERS = {name: number for number, name in WORDS.items()}

LAST = 0x80000000
MOST_MOMENT = 2**62
MOST_CONNECTIONS = 16
MOST_PIECE = 65_536


class Unreadable(Exception):
    """Bytes that are not what they should be, or words that say nothing."""


# Values as words without blanks, and back.

def shown(data, most=None):
    """Bytes as a word: ASCII with its blanks and marks as in a URL, all else in hexadecimal; cut behind so many bytes if that is asked."""
    if most is not None and len(data) > most:
        return f"0x{data[:most].hex()}..({len(data)}_bytes)"
    if data and all(32 <= byte < 127 for byte in data) and not data.startswith(b"0x"):
        return quote(data, safe="/@+")
    return "0x" + data.hex()


def meant(word):
    """The bytes that a word means; bytes are themselves."""
    if isinstance(word, bytes):
        return word
    if not word.startswith("0x"):
        return unquote_to_bytes(word)
    try:
        return bytes.fromhex(word[2:])
    except ValueError as fault:
        raise Unreadable(f"{word} is no 0x with pairs of hexadecimal digits") from fault


def number_of(name, word, bits=32):
    """The number that a word means, which must fit so many bits; a number is itself."""
    try:
        value = int(word, 0) if isinstance(word, str) else int(word)
    except ValueError as fault:
        raise Unreadable(f"{name}={word} is no number") from fault
    if not 0 <= value < 1 << bits:
        raise Unreadable(f"{name}={word} is not from 0 to {(1 << bits) - 1}")
    return value


def numbers_of(mask):
    return [bit for bit in range(mask.bit_length()) if mask >> bit & 1]


def shown_mask(mask):
    return ",".join(WORDS.get(n, str(n)) for n in numbers_of(mask)) or "-"


def meant_mask(word):
    """The mask that names or numbers of attributes mean, with commas between; a number is itself, and `-` is none."""
    if isinstance(word, int):
        return word
    if word == "-":
        return 0
    try:
        return sum(1 << (ATTRIBUTE_NUMBERS[w] if w in ATTRIBUTE_NUMBERS else int(w, 0)) for w in word.split(","))
    except ValueError as fault:
        raise Unreadable(f"'{word}' is no mask: names or numbers of attributes with commas between, or -") from fault


class Reader:
    """Items one behind the other; each read by a name stands in `fields`, as a word."""

    def __init__(self, data, at=0, most=None):
        self.data, self.at, self.most, self.fields = data, at, most, []

    def take(self, size):
        part = self.data[self.at:self.at + size]
        if len(part) != size:
            raise Unreadable("the bytes end early")
        self.at += size
        return part

    def number(self):
        return int.from_bytes(self.take(4), "big")

    def opaque(self):
        part = self.take(self.number())
        if any(self.take(-len(part) % 4)):
            raise Unreadable("padding that is not zero")
        return part

    def read_mask(self):
        count = self.number()
        if 4 * count > len(self.data) - self.at:
            raise Unreadable("the bytes end early")
        return sum(self.number() << 32 * i for i in range(count)), count

    def note(self, name, word):
        self.fields.append((name, word))

    def uint(self, name, size=4, default=0, style="{}"):
        """A number of so many bytes."""
        value = int.from_bytes(self.take(size), "big")
        self.note(name, style.format(value))
        return value

    def fixed(self, name, size):
        self.note(name, "0x" + self.take(size).hex())

    def bytes_(self, name):
        self.note(name, shown(self.opaque(), self.most))

    def mask(self, name):
        value, count = self.read_mask()
        word = shown_mask(value)
        if count != (value.bit_length() + 31) // 32:
            word += f":{count}"
        self.note(name, word)

    def attributes(self, name):
        """A mask and the values of its attributes (fattr4)."""
        value, count = self.read_mask()
        values = self.opaque()
        inner, words = Reader(values), []
        try:
            for n in numbers_of(value):
                if n not in ATTRIBUTES:
                    raise Unreadable("attribute")
                attribute, kind = ATTRIBUTES[n]
                words.append(f"{attribute}:{inner.value(kind)}")
            plain = inner.at == len(values) and count == (value.bit_length() + 31) // 32
        except Unreadable:
            plain = False
        self.note(name, "{" + ";".join(words) + "}" if plain else f"raw:{shown_mask(value)}:{count}:0x{values.hex()}")

    def value(self, kind):
        """The word of an attribute's value, by the letter of its kind."""
        if kind == "o":
            return shown(self.opaque())
        if kind == "M":
            value, count = self.read_mask()
            if count != (value.bit_length() + 31) // 32:
                raise Unreadable("mask")
            return shown_mask(value)
        if kind == "A":
            return "+".join(str(self.number()) for _ in range(min(self.number(), len(self.data)))) or "-"
        if kind == "s" and (how := self.number()) != 1:
            if how:
                raise Unreadable("time")
            return "now"
        first, *rest = struct.unpack(FORMS[kind], self.take(struct.calcsize(FORMS[kind])))
        if kind == "b" and first > 1:
            raise Unreadable("no bool")
        if kind == "m":
            return f"0{first:o}" if first else "0"
        if kind in "st":
            return f"{first}.{rest[0]:09}" if rest[0] < 10**9 else f"{first}+{rest[0]}"
        return ".".join(map(str, [first, *rest]))

    def many(self, name, one):
        for _ in range(self.uint(name)):
            one(self)


def u32(*numbers):
    """Numbers of four bytes each (XDR's unsigned int)."""
    return struct.pack(f">{len(numbers)}I", *numbers)


def u64(*numbers):
    """Numbers of eight bytes each (XDR's unsigned hyper)."""
    return struct.pack(f">{len(numbers)}Q", *numbers)


def opaque(data):
    """Bytes with their length before them and padded to a multiple of four (XDR's variable-length opaque)."""
    return struct.pack(">I", len(data)) + data + bytes(-len(data) % 4)


class Writer:
    """The same calls put the items of `given`, which are pairs of a name and a word, a number or bytes, in that order by name.
    What is not given is 0 or empty."""

    def __init__(self, given):
        self.given, self.data, self.names = given, b"", []

    def next(self, name, default):
        self.names.append(name)
        for i, (given, word) in enumerate(self.given):
            if given == name:
                del self.given[i]
                return word
        return default

    def put_mask(self, value, count=None):
        count = (value.bit_length() + 31) // 32 if count is None else count
        self.data += struct.pack(f">{count + 1}I", count, *(value >> 32 * i & 0xffffffff for i in range(count)))

    def put_bytes(self, data):
        self.data += opaque(data)

    def uint(self, name, size=4, default=0, style=None):
        value = number_of(name, self.next(name, default), 8 * size)
        self.data += value.to_bytes(size, "big")
        return value

    def fixed(self, name, size):
        data = meant(self.next(name, bytes(size)))
        if len(data) != size:
            raise Unreadable(f"{name} is not {size} bytes")
        self.data += data

    def bytes_(self, name):
        self.put_bytes(meant(self.next(name, b"")))

    def mask(self, name):
        word, count = self.next(name, "-"), ""
        if isinstance(word, str):
            word, _, count = word.partition(":")
        self.put_mask(meant_mask(word), number_of(name, count, 16) if count else None)

    def attributes(self, name):
        word = self.next(name, "{}")
        if word.startswith("raw:"):
            _, mask, count, values = word.split(":")
            self.put_mask(meant_mask(mask), int(count))
            self.put_bytes(meant(values))
            return
        inner, mask = Writer([]), 0
        pairs = [pair.partition(":")[::2] for pair in word.strip("{}").split(";") if pair]
        for attribute, _ in pairs:
            if ATTRIBUTE_NUMBERS.get(attribute) not in ATTRIBUTES:
                raise Unreadable(f"{attribute} is no attribute whose value has words (raw:MASK:COUNT:0xHEX gives the bytes of any)")
        for number, text in sorted((ATTRIBUTE_NUMBERS[attribute], text) for attribute, text in pairs):
            mask |= 1 << number
            inner.value(WORDS[number], ATTRIBUTES[number][1], text)
        self.put_mask(mask)
        self.put_bytes(inner.data)

    def value(self, name, kind, text):
        """The value of an attribute, by the letter of its kind."""
        if kind == "o":
            self.put_bytes(meant(text))
        elif kind == "M":
            self.put_mask(meant_mask(text))
        elif kind == "A":
            parts = [int(part) for part in text.split("+")] if text != "-" else []
            self.data += u32(len(parts), *parts)
        elif kind == "s" and text == "now":
            self.data += u32(0)
        else:
            is_octal = kind in "nbm" and text.startswith("0") and text.isdigit()
            words = [f"0o{text}" if is_octal else text]
            if len(FORMS[kind]) > 2:
                pair = re.fullmatch(r"([0-9]+)[.+]([0-9]+)", text)
                if not pair:
                    raise Unreadable(f"{name}:{text} is not two numbers with a point or a plus between them")
                words = map(int, pair.groups())
            numbers = [number_of(name, word, 8 * struct.calcsize(size)) for word, size in zip(words, FORMS[kind][1:])]
            self.data += (u32(1) if kind == "s" else b"") + struct.pack(FORMS[kind], *numbers)

    def many(self, name, one):
        for _ in range(self.uint(name)):
            one(self)


# Arguments and results of each operation. An item is spelled NAME:KIND or NAME:KIND=DEFAULT: n is a number of four bytes and N one of eight, x and X
# the same shown in hexadecimal, o bytes, M a mask, F attributes, and a number is that many bytes.

KINDS = {"o": "bytes_", "M": "mask", "F": "attributes"}
NUMBER_KINDS = {"n": (4, "{}"), "N": (8, "{}"), "x": (4, "0x{:x}"), "X": (8, "0x{:x}")}


def item_of(word):
    """What reads or writes the item of a spelling, called with a reader or a writer."""
    name, kind, default = re.fullmatch(r"(\w+):(\w+)=?(\d*)", word).groups()
    if kind.isdigit():
        return operator.methodcaller("fixed", name, int(kind))
    if kind in KINDS:
        return operator.methodcaller(KINDS[kind], name)
    size, style = NUMBER_KINDS[kind]
    return operator.methodcaller("uint", name, size, int(default or 0), style)


def in_turn(*items):
    """Items one behind the other: texts of spellings, and what reads or writes others."""
    made = [one for item in items for one in ([item] if callable(item) else map(item_of, item.split()))]

    def all_(c):
        for item in made:
            item(c)
    return all_


def many(count, *items):
    """A number, and so many times these items."""
    return operator.methodcaller("many", count, in_turn(*items))


def by(number, behind, otherwise=None):
    """A number, and the items that are behind it for its value; a value that has none is refused if there is nothing otherwise."""
    number_, name = item_of(number), number.partition(":")[0]
    behind, otherwise = {value: in_turn(items) for value, items in behind.items()}, otherwise and in_turn(otherwise)

    def all_(c):
        items = behind.get(value := number_(c), otherwise)
        if items is None:
            raise Unreadable(f"{name} {value}")
        items(c)
    return all_


def channel(side):
    sizes = "hdr_pad_size:n max_req_size:n=66560 max_resp_size:n=66560 max_resp_size_cached:n=66560 max_ops:n=64 max_reqs:n=16"
    return in_turn(" ".join(f"{side}_{it}" for it in sizes.split()), many(f"{side}_rdma_ird", f"{side}_ird:n"))


STATE_OWNER, BYTE_RANGE, CHANGE = "clientid:X owner:o", "offset:N length:N", "atomic:n changeid_before:N changeid_after:N"
IMPLEMENTATION = "domain:o name:o seconds:N nseconds:n"
DEVICE, WITH_STATE = "specdata1:n specdata2:n", "StateID:16 lock_seqid:n"
CREATED = by("create_mode:n", {0: "attrs:F", 1: "attrs:F", 2: "verifier:8", 3: "verifier:8 attrs:F"})
CLAIMED = by("claim_type:n", {0: "name:o", 1: "delegation_type:n", 2: "delegate_stateid:16 name:o", 3: "name:o", 4: "", 5: "delegate_stateid:16", 6: ""})
CALLBACK = by("flavor:n", {0: "", 1: in_turn("stamp:n machine_name:o uid:n gid:n", many("gids", "auxiliary_gid:n")),
                           6: "service:n handle_from_server:o handle_from_client:o"})
ARGUMENTS = {name: in_turn(items) for name, items in {
    "ACCESS": "access:n", "CLOSE": "seqid:n StateID:16", "COMMIT": "offset:N count:n",
    "CREATE": in_turn(by("type:n=2", {3: DEVICE, 4: DEVICE, 5: "linkdata:o"}, in_turn()), "name:o attrs:F"),
    "GETATTR": "attr_mask:M", "GETFH": "", "LINK": "name:o",
    "LOCK": in_turn("locktype:n=2 reclaim:n", BYTE_RANGE, by("new_lock_owner:n", {0: WITH_STATE}, in_turn("open_seqid:n", WITH_STATE, STATE_OWNER))),
    "LOCKT": in_turn("locktype:n", BYTE_RANGE, STATE_OWNER), "LOCKU": in_turn("locktype:n seqid:n StateID:16", BYTE_RANGE),
    "LOOKUP": "name:o", "LOOKUPP": "", "NVERIFY": "attrs:F",
    "OPEN": in_turn("seqid:n share_access:n=1 share_deny:n", STATE_OWNER, by("open_type:n", {0: ""}, CREATED), CLAIMED),
    "OPEN_DOWNGRADE": "StateID:16 seqid:n share_access:n share_deny:n", "PUTFH": "FileHandle:o", "PUTPUBFH": "", "PUTROOTFH": "",
    "READ": "StateID:16 offset:N count:n", "READDIR": "cookie:N cookie_verf:8 dircount:n maxcount:n attr_mask:M", "READLINK": "",
    "REMOVE": "name:o", "RENAME": "name:o newname:o", "RESTOREFH": "", "SAVEFH": "", "SETATTR": "StateID:16 attrs:F", "VERIFY": "attrs:F",
    "WRITE": "StateID:16 offset:N stable:n data:o",
    "EXCHANGE_ID": in_turn("verifier:8 owner:o eia_flags:x", by("eia_state_protect:n", {0: ""}), many("eia_client_impl_id", IMPLEMENTATION)),
    "CREATE_SESSION": in_turn("clientid:X seqid:n=1 csa_flags:x", channel("fore"), channel("back"), "cb_program:x", many("cb_sec", CALLBACK)),
    "DESTROY_SESSION": "sessionid:16", "FREE_STATEID": "StateID:16", "SECINFO_NO_NAME": "style:n",
    "SEQUENCE": "sessionid:16 seqid:n slot_id:n high_slot_id:n cache_this:n", "TEST_STATEID": many("num_stateids", "StateID:16"),
    "DESTROY_CLIENTID": "clientid:X", "RECLAIM_COMPLETE": "one_fs:n",
}.items()}

# What OPEN gives beside the open (open_delegation4): this profile's server gives none.
RECALLED, ACE = "delegation_stateid:16 delegation_recall:n", "ace_type:n ace_flags:n ace_mask:n ace_who:o"
LIMITED = by("limit_by:n=1", {1: "limit_size:N"}, in_turn("limit_blocks:n limit_block_size:n"))
DELEGATION = by("delegation_type:n", {0: "", 1: in_turn(RECALLED, ACE), 2: in_turn(RECALLED, LIMITED, ACE),
                                      3: by("why_none:n", {1: "will_tell:n", 2: "will_tell:n"}, in_turn())})
# One way to prove who calls (secinfo4); behind RPCSEC_GSS its mechanism stands.
FLAVOR = by("flavor:n", {6: "oid:o qop:n service:n"}, in_turn())
ENTRY = in_turn("cookie:N name:o attrs:F")


def listed(c):
    c.fixed("cookie_verf", 8)
    while c.uint("value_follows"):
        ENTRY(c)
    c.uint("eof")


RESULTS = {name: in_turn(items) for name, items in {
    "ACCESS": "supported:n access_rights:n", "CLOSE": "StateID:16", "COMMIT": "verifier:8", "CREATE": in_turn(CHANGE, "attr_mask:M"),
    "GETATTR": "attrs:F", "GETFH": "FileHandle:o", "LINK": CHANGE, "LOCK": "StateID:16", "LOCKU": "StateID:16",
    "OPEN": in_turn("StateID:16", CHANGE, "result_flags:n attr_mask:M", DELEGATION), "OPEN_DOWNGRADE": "StateID:16", "READ": "eof:n data:o",
    "READDIR": listed, "READLINK": "linkdata:o", "REMOVE": CHANGE,
    "RENAME": "source_atomic:n source_before:N source_after:N target_atomic:n target_before:N target_after:N",
    "WRITE": "count:n committed:n verifier:8",
    "EXCHANGE_ID": in_turn("clientid:X seqid:n eir_flags:x", by("eir_state_protect:n", {0: ""}), "minor_id:N major_id:o scope:o",
                           many("eir_server_impl_id", IMPLEMENTATION)),
    "CREATE_SESSION": in_turn("sessionid:16 seqid:n csr_flags:x", channel("fore"), channel("back")), "SECINFO_NO_NAME": many("flavors", FLAVOR),
    "SEQUENCE": "sessionid:16 seqid:n slot_id:n high_slot_id:n target_high_slot_id:n status_flags:n",
    "TEST_STATEID": many("num_results", "StateID_status:n"),
}.items()}
MASK_SET, LOCK_DENIED, NOTHING = in_turn("attr_mask:M"), in_turn(BYTE_RANGE, "locktype:n", STATE_OWNER), in_turn()


def behind(name, status):
    """What a result has behind its status, which is a number."""
    if name == "SETATTR":
        return MASK_SET
    if status == 10_010 and name in ("LOCK", "LOCKT"):
        return LOCK_DENIED
    return RESULTS.get(name, NOTHING) if status == 0 else NOTHING


def read_operation(c):
    """An operation of a call: its name and its fields; `c` is a Reader."""
    number = c.number()
    name = OPERATIONS.get(number, f"OP_{number}")
    if name not in ARGUMENTS:
        raise Unreadable(f"{name} is no operation of this profile")
    c.fields = []
    ARGUMENTS[name](c)
    return name, c.fields


def read_result(c):
    """A result of a reply: its name, status and fields."""
    name, status = OPERATIONS.get(c.number(), "OP?"), c.number()
    c.fields = []
    behind(name, status)(c)
    return name, STATUSES.get(status, str(status)), c.fields


def written(name, items, fields):
    """The bytes that a description puts of fields by name."""
    c = Writer(list(fields))
    items(c)
    if c.given:
        raise Unreadable(f"{name} has no {c.given[0][0]}, or not there; its fields here: {', '.join(c.names) or 'none'}")
    return c.data


def write_operation(name, fields):
    """The bytes of an operation from its fields by name."""
    if name not in ARGUMENTS:
        raise Unreadable(f"{name} is no operation of this profile")
    return u32(NUMBERS[name]) + written(name, ARGUMENTS[name], fields)


def op(operation, /, **fields):
    """The same from fields by name in any order, each once: words, numbers or bytes."""
    return write_operation(operation, fields.items())


def sequence_of(session, number, slot, highest, keeps=0):
    """What op("SEQUENCE", ..) gives for these numbers, for scripts of very many calls."""
    return SEQUENCE_ARGUMENTS.pack(53, session, number, slot, highest, keeps)


SEQUENCE_ARGUMENTS = struct.Struct(">I16s4I")


def status_number(status):
    """The number of a status that is given by its word or as a number."""
    return STATUS_NUMBERS[status] if status in STATUS_NUMBERS else int(status)


def write_result(name, status, fields=()):
    """The bytes of a result: its status is a word or a number, and its fields are those that the operation has under it."""
    number = status_number(status)
    return u32(NUMBERS[name], number) + written(f"a result of {name}", behind(name, number), fields)


def write_reply(xid, status, tag, results):
    """A reply of COMPOUND, without its record mark, from its status's word and the bytes of its results."""
    return u32(xid, 1, 0, 0, 0, 0, status_number(status)) + opaque(tag) + u32(len(results)) + b"".join(results)


def values_of(word):
    """The attributes that a word of `attributes` gives, as (name, word) in their order; None where it is raw."""
    if word.startswith("raw:"):
        return None
    return [tuple(pair.split(":", 1)) for pair in word.strip("{}").split(";") if pair]


def word_of(values):
    """The word of attributes (name, word)."""
    return "{" + ";".join(f"{name}:{word}" for name, word in values) + "}"


# RPC: records, calls and replies.

def record(data):
    """The bytes as a record of one fragment, with its mark (RFC 5531 section 11)."""
    return u32(LAST | len(data)) + data


class Records:
    """The records of a stream that comes in pieces; from one on that is longer than `most`, nothing more is read."""

    def __init__(self, most=66_560 + 65_536):
        self.kept, self.whole, self.lost, self.most = b"", b"", False, most

    def feed(self, piece):
        self.kept += piece
        found = []
        while len(self.kept) >= 4 and not self.lost:
            mark = int.from_bytes(self.kept[:4], "big")
            size = mark & ~LAST
            if len(self.whole) + size > self.most:
                self.lost = True
            if self.lost or len(self.kept) < 4 + size:
                break
            self.whole += self.kept[4:4 + size]
            self.kept = self.kept[4 + size:]
            if mark & LAST:
                found.append(self.whole)
                self.whole = b""
        return found


def call_head(xid, uid=0, gid=0, gids=(), procedure=1, machine=b"", stamp=0):
    """A call up to its arguments, with AUTH_SYS (RFC 5531 section 9 and appendix A)."""
    return u32(xid) + after_xid(uid, gid, tuple(gids), procedure, machine, stamp)


@functools.lru_cache(maxsize=64)
def after_xid(uid, gid, gids, procedure, machine, stamp):
    """The same without the xid, which scripts of very many calls have the same each time."""
    body = u32(stamp) + opaque(machine) + u32(uid, gid, len(gids), *gids)
    return u32(0, 2, 100_003, 4, procedure, 1) + opaque(body) + bytes(8)


def null_call(xid):
    """A call of the procedure NULL with AUTH_NONE, without its record mark."""
    return u32(xid, 0, 2, 100_003, 4, 0, 0, 0, 0, 0)


def compound(xid, operations, uid=0, gid=0, gids=(), tag=b"", minor=1, machine=b"", stamp=0):
    """A call of COMPOUND with these operations' bytes, without its record mark."""
    return call_head(xid, uid, gid, gids, 1, machine, stamp) + opaque(tag) + u32(minor, len(operations)) + b"".join(operations)


def reply_head(xid):
    """An accepted reply that succeeded, up to its results."""
    return u32(xid, 1, 0, 0, 0, 0)


def status_of(reply):
    """The status of a compound by the bytes of its reply, as a number."""
    return int.from_bytes(reply[24:28], "big")


def compound_results(results):
    """The result of a compound without a tag, of these results' bytes; its status is that of the last."""
    return (results[-1][4:8] if results else u32(0)) + u32(0, len(results)) + b"".join(results)


class Call:
    """A call: its head, the place of its arguments, and its operations as far as they can be read, with the places at which they begin; `fault`
    says why they end early, and `unread` is the name of the operation at which they do."""

    def __init__(self, data, most=None):
        c = Reader(data, most=most)
        self.data, self.operations, self.places, self.fault, self.unread = data, [], [], None, None
        self.xid, self.uid, self.gid, self.gids, self.tag, self.minor, self.procedure = c.number(), None, None, [], b"", None, None
        if c.number() != 0:
            raise Unreadable("no call")
        versions = c.number(), c.number(), c.number()
        self.procedure = c.number()
        flavor, body = c.number(), c.opaque()
        c.number()
        c.opaque()
        self.arguments = c.at
        if versions != (2, 100_003, 4) or self.procedure > 1:
            raise Unreadable(f"RPC version {versions[0]}, program {versions[1]}, version {versions[2]}, procedure {self.procedure}")
        self.flavor = flavor
        if flavor == 1:
            b = Reader(body)
            self.stamp, self.machine = b.number(), b.opaque()
            self.uid, self.gid = b.number(), b.number()
            self.gids = [b.number() for _ in range(min(b.number(), 16))]
        if self.procedure == 0:
            return
        self.tag, self.minor = c.opaque(), c.number()
        self.declared = c.number()
        try:
            for _ in range(self.declared):
                place = c.at
                self.operations.append(read_operation(c))
                self.places.append(place)
            if c.at != len(data):
                raise Unreadable("bytes behind the last operation")
        except Unreadable as fault:
            self.fault = str(fault)
            if len(self.operations) < self.declared:
                self.unread = OPERATIONS.get(int.from_bytes(data[place:place + 4], "big"))


class Reply:
    """A reply: how it ended, its results, and what could not be read of it."""

    DENIED = {0: "RPC_MISMATCH", 1: "AUTH_ERROR"}
    ACCEPTED = {0: "SUCCESS", 1: "PROG_UNAVAIL", 2: "PROG_MISMATCH", 3: "PROC_UNAVAIL", 4: "GARBAGE_ARGS", 5: "SYSTEM_ERR"}

    def __init__(self, data, most=None):
        c = Reader(data, most=most)
        self.data, self.results, self.fault = data, [], None
        self.xid = c.number()
        if c.number() != 1:
            raise Unreadable("no reply")
        if c.number():
            why = c.number()
            self.status = f"MSG_DENIED {self.DENIED.get(why, why)} {' '.join(str(c.number()) for _ in range((len(data) - c.at) // 4))}"
            return
        c.number()
        c.opaque()
        status = c.number()
        self.status = self.ACCEPTED.get(status, str(status))
        if status or c.at == len(data):
            return
        status = c.number()
        self.status = STATUSES.get(status, str(status))
        self.tag = c.opaque()
        try:
            for _ in range(c.number()):
                self.results.append(read_result(c))
            if c.at != len(data):
                raise Unreadable("bytes behind the last result")
        except Unreadable as fault:
            self.fault = str(fault)


# Scripts of `nfs41d replay` and what it puts out (docs/PROTOCOL.md).

def bytes_of(path):
    """The bytes of a file; - is standard input."""
    return sys.stdin.buffer.read() if str(path) == "-" else path.read_bytes()


def fault_of(moment, connection, size):
    """Why `nfs41d replay` refuses the head of an entry, with the number of that fault, or none."""
    if connection >= MOST_CONNECTIONS:
        return f"connection {connection} is above {MOST_CONNECTIONS - 1} (fault 2)"
    if size > MOST_PIECE:
        return f"a piece of {size} bytes, above {MOST_PIECE} (fault 3)"
    return f"moment {moment} is above 2^62 (fault 4)" if moment > MOST_MOMENT else None


def entries(script):
    """Moment, connection and piece of each entry; an empty piece closes the connection."""
    at, number = 0, 0
    while at < len(script):
        number += 1
        if at + 16 > len(script):
            raise Unreadable(f"entry {number}: the script ends inside it (fault 1)")
        moment, connection, size = struct.unpack_from(">QII", script, at)
        why = fault_of(moment, connection, size)
        if why:
            raise Unreadable(f"entry {number}: {why}" if at else f"this is no script of `nfs41d replay`: in entry 1 {why}")
        if at + 16 + size > len(script):
            raise Unreadable(f"entry {number}: the script ends inside it (fault 1)")
        yield moment, connection, script[at + 16:at + 16 + size]
        at += 16 + size


def entry(moment, connection, piece):
    """The bytes of an entry, of numbers that `nfs41d replay` takes or not."""
    return struct.pack(">QII", moment, connection, len(piece)) + piece


def whole_calls(script):
    """Moment, connection and record of each call in the order in which they became whole; None is a close."""
    streams = {}
    for moment, connection, piece in entries(script):
        if not piece:
            streams.pop(connection, None)
            yield moment, connection, None
            continue
        for call in streams.setdefault(connection, Records()).feed(piece):
            yield moment, connection, call


def replies(output):
    """Connection and record of each reply; None is a stream that became too long."""
    at = 0
    while at < len(output):
        if at + 8 > len(output):
            raise Unreadable("the output ends inside a reply")
        connection, mark = struct.unpack_from(">II", output, at)
        size = mark & ~LAST
        if at + 8 + size > len(output):
            raise Unreadable("the output ends inside a reply")
        yield connection, output[at + 8:at + 8 + size] if mark else None
        at += 8 + size


def answered(script, output):
    """Each call and close of a script as [moment, connection, record or none, the replies to it], and the replies of the output that answer no call.
    A reply is that to the latest sending of its xid on its connection that still waits, looked at from the end; one more is a second reply to it. A
    stream that became too long is with the reply before it."""
    calls, waiting, taken, others, ended = [[*it, []] for it in whole_calls(script)], {}, {}, [], []
    for call in calls:
        if call[2] is not None:
            waiting.setdefault((call[1], call[2][:4]), []).append(call)
    for answer in reversed(list(replies(output))):
        if answer[1] is None:
            ended.append(answer)
            continue
        key = answer[0], answer[1][:4]
        if waiting.get(key):
            taken[key] = waiting[key].pop()
        (taken[key][3] if key in taken else others).extend([*ended, answer])
        ended = []
    others += ended
    for found in (others, *(call[3] for call in calls)):
        found.reverse()
    return calls, others
