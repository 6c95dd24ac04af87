"""Scripts with symbols: an identifier in a call that an earlier reply gave is a name for that place of that reply, so that the same
script can be said to two servers. Operations are names and fields in the words of `nfs4`."""
import itertools
from dataclasses import dataclass, field, replace
from typing import NamedTuple

import nfs4

SPECIAL = ("0" * 24, "f" * 24)
ANONYMOUS, BYPASS, CURRENT, INVALID = "0x" + "0" * 32, "0x" + "f" * 32, "0x00000001" + "0" * 24, "0xffffffff" + "0" * 24
# Fields of calls that hold an identifier, and its kind.
IDENTIFIERS = {"FileHandle": "fh", "sessionid": "session", "clientid": "client", "cookie": "cookie", "StateID": "state", "delegate_stateid": "state"}
# Attributes whose value is an identifier, or is one server's own.
OWN_VALUES = {"Filehandle": "fh", "FileId": "fileid", "Change": "change", "Time_Metadata": "time", "Time_Modify": "time", "Time_Access": "time"}
numbers = itertools.count(1)


class Sym(NamedTuple):
    """A name of an identifier: its kind, and a number among the script's names."""
    kind: str
    serial: int

    def __str__(self):
        return f"{self.kind}{self.serial}" if self.serial else "base"


class State(NamedTuple):
    """A stateid that a reply gave: its seqid as it stands in the call, and the name of the rest."""
    seqid: int
    other: Sym

    def __str__(self):
        return f"{self.other}/{self.seqid}"


class Turn(NamedTuple):
    """A sequence number, counted from the slot's last one (of CREATE_SESSION: from the first that the client was told)."""
    ahead: int

    def __str__(self):
        return {1: "next", 0: "same"}.get(self.ahead, f"last{self.ahead:+}")


class Values(tuple):
    """Attributes as (name, word or Sym)."""

    def __str__(self):
        return nfs4.word_of(self)


BASE = Sym("fh", 0)  # the directory that stands for the root


@dataclass
class Op:
    """An operation: its fields are words of nfs4, or symbols. `raw` is a record's bytes as they stand, where it is no operation of nfs4."""
    name: str
    fields: list
    id: int = field(default_factory=lambda: next(numbers))

    def get(self, name, default=None):
        return next((word for key, word in self.fields if key == name), default)

    def with_(self, **changes):
        """The same operation with some fields changed."""
        return replace(self, fields=[(key, changes.get(key, word)) for key, word in self.fields])


def do(operation, /, **fields):
    """The operation with these fields."""
    return Op(operation, list(fields.items()))


@dataclass
class Step:
    """One COMPOUND of a caller. `again` is the id of the step that it repeats byte for byte; steps of one `flight` that is not 0 are sent
    before any of them is answered; `wait` seconds pass before, where there are no operations nothing else."""
    ops: list
    conn: int = 0
    uid: int = 0
    gid: int = 0
    gids: tuple = ()
    tag: str = "0x"
    again: int = 0
    flight: int = 0
    wait: float = 0
    minor: int = 1
    id: int = field(default_factory=lambda: next(numbers))

    def with_(self, **changes):
        return replace(self, **changes)

    @property
    def sequence(self):
        return self.ops[0] if self.ops and self.ops[0].name == "SEQUENCE" else None


@dataclass
class Script:
    """Steps, and which places of replies give which symbols: (id of the operation, place) -> Sym."""
    steps: list
    binds: dict

    def with_steps(self, steps):
        return Script(steps, self.binds)


def compares_a_time(op):
    """Whether it compares a time that a reply gave with what it is now."""
    return op.name in ("VERIFY", "NVERIFY") and isinstance(op.get("attrs"), Values) and any(name.startswith("Time_") for name, _ in op.get("attrs"))


def is_special(stateid):
    return stateid[10:] in SPECIAL


def entries_of(fields):
    """The entries of a READDIR: (name, cookie, attributes' word)."""
    found, current = [], {}
    for key, word in fields:
        if key in ("cookie", "name", "attrs"):
            current[key] = word
        if key == "attrs":
            found.append((current["name"], current["cookie"], current["attrs"]))
    return found


def given(name, fields):
    """The identifiers that a result gives: (place, kind, word)."""
    for key, word in fields:
        if key == "StateID" and not is_special(word) and name != "TEST_STATEID":
            yield "StateID", "state", word[10:]
        elif key == "FileHandle":
            yield key, "fh", word
        elif key == "clientid" and name == "EXCHANGE_ID" or key == "sessionid" and name == "CREATE_SESSION":
            yield key, IDENTIFIERS[key], word
        elif key == "attrs" and name == "GETATTR":
            yield from given_by_attributes(word, ())
    if name == "READDIR":
        for entry, cookie, attrs in entries_of(fields):
            yield ("cookie", entry), "cookie", cookie
            yield from given_by_attributes(attrs, (entry,))


def given_by_attributes(word, of):
    for attribute, value in nfs4.values_of(word) or ():
        if attribute in OWN_VALUES:
            yield (attribute, *of), OWN_VALUES[attribute], value


def lifted(name, fields, symbol):
    """The fields of a call with `symbol(kind, word)` in the place of each identifier."""
    out = []
    for key, word in fields:
        kind = IDENTIFIERS.get(key)
        if kind == "state":
            if not is_special(word):
                other = symbol("state", word[10:])
                word = State(int(word[2:10], 16), other) if isinstance(other, Sym) else word
        elif kind == "cookie":
            word = symbol(kind, word) if int(word, 0) > 2 else word
        elif kind:
            word = symbol(kind, word)
        elif key == "attrs" and name in ("VERIFY", "NVERIFY") and (values := nfs4.values_of(word)):
            word = Values((attribute, symbol(OWN_VALUES[attribute], value) if attribute in OWN_VALUES else value) for attribute, value in values)
        out.append((key, word))
    return out


def lowered(fields, look, turn):
    """The fields in plain words: `look(sym)` is a symbol's value, `turn(ahead)` a sequence number."""
    out = []
    for key, word in fields:
        if isinstance(word, State):
            word = f"0x{word.seqid & 0xffffffff:08x}{look(word.other)}"
        elif isinstance(word, Turn):
            word = str(turn(word.ahead) & 0xffffffff)
        elif isinstance(word, Sym):
            word = look(word)
        elif isinstance(word, Values):
            word = nfs4.word_of([(attribute, look(value) if isinstance(value, Sym) else value) for attribute, value in word])
        out.append((key, word))
    return out


def written(name, fields):
    """The bytes of an operation in plain words; `bytes` is one whose words are its bytes."""
    if name == "bytes":
        return nfs4.meant(dict(fields)["data"])
    return nfs4.write_operation(name, fields)
