"""What is known of both sides at once while a script is played: which value of the one stands for which of the other."""
import copy
from dataclasses import dataclass, field

import nfs4

from .symbols import BASE


@dataclass
class Twin:
    """The pairing of the two sides. It can be copied, so that an order of calls in flight can be tried."""
    values: dict = field(default_factory=dict)     # Sym -> (reference's word, server's word)
    pairs: tuple = field(default_factory=lambda: ({}, {}))  # (kind, word) of each side -> the number of its pair
    slots: dict = field(default_factory=dict)      # (session's Sym, slot) -> the slot's last number
    bases: dict = field(default_factory=dict)      # client's Sym -> the first number of CREATE_SESSION, of both sides
    changes: dict = field(default_factory=dict)    # the reference's handle -> {its change: the server's}
    verifiers: dict = field(default_factory=dict)  # cookie's Sym -> the server's cookie verifier
    opens: dict = field(default_factory=dict)      # the reference's stateid -> (client, owner, access, deny, user)
    kinds: dict = field(default_factory=dict)      # the reference's handle -> type
    marks: dict = field(default_factory=dict)      # the reference's handle -> how it was made: 'default', 'group', 'exclusive'
    homes: dict = field(default_factory=dict)      # the reference's handle -> that of the directory in which it was made
    ready: set = field(default_factory=set)        # clients (halves of session ids) that said RECLAIM_COMPLETE
    created: set = field(default_factory=set)      # (client's Sym, number) of sessions that were made
    owners: dict = field(default_factory=dict)     # a client's number in the reference -> its owner
    users: dict = field(default_factory=dict)      # a client's owner -> the users that asked for it
    moved: dict = field(default_factory=dict)      # the reference's handle -> the moments at which RENAME moved it
    stirred: set = field(default_factory=set)      # handles that were moved since their change was last told
    modes: set = field(default_factory=set)        # handles of links whose mode was set
    refused: set = field(default_factory=set)      # clients' Syms of which a CREATE_SESSION was refused for its channel
    written: list = field(default_factory=list)    # the server's verifier of writes

    def copy(self):
        return copy.deepcopy(self)

    def meet(self, kind, mine, theirs):
        """The pair is learnt; answers what both sides have where it is not one to one."""
        left, right = self.pairs
        a, b = left.get((kind, mine)), right.get((kind, theirs))
        if a is None and b is None:
            left[kind, mine] = right[kind, theirs] = len(left) + len(right)
            return None
        if a == b:
            return None
        if a is None:
            left[kind, mine] = b
            return "new", "one given before"
        if b is None:
            right[kind, theirs] = a
            return "one given before", "new"
        return "one given before", "another given before"

    def is_directory(self, handle):
        return self.kinds.get(handle) == "2" or BASE in self.values and handle == self.values[BASE][0]


def values_of(word):
    """A dictionary of the attributes of a word, or None where they cannot be read. A mask may have more words of zero at its end than it needs."""
    if word.startswith("raw:"):
        _, mask, _, values = word.split(":")
        shortest = nfs4.Writer([])
        shortest.put_mask(nfs4.meant_mask(mask))
        shortest.put_bytes(nfs4.meant(values))
        reader = nfs4.Reader(shortest.data)
        reader.attributes("attrs")
        [(_, word)] = reader.fields
    pairs = nfs4.values_of(word)
    return None if pairs is None else dict(pairs)


def moment_of(word):
    """Seconds of a time's word, as a number."""
    seconds, _, part = word.replace("+", ".").partition(".")
    return int(seconds) + int(part) / 1e9
