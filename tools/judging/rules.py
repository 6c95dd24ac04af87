"""What a client is judged by: one table. Each rule has the section of RFC 8881 that it comes from, which are from memory: the authors had no text of the RFC
at hand. And it has the promises of docs/PROMISES.md of which it is a premise: where it is broken, these say nothing."""
from typing import NamedTuple

from words import nearest

ONCE = ("Exactly once over a network", "As if over a perfect wire", "Atomic, and in real time")
KEPT = ("A granted lock is kept", "A granted open is kept", "Nobody else touches what is yours")
MADE = ("One session a CREATE_SESSION",)
PROMISES = (*ONCE, *KEPT, *MADE)


class Rule(NamedTuple):
    """A rule: its section, the promises of which it is a premise, and what it asks of a client."""
    section: str
    premise_of: tuple
    says: str


RULES = {
    # the compounds of a slot
    "two-waiting": Rule("2.10.6.2", ONCE, "A slot has one compound waiting at a time."),
    "given-up": Rule("2.10.6.2", (), "The next compound of a slot is sent when the last one has its reply."),
    "asked-instead": Rule("2.10.6.2", (), "A compound that waits is not replaced by another of its number, such as a lone SEQUENCE."),
    "other-bytes": Rule("2.10.6.1.3.1", ONCE, "What is sent again under a number is the same, but for sa_highest_slotid."),
    "other-user": Rule("2.10.6.1.3.1", ONCE, "It is sent again by the same user."),
    "refused-number": Rule("2.10.6.1.2", (), "A number whose SEQUENCE was refused goes on with the same compound."),
    "numbers": Rule("2.10.6.1", ONCE, "The numbers of a slot begin at 1 and go up by one."),
    "other-reply": Rule("18.46.3", ONCE, "A reply is taken whose SEQUENCE has the session, the slot and the number of the compound."),
    "one-xid": Rule("2.10.6.2 and of RFC 5531 section 9", ONCE, "An xid is used for one compound."),
    "still-connected": Rule("2.10.6.2", (), "A compound is sent again only if the connection of its last sending has ended."),
    # sessions
    "slot-beyond": Rule("18.46.3", (), "Slots, and sa_highest_slotid, are below the number of slots that CREATE_SESSION gave."),
    "wrong-session": Rule("18.46.3", (), "A session is one that a reply to CREATE_SESSION gave, and that was not destroyed."),
    "sequence-first": Rule("18.46.3", (), "A compound begins with SEQUENCE, or is one of the operations that stand alone."),
    "session-numbers": Rule("18.36.4", MADE, "The numbers of CREATE_SESSION begin with that of EXCHANGE_ID and go up by one."),
    # leases and what they hold
    "lease": Rule("8.3", KEPT, "From the reply to one renewal to the sending of the next there is at most a lease."),
    "reclaim-complete": Rule("18.51.3", (), "RECLAIM_COMPLETE is sent once, before the first OPEN or LOCK that reclaims nothing."),
    # stateids
    "after-close": Rule("18.2.3", (), "A stateid is not used after its CLOSE."),
    "after-free": Rule("18.38.3", (), "A stateid is not used after its FREE_STATEID."),
    "old-seqid": Rule("8.2.2", (), "The seqid of a stateid is 0 or the last that a reply gave."),
    "never-given": Rule("8.2.4", (), "A stateid is one that a reply gave to this client."),
    # what should be otherwise, though no sentence of the RFC forbids it
    "opens-left": Rule("18.2.3", (), "Opens are given back by CLOSE."),
    "locks-left": Rule("18.12.3", (), "Locks are given back by LOCKU or CLOSE."),
    "unsupported": Rule("15.1.1.5", (), "An operation that the server does not have is not called again."),
}


# Where this one is found, the promises hold if the client did not take those replies: it may have given the compounds up.
IF_TAKEN = "two-waiting"


class Finding(NamedTuple):
    """What was found: the rule, the client, where (a slot, a stateid), in which frames, and in words."""
    rule: str
    client: str
    place: str
    frames: tuple
    text: str


class Known(NamedTuple):
    """What is expected of a client: findings of a rule with these words in their text, and why."""
    rule: str
    words: str
    reason: str

    def expects(self, finding):
        return finding.rule == self.rule and self.words in finding.text


def read_known(text):
    """The expected findings that a text names, in lines of a rule, words, and behind # the reason."""
    found = []
    for number, line in enumerate(text.splitlines(), 1):
        told, _, reason = line.partition("#")
        rule, _, words = told.strip().partition(" ")
        if rule and rule not in RULES:
            raise ValueError(f"line {number}: there is no rule {rule!r}{nearest(rule, RULES)}")
        if rule and not reason.strip():
            raise ValueError(f"line {number}: no reason is behind a #")
        found += [Known(rule, words.strip(), reason.strip())] if rule else []
    if not found:
        raise ValueError("no line names a rule")
    return found
