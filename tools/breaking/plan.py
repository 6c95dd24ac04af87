"""Plans of faults: text, a rule a line (docs/CLIENTS.md). A rule says which call it takes, how often, and what is done to it."""
import random
from typing import NamedTuple

import lines
import nfs4
from words import nearest

MOST_SECONDS, MOST_PLACE = 86_400, 1 << 20
ANY = ("COMPOUND", "NULL")
# The faults by their words: what comes after them (S seconds, STATUS), and what may be told behind `at` (B bytes, K an operation).
FAULTS = {
    "call lost": ("", ""), "call twice": ("", ""), "call held": ("S", ""), "reply lost": ("", ""), "reply twice": ("", ""),
    "reply held": ("S", ""), "reply after next": ("", ""), "cut before call": ("", ""), "cut inside call": ("", "B"),
    "cut after call": ("", ""), "cut before reply": ("", ""), "cut inside reply": ("", "B"), "cut after reply": ("", ""),
    "answer": ("STATUS", "K"), "cut": ("", ""), "stop": ("S", ""), "hand over": ("", ""),
}
# Those that are done to all connections, and take no call.
OF_ALL = ("cut", "stop", "hand over")


class Wrong(Exception):
    """A line that is no rule."""


class Fault(NamedTuple):
    """What is done: its words, its seconds, its status, and the byte or the operation at which."""
    what: str
    seconds: float = 0
    status: int = 0
    place: int = None

    def __str__(self):
        told = [self.what, *([f"{self.seconds:g}"] if self.seconds else []), *([nfs4.STATUSES[self.status]] if self.status else [])]
        return " ".join(told + ([f"at {self.place}"] if self.place is not None else []))


class Rule:
    """A rule: `operation` and `fields` that a call must have, or the number of the call, or the seconds; how often; and the fault."""

    def __init__(self, line, text):
        self.line, self.text = line, text
        self.operation, self.fields, self.number = None, [], None
        self.every = self.after = None
        self.how, self.times = "times", 1
        self.fault = None
        # how many calls fitted, and how many times the fault was done
        self.fitted = self.done = 0

    def place_in(self, call):
        """The operation of a call that is the one of the rule, counted from 1; none if the call does not fit."""
        if call is None:
            return None
        if self.operation in ANY:
            return 1 if call.procedure == (self.operation == "COMPOUND") else None
        for place, (name, fields) in enumerate(call.operations, 1):
            if name == self.operation and all(field in fields for field in self.fields):
                return place
        return None

    def takes(self, number, call, seconds):
        """The place of the operation that is taken, if the rule takes this call at this time; else none."""
        if self.fault.what in OF_ALL and self.operation is None and self.number is None:
            return None
        if self.number is not None:
            place = 1 if self.number == number else None
        elif self.operation is not None:
            place = self.place_in(call)
        else:
            place = 1 if call is not None and call.procedure == 1 and self.is_due(seconds) else None
        if place is None or self.fault.what == "answer" and not self.can_answer(call):
            return None
        self.fitted += 1
        chosen = {"always": True, "times": self.fitted <= self.times, "each": self.fitted % self.times == 0}[self.how]
        return place if chosen else None

    def can_answer(self, call):
        return call is not None and call.procedure == 1 and not call.fault and len(call.operations) >= (self.fault.place or 1)

    def is_due(self, seconds):
        """Whether the time of a timed rule has come; the next one is then set."""
        if self.after is not None:
            return seconds >= self.after
        if seconds < self.next:
            return False
        self.next = seconds + self.every
        return True

    def moments(self):
        """The seconds at which a timed rule of all connections is done: the first, and how far the next ones are apart (0: there is none)."""
        if self.fault.what not in OF_ALL or self.operation is not None or self.number is not None:
            return None
        return (self.every, self.every) if self.every else (self.after, 0)


def fields_of(operation):
    """The names of all fields that an operation can have."""
    found = []
    for chosen in range(7):
        c = nfs4.Writer([])
        c.uint = lambda name, size=4, default=0, style=None, c=c, chosen=chosen: (c.names.append(name), min(chosen, 6))[1]
        try:
            nfs4.ARGUMENTS[operation](c)
        except nfs4.Unreadable:
            pass
        found += c.names
    return sorted(set(found))


def as_shown(operation, field, value):
    """How the operation's field is shown if it has this value, in whichever of its forms has the field."""
    why = nfs4.Unreadable(f"{field}={value} fits no form of {operation}")
    for chosen in range(7):
        c = nfs4.Writer([(field, value)])
        c.uint = lambda name, size=4, default=0, style=None, c=c, chosen=chosen: nfs4.Writer.uint(c, name, size, default if name == field else chosen, style)
        try:
            nfs4.ARGUMENTS[operation](c)
            reader = nfs4.Reader(c.data)
            nfs4.ARGUMENTS[operation](reader)
            if not c.given:
                return dict(reader.fields)[field]
        except (nfs4.Unreadable, ValueError) as fault:
            why = fault if field in c.names and not c.given else why
    raise why


class Words:
    """The words of a line, taken one behind the other."""

    def __init__(self, words):
        self.words, self.at = words, 0

    def next(self, what):
        if self.at == len(self.words):
            raise Wrong(f"{what} is missing at the end")
        self.at += 1
        return self.words[self.at - 1]

    def peek(self):
        return self.words[self.at] if self.at < len(self.words) else None

    def number(self, what, least, most, kind=int):
        word = self.next(what)
        try:
            value = kind(word)
        except ValueError:
            raise Wrong(f"{word!r} is no {what}") from None
        if not least <= value <= most:
            raise Wrong(f"{what} {word} is not from {least} to {most}")
        return value

    def seconds(self):
        return self.number("number of seconds", 0.001, MOST_SECONDS, float)


def read_condition(words, rule):
    """`when OPERATION [with FIELD=VALUE ..]`, `when call N`, `every S` or `after S`."""
    first = words.next("a rule")
    if first == "every":
        rule.every = rule.next = words.seconds()
        rule.how = "always"
    elif first == "after":
        rule.after = words.seconds()
    elif first != "when":
        raise Wrong(f"a rule begins with when, every or after, and not with {first!r}{nearest(first, ['when', 'every', 'after'])}")
    elif words.peek() == "call":
        words.next("call")
        rule.number = words.number("number of a call", 1, 2**32)
    else:
        name = words.next("an operation")
        known = [*nfs4.ARGUMENTS, *ANY]
        if name not in known:
            raise Wrong(f"there is no operation {name!r}{nearest(name, known)}")
        rule.operation = name
        if words.peek() == "with":
            words.next("with")
            rule.fields = read_fields(words, name)


def read_fields(words, operation):
    """The fields behind `with`, at least one."""
    found = []
    known = fields_of(operation) if operation in nfs4.ARGUMENTS else []
    while words.peek() and "=" in words.peek() or not found:
        name, equals, value = words.next("FIELD=VALUE").partition("=")
        if not equals:
            raise Wrong(f"behind `with` comes FIELD=VALUE, and not {name!r}")
        if name not in known:
            raise Wrong(f"{operation} has no field {name!r}{nearest(name, known)}; its fields: {', '.join(known) or 'none'}")
        found.append((name, read_value(operation, name, value)))
    return found


def read_value(operation, name, value):
    """A value that the operation's field can have, written as tools/show prints it."""
    try:
        shown = as_shown(operation, name, value)
    except (nfs4.Unreadable, ValueError) as fault:
        raise Wrong(f"{operation} never has {name}={value}: {fault}") from None
    if shown != value:
        raise Wrong(f"{operation} never has {name}={value}: that is shown as {name}={shown}")
    return value


def read_times(words, rule):
    """`always`, `times N` or `each N`; nothing is once. A timed rule has none."""
    if words.peek() not in ("always", "times", "each"):
        return
    if rule.every or rule.after or rule.number:
        raise Wrong(f"{words.peek()!r} belongs to `when OPERATION` alone")
    rule.how = words.next("always")
    if rule.how != "always":
        rule.times = words.number("number of times", 1, 2**32)


def read_fault(words, rule):
    rest = words.words[words.at:]
    what = next((" ".join(rest[:n]) for n in (3, 2, 1) if len(rest) >= n and " ".join(rest[:n]) in FAULTS), None)
    if what is None:
        told = " ".join(rest)
        raise Wrong(f"there is no fault {told!r}{nearest(told, FAULTS)}" if rest else "the fault is missing at the end")
    words.at += len(what.split())
    behind, place = FAULTS[what]
    seconds = words.seconds() if behind == "S" else 0
    status = read_status(words.next("a status")) if behind == "STATUS" else 0
    at = None
    if place and words.peek() == "at":
        words.next("at")
        at = words.number("byte", 1, MOST_PLACE) if place == "B" else words.number("operation", 1, 64)
    if words.peek() is not None:
        raise Wrong(f"{words.peek()!r} has no meaning behind {what!r}")
    if what == "answer" and rule.operation == "NULL":
        raise Wrong("NULL has no status to answer")
    rule.fault = Fault(what, seconds, status, at)


def read_status(word):
    """The number of a status, whose word may lack NFS4ERR_."""
    full = word if word in nfs4.STATUS_NUMBERS else f"NFS4ERR_{word}"
    if full == "NFS4_OK":
        raise Wrong("NFS4_OK is no fault")
    if full not in nfs4.STATUS_NUMBERS:
        raise Wrong(f"there is no status {word!r}{nearest(full, nfs4.STATUS_NUMBERS)}")
    return nfs4.STATUS_NUMBERS[full]


def rule_of(line, text):
    """The rule of a line."""
    words, rule = Words(text.split()), Rule(line, " ".join(text.split()))
    read_condition(words, rule)
    read_times(words, rule)
    read_fault(words, rule)
    return rule


class Plan:
    """Rules in their order. The first that takes a call is the one that does its fault."""

    def __init__(self, rules):
        self.rules = rules

    def fault_for(self, number, call, seconds):
        """The rule that takes a call and its fault, whose place is set if it is an operation's; else nothing."""
        for rule in self.rules:
            place = rule.takes(number, call, seconds)
            if place is not None:
                fault = rule.fault
                return rule, fault._replace(place=fault.place or place) if fault.what == "answer" else fault
        return None, None


def plan_of(text):
    """The plan of a text, with at least one rule."""
    rules = []
    for number, line in enumerate(text.splitlines(), 1):
        line = lines.COMMENT.sub("", line).strip()
        if not line:
            continue
        try:
            rules.append(rule_of(number, line))
        except Wrong as fault:
            raise Wrong(f"line {number}: {fault}") from None
    if not rules:
        raise Wrong("there is no rule in it")
    return Plan(rules)


# What --seed chooses from. A lost reply is one whose connection is cut: a client of version 4.1 waits for a reply as long as its connection
# stands (RFC 8881 section 2.9.2).
CHOSEN = ["cut before call", "cut inside call", "cut after call", "cut before reply", "cut inside reply", "cut after reply",
          "reply held 0.3", "reply after next", "call twice", "call held 0.3", "answer NFS4ERR_DELAY at 1", "answer NFS4ERR_DELAY at 2"]


class RandomPlan(Plan):
    """Faults at random: one of about `every` compounds has one. The same seed chooses the same for the same calls."""

    def __init__(self, seed, every):
        super().__init__([rule_of(None, f"when COMPOUND always {fault}") for fault in CHOSEN])
        self.chance, self.every = random.Random(seed), every

    def fault_for(self, number, call, seconds):
        lot, rule = self.chance.random(), self.chance.choice(self.rules)
        if call is None or lot * self.every >= 1 or rule.takes(number, call, seconds) is None:
            return None, None
        return rule, rule.fault
