"""The compounds of a slot (RFC 8881 section 2.10.6): what is sent next, and what is sent again."""
import repeats

# SEQUENCE's refusals that say that the slot has executed under this number
HAS_RUN = ("NFS4ERR_SEQ_FALSE_RETRY", "NFS4ERR_RETRY_UNCACHED_REP")
# how repeats.differences begins with what may be another one
MAY_DIFFER = ("xid ", "gid ", "gids ", "high_slot_id of SEQUENCE ")
# SEQUENCE's refusals after which a smaller compound is the way on, and by what it is smaller
SMALLER = {"NFS4ERR_TOO_MANY_OPS": lambda call: call.declared, "NFS4ERR_REQ_TOO_BIG": lambda call: len(call.data)}
# and those after which one with another reply is
OTHER_REPLY = ("NFS4ERR_REP_TOO_BIG", "NFS4ERR_REP_TOO_BIG_TO_CACHE")
ROUND = 1 << 32
MISORDERED = "NFS4ERR_SEQ_MISORDERED"
# how many compounds are kept that were refused and passed over: a client that asks for them does so at once
KEPT = 64


class Sent:
    """A compound on a slot, from its first sending on: `sendings` are the frames, of which the last was on `connection`."""

    def __init__(self, call, connection, frame, moment):
        self.call, self.connection, self.moment, self.sendings = call, connection, moment, [frame]
        fields = dict(call.operations[0][1])
        self.session, self.number, self.slot, self.highest = fields["sessionid"], *(int(fields[name]) for name in ("seqid", "slot_id", "high_slot_id"))
        self.user, self.xids = (call.flavor, call.uid), {call.xid}
        # the frames of its reply, of a reply that bears its xid and is another's, and of the compound that was sent though it waited
        self.answered = self.other = self.passed = None
        # whether the server has answered that it ran, if only to a client that did not get that reply
        self.has_run = False
        # whether another compound was sent on its slot since: then the client has taken its reply
        self.is_over = False
        self.refused = None

    @property
    def name(self):
        return f"number {self.number}"

    @property
    def is_lone(self):
        return self.call.declared == 1

    def is_answer(self, result):
        """Whether a result of SEQUENCE is that of this compound."""
        fields = dict(result[2])
        return (fields["sessionid"], fields["seqid"], fields["slot_id"]) == (self.session, str(self.number), str(self.slot))


class Slot:
    """A slot of a session. `is_known` says that all its compounds are in the capture, from the first one on."""

    def __init__(self, place, is_known, found):
        self.place, self.is_known, self.found = place, is_known, found
        self.last, self.count, self.again, self.moved = None, 0, 0, 0
        # compounds that were passed over while they waited; those that were passed over when they were refused as misordered; and the first number behind
        # what is not known
        self.open_ends, self.refused_ends, self.floor = [], [], None

    def forget(self):
        """Compounds or replies may be lacking from here on."""
        if self.last:
            self.last.is_over = True
        self.last, self.is_known, self.open_ends, self.refused_ends = None, False, [], []

    def send(self, new, has_ended):
        """Takes a sending, and says of which compound it is: of this new one, or of the one before, sent again. `has_ended` tells
        of a connection whether it has ended."""
        last = self.last
        if last is None:
            if self.is_known and new.number != 1:
                self.say("numbers", (new.sendings[0],), f"the first number is {new.number}")
            self.floor = None if self.is_known else new.number
            return self.take(new)
        if new.number == last.number:
            return self.same_number(last, new, has_ended)
        ahead = (new.number - last.number) % ROUND
        if asked := self.asked_by(new):
            ends, how = (self.open_ends, "had no reply") if asked in self.open_ends else (self.refused_ends, "was misordered")
            ends.remove(asked)
            text = f"{new.name} ({names_of(asked.call)}) {how} when the next number was sent, which was misordered; a lone SEQUENCE asks whether it ran"
            self.say("asked-instead", (asked.sendings[-1], asked.passed, new.sendings[0]), text)
        elif ahead != 1 and not self.is_before_all(new):
            how = f"{ahead - 1} skipped" if ahead < ROUND // 2 else f"{ROUND - ahead} back"
            self.say("numbers", (last.sendings[-1], new.sendings[0]), f"{new.name} comes after {last.name}: {how}")
        elif ahead == 1:
            self.next_number(last, new)
        return self.take(new)

    def is_before_all(self, new):
        """Whether it goes back to where the capture lacks bytes, as a lone SEQUENCE does that asks for a compound there."""
        return self.floor is not None and new.number < self.floor and self.last.refused == MISORDERED

    def asked_by(self, new):
        """The compound that was given up, and of which a lone SEQUENCE asks whether it ran, where a later number was refused as misordered."""
        if not new.is_lone or self.last.refused != MISORDERED:
            return None
        return next((sent for sent in (*self.open_ends, *self.refused_ends) if sent.number == new.number), None)

    def take(self, new):
        if self.last:
            self.last.is_over = True
            if self.last.has_run:
                # nothing is asked of its operations any more
                self.last.call = None
        self.last, self.count = new, self.count + 1
        return new

    def next_number(self, last, new):
        if last.answered is not None or last.refused in HAS_RUN:
            return
        if last.refused:
            text = f"{new.name} comes after {last.name} ({names_of(last.call)}), whose SEQUENCE was refused with {last.refused} and did not use it up"
            self.say("given-up", (last.sendings[-1], new.sendings[0]), text)
            if last.refused == MISORDERED:
                last.passed = new.sendings[0]
                self.refused_ends = [*self.refused_ends, last][-KEPT:]
        elif last.other is not None:
            text = f"{new.name} is sent after a reply that has the xid of {last.name} and another SEQUENCE"
            self.say("other-reply", (last.sendings[-1], last.other, new.sendings[0]), text)
        else:
            # whether the reply comes later tells what it is
            last.passed = new.sendings[0]
            self.open_ends.append(last)

    def same_number(self, last, new, has_ended):
        frames = (last.sendings[-1], new.sendings[0])
        is_same = repeats.compared(new.call) == repeats.compared(last.call)
        if is_same and new.user == last.user:
            return self.sent_again(last, new, has_ended, frames)
        if last.refused in OTHER_REPLY or (size := SMALLER.get(last.refused)) and size(new.call) < size(last.call):
            return self.take(new)
        if last.refused and last.answered is None:
            self.say("refused-number", frames, f"{new.name} is another compound; the first was refused with {last.refused}")
        elif last.answered is None and not new.xids & last.xids:
            self.say("asked-instead", frames, f"{new.name}: {names_of(new.call)} in place of {names_of(last.call)}, which waits")
        elif is_same:
            self.say("other-user", frames, f"{new.name} by {user_of(new)}, and before by {user_of(last)}")
        else:
            self.say("other-bytes", frames, f"{new.name}: {difference(last.call, new.call)}")
        return self.take(new)

    def sent_again(self, last, new, has_ended, frames):
        if not has_ended(last.connection):
            self.say("still-connected", frames, f"{new.name} is sent again, and the connection of the first sending stands")
        self.again += 1
        self.moved += new.highest != last.highest
        last.sendings.append(new.sendings[0])
        last.xids |= new.xids
        # (a reply that came before was not taken)
        last.connection, last.refused, last.answered = new.connection, None, None
        return last

    def reply(self, sent, frame, result):
        """Takes a reply that has the xid of a sending, by its result of SEQUENCE; whether it is the first that says that the compound has run."""
        if result[1] != "NFS4_OK":
            if sent.answered is None:
                sent.refused = result[1]
        elif not sent.is_answer(result):
            sent.other = frame
        elif sent.answered is None:
            sent.answered = frame
            if sent in self.open_ends:
                self.open_ends.remove(sent)
                text = f"{sent.name} had its reply after the next number was sent"
                self.say("two-waiting", (sent.sendings[0], sent.passed, frame), text)
            is_first, sent.has_run = not sent.has_run, True
            return is_first
        return False

    def finish(self):
        """What had no reply to the end."""
        for sent in self.open_ends:
            text = f"{sent.name} ({names_of(sent.call)}) had no reply when the next number was sent, and none later"
            self.say("given-up", (sent.sendings[-1], sent.passed), text)
        self.open_ends = []

    def say(self, rule, frames, text):
        self.found(rule, frames, text, self.place)


def user_of(sent):
    return f"uid {sent.call.uid}" if sent.call.flavor == 1 else f"flavor {sent.call.flavor}"


def names_of(call):
    """The operations of a compound behind its SEQUENCE."""
    names = [name for name, _ in call.operations[1:]]
    return ", ".join(names) + (" .." if call.fault else "") if names or call.fault else "a lone SEQUENCE"


def difference(first, second):
    """In what two compounds under one number differ, but for what may be another one when it is sent again."""
    found = [words for words in repeats.differences(first, second) if not words.startswith(MAY_DIFFER)]
    return "; ".join(found) or "other bytes"
