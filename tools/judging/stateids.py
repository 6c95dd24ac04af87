"""The stateids of a client (RFC 8881 section 8.2): which its opens and lock states have, what is held under them, and how they are used.

A client that sends several compounds at once may have a reply on its way to those that use the stateid. So what a reply says counts against it when
it has sent the next compound on the slot of that reply: by then it has taken it."""

SPECIAL = ("0x" + "00" * 12, "0x" + "ff" * 12)
# operations that use a stateid, but for TEST_STATEID, which may ask for any
USING = ("CLOSE", "LOCK", "LOCKU", "OPEN_DOWNGRADE", "READ", "WRITE", "SETATTR", "FREE_STATEID")
# operations after which there is another current stateid, or none
MOVING = ("OPEN", "OPEN_DOWNGRADE", "LOCK", "LOCKU", "PUTFH", "PUTROOTFH", "PUTPUBFH", "LOOKUP", "LOOKUPP", "CREATE")
TO_END = 2**64 - 1


class Current:
    """The current and the saved stateid of a compound that runs (RFC 8881 section 16.2.3.1.2)."""

    MEANT = "0x" + "00000001" + "00" * 12

    def __init__(self):
        self.stateid = self.saved = None

    def meant(self, asked):
        """Fields of an operation with the stateid that they mean."""
        return [(name, self.stateid if (name, word) == ("StateID", self.MEANT) and self.stateid else word) for name, word in asked]

    def move(self, name, told):
        """An operation has succeeded, with these results."""
        if name == "SAVEFH":
            self.saved = self.stateid
        elif name == "RESTOREFH":
            self.stateid = self.saved
        elif name in MOVING:
            self.stateid = told.get("StateID")


class Given:
    """An open or a lock state: the highest seqid that a reply gave, and the frame of the first. A lock state has the open that it is of, and the ranges
    that are locked."""

    def __init__(self, kind, frame, of=None):
        self.kind, self.frame, self.of = kind, frame, of
        self.seqid, self.ranges, self.ended, self.ending = 0, [], None, 0
        # the highest seqid of replies that were taken, and those of replies that may not be
        self.taken, self.coming = 0, []

    def gives(self, seqid, sent):
        self.seqid = max(self.seqid, seqid)
        self.coming.append((seqid, sent))

    def known(self):
        """The highest seqid that the client knows."""
        self.taken = max([self.taken, *(seqid for seqid, sent in self.coming if sent.is_over and sent.answered is not None)])
        self.coming = [(seqid, sent) for seqid, sent in self.coming if not sent.is_over]
        return self.taken

    def has_ended(self):
        """Whether the client knows that it has ended."""
        return self.ended is not None and self.ended[2].is_over and self.ended[2].answered is not None


class Stateids:
    """The stateids of a client by their `other` field."""

    def __init__(self, client):
        self.client, self.given, self.lost = client, {}, set()

    def lose(self):
        """The server has ended all of them."""
        self.lost |= self.given.keys()
        self.given = {}

    # what is asked

    def use(self, name, fields, frame, is_of_other):
        """An operation of a compound that is sent for the first time uses a stateid; `is_of_other` tells whether another client has it."""
        words = dict(fields)
        if name not in USING or "StateID" not in words:
            return
        seqid, other = parts(words["StateID"])
        given = self.given.get(other)
        if other in SPECIAL or other in self.lost:
            return
        if given is None:
            if self.client.is_whole:
                self.say("never-given", (frame,), other, f"{name} uses a stateid that {'another client has' if is_of_other(other) else 'no reply gave'}")
        elif given.has_ended():
            rule = "after-free" if given.ended[0] == "FREE_STATEID" else "after-close"
            if name != "FREE_STATEID" or rule == "after-free":
                self.say(rule, (given.ended[1], frame), other, f"{name} uses seqid {seqid} of it after {given.ended[0]}")
        elif seqid and seqid < given.known():
            self.say("old-seqid", (frame,), other, f"{name} uses seqid {seqid}, and a reply gave {given.taken}")
        elif seqid > given.seqid and self.client.is_whole:
            self.say("never-given", (frame,), other, f"{name} uses seqid {seqid}, and the last that a reply gave is {given.seqid}")
        if given and name in ("CLOSE", "LOCKU"):
            given.ending += 1

    # what is answered

    def answer(self, name, asked, told, frame, sent):
        """An operation of a compound was answered NFS4_OK."""
        asked, told, at = dict(asked), dict(told), (frame, sent)
        if name in ("OPEN", "OPEN_DOWNGRADE"):
            self.note("open", told["StateID"], at)
            if "delegation_stateid" in told:
                self.note("delegation", told["delegation_stateid"], at)
        elif name == "LOCK":
            of = parts(asked["StateID"])[1] if asked["new_lock_owner"] == "1" else None
            self.note("lock state", told["StateID"], at, of).ranges = added(self.ranges(told), *range_of(asked))
        elif name == "LOCKU":
            state = self.note("lock state", told["StateID"], at)
            state.ranges, state.ending = taken(state.ranges, *range_of(asked)), max(0, state.ending - 1)
        elif name == "CLOSE":
            self.close(parts(asked["StateID"])[1], at)
        elif name == "FREE_STATEID":
            self.end(parts(asked["StateID"])[1], "FREE_STATEID", at)

    def ranges(self, told):
        state = self.given.get(parts(told["StateID"])[1])
        return state.ranges if state else []

    def note(self, kind, word, at, of=None):
        seqid, other = parts(word)
        state = self.given.get(other)
        if state is None or state.ended:
            state = self.given[other] = Given(kind, at[0], of)
        state.gives(seqid, at[1])
        return state

    def close(self, other, at):
        self.end(other, "CLOSE", at)
        for lock, state in self.given.items():
            if state.of == other and not state.ended:
                self.end(lock, "CLOSE of its open", at)

    def end(self, other, why, at):
        if other in self.given:
            self.given[other].ended, self.given[other].ranges = (why, *at), []

    # the end

    def held(self, kind):
        """The opens, or the lock states with ranges, that stand; a CLOSE or LOCKU that waits for its reply may have ended one."""
        return {other: state for other, state in self.given.items()
                if state.kind == kind and not state.ended and not state.ending and (kind == "open" or state.ranges)}

    def are_held(self):
        return bool(self.held("open"))

    def finish(self):
        """What was not given back: locks with the opens that they are of, and other opens."""
        locks = self.held("lock state")
        for other, state in locks.items():
            ranges = ", ".join(f"{low} to {'the end' if high > TO_END else high - 1}" for low, high in state.ranges)
            self.say("locks-left", (state.frame,), other, f"a lock on bytes {ranges} is held when the client has gone")
        for other, state in self.held("open").items():
            if all(lock.of != other for lock in locks.values()):
                self.say("opens-left", (state.frame,), other, "an open is held when the client has gone")

    def say(self, rule, frames, other, text):
        self.client.say(rule, frames, text, f"stateid {other}")


def parts(word):
    """The seqid and the `other` field of a stateid."""
    return int(word[2:10], 16), "0x" + word[10:]


def range_of(fields):
    """The first byte and the byte behind the last of a range (RFC 8881 section 18.10.3)."""
    offset, length = int(fields["offset"]), int(fields["length"])
    return offset, TO_END + 1 if length == TO_END else offset + length


def taken(ranges, low, high):
    """Ranges without those bytes."""
    parts_ = [(a, b) for start, end in ranges for a, b in ((start, min(end, low)), (max(start, high), end)) if a < b]
    return sorted(set(parts_))


def added(ranges, low, high):
    """Ranges and those bytes, joined where they touch."""
    out = []
    for start, end in sorted([*ranges, (low, high)]):
        if out and start <= out[-1][1]:
            out[-1] = out[-1][0], max(out[-1][1], end)
        else:
            out.append((start, end))
    return out
