"""A client by its client id: its sessions, its lease (RFC 8881 section 8.3), and RECLAIM_COMPLETE (section 18.51)."""
from .slots import Slot
from .stateids import Stateids


class Session:
    """A session: its client, how many slots it has (none known if its CREATE_SESSION is not in the capture), and its slots."""

    def __init__(self, name, client, size=None):
        self.name, self.client, self.size = name, client, size
        self.slots, self.destroyed, self.is_answered, self.is_lost = {}, None, False, False
        self.is_known, self.links = size is not None, set()

    def slot(self, number, found):
        if number not in self.slots:
            self.slots[number] = Slot(f"session {self.name} slot {number}", self.is_known, found)
        return self.slots[number]

    def forget(self):
        """Bytes of one of its connections are lacking."""
        self.is_known = False
        for slot in self.slots.values():
            slot.forget()


class Client:
    """A client. `is_whole` says that the capture has all that it did, from its EXCHANGE_ID on."""

    def __init__(self, name, owner, is_whole, found):
        self.name, self.owner, self.is_whole, self.found = name, owner, is_whole, found
        # the moment and the frame of the last sending of a renewal or reply to one, and those of the first sending of the last that was answered
        self.renewed = self.confirmed = None
        self.longest = None       # the longest time without a renewal, and its frames
        self.ended = None         # why the server does not know it any more, or that it ended itself
        # whether RECLAIM_COMPLETE was sent, or that is not known; and the frame in which it was answered NFS4_OK
        self.has_reclaimed, self.reclaimed = not is_whole, None
        # the number of CREATE_SESSION that is next, if it is known, and the one that was sent last
        self.number = self.making = None
        self.stateids = Stateids(self)
        self.calls = 0

    def say(self, rule, frames, text, place=""):
        self.found(rule, self.name, place, frames, text)

    # its lease

    def sends(self, moment, frame):
        """A renewal is sent, which may reach the server."""
        if self.renewed is not None:
            self.waited(moment - self.renewed[0], (self.renewed[1], frame))
            self.renewed = moment, frame

    def waited(self, seconds, frames):
        if self.longest is None or seconds > self.longest[0]:
            self.longest = seconds, frames

    def renews(self, moment, frame, sent):
        """A renewal is answered; `sent` is the moment and the frame of its first sending."""
        self.renewed, self.confirmed = (moment, frame), sent or (moment, frame)

    def ends(self, why, moment=None, frame=None):
        """The client is gone. If the server says so at a moment, then what it had not renewed until then counts."""
        if self.ended is None:
            self.ended = why
            if moment is not None and self.confirmed is not None:
                self.waited(moment - self.confirmed[0], (self.confirmed[1], frame))
            self.renewed = self.confirmed = None
            self.stateids.lose()

    # RECLAIM_COMPLETE, and what it comes before

    def reclaims(self, frame):
        if self.reclaimed is not None:
            self.say("reclaim-complete", (self.reclaimed, frame), "it is sent though it was answered NFS4_OK")
        self.has_reclaimed = True

    def locks(self, frame, name):
        if not self.has_reclaimed:
            self.say("reclaim-complete", (frame,), f"{name} is sent before RECLAIM_COMPLETE")
            self.has_reclaimed = True

    # its sessions' numbers

    def makes_session(self, call_fields, frame):
        number = int(call_fields["seqid"])
        allowed = (self.number,) if self.making is None else (self.number, self.making)
        if self.number is not None and number not in allowed:
            self.say("session-numbers", (frame,), f"CREATE_SESSION has number {number}, where {self.number} is next")
        self.making = number

    def made_session(self, number):
        self.number = number + 1

    def forget(self, moment, frame):
        """Bytes of it are lacking: what it may have done there is not held against it."""
        self.is_whole, self.has_reclaimed, self.number = False, True, None
        if self.renewed is not None:
            self.renewed = self.confirmed = moment, frame

    def finish(self, moment, frame, has_left):
        """The capture ends; `has_left` says that all its connections have ended."""
        if self.ended is None and self.stateids.are_held():
            if self.renewed is not None:
                self.waited(moment - self.renewed[0], (self.renewed[1], frame))
            if self.is_whole and has_left:
                self.stateids.finish()
