"""What the reference tells of an object, beside the calls of a play."""
import nfs4


class Looks:
    """Looks into the reference of a play, which change nothing there."""

    def __init__(self, play):
        self.play = play

    def told(self, sent, handle, mask, before=True):
        """An attribute of an object, before this call or behind it."""
        return self.attribute_of(handle, mask, sent.moment, before)

    def attribute_of(self, handle, mask, moment=None, before=False):
        """An attribute of an object, or None."""
        if not handle:
            return None
        told = self.play.reference.look([("PUTFH", [("FileHandle", handle)]), ("GETATTR", [("attr_mask", mask)])], moment or self.play.moment, before)
        return dict(nfs4.values_of(dict(told[-1][2])["attrs"]) or ()).get(mask) if told and told[-1][1] == "OK" else None

    def told_of(self, sent, directory, name, mask):
        """An attribute of an entry, before this call."""
        return self.told(sent, self.handle_of(directory, name, sent), mask)

    def handle_of(self, directory, name, before=None):
        """The handle of an entry, now or before a call."""
        if not directory or not name:
            return None
        moment = before.moment if before else self.play.moment
        told = self.play.reference.look([("PUTFH", [("FileHandle", directory)]), ("LOOKUP", [("name", name)]), ("GETFH", [])], moment, before is not None)
        return dict(told[-1][2]).get("FileHandle") if told and told[-1][1] == "OK" else None

    def is_held(self, handle, op, told):
        """Is what a DENIED tells a run of bytes that its owner holds so, and in the way of what was asked?"""
        first, length = int(told["offset"]), int(told["length"])
        last = 2**64 - 1 if length == 2**64 - 1 else first + length - 1
        begin, asked = int(op.get("offset", "0"), 0), int(op.get("length", "0"), 0)
        end = 2**64 - 1 if asked == 2**64 - 1 else begin + asked - 1
        if not handle or not length or last > 2**64 - 1 or first > end or last < begin:
            return False
        return all(self.held_byte(handle, byte, told) for byte in {first, last})

    def held_byte(self, handle, byte, told):
        results = self.play.reference.look([("PUTFH", [("FileHandle", handle)]), ("LOCKT", [("locktype", "2"), ("offset", str(byte)), ("length", "1"),
                                                                                      ("clientid", "0"), ("owner", "a-stranger")])], self.play.moment)
        if not results or results[-1][1] != "DENIED":
            return False
        held = dict(results[-1][2])
        return held["owner"] == told["owner"] and held["locktype"] == told["locktype"] or held["locktype"] == told["locktype"] == "1"
