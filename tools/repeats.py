"""Calls that were sent again: a compound under the session, slot and number of one before (RFC 8881 section 2.10.6.1), and a CREATE_SESSION under
its client's number (section 18.36.4)."""
import nfs4

# How many numbers of a slot are kept, for calls that come late.
KEPT = 16
# Where sa_highest_slotid is in SEQUENCE: behind the operation's number, the session, the number and the slot.
HIGHEST = slice(4 + 16 + 4 + 4, 4 + 16 + 4 + 4 + 4)


def place_of(call):
    """What a call is sent under, and its number there: of SEQUENCE the session and slot, of CREATE_SESSION the client id; or nothing."""
    if not call.operations:
        return None
    name, fields = call.operations[0][0], dict(call.operations[0][1])
    if name == "SEQUENCE":
        return (fields["sessionid"], fields["slot_id"]), int(fields["seqid"])
    return ((fields["clientid"], None), int(fields["seqid"])) if name == "CREATE_SESSION" else None


def compared(call):
    """The argument bytes of a call but those of sa_highest_slotid, which is no part of what is asked (RFC 8881 section 2.10.6.1)."""
    data, begin = call.data[call.arguments:], call.places[0] - call.arguments
    if call.operations[0][0] != "SEQUENCE":
        return data
    return data[:begin + HIGHEST.start] + data[begin + HIGHEST.stop:]


def is_true(first, again):
    """Whether a repeat asks what the first sending asked, for the same user."""
    return first.uid == again.uid and compared(first) == compared(again)


def differences(first, again):
    """In what a repeat differs from the first sending, a text each."""
    told = [f"{name} ({was}, now {now})" for name, was, now in (
        ("xid", f"0x{first.xid:08x}", f"0x{again.xid:08x}"), ("uid", first.uid, again.uid), ("gid", first.gid, again.gid),
        ("gids", first.gids, again.gids), ("tag", nfs4.shown(first.tag), nfs4.shown(again.tag)), ("minorversion", first.minor, again.minor)) if was != now]
    for place, ((was, before), (now, fields)) in enumerate(zip(first.operations, again.operations), 1):
        if was != now:
            told.append(f"operation {place} ({was}, now {now})")
            break
        old = dict(before)
        told += [f"{name} of {now} ({old.get(name, 'none')}, now {word})" for name, word in fields if old.get(name) != word]
    if len(first.operations) != len(again.operations):
        told.append(f"the count of operations ({len(first.operations)}, now {len(again.operations)})")
    if not told and first.data != again.data:
        told.append("bytes that are not shown" if first.data[first.arguments:] != again.data[again.arguments:] else "its credential")
    return told


class Sent:
    """What was sent on each slot, as far as its last numbers."""

    def __init__(self):
        self.calls = {}

    def again(self, call, mark):
        """The mark and the call of the first sending, if this call is sent again; else nothing, and it is kept with its own mark."""
        found = place_of(call)
        if not found:
            return None
        where, number = found
        slot = self.calls.setdefault(where, {})
        if number in slot:
            return slot[number]
        slot[number] = mark, call
        if len(slot) > KEPT:
            del slot[next(iter(slot))]
        return None
