"""Replies that tools/faults makes or changes: an operation of a compound is answered by a status of choice."""
import nfs4


def call_before(call, place):
    """The call with the operations before this one alone: what the server is asked in its place."""
    count = call.places[0] - 4
    return call.data[:count] + nfs4.u32(place - 1) + call.data[count + 4:call.places[place - 1]]


def refused(call, place, status):
    """The reply of a call that is answered here, at its first operation; or none, where the server is asked for those before it."""
    if place > 1:
        return None
    return nfs4.write_reply(call.xid, status, call.tag, [nfs4.write_result(call.operations[0][0], status)])


def with_refusal(reply, name, place, status):
    """A reply to the operations before `place`, if each of them was answered NFS4_OK, with that operation's refusal behind them; else the
    reply as it is."""
    c = nfs4.Reader(reply)
    try:
        heads = [c.number() for _ in range(4)]
        c.opaque()
        if heads[1:3] != [1, 0] or c.number():
            return reply
        status_at = c.at
        ended = c.number()
        c.opaque()
        count_at = c.at
        if ended or c.number() != place - 1:
            return reply
    except nfs4.Unreadable:
        return reply
    return (reply[:status_at] + nfs4.u32(status) + reply[status_at + 4:count_at] + nfs4.u32(place) + reply[count_at + 4:]
            + nfs4.write_result(name, status))
