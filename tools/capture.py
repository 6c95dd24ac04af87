"""Scripts of `nfs41d replay` and captures: what a capture has of the connections to a server, and a capture of a script and its output."""
import collections
import io

import nfs4
import pcap


class Connections:
    """What a capture has of the connections of clients to a server: the script of what came, and what the server answered."""

    def __init__(self):
        self.script, self.replied, self.known = [], [], None
        self.numbers, self.sides, self.records = {}, {}, {}
        self.free, self.gaps = collections.deque(range(nfs4.MOST_CONNECTIONS)), 0

    def close(self, moment, client):
        """Ends a connection; a side of it that lacks bytes is counted."""
        if client in self.numbers:
            self.free.append(self.numbers.pop(client))
            self.script.append(nfs4.entry(moment, self.free[-1], b""))
        for key in (client, False), (client, True):
            side = self.sides.pop(key, None)
            self.gaps += bool(side and side.lacks())
        self.records.pop(client, None)

    def number(self, client):
        """The number of a client's connection: the least that no other had, and if all were in use, the one that has been free for longest."""
        if client not in self.numbers:
            if not self.free:
                raise nfs4.Unreadable(f"more than {nfs4.MOST_CONNECTIONS} connections at once")
            self.numbers[client] = self.free.popleft()
        return self.numbers[client]

    def take(self, moment, client, from_server, flags, number, data):
        """A segment."""
        if flags & pcap.SYN and not from_server:
            self.close(moment, client)
        came = self.sides.setdefault((client, from_server), pcap.Side()).feed(number, flags, data)
        if came and not from_server:
            for at in range(0, len(came), nfs4.MOST_PIECE):
                self.script.append(nfs4.entry(moment, self.number(client), came[at:at + nfs4.MOST_PIECE]))
        elif came and client in self.numbers:
            for reply in self.records.setdefault(client, nfs4.Records()).feed(came):
                self.replied.append(nfs4.u32(self.numbers[client]) + nfs4.record(reply))
                self.known = self.known or known_of(reply)
        if flags & (pcap.FIN | pcap.RST) and not from_server or flags & pcap.RST:
            self.close(moment, client)

    def lacking(self):
        """How many streams lack bytes, of all connections."""
        return self.gaps + sum(side.lacks() for side in self.sides.values())


def connections(path, port):
    """Them, of the capture in a file."""
    found = Connections()
    for (moment, _), *segment in pcap.segments(path, port):
        found.take(moment, *segment)
    return found


def heard(path, port, most=4 << 20):
    """The records that a capture has of connections to a server's port, in the order in which they became whole: the moment in seconds, the client
    (its address and port), whether the server sent it, and the record, of at most so many bytes."""
    sides, records = {}, {}
    for (second, part), client, from_server, flags, number, data in pcap.segments(path, port):
        key = client, from_server
        if flags & pcap.SYN or key not in sides:
            sides[key], records[key] = pcap.Side(), nfs4.Records(most)
        for record in records[key].feed(sides[key].feed(number, flags, data)):
            yield second + part / 1_000_000, client, from_server, record


def known_of(reply):
    """The instance of the server, which is the first half of a client id, and its name, as a reply to EXCHANGE_ID gives them."""
    try:
        for name, status, fields in nfs4.Reply(reply).results:
            if name == "EXCHANGE_ID" and status == "NFS4_OK":
                known = dict(fields)
                return int(known["clientid"], 0) >> 32, nfs4.meant(known["major_id"])
    except nfs4.Unreadable:
        pass
    return None


def to_capture(script, output, port):
    """A capture of each piece as it comes, and of the replies to each call after the piece that made it whole."""
    out = io.BytesIO()
    made = pcap.Written(out, port)
    calls, others = nfs4.answered(script, output)
    if lost := sum(reply is not None for _, reply in others):
        raise nfs4.Unreadable(f"{lost} replies of the output answer no call of the script")
    replies = (call[3] for call in calls if call[2] is not None)
    streams = {}
    for moment, connection, piece in nfs4.entries(script):
        if not piece:
            made.end(moment, connection)
            streams.pop(connection, None)
            continue
        client = made.on(moment, connection)
        made.sent(moment, client, True, piece)
        for _ in streams.setdefault(connection, nfs4.Records()).feed(piece):
            for _, reply in next(replies):
                if reply is not None:
                    made.sent(moment, client, False, nfs4.record(reply))
    return out.getvalue()
