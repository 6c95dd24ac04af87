"""The records of a capture, and those of a script of `nfs41d replay` and its output, for the judge. A stream in which bytes are lacking goes on with
the next record that can be found."""
import collections
from typing import NamedTuple

import nfs4
import pcap

# the largest record that is taken, of any server
MOST = 16 << 20
# the seconds and the segments after which lacking bytes are given up
LATE, MANY = 3, 100
# what is in every call behind its mark and its xid, and in every reply that was accepted
SIGNS = {True: nfs4.u32(0, 2, 100_003, 4), False: nfs4.u32(1, 0, 0, 0, 0)}


class Segment(NamedTuple):
    """A segment of TCP, with the number of its frame and the sequence number that it acknowledges."""
    frame: int
    acknowledges: int
    moment: float
    is_reply: bool
    flags: int
    number: int
    data: bytes


class Stream:
    """What one side of a connection sent. It looks for a record where it has not seen the beginning, and behind each hole."""

    def __init__(self, is_calls, is_whole):
        self.sign, self.side, self.records = SIGNS[is_calls], pcap.Side(), nfs4.Records(MOST)
        self.is_lost, self.sought = not is_whole, b""

    def lacks(self, number, most=0):
        """Whether more than so many bytes before a sequence number are lacking."""
        return number is not None and self.side.next is not None and pcap.ahead(number, self.side.next) > most

    def feed(self, segment):
        """The records that are whole now, of a segment before which nothing is lacking."""
        came = self.side.feed(segment.number, segment.flags, segment.data)
        records = self.records.feed(self.found(came) if self.is_lost else came)
        if self.records.lost:
            self.lose(self.side.next)
        return records

    def lose(self, number):
        """Goes on at a sequence number; what was before it is given up."""
        self.side.next, self.records, self.is_lost, self.sought = number, nfs4.Records(MOST), True, b""

    def found(self, came):
        """The bytes from the first record on that can be told by its head."""
        self.sought += came
        at = self.sought.find(self.sign, 8)
        while at >= 0:
            mark = int.from_bytes(self.sought[at - 8:at - 4], "big")
            if mark & nfs4.LAST and 24 <= mark & ~nfs4.LAST <= MOST:
                came, self.sought, self.is_lost = self.sought[at - 8:], b"", False
                return came
            at = self.sought.find(self.sign, at + 1)
        self.sought = self.sought[-(8 + len(self.sign)):]
        return b""


class Link:
    """A connection of a capture: its two streams, by whether the server sends; and the segments that wait because bytes are lacking before the first."""

    def __init__(self, name, start):
        self.name, self.start, self.queue = name, start, []
        self.streams = {is_reply: Stream(not is_reply, start is not None) for is_reply in (False, True)}


class Capture:
    """Reads a capture into a judge."""

    def __init__(self, judge):
        self.judge, self.links, self.count, self.notes = judge, {}, 0, []

    def read(self, path, port):
        """All of it; the number of segments."""
        segments, begun = 0, None
        for frame, told, (second, part), client, is_reply, flags, number, data in pcap.numbered(path, port, self.notes):
            segments += 1
            begun = second if begun is None else begun
            segment = Segment(frame, told, second - begun + part / 1_000_000, is_reply, flags, number, data)
            self.take(self.link(client, segment), segment)
            if flags & (pcap.RST | pcap.FIN):
                self.end(client, segment)
        for link in self.links.values():
            self.flush(link)
        self.judge.finish()
        return segments

    def link(self, client, segment):
        """The connection of a segment: a new one where it starts, or where its start is not in the capture."""
        link, is_start = self.links.get(client), segment.flags & pcap.SYN and not segment.is_reply
        if is_start and link and link.start != segment.number:
            self.end(client, segment)
            link = None
        if link is None:
            self.count += 1
            link = self.links[client] = Link((*client, self.count), segment.number if is_start else None)
            if not is_start:
                self.judge.hole(segment.moment, link.name, segment.frame, True)
        return link

    def take(self, link, segment):
        """A segment waits where bytes are lacking before it or before one that waits; one that brings them lets those go on."""
        if link.queue and self.brings(link, segment):
            self.hand_on(link, segment)
            self.go_on(link)
        elif link.queue or lacking(link, segment):
            link.queue.append(segment)
            if segment.moment - link.queue[0].moment > LATE or len(link.queue) > MANY:
                self.give_up(link)
        else:
            self.hand_on(link, segment)

    def brings(self, link, segment):
        """Whether a segment has bytes that are lacking before the first that waits."""
        is_reply, _ = lacking(link, link.queue[0])
        return segment.is_reply == is_reply and bool(segment.data) and not link.streams[is_reply].lacks(segment.number)

    def hand_on(self, link, segment):
        for record in link.streams[segment.is_reply].feed(segment):
            self.judge.record(segment.moment, link.name, not segment.is_reply, record, segment.frame)

    def go_on(self, link):
        """What waits, as if it came now."""
        queue, link.queue = link.queue, []
        for segment in queue:
            self.take(link, segment)

    def give_up(self, link):
        """The bytes before the first segment that waits are in no frame."""
        first = link.queue[0]
        is_reply, number = lacking(link, first)
        link.streams[is_reply].lose(number)
        self.judge.hole(first.moment, link.name, first.frame)
        self.go_on(link)

    def flush(self, link):
        while link.queue:
            self.give_up(link)

    def end(self, client, segment):
        """One side has ended the connection. What the other still sends is not looked at."""
        link = self.links[client]
        self.flush(link)
        self.judge.ended(segment.moment, link.name, segment.frame)


def lacking(link, segment):
    """Of which side bytes are lacking when a segment comes, and up to which sequence number: before it, or among those that it acknowledges (of which one
    may be that of a FIN)."""
    if (segment.data or segment.flags & pcap.FIN) and link.streams[segment.is_reply].lacks(segment.number):
        return segment.is_reply, segment.number
    if link.streams[not segment.is_reply].lacks(segment.acknowledges, 1):
        return not segment.is_reply, segment.acknowledges
    return None


def read_script(judge, script, output):
    """A script and its output: a place is the number of a call. How many replies answer none."""
    calls, others = nfs4.answered(script, output)
    place, ends = 0, collections.Counter()
    for moment, connection, data, replies in calls:
        # a connection that was closed is another one the next time
        name = connection, ends[connection]
        if data is None:
            judge.ended(moment, name, place)
            ends[connection] += 1
            continue
        place += 1
        judge.record(moment, name, True, data, place)
        for _, reply in replies:
            if reply is not None:
                judge.record(moment, name, False, reply, place)
    judge.finish()
    return sum(reply is not None for _, reply in others)
