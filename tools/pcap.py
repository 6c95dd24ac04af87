"""Captures of TCP, read and written as files of the kind pcap (of pcapng, if tshark is here to turn them into it)."""
import heapq
import socket
import struct
import subprocess

PCAPNG = b"\n\r\r\n"
# the order of bytes by the first four of a pcap
ORDERS = {b"\xd4\xc3\xb2\xa1": "<", b"\x4d\x3c\xb2\xa1": "<", b"\xa1\xb2\xc3\xd4": ">", b"\xa1\xb2\x3c\x4d": ">"}
FIN, SYN, RST, PUSH, ACK = 1, 2, 4, 8, 16
# How many bytes are before the IP packet, by the kind of link: Ethernet, none, Linux's two cooked ones, and the BSD loopback.
BEFORE = {1: 14, 101: 0, 228: 0, 113: 16, 276: 20, 0: 4}


class NoCapture(Exception):
    """The file is no capture that can be read."""


def bytes_of(path):
    """The bytes of a capture as pcap."""
    data = path.read_bytes()
    if not data.startswith(PCAPNG):
        return data
    try:
        return subprocess.run(["tshark", "-r", str(path), "-F", "pcap", "-w", "-"], capture_output=True, check=True).stdout
    except (OSError, subprocess.CalledProcessError) as fault:
        raise NoCapture(f"{path} is pcapng, which tshark would turn into pcap: {fault}") from fault


def packets(path, notes=None):
    """The second, microsecond and bytes of each IP packet. A file may end inside a packet, as one does that is still written. With a list of notes, packets
    that were cut are taken too; that, and where the file ends, is noted there."""
    data = bytes_of(path)
    order = ORDERS.get(data[:4])
    if order is None:
        raise NoCapture(f"{path} is no capture of the kind pcap or pcapng")
    if len(data) < 24:
        raise NoCapture(f"{path} is cut: a pcap has a head of 24 bytes, and this one {len(data)}")
    nano = 1000 if data[:4] in (b"\x4d\x3c\xb2\xa1", b"\xa1\xb2\x3c\x4d") else 1
    link = struct.unpack_from(order + "I", data, 20)[0] & 0xffff
    if link not in BEFORE:
        raise NoCapture(f"{path} is of link type {link}")
    at = 24
    while at + 16 <= len(data):
        second, part, size, whole = struct.unpack_from(order + "4I", data, at)
        if size < whole:
            if notes is None:
                raise NoCapture(f"{path} has packets that were cut; capture them whole (tcpdump -s 0)")
            if "packets were cut" not in notes:
                notes.append("packets were cut")
        yield second, part // nano, data[at + 16 + BEFORE[link]:at + 16 + size]
        at += 16 + size
    if at != len(data) and notes is not None:
        notes.append("the file ends inside a packet")


def over_tcp(path, notes=None):
    """The packets of TCP: the number of the frame, as Wireshark counts them; moment, the addresses of source and target, and what TCP has."""
    for frame, (second, part, packet) in enumerate(packets(path, notes), 1):
        *addresses, tcp = of_ip(packet)
        if len(tcp) >= 20:
            yield frame, second, part, addresses, tcp


def of_ip(packet):
    """The addresses of an IP packet of TCP, and what TCP has of it, which is nothing of another; IPv6 has no headers between here."""
    if len(packet) >= 20 and packet[0] >> 4 == 4 and packet[9] == socket.IPPROTO_TCP:
        return packet[12:16], packet[16:20], packet[4 * (packet[0] & 15):struct.unpack_from(">H", packet, 2)[0]]
    if len(packet) >= 40 and packet[0] >> 4 == 6 and packet[6] == socket.IPPROTO_TCP:
        return packet[8:24], packet[24:40], packet[40:40 + struct.unpack_from(">H", packet, 4)[0]]
    return b"", b"", b""


def ports(path):
    """The ports to which connections are made."""
    return {struct.unpack_from(">H", tcp, 2)[0] for _, _, _, _, tcp in over_tcp(path, []) if tcp[13] & (SYN | ACK) == SYN}


def segments(path, port):
    """The TCP segments to and from a port: moment, client (address and port), whether the server sent it, flags, sequence number, bytes."""
    for _, _, *segment in numbered(path, port):
        yield segment


def numbered(path, port, notes=None):
    """The same, and before each the number of its frame, and which sequence number it acknowledges (none without the flag)."""
    for frame, second, part, addresses, tcp in over_tcp(path, notes):
        source, target, number, acknowledged = struct.unpack_from(">HHII", tcp)
        data, told = tcp[4 * (tcp[12] >> 4):], acknowledged if tcp[13] & ACK else None
        if source == port:
            yield frame, told, (second, part), (addresses[1], target), True, tcp[13], number, data
        elif target == port:
            yield frame, told, (second, part), (addresses[0], source), False, tcp[13], number, data


def ahead(number, base):
    """How far a sequence number is ahead of another, from -2^31 to 2^31 - 1 (they wrap round at 2^32)."""
    return (number - base + 2**31 & 0xffffffff) - 2**31


class Side:
    """What one side of a connection sent, put into order: segments come twice, and one before the other. Places are counted from the first
    segment and do not wrap round; `early` is a heap of the places and bytes of the segments that came before one that is lacking."""

    def __init__(self):
        self.next, self.place, self.early = None, 0, []

    def lacks(self):
        """Whether bytes are lacking before some that came."""
        return bool(self.early)

    def feed(self, number, flags, data):
        """The bytes that are now in order, of a segment with this sequence number."""
        if flags & SYN:
            self.next, self.place, self.early = (number + 1) & 0xffffffff, 0, []
        elif self.next is None:
            self.next = number
        if not data:
            return b""
        place = self.place + ahead(number, self.next)
        if place > self.place:
            heapq.heappush(self.early, (place, data))
            return b""
        out = [self.taken(place, data)]
        while self.early and self.early[0][0] <= self.place:
            out.append(self.taken(*heapq.heappop(self.early)))
        return b"".join(out)

    def taken(self, place, data):
        """What of a segment at or before the place that is next was not there yet; the place moves to its end."""
        fresh = data[self.place - place:]
        self.place += len(fresh)
        self.next = (self.next + len(fresh)) & 0xffffffff
        return fresh


def places(data):
    """Where each packet of a capture that `Written` made begins, and where the last ends."""
    at = [24]
    while at[-1] < len(data):
        at.append(at[-1] + 16 + struct.unpack_from(">I", data, at[-1] + 8)[0])
    return at


def checksum(data):
    total = sum(struct.unpack(f">{len(data + bytes(len(data) % 2)) // 2}H", data + bytes(len(data) % 2)))
    while total >> 16:
        total = (total & 0xffff) + (total >> 16)
    return ~total & 0xffff


class Written:
    """A capture that is written: connections of clients 10.0.0.1 to a server 10.0.0.2, over raw IP."""

    CLIENT, SERVER = socket.inet_aton("10.0.0.1"), socket.inet_aton("10.0.0.2")
    MOST = 32_768

    def __init__(self, out, port):
        self.out, self.port, self.numbers, self.keys, self.opened = out, port, {}, {}, 0
        self.clock = (0, 0)
        out.write(struct.pack(">IHHiIII", 0xa1b2c3d4, 2, 4, 0, 0, 262_144, 101))

    def packet(self, moment, client, to_server, flags, data=b""):
        numbers = self.numbers[client]
        # what comes in one moment, which is a second as a rule, is a microsecond apart
        second, part = self.clock
        self.clock = max((int(moment), int(moment % 1 * 1_000_000)), (second, part + 1) if part < 999_999 else (second + 1, 0))
        ports = (client, self.port) if to_server else (self.port, client)
        ends = (self.CLIENT, self.SERVER) if to_server else (self.SERVER, self.CLIENT)
        here, there = (0, 1) if to_server else (1, 0)
        answered = 0 if flags == SYN else numbers[there]
        tcp = struct.pack(">2H2I4H", *ports, numbers[here], answered, 5 << 12 | flags, 65_535, 0, 0) + data
        pseudo = ends[0] + ends[1] + struct.pack(">2H", socket.IPPROTO_TCP, len(tcp))
        tcp = tcp[:16] + struct.pack(">H", checksum(pseudo + tcp)) + tcp[18:]
        head = struct.pack(">2B3H2BH4s4s", 0x45, 0, 20 + len(tcp), 0, 0x4000, 64, socket.IPPROTO_TCP, 0, *ends)
        head = head[:10] + struct.pack(">H", checksum(head)) + head[12:]
        self.out.write(struct.pack(">4I", min(self.clock[0], 0xffffffff), self.clock[1], *[len(head + tcp)] * 2) + head + tcp)
        numbers[here] = (numbers[here] + len(data) + (1 if flags & (SYN | FIN) else 0)) & 0xffffffff

    def open(self, moment):
        """A new connection: the client's port."""
        client = 700 + self.opened % 60_000
        self.opened += 1
        self.numbers[client] = [1000, 2000]
        self.packet(moment, client, True, SYN)
        self.packet(moment, client, False, SYN | ACK)
        self.packet(moment, client, True, ACK)
        return client

    def on(self, moment, key):
        """The client's port of the connection that the caller knows by a key: a new one where none is open."""
        if key not in self.keys:
            self.keys[key] = self.open(moment)
        return self.keys[key]

    def end(self, moment, key):
        """Closes it, where it is open."""
        if key in self.keys:
            self.close(moment, self.keys.pop(key))

    def sent(self, moment, client, to_server, data):
        for at in range(0, len(data), self.MOST):
            self.packet(moment, client, to_server, PUSH | ACK, data[at:at + self.MOST])

    def close(self, moment, client):
        self.packet(moment, client, True, FIN | ACK)
        self.packet(moment, client, False, FIN | ACK)
