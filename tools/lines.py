"""The text form of scripts of `nfs41d replay`: a line a call, which `tools/show --text` prints and `tools/script --text` takes."""
import re

import nfs4

# a # within a word is part of it
COMMENT = re.compile(r"(?:^|\s)#.*")


def words(fields):
    """Fields as words, each with a blank before it."""
    return "".join(f" {name}={word}" for name, word in fields)


def line_of(call):
    """The words of a call after its moment and connection, or none if they cannot say each of its bytes."""
    if call.procedure != 1 or call.fault or call.flavor != 1:
        return None
    head = f"xid={call.xid} uid={call.uid} gid={call.gid}" + (f" gids={','.join(map(str, call.gids))}" if call.gids else "")
    head += (f" tag={nfs4.shown(call.tag)}" if call.tag else "") + (f" stamp={call.stamp}" if call.stamp else "")
    head += f" machine={nfs4.shown(call.machine)}" if call.machine else ""
    made = [nfs4.write_operation(name, fields) for name, fields in call.operations]
    same = nfs4.compound(call.xid, made, call.uid, call.gid, call.gids, call.tag, 1, call.machine, call.stamp) == call.data
    return head + " : " + " | ".join(name + words(fields) for name, fields in call.operations) if same else None


def lines_of(script):
    """A line for each call and close; what words cannot say is a line of `bytes`."""
    for moment, connection, data in nfs4.whole_calls(script):
        if data is None:
            yield f"{moment} {connection} close"
            continue
        try:
            line = line_of(nfs4.Call(data))
        except nfs4.Unreadable:
            line = None
        yield f"{moment} {connection} {line or f'bytes 0x{data.hex()}'}"


def call_of(given, operations, xid):
    """The call of a line: its words before the colon, and its operations."""
    def number(name, otherwise="0"):
        return nfs4.number_of(name, given.pop(name, otherwise))

    xid, uid, gid, stamp = number("xid", str(xid)), number("uid"), number("gid"), number("stamp")
    gids = [nfs4.number_of("gids", word) for word in given.pop("gids", "").split(",") if word]
    tag, machine = nfs4.meant(given.pop("tag", "0x")), nfs4.meant(given.pop("machine", "0x"))
    if given:
        raise nfs4.Unreadable(f"no {', '.join(given)} belongs to a call")
    made = [nfs4.write_operation(name, [pair(word) for word in words]) for name, *words in operations]
    return xid, nfs4.compound(xid, made, uid, gid, gids, tag, machine=machine, stamp=stamp)


def pair(word):
    """The name and the value of a word."""
    name, equals, value = word.partition("=")
    if not equals:
        raise nfs4.Unreadable(f"{word!r} is not of the form name=value")
    return name, value


def of_line(line, xid):
    """The entries of a line, and the xid of its call."""
    head, _, rest = line.partition(" :")
    words = head.split()
    if len(words) < 2:
        raise nfs4.Unreadable(f"{line!r} does not begin with a moment and a connection")
    moment, connection = nfs4.number_of("moment", words[0], 64), nfs4.number_of("connection", words[1])
    why = nfs4.fault_of(moment, connection, 0)
    if why:
        raise nfs4.Unreadable(why)
    if words[2:] == ["close"]:
        return nfs4.entry(moment, connection, b""), xid
    if words[2:3] == ["bytes"] and len(words) == 4:
        call = nfs4.meant(words[3])
    else:
        operations = [part.split() for part in rest.split(" | ") if part.strip()]
        xid, call = call_of(dict(map(pair, words[2:])), operations, xid)
    data = nfs4.record(call)
    pieces = (data[at:at + nfs4.MOST_PIECE] for at in range(0, len(data), nfs4.MOST_PIECE))
    return b"".join(nfs4.entry(moment, connection, piece) for piece in pieces), xid


def script_of(text):
    """The script of lines of text."""
    script, xid = [], 0
    for number, line in enumerate(text.splitlines(), 1):
        line = COMMENT.sub("", line).strip()
        if not line:
            continue
        try:
            made, xid = of_line(line, xid + 1)
        except (ValueError, KeyError, nfs4.Unreadable) as fault:
            told = f"no attribute {fault}" if isinstance(fault, KeyError) else fault
            raise nfs4.Unreadable(f"line {number}: {told}") from fault
        script.append(made)
    return b"".join(script)
