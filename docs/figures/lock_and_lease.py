"""A lock and its lease on a time line: the calls of the row worked/a_lock_kept_by_renewals."""
import common
from svg import FAINT, GOOD, INK, ON_COLOUR, OTHER, OURS, RULE, WRONG, Drawing, scale

ROW, LEASE = "worked/a_lock_kept_by_renewals", 90


def deeds():
    """Of each call after the sessions are made: the moment, the client, LOCK or SEQUENCE, and the status."""
    owners, sessions, found = {}, {}, []
    for moment, call, reply in common.exchanges(ROW):
        names = [name for name, _ in call.operations]
        fields, answers = dict(call.operations[-1][1]), {name: dict(fields) for name, _, fields in reply.results}
        if names == ["EXCHANGE_ID"]:
            owners[answers["EXCHANGE_ID"]["clientid"]] = fields["owner"]
        elif names == ["CREATE_SESSION"]:
            sessions[answers["CREATE_SESSION"]["sessionid"]] = owners[fields["clientid"]]
        else:
            client = sessions[dict(call.operations[0][1])["sessionid"]]
            found.append((moment, client, names[-1], reply.results[-1][1]))
    return found


def draw():
    told = deeds()
    locks = [deed for deed in told if deed[2] == "LOCK"]
    if [(client, status) for _, client, _, status in locks] != [("A", "NFS4_OK"), ("B", "NFS4ERR_DENIED"), ("B", "NFS4_OK")]:
        raise common.Fault(f"tests/rows/{ROW} is not a lock of A that B is denied and then granted")
    begun = locks[0][0]
    renewals = [moment for moment, client, _, _ in told if client == "A"]
    out = max(renewals) + LEASE
    picture = Drawing(1000, 300, "A granted lock is kept while its client renews its lease",
                      "Client A is granted a lock and renews its lease twice. Client B asks for the same byte in the last second of A's lease and is denied, "
                      "and a second later, when the lease has run out, it is granted.")
    at = scale(0, out - begun + 40, 110, 970)
    picture.text(24, 52, "client A", 14, weight="bold")
    picture.text(24, 196, "client B", 14, weight="bold")
    picture.rect(at(0), 88, at(out - begun) - at(0), 26, OURS, radius=3)
    picture.text((at(0) + at(out - begun)) / 2, 106, "A holds byte 0 of the file for writing", 13, "middle", ON_COLOUR)
    picture.rect(at(out - begun + 1), 88, 970 - at(out - begun + 1), 26, OTHER, radius=3)
    picture.text((at(out - begun + 1) + 970) / 2, 106, "B holds it", 13, "middle", ON_COLOUR)
    for i, moment in enumerate(sorted(set(renewals))):
        x, end = at(moment - begun), at(min(moment + LEASE, out) - begun)
        picture.dot(x, 48, 5, OURS)
        picture.text(x + (0 if i else -6), 30, "LOCK: NFS4_OK" if i == 0 else "SEQUENCE renews", 12, "middle" if i else "start")
        picture.path([(x + 8, 48), (end - 8, 48)], OURS, 1.4, arrow=True)
        picture.text((x + end) / 2, 68, f"lease, {LEASE} s", 12, "middle", FAINT)
    for (moment, _, _, status), y in zip(locks[1:], (168, 208), strict=True):
        x, colour = at(moment - begun), WRONG if status != "NFS4_OK" else GOOD
        picture.line(x, 118, x, y, colour, 1, "3 3")
        picture.dot(x, y, 5, colour)
        picture.text(x - 12, y + 4, f"LOCK of the same byte at {moment - begun} s: {status}", 12, "end", colour)
    axis(picture, at, out - begun)
    return picture.svg()


def axis(picture, at, out):
    picture.line(at(0), 244, 970, 244, INK)
    for second in range(0, out + 1, LEASE):
        picture.line(at(second), 240, at(second), 248, INK)
        picture.text(at(second), 264, f"{second} s", 12, "middle")
        picture.line(at(second), 120, at(second), 240, RULE, 1, "1 4")
    picture.text(at(0), 288, f"Seconds after the LOCK. The lease runs out after {out} s: at any later moment A's lock is gone.", 12, fill=FAINT)
