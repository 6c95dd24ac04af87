"""What was found, as text and as cases for a gate; and which promises of docs/PROMISES.md hold for the run."""
from .rules import IF_TAKEN, KEPT, MADE, ONCE, RULES

# what this repository's server calls itself
OURS = "nfs41d"
# how many findings of a rule and client are printed without --all
SHOWN = 3


def listed(names):
    """Names as a list in words."""
    names = [f'"{name}"' for name in names]
    return names[0] if len(names) == 1 else f"{', '.join(names[:-1])} and {names[-1]}"


def headline(name):
    """A rule with its section, and the promises of which it is a premise."""
    rule = RULES[name]
    return [f"{name} (RFC 8881 section {rule.section}): {rule.says}"] + ([f"  a premise of {listed(rule.premise_of)}"] if rule.premise_of else [])


def line(finding, unit):
    frames = f"{unit}{'s' if len(finding.frames) > 1 else ''} {', '.join(map(str, finding.frames))}"
    return f"{frames}: {finding.place + ': ' if finding.place else ''}{finding.text}"


def client_line(judge, client):
    """A client, what it did, and how long it was silent."""
    slots = [slot for session in judge.sessions.values() if session.client is client for slot in session.slots.values()]
    count, again, moved = (sum(getattr(slot, name) for slot in slots) for name in ("count", "again", "moved"))
    used = sum(slot.count > 0 for slot in slots)
    owner = f" ({client.owner.replace('%20', ' ')})" if client.owner else ""
    text = f"client {client.name}{owner}: {count} compounds on {used} slot{'s' * (used != 1)}"
    if again:
        text += f"; {again} sent again, {moved} of them with another sa_highest_slotid, as RFC 8881 section 2.10.6.1 lets it move"
    if client.longest:
        text += f"; {client.longest[0]:.1f} s at most without a renewal, of a lease of {'unknown length' if judge.lease is None else f'{judge.lease} s'}"
    return text + (f"; ended: {client.ended}" if client.ended else "")


def of_client(judge, client, unit, has_all):
    """The findings of a client, by rule."""
    lines = []
    for name in RULES:
        mine = [finding for finding in judge.found if (finding.rule, finding.client) == (name, client)]
        if mine:
            lines += ["  " + part for part in headline(name)]
            shown = mine if has_all else mine[:SHOWN]
            lines += ["    " + line(finding, unit) for finding in shown]
            if (more := judge.counts[name, client] - len(shown)) > 0:
                lines.append(f"    and {more} more{'' if has_all else '; --all shows them'}")
    for (_, known), count in ((key, count) for key, count in judge.expected.items() if key[0] == client):
        lines.append(f"  expected of it: {known.rule}, {times(count)}: {known.reason}")
    return lines


def times(count):
    return "once" if count == 1 else f"{count} times"


def places(broken, unit, has_all):
    """Where premises were broken, and from which frame on."""
    lines = [f"  {place} from {unit} {finding.frames[-1]} on ({finding.rule})" for place, finding in broken.items()]
    more = len(lines) - SHOWN
    return lines if has_all or more <= 0 else [*lines[:SHOWN], f"  and {more} more; --all shows them"]


def promises(judge, unit, has_all):
    """Which promises hold for the run, because their premises do."""
    lines = []
    for group in (ONCE, KEPT, MADE):
        broken = {}
        for (rule, client, place), finding in sorted(judge.broken.items(), key=lambda one: (one[1].rule == IF_TAKEN, one[1].frames[-1])):
            if RULES[rule].premise_of is group:
                broken.setdefault(place or f"client {client}", finding)
        late = {place: finding for place, finding in broken.items() if finding.rule == IF_TAKEN}
        if late and len(late) == len(broken):
            lines.append(f"Of {listed(group)} this run keeps the premises if the client did not take replies that came after it had sent the next number:")
            lines += places(late, unit, has_all)
            continue
        if not broken:
            why = unknown(judge, group)
            lines.append(f"Of {listed(group)} " + (f"it is not known whether this run keeps the premises: {why}." if why else
                                                   f"this run keeps the premises, {holds(judge.server)}"))
            continue
        lines.append(f"Of {listed(group)} this run breaks a premise, so docs/PROMISES.md does not speak there of:")
        lines += places(broken, unit, has_all)
    return lines


def holds(server):
    """What follows where the premises are kept, which stands on whose server it is."""
    if server == OURS:
        return "so what docs/PROMISES.md says there holds for it."
    return f"but docs/PROMISES.md speaks of {OURS}, and {'the capture does not tell the server' if server is None else f'the server is {server}'}."


def unknown(judge, group):
    """Why it cannot be said that the premises hold, or nothing."""
    if judge.seen["holes"]:
        return "the capture lacks bytes"
    if not any(client.calls for client in judge.clients.values()):
        return "no compound was seen"
    return "no reply tells the lease" if group is KEPT and judge.lease is None else ""


def limits(judge, notes):
    """What was not judged, and why."""
    seen, told = judge.seen, list(notes)
    if seen["holes"]:
        told.append(f"bytes are lacking in {seen['holes']} places; what may have been there is held against nobody")
    if seen["begun before"]:
        told.append(f"{seen['begun before']} connections began before the capture")
    for name, words in (("unreadable", "records are no calls or replies of NFS version 4"), ("not judged", "calls cannot be read, or are of another minor version"),
                        ("unmatched", "replies answer no call that waits")):
        if seen[name]:
            told.append(f"{seen[name]} {words}")
    if judge.lease is None and judge.clients:
        told.append("no reply tells the lease (attribute 10), so it is not judged; --lease N gives it")
    return told


def text(judge, name, unit, notes, has_all=False):
    """All that is told of a run."""
    seen, seconds = judge.seen, (judge.moment or 0) - (judge.begun or 0)
    lines = [f"{name}: {seen['calls']} calls and {seen['replies']} replies on {seen['connections']} connection{'s' * (seen['connections'] != 1)} in {seconds:.1f} s"]
    lines += [f"  note: {note}" for note in limits(judge, notes)]
    found = dict.fromkeys([*(finding.client for finding in judge.found), *(name for name, _ in judge.expected)])
    known = {client.name: client for client in judge.clients.values() if client.calls or client.name in found}
    for name in known | found:
        lines += [client_line(judge, known[name]) if name in known else f"client {name}", *of_client(judge, name, unit, has_all)]
    lacking = {key[8:]: times for key, times in seen.items() if key.startswith("lacking ")}
    if lacking:
        lines.append("The server answered that it does not have: " + ", ".join(f"{name} ({times} times)" for name, times in lacking.items()))
    total, expected = sum(judge.counts.values()), sum(judge.expected.values())
    lines.append(f"{total or 'no'} finding{'s' * (total != 1)}" + (f", and {expected} that {'is' if expected == 1 else 'are'} expected" if expected else ""))
    return lines + promises(judge, unit, has_all)


# For a gate.

def cases(judge, unit):
    """A case for each rule, with what was found."""
    return [(f"{name}, RFC 8881 section {rule.section}", [f"client {one.client}, {line(one, unit)}" for one in judge.found if one.rule == name][:SHOWN])
            for name, rule in RULES.items()]
