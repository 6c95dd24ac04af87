"""What was found, as text, as TAP and JUnit, and as files: a case is a script of replay, its text, and a capture."""
import re

import nfs4
import pcap
import verdicts

from . import rules
from .symbols import Sym, Turn

QUIET = {("CREATE_SESSION", "back"), ("CREATE_SESSION", "cb"), ("CREATE_SESSION", "flavor"), ("CREATE_SESSION", "machine")}


def word(name, value):
    """A field's value as text, cut where it is long."""
    text = f"first{value.ahead:+}" if isinstance(value, Turn) and name == "CREATE_SESSION" else str(value)
    return text if len(text) <= 60 else f"{text[:24]}..({len(text)})"


def fields_of(name, fields):
    return "".join(f" {key}={word(name, value)}" for key, value in fields
                   if (name, key.split("_")[0]) not in QUIET and not (isinstance(value, str) and value in ("0", "{}", "-", "0x") and key != "seqid"))


def call_lines(sent, binds, number, numbers):
    """A call as text: its caller, and an operation a line, with the names that its reply gives."""
    step = sent.step
    head = f"call {number}" + (f", connection {step.conn}" if step.conn else "") + (f", uid {step.uid} gid {step.gid}" if step.uid or step.gid else "")
    head += (f" gids {','.join(map(str, step.gids))}" if step.gids else "") + (", in flight with its neighbours" if step.flight else "")
    if step.again:
        return [f"{head}: call {numbers.get(step.again, '?')} again, byte for byte"]
    lines = [head + (f", tag {step.tag}" if step.tag != "0x" else "")]
    for op in sent.operations:
        names = [str(sym) for (owner, place), sym in binds.items() if owner == op.id and isinstance(sym, Sym) and place in ("StateID", "FileHandle", "sessionid", "clientid")]
        lines.append(f"    {op.name}{fields_of(op.name, op.fields)}" + (f"   gives {' '.join(names)}" if names else ""))
    return lines


def reply_lines(answer, label):
    if answer is None:
        return [f"  {label}: no reply"]
    lines = [f"  {label}: {answer.status or answer.kind}" + (f" ({answer.fault})" if answer.fault else "")]
    return lines + [f"      {name} {status}{fields_of(name, fields)}" for name, status, fields in answer.results]


def case_text(finding, outcome):
    """A finding with its calls up to the one that differs, and both replies of those that do."""
    lines, numbers = [], {sent.step.id: number for number, sent in enumerate(outcome.log, 1)}
    differing = {difference.step for difference in outcome.differences if difference.key == finding.key}
    last = max((number for number, sent in enumerate(outcome.log, 1) if sent.step.id in differing), default=len(outcome.log))
    for number, sent in enumerate(outcome.log[:last], 1):
        lines += call_lines(sent, outcome.binds, number, numbers)
        if sent.step.id in differing:
            lines += reply_lines(sent.reference, "reference") + (reply_lines(sent.server, "server") if sent.server else ["  server: no reply"])
    return lines


def headline(finding):
    d = finding.difference
    memory = "" if d.looked_up else ", from memory"
    place = d.section if d.section.startswith("RFC") else f"RFC 8881 section {d.section}"
    reason = f": {d.why}" if d.why else ""
    return f"{d.verdict} ({rules.kind(d)}), {finding.times}x, seed {finding.seed}: {d} [{place}{memory}{reason}]"


def known_line(key):
    """The line of a finding in a file of known ones."""
    return " | ".join(part.replace("|", "/").replace("\n", " ") for part in key)


def read_known(path):
    lines = (line.partition(" #")[0].strip() for line in path.read_text(encoding="utf-8", errors="replace").splitlines())
    return {line for line in lines if line and not line.startswith("#")}


def file_name(key):
    return "-".join(re.sub(r"\W+", "_", part)[:32].strip("_") for part in key)


def keep(folder, finding, outcome):
    """The case as NAME.script, NAME.txt and NAME.pcap."""
    folder.mkdir(parents=True, exist_ok=True)
    name = file_name(finding.key)
    (folder / f"{name}.script").write_bytes(b"".join(outcome.history))
    (folder / f"{name}.txt").write_text("\n".join([headline(finding), f"known as: {known_line(finding.key)}", *case_text(finding, outcome)]) + "\n")
    with (folder / f"{name}.pcap").open("wb") as out:
        write_capture(out, outcome.log)


def write_capture(out, log):
    """What went to the server and came from it, as a capture that tshark decodes."""
    made = pcap.Written(out, 2049)
    for sent in log:
        moment = int(sent.seconds)
        client = made.on(moment, sent.step.conn)
        made.sent(moment, client, True, nfs4.record(sent.record))
        if sent.got:
            made.sent(moment, client, False, nfs4.record(sent.got))


def by_operation(counts):
    """The operations compared, with how many results and statuses each had."""
    told = {}
    for (name, _), times in counts.items():
        results, statuses = told.get(name, (0, 0))
        told[name] = results + times, statuses + 1
    return dict(sorted(told.items()))


def tap(path, counts, findings):
    """A line an operation; what was found stands below it."""
    told = by_operation(counts)
    verdicts.tap(path, [(f"{name}, RFC 8881 section {rules.SECTION.get(name, '?')}, {told.get(name, (0, 0))[0]} results", [str(f.difference) for f in mine])
                        for name, mine in found_by_operation(told, findings)])


def junit(path, counts, findings, seconds):
    """A test case an operation, with a failure for each finding."""
    told = by_operation(counts)
    verdicts.junit(path, "compare", "nfs4.1", [(name, [headline(f) for f in mine]) for name, mine in found_by_operation(told, findings)], seconds)


def found_by_operation(told, findings):
    """Each operation that was compared or found wrong, with its findings."""
    names = sorted(set(told) | {finding.difference.operation for finding in findings})
    return [(name, [finding for finding in findings if finding.difference.operation == name]) for name in names]
