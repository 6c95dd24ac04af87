"""What a capture has of calls that were sent again: how many, in what they differ from the first sending, and how they were answered; and of those that
were sent under the number of another one."""
import collections
from typing import NamedTuple

import capture
import nfs4
import repeats
from breaking.proxy import readable

NONE = "no reply"


class Found(NamedTuple):
    """Of the compounds of a capture: all, those that were sent again, of these those with another highest slot alone and those that ask for something
    else, and by status how those that were sent again were answered, and of these those that ask for something else than one that has run."""
    compounds: int
    again: int
    higher: int
    other: int
    answers: collections.Counter
    behind: collections.Counter

    def __str__(self):
        answers = ", ".join(f"{count} by {status}" for status, count in self.answers.most_common())
        return (f"{self.compounds} compounds; {self.again} were sent again, {self.higher} of them with another highest slot and {self.other} with something "
                f"else; answered: {answers or 'none'}")


def found_in(path, port):
    """What a capture has of the compounds that clients sent to a port."""
    sent, waiting, answers, has_run, behind = repeats.Sent(), {}, collections.Counter(), set(), collections.Counter()
    compounds = again = higher = other = 0
    for _, client, from_server, record in capture.heard(path, port):
        if from_server:
            place, is_again, is_true = waiting.pop((client, record[:4]), (None, False, False))
            status = status_of(record) if place else None
            answers[status] += is_again
            if not is_true:
                behind[status] += place in has_run
            elif status == "NFS4_OK":
                has_run.add(place)
            continue
        call = readable(record)
        if call is None or not call.operations or call.operations[0][0] != "SEQUENCE":
            continue
        compounds += 1
        is_true = True
        if first := sent.again(call, None):
            again += 1
            is_true = repeats.is_true(first[1], call)
            other += not is_true
            higher += is_true and call.data[call.arguments:] != first[1].data[first[1].arguments:]
        waiting[client, record[:4]] = repeats.place_of(call), bool(first), is_true
    # (what a cut connection took with it was asked once more)
    answers[NONE] = again - answers.total()
    return Found(compounds, again, higher, other, +answers, +behind)


def status_of(record):
    """How SEQUENCE was answered."""
    try:
        reply = nfs4.Reply(record)
    except nfs4.Unreadable as fault:
        return str(fault)
    return reply.results[0][1] if reply.results else reply.status
