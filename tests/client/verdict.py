"""The verdict on the client of tests/client/linux: what tools/judge finds in the capture of each machine, and what of that is known of Linux."""
from wire import TOP
from judging import telling
from judging.judge import Judge
from judging.reading import Capture
from judging.rules import read_known

# what Linux does in all parts
EVER = read_known((TOP / "tools/judging/linux.known").read_text(encoding="utf-8"))

# What Linux does in a part, by docs/CLIENTS.md: rules that it may break there.
KNOWN = {
    # its lease is made to run out
    "expired": ("lease",),
    "unix": ("lease",),
    "exact": ("lease",),
    # processes are killed while their calls wait. Rarely the number of such a call is not taken for used, and the next compound of the slot has it too;
    # where the capture has a reply to the first, that is other-bytes. What it is answered, tests/client/linux judges
    "killed": ("two-waiting", "given-up", "asked-instead", "other-bytes"),
}


def is_known(finding, part):
    """Whether a finding is one that Linux is known for: in a part, or in all of them."""
    return finding.rule in KNOWN.get(part, ()) or any(it.expects(finding) for it in EVER)


class Verdict:
    """What a capture says of the client that made it."""

    def __init__(self, path, port, lease):
        self.judge, self.notes = Judge(lease), []
        capture = Capture(self.judge)
        capture.read(path, port)
        self.notes = capture.notes

    def unknown(self, part):
        """What is found and not known of Linux, in words."""
        return "; ".join(f"{one.rule}, {telling.line(one, 'frame')}" for one in self.judge.found if not is_known(one, part))[:600]

    def is_whole(self):
        """Whether calls were seen and no bytes are lacking."""
        return self.judge.seen["calls"] > 0 and not self.judge.seen["holes"]

    def gave_up(self):
        """Whether the client went on with slots whose compounds waited, and asked for some of these."""
        counted = self.counted()
        return counted.get("asked-instead", 0) > 0 and sum(counted.get(rule, 0) for rule in ("given-up", "two-waiting", "asked-instead")) > 1

    def __str__(self):
        found = ", ".join(f"{rule} {times} times" for rule, times in self.counted().items()) or "nothing is found"
        slots = [slot for session in self.judge.sessions.values() for slot in session.slots.values()]
        return (f"judged: {self.judge.seen['calls']} calls, {sum(slot.again for slot in slots)} sent again, "
                f"{sum(slot.moved for slot in slots)} of them with another sa_highest_slotid; {found}")

    def counted(self):
        """How often each rule was broken."""
        counted = {}
        for (rule, _), times in self.judge.counts.items():
            counted[rule] = counted.get(rule, 0) + times
        return counted
