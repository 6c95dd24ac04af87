"""What the scripts of the figures share: where things are, and the rows of the worked tests."""
import sys
from pathlib import Path

HERE = Path(__file__).resolve().parent
TOP = HERE.parent.parent
RESULTS = TOP / "bench/results"
sys.path.insert(0, str(TOP / "tools"))

import nfs4  # noqa: E402
import results  # noqa: E402


class Fault(Exception):
    """Data of which no figure can be made."""


def exchanges(row):
    """The calls of a worked row and the reply to each: the moment, the call and the reply."""
    script = (TOP / f"tests/rows/{row}.script").read_bytes()
    answers = iter(nfs4.replies((TOP / f"tests/rows/{row}.expected").read_bytes()))
    return [(moment, nfs4.Call(data), nfs4.Reply(next(answers)[1])) for moment, _, data in nfs4.whole_calls(script) if data is not None]


def table(name):
    """The facts and rows of a file of bench/results."""
    path = RESULTS / f"{name}.tsv"
    if not path.exists():
        raise Fault(f"there is no bench/results/{name}.tsv")
    return results.read(path)


def told(facts):
    """The line below a figure that says what run it shows."""
    return f"{facts['date']}, commit {facts['commit'].split()[0]}; {facts['machine']}; load {facts['load']}"
