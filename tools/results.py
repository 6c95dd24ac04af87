"""Results of measurements as files: a line `# name: value` for each fact of the run, then a table with a tab between its words, whose first
line names the columns."""
import os
import platform
import subprocess
import time
from pathlib import Path

TOP = Path(__file__).resolve().parent.parent


def commit():
    """The commit of the repository, and whether files differ from it."""
    def git(*words):
        return subprocess.run(["git", "-C", str(TOP), *words], capture_output=True, text=True, check=False).stdout.strip()
    try:
        return (git("rev-parse", "--short=10", "HEAD") or "none") + (" with changes" if git("status", "--porcelain", "-uno") else "")
    except OSError:
        return "unknown"


def machine():
    """The processor, the cores that this process may use, and the kernel."""
    model = platform.machine()
    try:
        lines = Path("/proc/cpuinfo").read_text(encoding="utf-8").splitlines()
        model = next((line.partition(": ")[2] for line in lines if line.startswith("model name")), model)
    except OSError:
        pass
    return f"{model}, {len(os.sched_getaffinity(0))} cores, Linux {platform.release()}"


class Run:
    """A run that measures, from its start on."""

    def __init__(self):
        self.begun, self.load, self.commit = time.gmtime(), os.getloadavg()[0], commit()

    def facts(self):
        """What is to be known of the run: when, of which commit, on which machine, and beside how much other work."""
        return {"date": time.strftime("%Y-%m-%d %H:%M UTC", self.begun), "commit": self.commit, "machine": machine(),
                "load": f"{self.load:.1f} at the start, {os.getloadavg()[0]:.1f} at the end"}

    def write(self, path, columns, rows, **more):
        """Writes a table of rows (words or numbers in the order of the columns) with the facts of the run and those given; nothing without a path."""
        if path is None:
            return
        lines = [f"# {name}: {value}" for name, value in (self.facts() | more).items()]
        lines += ["\t".join(map(str, row)) for row in (columns, *rows)]
        Path(path).write_text("\n".join(lines) + "\n", encoding="utf-8")


def read(path):
    """The facts of a file, and its rows as dictionaries of words."""
    lines = Path(path).read_text(encoding="utf-8").splitlines()
    facts = dict(line[2:].split(": ", 1) for line in lines if line.startswith("# "))
    columns, *rows = [line.split("\t") for line in lines if not line.startswith("# ")]
    return facts, [dict(zip(columns, row, strict=True)) for row in rows]
