"""What the measurements share: where the encoder and the client are, their options, and how they run the program."""
import contextlib
import os
import re
import shutil
import signal
import subprocess
import sys
import tempfile
from pathlib import Path

sys.dont_write_bytecode = True
TOP = Path(__file__).resolve().parent.parent
sys.path[:0] = str(TOP / "tools"), str(TOP / "tests")

import results  # noqa: E402
from program import PROGRAM, Replay, needed, seconds_of  # noqa: E402
from words import Words  # noqa: E402

COUNTED = re.compile(r"Collected : (\d+)")


def name():
    """The name of the measurement that runs."""
    return os.path.basename(sys.argv[0])


def options(text, *more):
    """The options of a measurement: the program, what `more` adds to the parser, and a file for the table; and the run that is measured.
    It ends the script unless the program is there."""
    parser = Words(text)
    parser.add_argument("program", nargs="?", default=str(PROGRAM), metavar="PROGRAM", help="left out, the built one")
    for add in more:
        add(parser)
    parser.add_argument("--results", type=Path, metavar="FILE", help="a file for the table, with tabs, and with date, commit, machine and load")
    chosen = parser.parse_args()
    needed(chosen.program)
    return chosen, results.Run()


def run(main):
    """Runs a measurement; a pipe that nobody reads any more ends it with a line."""
    try:
        main()
        sys.stdout.flush()
    except BrokenPipeError:
        os.dup2(os.open(os.devnull, os.O_WRONLY), sys.stdout.fileno())
        sys.exit(f"{name()}: what it writes is not read to its end")


def word(parser):
    parser.add_argument("word", nargs="?", default="", metavar="WORD", help="the rows that have it")


def took(command, given, target=subprocess.DEVNULL):
    """What the system counted of a command from one file to another: user seconds and all."""
    process = subprocess.Popen(command, stdin=given, stdout=target)
    _, process.returncode, usage = os.wait4(process.pid, 0)
    if process.returncode:
        sys.exit(f"{name()}: {command[0]} ended with status {process.returncode}")
    return usage


@contextlib.contextmanager
def words_of(settings):
    """The words by which the program takes these settings, which are lines of a file."""
    with tempfile.NamedTemporaryFile("w", suffix=".toml") as file:
        file.write(settings)
        file.flush()
        yield ("--settings", file.name) if settings else ()


def least(program, script, settings="", times=3):
    """The least user seconds of some runs of the program over a script, whose pieces are given."""
    found = []
    with tempfile.TemporaryFile() as given, words_of(settings) as words:
        given.writelines(script)
        for _ in range(times):
            given.seek(0)
            found.append(took([program, "replay", *words], given).ru_utime)
    return min(found)


def wants(*tools):
    """Ends the script with a line unless these tools are here."""
    for tool in tools:
        if not shutil.which(tool):
            sys.exit(f"{name()}: it wants {tool}, which is not here")


def counted(program, script, settings=""):
    """How many instructions a run of the program takes up to the end of a script, which valgrind counts: the same number each time. What it would
    give back when it ends is not in it."""
    under = ["valgrind", "--tool=callgrind", "--callgrind-out-file=/dev/null"]
    with tempfile.TemporaryFile() as told, words_of(settings) as words, Replay(program=program, under=under, words=words, stderr=told) as run_:
        with contextlib.suppress(BrokenPipeError):
            run_.takes([script])
        run_.process.terminate()
        status = run_.process.wait()
        told.seek(0)
        said = told.read().decode(errors="replace")
    found = COUNTED.search(said)
    if status != -signal.SIGTERM or not found:
        sys.exit(f"{name()}: valgrind ended with status {status}: {(said.strip().splitlines() or ['no word'])[-1]}")
    return int(found.group(1))


def worked(program, script, last, settings=""):
    """The seconds of a processor that a run of the program takes for the end of a script."""
    with words_of(settings) as words, Replay(program=program, words=words) as run_:
        run_.takes([script])
        before = seconds_of(run_.process)
        run_.takes([last])
        return seconds_of(run_.process) - before


def most_resident(process):
    """The most bytes of a process that were resident so far."""
    with open(f"/proc/{process.pid}/status", encoding="ascii") as status:
        return int(re.search(r"VmHWM:\s*(\d+) kB", status.read())[1]) * 1_024


def resident(program, pieces, target):
    """The most bytes that are resident in a run of the program over the pieces of a script, up to the last of them (those of the process before it
    became the program do not count), and the run's status and user seconds. What it puts out goes to `target`."""
    process = (run_ := Replay(target, program=program)).process
    run_.takes(pieces)
    most, = run_.kilobytes("VmHWM")
    process.stdin.close()
    _, status, usage = os.wait4(process.pid, 0)
    process.returncode = status
    return most * 1_024, status, usage.ru_utime
