"""The built program: where it is, runs of it over a script, and a server of it on the loopback; and runs of other commands."""
import array
import contextlib
import fcntl
import os
import re
import signal
import socket
import subprocess
import sys
import tempfile
import termios
import time
from pathlib import Path

TOP = Path(__file__).resolve().parent.parent
# (an absolute path: scripts go to folders of their own)
PROGRAM = Path(os.environ.get("NFS41D") or TOP / "crates/nfs41d/out/nfs41d").absolute()
HERE = "127.0.0.1"
SECONDS = 60
LISTENING = re.compile(rb"nfs41d: listening on 127\.0\.0\.1:(\d+)\n")


def needed(program=PROGRAM):
    """Ends the script with a line and status 2 unless the program is there."""
    if not os.access(program, os.X_OK) or os.path.isdir(program):
        print(f"{os.path.basename(sys.argv[0])}: the program is not built: there is no {program}; ./nfs41d builds it", file=sys.stderr)
        sys.exit(2)


def waits_for(holds, seconds=SECONDS, pause=0.02):
    """What `holds` gives as soon as that is something, or at the last after so many seconds."""
    until = time.monotonic() + seconds
    while not (found := holds()) and time.monotonic() < until:
        time.sleep(pause)
    return found


def ran(*words, given=None, seconds=SECONDS, **how):
    """A run of a command: its status and its two outputs. Its standard input is what is given, or nothing."""
    source = {"stdin": subprocess.DEVNULL} if given is None else {"input": given}
    it = subprocess.run(list(map(str, words)), capture_output=True, timeout=seconds, check=False, **source, **how)
    return it.returncode, it.stdout, it.stderr


def stat_of(pid):
    """What the kernel says of a process, from its state on (proc_pid_stat(5))."""
    return Path(f"/proc/{pid}/stat").read_text(encoding="ascii", errors="replace").rpartition(") ")[2].split()


def seconds_of(process):
    """The seconds of a processor that a process has used, by the clock that the kernel has of each."""
    return time.clock_gettime(~process.pid << 3 | 2)


def replayed(script, environment=None, words=()):
    """A run of the program over a script."""
    return subprocess.run([PROGRAM, "replay", *words], input=script, capture_output=True, timeout=SECONDS, check=False, env=environment)


def connected(host, port, timeout=SECONDS, source=None):
    """A connection on which what is written leaves at once."""
    made = socket.create_connection((host, port), timeout, (source, 0) if source else None)
    made.setsockopt(socket.IPPROTO_TCP, socket.TCP_NODELAY, 1)
    return made


class Replay:
    """A run of `nfs41d replay` over a script that comes in parts. `under` is the words of a tool that runs it, `words` are further ones of the program, and
    `how` is what its process has further."""

    def __init__(self, out=subprocess.DEVNULL, *, program=PROGRAM, under=(), words=(), **how):
        self.process = subprocess.Popen([*under, program, "replay", *words], stdin=subprocess.PIPE, stdout=out, **how)

    def takes(self, pieces, looks=4):
        """Gives it the pieces of a script, and waits until it has run them and waits for more, at so many looks one after the other."""
        for piece in pieces:
            self.process.stdin.write(piece)
        self.process.stdin.flush()
        seen, until = 0, time.monotonic() + 5 * SECONDS
        while self.process.poll() is None and seen < looks:
            seen = seen + 1 if self.is_idle() else 0
            if time.monotonic() > until:
                raise TimeoutError("the program does not wait for more")
            if seen < looks:
                time.sleep(0.05)

    def is_idle(self):
        """Whether the pipe to the program is empty and it sleeps."""
        left = array.array("i", [0])
        fcntl.ioctl(self.process.stdin, termios.FIONREAD, left)
        return left[0] == 0 and stat_of(self.process.pid)[0] == "S"

    def kilobytes(self, *words):
        """What the kernel says of its memory: VmHWM, the most that was resident, and the like."""
        said = dict(line.split()[:2] for line in Path(f"/proc/{self.process.pid}/status").read_text(encoding="ascii").splitlines() if line.startswith("Vm"))
        return tuple(int(said[f"{word}:"]) for word in words)

    def ended(self):
        """The status, once the script has ended."""
        self.process.stdin.close()
        return self.process.wait(5 * SECONDS)

    def __enter__(self):
        return self

    def __exit__(self, *fault):
        if self.process.poll() is None:
            self.process.kill()
            self.process.wait()
        for pipe in filter(None, (self.process.stdin, self.process.stdout)):
            with contextlib.suppress(BrokenPipeError):
                pipe.close()


def whole(file):
    """The bytes of a file that a program has for its output. (It writes a line in pieces, each where the file stands that both have open: what reads here
    must not move that.)"""
    return os.pread(file.fileno(), os.fstat(file.fileno()).st_size, 0)


class Served:
    """The program, serving on a port of the loopback that it took itself: so many connections, or until it is stopped if no number is given, so many at
    once, under these settings. `seats` is the setting `connections`, `words` are further ones, `files` limits how many files it may have open, and `under` is the words of a tool that runs
    it. Where a fault ends its block, what it said is printed."""

    def __init__(self, connections=None, at_once=None, *, seats=None, words=(), files=None, program=PROGRAM, under=(), **settings):
        self.told, self.settings = tempfile.TemporaryFile(), tempfile.NamedTemporaryFile("w", suffix=".toml")
        settings |= {"connections": seats} if seats else {}
        self.settings.write("".join(f"{name} = {value}\n" for name, value in settings.items()))
        self.settings.flush()
        limited = ["sh", "-c", f'ulimit -n {files} && exec "$@"', "sh"] if files else []
        counted = ["--connections", str(connections)] if connections else []
        places = ["--at-once", str(at_once)] if at_once else []
        self.program = subprocess.Popen(
            [*limited, *under, program, "serve", "--listen", f"{HERE}:0", *counted, *places, *words, "--settings", self.settings.name],
            stdin=subprocess.DEVNULL, stdout=subprocess.PIPE, stderr=self.told)
        try:
            self.port = self.listening()
        except RuntimeError:
            self.stop()
            raise

    def listening(self):
        """The port that it says it listens on."""
        found = waits_for(lambda: LISTENING.match(whole(self.told)) or self.program.poll() is not None, pause=0.01)
        if isinstance(found, bool):
            raise RuntimeError("the program does not listen")
        return int(found[1])

    def connect(self, source=HERE):
        """A connection from an address of the loopback."""
        return connected(HERE, self.port, source=source)

    def ended(self):
        """The exit status, standard output, and the lines of standard error."""
        try:
            written, _ = self.program.communicate(timeout=SECONDS)
        except subprocess.TimeoutExpired:
            return None, b"", []
        return self.program.returncode, written, self.lines()

    def lines(self):
        """The lines that it has said on standard error."""
        return whole(self.told).splitlines()

    def runs_until_stopped(self):
        """Whether it runs still, ends by SIGTERM, and has said nothing but where it listens."""
        if self.program.poll() is not None:
            return False
        self.program.terminate()
        status, written, lines = self.ended()
        return status == -signal.SIGTERM and written == b"" and len(lines) == 1

    def seconds(self):
        """The seconds of a processor that the program has used."""
        return seconds_of(self.program)

    def settles(self, most=10):
        """Waits until the program uses no processor, but no longer than that many seconds: one that never sleeps is taken as it is."""
        used = [-1]

        def sleeps():
            used.append(self.seconds())
            return used[-1] - used[-2] <= 0.01

        waits_for(sleeps, most, 0.3)

    @contextlib.contextmanager
    def stopped(self):
        """The program stands still."""
        self.program.send_signal(signal.SIGSTOP)
        try:
            yield
        finally:
            self.program.send_signal(signal.SIGCONT)

    def stop(self):
        if self.program.poll() is None:
            self.program.kill()
            self.program.wait()
        for file in (self.program.stdout, self.told, self.settings):
            file.close()

    def __enter__(self):
        return self

    def __exit__(self, *fault):
        if fault[0]:
            print("the server said:", *(line.decode(errors="replace") for line in self.lines()), sep="\n    ")
        self.stop()
