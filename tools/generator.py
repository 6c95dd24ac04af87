"""The generator of tools/load: its program in C, which is compiled where it is first used as others of the tests are, and the file of calls that it
reads."""
import hashlib
import os
import shutil
import subprocess
from pathlib import Path

import nfs4
from caller import Wrong
from nfs4 import opaque, u32

SOURCE = Path(__file__).resolve().parent / "load.c"
FLAGS = ["-O3", "-Wall"]


def compiled(source=SOURCE):
    """The program of a file in C, of tools/load.c if no other is given, which is compiled if the cache has none of this source."""
    cache = Path(os.environ.get("XDG_CACHE_HOME") or "~/.cache").expanduser() / "gondzalif"
    program = cache / f"{source.stem}-{hashlib.sha256(source.read_bytes() + repr(FLAGS).encode()).hexdigest()[:16]}"
    if program.exists():
        return program
    compiler = next(filter(shutil.which, filter(None, (os.environ.get("CC"), "cc", "gcc", "clang"))), None)
    if compiler is None:
        raise Wrong("there is no C compiler (CC, cc, gcc and clang were looked for)")
    cache.mkdir(parents=True, exist_ok=True)
    made = cache / f"{source.stem}-{os.getpid()}"
    ran = subprocess.run([compiler, *FLAGS, "-o", made, source], capture_output=True, text=True, check=False)
    if ran.returncode:
        raise Wrong(f"{compiler} does not compile {source}: {ran.stderr.strip()[:300]}")
    made.rename(program)
    return program


def file_of(sessions, calls, is_random):
    """The file that tools/load.c reads: of each session its id, and the last number used on each of its 16 slots; and its calls, each as the
    number of its operations, their bytes, those of the results, and a mask with 0 for bytes that are not compared."""
    parts = [unpadded(nfs4.call_head(0)[4:] + opaque(b"") + u32(1)), u32(is_random, len(sessions))]
    for (session, numbers), own in zip(sessions, calls, strict=True):
        parts.append(session + u32(*numbers, len(own)))
        for count, asked, wanted, mask in own:
            parts += [u32(count), unpadded(asked), unpadded(wanted), mask]
    return b"".join(parts)


def unpadded(data):
    return u32(len(data)) + data
