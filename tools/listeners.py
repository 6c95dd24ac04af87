"""Who listens on a port of this machine."""
import os
from pathlib import Path


def sockets():
    """The rows of the system's tables of TCP sockets (proc(5)), each as words: its number, its two ends, its state and what waits in it."""
    return [row.split() for table in map(Path, ("/proc/net/tcp", "/proc/net/tcp6")) if table.exists()
            for row in table.read_text(encoding="ascii").splitlines()[1:]]


def port_of(end):
    """The port of an end of a socket."""
    return int(end.rpartition(":")[2], 16)


def process_on(port):
    """The process that listens on a TCP port, and its name; nothing of those that cannot be seen from here."""
    found = {f"socket:[{row[9]}]" for row in sockets() if row[3] == "0A" and port_of(row[1]) == port}
    for link in Path("/proc").glob("[0-9]*/fd/*") if found else []:
        try:
            if os.readlink(link) in found:
                return link.parts[2], Path(f"/proc/{link.parts[2]}/comm").read_text(encoding="utf-8", errors="replace").strip()
        except OSError:
            continue
    return None, None
