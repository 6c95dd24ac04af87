"""What is wrong with a command line of `nfs41d`: why the program ends with status 1, in words that name the word, the key or the reason.

The program looks at its words first (`bad arguments`), then at the settings file (`bad settings`), then at the address and at memory
(`cannot start`), and tells the first fault. So does this module, by rules of its own. Where the program says the reason itself (`is_spoken`), it is
this module's: tests/tools/launcher compares the two."""
import errno
import os
import re
import resource
import socket
import stat
from typing import NamedTuple

from listeners import process_on
from words import nearest

try:
    import tomllib
except ImportError:  # Python before 3.11
    tomllib = None

MOST_OF_SETTINGS = 65_536
# the keys of the settings file, each with its least and its greatest number, or with the words that may stand there
KEYS = {"lease": (1, 86_400), "root_mode": (0, 0o7777), "instance": (1, 2**32 - 2), "server_owner": (1, 1_024), "file_bytes": (1, 2**40), "objects": (1, 2**24),
        "memory": (0, 2**46), "connections": (1, 1_024), "profile": ("exact", "unix"), "clients": (1, 65_536), "sessions": (1, 1_024)}
# those of them that are texts, with their bytes in place of a number
TEXTS = ("server_owner",)


class Option(NamedTuple):
    """An option: the word for its value, whether it must be given, and the greatest number where the value is one from 1 on."""
    value: str
    is_needed: bool = False
    most: int = 0


COMMANDS = {
    "serve": {
        "--listen": Option("ADDR:PORT", is_needed=True),
        "--connections": Option("N", most=1_000_000),
        "--at-once": Option("K", most=16),
        "--settings": Option("FILE"),
        "--status": Option("S", most=86_400),
        "--metrics": Option("FILE"),
        "--client-list": Option("FILE"),
    },
    "replay": {"--settings": Option("FILE")},
}


# what the program answers without a server
ANSWERED = (["--help"], ["-h"], ["--version"], ["-V"], ["serve", "--help"], ["serve", "-h"])


class Fault(NamedTuple):
    """What the program says, and why."""
    says: str
    why: str


class Wrong(Exception):
    """Words that are no order."""


def is_spoken(words):
    """Whether the program says the reason itself: it is asked to serve, and no word is `--connections`."""
    return words[:1] == ["serve"] and not any(it.startswith("--connections") for it in words)


def fault_of(words, binds=True):
    """The first fault of a command line, or none that is seen here. With `binds` the address is tried too, which asks that nobody listens there."""
    if words in ANSWERED:
        return None
    try:
        command, given = order(words)
    except Wrong as why:
        return Fault("bad arguments", str(why))
    if "--settings" in given and (why := wrong_settings(given["--settings"], is_spoken(words))):
        return Fault("bad settings", why)
    if command == "serve" and (why := wrong_address(given["--listen"]) or binds and taken(given["--listen"])):
        return Fault("cannot start", why)
    return None


def lines_of(fault):
    """What is told of a fault, or of none."""
    if fault:
        return f"explain: {''.join(it if it.isprintable() else '?' for it in fault.why)}"
    limit = resource.getrlimit(resource.RLIMIT_AS)[0]
    memory = "" if limit == resource.RLIM_INFINITY else f" (its address space is limited to {limit:,} bytes)"
    return f"explain: nothing is found wrong with the words, the settings file and the address; if it cannot start, memory is short{memory}"


# The words.

def order(words):
    """The command and the values of its options by their names."""
    for number, word in enumerate(words, 1):
        if any("\udc80" <= it <= "\udcff" for it in word):
            raise Wrong(f"word {number} is not UTF-8")
    if not words:
        raise Wrong("there is no command: it is serve or replay")
    command, *rest = words
    if command not in COMMANDS:
        raise Wrong(f"the command comes first, serve or replay, and not {command!r}" if command.startswith("-") else
                    f"there is no command {command!r}{nearest(command, COMMANDS)}: it is serve or replay")
    options, given = COMMANDS[command], {}
    while rest:
        name, value, rest = next_option(command, rest, given)
        if not name:
            break
        given[name] = value
    for name, value in given.items():
        if options[name].most and not is_count(value, options[name].most):
            raise Wrong(f"{name} is {value!r}, and not a number from 1 to {options[name].most:,}")
    for name, option in options.items():
        if option.is_needed and name not in given:
            raise Wrong(f"{command} wants {name} {option.value}")
    return command, given


def next_option(command, words, given):
    """The option that comes first, which is not given yet, its value, and the words after it; no option where `--` ends them."""
    word, *rest = words
    name, equals, value = word.partition("=")
    if word == "--" and not rest:
        return None, None, []
    if not word.startswith("-") or word in ("-", "--"):
        stray = rest[0] if word == "--" else word
        raise Wrong(f"{stray!r} belongs to no option")
    option = COMMANDS[command].get(name)
    if not option:
        others = [it for it in COMMANDS if name in COMMANDS[it]]
        raise Wrong(f"{command} has no option {name}" + (f", {others[0]} has" if others else nearest(name, COMMANDS[command])))
    if name in given:
        raise Wrong(f"{name} is given twice")
    if equals:
        return name, value, rest
    if not rest:
        raise Wrong(f"{name} wants a value, {option.value}")
    if rest[0].startswith("-") and rest[0] != "-":
        raise Wrong(f"{name} wants a value, {option.value}, and {rest[0]!r} would be an option")
    return name, rest[0], rest[1:]


def is_count(text, most):
    return 1 <= number(text.removeprefix("+")) <= most


def number(text):
    """The number that decimal digits are, or -1; numbers of more digits than any that may stand here are one."""
    digits = text.lstrip("0")
    return int(digits or "0") if re.fullmatch("[0-9]+", text) and len(digits) < 20 else 10**20 if re.fullmatch("[0-9]+", text) else -1


# The settings file.

def wrong_settings(path, lasts=False):
    """What is wrong with a settings file, or none; `lasts` where it is of a server without a number of connections."""
    try:
        data = start_of(path)
    except OSError as fault:
        return f"{path}: {fault.strerror}"
    if data is None:
        return f"{path} is a pipe or a socket: what the program read of it cannot be read again here"
    if len(data) > MOST_OF_SETTINGS:
        return f"{path} has more than {MOST_OF_SETTINGS:,} bytes"
    try:
        text = data.decode()
    except UnicodeDecodeError as fault:
        line = data.count(b"\n", 0, fault.start) + 1
        return f"{path}, line {line}: byte {fault.start} of the file is not UTF-8"
    return wrong_text(path, text, lasts)


def start_of(path):
    """The bytes of a file, and one more than may be at most; none where they can be read only once."""
    kind = os.stat(path).st_mode
    if stat.S_ISDIR(kind):
        raise IsADirectoryError(errno.EISDIR, "it is a directory")
    if stat.S_ISFIFO(kind) or stat.S_ISSOCK(kind):
        return None
    with open(os.open(path, os.O_RDONLY | os.O_NONBLOCK), "rb", buffering=0) as file:
        data = b""
        while piece := file.read(MOST_OF_SETTINGS + 1 - len(data)):
            data += piece
        return data


def wrong_text(path, text, lasts=False):
    """What is wrong with the text of a settings file, or none."""
    if not tomllib:
        return f"{path}: this Python reads no TOML (Python 3.11 does), so the file is not looked at"
    try:
        table = tomllib.loads(text.removeprefix("\ufeff"))
    except (ValueError, RecursionError) as fault:
        return f"{path} is no TOML: {fault}"
    for key, value in table.items():
        place = f"{path}, line {line_of(key, text)}" if line_of(key, text) else path
        if key not in KEYS:
            return f"{place}: there is no key {key!r}{nearest(key, KEYS)}: the keys are {', '.join(KEYS)}"
        least, most = KEYS[key]
        if isinstance(least, str):
            if value not in (least, most):
                return f'{place}: {key} is neither "{least}" nor "{most}"'
            continue
        if key in TEXTS:
            if why := wrong_words(value, least, most):
                return f"{place}: {key} {why}"
            continue
        if not isinstance(value, int) or isinstance(value, bool):
            return f"{place}: {key} is {kind_of(value)}, and not a number"
        if not least <= value <= most:
            in_octal = f" (0o{most:o})" if key == "root_mode" else ""
            return f"{place}: {key} is {str(value)[:40]}, and not from {least:,} to {most:,}{in_octal}"
    if table.get("sessions", 1) > table.get("connections", 1_024):
        place = f"{path}, line {line_of('sessions', text)}" if line_of("sessions", text) else path
        return f"{place}: sessions is greater than connections, which is {table['connections']}"
    written = re.search(r"""^[ \t]*(["']?)root_mode\1[ \t]*=[ \t]*([^0\s#][^\s#]+)""", text, re.MULTILINE)
    if lasts and written and "instance" not in table:
        return f"{path}, line {line_of('root_mode', text)}: root_mode is {written[2]} without 0o: write " + (
            f"0o{written[2]}" if re.fullmatch("[0-7]+", written[2]) else "it in octal, as 0o755")
    return None


def wrong_words(value, least, most):
    """What is wrong with the value of a key that has a text of so many bytes, or none."""
    if not isinstance(value, str):
        return f"is {kind_of(value)}, and not a text"
    count = len(value.encode())
    return None if least <= count <= most else f"has {count:,} bytes, and not from {least:,} to {most:,}"


def line_of(key, text):
    """The line at which a key stands, if it is written as it is."""
    found = re.search(rf"^[ \t]*\[*[ \t]*([\"']?){re.escape(key)}\1[ \t]*[=.\]]", text, re.MULTILINE)
    return text.count("\n", 0, found.start()) + 1 if found else None


def kind_of(value):
    kinds = {bool: "true or false", int: "a number", str: "a text", float: "a number with a point", list: "a list", dict: "a table"}
    return next((words for kind, words in kinds.items() if isinstance(value, kind)), "a time")


# The address.

def wrong_address(text):
    """What is wrong with the form of an address, or none."""
    host, colon, port = text.rpartition(":")
    if re.fullmatch(r"\[[0-9A-Fa-f:.%]*\].*|[0-9A-Fa-f.]*:[0-9A-Fa-f.]*:[0-9A-Fa-f:.%]*", text):
        return f"{text} is an IPv6 address, and the server has IPv4 alone: it is ADDR:PORT, as 127.0.0.1:2049"
    if not colon:
        return f"{text!r} has no port: it is ADDR:PORT, as 127.0.0.1:2049"
    octets = host.split(".")
    if len(octets) != 4 or any(number(it) < 0 for it in octets):
        is_name = re.search("[A-Za-z]", host)
        return f"{host!r} is a name, and names are not looked up: write its address, as 127.0.0.1" if is_name else f"{host!r} is no IPv4 address of four numbers"
    for octet in octets:
        if number(octet) > 255 or len(octet) > 1 and octet[0] == "0":
            return f"{octet} in {host} is no number from 0 to 255" + (" without a 0 before it" if octet[0] == "0" else "")
    if not 0 <= number(port) <= 65_535:
        return f"{port!r} is no port from 0 to 65,535"
    return None


def taken(address):
    """Why an address of the right form cannot be listened on now, or none."""
    host, _, port = address.rpartition(":")
    with socket.socket(socket.AF_INET, socket.SOCK_STREAM) as listener:
        listener.setsockopt(socket.SOL_SOCKET, socket.SO_REUSEADDR, 1)
        try:
            listener.bind((host, number(port)))
            listener.listen(1)
        except OSError as fault:
            return reason(fault, host, number(port))
    return None


def reason(fault, host, port):
    """Why an address could not be taken."""
    if fault.errno == errno.EADDRINUSE:
        pid, name = process_on(port)
        by = f" by process {pid} ({name})" if pid else ""
        return f"{host}:{port} is in use{by}: end that, or take another port"
    if fault.errno == errno.EADDRNOTAVAIL:
        return f"no interface of this machine has the address {host}; 0.0.0.0 is all of them"
    if fault.errno in (errno.EACCES, errno.EPERM):
        return f"port {port} needs a privilege (CAP_NET_BIND_SERVICE), as do ports below 1,024: take another, as 2049"
    return f"{host}:{port}: {fault.strerror}"
