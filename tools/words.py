"""How a script reads its words: `--help` prints the script's own text, and words that it does not know end it with one line and status 2."""
import argparse
import difflib
import os
import signal
import socket
import sys


class Words(argparse.ArgumentParser):
    """A parser of a script's words, whose text is that of the script. Options are not shortened."""

    def __init__(self, text, **more):
        super().__init__(description=text, formatter_class=argparse.RawDescriptionHelpFormatter, allow_abbrev=False, **more)

    def parse_args(self, args=None, namespace=None):
        # (the class behind this one would first name what is missing)
        words = list(sys.argv[1:] if args is None else args)
        for word in words[:words.index("--") if "--" in words else None]:
            name = word.partition("=")[0]
            if name.startswith("--") and name not in self._option_string_actions:
                self.error(f"there is no option {name}{nearest(name, self._option_string_actions)}")
        return super().parse_args(words, namespace)

    def error(self, message):
        self.exit(2, f"{self.prog}: {' '.join(message.split())}; --help lists the options\n")


def number(least, most, what="number"):
    """A reader of a whole number within bounds."""
    def read(word):
        if not word.isascii() or not word.isdigit() or not least <= int(word) <= most:
            raise argparse.ArgumentTypeError(f"{word!r} is no {what} from {least} to {most}")
        return int(word)
    return read


port = number(1, 65_535, "port")


def seconds(least, most):
    """A reader of a number of seconds within bounds, which may have a part of one."""
    def read(word):
        try:
            value = float(word)
        except ValueError:
            value = -1.0
        if not least <= value <= most:
            raise argparse.ArgumentTypeError(f"{word!r} is no number of seconds from {least} to {most}")
        return value
    return read


def address(word):
    """ADDRESS:PORT, or a port of 127.0.0.1, as a pair; port 0 is a free one."""
    host, _, port_ = word.rpartition(":")
    if not port_.isascii() or not port_.isdigit() or int(port_) > 65_535:
        raise argparse.ArgumentTypeError(f"{word!r} is not ADDRESS:PORT, with a port from 0 to 65535")
    return host.strip("[]") or "127.0.0.1", int(port_)


class Target:
    """A server as a command line has it: [NAME=]ADDRESS:PORT[/PATH], with an IPv4 address or a name of one."""

    def __init__(self, text):
        self.name, _, place = text.rpartition("=")
        address_, _, self.path = place.partition("/")
        host, _, port_ = address_.rpartition(":")
        if not host or not port_.isascii() or not port_.isdigit() or not 1 <= int(port_) <= 65_535:
            raise argparse.ArgumentTypeError(f"{text!r} is not [NAME=]ADDRESS:PORT[/PATH] with a port from 1 to 65535")
        self.name, self.port = self.name or place, int(port_)
        try:
            self.address = socket.gethostbyname(host)
        except OSError as fault:
            raise argparse.ArgumentTypeError(f"{host!r} is no address: {fault}") from fault


def nearest(word, known):
    """A question after the known word that is most like another, if one is."""
    found = difflib.get_close_matches(word, known, 1)
    return f" (is it {found[0]}?)" if found else ""


def ends_as_cat():
    """Lets ctrl-C and a pipe that nobody reads end the script by their signals, as they end cat; without a standard output a line ends it."""
    signal.signal(signal.SIGPIPE, signal.SIG_DFL)
    if signal.getsignal(signal.SIGINT) is signal.default_int_handler:
        signal.signal(signal.SIGINT, signal.SIG_DFL)
    if sys.stdout is None:
        sys.exit(f"{os.path.basename(sys.argv[0])}: standard output is closed")
