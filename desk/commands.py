"""The words of a run, the files that they name, and places in these files: those of tokens are found here."""
import os
from typing import NamedTuple

from texts import token_at

FORMATS = {"--netlist": "verilog", "--spef": "spef", "--sdf": "sdf"}
GZIP = b"\x1f\x8b"
BYTE_ORDER_MARK = b"\xef\xbb\xbf"


class NoPlace(Exception):
    """Why no place can be told."""


class Place(NamedTuple):
    """Some bytes of a file, and a remark."""

    path: str
    data: bytes
    start: int
    end: int
    remark: str = ""

    def text(self):
        return self.data[self.start : self.end]


class Finding(NamedTuple):
    """The place of a refusal and others that belong to it, and what else there is to say, a line each.

    The place of the refusal itself comes first and has no remark. There may be none.
    """

    places: list
    notes: list


class Command:
    """A command with its keys, and the program, which may be asked for more, or None."""

    def __init__(self, words, program=None):
        self.words, self.program = words, program
        self.name = words[0] if words else ""
        self.values = {}
        for key, value in zip(words[1::2], words[2::2]):
            self.values.setdefault(key, value)
        self.kept = {}

    def library_key(self, corner="only"):
        if corner == "only":
            return "--lib" if "--lib" in self.values else "--lib-min"
        return f"--lib-{corner}"

    def path(self, key):
        if key not in self.values:
            raise NoPlace(f"the words of the command have no {key}")
        return self.values[key]

    def data(self, key):
        """The bytes of the file of a key."""
        return self.once(read_plain, self.path(key), key)

    def once(self, make, *of):
        """What a function makes of these, which is made once."""
        if (make, of) not in self.kept:
            self.kept[make, of] = make(*of)
        return self.kept[make, of]

    def place(self, key, token, remark=""):
        """The place of what has a start and an end in the file of a key."""
        return Place(self.path(key), self.data(key), token.start, token.end, remark)


def read_plain(path, key):
    """The bytes of a file as the program read them. A pipe cannot be read again."""
    if not os.path.exists(path):
        raise NoPlace(f"there is no file {path}")
    if not os.path.isfile(path):
        raise NoPlace(f"{path} is a pipe or a device, which cannot be read again. To see the place, give a file to {key}")
    try:
        with open(path, "rb") as file:
            data = file.read()
    except OSError as fault:
        raise NoPlace(f"{path} cannot be read: {fault.strerror}") from fault
    if data.startswith(GZIP):
        raise NoPlace(f"{path} is compressed by gzip, and gdc reads plain files. In bash give {key} <(zcat {path})")
    return data


def token_finding(command, key, number):
    """The token of a number, or the end of the file where it is one past the last."""
    data, format = command.data(key), FORMATS.get(key, "liberty")
    token, notes = token_at(data, format, number), []
    if token is None:
        if number > 1 and token_at(data, format, number - 1) is None:
            raise NoPlace(f"{command.path(key)} has fewer than {number} tokens, so it is not the file that was refused")
        notes.append(f"The file ends here, behind {number - 1} tokens.")
        return Finding([Place(command.path(key), data, len(data), len(data))], notes)
    if token.kind == "broken":
        notes.append("From here on nothing is read: the byte begins no token, or what begins here does not end.")
    if data.startswith(BYTE_ORDER_MARK):
        notes.append("The file begins with a byte order mark (the bytes EF BB BF), which has to go.")
    return Finding([command.place(key, token)], notes)
