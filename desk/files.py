"""Files of the outside: how they are read and written whole, and how places in them are told."""
import bisect
import gzip
import os
import re


def read_file(path):
    """The bytes of a file. What is compressed by gzip is unpacked, whatever its name is."""
    with open(path, "rb") as file:
        data = file.read()
    return gzip.decompress(data) if data.startswith(b"\x1f\x8b") else data


def write_whole(path, *pieces):
    """Writes a file under another name and then gives it its own, so that a file of this name is whole."""
    # A device or a pipe has no content that could be kept, and must not be put away.
    is_file = os.path.isfile(path) or not os.path.exists(path)
    final = os.path.realpath(path) if is_file else path
    part = f"{final}.{os.getpid()}.part" if is_file else path
    try:
        with open(part, "wb") as file:
            file.writelines(pieces)
        if is_file:
            os.replace(part, final)
    finally:
        if is_file and os.path.exists(part):
            os.remove(part)


def place_of(data, offset):
    """The line and the column of a byte, both from 1. Columns count bytes."""
    line_start = data.rfind(b"\n", 0, offset) + 1
    return data.count(b"\n", 0, offset) + 1, offset - line_start + 1


def line_at(data, offset):
    """The line in which a byte stands, without its line end."""
    end = data.find(b"\n", offset)
    line = data[data.rfind(b"\n", 0, offset) + 1 : len(data) if end < 0 else end]
    return line.rstrip(b"\r")


class Places:
    """The lines and columns of a file's bytes, for many of them."""

    def __init__(self, data):
        self.data = data
        self.starts = None

    def of(self, offset):
        if self.starts is None:
            self.starts = [0, *(found.end() for found in re.finditer(b"\n", self.data))]
        line = bisect.bisect_right(self.starts, offset)
        return line, offset - self.starts[line - 1] + 1


def told(path, place, text):
    """What is said of a place, as editors and build servers read it."""
    return b"%s:%d:%d: %s" % (os.fsencode(path), *place, text)


def shown(name):
    """The bytes of a name as a text, which stand for the same bytes again where it is written."""
    return name.decode("utf-8", "surrogateescape")


class Fault(Exception):
    """What is wrong in a file, and at which byte. As a text it is FILE:LINE:COLUMN and what is wrong."""

    def __init__(self, path, data, offset, text):
        super().__init__(os.fsdecode(told(path, place_of(data, offset), os.fsencode(text))))


def put(stream, *lines):
    """Writes lines. Names that are not UTF-8 come out as they stand in the files."""
    stream.flush()
    stream.buffer.write("".join(line + "\n" for line in lines).encode("utf-8", "surrogateescape"))
    stream.flush()
