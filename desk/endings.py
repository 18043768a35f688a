"""How a tool ends where it cannot go on: by one line and a status. What is read and written by these functions ends it so."""
import os
import sys
import zlib

import files
from program import CannotRun

CANNOT_RUN, CANNOT_READ, CANNOT_WRITE = 2, 3, 4


class Ending(Exception):
    """Why the run ends, and with which status."""

    def __init__(self, status, text):
        super().__init__(text)
        self.status = status


def reading(read, path):
    """What a function reads of the file at a path."""
    try:
        return read(path)
    except OSError as error:
        raise Ending(CANNOT_READ, f"{path}: {error.strerror or error}") from None
    except (EOFError, zlib.error):
        raise Ending(CANNOT_READ, f"{path}: what gzip packed is not whole") from None


def write_whole(path, *pieces):
    try:
        files.write_whole(path, *pieces)
    except OSError as error:
        raise Ending(CANNOT_WRITE, f"{path}: {error.strerror or error}") from None


def put_out(text):
    """Writes the bytes of a whole text to standard output."""
    try:
        sys.stdout.buffer.write(text)
        sys.stdout.buffer.flush()
    except OSError as error:
        # Nothing is left to be written at the end.
        os.dup2(os.open(os.devnull, os.O_WRONLY), sys.stdout.fileno())
        raise Ending(CANNOT_WRITE, f"standard output: {error.strerror}") from None


def ended(tool, run, asked):
    """The status of a run of a tool whose status 1 is an answer. What stops it is told by a line."""
    try:
        return run(asked)
    except files.Fault as fault:
        files.put(sys.stderr, str(fault))
        return CANNOT_READ
    except CannotRun as fault:
        files.put(sys.stderr, f"{tool}: {fault}")
        return CANNOT_RUN
    except Ending as ending:
        files.put(sys.stderr, f"{tool}: {ending}")
        return ending.status
