"""Where a refusal stands in the files of its run.

Names of SPEF files, netlists and libraries are looked for in the modules that are named for these.
"""
import functools
import os

import library_places
import netlist_places
import spef_places
from commands import Command, Finding, NoPlace, Place, token_finding
from files import Fault


def token(key, command, refusal):
    """The token of a line, whose text some lines have too."""
    key = command.library_key(refusal.fields["CORNER"]) if key == "--lib" else key
    finding = token_finding(command, key, refusal.number("N"))
    word, place = refusal.fields.get("WORD"), finding.places[0]
    if word and place.text() != refusal.name("WORD"):
        raise NoPlace(f"token {refusal.fields['N']} of {place.path} is not {word}, so it is not the file that was refused")
    return finding


def size_limit(command, refusal):
    """What is too large: a file, a net, or the design."""
    if "NET" in refusal.fields:
        return spef_places.net_limit(command, refusal)
    key = refusal.line.split()[-1]
    if key.startswith("--"):
        return Finding([], [f"{command.path(key)} is the file that is too long."])
    return netlist_places.top_finding(command)


def usage(command, refusal):
    """The faulty word under the words of the command."""
    if "N" not in refusal.fields:
        return Finding([], [])
    number = refusal.number("N")
    words = [word.encode("utf-8", "surrogateescape") for word in ["gdc"] + command.words]
    if number >= len(words):
        return Finding([], [f"The command has {len(words) - 1} words."])
    start = len(b" ".join(words[:number])) + 1
    return Finding([Place("", b" ".join(words), start, start + len(words[number]))], [])


def read_fault(command, refusal):
    """The file of a key, and what the system says of it."""
    path = command.path(refusal.fields["KEY"])
    why = "It is there and can be read now."
    if os.path.exists(path) and not os.path.isfile(path):
        why = "It is a folder." if os.path.isdir(path) else "It is a pipe or a device."
    else:
        try:
            with open(path, "rb"):
                pass
        except (OSError, ValueError) as fault:
            why = f"{getattr(fault, 'strerror', None) or fault}."
    return Finding([], [f"The file is {path}. {why}"])


KEYS = {"E01": "--netlist", "E02": "--netlist", "E03": "--lib", "E04": "--spef", "E05": "--spef", "E37": "--spef", "E62": "--sdf"}
FINDERS = {
    **{code: functools.partial(token, key) for code, key in KEYS.items()},
    "E50": size_limit,
    "usage": usage,
    "read fault": read_fault,
    **netlist_places.FINDERS,
    **library_places.FINDERS,
    **spef_places.FINDERS,
}


def finding_of(refusal, words, program=None):
    """The finding of a refusal of a run with these words. Where there is no place, its notes say what was looked for."""
    command = Command(words, program)
    if refusal.code not in FINDERS:
        return Finding([], [])
    try:
        return FINDERS[refusal.code](command, refusal)
    except NoPlace as why:
        return Finding([], [f"No place is shown: {why}."])
    except (IndexError, KeyError, StopIteration, RecursionError, TypeError, ValueError, AttributeError, Fault) as fault:
        # The files are read as those that the program took so far. Where they have changed, nothing can be told of them.
        return Finding([], [f"The files of this run do not read as the line says ({type(fault).__name__}): have they changed?"])
