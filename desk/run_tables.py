"""Reads FILE.toml of gdc-run: its tables, and the jobs that they make."""
import itertools
import json
import re
import shlex
import tomllib
from dataclasses import dataclass
from decimal import Decimal, InvalidOperation
from typing import Callable, NamedTuple

# Names of blocks and corners are parts of the names of files, of targets of make and of words.
NAME = re.compile(r"[A-Za-z0-9_][A-Za-z0-9_-]*")
# What the program takes as a slew in picoseconds and as a load in femtofarads.
MOST_AMOUNT = 10**6
FOLDER = "sdf"


class WrongTable(Exception):
    """What is wrong in a file, and under which key."""

    def __init__(self, path, keys, text):
        where = ".".join(key if NAME.fullmatch(key) else json.dumps(key) for key in keys)
        super().__init__(": ".join(part for part in (path, where, text) if part))


@dataclass(frozen=True)
class Job:
    """A block at a corner: the words of its run, and the words of gdc-lib by the key of each library that gdc-lib makes for it."""

    name: str
    words: list
    joined: dict

    def files(self):
        """The files that are read for it, each once."""
        pairs = zip(self.words[1::2], self.words[2::2])
        own = [value for key, value in pairs if key in FILE_KEYS and key not in self.joined]
        libraries = [library for words in self.joined.values() for library in itertools.takewhile(is_file, words)]
        return list(dict.fromkeys(own + libraries))


class Kind(NamedTuple):
    """What a value may be: what is said of it, and a function that answers it as it is taken, or None."""

    wanted: str
    taken: Callable


def is_file(word):
    return not word.startswith("-")


def a_text(value):
    return value if isinstance(value, str) and value and value.isprintable() and is_file(value) else None


def some_texts(value):
    values = value if isinstance(value, list) else [value]
    return values if values and all(map(a_text, values)) else None


def an_amount(value):
    is_number = isinstance(value, (int, Decimal)) and not isinstance(value, bool)
    # What is not finite compares with no number.
    if not is_number or not Decimal(value).is_finite() or not 0 <= value <= MOST_AMOUNT:
        return None
    return str(value)


def one_of(*words):
    return Kind("one of " + ", ".join(f'"{word}"' for word in words), lambda value: value if value in words else None)


FILE = Kind("a file's name in quotes, which does not begin with -", a_text)
OUT = Kind("a folder's name in quotes, which does not begin with -", a_text)
FILES = Kind("a file's name in quotes, or a list of such", some_texts)
NAMES = Kind("a name in quotes, or a list of such", some_texts)
AMOUNT = Kind(f"a number from 0 to {MOST_AMOUNT}, without quotes and unit", an_amount)
# The keys of `gdc calc`, in the order of its words.
WORDS = {
    "netlist": FILE,
    "top": Kind("a name in quotes", a_text),
    "spef": FILE,
    "lib": FILES,
    "lib-min": FILES,
    "lib-typ": FILES,
    "lib-max": FILES,
    "input-slew": AMOUNT,
    "port-load": AMOUNT,
    "triple": one_of("min", "typ", "max"),
    "missing": one_of("refuse", "zero"),
    "wire-slew": one_of("none", "rss"),
    "outside": one_of("refuse", "edge", "extend"),
}
# Those of gdc-lib.
LIBRARY_WORDS = {
    "stub": NAMES,
    "power": NAMES,
    "cut": Kind("true or false", lambda value: value if isinstance(value, bool) else None),
}
KEYS = {**WORDS, **LIBRARY_WORDS}
CORNERS = ("lib-min", "lib-typ", "lib-max")
LIBRARIES = ("lib", *CORNERS)
FILE_KEYS = {f"--{key}" for key in ("netlist", "spef", *LIBRARIES)}


class Tables:
    """The tables of a file, of which each setting was checked."""

    def __init__(self, path, entries):
        self.path = path
        self.folder = self.checked(("out",), OUT, entries.get("out", FOLDER))
        self.defaults = self.settings((), entries, ("out", "corner", "block"))
        self.corners = self.named("corner", entries)
        self.blocks = self.named("block", entries)
        self.at_corners = {name: self.settings(("corner", name), table) for name, table in self.corners.items()}

    def fault(self, keys, text):
        return WrongTable(self.path, keys, text)

    def checked(self, keys, kind, value):
        taken = kind.taken(value)
        if taken is None:
            raise self.fault(keys, f"this must be {kind.wanted}")
        return taken

    def named(self, key, entries):
        """The tables [corner.NAME] or [block.NAME]."""
        tables = entries.get(key, {})
        if not isinstance(tables, dict) or not tables:
            raise self.fault((key,), f"there is none: write [{key}.NAME]")
        for name, table in tables.items():
            if not NAME.fullmatch(name):
                raise self.fault((key, name), "a name has letters, digits, _ and - alone, and does not begin with -")
            if not isinstance(table, dict):
                raise self.fault((key, name), f"this must be a table, [{key}.{name}]")
        return tables

    def settings(self, keys, table, others=()):
        """The settings of a table. The others among its keys are none."""
        found = {}
        for key, value in table.items():
            if key not in KEYS and key not in others:
                raise self.fault((*keys, key), f"there is no such key; there are {', '.join((*KEYS, *others))}")
            if key in KEYS:
                found[key] = self.checked((*keys, key), KEYS[key], value)
        return found

    def corners_of(self, block, table):
        """The corners of a block."""
        names = table.get("corners", list(self.corners))
        if not isinstance(names, list) or not names:
            raise self.fault(("block", block, "corners"), "this must be a list of names of corners")
        for name in names:
            if name not in self.corners:
                raise self.fault(("block", block, "corners"), f"there is no table [corner.{name}]")
        return list(dict.fromkeys(names))

    def jobs(self):
        for block, table in self.blocks.items():
            inner = {key: value for key, value in table.items() if isinstance(value, dict)}
            names, own = self.corners_of(block, table), self.settings(("block", block), table, ("corners", *inner))
            for name in inner:
                if name not in names:
                    raise self.fault(("block", block, name), f"the block has no corner {name}")
            for name in names:
                at_corner = self.settings(("block", block, name), inner.get(name, {}))
                yield self.job(block, name, {**self.defaults, **self.at_corners[name], **own, **at_corner})

    def job(self, block, corner, settings):
        """The job of a block at a corner, of all settings that count for it."""

        def wrong(text):
            return self.fault(("block", block), f"at the corner {corner} {text}")

        for key in ("netlist", "spef", "input-slew"):
            if key not in settings:
                raise wrong(f"there is no {key}")
        given = [key for key in LIBRARIES if key in settings]
        if given not in (["lib"], list(CORNERS)):
            raise wrong(f"there must be lib, or all of {', '.join(CORNERS)}; there is {' and '.join(given) or 'none'}")
        if given != ["lib"] and "triple" in settings:
            raise wrong("triple stands beside the libraries of three corners")
        settings = {"top": block, **settings}
        for key in ("netlist", "spef", *given):
            settings[key] = named_by(settings[key], block, corner)
        joined = {f"--{key}": words for key in given if len(words := library_words(settings, key)) > 1}
        words = ["calc"]
        for key in WORDS:
            if key in settings:
                words += [f"--{key}", library_of(settings[key], joined.get(f"--{key}"))]
        return Job(f"{block}.{corner}", words, joined)


def named_by(names, block, corner):
    """Names of files, in which the words {block} and {corner} stand for theirs."""
    if isinstance(names, list):
        return [named_by(name, block, corner) for name in names]
    return names.replace("{block}", block).replace("{corner}", corner)


def library_words(settings, key):
    """The words of gdc-lib for a library. One word is one library as it stands."""
    words = list(settings[key])
    if settings.get("cut") or "stub" in settings:
        words += ["--used", settings["netlist"]]
    return words + [f"--{name}={','.join(settings[name])}" for name in ("stub", "power") if name in settings]


def library_of(value, joined):
    """A value as it stands in the words: what gdc-lib makes stands there as bash would have it made."""
    if joined:
        return f"<({shlex.join(['gdc-lib', *joined])})"
    return value[0] if isinstance(value, list) else value


def read_jobs(path, data):
    """The folder of the SDF files, and the jobs in the order of the file."""
    try:
        entries = tomllib.loads(data.decode(), parse_float=Decimal)
    except UnicodeDecodeError:
        raise WrongTable(path, (), "it is not UTF-8") from None
    except InvalidOperation:
        raise WrongTable(path, (), "a number has too large an exponent") from None
    except ValueError as fault:
        raise WrongTable(path, (), str(fault)) from None
    except RecursionError:
        raise WrongTable(path, (), "its values stand too deep in each other") from None
    tables = Tables(path, entries)
    return tables.folder, list(tables.jobs())
