"""The help texts as tables, of which the man page and the completions are made; it is no command."""
import re
from dataclasses import dataclass, field
from typing import NamedTuple

KEY = re.compile(r"(\[?)(--[a-z-]+) ([^] ]+)\]?")
# A tool that takes the words of a run says so: it takes those of one command, or of any, which is then a COMMAND.
RUN = re.compile(r"(\w+) KEY VALUE")
OPTION = re.compile(r"^  (-[\w-]+)(?:, (--[\w-]+))?(?: (\S+))?", re.MULTILINE)


class Key(NamedTuple):
    name: str
    value: str
    is_needed: bool

    def values(self):
        """The words that the value may be, or none where it is a name or a number."""
        return self.value.split("|") if "|" in self.value else []


@dataclass
class Command:
    """A command of the program with the forms that its keys may have, and what it does."""

    name: str
    forms: list = field(default_factory=list)
    about: str = ""


class Help(NamedTuple):
    """What `gdc --help` says: what the program does, its commands by their names, and its statuses with their meanings."""

    title: str
    commands: dict
    statuses: dict

    def keys(self):
        """Each key once, by its name."""
        return {key.name: key for command in self.commands.values() for form in command.forms for key in form}


class Tool(NamedTuple):
    """A tool of desk/: what it does, its options, each with its value or None, and which command of gdc stands behind it."""

    name: str
    about: str
    options: dict
    runs: str


def help_of(text):
    """The table of the program's help text. A line of another form is a ValueError, so that nothing is left out unseen."""
    head, _, tail = text.partition("\nStatus:\n")
    title, _, *lines = head.split("\n")
    commands, command = {}, None
    for line in lines:
        name, _, keys = line.strip().partition(" ")
        if line.startswith(" " * 6):
            command.about = line.strip()
        elif KEY.sub("", keys).strip():
            raise ValueError(f"the help text has a line of another form: {line}")
        else:
            command = commands.setdefault(name, Command(name))
            command.forms.append([Key(key, value, not bracket) for bracket, key, value in KEY.findall(keys)])
    return Help(title, commands, dict(line.split(None, 1) for line in tail.splitlines()))


def tool_of(name, text):
    """The table of what a tool of desk/ prints with --help. Its first line behind the usage says what it does."""
    described = text.split("\n\n", 1)[1] if text.startswith("usage: ") else text
    _, _, listed = text.partition("\noptions:\n")
    options = {long or short: value or None for short, long, value in OPTION.findall(listed)}
    run = RUN.search(text)
    return Tool(name, described.split("\n", 1)[0].strip(), options, run and run[1])
