"""The lines that a run can end with, and the cause and the remedy of each, as docs/REFUSALS.md has them.

The page is the one home of these texts. Its first column has the form of each line, with a word in capitals for each name
and number, so a line is cut into its parts by that form.
"""
import os
import re
from typing import NamedTuple

PAGE = os.path.join(os.path.dirname(os.path.dirname(os.path.realpath(__file__))), "docs", "REFUSALS.md")

# What a word in capitals stands for. Any other stands for some text.
FIELDS = {
    **dict.fromkeys(("N", "M", "W", "G", "VALUE", "ELMORE"), "[0-9]+"),
    "SLEW": "-?[0-9]+",
    # The pin stands behind the last `/`.
    "INSTANCE": ".+",
    "CORNER": "only|min|typ|max",
    "EDGE": "rise|fall",
    "PART": "delay|transition",
    "AXIS": "slew|load",
}

# The lines that stand in a section of their own.
SECTIONS = {"gdc: read fault KEY": "Read fault", "gdc: write fault": "Write fault", "gdc: out of memory": "Out of memory"}


class Row(NamedTuple):
    form: re.Pattern
    cause: str
    remedy: str


class Refusal(NamedTuple):
    line: str
    code: str
    fields: dict
    cause: str
    remedy: str

    def name(self, field):
        """A name of the line as the bytes that stand in the files."""
        return self.fields[field].encode("utf-8", "surrogateescape")

    def number(self, field):
        return int(self.fields[field])


def form_of(line):
    """The pattern of a line that the page gives by its form."""
    named = re.sub(r"\b[A-Z]+\b", lambda word: f"(?P<{word[0]}>{FIELDS.get(word[0], '.+?')})", re.escape(line))
    return re.compile(named.replace(r"\ \.\.", "(?P<MORE>(?: .*)?)"))


def forms_in(cell):
    """The forms that stand in the first cell of a row. Behind the first, others give its last word anew."""
    first, *others = re.findall(r"`([^`]*)`", cell)
    return [first] + [first.rsplit(" ", 1)[0] + " " + other for other in others]


def section_of(page, title):
    found = re.search(rf"^## {title}\n(.*?)(?=^## |\Z)", page, re.MULTILINE | re.DOTALL)
    return " ".join(found[1].split()) if found else ""


def read_rows(path=PAGE):
    with open(path, encoding="utf-8") as file:
        page = file.read()
    rows = []
    for line in page.split("\n"):
        cells = [cell.strip().replace(r"\|", "|") for cell in re.split(r"(?<!\\)\|", line)]
        if line.startswith("| `gdc: ") and len(cells) == 5:
            _, forms, cause, remedy, _ = cells
            rows += [Row(form_of(form), cause, remedy) for form in forms_in(forms)]
    return rows + [Row(form_of(form), section_of(page, title), "") for form, title in SECTIONS.items()]


def code_of(line):
    """What tells the kinds of lines apart: the number of a refusal, or the words of any other fault."""
    number = re.match(r"gdc: (E[0-9]+)", line)
    return number[1] if number else re.match(r"gdc: (usage|read fault|.*)", line)[1]


def refusal_of(line, rows):
    """The refusal of a line, or None where the page has no such line."""
    for row in rows:
        found = row.form.fullmatch(line)
        if found:
            return Refusal(line, code_of(line), found.groupdict(), row.cause, row.remedy)
    return None
