"""Reads a SPEF file section by section, by docs/FORMATS.md, and goes on behind each fault. The faults are those of the program.

A fault has a rank: of all faults of a file the one with the least rank is the one that the program names.
"""
import functools
import re
from typing import NamedTuple

import files
import texts
from node_names import Names
from quantities import FARADS, OHMS, unit_of

REFUSED = frozenset(b"*R_NET *R_PNET *D_PNET *DEFINE *PDEFINE *INDUC".split())
OWN_LINE = frozenset(b"*DIVIDER *DELIMITER *BUS_DELIMITER *C_UNIT *R_UNIT *NAME_MAP".split())
FREE = frozenset(
    b"*DESIGN *DATE *VENDOR *PROGRAM *VERSION *DESIGN_FLOW *T_UNIT *L_UNIT *POWER_NETS *GROUND_NETS *PORTS *PHYSICAL_PORTS".split()
)
TOP = FREE | OWN_LINE | (REFUSED - {b"*INDUC"}) | {b"*SPEF", b"*D_NET"}
TIGHT = TOP | frozenset(b"*L *P *I *N *CONN *CAP *RES *INDUC *END".split())

LITERAL = rb"[+-]?(?:[0-9]+\.?[0-9]*|\.[0-9]+)(?:[eE][+-]?[0-9]+)?"
VALUE = rb"%s(?::%s:%s)?" % (LITERAL, LITERAL, LITERAL)
MARK = rb"[!#-)+-/:-@\[\]^`{-~]"

is_literal = re.compile(LITERAL).fullmatch
is_value = re.compile(VALUE).fullmatch
is_mark = re.compile(MARK).fullmatch
is_two_marks = re.compile(MARK + MARK).fullmatch
is_index = re.compile(rb"\*[0-9]+").fullmatch
is_map_name = re.compile(rb'[^*"][\s\S]*').fullmatch

SYNTAX, HEAD, SECTIONS, MISSING, NETS = range(5)
# At one token the program asks in this order.
UNKNOWN_INDEX, BAD_NUMBER, TOO_LARGE, REPEATED_NET, FOREIGN_COUPLING = range(5)
# The tokens behind the last one, which are none.
PAST = (b"",) * 4


def is_other(word):
    """Whether a word may stand where the head of a file is read over. A broken token is no word, and empty here."""
    return word != b"" and word not in TOP


def is_loose(word):
    return word != b"" and word not in TIGHT


def is_ref_with(delimiter):
    """The test of a reference: an index, an index with a tail, or a name."""
    index = rb"\*[0-9]+(?:%s[\s\S]+)?" % re.escape(delimiter)
    return re.compile(rb'%s|(?!["*]|(?:%s)\Z)[\s\S]+' % (index, VALUE)).fullmatch


class Fault(NamedTuple):
    rank: tuple
    offset: int
    words: bytes
    detail: bytes = b""


class Dead(Exception):
    """No text of the grammar goes on with the token at this place of its list."""

    def __init__(self, at):
        super().__init__(at)
        self.at = at


class Part:
    """The head of a file or one of its sections: its tokens, their texts, and the token behind them.

    A broken token has an empty text. The words have a few more behind the last, so that a look ahead finds no end.
    """

    def __init__(self, data, tokens, behind):
        self.tokens, self.behind = tokens, behind
        self.words = [data[start:end] if kind != "broken" else b"" for _, start, end, kind in tokens]
        self.words.extend(PAST)

    def span(self, first, past):
        return self.tokens[first].start, self.tokens[past - 1].end


def parts_of(data):
    """The tokens in front of the first section, and then those of each section. No entry of either has the word *D_NET."""
    held = []
    for token in texts.tokens_of(data, "spef"):
        if token.end - token.start == 6 and data[token.start : token.end] == b"*D_NET":
            yield Part(data, held, token)
            held = []
        held.append(token)
    last = held[-1].number if held else 0
    yield Part(data, held, texts.Token(last + 1, len(data), len(data), "end"))


def take(words, at, accepts):
    """The place behind a token of a class."""
    if not accepts(words[at]):
        raise Dead(at)
    return at + 1


def take_all(words, at, accepts):
    while accepts(words[at]):
        at += 1
    return at


def is_item(word):
    return word in FREE or word in OWN_LINE


class Head:
    """What the head of a file says: units, marks, names, each by the place of its words. It is read item by item."""

    def __init__(self):
        self.marks = {"divider": b"/", "delimiter": b":", "left": b"[", "right": b"]"}
        self.units = {b"*C_UNIT": None, b"*R_UNIT": None}
        self.map = []
        self.in_map = self.broken = False

    def begin(self, words, at):
        return take_all(words, take(words, at, lambda word: word == b"*SPEF"), is_other)

    def item(self, words, at):
        """Reads an item, or goes on with the map behind an entry that is no good."""
        if self.in_map and is_index(words[at]):
            return self.read_map(words, at)
        keyword, past = words[at], take(words, at, is_item)
        self.in_map = keyword == b"*NAME_MAP"
        if keyword in FREE:
            return take_all(words, past, is_other)
        if self.in_map:
            return self.read_map(words, past)
        if keyword in self.units:
            self.units[keyword] = take(words, past, is_literal) - 1
            return take(words, past + 1, is_other)
        return self.read_marks(words, keyword, past)

    def goes_on(self, word):
        """Whether what is behind a dead token can be read on from a word."""
        return is_item(word) or self.in_map and is_index(word)

    def read_map(self, words, at):
        while is_index(words[at]):
            past = take(words, at + 1, is_map_name)
            self.map.append(at)
            at = past
        return at

    def read_marks(self, words, keyword, at):
        if keyword == b"*BUS_DELIMITER":
            if is_two_marks(words[at]):
                self.marks.update(left=words[at][:1], right=words[at][1:])
                return at + 1
            past = take(words, take(words, at, is_mark), is_mark)
            self.marks.update(left=words[at], right=words[at + 1])
            return past
        past = take(words, at, is_mark)
        self.marks[keyword[1:].decode().lower()] = words[at]
        return past


class Section:
    """A section as it is written: places are those of its words.

    `conns` has (first, past, node, load), `capacitances` (first, second or None, value), `resistors` (first, value): the
    places of the keyword, of what stands behind the entry, of references and values.
    """

    def __init__(self, part):
        self.part = part
        self.conns, self.loose, self.capacitances, self.resistors = [], [], [], []
        self.name = None
        self.broken = False

    def read(self, words, is_ref):
        at = take(words, take(words, 1, is_ref), is_value)
        if words[at] == b"*V":
            at = take(words, at + 1, is_literal)
        self.total_past = at
        if words[at] == b"*CONN":
            at = self.read_conns(words, at + 1, is_ref)
        self.cap_keyword = at if words[at] == b"*CAP" else None
        if words[at] == b"*CAP":
            at = self.read_capacitances(words, at + 1, is_ref)
        self.cap_past = at
        if words[at] == b"*RES":
            at = self.read_resistors(words, at + 1, is_ref)
        return take(words, at, lambda word: word == b"*END")

    def read_conns(self, words, at, is_ref):
        while words[at] in (b"*P", b"*I", b"*N"):
            first, at, load = at, at + 1, None
            if words[first] != b"*N":
                at = take(words, take(words, at, is_ref), lambda word: word in (b"I", b"O", b"B"))
            while words[at] == b"*L" and words[first] != b"*N" or is_loose(words[at]):
                if words[at] == b"*L":
                    load = take(words, at + 1, is_value) - 1
                    at = load
                else:
                    self.loose.append(at)
                at += 1
            if words[first] == b"*N":
                self.loose.append(first)
            else:
                self.conns.append((first, at, first + 1, load))
        return at

    def read_capacitances(self, words, at, is_ref):
        while words[at].isdigit():
            past = take(words, at + 1, is_ref)
            second = past if is_ref(words[past]) else None
            value = past + 1 if second else past
            past = take(words, value, is_value)
            self.capacitances.append((at, second, value))
            at = past
        return at

    def read_resistors(self, words, at, is_ref):
        while words[at].isdigit():
            past = take(words, take(words, take(words, at + 1, is_ref), is_ref), is_value)
            self.resistors.append(at)
            at = past
        return at


class SpefFile:
    """A SPEF file: its head, its sections one after the other, and the faults that have been met."""

    def __init__(self, data):
        self.data = data
        self.places = files.Places(data)
        self.faults = []
        self.unread = False
        self.parts = parts_of(data)
        self.read_head(next(self.parts))

    def add(self, rank, offset, words, detail=b""):
        self.faults.append(Fault(rank, offset, words, detail))

    def read_part(self, part, read):
        """Reads a part whole, or notes its dead token. Answers whether it was read."""
        try:
            at = read(part.words)
            if at == len(part.tokens):
                return True
        except Dead as dead:
            at = dead.at
        self.add_dead(part, at)
        return False

    def add_dead(self, part, at):
        token = part.tokens[at] if at < len(part.tokens) else part.behind
        text = self.data[token.start : min(token.end, token.start + 60)]
        if text in REFUSED:
            words, detail = b"E05 spef form %s token %d" % (text, token.number), b""
        else:
            words = b"E04 spef syntax token %d" % token.number
            detail = b"the file ends here" if token.kind == "end" else b"here stands " + text.split(b"\n")[0]
        self.add((SYNTAX, token.number), token.start, words, detail)

    def read_head(self, part):
        self.head = Head()
        self.head_part = part
        at = self.read_item(part, self.head.begin, 0)
        while at < len(part.tokens):
            at = self.read_item(part, self.head.item, at)
        self.names = Names(**self.head.marks)
        self.is_ref = is_ref_with(self.names.delimiter)
        for at in self.head.map:
            if not self.names.add(part.words[at], part.words[at + 1]):
                token = part.tokens[at]
                self.add((HEAD, 2, token.number), token.start, b"E31 name index repeated token %d" % token.number, part.words[at])
        self.farads = self.read_unit(0, b"*C_UNIT", FARADS)
        self.ohms = self.read_unit(1, b"*R_UNIT", OHMS)

    def read_item(self, part, read, at):
        """The place behind what is read of the head, or behind a dead token where it can be read on."""
        try:
            return read(part.words, at)
        except Dead as dead:
            at = dead.at
        self.head.broken = True
        self.add_dead(part, at)
        while at < len(part.tokens) and not self.head.goes_on(part.words[at]):
            at += 1
        return at

    def read_unit(self, order, keyword, units):
        """The unit, or None. Whether it is needed is known once a section is met."""
        at = self.head.units[keyword]
        if at is None:
            return None
        words, token = self.head_part.words, self.head_part.tokens[at]
        unit = unit_of(words[at : at + 2], units)
        if unit is None:
            text = b"%s %s" % (words[at], words[at + 1])
            self.add((HEAD, order), token.start, b"E30 spef number bad unit token %d" % token.number, text)
        return unit

    def sections(self):
        """Each section whose net can be told from it, in the order of the file."""
        first = True
        for part in self.parts:
            if first and not self.head.broken:
                self.ask_units()
            first = False
            section = Section(part)
            section.broken = not self.read_part(part, functools.partial(section.read, is_ref=self.is_ref))
            if section.broken and not (len(part.words) > 1 and self.is_ref(part.words[1])):
                self.unread = True
            else:
                yield section

    def ask_units(self):
        for order, keyword in enumerate((b"*C_UNIT", b"*R_UNIT")):
            if self.head.units[keyword] is None:
                self.add((HEAD, order), 0, b"E30 spef number bad unit token 0", b"the head has no " + keyword)
