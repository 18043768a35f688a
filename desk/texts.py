"""The tokens of the four formats, by the rules of docs/FORMATS.md, and their places in a file.

A file is `bytes`. Tokens have numbers from 1, as the program counts them. Where the program finds that a byte begins no
token, or that a text or a comment stays open, the token here is the last one and has the kind 'broken'.

A match takes what can be passed over and then one token. Each byte begins one, so no match fails and is tried again at a
later byte, and `finditer` goes from token to token.
"""
import itertools
import re
from typing import NamedTuple

# So many tokens are passed over by one match, where a token is looked up by its number.
BLOCK = 500


class Token(NamedTuple):
    number: int
    start: int
    end: int
    kind: str


def either(*patterns):
    return b"|".join(patterns)


class Scanner:
    """How one format is cut into tokens: what is passed over beside blanks, and the kinds of tokens, in order."""

    def __init__(self, skip, kinds):
        bare = either(*(pattern for name, pattern in kinds if name != "broken"))
        named = either(*(b"(?P<%s>%s)" % (name.encode(), pattern) for name, pattern in kinds))
        gap = rb"[\t-\r ]*(?:(?:%s)[\t-\r ]*)*" % skip
        self.skip, self.gap = skip, gap
        self.one = re.compile(rb"%s(?:%s|\Z)" % (gap, named))
        # A broken token, or the end of the file, takes this match to the end of the file.
        self.many = re.compile(rb"(?:%s(?:%s|[\s\S]*)){%d}" % (gap, bare, BLOCK))


# Each of these is matched in one way alone, so that a longer pattern that fails behind it does not take it anew.
LINE_COMMENT = rb"//[^\n]*(?:\n|\Z)"
BLOCK_COMMENT = rb"/\*[^*]*(?:\*(?!/)[^*]*)*\*/"
ATTRIBUTE = rb"\(\*[^*]*(?:\*(?!\))[^*]*)*\*\)"
DIRECTIVE = rb"`[^\n]*(?:\n|\Z)"
OPEN_COMMENT = rb"/\*[\s\S]*"
REST = rb"[\s\S]+"


VERILOG = Scanner(
    either(LINE_COMMENT, BLOCK_COMMENT, ATTRIBUTE, DIRECTIVE),
    [
        ("mark", rb"[)\[\]{}.,;:]|\((?!\*)"),
        ("name", rb"[A-Za-z_][A-Za-z0-9_$]*|\\[!-~]+(?!\S)"),
        ("constant", rb"[0-9]+'[sS]?[bBoOdDhH][0-9a-fA-FxXzZ?_]+"),
        ("number", rb"[0-9]+"),
        ("broken", either(OPEN_COMMENT, rb"\(\*[\s\S]*", rb"[\s\S]")),
    ],
)


def liberty_word():
    """A word of Liberty: a run in which no comment begins, where a `:` belongs to it behind a `[` that is not closed yet.

    Patterns cannot count, so brackets are followed for eight levels, which is more than any library has.
    """
    plain = rb"[!#-'*+\-.0-9<-Z^-z|~]"
    some = either(plain + rb"+", rb"/(?![/*])")
    inner = rb"\["
    for _ in range(8):
        inner = rb"\[(?:%s|:|%s)*\]?" % (some, inner)
    return rb"(?:%s|\]|%s)+" % (some, inner)


# A quote right behind a backslash ends no text, whatever stands before the backslash.
LIBERTY_TEXT = rb'"[^"\\]*(?:\\+(?:"|(?!["\\]))[^"\\]*)*"'

LIBERTY = Scanner(
    either(LINE_COMMENT, BLOCK_COMMENT, rb"\\[\t\r ]*\n"),
    [
        ("text", LIBERTY_TEXT),
        ("word", liberty_word()),
        ("mark", rb"[(){}:;,]"),
        ("broken", REST),
    ],
)

SPEF = Scanner(
    either(LINE_COMMENT, BLOCK_COMMENT),
    [
        ("text", rb'"[^"\n]*"'),
        # Most words have no backslash. The first pattern takes these, and the second any.
        (
            "word",
            either(
                rb'[^\s\\"/][^\s\\]*(?=\s|\Z)',
                rb'(?!"|/\*)(?:[^\s\\]|\\[\s\S])[^\s\\]*(?:\\[\s\S][^\s\\]*)*',
            ),
        ),
        ("broken", REST),
    ],
)

SDF = Scanner(
    either(LINE_COMMENT, BLOCK_COMMENT),
    [
        ("mark", rb"[()]"),
        ("text", rb'"[^"\\]*(?:\\[\s\S][^"\\]*)*"'),
        (
            "word",
            either(
                rb'[^\0- ()"\\/][^\0- ()"\\]*(?=[\0- ()"]|\Z)',
                rb'(?!/\*)(?:[^\0- ()"\\]|\\[\s\S])[^\0- ()"\\]*(?:\\[\s\S][^\0- ()"\\]*)*',
            ),
        ),
        ("broken", REST),
    ],
)

SCANNERS = {"verilog": VERILOG, "liberty": LIBERTY, "spef": SPEF, "sdf": SDF}


def tokens_from(scanner, data, offset, number):
    """The tokens from a place on, which have the numbers from this one on."""
    for found in scanner.one.finditer(data, offset):
        kind = found.lastgroup
        if kind is None:
            return
        yield Token(number, found.start(kind), found.end(), kind)
        if kind == "broken":
            return
        number += 1


def tokens_of(data, format):
    """All tokens of a file. The format is a key of SCANNERS."""
    return tokens_from(SCANNERS[format], data, 0, 1)


def token_at(data, format, number):
    """The token of this number, or None where the file has fewer."""
    scanner = SCANNERS[format]
    passed, offset = 0, 0
    while number - 1 - passed >= BLOCK:
        end = scanner.many.match(data, offset).end()
        if end == len(data):
            break
        passed, offset = passed + BLOCK, end
    left = tokens_from(scanner, data, offset, passed + 1)
    return next(itertools.islice(left, number - 1 - passed, None), None) if number > 0 else None


def text_of(data, token):
    return data[token.start : token.end]
