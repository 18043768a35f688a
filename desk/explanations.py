"""The text in which a refusal is explained: places as editors read them, lines with a caret, the cause and the remedy."""
import os
import textwrap

from files import line_at, place_of, told
from places import finding_of
from refusals import read_rows, refusal_of

WIDTH = 100
# So much of a long line is shown on each side of the token.
AROUND = 60


def clean(part):
    """Bytes as a text of which each character is seen and takes one column."""
    return "".join(mark if mark.isprintable() else " " if mark == "\t" else "?" for mark in part.decode("utf-8", "replace"))


def marked_line(place):
    """The line of a place, and a line with carets under its bytes."""
    line = line_at(place.data, place.start)
    start = place_of(place.data, place.start)[1] - 1
    end = max(start + 1, min(start + place.end - place.start, len(line)))
    front, token, back = clean(line[:start]), clean(line[start:end]), clean(line[end:])
    if len(front) > AROUND and len(front + token + back) > WIDTH:
        front = ".." + front[-AROUND:]
    if len(back) > AROUND and len(front + token + back) > WIDTH:
        back = back[:AROUND] + ".."
    if len(token) > WIDTH:
        token = token[:WIDTH] + ".."
    return ["    " + front + token + back, "    " + " " * len(front) + "^" * max(1, len(token))]


def headed(place, text):
    if not place.path:
        return [text] + marked_line(place)
    return [os.fsdecode(told(place.path, place_of(place.data, place.start), os.fsencode(text)))] + marked_line(place)


def wrapped(title, text):
    wrapper = textwrap.TextWrapper(WIDTH, f"  {title}: ", "    ", break_on_hyphens=False, break_long_words=False)
    return wrapper.wrap(text) if text else []


def explanation(refusal, words, program=None):
    """The lines that explain a refusal of a run with these words, or without them its cause and remedy alone."""
    finding = finding_of(refusal, words, program) if words else None
    lines, others = [refusal.line], []
    if finding:
        own = [place for place in finding.places[:1] if not place.remark]
        others = finding.places[len(own) :]
        lines = headed(own[0], refusal.line) if own else lines
        lines += ["  " + note for note in finding.notes]
    else:
        lines.append("  The place is told where the words of the command stand behind --.")
    for place in others:
        lines += headed(place, place.remark)
    return lines + wrapped("cause", refusal.cause) + wrapped("remedy", refusal.remedy)


def explained(line, words, program=None):
    """The lines that explain a line of gdc, and whether it could be explained."""
    try:
        refusal = refusal_of(line, read_rows())
    except OSError as fault:
        return [line, f"  {fault.filename} cannot be read: {fault.strerror}"], False
    if refusal is None:
        return [line, "  docs/REFUSALS.md has no such line."], False
    return explanation(refusal, words, program), True
