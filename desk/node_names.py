"""The nodes that words of SPEF name: an instance and its pin, a net and a number, or a name alone."""
import re


def index_key(index):
    """The digits of an index, without regard to zeros in front."""
    return index[1:].lstrip(b"0")


class Names:
    """The nodes that words name, with the marks and the name map of a file's head.

    A node is a pair: the name of an instance and its pin, of a net and a number, or a name alone and None.
    """

    def __init__(self, divider=b"/", delimiter=b":", left=b"[", right=b"]"):
        self.delimiter = delimiter
        # Where two marks are one byte the divider counts before the left mark, and that before the right one.
        self.meanings = {right: b"]"}
        self.meanings.update({left: b"["})
        self.meanings.update({divider: b"/"})
        self.table = bytes(self.meanings.get(bytes([byte]), bytes([byte]))[0] for byte in range(256))
        self.mapped = {}

    def flat(self, text):
        """The name that a text stands for: a backslash makes the next byte literal."""
        if b"\\" not in text:
            return text.translate(self.table)
        return b"".join(
            piece[1:] if piece[:1] == b"\\" else piece.translate(self.table) for piece in re.findall(rb"\\[\s\S]|[^\\]+", text)
        )

    def add(self, index, name):
        """Maps an index, unless it is mapped already, which is answered."""
        key = index_key(index)
        known = key in self.mapped
        if not known:
            self.mapped[key] = (name, self.flat(name))
        return not known

    def halves(self, word):
        """A word cut at its last delimiter that no backslash takes."""
        if b"\\" not in word:
            head, mark, tail = word.rpartition(self.delimiter)
            return (head, tail) if mark else (word, None)
        at = -1
        for found in re.finditer(rb"\\[\s\S]|%s" % re.escape(self.delimiter), word):
            at = found.start() if found.group() == self.delimiter else at
        return (word[:at], word[at + 1 :]) if at >= 0 else (word, None)

    def node(self, word):
        """The node of a reference, or None where its index is not in the map."""
        if word[:1] != b"*":
            head, tail = self.halves(word)
            return self.flat(head), None if tail is None else self.flat(tail)
        index, mark, tail = word.partition(self.delimiter)
        known = self.mapped.get(index_key(index))
        if known is None:
            return None
        return known[1], self.flat(tail) if mark else None

    def net(self, word):
        """The name of a net, which is not cut, or None where its index is not in the map."""
        if word[:1] != b"*":
            return self.flat(word)
        index, mark, tail = word.partition(self.delimiter)
        known = self.mapped.get(index_key(index))
        if known is None:
            return None
        return self.flat(known[0] + mark + tail) if mark else known[1]


def shown(node):
    """A node as the program prints it."""
    head, tail = node
    return head if tail is None else head + b":" + tail
