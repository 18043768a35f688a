"""Tests of the modules in this folder: python3 -m unittest tests"""
import gzip
import os
import tempfile
import unittest

import files
import texts
from explanations import explanation
from places import finding_of
from refusals import read_rows, refusal_of

# The format, the text, and its tokens. A token that is broken has an exclamation mark before it.
TABLE = [
    ('verilog', b'module a(b);endmodule', ['module', 'a', '(', 'b', ')', ';', 'endmodule']),
    ('verilog', b'// x\n/* y */ (* z = 1 *) `timescale 1ns\n a$1 _b', ['a$1', '_b']),
    ('verilog', b'\\a[3] .Q( \\b.c )', ['\\a[3]', '.', 'Q', '(', '\\b.c', ')']),
    ('verilog', b'\\a\xe9', ['!\\']),
    ('verilog', b"12 4'b01x? 4'sHff 8'q 3", ['12', "4'b01x?", "4'sHff", '8', "!'"]),
    ('verilog', b'a / b', ['a', '!/']),
    ('verilog', b'a (*) b', ['a', '!(*) b']),
    ('verilog', b'a /*/ b', ['a', '!/*/ b']),
    ('verilog', b'a // b', ['a']),
    ('liberty', b'library (x) { a : "b c"; }', ['library', '(', 'x', ')', '{', 'a', ':', '"b c"', ';', '}']),
    ('liberty', b'values ("1, 2", \\ \r\n "3")', ['values', '(', '"1, 2"', ',', '"3"', ')']),
    ('liberty', b'bus[3:0]:a[1 b: c]:d', ['bus[3:0]', ':', 'a[1', 'b', ':', 'c]', ':', 'd']),
    ('liberty', b'x[[1:2]:3]:4 /y a/b a/*c*/b //d', ['x[[1:2]:3]', ':', '4', '/y', 'a/b', 'a', 'b']),
    ('liberty', b'"a\\" b" "c\\\\" d" e', ['"a\\" b"', '"c\\\\" d"', 'e']),
    ('liberty', b'a "b\\"', ['a', '!"b\\"']),
    ('liberty', b'a \\ b', ['a', '!\\ b']),
    ('liberty', b'a \x01 b', ['a', '!\x01 b']),
    ('spef', b'*SPEF "a b"// c\n*D_NET a//b 1 /* d */ /e', ['*SPEF', '"a b"', '*D_NET', 'a//b', '1', '/e']),
    ('spef', b'a\\ b\\\nc d', ['a\\ b\\\nc', 'd']),
    ('spef', b'a "b\n"', ['a', '!"b\n"']),
    ('spef', b'a\\', ['a', '!\\']),
    ('spef', b'a/* b /* c', ['a/*', 'b', '!/* c']),
    ('spef', b'a"b "c"d', ['a"b', '"c"', 'd']),
    ('sdf', b'(DELAYFILE (DESIGN "a \\" b")) // c', ['(', 'DELAYFILE', '(', 'DESIGN', '"a \\" b"', ')', ')']),
    ('sdf', b'a\\(b/c //d\n e\xe9', ['a\\(b/c', 'eé']),
    ('sdf', b'a\\', ['a', '!\\']),
    ('sdf', b'a "b\\"', ['a', '!"b\\"']),
    ('sdf', b'a \x01', ['a', '!\x01']),
]


def shown(data, tokens):
    marks = {"broken": "!"}
    return [marks.get(token.kind, "") + texts.text_of(data, token).decode("latin-1") for token in tokens]


class Tokens(unittest.TestCase):
    def test_each_row_of_the_table(self):
        for format, data, wanted in TABLE:
            with self.subTest(format=format, data=data):
                self.assertEqual(shown(data, texts.tokens_of(data, format)), wanted)

    def test_numbers_go_up_from_one(self):
        self.assertEqual([token.number for token in texts.tokens_of(b"(a b)", "sdf")], [1, 2, 3, 4])

    def test_kinds_of_verilog(self):
        kinds = [token.kind for token in texts.tokens_of(rb"\a 1'b0 12 ;", "verilog")]
        self.assertEqual(kinds, ["name", "constant", "number", "mark"])

    def test_a_token_is_found_by_its_number(self):
        samples = {"verilog": b"u (.A(n));\n", "liberty": b'v ("1", \\\n "2");', "spef": b"1 a 2 // c\n", "sdf": b"(a b)"}
        for format, data in samples.items():
            whole = data * 1000
            every = list(texts.tokens_of(whole, format))
            for number in (1, 2, texts.BLOCK, texts.BLOCK + 1, 2 * texts.BLOCK + 1, len(every)):
                self.assertEqual(texts.token_at(whole, format, number), every[number - 1])
            for number in (0, len(every) + 1, len(every) + texts.BLOCK, 10 * len(every)):
                self.assertIsNone(texts.token_at(whole, format, number))

    def test_nothing_stands_behind_a_broken_token(self):
        data = b"a " * 2000 + b"/ " + b"b " * 2000
        self.assertEqual(texts.token_at(data, "verilog", 2001).kind, "broken")
        self.assertIsNone(texts.token_at(data, "verilog", 2002))
        self.assertIsNone(texts.token_at(data, "verilog", 3500))


class Places(unittest.TestCase):
    def test_lines_and_columns(self):
        data = b"ab\r\ncd\n\nx"
        places = [files.place_of(data, offset) for offset in (0, 1, 4, 5, 7, 8, 9)]
        self.assertEqual(places, [(1, 1), (1, 2), (2, 1), (2, 2), (3, 1), (4, 1), (4, 2)])
        self.assertEqual([files.line_at(data, offset) for offset in (0, 5, 7, 8, 9)], [b"ab", b"cd", b"", b"x", b"x"])

    def test_a_compressed_file_is_unpacked(self):
        with tempfile.TemporaryDirectory() as folder:
            path = os.path.join(folder, "x.spef")
            for written in (b"*SPEF", gzip.compress(b"*SPEF")):
                with open(path, "wb") as file:
                    file.write(written)
                self.assertEqual(files.read_file(path), b"*SPEF")


class Refusals(unittest.TestCase):
    def explained(self, line, data, words=("wires", "--spef", "x.spef")):
        """The text in which a line is explained, with this file."""
        before = os.getcwd()
        with tempfile.TemporaryDirectory() as folder:
            os.chdir(folder)
            with open("x.spef", "wb") as file:
                file.write(data)
            lines = explanation(refusal_of(line, read_rows()), list(words))
            os.chdir(before)
        return lines

    def test_each_line_of_the_page_is_found_by_its_own_row(self):
        rows = read_rows()
        for line in ("E50 limit names", "E30 spef number bad unit token 0", "usage at word 2: missing value", "write fault"):
            self.assertIsNotNone(refusal_of("gdc: " + line, rows))
        self.assertIsNone(refusal_of("gdc: E99 new token 3", rows))

    def test_a_caret_stands_under_the_token(self):
        lines = self.explained("gdc: E04 spef syntax token 2", b'\t*SPEF x\n')
        self.assertEqual(lines[:3], ["x.spef:1:8: gdc: E04 spef syntax token 2", "     *SPEF x", "           ^"])

    def test_a_long_line_is_cut(self):
        lines = self.explained("gdc: E04 spef syntax token 1001", b"a " * 1000 + b"bad " + b"c " * 1000)
        self.assertLess(max(map(len, lines[1:3])), 140)
        self.assertEqual(lines[1].index("bad"), lines[2].index("^^^"))

    def test_the_end_of_a_file(self):
        lines = self.explained("gdc: E04 spef syntax token 3", b"a\nb\n")
        self.assertEqual(lines[0], "x.spef:3:1: gdc: E04 spef syntax token 3")
        self.assertIn("  The file ends here, behind 2 tokens.", lines)

    def test_a_byte_order_mark_is_told(self):
        lines = self.explained("gdc: E04 spef syntax token 1", b"\xef\xbb\xbf*SPEF")
        self.assertIn("byte order mark", " ".join(lines))

    def test_a_compressed_file_is_told(self):
        self.assertIn("zcat x.spef", " ".join(self.explained("gdc: E04 spef syntax token 1", gzip.compress(b"*SPEF"))))

    def test_another_file_than_was_refused(self):
        for line in ("E04 spef syntax token 9", "E05 spef form *R_NET token 1", "E36 mesh n", "E34 strange pin n a:b"):
            lines = self.explained("gdc: " + line, b"*SPEF x *C_UNIT 1 FF")
            self.assertEqual(lines[0], "gdc: " + line)
            self.assertTrue(lines[1].startswith("  No place is shown: "))

    def test_a_net_that_is_too_large(self):
        lines = self.explained("gdc: E50 limit net n", b"*SPEF *D_NET n 1 *CONN *I a:Z O *CAP 1 a:Z 1 *RES 1 a:Z n:1 1 *END")
        self.assertIn("  The section has 1 resistors, 1 capacitances and 1 connections.", lines)

    def test_no_words(self):
        finding = finding_of(refusal_of("gdc: E04 spef syntax token 1", read_rows()), ["wires"])
        self.assertEqual(finding.places, [])


if __name__ == "__main__":
    unittest.main()
