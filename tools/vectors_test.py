#!/usr/bin/env python3
"""Tests vectors/vectors.py, and what tools/vectors writes into files."""
import importlib.machinery
import importlib.util
import os
import sys
import unittest

TOP = os.path.dirname(os.path.dirname(os.path.abspath(__file__)))
sys.path.insert(0, TOP)
sys.dont_write_bytecode = True
from vectors import vectors as form  # noqa: E402


def module(name):
    """Returns a program of tools/ as a module."""
    loader = importlib.machinery.SourceFileLoader(name, os.path.join(TOP, "tools", name))
    made = importlib.util.module_from_spec(importlib.util.spec_from_loader(name, loader))
    loader.exec_module(made)
    return made


HEAD = "image i\nbytes 00*3 ff\n\nvector v\ncall mach\n"


class Parser(unittest.TestCase):
    """What the format says, and what it doesn't allow."""

    def test_a_vector(self):
        lines = "image i\ncut 0x3\nchange 1 0a0b\nbytes 01*2 0203\nname a\\x5cb\nnumber 1\nnumber 0x10\npart 1 2 3 4 5\nlibrary a\\x20b i\nchecked llvm reference\nwant image\n"
        one = form.parse_text(f"# A remark.\n{HEAD}{lines}", "f")[0]
        self.assertEqual((one.name, one.line, one.call, one.mode, one.offset, one.address), ("v", 5, "mach", "strict", 0, 0))
        self.assertEqual(one.bytes(), bytes.fromhex("000a0b01010203"))
        self.assertEqual((one.wanted_name, one.number, one.numbers, one.parts), (b"a\\b", 1, [(1,), (16,)], [(1, 2, 3, 4, 5)]))
        self.assertEqual(one.libraries, [(b"a b", bytes.fromhex("000000ff"))])
        self.assertEqual((one.checked, one.want, one.count), (["llvm", "reference"], ["image"], None))

    def test_differences(self):
        def difference(lines, *answer):
            return form.parse_text(HEAD + lines, "f")[0].difference(list(answer))
        self.assertEqual(difference("want a\nwant end\n", "a", "end"), "")
        self.assertEqual(difference("want a\nwant end\n", "a"), "line 2\n  want end\n  got  no line")
        self.assertEqual(difference("want a\n", "b"), "line 1\n  want a\n  got  b")
        self.assertEqual(difference("count 3\nfirst a\nlast b\nlast end\n", "a", "b", "end"), "")
        self.assertEqual(difference("count 3\nfirst a\nlast b\nlast end\n", "a", "c", "end"), "line 2\n  want b\n  got  c")
        self.assertEqual(difference("count 3\n", "a", "end"), "\n  want 3 lines\n  got  2")
        self.assertEqual(difference("", "end"), "neither want nor count")

    def test_what_is_not_allowed(self):
        for lines, fault in (
            ("wants image", "6: unknown key 'wants'"),
            ("want image\ncount 1", "7: both want and count"),
            ("first image", "4: no count"),
            ("count 1\nfirst image\nfirst end", "6: fewer lines than first or last ones"),
            ("bytes 012", "6: '012' isn't pairs of digits"),
            ("bytes 0g", "6: '0g' isn't pairs of digits"),
            ("bytes 00*-1", "6: '00*-1' isn't pairs of digits"),
            ("change 0 12", "6: a change outside of the bytes"),
            ("image i\ncut 5", "7: a cut after the end of the image"),
            ("image a", "6: unknown image 'a'"),
            ("mode loose", "6: unknown mode 'loose'"),
            ("offset +1", "6: '+1' is no number"),
            ("part 1 2 3 4", "6: not 5 numbers"),
            ("library a", "6: unknown image ''"),
            ("library a b", "6: unknown image 'b'"),
            ("library \\x i", "6: a backslash without x and two digits"),
            ("number 1 2", "6: not 1 numbers"),
            ("name \\x4", "6: a backslash without x and two digits"),
            ("name \\xff", "6: a name that isn't UTF-8"),
            ("call walk", "6: a second call"),
            ("want \u00e9", "6: a line that isn't ASCII, or ends with CR"),
            ("want image\r", "6: a line that isn't ASCII, or ends with CR"),
            ("\nwant image", "7: a block begins with 'want'"),
            ("\nimage j\nwant image", "8: an image has no want"),
            ("\nimage i", "7: a second image 'i'"),
            ("\nvector w", "7: no call"),
            ("\nvector w\ncall machs", "8: unknown call 'machs'"),
            ("\nvector w\ncall find", "7: no name"),
            ("\nvector w\ncall requirement", "7: no number"),
            ("\nvector w\ncall cpu-names\nnumber 1", "9: not 2 numbers"),
        ):
            with self.subTest(lines), self.assertRaises(form.Fault) as raised:
                for vector in form.parse_text(f"{HEAD}{lines}\n", "f"):
                    vector.bytes()
            self.assertEqual(str(raised.exception), f"f:{fault}")
        with self.assertRaisesRegex(form.Fault, "f:5: a last line without LF"):
            form.parse_text(HEAD[:-1], "f")


class Tool(unittest.TestCase):
    """What the tool writes."""

    def test_lines_are_replaced_in_their_vectors_alone(self):
        tool = module("vectors")
        lines = "# want of a remark\n\nvector a\nchoice c\ncall mach\nwant x\n# more\nchecked alone\n\nvector b\ncall mach\nwant y\n".split("\n")
        new = "# want of a remark\n\nvector a\nchoice c\ncall mach\n# more\nwant 1\nwant 2\nchecked alone\n\nvector b\ncall mach\nwant y\n"
        self.assertEqual("\n".join(tool.edited(lines, {"a": ["want 1", "want 2"]}, tool.ANSWER)), new)
        self.assertEqual(tool.edited(lines, {}, tool.ANSWER), lines)
        self.assertEqual("\n".join(tool.edited(lines, {"b": ["checked llvm"]}, ["checked"])), "\n".join(lines[:-1]) + "\nchecked llvm\n")

    def test_long_answers(self):
        tool = module("vectors")
        self.assertEqual(tool.answer_lines(["a", "end"], False), ["want a", "want end"])
        self.assertEqual(tool.answer_lines(["a", "b", "end"], True), ["count 3", "first a", "last b", "last end"])
        self.assertEqual(tool.answer_lines(["a"] * 41, False), ["count 41", "first a", "last a"])

    def test_which_have_no_answer(self):
        tool = module("vectors")
        self.assertTrue(tool.has_no_answer({"call": "mach"}))
        self.assertTrue(tool.has_no_answer({"call": "mach", "count": "0", "first": ""}))
        self.assertFalse(tool.has_no_answer({"call": "mach", "count": "1"}))


if __name__ == "__main__":
    unittest.main()
