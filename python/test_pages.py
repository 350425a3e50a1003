"""Tests that each example of the pages runs and prints what the page says. The examples are fenced blocks of Python in docs/PYTHON.md,
docs/C.md and both READMEs. They run at the top of the repository. A block of text directly after one is its output."""

import contextlib
import io
import os
import re
import shutil
import tempfile
import unittest

import goblin_mach

TOP = os.path.dirname(os.path.dirname(os.path.abspath(__file__)))
PAGES = ["README.md", "docs/PYTHON.md", "docs/C.md", "python/README.md"]
BLOCK = re.compile(r"^```python\n(.*?)^```\n(?:\n```text\n(.*?)^```\n)?", re.M | re.S)


def read(page):
    with open(os.path.join(TOP, page), encoding="utf-8") as file:
        return file.read()


class Pages(unittest.TestCase):
    def setUp(self):
        """Makes a folder where a.out is an image and crates/ is that of the repository."""
        room = tempfile.TemporaryDirectory()
        self.addCleanup(room.cleanup)
        os.symlink(os.path.join(TOP, "crates"), os.path.join(room.name, "crates"))
        shutil.copy(os.path.join(TOP, "crates/machaudit/data/b.macho"), os.path.join(room.name, "a.out"))
        self.addCleanup(os.chdir, os.getcwd())
        os.chdir(room.name)

    def printed(self, code, name):
        said = io.StringIO()
        with contextlib.redirect_stdout(said):
            exec(compile(code, name, "exec"), {"__name__": "example"})
        return said.getvalue()

    def test_examples_of_the_pages(self):
        for page in PAGES:
            for number, (code, wanted) in enumerate(BLOCK.findall(read(page))):
                with self.subTest(page=page, example=number):
                    found = self.printed(code, f"{page}, example {number}")
                    if wanted:
                        self.assertEqual(found, wanted)

    def test_there_are_examples(self):
        self.assertGreaterEqual(len(BLOCK.findall(read("docs/PYTHON.md"))), 7)
        self.assertGreaterEqual(len(BLOCK.findall(read("README.md"))), 1)

    def test_docstrings_are_the_reference(self):
        """Tests that each class and call has a docstring, and that a class's docstring names each of its fields."""
        lacking = []
        for name in sorted(goblin_mach.__all__):
            item = getattr(goblin_mach, name)
            if isinstance(item, type):
                lacking += lacks_of_class(name, item)
            elif callable(item) and not item.__doc__:
                lacking.append(name)
        self.assertEqual(lacking, [])


def lacks_of_class(name, item):
    """Returns what a class has and its docstrings don't: itself, its public calls, and its fields and attributes by name."""
    text = vars(item).get("__doc__") or ""
    fields = [*getattr(item, "_fields", ()), *vars(item).get("__annotations__", {})]
    lacking = [] if text else [name]
    lacking += [f"{name}.{field}" for field in fields if not field.startswith("_") and f"`{field}`" not in text]
    for call, value in vars(item).items():
        if not call.startswith("_") and (isinstance(value, (property, classmethod)) or callable(value)) and not value.__doc__:
            lacking.append(f"{name}.{call}")
    return lacking


if __name__ == "__main__":
    unittest.main()
