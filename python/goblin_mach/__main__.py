"""The command `goblin-mach WORD FILE..`, which is `python3 -m goblin_mach` too. It shows what is in Mach-O files, with labels or as
JSON."""

from __future__ import annotations

import argparse
import io
import json
import os
import signal
import sys
from itertools import islice
from typing import Any, Iterator, List, Optional

import goblin_mach

from ._item import plain
from ._library import escaped
from ._show import FACTS, PAST_END, TABLES, WORDS
from .errors import Refused
from .file import File
from .image import Image


def _complain(words: object) -> int:
    """Reports something on standard error; returns the status for that."""
    print(f"goblin-mach: {escaped(str(words))}", file=sys.stderr)
    return 1


def _items(name: str, image: Image, left_out: List[str]) -> Iterator[Any]:
    """Yields the items of a table, but no more than the image has bytes. Adds to `left_out` what is left out, and why."""
    limit = len(image.data)
    items = iter(TABLES[name].items(image))
    try:
        yield from islice(items, limit)
        if next(items, None) is not None:
            left_out.append(f"{limit} {name} are shown, and there are more")
    except Refused as why:
        left_out.append(str(why))
    past = PAST_END[name](image) if name in PAST_END else 0
    if past:
        left_out.append(f"{past} more {name} past the end")


def _show_text(word: str, image: Image, left_out: List[str]) -> int:
    """Prints what a word selects of an image, with labels; returns how many items it has."""
    count = 0
    for label, value in FACTS.get(word, lambda image: {})(image).items():
        for line in value if isinstance(value, list) else [value]:
            print(f"  {label.replace('_', ' ') + ':':<18} {'-' if line is None else escaped(str(line))}")
    for name in WORDS[word].tables:
        table = TABLES[name]
        cells = table.cells(image)
        for number, item in enumerate(_items(name, image, left_out)):
            if number == 0:
                print("  " + table.form.format(*table.headings).rstrip())
            error = getattr(item, "error", None)
            print("  " + table.form.format(*cells(item)).rstrip() + (f" ({error})" if error else ""))
            count += 1
    return count


def _show_json(word: str, label: str, image: Image, left_out: List[str]) -> int:
    """Prints what a word selects of an image as one object, each list item by item; returns how many items it has."""
    count = 0
    is_open = image.error is None
    facts = {name: plain(value) for name, value in FACTS[word](image).items()} if is_open and word in FACTS else {}
    print(json.dumps({"label": label, **facts, **image.to_dict()})[:-1], end="")
    for name in WORDS[word].tables if is_open else []:
        print(f', "{name}": [', end="")
        for number, item in enumerate(_items(name, image, left_out)):
            print(", " if number else "", json.dumps(plain(item)), sep="", end="")
            count += 1
        print("]", end="")
    print(f', "left_out": {json.dumps(left_out)}}}')
    return count


def _show(word: str, file: File, as_json: bool) -> int:
    """Shows what a word selects of each image of a file; returns the status."""
    status = 0
    for fault in file.container_faults() if word == "audit" else ():
        status = _complain(f"{file.label}: {fault}")
    for label, image in file.images():
        left_out: List[str] = []
        count = 0
        if not as_json and image.error is None:
            print(f"{escaped(label)}:")
        try:
            if as_json:
                count = _show_json(word, label, image, left_out)
            elif image.error is None:
                count = _show_text(word, image, left_out)
        except Refused as why:
            left_out.append(why.words)
        for words in left_out if image.error is None else [image.error.words]:
            status = _complain(f"{label}: {words}")
        if word == "audit" and count:
            status = 1
        elif word == "audit" and image.error is None and not as_json and not left_out:
            print("  no fault was found")
    sys.stdout.flush()
    return status


def _arguments(words: List[str]) -> argparse.Namespace:
    """Returns the arguments of the command. Wrong ones, `--help` and `--version` end the program."""
    parser = argparse.ArgumentParser(prog="goblin-mach", description="Shows what is in Mach-O files, fat files and archives.",
                                     formatter_class=argparse.RawDescriptionHelpFormatter,
                                     epilog="words:\n" + "\n".join(f"  {name:<10} {word.about}" for name, word in WORDS.items()))
    parser.add_argument("word", metavar="WORD", choices=list(WORDS), help="what to show, see below")
    parser.add_argument("files", metavar="FILE", nargs="+", help="the files, in this order")
    parser.add_argument("--json", action="store_true", help="print one JSON object for each image, on a line")
    parser.add_argument("--version", action="version", version=f"goblin-mach {goblin_mach.__version__}")
    return parser.parse_args(words)


def main(words: List[str]) -> int:
    """Runs the command with these arguments; returns the greatest status of its files."""
    given = _arguments(words)
    status = 0
    for path in given.files:
        try:
            with goblin_mach.open(path) as file:
                status = max(status, _show(given.word, file, given.json))
        except Refused as why:
            status = max(status, _complain(f"{path}: {why}"))
        except OSError as why:
            _complain(why)
            status = 2
    return status


def program(words: Optional[List[str]] = None) -> None:
    """Runs the command, and ends the program."""
    # A closed pipe and Ctrl-C end it as they end other programs: without a message, and by their signal. If Ctrl-C was ignored, it stays
    # ignored.
    signal.signal(signal.SIGPIPE, signal.SIG_DFL)
    if signal.getsignal(signal.SIGINT) is signal.default_int_handler:
        signal.signal(signal.SIGINT, signal.SIG_DFL)
    # Names are written as UTF-8, whatever the locale is.
    for stream in (sys.stdout, sys.stderr):
        if isinstance(stream, io.TextIOWrapper):
            stream.reconfigure(encoding="utf-8", errors="surrogateescape")
    status = main(sys.argv[1:] if words is None else words)
    if status == 2:  # the rest of the buffer would fail again, with a message and a status of Python's own
        os.dup2(os.open(os.devnull, os.O_WRONLY), sys.stdout.fileno())
    sys.exit(status)


if __name__ == "__main__":
    program()
