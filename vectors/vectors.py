"""Reads files of vectors, which README.md describes. What the format doesn't allow raises a Fault, with its file and its line."""

import itertools
import re

# The keys that a vector may have once, and those that it may have several times.
ONCE = set("vector shows source image cut call mode offset name address count checked choice".split())
OFTEN = set("row bytes change library number part want first last".split())
# The calls, each with the key that it needs.
CALLS = {
    **dict.fromkeys("header commands segments sections relocations symbols libraries run-paths ids function-starts data-in-code".split()),
    **dict.fromkeys("indirect-symbols linker-options build-tools notes slots providers initializers exports walk imports iter-imports".split()),
    **dict.fromkeys("bindings weak-binds rebases fixups mach input entries images archive-kind members archive-symbols layout container".split()),
    **dict.fromkeys("signature signature-faults as-signed entitlements security resolve audit".split()),
    **dict.fromkeys("find archive-find member-named".split(), "name"),
    **dict.fromkeys("slot-at section-at".split(), "address"),
    **dict.fromkeys("section-of strings write-fat command-names file-type-names header-flag-names platform-names".split(), "number"),
    **dict.fromkeys("symbol-type-names cpu-names relocation-names requirement".split(), "number"),
}
OF_TWO_NUMBERS = {"cpu-names", "relocation-names"}
NUMBER = re.compile("[0-9]+|0x[0-9a-fA-F]+")
WORD = re.compile(r"((?:[0-9a-fA-F]{2})+)(?:\*([0-9]+|0x[0-9a-fA-F]+))?")


class Fault(Exception):
    """What is wrong in a file of vectors."""


class Line:
    """A key and its value, with their place."""

    def __init__(self, file, number, text):
        self.file, self.number, self.text = file, number, text
        self.key, _, self.value = text.partition(" ")

    def fault(self, what):
        return Fault(f"{self.file}:{self.number}: {what}")

    def integer(self, word=None):
        """Returns the number that a word is; without a word, that of the value."""
        word = self.value if word is None else word
        if not NUMBER.fullmatch(word):
            raise self.fault(f"'{word}' is no number")
        return int(word, 16 if word.startswith("0x") else 10)

    def integers(self, count):
        words = self.value.split(" ")
        if len(words) != count:
            raise self.fault(f"not {count} numbers")
        return tuple(self.integer(word) for word in words)

    def data(self, words=None):
        """Returns the bytes of words such as 00ff and 00*16."""
        parts = []
        for word in (self.value if words is None else words).split():
            read = WORD.fullmatch(word)
            if not read:
                raise self.fault(f"'{word}' isn't pairs of digits")
            parts.append(bytes.fromhex(read[1]) * (self.integer(read[2]) if read[2] else 1))
        return b"".join(parts)

    def unescaped(self, words=None):
        """Returns the bytes of a name, in which a backslash, x and two digits are a byte; without a name, those of the value."""
        words = self.value if words is None else words
        name = re.sub(r"\\x([0-9a-fA-F]{2})", lambda found: chr(int(found[1], 16)), words).encode("latin-1")
        if re.search(r"\\(?!x[0-9a-fA-F]{2})", words):
            raise self.fault("a backslash without x and two digits")
        if name.decode(errors="replace").encode() != name:
            raise self.fault("a name that isn't UTF-8")
        return name


class Vector:
    """A file, a question, and the answer."""

    def __init__(self, lines, images):
        self.lines, self.images, self.fields = lines, images, {}
        self.file, self.line, self.name = lines[0].file, lines[0].number, lines[0].value
        for line in lines:
            if line.key not in ONCE | OFTEN or line.key in ONCE and line.key in self.fields:
                raise line.fault(f"unknown key '{line.key}'" if line.key not in ONCE else f"a second {line.key}")
            self.fields.setdefault(line.key, []).append(line.value)
        self._read_question()
        self._read_answer()

    def all(self, key):
        """Returns the lines of a key."""
        return [line for line in self.lines if line.key == key]

    def _needed(self, key):
        if key not in self.fields:
            raise self.lines[0].fault(f"no {key}")
        return self.all(key)[0]

    def _one(self, key, known):
        for line in self.all(key):
            if line.value not in known:
                raise line.fault(f"unknown {key} '{line.value}'")
            return line.value
        return None

    def _read_question(self):
        self._needed("call")
        self.call, self.mode = self._one("call", CALLS), self._one("mode", ("strict", "lossy")) or "strict"
        self._one("image", self.images)
        if CALLS[self.call]:
            self._needed(CALLS[self.call])
        self.offset, self.address = (sum(line.integer() for line in self.all(key)) for key in ("offset", "address"))
        self.numbers = [line.integers(2 if self.call in OF_TWO_NUMBERS else 1) for line in self.all("number")]
        self.number = self.numbers[0][0] if self.numbers else 0
        self.parts = [line.integers(5) for line in self.all("part")]
        self.wanted_name = b"".join(line.unescaped() for line in self.all("name"))
        self.libraries = [self._library(line) for line in self.all("library")]

    def _library(self, line):
        """Returns the path and the bytes of a library that is given with the file."""
        path, _, image = line.value.partition(" ")
        if image not in self.images:
            raise line.fault(f"unknown image '{image}'")
        return line.unescaped(path), self.images[image]

    def _read_answer(self):
        self.checked = " ".join(self.fields.get("checked", [])).split()
        self.want, self.first, self.last = self.fields.get("want"), self.fields.get("first", []), self.fields.get("last", [])
        counted = [line for line in self.lines if line.key in ("count", "first", "last")]
        self.count = self._needed("count").integer() if counted else None
        if counted and self.want:
            raise counted[0].fault(f"both want and {counted[0].key}")
        if counted and max(len(self.first), len(self.last)) > self.count:
            raise self._needed("count").fault("fewer lines than first or last ones")

    def bytes(self):
        """Returns the file: the image, cut and changed, and then the bytes."""
        file = bytearray().join(self.images[line.value] for line in self.all("image"))
        for line in self.all("cut"):
            if line.integer() > len(file):
                raise line.fault("a cut after the end of the image")
            del file[line.integer():]
        for line in self.all("change"):
            place, _, words = line.value.partition(" ")
            start, new = line.integer(place), line.data(words)
            if start + len(new) > len(file):
                raise line.fault("a change outside of the bytes")
            file[start:start + len(new)] = new
        return bytes(file + b"".join(line.data() for line in self.all("bytes")))

    def difference(self, lines):
        """Returns the first difference between lines and the wanted answer, or nothing."""
        if self.want is None and self.count is None:
            return "neither want nor count"
        if self.want is None and len(lines) != self.count:
            return f"\n  want {self.count} lines\n  got  {len(lines)}"
        start = len(lines) - len(self.last)
        compared = [(1, self.want, lines)] if self.want else [(1, self.first, lines[:len(self.first)]), (start + 1, self.last, lines[start:])]
        for number, want, got in compared:
            for index, (one, other) in enumerate(itertools.zip_longest(want, got, fillvalue="no line")):
                if one != other:
                    return f"line {number + index}\n  want {one}\n  got  {other}"
        return ""


def parse_text(text, file):
    """Returns the vectors of a file's text, in order."""
    rows = [Line(file, number, text) for number, text in enumerate(text.split("\n"), 1)]
    for row in rows:
        if not row.text.isascii() or "\r" in row.text:
            raise row.fault("a line that isn't ASCII, or ends with CR")
    if not text.endswith("\n"):
        raise rows[-1].fault("a last line without LF")
    vectors, images = [], {}
    for is_block, lines in itertools.groupby(rows, key=lambda line: line.text != ""):
        block = [line for line in lines if not line.text.startswith("#")]
        if is_block and block and block[0].key == "vector":
            vectors.append(Vector(block, images))
        elif is_block and block:
            _add_image(images, block)
    return vectors


def _add_image(images, block):
    """Adds the bytes that a block gives a name."""
    head, *lines = block
    if head.key != "image":
        raise head.fault(f"a block begins with '{head.key}'")
    if head.value in images:
        raise head.fault(f"a second image '{head.value}'")
    for line in lines:
        if line.key != "bytes":
            raise line.fault(f"an image has no {line.key}")
    images[head.value] = b"".join(line.data() for line in lines)


def parse(path):
    """Returns the vectors of a file, in order."""
    with open(path, encoding="latin-1", newline="") as file:
        return parse_text(file.read(), str(path))
