"""Requirements of a signature, as texts. docs/FORMAT-SIGNATURE.md, 5."""

import re
import sys

from .reading import Fault, number, require
from .signature import Index, signature_of

SLOT, INDEX_MAGIC, MAGIC = 2, 0xFADE0C01, 0xFADE0C00
TYPES = ("host", "guest", "designated", "library", "plugin")
MOST_OPERATIONS = 999
WORDS = {0: "never", 1: "always", 3: "anchor apple", 13: "anchor trusted", 15: "anchor apple generic", 21: "notarized", 23: "legacy"}
MATCHES = {1: "= {}", 2: "~ {}", 3: "= {}*", 4: "= *{}", 5: "< {}", 6: "> {}", 7: "<= {}", 8: ">= {}"}
APPLE = bytes.fromhex("2a864886f76364")
# An expression has a frame for each operation.
sys.setrecursionlimit(max(sys.getrecursionlimit(), 20000))


class NotSimple(Exception):
    """What the tables of the page don't have."""


def shown(data):
    """Returns data between quotation marks, or as digits."""
    return f'"{data.decode()}"' if all(0x20 <= byte <= 0x7E and byte not in b'"\\' for byte in data) else f"0x{data.hex()}"


def key(data):
    return data.decode() if re.fullmatch(rb"[A-Za-z0-9.]+", data) else shown(data)


def identifier(data):
    """Returns an object identifier: decimal, if it is one of Apple's with small numbers."""
    rest = data[len(APPLE):]
    if data.startswith(APPLE) and all(byte < 128 for byte in rest):
        return ".".join(["1.2.840.113635.100", *map(str, rest)])
    return f"0x{data.hex()}"


class Expression:
    """Reads an expression from a place on."""

    def __init__(self, data, place):
        self.data, self.place = bytes(data), place

    def bytes(self, size):
        self.place += size
        if self.place > len(self.data):
            raise NotSimple
        return self.data[self.place - size:self.place]

    def word(self):
        return int.from_bytes(self.bytes(4), "big")

    def some(self):
        """Reads data, and what fills them up to a multiple of 4."""
        size = self.word()
        data = self.bytes(size)
        self.bytes(-size % 4)
        return data

    def certificate(self):
        slot = int.from_bytes(self.bytes(4), "big", signed=True)
        return {0: "leaf", -1: "root"}.get(slot, str(slot))

    def match(self):
        kind = self.word()
        if kind in (0, 14):
            return "absent" if kind else "exists"
        if kind not in MATCHES:
            raise NotSimple
        return MATCHES[kind].format(shown(self.some()))

    def of_certificate(self, operation):
        certificate = f"certificate {self.certificate()}"
        if operation == 4:
            return f'{certificate} = H"{self.some().hex()}"'
        if operation == 12:
            return f"{certificate} trusted"
        name = self.some()
        named = key(name) if operation == 11 else f"{'field' if operation == 14 else 'policy'}.{identifier(name)}"
        return f"{certificate}[{named}] {self.match()}"

    def text(self, above=0):
        """Returns the text, and `and` or `or` if that is its operation."""
        operation = self.word()
        if above > MOST_OPERATIONS:
            raise NotSimple
        if operation == 9:
            text, inner = self.text(above + 1)
            return (f"! ({text})" if inner else f"! {text}"), None
        if operation in (6, 7):
            joined = "and" if operation == 6 else "or"
            parts = [self.text(above + 1), self.text(above + 1)]
            return f" {joined} ".join(f"({text})" if operation == 6 and inner == "or" else text for text, inner in parts), joined
        return self.term(operation), None

    def term(self, operation):
        if operation in WORDS:
            return WORDS[operation]
        if operation == 2:
            return f"identifier {shown(self.some())}"
        if operation == 8:
            return f'cdhash H"{self.some().hex()}"'
        if operation in (10, 16):
            return f"{'info' if operation == 10 else 'entitlement'}[{key(self.some())}] {self.match()}"
        if operation in (4, 11, 12, 14, 17):
            return self.of_certificate(operation)
        raise NotSimple


def text_of(blob):
    try:
        expression = Expression(blob, 12)
        if number(blob, 0, 4, ">") != MAGIC or Expression(blob, 8).word() != 1:
            raise NotSimple
        text = expression.text()[0]
        if expression.place != len(blob):
            raise NotSimple
        return text
    except NotSimple:
        return f"not simple: {bytes(blob).hex()}"


def requirement_of(image, kind):
    signed = signature_of(image)
    blob = signed[0].blob_of(SLOT) if signed else None
    if blob is None:
        return "none"
    require(number(blob, 0, 4, ">") == INDEX_MAGIC and len(blob) >= 12)
    count = number(blob, 8, 4, ">")
    require(12 + 8 * count <= len(blob))
    found = Index(blob, count).blob_of(kind)
    return "none" if found is None else f"requirement {TYPES[kind - 1]} {text_of(found)}"


def requirements(image, vector):
    for kind, in vector.numbers:
        try:
            yield requirement_of(image, kind)
        except Fault as fault:
            yield fault


LISTS = {"requirement": requirements}
