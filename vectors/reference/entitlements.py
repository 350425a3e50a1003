"""Entitlements in XML and in DER, and whether they say the same. docs/FORMAT-SIGNATURE.md, 6.

A value is a pair of its kind and what it is: a boolean, an integer, a date as its 14 digits, bytes, a list of values, or a list of pairs of
a key and a value. What can't be read raises `Unreadable`.
"""

import re
import sys

from .reading import Fault, attempt, quoted
from .signature import signature_of

XML, DER = 5, 7
MOST_BYTES, MOST_COMMENTS, MOST_STEPS = 262144, 2000, 2000
LEAST, GREATEST = -1 << 63, (1 << 64) - 1
NOT_ALLOWED = re.compile("[^\t\n\r\x20-\ud7ff\ue000-\ufffd\U00010000-\U0010ffff]")
NAMED = {"lt": "<", "gt": ">", "amp": "&", "quot": '"', "apos": "'"}
ELEMENT = re.compile(r"<(/?)(dict|array|key|string|integer|date|real)>|<(dict|array|string|true|false) ?/>")
sys.setrecursionlimit(max(sys.getrecursionlimit(), 20000))


class Unreadable(Exception):
    """Data that aren't entitlements of their notation."""


def demand(condition):
    if not condition:
        raise Unreadable


def integer(value):
    demand(LEAST <= value <= GREATEST)
    return "integer", value


class Xml:
    """Reads a property list."""

    def __init__(self, data):
        try:
            self.text = bytes(data).decode()
        except UnicodeDecodeError:
            raise Unreadable from None
        demand(not NOT_ALLOWED.search(self.text))
        self.place = 0

    def take(self, pattern):
        """Moves past what a pattern matches, and returns the match; None if it doesn't."""
        found = re.compile(pattern).match(self.text, self.place)
        self.place = found.end() if found else self.place
        return found

    def skip(self):
        """Moves past white space and comments."""
        self.take(r"[ \t\r\n]*")
        count = 0
        while self.take("<!--"):
            end = self.text.find("--", self.place)
            count += 1
            demand(end >= 0 and self.text[end + 2:end + 3] == ">" and count < MOST_COMMENTS)
            self.place = end + 3
            self.take(r"[ \t\r\n]*")

    def element(self):
        """Reads a tag: whether it ends an element, its name, and whether it is empty."""
        self.skip()
        found = self.take(ELEMENT)
        demand(found)
        return bool(found[1]), found[2] or found[3], bool(found[3])

    def content(self, name, pattern):
        found = self.take(f"({pattern})</{name}>")
        demand(found)
        return found[1]

    def characters(self, name):
        return re.sub(r"&([^;&]*);?", character, self.content(name, r"[^<\r]*")).encode()

    def value(self, name, is_empty, step):
        if name in ("true", "false"):
            return "boolean", name == "true"
        if name in ("dict", "array"):
            return name, [] if is_empty else list(self.values(name, step + 1))
        if name == "string":
            return "text", b"" if is_empty else self.characters(name)
        if name == "integer":
            return integer(int(self.content(name, "-?[0-9]+")))
        if name == "date":
            return "date", re.sub("[^0-9]", "", self.content(name, "[0-9]{4}-[0-9]{2}-[0-9]{2}T[0-9]{2}:[0-9]{2}:[0-9]{2}Z"))
        demand(name == "real")
        self.content(name, r"(?s:.*?)")
        return "real", None

    def values(self, group, step):
        """Yields the values of a group up to its end. The first of them is so many steps from the first value of all."""
        while True:
            demand(step < MOST_STEPS)
            is_end, name, is_empty = self.element()
            if is_end:
                demand(name == group)
                return
            if group == "array":
                yield self.value(name, is_empty, step)
            else:
                demand(name == "key")
                label = self.characters(name)
                is_end, name, is_empty = self.element()
                demand(not is_end and name != "key")
                yield label, self.value(name, is_empty, step)
            step += 1

    def read(self):
        self.take(r"""<\?xml\s+version=(["'])1\.0\1(\s+encoding=(["'])UTF-8\3)?\s*\?>""")
        self.skip()
        self.take(r"<!DOCTYPE\s+plist[^\[\]>]*>")
        self.skip()
        demand(self.take(r'<plist( version="1\.0")?>'))
        is_end, name, is_empty = self.element()
        demand(name == "dict" and not is_end)
        values = [] if is_empty else list(self.values(name, 0))
        self.skip()
        demand(self.take("</plist>"))
        self.skip()
        demand(self.place == len(self.text))
        return "dict", values


def character(found):
    """Returns the character of a reference."""
    name = found[1]
    demand(found[0].endswith(";"))
    if name in NAMED:
        return NAMED[name]
    numbered = re.fullmatch("#(?:x([0-9a-fA-F]+)|([0-9]+))", name)
    demand(numbered)
    code = int(numbered[1], 16) if numbered[1] else int(numbered[2])
    demand(code <= 0x10FFFF and not NOT_ALLOWED.match(chr(code)))
    return chr(code)


def item(data):
    """Reads a tag with its content; returns them and what follows."""
    demand(len(data) >= 2)
    tag, size, place = data[0], data[1], 2
    if size >= 0x80:
        place += size - 0x80
        demand(0x81 <= size <= 0x83 and len(data) >= place)
        size = int.from_bytes(data[2:place], "big")
        demand(size >= 0x80 and data[2] != 0)
    demand(len(data) - place >= size)
    return tag, data[place:place + size], data[place + size:]


def der_value(tag, content, step):
    if tag == 0x01:
        demand(content in (b"\0", b"\xff"))
        return "boolean", content == b"\xff"
    if tag == 0x02:
        value = int.from_bytes(content, "big", signed=True)
        demand(content and (len(content) == 1 or not -0x80 << 8 * len(content) - 16 <= value < 0x80 << 8 * len(content) - 16))
        return integer(value)
    if tag == 0x0C:
        return "text", content
    if tag == 0x18:
        demand(re.fullmatch(rb"[0-9]{14}Z", content))
        return "date", content[:14].decode()
    if tag == 0x30:
        return "array", list(der_values("array", content, step + 1))
    demand(tag in (0xB0, 0x31))
    return "dict", list(der_values("dict", content, step + 1))


def der_values(group, data, step):
    while True:
        demand(step < MOST_STEPS)
        if not data:
            return
        tag, content, data = item(data)
        if group == "array":
            yield der_value(tag, content, step)
        else:
            demand(tag == 0x30)
            label, name, rest = item(content)
            tag, content, rest = item(rest)
            demand(label == 0x0C and not rest)
            yield name, der_value(tag, content, step)
        step += 1


def der(data):
    tag, content, rest = item(bytes(data))
    demand(not rest and tag in (0x70, 0x31))
    if tag == 0x70:
        version, number, content = item(content)
        demand((version, number) == (0x02, b"\1"))
        tag, content, rest = item(content)
        demand(tag == 0xB0 and not rest)
    return "dict", list(der_values("dict", content, 0))


def entitlements(notation, data):
    """Reads entitlements in a notation."""
    demand(len(data) <= MOST_BYTES)
    return Xml(data).read() if notation == XML else der(data)


def say_the_same(one, other):
    kind = one[0]
    if kind != other[0] or kind == "real":
        return False
    if kind == "array":
        return len(one[1]) == len(other[1]) and all(map(say_the_same, one[1], other[1]))
    if kind == "dict":
        first, second = dict(one[1]), dict(other[1])
        are_once = len(one[1]) == len(other[1]) == len(first) == len(second)
        return are_once and first.keys() == second.keys() and all(say_the_same(first[key], second[key]) for key in first)
    return one[1] == other[1]


def content(signature, slot):
    """Returns the bytes of a slot after the head of their blob; None without one."""
    blob = signature.blob_of(slot)
    return None if blob is None else bytes(blob[8:])


def agreement(xml, other):
    for data, word in ((xml, "xml"), (other, "der")):
        if isinstance(data, Fault):
            return f"unreadable-{word}"
    if xml is None or other is None:
        return "none" if xml is other else "only-der" if xml is None else "only-xml"
    values = []
    for notation, data, word in ((XML, xml, "xml"), (DER, other, "der")):
        try:
            values.append(entitlements(notation, data))
        except Unreadable:
            return f"unreadable-{word}"
    return "same" if say_the_same(*values) else "different"


def compared(image, _):
    signed = signature_of(image)
    if signed is None:
        yield "entitlements none"
        return
    signed[0].directory()
    xml, other = (attempt(content, signed[0], slot) for slot in (XML, DER))
    yield f"entitlements {agreement(xml, other)}"
    if isinstance(xml, Fault):
        yield f"xml ({xml})"
    elif xml:
        yield from (f"xml {quoted(xml[at:at + 64])}" for at in range(0, len(xml), 64))


LISTS = {"entitlements": compared}
