"""Numbers, records and texts of bytes, and the faults of reading them (docs/FORMAT-IMAGE.md, parts 1 and 2).

A function that can't answer raises a `Fault`, whose text is the words of an answer after `error`.
"""

import struct
from collections import namedtuple

WORD = 1 << 64
MOST_WORK = 1 << 24


class Fault(Exception):
    """A condition of the format that fails."""

    def line(self):
        return f"error {self}"


class GaveUp(Exception):
    """An answer is more work than this reader does."""


class Work:
    """How much work an answer may still take. A large count in a file is no work, but reading the same bytes again and again is."""

    left = MOST_WORK


def spend(amount):
    Work.left -= amount
    if Work.left < 0:
        raise GaveUp


def malformed():
    return Fault("malformed")


def bad_offset(place):
    return Fault(f"bad-offset {min(place, WORD - 1):#x}")


def too_big(size, left):
    return Fault(f"too-big {size} {left}")


def bad_input(left):
    return Fault(f"bad-input {left}")


def bad_magic(magic):
    return Fault(f"bad-magic {magic:#x}")


def too_short(count, what):
    return Fault(f"too-short {count} {what}")


def require(condition):
    """Refuses what is malformed unless the condition holds."""
    if not condition:
        raise malformed()


def attempt(function, *arguments):
    """Returns what the function returns, or the fault that it raises. A list that goes on has that fault as an item."""
    try:
        return function(*arguments)
    except Fault as fault:
        return fault


def limited(items):
    """Passes the items of a list on, and gives up if they are too many or too long."""
    for item in items:
        spend(8 + len(item) if isinstance(item, str) else 8)
        yield item


def read(data, place, size):
    """Reads `size` bytes at a place (*bounded read*)."""
    spend(8)
    if place + size <= len(data):
        return data[place:place + size]
    raise bad_offset(place) if place >= len(data) else too_big(size, len(data) - place)


def number(data, place, size, order):
    """Reads a number of `size` bytes; the order is `<` (little-endian) or `>`."""
    return int.from_bytes(read(data, place, size), "little" if order == "<" else "big")


def text(data, place, end=None):
    """Reads the bytes of the text at a place, up to a zero byte or the end."""
    end = len(data) if end is None else end
    if place >= end:
        raise bad_offset(place)
    zero = data.find(b"\0", place, end)
    run = data[place:end if zero < 0 else zero]
    spend(8 + len(run) // 16)
    try:
        run.decode()
    except UnicodeDecodeError:
        raise bad_input(end - place) from None
    return run


def name_of_16(field):
    """Returns the name in a field of 16 bytes, whatever bytes it has."""
    return field.split(b"\0", 1)[0]


def _spelling(data, place, tenth):
    spend(8)
    if place >= len(data):
        raise bad_offset(place)
    for width, byte in enumerate(data[place:place + 10], 1):
        if byte < 0x80 and (width < 10 or byte in tenth):
            return data[place:place + width]
    raise bad_input(len(data) - place)


def _sum_of_groups(spelling):
    return sum((byte & 0x7f) << 7 * index for index, byte in enumerate(spelling))


def uleb(data, place):
    """Reads an unsigned LEB128 number; returns it and the place after it."""
    spelling = _spelling(data, place, (0x00, 0x01))
    return _sum_of_groups(spelling), place + len(spelling)


def sleb(data, place):
    """Reads a signed LEB128 number; returns it and the place after it."""
    spelling = _spelling(data, place, (0x00, 0x7f))
    less = 1 << 7 * len(spelling) if spelling[-1] & 0x40 else 0
    return _sum_of_groups(spelling) - less, place + len(spelling)


def bits(word, first, last):
    """Returns the bits of a word from `first` to `last`, both included."""
    return word >> first & (1 << last - first + 1) - 1


def signed(value, width):
    """Returns the number that `width` bits mean in two's complement."""
    return value - (1 << width) if value >> width - 1 else value


class Layout:
    """The fields of a record in order. `name` has 4 bytes, `name:2` as many as it says, `name:16s` 16 bytes unchanged."""

    CODES = {"": "I", "1": "B", "2": "H", "8": "Q"}

    def __init__(self, kind, fields):
        parts = [field.partition(":") for field in fields.split()]
        codes = "".join(self.CODES.get(width, width) for _, _, width in parts)
        self.structs = {order: struct.Struct(order + codes) for order in "<>"}
        self.size = self.structs["<"].size
        self.type = namedtuple(kind, [name for name, _, _ in parts])

    def read(self, data, place, order):
        """Reads the record at a place, as one read of its whole size."""
        return self.type(*self.structs[order].unpack(read(data, place, self.size)))


def quoted(name):
    """Returns the name in quotes, as answers print it."""
    return '"' + "".join(chr(byte) if 0x20 <= byte < 0x7f and byte not in b'"\\' else f"\\x{byte:02x}" for byte in name) + '"'


def words(*parts):
    """Joins the parts of a line that aren't empty, with blanks between them."""
    return " ".join(part for part in parts if part)
