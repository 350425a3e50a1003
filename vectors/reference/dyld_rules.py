"""The rules of layout about what dyld reads: opcodes, function starts and chained fixups. docs/FORMAT-DYLD.md, part 6."""

from .chains import HEADER, PAGE_SIZES, STARTS
from .opcodes import DYLD_INFO, binding_runs, rebase_runs, weak_runs
from .reading import WORD, Fault, bits, number
from .tables import function_starts

IMPORT_SIZES = {1: 4, 2: 8, 3: 16}


# ---- lists that can't be read to their end

def sum_of_floors(count, divisor, step, start):
    """Returns the sum of (start + i * step) // divisor over i below count, as Euclid's algorithm finds it."""
    total = 0
    while True:
        total += count * (count - 1) // 2 * (step // divisor) + count * (start // divisor)
        step, start = step % divisor, start % divisor
        last = step * count + start
        if last < divisor:
            return total
        count, start, divisor, step = last // divisor, last % divisor, step, divisor


def leaves(state, count, step, starts):
    """Returns whether one of so many places in a segment isn't good. Advances the state past them.

    The places wrap. They are good up to the segment's end, and as far as the sums with `starts` of the segment have 64 bits."""
    segments, start = state.image.segments, state.offset
    state.advance(count * step)
    if state.segment is None or state.segment >= len(segments):
        return True
    segment, step = segments[state.segment], step % WORD
    good = min(segment.vmsize - state.image.pointer + 1, *(WORD - getattr(segment, field) for field in starts))
    # A place is past the good ones exactly if it wraps once more with what is left of 2^64 added.
    return good <= 0 or sum_of_floors(count, WORD, step, start + WORD - good) > sum_of_floors(count, WORD, step, start)


def has_fault(runs, starts=("vmaddr", "fileoff")):
    """Returns whether a stream has a fault: of its instructions, or of a place."""
    try:
        return any(count and leaves(state, count, step, starts) for state, count, step in runs)
    except Fault:
        return True


def cant_be_read(items):
    try:
        return any(False for _ in items)
    except Fault:
        return True


def stream_rows(laid):
    image, info, starts = laid.image, laid.last(*DYLD_INFO), laid.last("LC_FUNCTION_STARTS")
    if info:
        body, place = info.body, info.offset
        binds = (has_fault(binding_runs(image, body.bind_off, body.bind_size, False))
                 or has_fault(binding_runs(image, body.lazy_bind_off, body.lazy_bind_size, True)))
        yield binds, "binds", ("binds", place, 0), 0, 0
        yield has_fault(rebase_runs(image, body), ("vmaddr",)), "rebases", ("rebase-opcodes", place, 0), 0, 0
        yield has_fault(weak_runs(image, body)), "weak-binds", ("weak-bind-opcodes", place, 0), 0, 0
    if starts:
        yield cant_be_read(function_starts(image, None)), "function-starts", ("function-starts", starts.offset, 0), 0, 0


# ---- chained fixups

class Payload:
    """The data of chained fixups, which lie in the file. A test says whether something is good, what is found, and the limit."""

    def __init__(self, laid, body):
        self.image, self.order = laid.image, laid.image.order
        self.data = laid.data[body.dataoff:body.dataoff + body.datasize]
        self.size = len(self.data)

    def number(self, place, size=4):
        return number(self.data, place, size, self.order)

    def ends(self, end):
        return end <= self.size, end, self.size

    def header_tests(self):
        yield self.size >= HEADER.size, self.size, HEADER.size
        header = self.header = HEADER.read(self.data, 0, self.order)
        yield header.fixups_version == 0, header.fixups_version, 0
        yield header.imports_format in IMPORT_SIZES, header.imports_format, 3
        yield header.symbols_format <= 1, header.symbols_format, 1
        imports_end = header.imports_offset + IMPORT_SIZES[header.imports_format] * header.imports_count
        yield self.ends(imports_end)
        yield self.ends(header.symbols_offset)
        yield header.symbols_offset >= imports_end, header.symbols_offset, imports_end
        yield self.ends(header.starts_offset + 4)
        yield self.ends(header.starts_offset + 4 + 4 * self.number(header.starts_offset))

    def segment_tests(self, start, segment):
        """Gives the tests of the starts of a segment, which the image may lack."""
        yield segment is not None, start, 0
        place = self.header.starts_offset + start
        yield self.ends(place + STARTS.size)
        starts = STARTS.read(self.data, place, self.order)
        yield starts.page_size in PAGE_SIZES, starts.page_size, PAGE_SIZES[1]
        yield 1 <= starts.pointer_format <= 13, starts.pointer_format, 13
        yield self.ends(place + STARTS.size + 2 * starts.page_count)
        offset = segment.vmaddr - self.image.base()
        yield starts.segment_offset == offset, starts.segment_offset, max(offset, 0)
        last_page = (starts.page_count - 1) * starts.page_size
        yield last_page < 0 or last_page < segment.vmsize, last_page, segment.vmsize

    def segments(self):
        """Gives the number of each segment with chains, the number that leads to its starts, and the segment or None."""
        place, segments = self.header.starts_offset, self.image.segments
        for index in range(self.number(place)):
            start = self.number(place + 4 + 4 * index)
            if start:
                yield index, start, segments[index] if index < len(segments) else None

    def imports(self):
        """Gives the ordinal of each import, as the table has it, and the place of its name."""
        wide, size = self.header.imports_format == 3, IMPORT_SIZES[self.header.imports_format]
        for index in range(self.header.imports_count):
            word = self.number(self.header.imports_offset + size * index, 8 if wide else 4)
            ordinal, name = (bits(word, 0, 15), bits(word, 32, 63)) if wide else (bits(word, 0, 7), bits(word, 9, 31))
            yield ordinal, self.header.symbols_offset + name


def first_wrong(tests):
    return next((numbers for is_good, *numbers in tests if not is_good), None)


def chain_rows(laid):
    command = laid.last("LC_DYLD_CHAINED_FIXUPS")
    if command is None or not laid.lies_in_file(command.body.dataoff, command.body.datasize):
        return
    payload, rule = Payload(laid, command.body), "chained-fixups"
    wrong = first_wrong(payload.header_tests())
    if wrong:
        yield True, rule, (rule, command.offset, 0), *wrong
        return
    for index, start, segment in payload.segments():
        wrong = first_wrong(payload.segment_tests(start, segment))
        if wrong:
            yield True, rule, (rule, command.offset, index), *wrong
    yield from import_rows(laid, command, payload)


def import_rows(laid, command, payload):
    libraries, size = laid.library_count, payload.size
    specials = 0xFFFD if payload.header.imports_format == 3 else 0xFD
    last = size - 1 if payload.header.symbols_format else payload.data.rfind(b"\0")
    for index, (ordinal, name) in enumerate(payload.imports()):
        owner = ("imports", command.offset, index)
        yield libraries < ordinal < specials, "import-library", owner, ordinal, libraries
        yield name > last, "import-name", owner, name, size
