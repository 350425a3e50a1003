"""Opening an image (docs/FORMAT-IMAGE.md, parts 3 to 7), and the lists of what its commands say.

`open_image(data, offset, lossy)` returns an `Image` or raises a `Fault`. If there are several faults, one of the chain or the
entry is reported before one of data, tables and texts. Otherwise that of the first command is reported. The fields of an
`Image` are:

data, offset        the bytes of the file, and where the header is in them
order, is_64        `<` or `>`, the byte order for `reading`; whether the image has 64 bits
pointer             the bytes of a pointer, 4 or 8
header              the record: magic cputype cpusubtype filetype ncmds sizeofcmds flags
commands            the chain: each `Command` has offset, name (`LC_MAIN`, or None), cmd, cmdsize, and body, its record (None
                    of a command of later headers if the bytes end in it)
segments            each `Segment` has the fields of its command, offset, name (bytes) and data, its bytes in the file
symtab              the record of the `LC_SYMTAB` that counts, or None
libs, rpaths        names as bytes, libs[0] that of the image, the last of `ids`, or `self`
ids                 the names of all `LC_ID_DYLIB` that count
libraries           the commands of libs[1:]
start               the record of the first segment named `__TEXT`, or None
entry, old_style_entry

`image.of(*names)` are the commands of these names, `image.last(*names)` the last record of them or None, `image.base()` the
base, `numbered_sections` and `readable_sections` the sections, `symbol(index)` the record and name of a symbol.
"""

from collections import namedtuple
from itertools import takewhile

from .reading import (WORD, Fault, attempt, bad_magic, bad_offset, name_of_16, number, quoted, read,
                      require, text, too_short, words)
from .records import (COMMAND_HEADER, COMMAND_NAMES, HEADER, LAYOUT_BY_COMMAND, NEWER, RELOCATION, SECTION, SEGMENT_SIZE, SYMBOL)

MAGICS = {0xfeedface: (">", False), 0xcefaedfe: ("<", False), 0xfeedfacf: (">", True), 0xcffaedfe: ("<", True)}
X86, X86_64, ARM, POWERPC, ARM64, ARM64_32 = 7, 0x01000007, 12, 18, 0x0100000c, 0x0200000c
POINTER_WORDS = {X86: (10,), X86_64: (32, 33), ARM: (15,), ARM64: (64, 65), ARM64_32: (64, 65), POWERPC: (0,)}
MOST_STATE_WORDS = 70
LIBRARY_KINDS = {"LC_LOAD_DYLIB": "required", "LC_LOAD_WEAK_DYLIB": "weak", "LC_REEXPORT_DYLIB": "reexport",
                 "LC_LOAD_UPWARD_DYLIB": "upward", "LC_LAZY_LOAD_DYLIB": "lazy"}
ZERO_FILL = (0x01, 0x0c, 0x12)
USE_FLAGS_MARK = 0x1a741800
USED_WEAK, USED_REEXPORT = 1, 2

Command = namedtuple("Command", "offset name cmd cmdsize body")
NumberedSection = namedtuple("NumberedSection", "segment section record")


class Segment:
    """A segment: the fields of its command, with `offset`, `name` and `data`."""

    def __init__(self, command, data):
        self.__dict__.update(command.body._asdict())
        self.offset = command.offset
        self.name = name_of_16(self.segname)
        self.data = data


class Image:
    """An opened image. The module says what its fields are."""

    def __init__(self, data, offset, lossy):
        self.data, self.offset, self.lossy = data, offset, lossy
        magic = number(data, offset, 4, ">")
        if magic not in MAGICS:
            raise bad_magic(magic)
        self.order, self.is_64 = MAGICS[magic]
        self.pointer = 8 if self.is_64 else 4
        require(len(data) - offset >= 32)
        self.header = HEADER[self.is_64].read(data, offset, self.order)
        self.commands, self.segments, self.symtab = [], [], None
        self.ids, self.libraries, self.libs, self.rpaths = [], [], [b"self"], []
        self._read_chain()
        records = (command.body for command in self.of("LC_SEGMENT", "LC_SEGMENT_64"))
        self.start = next((record for record in records if name_of_16(record.segname) == b"__TEXT"), None)
        self._find_entry()
        for command in self.commands:
            self._take(command)
        self.libs[0] = self.ids[-1] if self.ids else b"self"

    def _read_chain(self):
        header = self.header
        if header.ncmds > header.sizeofcmds // 8 or header.sizeofcmds > len(self.data):
            raise too_short(header.ncmds, "load commands")
        place = self.offset + HEADER[self.is_64].size
        for _ in range(header.ncmds):
            command = read_command(self.data, place, self.order)
            self.commands.append(command)
            place += command.cmdsize

    def _take(self, command):
        """Keeps what the command says. What can't be read is refused, or left out in a lossy image."""
        if command.name in ("LC_SEGMENT", "LC_SEGMENT_64"):
            self.segments.append(Segment(command, self._forgiven(self._segment_data, command.body, b"")))
        elif command.name == "LC_SYMTAB":
            self.symtab = self._forgiven(self._symbol_table, command.body, self.symtab)
        elif command.name in ("LC_ID_DYLIB", "LC_RPATH", *LIBRARY_KINDS):
            name = self._forgiven(self._text_of, command, None)
            if name is not None:
                {"LC_ID_DYLIB": self.ids, "LC_RPATH": self.rpaths}.get(command.name, self.libs).append(name)
            if name is not None and command.name in LIBRARY_KINDS:
                self.libraries.append(command)

    def _forgiven(self, function, argument, otherwise):
        try:
            return function(argument)
        except Fault:
            if not self.lossy:
                raise
            return otherwise

    def _segment_data(self, body):
        return read(memoryview(self.data), body.fileoff, body.filesize) if body.filesize else b""

    def _symbol_table(self, body):
        require(body.stroff >= body.symoff)
        if body.symoff >= len(self.data):
            raise bad_offset(body.symoff)
        return body

    def _text_of(self, command):
        """Reads the text of a library or a run path. Its offset is the first field of both records."""
        return text(self.data, command.offset + command.body[2])

    def _find_entry(self):
        """Takes the entry of the first `LC_MAIN`; without one, that of the first thread. A thread must have an entry in any case."""
        thread, main = (next(self.of(name), None) for name in ("LC_UNIXTHREAD", "LC_MAIN"))
        self.entry, self.old_style_entry = self.instruction_pointer(thread) if thread else 0, thread is not None and main is None
        if main:
            require(self.start)
            self.entry = main.body.entryoff + self.start.vmaddr - self.start.fileoff
            require(0 <= self.entry < WORD)

    def instruction_pointer(self, thread):
        """Returns the number that words of the state make. A word from `count` on is 0."""
        require(self.header.cputype in POINTER_WORDS)
        pointer = 0
        for shift, index in enumerate(POINTER_WORDS[self.header.cputype]):
            if index < thread.body.count:
                pointer += number(self.data, thread.offset + 16 + 4 * index, 4, self.order) << 32 * shift
        return pointer

    def of(self, *names):
        return (command for command in self.commands if command.name in names)

    def last(self, *names):
        return next((command.body for command in reversed(self.commands) if command.name in names), None)

    def base(self):
        return self.start.vmaddr if self.start else 0

    def section(self, segment, index):
        layout = SECTION[self.is_64]
        return layout.read(self.data, segment.offset + SEGMENT_SIZE[self.is_64] + layout.size * index, self.order)

    def numbered_section(self, of, index):
        """Returns a section with its numbers. A fault may replace its record."""
        return NumberedSection(of, index, attempt(self.section, self.segments[of], index))

    def numbered_sections(self):
        return (self.numbered_section(of, index) for of, segment in enumerate(self.segments) for index in range(segment.nsects))

    def readable_sections(self):
        """Returns the sections of each segment before the first that isn't in the bytes."""
        return (section for of, segment in enumerate(self.segments)
                for section in takewhile(lambda section: not isinstance(section.record, Fault),
                                         (self.numbered_section(of, index) for index in range(segment.nsects))))

    def section_bytes(self, record):
        """Returns how many bytes of a section lie in the file."""
        in_file = record.offset + record.size <= len(self.data) and record.flags & 0xff not in ZERO_FILL
        return record.size if in_file else 0

    def section_data(self, record):
        return b"" if record.flags & 0xff in ZERO_FILL else read(memoryview(self.data), record.offset, record.size)

    def symbol(self, index):
        """Reads the record and the name of a symbol of the table."""
        layout = SYMBOL[self.is_64]
        record = layout.read(self.data, self.symtab.symoff + layout.size * index, self.order)
        return record, text(self.data, self.symtab.stroff + record.n_strx)

    def symbols(self):
        count = self.symtab.nsyms if self.symtab else 0
        return (attempt(self.symbol, index) for index in range(count))


def open_image(data, offset=0, lossy=False):
    return Image(data, offset, lossy)


def read_command(data, place, order):
    """Reads the load command at a place: its size first, and then the record that belongs to its number."""
    start = COMMAND_HEADER.read(data, place, order)
    require(start.cmdsize <= len(data) - place)
    name = COMMAND_NAMES.get(start.cmd)
    layout = LAYOUT_BY_COMMAND.get(name, COMMAND_HEADER)
    if name in NEWER and place + layout.size > len(data):
        return Command(place, name, start.cmd, start.cmdsize, None)
    body = layout.read(data, place, order)
    if name in ("LC_THREAD", "LC_UNIXTHREAD"):
        require(body.count <= MOST_STATE_WORDS and place + 16 + 4 * body.count <= len(data))
    return Command(place, name, start.cmd, start.cmdsize, body)


def header(image, _):
    record = image.header
    yield (f"header {record.magic:#x} cpu {record.cputype:#x} {record.cpusubtype:#x} type {record.filetype} "
           f"flags {record.flags:#x} {8 * image.pointer} {'little' if image.order == '<' else 'big'}")
    symbols = image.symtab.nsyms if image.symtab else 0
    yield words(f"holds commands {len(image.commands)} segments {len(image.segments)} libraries {len(image.libraries)} "
                f"run-paths {len(image.rpaths)} symbols {symbols} entry {image.entry:#x}", "thread" if image.old_style_entry else "")


def commands(image, _):
    for command in image.commands:
        yield f"command {command.cmd:#x} at {command.offset:#x} size {command.cmdsize}"


def segments(image, _):
    for segment in image.segments:
        yield (f"segment {quoted(segment.name)} at {segment.vmaddr:#x} size {segment.vmsize:#x} file {segment.fileoff:#x} "
               f"{segment.filesize:#x} data {len(segment.data)} protection {segment.initprot:#x} {segment.maxprot:#x} "
               f"sections {segment.nsects} flags {segment.flags:#x}")


def placed(record):
    """Returns the words that all lines of a section begin with."""
    return f"{quoted(name_of_16(record.sectname))} of {quoted(name_of_16(record.segname))}"


def sections(image, _):
    for number_of_segment, _, record in image.numbered_sections():
        yield record if isinstance(record, Fault) else (
            f"section {number_of_segment} {placed(record)} at {record.addr:#x} size {record.size:#x} offset {record.offset:#x} "
            f"data {image.section_bytes(record)} align {record.align} relocations {record.nreloc} at {record.reloff:#x} "
            f"flags {record.flags:#x}")


def relocations(image, _):
    for section in image.numbered_sections():
        if isinstance(section.record, Fault):
            yield section.record
        else:
            yield from relocations_of(image, section)


def relocations_of(image, section):
    for index in range(section.record.nreloc):
        item = attempt(RELOCATION.read, image.data, section.record.reloff + 8 * index, image.order)
        yield item if isinstance(item, Fault) else (
            f"relocation {section.segment} {section.section} address {item.r_address:#x} info {item.r_info:#x}")


def symbols(image, _):
    for item in image.symbols():
        if not isinstance(item, Fault):
            record, name = item
            item = (f"symbol {quoted(name)} value {record.n_value:#x} type {record.n_type:#x} section {record.n_sect} "
                    f"description {record.n_desc:#x}")
        yield item


def use_flags(image, command):
    """Returns how a library is used, by the flags of its command; without flags, by its kind."""
    body = command.body
    has_flags = (command.name in ("LC_LOAD_DYLIB", "LC_LOAD_WEAK_DYLIB") and command.cmdsize >= 28 and body.name == 28
                 and body.timestamp == USE_FLAGS_MARK)
    if has_flags:
        return number(image.data, command.offset + 24, 4, image.order)
    return {"weak": USED_WEAK, "reexport": USED_REEXPORT, "upward": 4}.get(LIBRARY_KINDS[command.name], 0)


def use_of(image, command):
    flags = use_flags(image, command)
    return words(*(f"used-{use}" for bit, use in enumerate(("weak", "reexport", "upward", "delayed")) if flags >> bit & 1))


def libraries(image, _):
    for ordinal, (name, command) in enumerate(zip(image.libs[1:], image.libraries), 1):
        body = command.body
        yield words(f"library {ordinal} {quoted(name)} {LIBRARY_KINDS[command.name]} timestamp {body.timestamp} current "
                    f"{body.current_version:#x} compatible {body.compatibility_version:#x}", use_of(image, command))


def run_paths(image, _):
    return (f"path {quoted(path)}" for path in image.rpaths)


def ids(image, _):
    return (f"id {quoted(name)}" for name in image.ids)


LISTS = {"header": header, "commands": commands, "segments": segments, "sections": sections, "relocations": relocations,
         "symbols": symbols, "libraries": libraries, "run-paths": run_paths, "ids": ids}
