"""The items of the lists of a file and of its images. Each item is a tuple with names (`typing.NamedTuple`). Numbers are `int`s, as in
the file, and the properties give their meaning."""

from __future__ import annotations

from typing import Any, Dict, NamedTuple, Optional

from ._arch import arch_name
from ._fields import fields_of
from ._item import Item, plain
from .enums import (
    CpuSubtype, CpuType, DataKind, LoadCommand, Platform, Protection, SectionAttributes, SectionType, SegmentFlags, Tool, cpu_subtype,
)
from .symbol_enums import (
    ExportFlags, ExportKind, ReferenceType, RelocationType, Stab, SymbolDescription, SymbolType, relocation_type,
)


class FatEntry(Item, NamedTuple("FatEntry", [
    ("cputype", int), ("cpusubtype", int), ("offset", int), ("size", int), ("align", int), ("error", Optional[str]),
])):
    """A record of a fat file: the image for `cputype` and `cpusubtype` is the `size` bytes at `offset`. `align` is an exponent of 2. The
    record has an `error` if the image isn't all in the file. It also has one if the record isn't in the file; then its numbers are 0."""

    __slots__ = ()

    @property
    def is_read(self) -> bool:
        """Whether the record is in the file, wherever its image is."""
        return self.error is None or any(self[:5])

    @property
    def arch(self) -> str:
        """The name of its architecture in LLVM's tools: "arm64e"."""
        return arch_name(self.cputype, self.cpusubtype)

    @property
    def cpu_type(self) -> CpuType:
        """`cputype` as an enum."""
        return CpuType.of(self.cputype)

    @property
    def cpu_subtype(self) -> CpuSubtype:
        """`cpusubtype` as an enum, without capabilities."""
        return cpu_subtype(self.cputype, self.cpusubtype)


class Member(Item, NamedTuple("Member", [
    ("name", Optional[str]), ("offset", int), ("start", int), ("data", memoryview), ("date", Optional[int]), ("uid", Optional[int]),
    ("gid", Optional[int]), ("mode", Optional[int]), ("name_error", Optional[str]), ("error", Optional[str]),
])):
    """A member of an archive. `data` are its bytes, which begin at `start`, and `offset` is that of its header. `date`, `uid`, `gid` and
    `mode` are those of its header, each None if the field is no number. `name` is None if it can't be read, and `name_error` says why.
    A member with an `error` is no member: it says why no more can be read."""

    __slots__ = ()

    @property
    def label(self) -> str:
        """Its name, or the offset of its header."""
        return f"at {self.offset}" if self.name is None else self.name


class ArchiveSymbol(Item, NamedTuple("ArchiveSymbol", [("name", str), ("member", int), ("error", Optional[str])])):
    """A symbol of an archive's index: its `name`, and in `member` the `offset` of the member that defines it, which isn't checked. One
    with an `error` says why no more can be read."""

    __slots__ = ()


class Command(Item, NamedTuple("Command", [("offset", int), ("size", int), ("cmd", int), ("data", memoryview)])):
    """A load command with the number `cmd`: `size` bytes at `offset`, which are `data`."""

    __slots__ = ()

    @property
    def load_command(self) -> LoadCommand:
        """`cmd` as an enum."""
        return LoadCommand.of(self.cmd)

    @property
    def fields(self) -> Dict[str, Any]:
        """The fields of its record by their names in mach-o/loader.h, as far as the command's bytes hold them. Numbers are as in the file,
        and a UUID is a `uuid.UUID`. Names and texts are `str`, or None if the text isn't in the command. Beside a text is its offset, as
        `name_offset`. Empty for a command that is not known."""
        return fields_of(self.cmd, self.data)

    def to_dict(self) -> Dict[str, Any]:
        """Returns its fields by their names, with those of its record in `fields`."""
        return {**super().to_dict(), "fields": {name: plain(value) for name, value in self.fields.items()}}


class Segment(Item, NamedTuple("Segment", [
    ("name", str), ("vmaddr", int), ("vmsize", int), ("fileoff", int), ("filesize", int), ("maxprot", int), ("initprot", int),
    ("flags", int), ("data", memoryview), ("command", int), ("nsects", int),
])):
    """A segment. `name`, `vmaddr`, `vmsize`, `fileoff`, `filesize`, `maxprot`, `initprot` and `flags` are as in its load command, which is
    at offset `command`, and `nsects` is how many sections it has. `data` are its bytes: all of them, or none if they are not all in
    the file."""

    __slots__ = ()
    _optional = ("name",)

    @property
    def max_protection(self) -> Protection:
        """`maxprot` as an enum."""
        return Protection.of(self.maxprot)

    @property
    def initial_protection(self) -> Protection:
        """`initprot` as an enum."""
        return Protection.of(self.initprot)

    @property
    def segment_flags(self) -> SegmentFlags:
        """`flags` as an enum."""
        return SegmentFlags.of(self.flags)


class Section(Item, NamedTuple("Section", [
    ("name", str), ("segment", str), ("addr", int), ("size", int), ("offset", int), ("align", int), ("reloff", int), ("nreloc", int),
    ("flags", int), ("data", memoryview), ("error", Optional[str]),
])):
    """A section. `name`, `segment` (a name), `addr`, `size`, `offset`, `reloff`, `nreloc` and `flags` are as in its record. `align` is an
    exponent of 2. `data` are its bytes: all of them, or none. One that can't be read has an `error`."""

    __slots__ = ()
    _optional = ("name", "segment")

    @property
    def type(self) -> SectionType:
        """The low 8 bits of `flags` as an enum."""
        return SectionType.of(self.flags & 0xFF)

    @property
    def attributes(self) -> SectionAttributes:
        """The other bits of `flags` as an enum."""
        return SectionAttributes.of(self.flags & 0xFFFFFF00)


class Relocation(Item, NamedTuple("Relocation", [("address", int), ("info", int), ("error", Optional[str])])):
    """A relocation of a section, at `address`. The bits of `info` have all other values. Scattered relocations are not recognized. One that
    can't be read has an `error`."""

    __slots__ = ()

    @property
    def number(self) -> int:
        """The number of a symbol if `is_extern`, or of a section if not."""
        return self.info & 0xFFFFFF

    @property
    def is_pcrel(self) -> bool:
        """Whether it is relative to its own address."""
        return self.info >> 24 & 1 != 0

    @property
    def length(self) -> int:
        """How many bytes it changes, as an exponent of 2."""
        return self.info >> 25 & 3

    @property
    def is_extern(self) -> bool:
        """Whether `number` is that of a symbol."""
        return self.info >> 27 & 1 != 0

    @property
    def type_number(self) -> int:
        """Its type as a number, whose meaning depends on the cpu."""
        return self.info >> 28 & 15

    def type_for(self, cputype: int) -> RelocationType:
        """Returns its type as an enum, for an image of this `cputype`."""
        return relocation_type(cputype, self.type_number)


class Symbol(Item, NamedTuple("Symbol", [("name", str), ("value", int), ("section", int), ("n_type", int), ("desc", int), ("error", Optional[str])])):
    """A symbol: its `name`, `value`, `section` (a number, from 1 over all segments), `n_type` and `desc`, as in the file. One that can't be
    read, or whose name can't, has an `error`."""

    __slots__ = ()

    @property
    def type(self) -> SymbolType:
        """Its type, if it is no entry for a debugger (`stab`)."""
        return SymbolType.of(self.n_type & 0x0E)

    @property
    def stab(self) -> Optional[Stab]:
        """Its type as an entry for a debugger, if it is one."""
        return Stab.of(self.n_type) if self.n_type & 0xE0 else None

    @property
    def is_external(self) -> bool:
        """Whether other images can see it (N_EXT)."""
        return self.n_type & 0x01 != 0

    @property
    def is_private_external(self) -> bool:
        """Whether it was external, but is private now (N_PEXT)."""
        return self.n_type & 0xF0 == 0x10

    @property
    def is_undefined(self) -> bool:
        """Whether it is undefined: it is in no section, and is no entry for a debugger."""
        return self.n_type & 0xEE == 0 and self.section == 0

    @property
    def description(self) -> SymbolDescription:
        """The flags of `desc`. For an undefined symbol the high 8 bits are no flags, but `library_ordinal`."""
        return SymbolDescription.of(self.desc & (0xF8 if self.is_undefined else 0xFFF8))

    @property
    def reference(self) -> ReferenceType:
        """How an undefined symbol is referred to: the low bits of `desc`."""
        return ReferenceType.of(self.desc & 7)

    @property
    def library_ordinal(self) -> Optional[int]:
        """The library of an undefined symbol: 0 is the image itself, 254 any, 255 the main executable."""
        return self.desc >> 8 if self.is_undefined else None


class FoundSymbol(Item, NamedTuple("FoundSymbol", [("symbol", Symbol), ("index", int), ("distance", int)])):
    """A `symbol` that was looked up, with its `index` in `symbols()`. For an address `distance` is how many bytes it is after the symbol."""

    __slots__ = ()

    @property
    def name(self) -> str:
        """The name of the symbol."""
        return self.symbol.name

    @property
    def value(self) -> int:
        """The value of the symbol: its address, if it is defined in a section."""
        return self.symbol.value


class Library(Item, NamedTuple("Library", [
    ("ordinal", int), ("name", str), ("kind", str), ("timestamp", int), ("current_version", int), ("compatibility_version", int),
    ("is_weak", bool), ("is_reexport", bool), ("is_upward", bool), ("is_delayed", bool),
])):
    """A library that the image loads: its `ordinal` (from 1), `name`, `timestamp`, `current_version` and `compatibility_version`. `kind` is
    "required", "weak", "reexport", "upward" or "lazy", by its command. `is_weak`, `is_reexport`, `is_upward` and `is_delayed` say how
    it is used. They are from the command's flags if it has some."""

    __slots__ = ()


class FunctionStart(Item, NamedTuple("FunctionStart", [("address", int), ("error", Optional[str])])):
    """The start of a function: its `address` in memory, before sliding. No start follows one with an `error`."""

    __slots__ = ()


class DataInCode(Item, NamedTuple("DataInCode", [("offset", int), ("length", int), ("kind", int), ("error", Optional[str])])):
    """Data in code of a `kind`: `length` bytes, `offset` bytes after the image's first byte in memory (in an object file after address 0).
    An entry that can't be read has an `error`."""

    __slots__ = ()

    @property
    def data_kind(self) -> DataKind:
        """`kind` as an enum."""
        return DataKind.of(self.kind)


class IndirectSymbol(Item, NamedTuple("IndirectSymbol", [("kind", str), ("symbol", Optional[int]), ("error", Optional[str])])):
    """An entry of the table of indirect symbols. If `kind` is "symbol", `symbol` is its index in `symbols()`. `kind` is "local", "absolute"
    or "local absolute" if no symbol names the target of a pointer. An entry that can't be read has an `error`."""

    __slots__ = ()


class SymbolSlot(Item, NamedTuple("SymbolSlot", [
    ("address", int), ("len", int), ("segment", int), ("section_index", int), ("kind", str), ("index", int), ("owner", str),
    ("symbol", Optional[int]), ("name", Optional[str]), ("error", Optional[str]),
])):
    """A stub or a pointer that belongs to a symbol: `len` bytes at `address`, in the section with index `section_index` of the segment
    with index `segment`. `kind` is "pointer", "lazy pointer", "stub", "lazy library pointer" or "thread-local pointer". `owner` is the kind of entry `index`
    of the table of indirect symbols: "symbol", "local", "absolute" or "local absolute". For a symbol `symbol` is its number and `name`
    its name. One that can't be read has an `error`."""

    __slots__ = ()


class Initializer(Item, NamedTuple("Initializer", [
    ("slot", int), ("target", int), ("segment", int), ("section_index", int), ("error", Optional[str]),
])):
    """A function that dyld calls before the image's main function, at the address `target`. The slot at the address `slot` names it, in the
    section with index `section_index` of the segment with index `segment`. An `error` takes the place of a section whose bytes can't be read."""

    __slots__ = ()


class SectionString(Item, NamedTuple("SectionString", [("text", str), ("place", int)])):
    """A string of a section: its `text`, and its `place`, counted from the section's first byte. Bytes that aren't UTF-8 are surrogates."""

    __slots__ = ()


class SymbolProvider(Item, NamedTuple("SymbolProvider", [("provider", str), ("library", int), ("error", Optional[str])])):
    """The provider of an undefined symbol, as the linker recorded it. `provider` is "library" (`library` is its ordinal), "itself",
    "program" or "any". One that can't be read has an `error`."""

    __slots__ = ()


class NumberedSection(Item, NamedTuple("NumberedSection", [
    ("number", int), ("segment", int), ("index", int), ("name", str), ("segment_name", str), ("addr", int), ("size", int),
    ("offset", int), ("align", int), ("reloff", int), ("nreloc", int), ("flags", int), ("reserved1", int), ("reserved2", int),
])):
    """A section that was looked up. `number` is that by which symbols name it: it counts from 1 over all segments. The section has index
    `index` in the segment with index `segment`. `name`, `segment_name`, `addr`, `size`, `offset`, `align` (an exponent of 2), `reloff`,
    `nreloc` and `flags` are as in its record. For pointers and stubs `reserved1` is the index of the first one in the table of indirect
    symbols. For stubs `reserved2` is the size of each."""

    __slots__ = ()
    _optional = ("name", "segment_name")

    @property
    def type(self) -> SectionType:
        """The low 8 bits of `flags` as an enum."""
        return SectionType.of(self.flags & 0xFF)

    @property
    def attributes(self) -> SectionAttributes:
        """The other bits of `flags` as an enum."""
        return SectionAttributes.of(self.flags & 0xFFFFFF00)


class LinkerOption(Item, NamedTuple("LinkerOption", [("text", str), ("command", int), ("error", Optional[str])])):
    """The `text` of a linker option, from the load command at `command`. No option follows one with an `error`."""

    __slots__ = ()


class BuildTool(Item, NamedTuple("BuildTool", [("tool", int), ("version", int), ("command", int), ("error", Optional[str])])):
    """A tool that the image was built with: the number `tool`, and its `version`, from the load command at `command`. No tool follows one
    with an `error`."""

    __slots__ = ()

    @property
    def build_tool(self) -> Tool:
        """`tool` as an enum."""
        return Tool.of(self.tool)

    @property
    def version_text(self) -> str:
        """`version` as X.Y.Z."""
        return version_text(self.version)


def version_text(version: int) -> str:
    """Returns a version of 16, 8 and 8 bits as X.Y.Z."""
    return f"{version >> 16}.{version >> 8 & 255}.{version & 255}"


class BuildVersion(Item, NamedTuple("BuildVersion", [("platform", int), ("minos", int), ("sdk", int), ("command", int)])):
    """A `platform` that the image was built for, from the load command at `command`. `minos` is the oldest system that the image runs on
    there, and `sdk` that of the SDK that it was built with."""

    __slots__ = ()

    @property
    def build_platform(self) -> Platform:
        """`platform` as an enum."""
        return Platform.of(self.platform)

    @property
    def minos_text(self) -> str:
        """`minos` as X.Y.Z."""
        return version_text(self.minos)

    @property
    def sdk_text(self) -> str:
        """`sdk` as X.Y.Z."""
        return version_text(self.sdk)


class Encryption(Item, NamedTuple("Encryption", [("offset", int), ("size", int), ("id", int)])):
    """The part of an image that is encrypted: `size` bytes, `offset` bytes after its first byte. If `id` is 0 it isn't encrypted yet."""

    __slots__ = ()

    @property
    def is_encrypted(self) -> bool:
        """Whether it is encrypted now."""
        return self.id != 0


class CommandText(Item, NamedTuple("CommandText", [("text", str), ("command", int), ("error", Optional[str])])):
    """A `text` from the load command at `command`. One that can't be read has an `error`."""

    __slots__ = ()


class FilesetEntry(Item, NamedTuple("FilesetEntry", [("name", str), ("address", int), ("offset", int), ("error", Optional[str])])):
    """An image of a fileset: its `name`, its `address` in memory, and its `offset` after the fileset's first byte. One whose name can't be
    read has an `error`."""

    __slots__ = ()


class Function(Item, NamedTuple("Function", [("start", int), ("end", int)])):
    """A function, by the starts of functions: from its first address, `start`, to `end`, the one after its last."""

    __slots__ = ()

    @property
    def size(self) -> int:
        """How many bytes it has."""
        return self.end - self.start


class Note(Item, NamedTuple("Note", [("owner", str), ("data", memoryview), ("command", int), ("error", Optional[str])])):
    """The `data` of a tool with the name `owner`, from the load command at `command`. One that can't be read has an `error`."""

    __slots__ = ()


class Export(Item, NamedTuple("Export", [
    ("name", str), ("kind", str), ("address", Optional[int]), ("offset", Optional[int]), ("resolver", Optional[int]), ("flags", int),
    ("library", Optional[str]), ("target", Optional[str]),
])):
    """The export of a `name`: `kind` is "address", "re-export" or "stub", and `flags` are as in the file. `address` is in memory, before
    sliding, and `offset` is the number in the trie: the address less the image's `base`, or the address if it is absolute. A re-export
    has neither. It has the name of the `library`, and in `target` the name there. `resolver` is the address of a stub's resolver, and
    None for any other export."""

    __slots__ = ()

    @property
    def export_kind(self) -> ExportKind:
        """The low 2 bits of `flags` as an enum."""
        return ExportKind.of(self.flags & 3)

    @property
    def export_flags(self) -> ExportFlags:
        """The other bits of `flags` as an enum."""
        return ExportFlags.of(self.flags & ~3)


NUMBERED = ("section", "relocations", "slice", "imports", "symbol ranges")


class Owner(Item, NamedTuple("Owner", [("part", str), ("command", int), ("index", int)])):
    """The owner of a range or a fault: a `part`, the offset of its `command` or record, and in `index` its number there, or 0."""

    __slots__ = ()

    def __str__(self) -> str:
        number = f" {self.index}" if self.index or self.part in NUMBERED else ""
        return f"{self.part}{number} at 0x{self.command:x}"


class LayoutFault(Item, NamedTuple("LayoutFault", [("rule", str), ("owner", Owner), ("found", int), ("limit", int), ("other", Optional[Owner])])):
    """A fault of layout, for the `rule` with this plain name: the part `owner` has `found`, and `limit` is what it breaks. `other` is the
    other part, if two disagree. docs/PROGRAMS.md says for each rule what the numbers are ("against" is `limit`)."""

    __slots__ = ()

    def __str__(self) -> str:
        other = f" of {self.other}" if self.other else ""
        return f"{self.rule}: {self.owner}: 0x{self.found:x} against 0x{self.limit:x}{other}"
