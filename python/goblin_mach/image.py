"""An image: its numbers and its lists."""

from __future__ import annotations

import ctypes
import json
import struct
import uuid
from array import array
from typing import TYPE_CHECKING, Any, Callable, Dict, Iterator, List, Optional, Tuple, TypeVar, Union

from . import _exports, _lists
from . import signature as _signature
from . import _structs as s
from ._arch import arch_name
from ._library import bits64, lib, refused
from ._memory import Held, bytes_of
from ._rows import Rows, in_growing_batches, rows_behind
from .entitlements import entitlements_of
from .enums import CpuSubtype, CpuType, ErrorCode, FileType, HeaderFlags, LoadCommand, Mode, Platform, cpu_subtype
from .errors import ERRORS, Refused, again
from .items import (
    BuildTool, BuildVersion, Command, CommandText, DataInCode, Encryption, Export, FatEntry, FilesetEntry, FoundSymbol, Function, FunctionStart,
    IndirectSymbol, Initializer, LayoutFault, Library, LinkerOption, Note, NumberedSection, Relocation, Section, SectionString, Segment, Symbol,
    SymbolProvider, SymbolSlot,
)
from .pointers import Binding, Fixup, Import, Rebase, WeakBind
from .signature import Signature, SignatureFault
from .symbol_map import SymbolMap

if TYPE_CHECKING:
    from _typeshed import ReadableBuffer


F = TypeVar("F", bound="ctypes._CData")


class Image:
    """An image in some bytes, which must not change while it is used. `error` is None, except for an entry of a fat file or a member of an
    archive that can't be opened. There it is the `Refused` with the reason, its numbers are 0, and each of its lists raises it.

    Lists are iterators. Those whose items have indices also have `len`, indices and slices (`Rows`). Those of exports, fixups, imports,
    bindings, weak binds, rebases, function starts, slots, initializers and faults go on from where they stopped, and have none of these.

    `offset`: its offset in the bytes that it was opened in.
    `fat_offset`: the offset of these bytes in their file: 0, or that of an entry of a fat file.
    `entry`: the address of its entry point, or 0.
    `base`: the address of its first byte in memory, before sliding: that of the first segment "__TEXT", or 0.
    `cputype`, `cpusubtype`, `filetype`, `flags`: numbers of its header. `is_64`, `is_little_endian`: which form the header has."""

    error: Optional[Refused] = None
    offset: int
    fat_offset: int
    entry: int
    base: int
    cputype: int
    cpusubtype: int
    filetype: int
    flags: int
    is_64: bool
    is_little_endian: bool

    def __init__(self, data: Union[ReadableBuffer, Held], offset: int = 0, mode: int = Mode.STRICT) -> None:
        self._open(data if isinstance(data, Held) else Held(data), offset, mode)
        self.fat_offset = 0

    def _open(self, held: Held, offset: int, mode: int) -> None:
        numbers, error = s.gm_image(), s.gm_error()
        if lib.gm_open(held.live().at, held.len, bits64(offset), bits64(mode, 32), None, ctypes.byref(numbers), ctypes.byref(error)):
            raise refused(error)
        self._held = held
        self._take(numbers)

    def _take(self, numbers: s.gm_image) -> None:
        self._numbers, self._pointer = numbers, ctypes.byref(numbers)
        self.offset, self.entry, self.base = numbers.offset, numbers.entry, numbers.base
        self.cputype, self.cpusubtype, self.filetype, self.flags = numbers.cputype, numbers.cpusubtype, numbers.filetype, numbers.flags
        self.is_64, self.is_little_endian = bool(numbers.is_64), bool(numbers.is_little_endian)
        self._arch = arch_name(self.cputype, self.cpusubtype)

    @classmethod
    def _of_part(cls, part: Held, mode: int, place: int, arch: Optional[str], why: Optional[Refused]) -> Image:
        """Returns the image of a part of a file with these bytes, or one with the reason why it can't be opened."""
        self = cls.__new__(cls)
        try:
            if why is not None:
                raise why
            self._open(part, 0, mode)
        except Refused as error:
            self.error, self._held = again(error), part
            self._take(s.gm_image())
            self._arch = self._arch if arch is None else arch
        self.fat_offset = place
        return self

    @classmethod
    def _of_entry(cls, entry: FatEntry, part: Held, mode: int) -> Image:
        """Returns the image of an entry of a fat file with these bytes, or one with the reason why it can't be opened."""
        why = None if entry.error is None else Refused(ErrorCode.SHORT, entry.error)
        return cls._of_part(part, mode, entry.offset, entry.arch, why)

    def _live(self) -> Held:
        """Returns its bytes, if it was opened and its file is open."""
        if self.error is not None:
            raise again(self.error)
        return self._held.live()

    @property
    def arch(self) -> str:
        """The name of its architecture in LLVM's tools: "arm64e". For an entry of a fat file that can't be opened it is that of the entry's record."""
        return self._arch

    @property
    def cpu_type(self) -> CpuType:
        """`cputype` as an enum."""
        return CpuType.of(self.cputype)

    @property
    def cpu_subtype(self) -> CpuSubtype:
        """`cpusubtype` as an enum, without capabilities."""
        return cpu_subtype(self.cputype, self.cpusubtype)

    @property
    def file_type(self) -> FileType:
        """`filetype` as an enum."""
        return FileType.of(self.filetype)

    @property
    def header_flags(self) -> HeaderFlags:
        """`flags` as an enum."""
        return HeaderFlags.of(self.flags)

    @property
    def data(self) -> memoryview:
        """The bytes that it was opened in: for a fat file's entry those of the entry. Offsets of commands and symbols count from their start."""
        return self._live().view

    def commands(self) -> Rows[Command]:
        """Returns its load commands."""
        return Rows(_lists.COMMANDS, self._live, (self._pointer,), lambda: int(self._numbers.commands))

    def segments(self) -> Rows[Segment]:
        """Returns its segments."""
        return Rows(_lists.SEGMENTS, self._live, (self._pointer,), lambda: int(self._numbers.segments))

    def segment(self, name: Union[str, bytes]) -> Optional[Segment]:
        """Returns the first segment with a name, such as "__DATA", or None."""
        held, raw, found = self._live(), bytes_of(name), s.gm_segment()
        is_found = lib.gm_segment_named(held.at, held.len, self._pointer, raw, len(raw), ctypes.byref(found))
        return _lists.SEGMENTS.items_of(held, found)[0] if is_found else None

    def sections(self, segment: Optional[Segment] = None) -> Rows[Section]:
        """Returns the sections of a segment. One that can't be read has an `error`. Without a segment it returns those of all segments,
        which end with the first that can't be read. In these the section of number `n` has index `n - 1`."""
        if segment is None:
            return Rows(_lists.ALL_SECTIONS, self._live, (self._pointer,))
        front, size = (72, 80) if self.is_64 else (56, 68)
        place, count = segment.command, segment.nsects
        return Rows(_lists.SECTIONS, self._live, (self._pointer, place, count), table=lambda: (place + front, size, count))

    def section(self, segment: Union[str, bytes], name: Union[str, bytes]) -> Optional[Section]:
        """Returns the first section with these names of its own, such as "__TEXT" and "__text", or None. `data` are its bytes."""
        names = [part for raw in (bytes_of(segment), bytes_of(name)) for part in (raw, len(raw))]
        found = self._section(lib.gm_section_named, *names)
        return None if found is None else self.sections(self.segments()[found.segment])[found.index]

    def _bytes_of(self, section: Union[Section, NumberedSection]) -> Held:
        held, found, error = self._live(), s.gm_span(), s.gm_error()
        numbers = bits64(section.offset, 32), bits64(section.size), bits64(section.flags, 32)
        if lib.gm_section_data(held.at, held.len, *numbers, ctypes.byref(found), ctypes.byref(error)):
            raise refused(error)
        return Held(held.view[found.place:found.place + found.len], held.life)

    def section_data(self, section: Union[Section, NumberedSection]) -> memoryview:
        """Returns the bytes of a section; none if it is zero-filled. If they don't all lie in `data`, it raises `Refused`."""
        return self._bytes_of(section).view

    def strings(self, section: Union[Section, NumberedSection]) -> Rows[SectionString]:
        """Returns the strings of a section, as one of type `CSTRING_LITERALS` has them, whatever its type is. A zero byte ends each, and the last
        may lack it. If the bytes of the section don't all lie in `data`, it raises `Refused`."""
        return Rows(_lists.STRINGS, self._bytes_of(section).live)

    def relocations(self, section: Section) -> Rows[Relocation]:
        """Returns the relocations of a section. One that can't be read has an `error`."""
        return Rows(_lists.RELOCATIONS, self._live, (self._pointer, section.reloff, section.nreloc), table=lambda: (section.reloff, 8, section.nreloc))

    def symbols(self) -> Rows[Symbol]:
        """Returns its symbols. One that can't be read has an `error`."""
        numbers = self._numbers
        return Rows(_lists.SYMBOLS, self._live, (self._pointer,),
                    table=lambda: (int(numbers.symbols_at), 16 if self.is_64 else 12, int(numbers.symbols)))

    def libraries(self) -> Rows[Library]:
        """Returns the libraries that it loads. Number k has ordinal k + 1."""
        return Rows(_lists.LIBRARIES, self._live, (self._pointer,), lambda: int(self._numbers.libraries))

    def run_paths(self) -> Rows[str]:
        """Returns the paths on which its libraries are searched (LC_RPATH)."""
        return Rows(_lists.RUN_PATHS, self._live, (self._pointer,), lambda: int(self._numbers.run_paths))

    def ids(self) -> Rows[str]:
        """Returns the names of the image as a library. The last one counts."""
        return Rows(_lists.IDS, self._live, (self._pointer,))

    @property
    def name(self) -> Optional[str]:
        """The name of the image as a library, if it has one."""
        name = None
        for name in self.ids():
            pass
        return name

    def function_starts(self) -> Iterator[FunctionStart]:
        """Returns the start addresses of its functions (LC_FUNCTION_STARTS). The last item may be the error that ends them."""
        return rows_behind(_lists.FUNCTION_STARTS_BEHIND, self._live, self._pointer, s.gm_start_cursor())

    def data_in_code(self) -> Rows[DataInCode]:
        """Returns the data in its code (LC_DATA_IN_CODE). An entry that can't be read has an `error`."""
        return Rows(_lists.DATA_IN_CODE, self._live, (self._pointer,), table=lambda: self._table_of(LoadCommand.DATA_IN_CODE, 8, 8, 8))

    def indirect_symbols(self) -> Rows[IndirectSymbol]:
        """Returns its table of indirect symbols. An entry that can't be read has an `error`."""
        return Rows(_lists.INDIRECT_SYMBOLS, self._live, (self._pointer,), table=lambda: self._table_of(LoadCommand.DYSYMTAB, 56, 4, 1))

    def _table_of(self, command: int, place: int, size: int, unit: int) -> Tuple[int, int, int]:
        """Returns the table that the last command of a number places. At `place` the command has the offset of the records, and next to it
        how many units they are."""
        start = count = 0
        for offset, _, cmd, _ in Rows(_lists.COMMAND_ROWS, self._live, (self._pointer,)):
            if cmd == command:
                start, count = struct.unpack_from("<2I" if self.is_little_endian else ">2I", self.data, offset + place)
        return start, size, count // unit

    def symbol_slots(self) -> Iterator[SymbolSlot]:
        """Returns its stubs and pointers that belong to symbols, section by section. One that can't be read has an `error`."""
        return in_growing_batches(_lists.SLOTS_BY_NUMBER, self._live, (self._pointer,))

    def initializers(self) -> Iterator[Initializer]:
        """Returns the functions that dyld calls before its main function, section by section (`MOD_INIT_FUNC_POINTERS` and
        `INIT_FUNC_OFFSETS`). An `error` takes the place of a section whose bytes can't be read. If there are chained fixups of which the
        first can't be read, it raises `Refused`."""
        return in_growing_batches(_lists.INITIALIZERS, self._live, (self._pointer,))

    def slot_at(self, address: int) -> Optional[SymbolSlot]:
        """Returns the stub or pointer that holds an address, or None. One that can't be read raises `Refused`."""
        found = self._looked_up(lib.gm_slot_at, s.gm_slot(), bits64(address))
        return _lists.SLOTS_BY_NUMBER.items_of(self._live(), found)[0] if found.kind else None

    def symbol_provider(self, symbol: Symbol) -> Optional[SymbolProvider]:
        """Returns the provider of an undefined symbol, as the linker recorded it, or None if it didn't. An ordinal past the last library is an `error`."""
        self._live()
        given, found = s.gm_symbol(value=symbol.value, section=symbol.section, desc=symbol.desc, n_type=symbol.n_type), s.gm_provider()
        lib.gm_symbol_provider(self._pointer, ctypes.byref(given), ctypes.byref(found))
        return _lists.provider(found)

    def section_at(self, address: int) -> Optional[NumberedSection]:
        """Returns the first section that holds an address, or None."""
        return self._section(lib.gm_section_at, bits64(address))

    def section_of(self, number: int) -> Optional[NumberedSection]:
        """Returns the section of a number, such as the `section` of a symbol, or None. Numbers count from 1 over all segments. A section that
        isn't in the bytes raises `Refused`."""
        return self._section(lib.gm_section_of, bits64(number))

    def _section(self, call: Callable[..., Any], *by: Any) -> Optional[NumberedSection]:
        return _lists.numbered_section(self._looked_up(call, s.gm_found_section(), *by))

    def _looked_up(self, call: Callable[..., Any], found: F, *by: Any) -> F:
        """Returns what a look-up finds, which may be nothing. A refused one raises `Refused`."""
        held, error = self._live(), s.gm_error()
        if call(held.at, held.len, self._pointer, *by, ctypes.byref(found), None, ctypes.byref(error)):
            raise refused(error)
        return found

    def _said(self, call: Callable[..., Any], found: F, *by: Any) -> Optional[F]:
        """Returns what a call that returns a bool finds, or None."""
        held = self._live()
        return found if call(held.at, held.len, self._pointer, *by, ctypes.byref(found)) else None

    def symbol(self, name: Union[str, bytes]) -> Optional[FoundSymbol]:
        """Returns the first symbol with a name, such as "_main", or None. Entries for a debugger and symbols that can't be read are skipped."""
        raw = bytes_of(name)
        return _lists.found_symbol(self._live(), self._looked_up(lib.gm_symbol_named, s.gm_found_symbol(), raw, len(raw)))

    def symbols_named(self, name: Union[str, bytes]) -> Iterator[FoundSymbol]:
        """Returns all symbols with a name in their order, entries for a debugger too. Symbols that can't be read are skipped."""
        raw = bytes_of(name)
        return in_growing_batches(_lists.SYMBOLS_NAMED, self._live, (self._pointer, raw, len(raw)))

    def symbol_at(self, address: int) -> Optional[FoundSymbol]:
        """Returns the symbol that names an address, or None. It is one of those that are defined in the section which holds the address, at
        the address or below it. Of these it has the greatest value, and of several with that value it is the last. Entries for a debugger don't count."""
        return _lists.found_symbol(self._live(), self._looked_up(lib.gm_symbol_at, s.gm_found_symbol(), bits64(address)))

    def symbol_map(self) -> SymbolMap:
        """Returns an index for many addresses, whose `at(address)` answers as `symbol_at`. Each call builds it anew from all symbols."""
        self._live()
        return SymbolMap(self)

    def function_at(self, address: int) -> Optional[Function]:
        """Returns the function that holds an address, by the starts of functions, or None. It ends at the next start, or with its section."""
        found = self._looked_up(lib.gm_function_at, s.gm_found_function(), bits64(address))
        return Function(found.start, found.end) if found.is_found else None

    def address_of_offset(self, offset: int) -> Optional[int]:
        """Returns the address in memory of the byte at an offset after the image's first byte, or None if no segment has it."""
        found = self._said(lib.gm_address_of_offset, ctypes.c_uint64(), bits64(offset))
        return None if found is None else found.value

    def offset_of_address(self, address: int) -> Optional[int]:
        """Returns the offset after the image's first byte of what is at an address in memory, or None if the file doesn't have it."""
        found = self._said(lib.gm_offset_of_address, ctypes.c_uint64(), bits64(address))
        return None if found is None else found.value

    @property
    def uuid(self) -> Optional[uuid.UUID]:
        """Its identity (the first LC_UUID), or None."""
        found = self._said(lib.gm_uuid, s.gm_image_uuid())
        return None if found is None else uuid.UUID(bytes=bytes(found.bytes))

    def build_versions(self) -> Rows[BuildVersion]:
        """Returns the platforms that it was built for (LC_BUILD_VERSION, LC_VERSION_MIN_MACOSX and the like). dyld takes the first."""
        return Rows(_lists.BUILD_VERSIONS, self._live, (self._pointer,))

    @property
    def platform(self) -> Optional[Platform]:
        """The first platform that it was built for, or None."""
        return next((version.build_platform for version in self.build_versions()), None)

    @property
    def minos(self) -> Optional[str]:
        """The oldest system of `platform` that it runs on, as X.Y.Z, or None."""
        return next((version.minos_text for version in self.build_versions()), None)

    @property
    def sdk(self) -> Optional[str]:
        """The SDK that it was built with, as X.Y.Z, or None."""
        return next((version.sdk_text for version in self.build_versions()), None)

    @property
    def tools(self) -> List[BuildTool]:
        """The tools that it was built with: all of `build_tools()`."""
        return list(self.build_tools())

    @property
    def source_version(self) -> Optional[str]:
        """The version of its source (the first LC_SOURCE_VERSION) as A.B.C.D.E, or None."""
        found = self._said(lib.gm_source_version, ctypes.c_uint64())
        parts = ((40, 0xFFFFFF), (30, 0x3FF), (20, 0x3FF), (10, 0x3FF), (0, 0x3FF))
        return None if found is None else ".".join(str(found.value >> shift & mask) for shift, mask in parts)

    @property
    def encryption(self) -> Optional[Encryption]:
        """Its encrypted part (the first LC_ENCRYPTION_INFO or LC_ENCRYPTION_INFO_64), or None."""
        found = self._said(lib.gm_encryption, s.gm_encrypted_part())
        return None if found is None else Encryption(found.offset, found.size, found.id)

    @property
    def dylinker(self) -> Optional[str]:
        """The path of its dynamic linker (the first LC_LOAD_DYLINKER), or None. One that can't be read raises `Refused`."""
        found = self._said(lib.gm_dylinker, s.gm_command_text())
        if found is not None and found.code:
            raise Refused(found.code, ERRORS[found.code])
        return None if found is None else self._live().text(found.text, found.text_len)

    def dyld_environment(self) -> Rows[CommandText]:
        """Returns the variables that it sets for dyld (LC_DYLD_ENVIRONMENT). One that can't be read has an `error`."""
        return Rows(_lists.DYLD_ENVIRONMENT, self._live, (self._pointer,))

    def fileset_entries(self) -> Rows[FilesetEntry]:
        """Returns the images in it, if it is a fileset (LC_FILESET_ENTRY). One whose name can't be read has an `error`."""
        return Rows(_lists.FILESET_ENTRIES, self._live, (self._pointer,))

    def linker_options(self) -> Rows[LinkerOption]:
        """Returns its linker options (LC_LINKER_OPTION). The last item may be the error that ends them."""
        return Rows(_lists.LINKER_OPTIONS, self._live, (self._pointer,))

    def build_tools(self) -> Rows[BuildTool]:
        """Returns the tools that it was built with (LC_BUILD_VERSION). The last item may be the error that ends them."""
        return Rows(_lists.BUILD_TOOLS, self._live, (self._pointer,))

    def notes(self) -> Rows[Note]:
        """Returns its notes (LC_NOTE). One that can't be read has an `error`."""
        return Rows(_lists.NOTES, self._live, (self._pointer,))

    def fixups(self) -> Iterator[Fixup]:
        """Returns the fixups of its chains (LC_DYLD_CHAINED_FIXUPS). The last item may be the error that ends them."""
        return rows_behind(_lists.FIXUPS_BEHIND, self._live, self._pointer, s.gm_fixup_cursor())

    def imports(self) -> Iterator[Binding]:
        """Returns what dyld binds: the places that take a symbol's address, from opcodes and then from chains. The last item may be the
        error that ends them: dyld refuses such an image. There may be 2^60 of them (`itertools.islice`)."""
        return rows_behind(_lists.BINDINGS_BEHIND, self._live, self._pointer, s.gm_binding_cursor())

    def bindings(self) -> Iterator[Binding]:
        """Returns the same as `imports()`, under the name that C has for it."""
        return self.imports()

    def opcode_imports(self) -> Iterator[Import]:
        """Returns the imports by opcodes only (the binds of LC_DYLD_INFO), as the Rust crate's `imports` reads them: `imports()` has what dyld
        binds, chains too. The last item may be the error that ends them."""
        return rows_behind(_lists.IMPORTS_BEHIND, self._live, self._pointer, s.gm_bind_cursor())

    def weak_binds(self) -> Iterator[WeakBind]:
        """Returns its weak binds, from LC_DYLD_INFO. The last item may be the error that ends them."""
        return rows_behind(_lists.WEAK_BINDS_BEHIND, self._live, self._pointer, s.gm_bind_cursor())

    def rebases(self) -> Iterator[Rebase]:
        """Returns its rebases, from opcodes and then from chains. The last item may be the error that ends them."""
        return rows_behind(_lists.REBASES_BEHIND, self._live, self._pointer, s.gm_rebase_cursor())

    def exports(self) -> Iterator[Export]:
        """Returns all exports, in the order of the trie. A fault of the trie raises `Refused` after the exports before it."""
        return _exports.exports(self._live, self._pointer, self._library_names)

    def _library_names(self) -> Callable[[int], str]:
        """Returns a function that gives the name of the library with an ordinal, and of the image itself for 0. It keeps the places of the
        names, and not the names: many may run on to one far end."""
        held, own, places = self._live(), self.name or "self", array("Q")
        for place, size, *_ in self._library_rows():
            places.extend((place, size))
        return lambda ordinal: held.text(*places[2 * ordinal - 2:2 * ordinal]) if ordinal else own

    def _library_rows(self) -> Rows[Tuple[Any, ...]]:
        """Returns the rows of `libraries()` as C writes them. Each begins with the place and the length of the name."""
        return Rows(_lists.LIBRARY_ROWS, self._live, (self._pointer,), lambda: int(self._numbers.libraries))

    def _run_path_rows(self) -> Rows[Tuple[Any, ...]]:
        """Returns the same for `run_paths()`."""
        return Rows(_lists.RUN_PATH_ROWS, self._live, (self._pointer,), lambda: int(self._numbers.run_paths))

    def find_export(self, name: str) -> Optional[Export]:
        """Returns the export of a name from the image, or None."""
        return _exports.find_export(self._live(), self._pointer, name)

    def exports_are_a_tree(self) -> bool:
        """Returns whether all exports can be read, and no two paths of their trie lead to one node. Then `exports` returns each once."""
        code, error = _exports.are_a_tree(self._live(), self._pointer)
        if code == ErrorCode.NO_MEMORY:
            raise refused(error)
        return not code

    def layout_faults(self) -> Iterator[LayoutFault]:
        """Returns what lies where the format and its readers don't allow it, in the file that begins with the image."""
        return in_growing_batches(_lists.LAYOUT_FAULTS, self._live, (self._pointer,))

    @property
    def signature(self) -> Optional[Signature]:
        """Its code signature, or None if no command places one. One that can't be read raises `Refused`."""
        held = self._live()
        said = _signature.said_of(held, self._pointer)
        if said is None:
            return None
        return Signature(held, said, lambda: _signature.as_signed(self._live(), self._pointer), self.signature_faults,
                         lambda: _signature.agreement_of(self._live(), self._pointer), lambda: _signature.requirements_of(self._live(), self._pointer),
                         lambda is_der: entitlements_of(self._live(), self._pointer, is_der))

    def signature_faults(self) -> Iterator[SignatureFault]:
        """Returns the faults of its signature, also if no code directory counts. Without a signature there are none."""
        return in_growing_batches(_lists.SIGNATURE_FAULTS, self._live, (self._pointer,))

    def security(self) -> Dict[str, Optional[bool]]:
        """Returns the verdicts on how it is hardened, by their names, as `machinfo security` prints them: whether each holds. One that
        needs what can't be read of the signature is None. Only an image of 32 bits has `no-heap-execution`."""
        return dict(in_growing_batches(_lists.VERDICTS, self._live, (self._pointer,)))

    def to_dict(self) -> Dict[str, Any]:
        """Returns what its header says, with its place in the file, by the names of the attributes, for `json.dumps`."""
        names = ("arch", "fat_offset", "offset", "entry", "base", "cputype", "cpusubtype", "filetype", "flags", "is_64", "is_little_endian")
        return {**{name: getattr(self, name) for name in names}, "error": None if self.error is None else self.error.words}

    def json(self) -> str:
        """Returns `to_dict()` as JSON, on one line."""
        return json.dumps(self.to_dict())

    def _place(self) -> Tuple[object, ...]:
        """Returns the identity of the image. Two at one place in the same bytes, opened in the same mode, are equal."""
        held = self._held
        return held.at, held.len, self.fat_offset, self.offset, self._numbers.is_lossy, self.error is None

    def __eq__(self, other: object) -> bool:
        return isinstance(other, Image) and self._place() == other._place()

    def __hash__(self) -> int:
        return hash(self._place())

    def __repr__(self) -> str:
        at = f"at 0x{self.fat_offset + self.offset:x}"
        if self.error is not None:
            return f"<Image {self.arch} {at}, refused: {self.error}>"
        count = self._numbers.commands
        return f"<Image {self.arch} {self.file_type.name} {at}, {count} command{'' if count == 1 else 's'}>"
