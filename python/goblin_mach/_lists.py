"""Items from rows: for each kind of list a function that builds its items. Each has a loop of its own over tuples, since lists are
long."""

from __future__ import annotations

from functools import lru_cache
from typing import Any, Callable, Iterable, List, Optional, Tuple

from . import _structs as s
from ._library import lib
from ._memory import Held, name_in
from ._rows import Kind
from .errors import ERRORS
from .items import (
    ArchiveSymbol, BuildTool, BuildVersion, Command, CommandText, DataInCode, FatEntry, FilesetEntry, FoundSymbol, FunctionStart, IndirectSymbol,
    Initializer, LayoutFault, Library, LinkerOption, Member, Note, NumberedSection, Owner, Relocation, Section, SectionString, Segment, Symbol,
    SymbolProvider, SymbolSlot,
)
from .pointers import Binding, Fixup, Import, Rebase, WeakBind
from .signature import SignatureFault

FIXUPS = ("rebase", "bind", "number")
REBASES = ("none", "pointer", "absolute32", "relative32")
PROVIDERS = ("library", "itself", "program", "any", "any weak")
KINDS = ("required", "weak", "reexport", "upward", "lazy")
SLOTS = ("none", "pointer", "lazy pointer", "stub", "lazy library pointer", "thread-local pointer")
INDIRECT = ("symbol", "local", "absolute", "local absolute")

Raws = Iterable[Tuple[Any, ...]]
_new = tuple.__new__  # for a NamedTuple: takes the fields as one tuple, in a third of the time
_error: Callable[[int], Optional[str]] = ERRORS.get
_ESCAPED = "surrogateescape"


def as_written(held: Held, raws: Raws, first: int) -> List[Tuple[Any, ...]]:
    return list(raws)


def _told(number: int) -> Optional[int]:
    """Returns a number of a member's header, or None if its field is no number (GM_NO_NUMBER)."""
    return None if number == (1 << 64) - 1 else number


def _outside(index: int, offset: int, size: int, end: int) -> str:
    """Returns why the entry at an index isn't all in a file that ends there. The record of one without an offset and a size isn't."""
    if not offset and not size:
        return f"the file ends in the record of entry {index}"
    return f"entry {index} is out of the file: it ends at {min(offset + size, (1 << 64) - 1):#x}, the file at {end:#x}"


def fat_entries(held: Held, raws: Raws, first: int) -> List[FatEntry]:
    return [
        FatEntry(cpu, kind, offset, size, align, _outside(index, offset, size, held.len) if code else None)
        for index, (offset, size, cpu, kind, align, code) in enumerate(raws, first)
    ]


def members(held: Held, raws: Raws, first: int) -> List[Member]:
    view = held.view
    return [
        Member(None if name_code or code else held.text(name, name_len), header, data, view[data:data + data_len], _told(date), _told(uid), _told(gid),
               _told(mode), _error(name_code), _error(code))
        for date, uid, gid, mode, header, data, data_len, name, name_len, name_code, code in raws
    ]


def archive_symbols(held: Held, raws: Raws, first: int) -> List[ArchiveSymbol]:
    return [ArchiveSymbol(held.text(name, name_len), member, _error(code)) for member, name, name_len, code, _ in raws]


def commands(held: Held, raws: Raws, first: int) -> List[Command]:
    view = held.view
    return [_new(Command, (offset, size, cmd, view[offset:offset + size])) for offset, size, cmd, _ in raws]


def segments(held: Held, raws: Raws, first: int) -> List[Segment]:
    view = held.view
    return [
        Segment(name_in(name), vmaddr, vmsize, fileoff, filesize, maxprot, initprot, flags, view[fileoff:fileoff + data_len], command, nsects)
        for name, vmaddr, vmsize, fileoff, filesize, command, data_len, maxprot, initprot, nsects, flags in raws
    ]


def sections(held: Held, raws: Raws, first: int) -> List[Section]:
    view = held.view
    return [
        Section(name_in(name), name_in(segment), addr, size, offset, align, reloff, nreloc, flags, view[offset:offset + data_len], _error(code))
        for name, segment, addr, size, data_len, offset, align, reloff, nreloc, flags, code in raws
    ]


def all_sections(held: Held, raws: Raws, first: int) -> List[Section]:
    return sections(held, (raw[:11] for raw in raws), first)


def relocations(held: Held, raws: Raws, first: int) -> List[Relocation]:
    return [_new(Relocation, (address, info, _error(code))) for address, info, code in raws]


def symbols(held: Held, raws: Raws, first: int) -> List[Symbol]:
    view, new = held.view, _new
    return [
        new(Symbol, (str(view[name:name + size], "utf-8", _ESCAPED), value, section, n_type, desc, _error(code) if code else None))
        for value, name, size, section, code, desc, n_type, _ in raws
    ]


def run_paths(held: Held, raws: Raws, first: int) -> List[str]:
    return [held.text(path, size) for path, size in raws]


def ids(held: Held, raws: Raws, first: int) -> List[str]:
    return [held.text(name, size) for name, size in raws]


def libraries(held: Held, raws: Raws, first: int) -> List[Library]:
    return [
        Library(ordinal, held.text(name, size), KINDS[kind], timestamp, current_version, compatibility_version,
                used & 1 != 0, used & 2 != 0, used & 4 != 0, used & 8 != 0)
        for ordinal, (name, size, kind, timestamp, current_version, compatibility_version, used, _) in enumerate(raws, first + 1)
    ]


def fixups(held: Held, raws: Raws, first: int) -> List[Fixup]:
    new = _new
    return [
        new(Fixup, (address, segment, offset, FIXUPS[kind], target, number, addend, signed != 0, key, diversity, diverse != 0,
                    _error(code) if code else None))
        for address, offset, target, segment, kind, number, addend, signed, key, diversity, diverse, code, _ in raws
    ]


def imports(held: Held, raws: Raws, first: int) -> List[Import]:
    view, new = held.view, _new
    return [
        new(Import, (str(view[name:name + length], "utf-8", _ESCAPED), library, address, offset, addend, size, start, weak != 0, lazy != 0,
                     _error(code) if code else None))
        for address, offset, addend, start, name, length, library, size, weak, lazy, code, _ in raws
    ]


def bindings(held: Held, raws: Raws, first: int) -> List[Binding]:
    view, new = held.view, _new
    return [
        new(Binding, (str(view[name:name + length], "utf-8", _ESCAPED), PROVIDERS[provider], library, address, offset, addend, weak != 0, lazy != 0,
                      _error(code) if code else None))
        for address, offset, addend, name, length, library, provider, weak, lazy, code in raws
    ]


def weak_binds(held: Held, raws: Raws, first: int) -> List[WeakBind]:
    view, new = held.view, _new
    return [
        new(WeakBind, (str(view[name:name + length], "utf-8", _ESCAPED), strong != 0, address, offset, addend, weak != 0,
                       _error(code) if code else None))
        for address, offset, addend, name, length, strong, weak, code, _ in raws
    ]


def rebases(held: Held, raws: Raws, first: int) -> List[Rebase]:
    new = _new
    return [
        new(Rebase, (address, segment, offset, REBASES[kind], target, signed != 0, key, diversity, diverse != 0, _error(code) if code else None))
        for address, offset, target, segment, kind, signed, key, diversity, diverse, code, _ in raws
    ]


def function_starts(held: Held, raws: Raws, first: int) -> List[FunctionStart]:
    return [_new(FunctionStart, (address, _error(code) if code else None)) for address, code, _ in raws]


def data_in_code(held: Held, raws: Raws, first: int) -> List[DataInCode]:
    return [_new(DataInCode, (offset, length, kind, _error(code) if code else None)) for offset, length, kind, code in raws]


def indirect_symbols(held: Held, raws: Raws, first: int) -> List[IndirectSymbol]:
    return [
        IndirectSymbol(INDIRECT[kind], None if kind or code else symbol, _error(code) if code else None)
        for kind, symbol, code in raws
    ]


def linker_options(held: Held, raws: Raws, first: int) -> List[LinkerOption]:
    return [LinkerOption(held.text(text, size), command, _error(code)) for command, text, size, code, _ in raws]


def build_tools(held: Held, raws: Raws, first: int) -> List[BuildTool]:
    return [BuildTool(tool, version, command, _error(code)) for command, tool, version, code, _ in raws]


def build_versions(held: Held, raws: Raws, first: int) -> List[BuildVersion]:
    return [BuildVersion(platform, minos, sdk, command) for command, platform, minos, sdk, _ in raws]


def command_texts(held: Held, raws: Raws, first: int) -> List[CommandText]:
    return [CommandText(held.text(text, size), command, _error(code)) for command, text, size, code, _ in raws]


def fileset_entries(held: Held, raws: Raws, first: int) -> List[FilesetEntry]:
    return [FilesetEntry(held.text(name, size), address, offset, _error(code)) for address, offset, name, size, code, _ in raws]


def notes(held: Held, raws: Raws, first: int) -> List[Note]:
    view = held.view
    return [
        Note(held.text(owner, owner_len), view[place:place + size] if size else view[:0], command, _error(code))
        for command, owner, owner_len, place, size, code, _ in raws
    ]


def slots(held: Held, raws: Raws, first: int) -> List[SymbolSlot]:
    return [
        SymbolSlot(address, size, segment, section, SLOTS[kind], index, INDIRECT[owner], None if owner or code else symbol,
                   held.text(name, name_len) if not owner and not code else None, _error(code))
        for address, size, segment, name, name_len, section, kind, index, owner, symbol, code in raws
    ]


def initializers(held: Held, raws: Raws, first: int) -> List[Initializer]:
    return [Initializer(slot, target, segment, section, _error(code)) for slot, target, segment, section, code in raws]


def strings(held: Held, raws: Raws, first: int) -> List[SectionString]:
    return [SectionString(held.text(place, size), place) for place, size in raws]


def found_symbol(held: Held, found: s.gm_found_symbol) -> Optional[FoundSymbol]:
    """Returns a symbol that was looked up, if it was found."""
    return FoundSymbol(SYMBOLS.items_of(held, found.symbol)[0], found.index, found.distance) if found.is_found else None


def found_symbols(held: Held, raws: Raws, first: int) -> List[FoundSymbol]:
    rows = list(raws)
    return [FoundSymbol(symbol, row[8], 0) for symbol, row in zip(symbols(held, (row[:8] for row in rows), first), rows)]


def provider(found: s.gm_provider) -> Optional[SymbolProvider]:
    """Returns the provider of a symbol, if the linker recorded it."""
    return SymbolProvider(PROVIDERS[found.provider], found.library, _error(found.code)) if found.is_reported else None


def numbered_section(found: s.gm_found_section) -> Optional[NumberedSection]:
    """Returns a section that was looked up, if it was found."""
    if not found.is_found:
        return None
    return NumberedSection(found.number, found.segment, found.index, name_in(bytes(found.name)), name_in(bytes(found.segment_name)), found.addr,
                           found.size, found.offset, found.align, found.reloff, found.nreloc, found.flags, found.reserved1, found.reserved2)


@lru_cache(maxsize=None)
def _rule(number: int) -> str:
    return str(lib.gm_layout_rule(number).decode())


@lru_cache(maxsize=None)
def _part(number: int) -> str:
    return str(lib.gm_layout_part(number).decode())


def layout_faults(held: Held, raws: Raws, first: int) -> List[LayoutFault]:
    return [
        LayoutFault(_rule(rule), Owner(_part(part), command, index), found, limit, Owner(_part(other), other_command, other_index) if other else None)
        for found, limit, command, index, other_command, other_index, rule, part, other, _ in raws
    ]


@lru_cache(maxsize=None)
def _signature_kind(number: int) -> str:
    return str(lib.gm_signature_kind(number).decode())


def signature_faults(held: Held, raws: Raws, first: int) -> List[SignatureFault]:
    return [
        SignatureFault(_signature_kind(kind), slot, index, found, limit, _error(code))
        for found, limit, kind, slot, index, code in raws
    ]


@lru_cache(maxsize=None)
def _verdict(number: int) -> str:
    return str(lib.gm_verdict_name(number).decode())


def verdicts(held: Held, raws: Raws, first: int) -> List[Tuple[str, Optional[bool]]]:
    return [(_verdict(verdict), None if code else bool(holds)) for verdict, holds, code in raws]


FAT_ENTRIES = Kind(lib.gm_fat_entries64, s.gm_fat_entry64, fat_entries)
ARCHIVE_MEMBERS = Kind(lib.gm_archive_members, s.gm_archive_member, members, grows=True)
ARCHIVE_SYMBOLS = Kind(lib.gm_archive_symbols, s.gm_archive_symbol, archive_symbols, grows=True)
COMMAND_ROWS = Kind(lib.gm_commands, s.gm_command, as_written, grows=True)
LIBRARY_ROWS = Kind(lib.gm_libraries, s.gm_library, as_written, grows=True)
RUN_PATH_ROWS = Kind(lib.gm_run_paths, s.gm_run_path, as_written, grows=True)
COMMANDS = Kind(lib.gm_commands, s.gm_command, commands, grows=True)
SEGMENTS = Kind(lib.gm_segments, s.gm_segment, segments, grows=True)
SECTIONS = Kind(lib.gm_sections, s.gm_section, sections)
ALL_SECTIONS = Kind(lib.gm_all_sections, s.gm_numbered_section, all_sections, grows=True)
RELOCATIONS = Kind(lib.gm_relocations, s.gm_relocation, relocations)
SYMBOLS = Kind(lib.gm_symbols, s.gm_symbol, symbols)
SYMBOLS_NAMED = Kind(lib.gm_symbols_named, s.gm_found_symbol, found_symbols)
LIBRARIES = Kind(lib.gm_libraries, s.gm_library, libraries, grows=True)
RUN_PATHS = Kind(lib.gm_run_paths, s.gm_run_path, run_paths, grows=True)
IDS = Kind(lib.gm_ids, s.gm_id, ids, grows=True)
DATA_IN_CODE = Kind(lib.gm_data_in_code, s.gm_data_in_code_entry, data_in_code)
INDIRECT_SYMBOLS = Kind(lib.gm_indirect_symbols, s.gm_indirect_symbol, indirect_symbols)
LINKER_OPTIONS = Kind(lib.gm_linker_options, s.gm_linker_option, linker_options, grows=True)
BUILD_TOOLS = Kind(lib.gm_build_tools, s.gm_build_tool, build_tools, grows=True)
BUILD_VERSIONS = Kind(lib.gm_build_versions, s.gm_build_version, build_versions, grows=True)
DYLD_ENVIRONMENT = Kind(lib.gm_dyld_environment, s.gm_command_text, command_texts, grows=True)
FILESET_ENTRIES = Kind(lib.gm_fileset_entries, s.gm_fileset_entry, fileset_entries, grows=True)
NOTES = Kind(lib.gm_notes, s.gm_note, notes, grows=True)
SLOTS_BY_NUMBER = Kind(lib.gm_slots, s.gm_slot, slots)
INITIALIZERS = Kind(lib.gm_initializers, s.gm_initializer, initializers)
STRINGS = Kind(lib.gm_strings, s.gm_span, strings, grows=True)
FUNCTION_STARTS_BEHIND = Kind(lib.gm_function_starts, s.gm_function_start, function_starts)
FIXUPS_BEHIND = Kind(lib.gm_fixups, s.gm_fixup, fixups)
IMPORTS_BEHIND = Kind(lib.gm_opcode_imports, s.gm_import, imports)
BINDINGS_BEHIND = Kind(lib.gm_bindings, s.gm_binding, bindings)
WEAK_BINDS_BEHIND = Kind(lib.gm_weak_binds, s.gm_weak_bind, weak_binds)
REBASES_BEHIND = Kind(lib.gm_rebases, s.gm_rebase, rebases)
LAYOUT_FAULTS = Kind(lib.gm_layout_faults, s.gm_layout_fault, layout_faults)
SIGNATURE_FAULTS = Kind(lib.gm_signature_faults, s.gm_signature_fault, signature_faults)
VERDICTS = Kind(lib.gm_security, s.gm_verdict, verdicts)
CONTAINER_FAULTS = Kind(lib.gm_container_faults, s.gm_layout_fault, layout_faults)
