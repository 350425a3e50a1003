"""Reads Apple's Mach-O images with the proved library libgoblin_mach.so. `help(goblin_mach.Image)` and the like are the reference.

    import goblin_mach
    with goblin_mach.open("a.out") as file:
        for image in file:
            for symbol in image.symbols():
                print(hex(symbol.value), symbol.name)

A file is mapped, not copied. Each list is an iterator that requests 1,000 items at a time from the library. An item that can't be read
has an `error`. What can't be opened raises `Refused`. An entry of a fat file or a member of an archive that can't be opened is an image
with an `error`. A list may be as long as a hostile file claims, up to 2^60 bindings: take only the part that you need
(`itertools.islice`). Bytes of a name that aren't UTF-8 become surrogates, as by `os.fsdecode`. The package needs nothing but Python 3.8
or later. docs/PYTHON.md says more."""

from __future__ import annotations

from ._exports import EXPORTS
from ._item import Item
from ._library import escaped
from ._lists import FIXUPS, INDIRECT, KINDS, PROVIDERS, REBASES, SLOTS
from ._rows import BATCH, Rows
from .archive import Archive
from .enums import (
    CPU_SUBTYPES, Arm64_32Subtype, Arm64Subtype, ArmSubtype, CpuSubtype, CpuType, DataKind, ErrorCode, FileType, HeaderFlags, LoadCommand, Mode,
    Platform, PowerPcSubtype, Protection, SectionAttributes, SectionType, SegmentFlags, SignatureFlags, SignatureHash, Tool, X86_64Subtype,
    X86Subtype,
)
from .errors import ERRORS, Refused
from .fat import FatPart, write_fat
from .file import File, container_faults, fat_entries, kind_of, open, parse
from .findings import VERDICTS, Audit, Finding, audit
from .image import Image
from .items import (
    ArchiveSymbol, BuildTool, BuildVersion, Command, CommandText, DataInCode, Encryption, Export, FatEntry, FilesetEntry, FoundSymbol, Function,
    FunctionStart, IndirectSymbol, Initializer, LayoutFault, Library, LinkerOption, Member, Note, NumberedSection, Owner, Relocation, Section,
    SectionString, Segment, Symbol, SymbolProvider, SymbolSlot,
)
from .pointers import Binding, Fixup, Import, Rebase, WeakBind
from .resolution import PLACES, Answer, FileRefused, Resolution, UnusedFile, resolve
from .signature import AGREEMENTS, REQUIREMENTS, Signature, SignatureFault
from .symbol_map import SymbolMap
from .symbol_enums import (
    RELOCATION_TYPES, Arm64Relocation, ArmRelocation, ExportFlags, ExportKind, GenericRelocation, PowerPcRelocation, ReferenceType, RelocationType,
    Stab, SymbolDescription, SymbolType, X86_64Relocation,
)

__version__ = "0.3.0"

STRICT, LOSSY = Mode.STRICT, Mode.LOSSY
NO_MEMORY = ErrorCode.NO_MEMORY

__all__ = [
    "open", "parse", "kind_of", "escaped", "fat_entries", "container_faults", "write_fat", "File", "Image", "Archive", "Rows", "Refused",
    "FatEntry", "FatPart", "Member", "ArchiveSymbol", "Command", "Segment", "Section", "Relocation", "Symbol", "Library", "Fixup", "Import", "Binding",
    "Export", "Owner", "LayoutFault",
    "WeakBind", "Rebase", "Signature", "SignatureFault",
    "FunctionStart", "DataInCode", "IndirectSymbol", "SymbolSlot", "SymbolProvider", "NumberedSection", "LinkerOption", "BuildTool", "Note",
    "Initializer", "SectionString",
    "Item", "BuildVersion", "CommandText", "Encryption", "FilesetEntry", "FoundSymbol", "Function", "SymbolMap",
    "Mode", "STRICT", "LOSSY", "ErrorCode", "ERRORS", "NO_MEMORY", "BATCH", "FIXUPS", "PROVIDERS", "REBASES", "KINDS", "INDIRECT", "SLOTS", "EXPORTS",
    "audit", "Audit", "Finding", "VERDICTS",
    "AGREEMENTS", "resolve", "Resolution", "Answer", "UnusedFile", "FileRefused", "PLACES",
    "REQUIREMENTS",
    "CpuType", "CpuSubtype", "CPU_SUBTYPES", "X86Subtype", "X86_64Subtype", "ArmSubtype", "Arm64Subtype", "Arm64_32Subtype", "PowerPcSubtype",
    "FileType", "HeaderFlags", "LoadCommand", "Protection", "SegmentFlags", "SectionType", "SectionAttributes", "Platform", "Tool", "DataKind",
    "SignatureFlags", "SignatureHash",
    "SymbolType", "Stab", "ReferenceType", "SymbolDescription", "ExportKind", "ExportFlags",
    "RelocationType", "RELOCATION_TYPES", "X86_64Relocation", "GenericRelocation", "ArmRelocation", "Arm64Relocation", "PowerPcRelocation",
]
