"""Names for the numbers of symbols, exports and relocations: see the module `enums`."""

from __future__ import annotations

from types import MappingProxyType
from typing import Mapping, Type

from ._numbers import Flags, Number
from .enums import CpuType


class SymbolType(Number):
    """N_, of mach-o/nlist.h: the bits 0x0e of a symbol's n_type, if it is no entry for a debugger."""

    UNDF = 0x0
    ABS = 0x2
    INDR = 0xA
    PBUD = 0xC
    SECT = 0xE


class Stab(Number):
    """N_, of mach-o/stab.h: the n_type of an entry for a debugger."""

    GSYM = 0x20
    FNAME = 0x22
    FUN = 0x24
    STSYM = 0x26
    LCSYM = 0x28
    BNSYM = 0x2E
    PC = 0x30
    AST = 0x32
    OPT = 0x3C
    RSYM = 0x40
    SLINE = 0x44
    ENSYM = 0x4E
    SSYM = 0x60
    SO = 0x64
    OSO = 0x66
    LSYM = 0x80
    BINCL = 0x82
    SOL = 0x84
    PARAMS = 0x86
    VERSION = 0x88
    OLEVEL = 0x8A
    PSYM = 0xA0
    EINCL = 0xA2
    ENTRY = 0xA4
    LBRAC = 0xC0
    EXCL = 0xC2
    RBRAC = 0xE0
    BCOMM = 0xE2
    ECOMM = 0xE4
    ECOML = 0xE8
    LENG = 0xFE


class ReferenceType(Number):
    """REFERENCE_FLAG_, of mach-o/nlist.h: the low 4 bits of the n_desc of an undefined symbol."""

    UNDEFINED_NON_LAZY = 0
    UNDEFINED_LAZY = 1
    DEFINED = 2
    PRIVATE_DEFINED = 3
    PRIVATE_UNDEFINED_NON_LAZY = 4
    PRIVATE_UNDEFINED_LAZY = 5


class SymbolDescription(Flags):
    """N_, of mach-o/nlist.h: the bits of a symbol's n_desc that are flags. N_NO_DEAD_STRIP and N_DESC_DISCARDED share a bit, and so do
    N_WEAK_DEF and N_REF_TO_WEAK: the kinds of the symbol and of the file decide which is meant."""

    ARM_THUMB_DEF = 0x8
    REFERENCED_DYNAMICALLY = 0x10
    NO_DEAD_STRIP = 0x20
    DESC_DISCARDED = 0x20
    WEAK_REF = 0x40
    WEAK_DEF = 0x80
    REF_TO_WEAK = 0x80
    SYMBOL_RESOLVER = 0x100
    ALT_ENTRY = 0x200
    COLD_FUNC = 0x400


class ExportKind(Number):
    """EXPORT_SYMBOL_FLAGS_KIND_, of mach-o/loader.h: the low 2 bits of an export's flags."""

    REGULAR = 0
    THREAD_LOCAL = 1
    ABSOLUTE = 2


class ExportFlags(Flags):
    """EXPORT_SYMBOL_FLAGS_, of mach-o/loader.h."""

    WEAK_DEFINITION = 0x4
    REEXPORT = 0x8
    STUB_AND_RESOLVER = 0x10


class RelocationType(Number):
    """The type of a relocation. Its meaning depends on the cpu: see `RELOCATION_TYPES`."""


class X86_64Relocation(RelocationType):
    """X86_64_RELOC_, of mach-o/x86_64/reloc.h."""

    UNSIGNED = 0
    SIGNED = 1
    BRANCH = 2
    GOT_LOAD = 3
    GOT = 4
    SUBTRACTOR = 5
    SIGNED_1 = 6
    SIGNED_2 = 7
    SIGNED_4 = 8
    TLV = 9


class GenericRelocation(RelocationType):
    """GENERIC_RELOC_, of mach-o/reloc.h: those of cpu X86."""

    VANILLA = 0
    PAIR = 1
    SECTDIFF = 2
    PB_LA_PTR = 3
    LOCAL_SECTDIFF = 4
    TLV = 5


class ArmRelocation(RelocationType):
    """ARM_RELOC_, of mach-o/arm/reloc.h; ARM_THUMB_RELOC_BR22 and ARM_THUMB_32BIT_BRANCH begin with THUMB."""

    VANILLA = 0
    PAIR = 1
    SECTDIFF = 2
    LOCAL_SECTDIFF = 3
    PB_LA_PTR = 4
    BR24 = 5
    THUMB_BR22 = 6
    THUMB_32BIT_BRANCH = 7
    HALF = 8
    HALF_SECTDIFF = 9


class Arm64Relocation(RelocationType):
    """ARM64_RELOC_, of mach-o/arm64/reloc.h: those of cpus ARM64 and ARM64_32."""

    UNSIGNED = 0
    SUBTRACTOR = 1
    BRANCH26 = 2
    PAGE21 = 3
    PAGEOFF12 = 4
    GOT_LOAD_PAGE21 = 5
    GOT_LOAD_PAGEOFF12 = 6
    POINTER_TO_GOT = 7
    TLVP_LOAD_PAGE21 = 8
    TLVP_LOAD_PAGEOFF12 = 9
    ADDEND = 10


class PowerPcRelocation(RelocationType):
    """PPC_RELOC_, of mach-o/ppc/reloc.h."""

    VANILLA = 0
    PAIR = 1
    BR14 = 2
    BR24 = 3
    HI16 = 4
    LO16 = 5
    HA16 = 6
    LO14 = 7
    SECTDIFF = 8
    PB_LA_PTR = 9
    HI16_SECTDIFF = 10
    LO16_SECTDIFF = 11
    HA16_SECTDIFF = 12
    JBSR = 13
    LO14_SECTDIFF = 14
    LOCAL_SECTDIFF = 15


RELOCATION_TYPES: Mapping[int, Type[RelocationType]] = MappingProxyType({
    CpuType.X86: GenericRelocation,
    CpuType.X86_64: X86_64Relocation,
    CpuType.ARM: ArmRelocation,
    CpuType.ARM64: Arm64Relocation,
    CpuType.ARM64_32: Arm64Relocation,
    CpuType.POWERPC: PowerPcRelocation,
    CpuType.POWERPC64: PowerPcRelocation,
})
"""The types of relocations of a cpu."""


def relocation_type(cputype: int, number: int) -> RelocationType:
    """Returns the type of a relocation with this number, for a cpu."""
    return RELOCATION_TYPES.get(cputype, RelocationType).of(number)
