"""Numbers that have names, under the names of Apple's headers, without the prefix in each docstring.

`LoadCommand(0x19)` is `LoadCommand.SEGMENT_64`, `LoadCommand.SEGMENT_64 == 0x19`, and `LoadCommand(0x99)` is a member too, named after
the number. For flags `names` lists those that are set. The numbers are those of the crates, and a test compares them
(python/enums_check.py). Those that the crates don't have are from LLVM's BinaryFormat/MachO.h and from the header that is named."""

from __future__ import annotations

from types import MappingProxyType
from typing import Mapping, Type

from ._numbers import Flags, Number


class Mode(Number):
    """GM_: how an image is opened. STRICT refuses what can't be read, LOSSY skips it."""

    STRICT = 0
    LOSSY = 1


class ErrorCode(Number):
    """GM_: why something was refused."""

    MALFORMED = 1
    BAD_MAGIC = 2
    SHORT = 3
    TOO_MANY = 4
    NO_MEMORY = 5
    NO_ROWS = 6
    NO_SPACE = 7
    NO_IMAGE = 8


class CpuType(Number):
    """CPU_TYPE_, of mach/machine.h."""

    VAX = 1
    MC680X0 = 6
    X86 = 7
    I386 = 7
    MC98000 = 10
    HPPA = 11
    ARM = 12
    MC88000 = 13
    SPARC = 14
    I860 = 15
    POWERPC = 18
    X86_64 = 0x01000007
    ARM64 = 0x0100000C
    POWERPC64 = 0x01000012
    ARM64_32 = 0x0200000C
    ANY = 0xFFFFFFFF


class CpuSubtype(Number):
    """CPU_SUBTYPE_, of mach/machine.h, without the top 8 bits, which are capabilities. Its meaning depends on the cpu: see
    `CPU_SUBTYPES`."""


class X86Subtype(CpuSubtype):
    """CPU_SUBTYPE_, of cpu X86; 486, 486SX and 586 have an I before them."""

    I386_ALL = 3
    I486 = 4
    I586 = 5
    PENTIUM_3 = 0x08
    PENTIUM_M = 0x09
    PENTIUM_4 = 0x0A
    ITANIUM = 0x0B
    XEON = 0x0C
    PENTPRO = 0x16
    PENTIUM_3_M = 0x18
    PENTIUM_4_M = 0x1A
    ITANIUM_2 = 0x1B
    XEON_MP = 0x1C
    PENTIUM_3_XEON = 0x28
    PENTII_M3 = 0x36
    PENTII_M5 = 0x56
    CELERON = 0x67
    CELERON_MOBILE = 0x77
    I486SX = 0x84


class X86_64Subtype(CpuSubtype):
    """CPU_SUBTYPE_, of cpu X86_64."""

    X86_64_ALL = 3
    X86_ARCH1 = 4
    X86_64_H = 8


class ArmSubtype(CpuSubtype):
    """CPU_SUBTYPE_, of cpu ARM."""

    ARM_ALL = 0
    ARM_V4T = 5
    ARM_V6 = 6
    ARM_V5TEJ = 7
    ARM_XSCALE = 8
    ARM_V7 = 9
    ARM_V7F = 10
    ARM_V7S = 11
    ARM_V7K = 12
    ARM_V8 = 13
    ARM_V6M = 14
    ARM_V7M = 15
    ARM_V7EM = 16


class Arm64Subtype(CpuSubtype):
    """CPU_SUBTYPE_, of cpu ARM64."""

    ARM64_ALL = 0
    ARM64_V8 = 1
    ARM64E = 2


class Arm64_32Subtype(CpuSubtype):
    """CPU_SUBTYPE_, of cpu ARM64_32."""

    ARM64_32_ALL = 0
    ARM64_32_V8 = 1


class PowerPcSubtype(CpuSubtype):
    """CPU_SUBTYPE_, of cpus POWERPC and POWERPC64."""

    POWERPC_ALL = 0
    POWERPC_601 = 1
    POWERPC_602 = 2
    POWERPC_603 = 3
    POWERPC_603E = 4
    POWERPC_603EV = 5
    POWERPC_604 = 6
    POWERPC_604E = 7
    POWERPC_620 = 8
    POWERPC_750 = 9
    POWERPC_7400 = 10
    POWERPC_7450 = 11
    POWERPC_970 = 100


CPU_SUBTYPES: Mapping[int, Type[CpuSubtype]] = MappingProxyType({
    CpuType.X86: X86Subtype,
    CpuType.X86_64: X86_64Subtype,
    CpuType.ARM: ArmSubtype,
    CpuType.ARM64: Arm64Subtype,
    CpuType.ARM64_32: Arm64_32Subtype,
    CpuType.POWERPC: PowerPcSubtype,
    CpuType.POWERPC64: PowerPcSubtype,
})
"""The subtypes of a cpu."""


class FileType(Number):
    """MH_, of mach-o/loader.h."""

    OBJECT = 0x1
    EXECUTE = 0x2
    FVMLIB = 0x3
    CORE = 0x4
    PRELOAD = 0x5
    DYLIB = 0x6
    DYLINKER = 0x7
    BUNDLE = 0x8
    DYLIB_STUB = 0x9
    DSYM = 0xA
    KEXT_BUNDLE = 0xB
    FILESET = 0xC
    GPU_EXECUTE = 0xD
    GPU_DYLIB = 0xE


class HeaderFlags(Flags):
    """MH_, of mach-o/loader.h."""

    NOUNDEFS = 0x1
    INCRLINK = 0x2
    DYLDLINK = 0x4
    BINDATLOAD = 0x8
    PREBOUND = 0x10
    SPLIT_SEGS = 0x20
    LAZY_INIT = 0x40
    TWOLEVEL = 0x80
    FORCE_FLAT = 0x100
    NOMULTIDEFS = 0x200
    NOFIXPREBINDING = 0x400
    PREBINDABLE = 0x800
    ALLMODSBOUND = 0x1000
    SUBSECTIONS_VIA_SYMBOLS = 0x2000
    CANONICAL = 0x4000
    WEAK_DEFINES = 0x8000
    BINDS_TO_WEAK = 0x10000
    ALLOW_STACK_EXECUTION = 0x20000
    ROOT_SAFE = 0x40000
    SETUID_SAFE = 0x80000
    NO_REEXPORTED_DYLIBS = 0x100000
    PIE = 0x200000
    DEAD_STRIPPABLE_DYLIB = 0x400000
    HAS_TLV_DESCRIPTORS = 0x800000
    NO_HEAP_EXECUTION = 0x1000000
    APP_EXTENSION_SAFE = 0x2000000
    NLIST_OUTOFSYNC_WITH_DYLDINFO = 0x4000000
    SIM_SUPPORT = 0x8000000
    IMPLICIT_PAGEZERO = 0x10000000
    DYLIB_IN_CACHE = 0x80000000


class LoadCommand(Number):
    """LC_, of mach-o/loader.h."""

    SEGMENT = 0x1
    SYMTAB = 0x2
    SYMSEG = 0x3
    THREAD = 0x4
    UNIXTHREAD = 0x5
    LOADFVMLIB = 0x6
    IDFVMLIB = 0x7
    IDENT = 0x8
    FVMFILE = 0x9
    PREPAGE = 0xA
    DYSYMTAB = 0xB
    LOAD_DYLIB = 0xC
    ID_DYLIB = 0xD
    LOAD_DYLINKER = 0xE
    ID_DYLINKER = 0xF
    PREBOUND_DYLIB = 0x10
    ROUTINES = 0x11
    SUB_FRAMEWORK = 0x12
    SUB_UMBRELLA = 0x13
    SUB_CLIENT = 0x14
    SUB_LIBRARY = 0x15
    TWOLEVEL_HINTS = 0x16
    PREBIND_CKSUM = 0x17
    SEGMENT_64 = 0x19
    ROUTINES_64 = 0x1A
    UUID = 0x1B
    CODE_SIGNATURE = 0x1D
    SEGMENT_SPLIT_INFO = 0x1E
    LAZY_LOAD_DYLIB = 0x20
    ENCRYPTION_INFO = 0x21
    DYLD_INFO = 0x22
    VERSION_MIN_MACOSX = 0x24
    VERSION_MIN_IPHONEOS = 0x25
    FUNCTION_STARTS = 0x26
    DYLD_ENVIRONMENT = 0x27
    DATA_IN_CODE = 0x29
    SOURCE_VERSION = 0x2A
    DYLIB_CODE_SIGN_DRS = 0x2B
    ENCRYPTION_INFO_64 = 0x2C
    LINKER_OPTION = 0x2D
    LINKER_OPTIMIZATION_HINT = 0x2E
    VERSION_MIN_TVOS = 0x2F
    VERSION_MIN_WATCHOS = 0x30
    NOTE = 0x31
    BUILD_VERSION = 0x32
    ATOM_INFO = 0x36
    FUNCTION_VARIANTS = 0x37
    FUNCTION_VARIANT_FIXUPS = 0x38
    TARGET_TRIPLE = 0x39
    LOAD_WEAK_DYLIB = 0x80000018
    RPATH = 0x8000001C
    REEXPORT_DYLIB = 0x8000001F
    DYLD_INFO_ONLY = 0x80000022
    LOAD_UPWARD_DYLIB = 0x80000023
    MAIN = 0x80000028
    DYLD_EXPORTS_TRIE = 0x80000033
    DYLD_CHAINED_FIXUPS = 0x80000034
    FILESET_ENTRY = 0x80000035


class Protection(Flags):
    """VM_PROT_, of mach/vm_prot.h."""

    READ = 1
    WRITE = 2
    EXECUTE = 4

    @property
    def letters(self) -> str:
        """The rights as ls prints them: "r-x"."""
        return "".join(letter if int(self) & bit else "-" for letter, bit in (("r", 1), ("w", 2), ("x", 4)))


class SegmentFlags(Flags):
    """SG_, of mach-o/loader.h."""

    HIGHVM = 0x1
    FVMLIB = 0x2
    NORELOC = 0x4
    PROTECTED_VERSION_1 = 0x8
    READ_ONLY = 0x10


class SectionType(Number):
    """S_, of mach-o/loader.h: the low 8 bits of a section's flags. S_4BYTE_LITERALS is LITERALS_4BYTE, and similar names likewise."""

    REGULAR = 0x0
    ZEROFILL = 0x1
    CSTRING_LITERALS = 0x2
    LITERALS_4BYTE = 0x3
    LITERALS_8BYTE = 0x4
    LITERAL_POINTERS = 0x5
    NON_LAZY_SYMBOL_POINTERS = 0x6
    LAZY_SYMBOL_POINTERS = 0x7
    SYMBOL_STUBS = 0x8
    MOD_INIT_FUNC_POINTERS = 0x9
    MOD_TERM_FUNC_POINTERS = 0xA
    COALESCED = 0xB
    GB_ZEROFILL = 0xC
    INTERPOSING = 0xD
    LITERALS_16BYTE = 0xE
    DTRACE_DOF = 0xF
    LAZY_DYLIB_SYMBOL_POINTERS = 0x10
    THREAD_LOCAL_REGULAR = 0x11
    THREAD_LOCAL_ZEROFILL = 0x12
    THREAD_LOCAL_VARIABLES = 0x13
    THREAD_LOCAL_VARIABLE_POINTERS = 0x14
    THREAD_LOCAL_INIT_FUNCTION_POINTERS = 0x15
    INIT_FUNC_OFFSETS = 0x16


class SectionAttributes(Flags):
    """S_ATTR_, of mach-o/loader.h: the other 24 bits of a section's flags."""

    LOC_RELOC = 0x100
    EXT_RELOC = 0x200
    SOME_INSTRUCTIONS = 0x400
    DEBUG = 0x2000000
    SELF_MODIFYING_CODE = 0x4000000
    LIVE_SUPPORT = 0x8000000
    NO_DEAD_STRIP = 0x10000000
    STRIP_STATIC_SYMS = 0x20000000
    NO_TOC = 0x40000000
    PURE_INSTRUCTIONS = 0x80000000


class Platform(Number):
    """PLATFORM_, of mach-o/loader.h: the platform of an LC_BUILD_VERSION."""

    UNKNOWN = 0
    MACOS = 1
    IOS = 2
    TVOS = 3
    WATCHOS = 4
    BRIDGEOS = 5
    MACCATALYST = 6
    IOSSIMULATOR = 7
    TVOSSIMULATOR = 8
    WATCHOSSIMULATOR = 9
    DRIVERKIT = 10
    VISIONOS = 11
    VISIONOSSIMULATOR = 12
    FIRMWARE = 13
    SEPOS = 14
    ANY = 0xFFFFFFFF


class Tool(Number):
    """TOOL_, of mach-o/loader.h: the tools of an LC_BUILD_VERSION."""

    CLANG = 1
    SWIFT = 2
    LD = 3
    LLD = 4


class DataKind(Number):
    """DICE_KIND_, of mach-o/loader.h: the kind of data in code (LC_DATA_IN_CODE)."""

    DATA = 1
    JUMP_TABLE8 = 2
    JUMP_TABLE16 = 3
    JUMP_TABLE32 = 4
    ABS_JUMP_TABLE32 = 5


class SignatureFlags(Flags):
    """CS_, of kern/cs_blobs.h: the flags of a code directory."""

    ADHOC = 0x2
    HARD = 0x100
    KILL = 0x200
    CHECK_EXPIRATION = 0x400
    RESTRICT = 0x800
    ENFORCEMENT = 0x1000
    REQUIRE_LV = 0x2000
    RUNTIME = 0x10000
    LINKER_SIGNED = 0x20000


class SignatureHash(Number):
    """CS_HASHTYPE_, of kern/cs_blobs.h: the hash that a code directory uses."""

    SHA1 = 1
    SHA256 = 2
    SHA256_TRUNCATED = 3
    SHA384 = 4


def cpu_subtype(cputype: int, cpusubtype: int) -> CpuSubtype:
    """Returns a cpu's subtype, without its capabilities."""
    return CPU_SUBTYPES.get(cputype, CpuSubtype).of(cpusubtype & 0xFFFFFF)
