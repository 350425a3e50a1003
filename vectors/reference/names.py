"""The names of numbers, as Apple's headers have them. Names of cpus are those of LLVM's tools."""

from .image import ARM, ARM64, ARM64_32, POWERPC, X86, X86_64
from .records import COMMAND_NAMES

POWERPC_64 = POWERPC | 0x01000000
STAB, TYPE = 0xe0, 0x0e


def numbered(names, start=0):
    """Numbers names. `-` takes a number, and is no name."""
    return {number: name for number, name in enumerate(names.split(), start) if name != "-"}


FILE_TYPES = numbered("OBJECT EXECUTE FVMLIB CORE PRELOAD DYLIB DYLINKER BUNDLE DYLIB_STUB DSYM KEXT_BUNDLE FILESET "
                      "GPU_EXECUTE GPU_DYLIB", 1)
# The flags of a header, by the number of their bit.
HEADER_FLAGS = numbered(
    "NOUNDEFS INCRLINK DYLDLINK BINDATLOAD PREBOUND SPLIT_SEGS LAZY_INIT TWOLEVEL FORCE_FLAT NOMULTIDEFS NOFIXPREBINDING "
    "PREBINDABLE ALLMODSBOUND SUBSECTIONS_VIA_SYMBOLS CANONICAL WEAK_DEFINES BINDS_TO_WEAK ALLOW_STACK_EXECUTION ROOT_SAFE "
    "SETUID_SAFE NO_REEXPORTED_DYLIBS PIE DEAD_STRIPPABLE_DYLIB HAS_TLV_DESCRIPTORS NO_HEAP_EXECUTION APP_EXTENSION_SAFE "
    "NLIST_OUTOFSYNC_WITH_DYLDINFO SIM_SUPPORT IMPLICIT_PAGEZERO - - DYLIB_IN_CACHE")
PLATFORMS = numbered("MACOS IOS TVOS WATCHOS BRIDGEOS MACCATALYST IOSSIMULATOR TVOSSIMULATOR WATCHOSSIMULATOR DRIVERKIT VISIONOS "
                     "VISIONOSSIMULATOR", 1)
SYMBOL_TYPES = {0x00: "N_UNDF", 0x02: "N_ABS", 0x0a: "N_INDR", 0x0c: "N_PBUD", 0x0e: "N_SECT"}
STABS = {0x20: "GSYM", 0x22: "FNAME", 0x24: "FUN", 0x26: "STSYM", 0x28: "LCSYM", 0x2e: "BNSYM", 0x30: "PC", 0x32: "AST",
         0x3c: "OPT", 0x40: "RSYM", 0x44: "SLINE", 0x4e: "ENSYM", 0x60: "SSYM", 0x64: "SO", 0x66: "OSO", 0x80: "LSYM",
         0x82: "BINCL", 0x84: "SOL", 0x86: "PARAMS", 0x88: "VERSION", 0x8a: "OLEVEL", 0xa0: "PSYM", 0xa2: "EINCL",
         0xa4: "ENTRY", 0xc0: "LBRAC", 0xc2: "EXCL", 0xe0: "RBRAC", 0xe2: "BCOMM", 0xe4: "ECOMM", 0xe8: "ECOML", 0xfe: "LENG"}
CPUS = {X86: {3: "i386"}, X86_64: {3: "x86_64", 8: "x86_64h"}, ARM64: {0: "arm64", 2: "arm64e"}, ARM64_32: {1: "arm64_32"},
        ARM: {5: "armv4t", 6: "armv6", 7: "armv5e", 8: "xscale", 9: "armv7", 11: "armv7s", 12: "armv7k", 14: "armv6m",
              15: "armv7m", 16: "armv7em"}, POWERPC: {0: "ppc"}, POWERPC_64: {0: "ppc64"}}
ARM64_RELOCATIONS = numbered("UNSIGNED SUBTRACTOR BRANCH26 PAGE21 PAGEOFF12 GOT_LOAD_PAGE21 GOT_LOAD_PAGEOFF12 POINTER_TO_GOT "
                             "TLVP_LOAD_PAGE21 TLVP_LOAD_PAGEOFF12 ADDEND")
# The prefix and the names of each cpu's relocations.
RELOCATIONS = {
    X86: ("GENERIC_RELOC_", numbered("VANILLA PAIR SECTDIFF PB_LA_PTR LOCAL_SECTDIFF TLV")),
    X86_64: ("X86_64_RELOC_", numbered("UNSIGNED SIGNED BRANCH GOT_LOAD GOT SUBTRACTOR SIGNED_1 SIGNED_2 SIGNED_4 TLV")),
    ARM: ("ARM_", numbered("RELOC_VANILLA RELOC_PAIR RELOC_SECTDIFF RELOC_LOCAL_SECTDIFF RELOC_PB_LA_PTR RELOC_BR24 "
                           "THUMB_RELOC_BR22 THUMB_32BIT_BRANCH RELOC_HALF RELOC_HALF_SECTDIFF")),
    ARM64: ("ARM64_RELOC_", ARM64_RELOCATIONS),
    ARM64_32: ("ARM64_RELOC_", ARM64_RELOCATIONS),
}


def prefixed(prefix, name):
    return prefix + name if name else None


def header_flag_name(flag):
    """Returns the name of a number that is one bit."""
    return prefixed("MH_", HEADER_FLAGS.get(flag.bit_length() - 1) if flag.bit_count() == 1 else None)


def symbol_type_name(kind):
    return prefixed("N_", STABS.get(kind)) if kind & STAB else SYMBOL_TYPES.get(kind & TYPE)


def cpu_name(cpu, subtype):
    """Returns the name of a cpu, by its subtype without the bits of its capabilities."""
    return CPUS.get(cpu, {}).get(subtype & 0x00ffffff)


def relocation_name(cpu, kind):
    prefix, names = RELOCATIONS.get(cpu, ("", {}))
    return prefixed(prefix, names.get(kind))


def named(name):
    """Returns the call that gives the name of each number, or of each pair of numbers."""
    return lambda _, vector: (" ".join([*map(hex, numbers), name(*numbers) or "none"]) for numbers in vector.numbers)


LISTS = {"command-names": named(COMMAND_NAMES.get), "file-type-names": named(FILE_TYPES.get),
         "header-flag-names": named(header_flag_name), "platform-names": named(PLATFORMS.get),
         "symbol-type-names": named(symbol_type_name), "cpu-names": named(cpu_name), "relocation-names": named(relocation_name)}
