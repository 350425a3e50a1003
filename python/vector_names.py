"""The names of numbers that the package has, as vectors want them: None if the package has a name and the library hasn't."""

from goblin_mach import FatEntry, FileType, HeaderFlags, LoadCommand, Platform, Relocation, Stab, SymbolType


def known(number, prefix=""):
    return prefix + number.name if number.is_known else "none"


def flag_name(number):
    names = HeaderFlags.of(number).names
    return f"MH_{names[0]}" if len(names) == 1 and not names[0].startswith("0x") else "none"


def platform_name(number):
    return None if number == 0 else known(Platform.of(number))


def symbol_type_name(number):
    return known(Stab.of(number) if number & 0xE0 else SymbolType.of(number & 0x0E), "N_")


def cpu_name(cputype, cpusubtype):
    name = FatEntry(cputype, cpusubtype, 0, 0, 0, None).arch
    return "none" if name.startswith("unknown(") else name


RELOCATIONS = {"X86_64Relocation": "X86_64_RELOC_", "GenericRelocation": "GENERIC_RELOC_", "ArmRelocation": "ARM_RELOC_", "Arm64Relocation": "ARM64_RELOC_"}
THUMB = {"THUMB_BR22": "ARM_THUMB_RELOC_BR22", "THUMB_32BIT_BRANCH": "ARM_THUMB_32BIT_BRANCH"}


def relocation_name(cputype, number):
    kind = Relocation(0, number << 28, None).type_for(cputype)
    prefix = RELOCATIONS.get(type(kind).__name__)
    if prefix is None:
        return None if kind.is_known else "none"
    return THUMB.get(kind.name) or known(kind, prefix)


NAMES = {
    "command-names": lambda number: known(LoadCommand.of(number), "LC_"),
    "file-type-names": lambda number: known(FileType.of(number)),
    "header-flag-names": flag_name,
    "platform-names": platform_name,
    "symbol-type-names": symbol_type_name,
    "cpu-names": cpu_name,
    "relocation-names": relocation_name,
}
