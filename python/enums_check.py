"""python3 python/enums_check.py: compares the package's enums with the constants of the crates, `pub const NAME: T = NUMBER;`, and with
those of c/include/goblin_mach.h, `#define GM_NAME UINT32_C(NUMBER)`. Each constant with the prefix of an enum must be a member of it,
with its number. It prints what differs, and needs no library."""

from __future__ import annotations

import importlib
import os
import re
import sys
import types
from typing import Any, Dict, Iterator, List, NamedTuple, Set, Tuple

HERE = os.path.dirname(os.path.abspath(__file__))
TOP = os.path.dirname(HERE)
CONSTANT = re.compile(r"^ *pub const ([A-Z]\w*): (\w+) = ([^;]+);", re.M)
MACRO = re.compile(r"^#define GM_([A-Z]\w*) +UINT([0-9]+)_C\((0x[0-9a-fA-F]+|[0-9]+)\)", re.M)
NUMBERS = {"u8", "u16", "u32", "u64", "usize", "RelocType", "CpuType", "CpuSubType"}


class Constant(NamedTuple):
    type: str
    number: int
    file: str


class Prefix(NamedTuple):
    """A rule: constants with this prefix are members of this enum. If a type or the name of a file is given, it must be the constant's."""

    prefix: str
    enum: str
    type: str = ""
    file: str = ""


# The first line that fits a constant counts. A constant whose line has no enum, such as a mask or a magic, isn't in the package. Nor is one
# that no line fits.
PREFIXES = [
    Prefix("GM_OK", ""), Prefix("GM_", "ErrorCode", file="errors.rt"), Prefix("GM_STRICT", "Mode"), Prefix("GM_LOSSY", "Mode"),
    Prefix("LC_REQ_DYLD", ""), Prefix("LC_", "LoadCommand"),
    Prefix("CPU_SUBTYPE_MASK", ""), Prefix("CPU_SUBTYPE_LIB64", ""), Prefix("CPU_SUBTYPE_ANY", ""),
    Prefix("CPU_TYPE_", "CpuType"), Prefix("CPU_SUBTYPE_", "CpuSubtype"),
    Prefix("MH_MAGIC", ""), Prefix("MH_CIGAM", ""), Prefix("MH_", "FileType HeaderFlags"),
    Prefix("S_ATTR_", "SectionAttributes"), Prefix("S_", "SectionType"), Prefix("SG_", "SegmentFlags"),
    Prefix("VM_PROT_ALL", ""), Prefix("VM_PROT_NONE", ""), Prefix("VM_PROT_", "Protection"),
    Prefix("PLATFORM_", "Platform"), Prefix("TOOL_", "Tool"), Prefix("DICE_KIND_", "DataKind"),
    Prefix("CS_HASHTYPE_", "SignatureHash"), Prefix("CS_", "SignatureFlags"),
    Prefix("N_STAB", ""), Prefix("N_PEXT", ""), Prefix("N_TYPE", ""), Prefix("N_EXT", ""),
    Prefix("N_", "SymbolDescription", type="u16"), Prefix("N_", "SymbolType Stab", type="u8"),
    Prefix("REFERENCE_FLAG_", "ReferenceType"), Prefix("REFERENCED_DYNAMICALLY", "SymbolDescription"),
    Prefix("EXPORT_SYMBOL_FLAGS_KIND_MASK", ""), Prefix("EXPORT_SYMBOL_FLAGS_KIND_", "ExportKind"), Prefix("EXPORT_SYMBOL_FLAGS_", "ExportFlags"),
    Prefix("X86_64_RELOC_", "X86_64Relocation"), Prefix("GENERIC_RELOC_", "GenericRelocation"), Prefix("ARM_RELOC_", "ArmRelocation"),
    Prefix("ARM_THUMB_", "ArmRelocation"), Prefix("ARM64_RELOC_", "Arm64Relocation"), Prefix("PPC_RELOC_", "PowerPcRelocation"),
]

# Members that aren't named by what follows the prefix.
NAMED = {
    "GM_STRICT": "STRICT", "GM_LOSSY": "LOSSY", "REFERENCED_DYNAMICALLY": "REFERENCED_DYNAMICALLY",
    "S_4BYTE_LITERALS": "LITERALS_4BYTE", "S_8BYTE_LITERALS": "LITERALS_8BYTE", "S_16BYTE_LITERALS": "LITERALS_16BYTE",
    "ARM_THUMB_RELOC_BR22": "THUMB_BR22", "ARM_THUMB_32BIT_BRANCH": "THUMB_32BIT_BRANCH",
    "CPU_SUBTYPE_486": "I486", "CPU_SUBTYPE_486SX": "I486SX", "CPU_SUBTYPE_586": "I586",
}


def enum_classes() -> Dict[str, Any]:
    """Returns the enums by name. The package's own file is not imported, since it loads the library."""
    shell = types.ModuleType("goblin_mach_enums")
    shell.__path__ = [os.path.join(HERE, "goblin_mach")]
    sys.modules[shell.__name__] = shell
    found: Dict[str, Any] = {}
    for name in ("enums", "symbol_enums"):
        found.update(vars(importlib.import_module(f"{shell.__name__}.{name}")))
    return {name: item for name, item in found.items() if isinstance(item, type) and hasattr(item, "__members__")}


def source_files(top: str) -> Iterator[str]:
    for folder, folders, files in os.walk(os.path.join(top, "crates")):
        folders[:] = sorted(name for name in folders if name != "out" and not name.startswith("test"))
        yield from (os.path.join(folder, name) for name in sorted(files) if name.endswith(".rt"))


def constants(top: str) -> Tuple[List[Tuple[str, Constant]], List[str]]:
    """Returns the numbers of the library crates and of the header, by name, and what can't be read of them."""
    found: List[Tuple[str, Constant]] = []
    wrong = []
    for path in source_files(top):
        with open(path, encoding="utf-8") as file:
            for name, kind, value in CONSTANT.findall(file.read()):
                if kind not in NUMBERS:
                    continue
                if re.fullmatch(r"(0x[0-9a-fA-F_]+|[0-9_]+)", value) is None:
                    wrong.append(f"{path}: {name}: {value} isn't read")
                else:
                    found.append((name, Constant(kind, int(value.replace("_", ""), 0), os.path.basename(path))))
    with open(os.path.join(top, "c", "include", "goblin_mach.h"), encoding="utf-8") as file:
        for name, bits, value in MACRO.findall(file.read()):
            found.append((name, Constant("u" + bits, int(value, 0), "goblin_mach.h")))
    return found, wrong


def line_of(name: str, constant: Constant) -> Prefix:
    """Returns the line of the table that fits a constant."""
    fits = (line for line in PREFIXES if name.startswith(line.prefix) and line.type in ("", constant.type) and line.file in ("", constant.file))
    return next(fits, Prefix("", ""))


def differences(top: str = TOP) -> List[str]:
    """Returns what differs between enums and crates."""
    classes = enum_classes()
    subtypes = [name for name, item in classes.items() if name.endswith("Subtype") and item.__members__]
    known, wrong = constants(top)
    met: Set[str] = set()
    for name, constant in known:
        line = line_of(name, constant)
        enums = subtypes if line.enum == "CpuSubtype" else line.enum.split()
        wanted = NAMED.get(name, name[len(line.prefix):])
        numbers = {each: classes[each].__members__[wanted].value for each in enums if wanted in classes[each].__members__}
        met.update(numbers)
        if enums and constant.number not in numbers.values():
            wrong.append(f"{name} is {constant.number:#x} in {constant.file}, and {numbers or 'nothing'} in {' or '.join(enums)}")
    return wrong + [f"{name}: no constant of the crates is of it" for name in COMPARED if name not in met]


COMPARED = [
    "ErrorCode", "CpuType", "FileType", "HeaderFlags", "LoadCommand", "SectionType", "Platform", "Tool", "DataKind", "SymbolType", "Stab", "ReferenceType",
    "SymbolDescription", "ExportKind", "ExportFlags", "X86_64Relocation", "GenericRelocation", "ArmRelocation", "Arm64Relocation",
    "SignatureFlags", "SignatureHash",
]

if __name__ == "__main__":
    told = differences()
    print("\n".join(told) or f"{len(constants(TOP)[0])} constants agree")
    sys.exit(bool(told))
