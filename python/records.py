"""The records of load commands, as mach-o/loader.h has them, read here a second time: the tests compare `command.fields` with it."""

from __future__ import annotations

import struct
import uuid
from typing import Any, Dict, List, Tuple

from goblin_mach import LoadCommand

_DATA = "dataoff:I datasize:I"
_LIBRARY = "name:text timestamp:I current_version:I compatibility_version:I"
_ROUTINES = "init_address:{0} init_module:{0} reserved1:{0} reserved2:{0} reserved3:{0} reserved4:{0} reserved5:{0} reserved6:{0}"
_SEGMENT = "segname:16s vmaddr:{0} vmsize:{0} fileoff:{0} filesize:{0} maxprot:I initprot:I nsects:I flags:I"
_CRYPT = "cryptoff:I cryptsize:I cryptid:I"

# For each command the fields of its record after cmd and cmdsize, each as NAME:FORMAT, with the formats of the module `struct`. `16s` is a name,
# `text` the offset of a text in the command, and `uuid` 16 bytes.
RECORDS: List[Tuple[str, str]] = [
    ("SEGMENT", _SEGMENT.format("I")),
    ("SEGMENT_64", _SEGMENT.format("Q")),
    ("SYMTAB", "symoff:I nsyms:I stroff:I strsize:I"),
    ("SYMSEG", "offset:I size:I"),
    ("THREAD UNIXTHREAD", "flavor:I count:I"),
    ("LOADFVMLIB IDFVMLIB", "name:text minor_version:I header_addr:I"),
    ("IDENT PREPAGE", ""),
    ("FVMFILE", "name:text header_addr:I"),
    ("DYSYMTAB", "ilocalsym:I nlocalsym:I iextdefsym:I nextdefsym:I iundefsym:I nundefsym:I tocoff:I ntoc:I modtaboff:I nmodtab:I extrefsymoff:I "
                 "nextrefsyms:I indirectsymoff:I nindirectsyms:I extreloff:I nextrel:I locreloff:I nlocrel:I"),
    ("LOAD_DYLIB ID_DYLIB LOAD_WEAK_DYLIB REEXPORT_DYLIB LAZY_LOAD_DYLIB LOAD_UPWARD_DYLIB", _LIBRARY),
    ("LOAD_DYLINKER ID_DYLINKER DYLD_ENVIRONMENT", "name:text"),
    ("PREBOUND_DYLIB", "name:text nmodules:I linked_modules_offset:I"),
    ("ROUTINES", _ROUTINES.format("I")),
    ("ROUTINES_64", _ROUTINES.format("Q")),
    ("SUB_FRAMEWORK", "umbrella:text"),
    ("SUB_UMBRELLA", "sub_umbrella:text"),
    ("SUB_CLIENT", "client:text"),
    ("SUB_LIBRARY", "sub_library:text"),
    ("TWOLEVEL_HINTS", "offset:I nhints:I"),
    ("PREBIND_CKSUM", "cksum:I"),
    ("UUID", "uuid:uuid"),
    ("RPATH", "path:text"),
    ("CODE_SIGNATURE SEGMENT_SPLIT_INFO FUNCTION_STARTS DATA_IN_CODE DYLIB_CODE_SIGN_DRS LINKER_OPTIMIZATION_HINT DYLD_EXPORTS_TRIE "
     "DYLD_CHAINED_FIXUPS ATOM_INFO FUNCTION_VARIANTS FUNCTION_VARIANT_FIXUPS", _DATA),
    ("ENCRYPTION_INFO", _CRYPT),
    ("ENCRYPTION_INFO_64", _CRYPT + " pad:I"),
    ("DYLD_INFO DYLD_INFO_ONLY", "rebase_off:I rebase_size:I bind_off:I bind_size:I weak_bind_off:I weak_bind_size:I lazy_bind_off:I lazy_bind_size:I "
                                 "export_off:I export_size:I"),
    ("VERSION_MIN_MACOSX VERSION_MIN_IPHONEOS VERSION_MIN_TVOS VERSION_MIN_WATCHOS", "version:I sdk:I"),
    ("MAIN", "entryoff:Q stacksize:Q"),
    ("SOURCE_VERSION", "version:Q"),
    ("LINKER_OPTION", "count:I"),
    ("NOTE", "data_owner:16s offset:Q size:Q"),
    ("BUILD_VERSION", "platform:I minos:I sdk:I ntools:I"),
    ("FILESET_ENTRY", "vmaddr:Q fileoff:Q entry_id:text reserved:I"),
    ("TARGET_TRIPLE", "triple:text"),
]

FIELDS: Dict[int, List[List[str]]] = {
    LoadCommand[name].value: [field.split(":") for field in fields.split()] for names, fields in RECORDS for name in names.split()
}
"""The fields of each command's record, each with its format."""


def name_in(raw: bytes) -> str:
    """Returns the text before the first zero byte. Bytes that aren't UTF-8 become surrogates."""
    return raw.split(b"\0", 1)[0].decode("utf-8", "surrogateescape")


def fields_of(cmd: int, data: memoryview) -> Dict[str, Any]:
    """Returns the fields of the record of a command with these bytes, as far as they hold them. The byte order is the one in which they
    begin with the command's number. A text that isn't in the command is None."""
    order = "<" if data[:4] == struct.pack("<I", cmd) else ">"
    found: Dict[str, Any] = {}
    place = 8
    for name, kind in FIELDS.get(cmd, []):
        unit = struct.Struct(order + {"text": "I", "uuid": "16s"}.get(kind, kind))
        if place + unit.size > len(data):
            break
        (value,) = unit.unpack_from(data, place)
        place += unit.size
        if kind == "text":
            found[name] = name_in(bytes(data[value:])) if value < len(data) else None
            found[name + "_offset"] = value
        else:
            found[name] = uuid.UUID(bytes=value) if kind == "uuid" else name_in(value) if kind == "16s" else value
    return found
