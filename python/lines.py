"""`python3 python/lines.py FOLDER FILE WORD..` writes lists of each image of a file, in the lines of c/gm_test.c. c/check compares the two.
The lines of a WORD go to the file of that name in FOLDER."""

from __future__ import annotations

import os
import sys
from itertools import islice
from typing import Callable, Dict, Iterator, List, Optional

import goblin_mach
from goblin_mach import File, Image, Refused
from goblin_mach.errors import code_of


def _commands(image: Image) -> Iterator[str]:
    for c in image.commands():
        yield f"0x{c.offset:x} {c.cmd:x} size: {c.size}"


def _segments(image: Image) -> Iterator[str]:
    for s in image.segments():
        yield (f"{s.name} {s.vmaddr:x} {s.vmsize:x} {s.fileoff:x} {s.filesize:x} {s.command} {len(s.data)} "
               f"{s.maxprot:x} {s.initprot:x} {s.nsects} {s.flags:x}")


def _symbols(image: Image) -> Iterator[str]:
    for s in image.symbols().in_bounds():
        yield f"{s.value:0{16 if image.is_64 else 8}x} {s.n_type:x} {s.section} {s.desc:x} {code_of(s.error)} {s.name}"


def _libraries(image: Image) -> Iterator[str]:
    for library in image.libraries():
        used = library.is_weak + 2 * library.is_reexport + 4 * library.is_upward + 8 * library.is_delayed
        yield (f"{goblin_mach.KINDS.index(library.kind)} {library.timestamp} {library.current_version:x} {library.compatibility_version:x} {used} "
               f"{library.name}")


def _function_starts(image: Image) -> Iterator[str]:
    for f in image.function_starts():
        yield f"{f.address:x} {code_of(f.error)}"


def _data_in_code(image: Image) -> Iterator[str]:
    for d in image.data_in_code().in_bounds():
        yield f"{d.offset:x} {d.length} {d.kind} {code_of(d.error)}"


def _indirect_symbols(image: Image) -> Iterator[str]:
    for i in image.indirect_symbols().in_bounds():
        yield f"{goblin_mach.INDIRECT.index(i.kind)} {i.symbol or 0} {code_of(i.error)}"


def _slots(image: Image) -> Iterator[str]:
    for s in image.symbol_slots():
        yield (f"{s.address:x} {s.len} {s.segment} {s.section_index} {goblin_mach.SLOTS.index(s.kind)} {s.index} {goblin_mach.INDIRECT.index(s.owner)} "
               f"{s.symbol or 0} {code_of(s.error)} {s.name or ''}")


def _initializers(image: Image) -> Iterator[str]:
    for i in image.initializers():
        yield f"{i.slot:x} {i.target:x} {i.segment} {i.section_index} {code_of(i.error)}"


def _linker_options(image: Image) -> Iterator[str]:
    for o in image.linker_options():
        yield f"{o.command:x} {code_of(o.error)} {o.text}"


def _build_tools(image: Image) -> Iterator[str]:
    for t in image.build_tools():
        yield f"{t.command:x} {t.tool} {t.version:x} {code_of(t.error)}"


def _notes(image: Image) -> Iterator[str]:
    for n in image.notes():
        yield f"{n.command:x} {len(n.data)} {code_of(n.error)} {n.owner}"


def _fixups(image: Image) -> Iterator[str]:
    for f in image.fixups():
        yield (f"{f.address:x} {f.offset:x} {f.target:x} {f.segment} {goblin_mach.FIXUPS.index(f.kind)} {f.import_number} {f.addend} "
               f"{int(f.is_signed)} {f.key} {f.diversity} {int(f.is_address_diverse)} {code_of(f.error)}")


def _exports(image: Image) -> Iterator[str]:
    for e in image.exports():
        yield f"0x{e.offset if e.kind == goblin_mach.EXPORTS[1] else 0:x} {e.name}"


def _opcode_imports(image: Image) -> Iterator[str]:
    names = ["self"] + [library.name for library in image.libraries()]
    for i in image.opcode_imports():
        yield (f"{code_of(i.error)} {i.library} {i.offset:x} {i.addend} {i.start_of_sequence_offset:x} {i.size} {int(i.is_weak)} {int(i.is_lazy)} "
               f"0x{i.address:x} {names[i.library]} {i.name}")


def _bindings(image: Image) -> Iterator[str]:
    for b in image.imports():
        yield (f"{code_of(b.error)} {goblin_mach.PROVIDERS.index(b.provider)} {b.library} {b.offset:x} {b.addend} {int(b.is_weak)} {int(b.is_lazy)} "
               f"0x{b.address:x} {b.name}")


def _weak_binds(image: Image) -> Iterator[str]:
    for w in image.weak_binds():
        yield f"{code_of(w.error)} {int(w.is_strong)} {w.offset:x} {w.addend} {int(w.is_weak)} 0x{w.address:x} {w.name}"


def _rebases(image: Image) -> Iterator[str]:
    for r in image.rebases():
        yield (f"{r.address:x} {r.offset:x} {r.target:x} {r.segment} {goblin_mach.REBASES.index(r.kind)} {int(r.is_signed)} {r.key} {r.diversity} "
               f"{int(r.is_address_diverse)} {code_of(r.error)}")


def _signature(image: Image) -> Iterator[str]:
    found = image.signature
    if found is not None:
        codes = " ".join(str(code_of(found.errors.get(name))) for name in ("identifier", "team", "entitlements"))
        power = found.page_size.bit_length() - 1 if found.page_size else 0
        yield (f"{found.version:x} {found.flags:x} {found.hash_type} {power} {found.limit:x} {found.pages} {codes} {len(found.entitlements or b'')} "
               f"{found.cdhash.hex()} {found.identifier or ''} {found.team or ''}")


def _signature_faults(image: Image) -> Iterator[str]:
    for f in image.signature_faults():
        yield f"{f.kind} {f.slot:x} {f.number} {f.found:x} {f.limit:x} {code_of(f.error)}"


def _security(image: Image) -> Iterator[str]:
    for name, holds in image.security().items():
        yield f"{name} {int(bool(holds))} {'?' if holds is None else 0}"


def _layout(image: Image) -> Iterator[str]:
    for fault in image.layout_faults():
        yield str(fault)


LINES: Dict[str, Callable[[Image], Iterator[str]]] = {
    "commands": _commands,
    "segments": _segments,
    "symbols": _symbols,
    "libraries": _libraries,
    "run_paths": lambda image: iter(image.run_paths()),
    "ids": lambda image: iter(image.ids()),
    "function_starts": _function_starts,
    "data_in_code": _data_in_code,
    "indirect_symbols": _indirect_symbols,
    "slots": _slots,
    "initializers": _initializers,
    "linker_options": _linker_options,
    "build_tools": _build_tools,
    "notes": _notes,
    "fixups": _fixups,
    "exports": _exports,
    "opcode_imports": _opcode_imports,
    "bindings": _bindings,
    "weak_binds": _weak_binds,
    "rebases": _rebases,
    "layout": _layout,
    "signature": _signature,
    "signature_faults": _signature_faults,
    "security": _security,
}
"""For each word, what is printed for an image."""

def _told(*numbers: Optional[int]) -> str:
    return " ".join("-1" if number is None else str(number) for number in numbers)


def _members(file: File) -> Iterator[str]:
    for _, archive in file.archives():
        for m in archive.members():
            yield f"{m.offset} {m.start} {m.data.nbytes} {_told(m.date, m.uid, m.gid, m.mode)} {code_of(m.name_error)} {code_of(m.error)} {m.name or ''}"


def _archive_symbols(file: File) -> Iterator[str]:
    for _, archive in file.archives():
        for symbol in archive.symbols():
            yield f"{symbol.member} {code_of(symbol.error)} {symbol.name}"


def _entries(file: File) -> Iterator[str]:
    for e in goblin_mach.fat_entries(file._whole()):
        yield f"{e.cputype:x} {e.cpusubtype:x} {e.offset} {e.size} {e.align} {goblin_mach.ErrorCode.SHORT if e.error else 0:d}"


WHOLE: Dict[str, Callable[[File], Iterator[str]]] = {"members": _members, "archive_symbols": _archive_symbols, "entries": _entries}
"""For each word, what is printed for a file."""


def _lines_of(file: File, word: str) -> Iterator[str]:
    """Yields the lines of a list, of each image that has it."""
    if word in WHOLE:
        yield from WHOLE[word](file)
        return
    if word == "layout":
        yield from map(str, file.container_faults())
    for image in file:
        try:
            yield from islice(LINES[word](image), len(image.data))
        except Refused as why:
            print(why, file=sys.stderr)


def main(words: List[str]) -> None:
    """Writes the lists of a file."""
    folder, path, *lists = words
    with goblin_mach.open(path) as file:
        for word in lists:
            with open(os.path.join(folder, word), "w", encoding="utf-8", errors="surrogateescape") as out:
                out.writelines(f"{line}\n" for line in _lines_of(file, word))


if __name__ == "__main__":
    main(sys.argv[1:])
