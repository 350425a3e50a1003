"""What the command `goblin-mach` shows of an image: for each word its facts and its tables."""

from __future__ import annotations

import ctypes
from functools import lru_cache
from itertools import islice
from typing import Any, Callable, Dict, Iterable, Iterator, List, NamedTuple, Optional, Tuple

from . import _exports, _lists
from . import _structs as s
from ._library import escaped
from ._memory import text
from ._rows import Kind, Rows, in_growing_batches, rows_behind
from .errors import Refused
from .image import Image
from .items import Export, Section, Symbol
from .pointers import Binding, Rebase, WeakBind


def _flags(**named: bool) -> str:
    return ",".join(name for name, is_set in named.items() if is_set) or "-"


class Table(NamedTuple):
    """A list: its items, the form of a line, the headings, and what makes the cells of an item."""

    items: Callable[[Image], Iterable[Any]]
    form: str
    headings: Tuple[str, ...]
    cells: Callable[[Image], Callable[[Any], Tuple[object, ...]]]


def _of_symbol(image: Image) -> Callable[[Symbol], Tuple[object, ...]]:
    return lambda s: (hex(s.value), s.section or "-", (s.stab or s.type).name, _flags(external=s.is_external and not s.stab), escaped(s.name))


def _of_export(image: Image) -> Callable[[Export], Tuple[object, ...]]:
    return lambda e: ("-" if e.address is None else hex(e.address), e.kind, escaped(e.name),
                      f"from {escaped(e.library)}: {escaped(e.target or '')}" if e.library is not None else "")


def _of_binding(image: Image) -> Callable[[Binding], Tuple[object, ...]]:
    count, library = len(image.libraries()), image._library_names()

    @lru_cache(maxsize=None)
    def name_of(ordinal: int) -> str:
        # (no more of each name is kept, since many names may run on to one far end)
        return escaped(library(ordinal)[:200])

    return lambda b: (hex(b.address), b.addend, _flags(weak=b.is_weak, lazy=b.is_lazy), escaped(b.name),
                      "from " + (name_of(b.library) if b.provider == "library" and 0 < b.library <= count else b.provider))


def _of_rebase(image: Image) -> Callable[[Rebase], Tuple[object, ...]]:
    return lambda r: (hex(r.address), r.kind, hex(r.target))


def _of_weak_bind(image: Image) -> Callable[[WeakBind], Tuple[object, ...]]:
    return lambda w: ("-" if w.is_strong else hex(w.address), w.addend, _flags(strong=w.is_strong), escaped(w.name))


def _of_section(image: Image) -> Callable[[Section], Tuple[object, ...]]:
    return lambda s: (hex(s.addr), hex(s.size), hex(s.offset), s.type.name, f"{escaped(s.segment)},{escaped(s.name)}")


def _of_fault(image: Image) -> Callable[[Any], Tuple[object, ...]]:
    return lambda fault: (fault["part"], escaped(fault["fault"]))


def _first_fault(image: Image, errors: Callable[[], Iterator[Optional[str]]]) -> Optional[str]:
    """Returns the `error` of the first item of a list that has one, or why the list ends; None without either. Reads no more items than
    the image has bytes."""
    try:
        return next(filter(None, islice(errors(), len(image.data))), None)
    except Refused as why:
        return str(why)


def _list_errors(image: Image) -> Dict[str, Callable[[], Iterator[Optional[str]]]]:
    """Returns a function for each list that may have items which can't be read, by its name. It gives the `error` of each item. A list
    of records ends with the bytes."""
    live, pointer = image._live, image._pointer

    def after(kind: Kind[Any], cursor: ctypes.Structure) -> Iterator[Optional[str]]:
        return rows_behind(kind.errors(), live, pointer, cursor)

    return {
        "symbols": lambda: image.symbols().in_bounds().errors(),
        "sections": lambda: image.sections().errors(),
        "exports": lambda: _exports.errors(live, pointer),
        "imports": lambda: after(_lists.BINDINGS_BEHIND, s.gm_binding_cursor()),
        "weak binds": lambda: after(_lists.WEAK_BINDS_BEHIND, s.gm_bind_cursor()),
        "rebases": lambda: after(_lists.REBASES_BEHIND, s.gm_rebase_cursor()),
        "fixups": lambda: after(_lists.FIXUPS_BEHIND, s.gm_fixup_cursor()),
        "function starts": lambda: after(_lists.FUNCTION_STARTS_BEHIND, s.gm_start_cursor()),
        "data in code": lambda: image.data_in_code().in_bounds().errors(),
        "indirect symbols": lambda: image.indirect_symbols().in_bounds().errors(),
        "slots": lambda: in_growing_batches(_lists.SLOTS_BY_NUMBER.errors(), live, (pointer,)),
        "initializers": lambda: in_growing_batches(_lists.INITIALIZERS.errors(), live, (pointer,)),
        "linker options": lambda: image.linker_options().errors(),
        "build tools": lambda: image.build_tools().errors(),
        "notes": lambda: image.notes().errors(),
    }


def faults(image: Image) -> Iterator[Dict[str, str]]:
    """Yields what is wrong with an image: its layout, what doesn't match its signature, and the first fault of each list."""
    for name, found in (("layout", image.layout_faults()), ("signature", image.signature_faults())):
        try:
            for fault in islice(found, len(image.data)):
                yield {"part": name, "fault": str(fault)}
        except Refused as why:
            yield {"part": name, "fault": str(why)}
    for name, errors in _list_errors(image).items():
        words = _first_fault(image, errors)
        if words is not None:
            yield {"part": name, "fault": words}


TABLES: Dict[str, Table] = {
    "symbols": Table(lambda image: image.symbols().in_bounds(), "{:>18} {:>7} {:<8} {:<8} {}", ("value", "section", "type", "flags", "name"), _of_symbol),
    "exports": Table(Image.exports, "{:>18} {:<9} {} {}", ("address", "kind", "name", ""), _of_export),
    "imports": Table(Image.imports, "{:>18} {:>6} {:<9} {} {}", ("address", "addend", "flags", "name", ""), _of_binding),
    "rebases": Table(Image.rebases, "{:>18} {:<10} {}", ("address", "kind", "target"), _of_rebase),
    "weak_binds": Table(Image.weak_binds, "{:>18} {:>6} {:<9} {}", ("address", "addend", "flags", "name"), _of_weak_bind),
    "sections": Table(Image.sections, "{:>18} {:>10} {:>10} {:<24} {}", ("address", "size", "offset", "type", "name"), _of_section),
    "faults": Table(faults, "{:<16} {}", ("part", "fault"), _of_fault),
    "signature_faults": Table(Image.signature_faults, "{}", ("fault",), lambda image: lambda fault: (fault,)),
}


PAST_END: Dict[str, Callable[[Image], int]] = {
    "symbols": lambda image: len(image.symbols()) - len(image.symbols().in_bounds()),
    "sections": lambda image: sum(each.nsects - len(image.sections(each).in_bounds()) for each in image.segments()),
}
"""For a table that shows the records within the bytes, how many more the file claims."""


def _names(image: Image, rows: Rows[Tuple[Any, ...]]) -> Iterator[str]:
    """Yields the names in rows that begin with the place and the length of one. Stops if they have more letters than the image has bytes,
    and then yields how many names there are. Many names may run on to one far end."""
    left = len(image.data)
    for place, size, *_ in rows:
        name = text(image.data[place:place + size])
        left -= len(name)
        if left < 0:
            yield f"({len(rows)} in all)"
            return
        yield name


def _info(image: Image) -> Dict[str, Any]:
    """Returns what an image is."""
    return {
        "arch": image.arch, "file_type": image.file_type.name, "header_flags": " ".join(image.header_flags.names) or None,
        "uuid": image.uuid, "platform": None if image.platform is None else image.platform.name, "minos": image.minos, "sdk": image.sdk,
        "tools": [f"{tool.build_tool.name} {tool.version_text}" for tool in image.tools], "source_version": image.source_version,
        "is_encrypted": None if image.encryption is None else "yes" if image.encryption.is_encrypted else "no", "dylinker": image.dylinker,
        "name": image.name, "entry": hex(image.entry) if image.entry else None, "load_commands": len(image.commands()),
        "symbol_count": len(image.symbols()), "libraries": list(_names(image, image._library_rows())),
        "run_paths": list(_names(image, image._run_path_rows())),
    }


def _signature(image: Image) -> Dict[str, Any]:
    """Returns how an image is signed."""
    found = image.signature
    if found is None:
        return {"is_signed": "no"}
    texts = {name: getattr(found, name) if name not in found.errors else f"({found.errors[name]})" for name in ("identifier", "team")}
    return {"is_signed": "yes", **texts, "signature_flags": " ".join(found.signature_flags.names) or None, "hash": found.hash_kind.name,
            "cdhash": found.cdhash.hex(), "entitlements": None if found.entitlements is None else found.entitlements.decode("utf-8", "surrogateescape"),
            "is_as_signed": "yes" if found.is_as_signed() else "no"}


FACTS: Dict[str, Callable[[Image], Dict[str, Any]]] = {"info": _info, "signature": _signature}
"""For each word that has some, the facts of an image by their labels."""


class Word(NamedTuple):
    """A word of the command: what it is about, and its tables."""

    about: str
    tables: List[str]


WORDS: Dict[str, Word] = {
    "info": Word("what each image is, and its libraries", []),
    "symbols": Word("the symbol table", ["symbols"]),
    "exports": Word("what other images may use", ["exports"]),
    "imports": Word("what dyld binds, and where it is from", ["imports"]),
    "fixups": Word("all that dyld changes: rebases, imports and weak binds", ["rebases", "imports", "weak_binds"]),
    "sections": Word("the sections of all segments", ["sections"]),
    "signature": Word("the code signature, and what differs from what was signed", ["signature_faults"]),
    "audit": Word("what is wrong with an image; the status is 1 if something is", ["faults"]),
}
