"""Finds libgoblin_mach.so, loads it, and declares what its calls take and return."""

from __future__ import annotations

import ctypes
import glob
import operator
import os
import sys
from ctypes import POINTER, c_bool, c_char_p, c_uint32, c_uint64, c_void_p
from typing import TYPE_CHECKING, Any, Dict, List, Sequence, Tuple, Union

from . import _structs as s
from .errors import Refused

if TYPE_CHECKING:
    from typing import SupportsIndex

FITS = (0, 3)
"""MAJOR and MINOR of the library versions that this package is written for; others may have other structs and calls."""

HERE = os.path.dirname(os.path.abspath(__file__))
NAME = {"darwin": "libgoblin_mach.dylib", "win32": "goblin_mach.dll"}.get(sys.platform, "libgoblin_mach.so")
SONAME = "libgoblin_mach.so.0.3"


def _in_folder(folder: str) -> List[str]:
    return sorted(glob.glob(os.path.join(glob.escape(folder), NAME + "*")))


def places() -> List[str]:
    """Returns the places where the library is searched, in order. If GOBLIN_MACH is set it names the only place. Otherwise the library is
    searched beside this file, as in a wheel that includes it. After that it is searched in build/lib and build of the repository that
    contains the package, and where the system's loader looks."""
    named = os.environ.get("GOBLIN_MACH")
    if named:
        return [named]
    top = os.path.dirname(os.path.dirname(HERE))
    is_checkout = os.path.exists(os.path.join(top, "python", "pyproject.toml"))
    built = [path for name in (os.path.join("build", "lib"), "build") for path in _in_folder(os.path.join(top, name))]
    return [*_in_folder(HERE), *(built if is_checkout else []), *([SONAME] if NAME.endswith(".so") else []), NAME]


def _open_first(paths: Sequence[str]) -> ctypes.CDLL:
    """Returns the first of these libraries that can be loaded."""
    why = []
    for path in paths:
        try:
            return ctypes.CDLL(path)
        except OSError as error:
            why.append(str(error))
    raise ImportError(f"{NAME} is not found: build it by ./tools/build-c, and name it in GOBLIN_MACH. Tried: " + "; ".join(why))


def _prototypes() -> Dict[str, Tuple[Any, List[Any]]]:
    """Returns what each call returns, and what it takes."""
    image, error, count = POINTER(s.gm_image), POINTER(s.gm_error), POINTER(c_uint64)
    held: List[Any] = [c_void_p, c_uint64]
    name: List[Any] = [c_char_p, c_uint64]
    by_number: List[Any] = [c_uint64, c_void_p, c_uint64]
    calls: Dict[str, Tuple[Any, List[Any]]] = {
        "gm_kind": (c_uint32, held),
        "gm_text": (c_uint64, [c_char_p, c_uint64, c_char_p, c_uint64]),
        "gm_open": (c_uint32, [*held, c_uint64, c_uint32, c_void_p, image, error]),
        "gm_fat_entries": (c_uint64, [*held, *by_number]),
        "gm_fat_entries64": (c_uint64, [*held, *by_number]),
        "gm_write_fat": (c_uint32, [*held, POINTER(s.gm_fat_part), c_uint64, c_uint32, c_void_p, c_uint64, count, c_void_p, error]),
        "gm_resolve": (c_uint32, [*held, POINTER(s.gm_given_file), c_uint64, c_void_p, c_uint64, c_void_p, c_uint64, POINTER(s.gm_resolution), c_void_p,
                                  error]),
        "gm_archive_kind": (c_uint32, [*held, POINTER(c_uint32), error]),
        "gm_archive_members": (c_uint64, [*held, *by_number]),
        "gm_archive_symbols": (c_uint64, [*held, *by_number]),
        "gm_archive_find": (c_uint32, [*held, c_char_p, c_uint64, POINTER(s.gm_archive_member), error]),
        "gm_archive_member_named": (c_uint32, [*held, c_char_p, c_uint64, POINTER(s.gm_archive_member), error]),
        "gm_command_fields": (c_uint64, [*held, image, POINTER(s.gm_command), *by_number]),
        "gm_sections": (c_uint64, [*held, image, c_uint64, c_uint32, *by_number]),
        "gm_relocations": (c_uint64, [*held, image, c_uint32, c_uint32, *by_number]),
        "gm_section_data": (c_uint32, [*held, c_uint32, c_uint64, c_uint32, POINTER(s.gm_span), error]),
        "gm_strings": (c_uint64, [*held, *by_number]),
        "gm_find_export": (c_uint32, [*held, image, c_char_p, c_uint64, POINTER(s.gm_export), c_void_p, c_uint64, c_void_p, c_uint64, c_void_p, error]),
        "gm_exports": (c_uint32, [*held, image, POINTER(s.gm_export_walk), POINTER(s.gm_export_room), POINTER(s.gm_export_batch), c_void_p, error]),
        "gm_exports_are_a_tree": (c_uint32, [*held, image, c_void_p, error]),
        "gm_slots": (c_uint32, [*held, image, *by_number, count, c_void_p, error]),
        "gm_initializers": (c_uint32, [*held, image, *by_number, count, c_void_p, error]),
        "gm_slot_at": (c_uint32, [*held, image, c_uint64, POINTER(s.gm_slot), c_void_p, error]),
        "gm_section_at": (c_uint32, [*held, image, c_uint64, POINTER(s.gm_found_section), c_void_p, error]),
        "gm_section_named": (c_uint32, [*held, image, *name, *name, POINTER(s.gm_found_section), c_void_p, error]),
        "gm_symbol_named": (c_uint32, [*held, image, *name, POINTER(s.gm_found_symbol), c_void_p, error]),
        "gm_symbols_named": (c_uint32, [*held, image, *name, *by_number, count, c_void_p, error]),
        "gm_symbol_at": (c_uint32, [*held, image, c_uint64, POINTER(s.gm_found_symbol), c_void_p, error]),
        "gm_symbol_map": (c_uint32, [*held, image, c_void_p, c_uint64, count, c_void_p, error]),
        "gm_symbol_in_map": (c_uint32, [*held, image, c_void_p, c_uint64, c_uint64, POINTER(s.gm_found_symbol), c_void_p, error]),
        "gm_function_at": (c_uint32, [*held, image, c_uint64, POINTER(s.gm_found_function), c_void_p, error]),
        "gm_segment_named": (c_bool, [*held, image, *name, POINTER(s.gm_segment)]),
        "gm_address_of_offset": (c_bool, [*held, image, c_uint64, POINTER(c_uint64)]),
        "gm_offset_of_address": (c_bool, [*held, image, c_uint64, POINTER(c_uint64)]),
        "gm_uuid": (c_bool, [*held, image, POINTER(s.gm_image_uuid)]),
        "gm_source_version": (c_bool, [*held, image, POINTER(c_uint64)]),
        "gm_encryption": (c_bool, [*held, image, POINTER(s.gm_encrypted_part)]),
        "gm_dylinker": (c_bool, [*held, image, POINTER(s.gm_command_text)]),
        "gm_section_of": (c_uint32, [*held, image, c_uint64, POINTER(s.gm_found_section), c_void_p, error]),
        "gm_symbol_provider": (None, [image, POINTER(s.gm_symbol), POINTER(s.gm_provider)]),
        "gm_layout_faults": (c_uint32, [*held, image, *by_number, count, c_void_p, error]),
        "gm_container_faults": (c_uint32, [*held, *by_number, count, c_void_p, error]),
        "gm_audit": (c_uint32, [*held, c_uint64, c_void_p, c_uint64, count, POINTER(c_uint32), c_void_p, error]),
        "gm_code_signature": (c_uint32, [*held, image, POINTER(s.gm_signature), c_void_p, error]),
        "gm_signature_faults": (c_uint32, [*held, image, *by_number, count, c_void_p, error]),
        "gm_is_as_signed": (c_uint32, [*held, image, POINTER(c_uint32), c_void_p, error]),
        "gm_entitlements_agree": (c_uint32, [*held, image, POINTER(c_uint32), c_void_p, error]),
        "gm_entitlement_items": (c_uint32, [*held, image, c_uint32, c_void_p, c_uint64, count, c_void_p, c_uint64, count, c_void_p, error]),
        "gm_requirement_text": (c_uint32, [*held, image, c_uint32, c_char_p, c_uint64, count, c_void_p, error]),
        "gm_security": (c_uint32, [*held, image, *by_number, count, c_void_p, error]),
        "gm_verdict_name": (c_char_p, [c_uint32]),
        "gm_cpu_name": (c_char_p, [c_uint32, c_uint32]),
        "gm_signature_kind": (c_char_p, [c_uint32]),
        "gm_layout_rule": (c_char_p, [c_uint32]),
        "gm_layout_part": (c_char_p, [c_uint32]),
        "gm_finding_kind": (c_char_p, [c_uint32]),
        "gm_finding_list": (c_char_p, [c_uint32]),
    }
    for call in ("commands", "segments", "all_sections", "symbols", "libraries", "run_paths", "ids", "data_in_code", "indirect_symbols",
                 "linker_options", "build_tools", "build_versions", "dyld_environment", "fileset_entries", "notes"):
        calls["gm_" + call] = c_uint64, [*held, image, *by_number]
    for call, cursor in (("fixups", s.gm_fixup_cursor), ("opcode_imports", s.gm_bind_cursor), ("bindings", s.gm_binding_cursor),
                         ("weak_binds", s.gm_bind_cursor), ("rebases", s.gm_rebase_cursor), ("function_starts", s.gm_start_cursor)):
        calls["gm_" + call] = c_uint32, [*held, image, POINTER(cursor), c_void_p, c_uint64, count, c_void_p, error]
    return calls


def version_of(found: ctypes.CDLL) -> Tuple[int, int, int]:
    """Returns the version of a library."""
    found.gm_version_number.restype = c_uint32
    number = int(found.gm_version_number())
    return number // 1000000, number // 1000 % 1000, number % 1000


def load(paths: Sequence[str]) -> ctypes.CDLL:
    """Returns the library, loaded from the first of these places that has it. Raises ImportError if none has it, if its version is
    another one, or if it lacks a call."""
    found = _open_first(paths)
    try:
        version = version_of(found)
        if version[:2] != FITS:
            raise ImportError(f"{found._name} is of version {'.'.join(map(str, version))}, and this package for {FITS[0]}.{FITS[1]}")
        for name, (answer, taken) in _prototypes().items():
            call = getattr(found, name)
            call.restype, call.argtypes = answer, taken
    except AttributeError as error:
        raise ImportError(f"{found._name} lacks a call: {error}") from None
    return found


lib = load(places())


def refused(error: s.gm_error) -> Refused:
    """Returns the error for a refusal, with the library's text."""
    return Refused(error.code, error.text.decode("utf-8", "replace"))


def bits64(number: SupportsIndex, bits: int = 64) -> int:
    """Returns a number as C takes it. What is no whole number, such as a float, raises TypeError. A number of more bits would be cut, and
    raises ValueError."""
    found = operator.index(number)
    if not 0 <= found < 1 << bits:
        raise ValueError(f"{found:#x} is no number of {bits} bits")
    return found


def escaped(name: Union[str, bytes]) -> str:
    """Returns a name as the programs print it. It can't forge output, and fits on a line. A backslash is there twice. Each byte of a
    character that shows nothing (of control, of the direction of text and the like), and of what isn't UTF-8 is \\xNN."""
    if isinstance(name, str) and name.isascii() and name.isprintable() and "\\" not in name:
        return name
    raw = name.encode("utf-8", "surrogateescape") if isinstance(name, str) else name
    room = ctypes.create_string_buffer(4 * len(raw) + 1)
    lib.gm_text(ctypes.cast(room, c_char_p), len(room), raw, len(raw))
    return room.value.decode()
