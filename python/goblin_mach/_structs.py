"""The structs of c/include/goblin_mach.h, with its names. A test compares the offset and the size of each field with those that the
header asserts."""

from __future__ import annotations

import ctypes
import struct
from ctypes import c_char, c_int32, c_int64, c_uint8, c_uint16, c_uint32, c_uint64, c_void_p
from typing import Any, List, Tuple, Type

Fields = List[Tuple[str, Any]]


def _fields(kind: Any, names: str) -> Fields:
    return [(name, kind) for name in names.split()]


def _u32(names: str) -> Fields:
    return _fields(c_uint32, names)


def _u64(names: str) -> Fields:
    return _fields(c_uint64, names)


class gm_error(ctypes.Structure):
    _fields_ = [("code", c_uint32), ("text", c_char * 124)]


class gm_image(ctypes.Structure):
    _fields_ = (
        _u64("offset entry base first_command commands segments libraries run_paths symbols symbols_at names_at")
        + _u32("magic cputype cpusubtype filetype flags is_lossy is_old_style_entry is_little_endian is_64 reserved")
    )


class gm_fat_entry(ctypes.Structure):
    _fields_ = _u32("cputype cpusubtype offset size align code")


class gm_fat_entry64(ctypes.Structure):
    _fields_ = _u64("offset size") + _u32("cputype cpusubtype align code")


class gm_fat_part(ctypes.Structure):
    _fields_ = _u64("offset len") + _u32("cputype cpusubtype align reserved")


class gm_given_file(ctypes.Structure):
    _fields_ = _u64("offset len path path_len")


class gm_answer(ctypes.Structure):
    _fields_ = _u64("address file library") + _u32("provider place is_absolute is_weak is_settled reserved")


class gm_unused_file(ctypes.Structure):
    _fields_ = _u64("file") + _u32("why cputype")


class gm_resolution(ctypes.Structure):
    _fields_ = _u64("answers unused all_unused file") + _u32("more is_settled")


class gm_archive_member(ctypes.Structure):
    _fields_ = _u64("date uid gid mode header data data_len name name_len") + _u32("name_code code")


class gm_archive_symbol(ctypes.Structure):
    _fields_ = _u64("member name name_len") + _u32("code reserved")


class gm_command(ctypes.Structure):
    _fields_ = _u64("offset size") + _u32("cmd reserved")


class gm_command_field(ctypes.Structure):
    _fields_ = [("name", c_char * 24)] + _u64("number place len") + _u32("kind width has_bytes reserved")


class gm_segment(ctypes.Structure):
    _fields_ = [("name", c_uint8 * 16)] + _u64("vmaddr vmsize fileoff filesize command data_len") + _u32("maxprot initprot sections flags")


class gm_section(ctypes.Structure):
    _fields_ = (
        [("name", c_uint8 * 16), ("segment", c_uint8 * 16)]
        + _u64("addr size data_len")
        + _u32("offset align reloff nreloc flags code")
    )


class gm_numbered_section(ctypes.Structure):
    _fields_ = [("section", gm_section)] + _u64("command number") + _u32("index reserved")


class gm_relocation(ctypes.Structure):
    _fields_ = [("address", c_int32), ("info", c_uint32), ("code", c_uint32)]


class gm_symbol(ctypes.Structure):
    _fields_ = _u64("value name name_len section") + [("code", c_uint32), ("desc", c_uint16), ("n_type", c_uint8), ("reserved", c_uint8)]


class gm_library(ctypes.Structure):
    _fields_ = _u64("name name_len") + _u32("kind timestamp current_version compatibility_version attributes reserved")


class gm_run_path(ctypes.Structure):
    _fields_ = _u64("path path_len")


class gm_id(ctypes.Structure):
    _fields_ = _u64("name name_len")


class gm_function_start(ctypes.Structure):
    _fields_ = _u64("address") + _u32("code reserved")


class gm_start_cursor(ctypes.Structure):
    _fields_ = _u64("place address") + _u32("stage reserved")


class gm_data_in_code_entry(ctypes.Structure):
    _fields_ = [("offset", c_uint32), ("length", c_uint16), ("kind", c_uint16), ("code", c_uint32)]


class gm_indirect_symbol(ctypes.Structure):
    _fields_ = _u32("kind symbol code")


class gm_linker_option(ctypes.Structure):
    _fields_ = _u64("command text text_len") + _u32("code reserved")


class gm_build_tool(ctypes.Structure):
    _fields_ = _u64("command") + _u32("tool version code reserved")


class gm_build_version(ctypes.Structure):
    _fields_ = _u64("command") + _u32("platform minos sdk reserved")


class gm_image_uuid(ctypes.Structure):
    _fields_ = [("bytes", c_uint8 * 16)]


class gm_encrypted_part(ctypes.Structure):
    _fields_ = _u32("offset size id")


class gm_command_text(ctypes.Structure):
    _fields_ = _u64("command text text_len") + _u32("code reserved")


class gm_fileset_entry(ctypes.Structure):
    _fields_ = _u64("address offset name name_len") + _u32("code reserved")


class gm_note(ctypes.Structure):
    _fields_ = _u64("command owner owner_len place size") + _u32("code reserved")


class gm_slot(ctypes.Structure):
    _fields_ = _u64("address len segment name name_len") + _u32("section_index kind index owner symbol code")


class gm_initializer(ctypes.Structure):
    _fields_ = _u64("slot target segment") + _u32("section_index code")


class gm_span(ctypes.Structure):
    _fields_ = _u64("place len")


class gm_provider(ctypes.Structure):
    _fields_ = _u64("library") + _u32("provider is_reported code reserved")


class gm_found_section(ctypes.Structure):
    _fields_ = (
        [("name", c_uint8 * 16), ("segment_name", c_uint8 * 16)]
        + _u64("addr size segment number")
        + _u32("index offset align reloff nreloc flags reserved1 reserved2 is_found reserved")
    )


class gm_found_symbol(ctypes.Structure):
    _fields_ = [("symbol", gm_symbol)] + _u64("index distance") + _u32("is_found reserved")


class gm_found_function(ctypes.Structure):
    _fields_ = _u64("start end") + _u32("is_found reserved")


class gm_export(ctypes.Structure):
    _fields_ = _u64("address offset resolver flags library_len target_len") + _u32("kind reserved")


class gm_open_node(ctypes.Structure):
    _fields_ = _u64("left place name_len")


class gm_export_walk(ctypes.Structure):
    _fields_ = _u64("phase visits_left name_len depth node") + [("top", gm_open_node)] + _u32("is_begun code")


class gm_listed_export(ctypes.Structure):
    _fields_ = _u64("name name_len library target") + [("what", gm_export)]


class gm_export_room(ctypes.Structure):
    _fields_ = [("name", c_void_p), ("name_cap", c_uint64), ("stack", c_void_p), ("stack_cap", c_uint64),
                ("out", c_void_p), ("cap", c_uint64), ("names", c_void_p), ("names_cap", c_uint64)]


class gm_export_batch(ctypes.Structure):
    _fields_ = _u64("count names_len needed") + _u32("end reserved")


class gm_fixup(ctypes.Structure):
    _fields_ = (
        _u64("address offset target")
        + _u32("segment kind import")
        + [("addend", c_int32)]
        + _u32("is_signed key diversity is_address_diverse code reserved")
    )


class gm_fixup_cursor(ctypes.Structure):
    _fields_ = [("chains", c_uint64 * 4), ("stage", c_uint32), ("reserved", c_uint32)]


class gm_import(ctypes.Structure):
    _fields_ = (
        _u64("address offset")
        + [("addend", c_int64)]
        + _u64("start_of_sequence_offset")
        + _u64("name name_len library size")
        + _u32("is_weak is_lazy code reserved")
    )


class gm_bind_cursor(ctypes.Structure):
    _fields_ = [("binds", c_uint64 * 12), ("stage", c_uint32), ("reserved", c_uint32)]


class gm_binding(ctypes.Structure):
    _fields_ = (
        _u64("address offset")
        + [("addend", c_int64)]
        + _u64("name name_len library")
        + _u32("provider is_weak is_lazy code")
    )


class gm_binding_cursor(ctypes.Structure):
    _fields_ = [("opcodes", gm_bind_cursor), ("chains", gm_fixup_cursor)]


class gm_weak_bind(ctypes.Structure):
    _fields_ = (
        _u64("address offset")
        + [("addend", c_int64)]
        + _u64("name name_len")
        + _u32("is_strong is_weak code reserved")
    )


class gm_rebase(ctypes.Structure):
    _fields_ = _u64("address offset target") + _u32("segment kind is_signed key diversity is_address_diverse code reserved")


class gm_rebase_cursor(ctypes.Structure):
    _fields_ = [("opcodes", gm_bind_cursor), ("chains", gm_fixup_cursor)]


class gm_layout_fault(ctypes.Structure):
    _fields_ = _u64("found limit command index other_command other_index") + _u32("rule part other_part reserved")


class gm_signature(ctypes.Structure):
    _fields_ = (
        _u64("limit pages identifier identifier_len team team_len entitlements entitlements_len")
        + _u32("version flags hash_type page_size identifier_code team_code entitlements_code is_signed")
        + [("cdhash", c_uint8 * 20), ("reserved", c_uint32)]
    )


class gm_signature_fault(ctypes.Structure):
    _fields_ = _u64("found limit") + _u32("kind slot index code")


class gm_entitlement_item(ctypes.Structure):
    _fields_ = _u64("key key_len text text_len number") + _u32("kind depth")


class gm_finding(ctypes.Structure):
    _fields_ = (
        _u64("entry member segment section index count") + _u32("kind list")
        + [("layout", gm_layout_fault), ("signature", gm_signature_fault), ("error", gm_error)]
    )


class gm_verdict(ctypes.Structure):
    _fields_ = _u32("verdict holds code")


def _codes(kind: Any) -> str:
    """Returns the format of the fields of a type, one after the other, for the module `struct`."""
    if issubclass(kind, ctypes.Structure):
        return "".join(_codes(field[1]) for field in kind._fields_)
    if issubclass(kind, ctypes.Array):
        return f"{kind._length_}s"
    return str(kind._type_)


def code_unpacker(row: Type[ctypes.Structure]) -> struct.Struct:
    """Returns the `Struct` that unpacks rows of this type from bytes, each as its `code` alone."""
    place, size = _place_of_code(row), ctypes.sizeof(row)
    return struct.Struct(f"={place}xI{size - place - 4}x")


def _place_of_code(row: Any) -> int:
    """Returns the offset of the field `code` in a row, or in the row that it begins with."""
    return int(row.code.offset) if hasattr(row, "code") else _place_of_code(row._fields_[0][1])


def unpacker(row: Type[ctypes.Structure]) -> struct.Struct:
    """Returns the `Struct` that unpacks rows of this type from bytes, each as a tuple of its fields. It is many times as fast as
    ctypes."""
    end = {4: "0I", 8: "0Q"}[ctypes.alignment(row)]
    made = struct.Struct("@" + _codes(row) + end)
    if made.size != ctypes.sizeof(row):
        raise ImportError(f"{row.__name__} has {ctypes.sizeof(row)} bytes here, and its fields {made.size}")
    return made
