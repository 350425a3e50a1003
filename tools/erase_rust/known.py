"""What the tool knows of Rattle and of its standard library. A name that is neither here nor defined in the project stops it."""

# Words of Rust for which there is no rule.
REFUSED_WORDS = {"async", "await", "dyn", "extern", "macro_rules", "static", "union", "yield"}

ERASED_ATTRIBUTES = {"cycle", "tactic"}
KEPT_ATTRIBUTES = {"allow", "cfg", "cold", "default", "inline", "must_use", "non_exhaustive", "repr", "test"}

# Macros that mean the same in Rust. (`vec!` and `prove!` have rules of their own.)
MACROS = {"matches", "unreachable", "write", "vec", "prove"}

# Methods of std that mean the same in Rust.
METHODS = set("""
    all as_bytes as_mut as_mut_slice as_ref as_str cast_signed cast_unsigned chars checked_add checked_div checked_mul checked_sub clone contains
    contains_key copied copy_from_slice debug_struct debug_tuple div_ceil encode_utf8 enumerate err field filter filter_map finish get get_index_of into is_ascii_digit
    is_char_boundary is_empty is_err is_none is_ok is_some iter len map max min next ok or partition_point pop position push push_reserved rotate_left
    rotate_right saturating_add saturating_mul saturating_sub simd_eq simd_ge sort_unstable sort_unstable_by_key split_at split_first starts_with
    strip_prefix strip_suffix to_be_bytes to_bitmask trailing_zeros trim_ascii truncate try_into unsigned_abs unwrap unwrap_or wrapping_add wrapping_mul
    write_str
""".split())

# Types of std, and their functions that mean the same in Rust.
TYPES = {"Vec", "String", "Box", "Ordering", "Range", "Option", "Result", "str", "char", "bool", "BTreeMap"}
TYPES |= {sign + bits for sign in "iu" for bits in ("8", "16", "32", "64", "128", "size")}
FUNCTIONS = {"MAX", "from_be_bytes", "from_u32", "from_utf8", "from_utf8_unchecked"}

# Where paths of std lead in Rust, by the longest beginning that is here. A path that leads to None is erased.
SHIM = "crate::shim"
PATHS = {
    **{"std::" + path: "core::" + path for path in ("fmt", "hash::BuildHasherDefault", "marker::PhantomData", "mem", "ops::Range", "result::Result", "slice::Iter")},
    **{"std::" + path: SHIM + "::" + path.split("::")[-1] for path in ("alloc::AllocError", "collections::BTreeMap", "convert::AsSlice", "simd")},
    "std::hash::FoldHasher": SHIM + "::indexmap::FoldHasher",
    **{path: SHIM + "::" + path for path in ("arrayvec", "byteorder", "indexmap", "memchr")},
    **dict.fromkeys(("std::alloc::AllocFailed", "std::alloc::Allocator", "std::alloc::Global", "std::marker::Model")),
}

# Traits of std whose names a file may import for their methods alone.
TRAITS = {"AsSlice", "ByteOrder", "Write"}

# What Rust's prelude has with std, and doesn't have with alloc.
PRELUDE = {"Box": "alloc::boxed::Box", "String": "alloc::string::String", "Vec": "alloc::vec::Vec"}

# Methods that may be refused memory, by their traits in the shim. The name there is `try_` and the name here, except for those in RENAMED.
REFUSABLE = {
    "TryGrow": "append extend_from_slice insert push reserve resize", "TryList": "collect", "TrySort": "sort_by_cached_key sort_by_key",
    "TryShow": "to_string", "TryText": "push_str",
}
TRAIT_OF = {method: trait for trait, methods in REFUSABLE.items() for method in methods.split()}
RENAMED = {"collect": "try_list", "reserve": "try_room"}
# Functions that may be refused memory, and the name in the shim that replaces the name of the type.
MAKERS = {("String", "from_str"): "TryString", ("Vec", "with_capacity"): "TryVec"}
