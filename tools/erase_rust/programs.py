"""Passes for programs. The handle of the runtime becomes a value of the shim, and the allocators that it lends go."""

# Where more paths of std and of the toolchain's crates lead in programs.
PATHS = {
    **{"std::" + name: "crate::shim::" + name for name in ("env", "fs", "io", "time")},
    **{"std::" + path: "core::" + path for path in ("cmp::Ordering", "cmp::Reverse", "iter", "slice", "str")},
    **{"std::os::unix::fs::" + name: "crate::shim::fs::" + name for name in ("MetadataExt", "OpenOptionsExt", "PermissionsExt")},
    "std::process::ExitCode": "std::process::ExitCode",
    "std::rt::Files": "crate::shim::rt::Files",
    "strsim": "crate::shim::strsim",
}
TRAITS = {"Clock", "Env", "Files", "IsTerminal", "MetadataExt", "OpenFile", "OpenOptionsExt", "PermissionsExt", "Read"}

# What Rattle's prelude has and Rust's hasn't.
PRELUDE = {
    **dict.fromkeys(("Eprint", "eprint", "eprintln"), "crate::shim::rt::Eprint"),
    "HostRuntime": "crate::shim::rt::HostRuntime",
}

MACROS = {"format", "format_args", "writeln"}
METHODS = set("""
    alloc arg chars create_new dev ends_with eprint eprintln flatten ino into_bytes invalid is_file is_terminal lines mode monotonic open
    read_to_end rsplit_once set_permissions split_whitespace stderr stdin stdout sync_all to_ascii_uppercase utf8_chunks valid var wrapping_shl zip
""".split())
FUNCTIONS = {"BITS", "from_mode", "from_str_radix"}

LENT = (["rt", ".", "alloc", "(", ")"], ["&", "rt", ".", "alloc", "(", ")"])


def erase(stream):
    """Runs the passes over a file; returns the names of its allocators."""
    macros(stream)
    collected(stream)
    entry(stream)
    return allocators(stream)


def allocators(stream):
    """Removes `let NAME = rt.alloc();`, the arguments `rt.alloc()` and the names that patterns give them. Returns the names of
    allocators."""
    names = set()
    for i in stream.each("let", "("):
        if stream.text(i) == "(":
            parts = stream.parts(i)
            for n in [n for n, part in enumerate(parts) if stream.words(*part[:2]) in LENT]:
                stream.remove_part(parts, n)
            continue
        name, given = stream.next(i), stream.seek(i, "=", ";", "{")
        value = stream.next(given)
        if stream.reads(stream.next(name), "=", *LENT[0], ";"):
            names.add(stream.text(name))
            stream.remove(i, stream.seek(i, ";"))
        elif stream.text(name) == "(" and stream.text(value) == "(" and stream.reads(stream.next(stream.close(value)), ";"):
            names |= _tuple(stream, name, value)
    for i in stream.each("alloc"):
        if stream.text(stream.prev(i)) == ".":
            stream.refuse(i, "an allocator in another place")
    return names


def _tuple(stream, name, value):
    """Takes allocators out of `(NAME, ..) = (rt.alloc(), ..)`; returns their names."""
    names, given, values = set(), stream.parts(name), stream.parts(value)
    gone = [n for n, part in enumerate(values) if stream.words(*part[:2]) in LENT]
    for n in gone:
        names.add(stream.text(given[n][0]))
        stream.remove_part(given, n)
        stream.remove_part(values, n)
    if gone and len(given) == len(gone) + 1:
        for open_ in (name, value):
            stream.remove(stream.close(open_))
            stream.remove(open_)
    return names


def macros(stream):
    """Makes `format!(in ALLOC; ..)` a macro of the shim."""
    for i in stream.each("format"):
        open_ = stream.next(stream.next(i))
        if stream.text(stream.next(i)) != "!" or stream.text(stream.next(open_)) != "in":
            continue
        end = stream.seek(stream.next(open_), ";")
        stream.remove(stream.next(open_), end)
        stream.remove_space(end + 1)
        stream.tokens[i].text = "format_in"
        stream.shim.add("format_in")


def collected(stream):
    """Makes `collect(ALLOC)` of `collect::<LIST>(ALLOC)`."""
    for i in stream.each("collect"):
        open_ = stream.next(stream.next(i))
        if stream.reads(i, "collect", "::", "<"):
            stream.remove(stream.next(i), stream.close(open_))


def entry(stream):
    """Makes `fn main` of a program public."""
    for i in stream.each("fn"):
        if stream.reads(i, "fn", "main", "("):
            stream.tokens[i].before += "pub "
