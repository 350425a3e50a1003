"""Passes for functions that C calls. In Rust they are plain ones. The shim gets a list of them, and exports them."""


def functions(stream):
    """Makes `pub fn` of `#[unsafe(no_mangle)] pub extern "C" fn`; returns the places of these functions."""
    found = []
    for i in stream.each("extern"):
        function = stream.seek(i, "fn", ";", "{")
        start, head = stream.item_start(i)
        if not stream.reads(head, "pub", "extern", '"C"', "fn") or stream.words(function, function) != ["fn"]:
            stream.refuse(i, "the word extern")
        marks = [k for k in range(start, head) if stream.live(k) and stream.reads(k, "#", "[", "unsafe", "(", "no_mangle", ")", "]")]
        if len(marks) != 1:
            stream.refuse(i, 'extern "C" without #[unsafe(no_mangle)]')
        stream.remove(marks[0], stream.close(stream.next(marks[0])))
        stream.remove(i, function - 1)
        found.append(function)
    return found


def signature(stream, i):
    """Returns the name, the parameters and the result of the function at i, in one line."""
    parts = [" ".join(stream.words(*part[:2])).replace(" : ", ": ").replace("& ", "&").replace("[ ", "[").replace(" ]", "]")
             for part in stream.parts(stream.arguments(i))]
    result = stream.words(stream.close(stream.arguments(i)), stream.prev(stream.seek(i, "{")))[1:]
    return "%s(%s)%s;" % (stream.text(stream.next(i)), ", ".join(parts), " " + " ".join(result) if result else "")


def listed(found):
    """Returns the text of the list of functions. `found` has a pair of a path of modules and a signature for each."""
    groups = {}
    for module, line in found:
        groups.setdefault("::".join(module), []).append(line)
    uses = ["pub use super::%s::{%s};" % (module, ", ".join(line.split("(")[0] for line in lines)) for module, lines in groups.items()]
    head = ["", "/// Hands these functions to a macro, each with its parameters.", "macro_rules! calls {", "    ($with:ident) => {"]
    calls = ["        $with!(%s);" % line[:-1] for lines in groups.values() for line in lines]
    return "\n".join(uses + head + calls + ["    };", "}", "pub(crate) use calls;"]) + "\n"
