"""Passes for what Rust 1.85 has in another form."""
from .stream import PAIRS

# Methods of numbers that are newer: the method of the shim instead, and its trait.
NEWER = {"cast_signed": ("to_signed", "ToSigned"), "cast_unsigned": ("to_unsigned", "ToUnsigned")}


def functions(stream):
    """Replaces newer functions of the standard library by older ones, or by those of the shim."""
    for i in stream.each("from_utf8", *NEWER):
        before = stream.prev(i)
        if stream.text(i) == "from_utf8" and stream.text(before) == "::" and stream.text(stream.prev(before)) == "str":
            stream.replace(stream.prev(before), stream.prev(before), "core::str")
        elif stream.text(i) in NEWER and stream.text(before) == ".":
            stream.tokens[i].text, trait = NEWER[stream.text(i)]
            stream.shim.add(trait)


def chains(stream):
    """Makes `if let P = X { if let Q = Y { .. } }` of `if let P = X && let Q = Y { .. }`."""
    for i in stream.each("if", "while"):
        body = _body(stream, i)
        ands = list(_ands(stream, i, body))
        if not ands or "let" not in stream.words(i, body):
            continue
        close = stream.pair.get(body)
        if stream.text(i) == "while" or stream.text(body) == "=>":
            stream.refuse(i, "a chain of `let` in another place than an `if`")
        if stream.text(stream.next(close)) == "else" or stream.text(stream.prev(i)) == "else" or "||" in stream.words(i, body):
            stream.refuse(i, "a chain of `let` in an `if` with an `else` or with `||`")
        for k in ands:
            stream.tokens[k].text = "{ if"
        stream.tokens[close].text += " }" * len(ands)


def _body(stream, i):
    """Returns the `{` or `=>` after the condition of the `if` or `while` at i. A pattern may have braces."""
    i = stream.seek(stream.next(i), "let", "{", "=>")
    while stream.text(i) == "let":
        i = stream.seek(stream.seek(i, "="), "let", "{", "=>")
    return i


def _ands(stream, first, last):
    """Yields the places of `&&` from first to last, outside of brackets."""
    i = stream.next(first)
    while i < last:
        if stream.text(i) == "&&":
            yield i
        i = stream.next(stream.pair[i] if stream.text(i) in PAIRS else i)
