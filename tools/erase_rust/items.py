"""Passes over items and types. What has no meaning in a program goes, and a few forms become Rust's."""
import re

from .known import ERASED_ATTRIBUTES, KEPT_ATTRIBUTES

FORMATTERS = ("Formatter", "DebugStruct", "DebugList", "DebugTuple", "DebugMap")


def ghosts(stream):
    """Removes ghost items and fields, with the documentation, comments and attributes right above them."""
    for i, token in enumerate(stream.tokens):
        if token.kind == "ghost":
            stream.remove(stream.above(i), i)
            if stream.text(stream.prev(i)) == "pub":
                stream.remove(stream.prev(i))


def held_fields(stream):
    """Makes public fields that an invariant of their struct names fields that only the crate has, and by the feature `internals` the crates over it."""
    for i in stream.each("struct"):
        body = stream.seek(i, "{", ";", "(")
        if stream.text(body) != "{":
            continue
        ghosts_in = [token.text for token in stream.tokens[body:stream.close(body)] if token.kind == "ghost"]
        named = set(re.findall(r"\w+", " ".join(text.partition("{")[2] for text in ghosts_in)))
        for first, last, _ in stream.parts(body):
            name = stream.next(first)
            if stream.text(first) == "pub" and stream.text(name) in named:
                field = " ".join(stream.words(name, last))
                stream.tokens[first].before += '#[cfg(feature = "internals")]\npub %s,\n#[cfg(not(feature = "internals"))]\n' % field
                stream.tokens[first].text = "pub(crate)"


def examples(stream):
    """Marks code in documentation as text, since it is Rattle."""
    is_open = False
    for token in stream.tokens:
        if token.kind in ("doc", "inner") and token.text[3:].strip().startswith("```"):
            token.text = token.text if is_open else token.text[:token.text.index("```")] + "```text"
            is_open = not is_open


def attributes(stream, by_hand=()):
    """Removes attributes for the prover, takes `Drop` out of derives, and makes `derive(X)` of `derive_where(X; ..)`. Of the types `by_hand`
    it takes `Debug` out, too; returns which of them it met."""
    met = set()
    for i in stream.each("#"):
        open_ = stream.next(i)
        if stream.text(open_) == "!":
            open_ = stream.next(open_)
        if stream.text(open_) != "[":
            stream.refuse(i, "a # without an attribute")
        name = stream.next(open_)
        word = stream.text(name)
        if word in ERASED_ATTRIBUTES:
            stream.remove(i, stream.close(open_))
        elif word in ("derive", "derive_where"):
            declared = stream.text(stream.next(stream.seek(name, "struct", "enum", "{", ";")))
            _derive(stream, i, name, {"Drop", "Debug"} if declared in by_hand else {"Drop"})
            met |= {declared} & set(by_hand)
        elif word not in KEPT_ATTRIBUTES or word == "cfg" and not stream.reads(name, "cfg", "(", "test", ")"):
            stream.refuse(i, "an attribute: " + " ".join(stream.words(open_, stream.close(open_))))
    return met


def _derive(stream, i, name, gone):
    """Erases in the derive whose name is at `name`. The traits `gone` go."""
    body = stream.next(name)
    if stream.text(name) == "derive_where":
        stream.replace(name, name, "derive")
        semicolon = stream.seek(stream.next(body), ";", ")")
        if stream.text(semicolon) == ";":
            stream.remove(semicolon, stream.close(body) - 1)
    parts = stream.parts(body)
    drops = [n for n, part in enumerate(parts) if stream.words(*part[:2])[0] in gone]
    if drops and len(parts) == len(drops):
        stream.remove(i, stream.close(stream.next(i)))
        return
    for n in drops:
        stream.remove_part(parts, n)


def tests(stream):
    """Removes modules of tests."""
    for i in stream.each("#"):
        if not stream.reads(i, "#", "[", "cfg", "(", "test", ")", "]"):
            continue
        item = stream.next(stream.close(stream.next(i)))
        if stream.text(item) != "mod":
            stream.refuse(i, "#[cfg(test)] before another item than a module")
        stream.remove(i, stream.item_end(item))


def models(stream):
    """Removes `impl Model for ..` and `impl From<AllocFailed<..>> for ..`."""
    for i in stream.each("impl"):
        if stream.text(stream.prev(i)) not in ("", "}", ";", "]"):
            continue
        words = stream.words(i, stream.seek(i, "{"))
        if "for" in words and ("Model" in words[:words.index("for")] or "AllocFailed" in words):
            stream.remove(stream.item_start(i)[0], stream.item_end(i))


def finals(stream):
    """Removes `final` before `fn` and `const`."""
    for i in stream.each("final"):
        if stream.text(stream.next(i)) in ("fn", "const"):
            stream.remove(i, i + 1)


def clones(stream):
    """Makes `clone` of an impl return `Self` instead of a Result."""
    for i in stream.each("fn"):
        if not stream.reads(i, "fn", "clone", "("):
            continue
        arrow = stream.next(stream.close(stream.arguments(i)))
        body = stream.seek(arrow, "{")
        ok = stream.next(body)
        open_ = stream.next(ok)
        if stream.text(arrow) != "->" or not stream.reads(ok, "Ok", "(") or stream.next(stream.close(open_)) != stream.close(body):
            stream.refuse(i, "a clone of another form")
        stream.remove(stream.close(open_))
        stream.remove(ok, open_)
        stream.replace(stream.next(arrow), stream.prev(body), "Self")


def formatters(stream):
    """Removes the parameter of formatters, since Rust's have none: `fn fmt<W: Write>(&self, f: &mut Formatter<W>)`."""
    for at, word in list(stream.generics()):
        if word != "fn":
            continue
        open_, names = stream.next(stream.close(at)), set()
        for k in range(open_, stream.close(open_)):
            if stream.live(k) and stream.text(k) in FORMATTERS and stream.opens_generics(stream.next(k)):
                writer = stream.next(stream.next(k))
                names.add(stream.text(writer))
                stream.replace(writer, writer, "'_" if stream.text(k) == "Formatter" else "'_, '_")
        parts = stream.parts(at)
        gone = [n for n, (first, _, _) in enumerate(parts) if stream.text(first) in names]
        for n in gone:
            if stream.words(*parts[n][:2])[-1] != "Write":
                stream.refuse(at, "a formatter of another form")
        stream.remove_parts(at, gone)


def drops(stream):
    """Removes the bound `Drop`, since each type of Rust may be dropped."""
    for i in stream.each("Drop"):
        before, after = stream.prev(i), stream.next(i)
        if stream.text(before) == "+":
            stream.remove(before, i)
            stream.remove_space(before - 1)
        elif stream.text(before) == ":" and stream.text(after) == "+":
            stream.remove(i, after)
            stream.remove_space(after + 1)
        elif stream.text(before) == ":":
            stream.remove(before, i)
        else:
            stream.refuse(i, "Drop in another place than a bound or a derive")
    for i in stream.each("where"):
        parts = stream.where_parts(i)
        stream.remove_where(i, [n for n, (first, last, _) in enumerate(parts) if ":" not in stream.words(first, last)])


def labels(stream):
    """Removes labels of loops that no `break` and no `continue` names. Only proofs name them."""
    used = {stream.text(stream.next(i)) for i in stream.each("break", "continue")}
    for i in stream.each():
        if stream.tokens[i].kind != "lifetime" or stream.text(stream.next(i)) != ":" or stream.text(i) in used:
            continue
        loop = stream.next(stream.next(i))
        if stream.text(loop) in ("while", "for", "loop"):
            stream.remove(i, loop - 1)
