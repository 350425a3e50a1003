"""Passes that give the types of the library what users of Rust expect and the sources don't need: `Clone`, `PartialEq`, `Eq`, `Hash`,
`Debug`, `FusedIterator`, and `#[non_exhaustive]`."""
import re

COMPARED = ("PartialEq", "Eq", "Hash")
# Names of std, and of the shim, whose types have all derived traits if their arguments have them.
KNOWN = set("Vec Option Result String Box str bool char u8 u16 u32 u64 u128 usize i8 i16 i32 i64 i128 isize PhantomData Global".split())
KNOWN |= {"AllocError", "AllocFailed", "const", "crate", "super", "self"}
NUMBERS = {"u8", "u16", "u32", "u64", "usize"}
# Fields whose 16 bytes are a text.
TEXTS = {"segname", "sectname", "data_owner"}


def _crate(stream):
    """Returns the crate of a file."""
    return stream.path.split("/")[1]


class Type:
    """A public or private type of the library: its file, its name, the types of its fields as words, and the traits that it has."""

    def __init__(self, stream, i, is_value, words, has):
        self.stream, self.i, self.name, self.is_value, self.words = stream, i, stream.text(stream.next(i)), is_value, words
        self.is_public = stream.text(stream.item_start(i)[1]) == "pub" and stream.text(stream.next(stream.item_start(i)[1])) != "("
        self.has, self.new = has, set()


def generics_of(stream, i):
    """Returns the generics of the type at i: their text without brackets, and their names."""
    at = stream.next(stream.next(i))
    parts = stream.parts(at) if stream.text(at) == "<" else []
    return [" ".join(stream.words(*part[:2])).replace("& ", "&") for part in parts], [stream.text(part[0]) for part in parts]


def fields(stream, i):
    """Yields the fields of the type at i, as (whether it is public, first, last). Those of an enum are its variants."""
    body = stream.next(stream.next(i))
    body = stream.next(stream.close(body)) if stream.text(body) == "<" else body
    body = stream.seek(body, "{", "(", ";")
    for first, last, _ in stream.parts(body) if stream.text(body) != ";" else ():
        while stream.text(first) == "#":
            first = stream.next(stream.close(stream.next(first)))
        yield stream.text(i) == "enum" or stream.text(first) == "pub" and stream.text(stream.next(first)) != "(", first, last


def derives(stream, i):
    """Returns the traits that the attributes of the type at i derive."""
    start, head = stream.item_start(i)
    names = [stream.next(stream.next(k)) for k in range(start, head) if stream.live(k) and stream.text(k) == "#"]
    lists = [stream.words(k, stream.close(stream.next(k))) for k in names if stream.text(k) in ("derive", "derive_where")]
    return {word for words in lists for word in words if word[0].isupper()}


class Traits:
    """The types of the library, and what each derives beside what its source says."""

    def __init__(self, streams, no_hash):
        self.types, self.aliases, by_hand = [], {}, {}
        for stream in streams:
            for _, _, trait, name in stream.impls():
                by_hand.setdefault((_crate(stream), name), set()).add(re.split("<", "".join(trait))[0].split("::")[-1])
        for stream in streams:
            for i in stream.each("type"):
                if stream.is_name(stream.next(i)) and stream.text(stream.prev(i)) in ("pub", ";", "}", "", ")"):
                    self._alias(stream, i)
            for i in stream.each("struct", "enum"):
                self._add(stream, i, by_hand)
        self.no_hash = no_hash
        self._settle()

    def _alias(self, stream, i):
        """Adds the alias at i, with the words of what it names, but its own generics."""
        at = stream.next(stream.next(i))
        first = stream.seek(stream.close(at) if stream.text(at) == "<" else at, "=", ";")
        _, own = generics_of(stream, i)
        self.aliases[stream.text(stream.next(i))] = [word for word in stream.words(first, stream.seek(i, ";")) if word not in own]

    def _add(self, stream, i, by_hand):
        """Adds the type at i."""
        found = list(fields(stream, i))
        _, own = generics_of(stream, i)
        words = [word for _, first, last in found for word in self._words(stream, i, first, last) if word not in own]
        has = derives(stream, i) | by_hand.get((_crate(stream), stream.text(stream.next(i))), set())
        self.types.append(Type(stream, i, all(is_public for is_public, _, _ in found), words, has))

    @staticmethod
    def _words(stream, i, first, last):
        """Returns the names of types in a field, or in a variant of an enum."""
        words = stream.words(first, last)
        if stream.text(i) == "enum":
            inner = stream.next(first)
            parts = stream.parts(inner) if stream.text(inner) in ("(", "{") else []
            words = [word for a, b, _ in parts for word in stream.words(a, b)[0 if stream.text(inner) == "(" else 2:]]
        elif ":" in words:
            words = words[words.index(":") + 1:]
        return [word for word in words if re.match(r"[A-Za-z]\w*$", word) or word == "mut"]

    def _settle(self):
        """Finds what each type can derive: nothing that a type in it hasn't."""
        for one in self.types:
            derived = derives(one.stream, one.i)
            is_compared = "PartialEq" in derived or one.is_value and "PartialEq" not in one.has
            if one.is_public:
                one.new = {"Clone"} | (set(COMPARED) if is_compared else set())
                one.new -= one.has | ({"Hash"} if one.name in self.no_hash else set())
        before = None
        while before != (before := sum(len(one.new) for one in self.types)):
            named = {}
            for one in self.types:
                named[one.name] = named.get(one.name, one.has | one.new) & (one.has | one.new)
            for one in self.types:
                one.new = {trait for trait in one.new if all(self._allows(word, trait, named) for word in one.words)}
                one.new -= set(COMPARED) if "PartialEq" not in one.has | one.new else set()
                one.new -= {"Hash"} if "Eq" not in one.has | one.new else set()

    def _allows(self, word, trait, named):
        """Returns whether a type by name has a trait."""
        if word in self.aliases and word not in named:
            return all(self._allows(one, trait, named) for one in self.aliases[word] if re.match(r"[A-Za-z]\w*$", one))
        return word in KNOWN or trait in named.get(word, ())

    def derive(self, stream):
        """Derives in a file."""
        for one in self.types:
            if one.stream is stream and one.new:
                start, head = stream.item_start(one.i)
                stream.tokens[head].before += "#[derive(%s)]\n" % ", ".join(sorted(one.new))

    def extend(self, stream, shows, is_open):
        """Writes `Debug` of types that have none and of those for which `shows` returns true, `FusedIterator` of iterators, and marks types
        for which `is_open` returns false as ones that may grow."""
        for i, body, trait, name in list(stream.impls()):
            for one in self.types:
                if one.name == name and trait[-1:] == ["Debug"] and shows(one):
                    self._wrap(stream, body, one)
            if trait[-1:] == ["Iterator"]:
                words = "".join(token.text if token.kind != "comment" else "" for token in stream.tokens[i:body] if not token.gone)
                end = stream.tokens[stream.close(body)]
                end.text += "\n\n%s {}" % re.sub(r"\bIterator for\b", "core::iter::FusedIterator for", words.strip(), count=1)
        for one in self.types:
            if one.stream is not stream or not one.is_public:
                continue
            end = stream.tokens[stream.item_end(one.i)]
            if shows(one) and stream.text(one.i) == "struct" and "Debug" in derives(stream, one.i):
                end.text += "\n\n" + self._shown(stream, one)
            elif "Debug" not in one.has:
                end.text += "\n\n" + _opaque(stream, one)
            if one.is_value and not is_open(one) and list(fields(stream, one.i)):
                head = stream.item_start(one.i)[1]
                stream.tokens[head].before += '#[cfg_attr(not(feature = "internals"), non_exhaustive)]\n'

    def _form(self, words):
        """Returns the name of a field, and the form in which it is printed."""
        at = words.index(":")
        name, kind = words[at - 1], words[at + 1:]
        kind = self.aliases[kind[0]][1:-1] if kind[0] in self.aliases else kind
        is_text = name in TEXTS or name == "name" and kind[:2] == ["[", "u8"]
        return name, "Hex" if kind[0] in NUMBERS else "Text" if is_text else "HexBytes" if kind[:2] == ["[", "u8"] else "Plain"

    def _wrap(self, stream, body, one):
        """Gives the fields that a written `Debug` prints their forms."""
        forms = dict(self._form(one.stream.words(first, last)) for _, first, last in fields(one.stream, one.i))
        for i in stream.each("&"):
            name = stream.next(stream.next(stream.next(i)))
            if body < i < stream.close(body) and stream.reads(i, "&", "self", ".", stream.text(name), ")") and stream.text(name) in forms:
                stream.replace(i, name, "&crate::shim::shown::%s(&self.%s)" % (forms[stream.text(name)], stream.text(name)))

    def _shown(self, stream, one):
        """Returns `Debug` of a record, by a macro of the shim. It takes `Debug` out of what the record derives."""
        parts = []
        for _, first, last in fields(stream, one.i):
            parts.append("%s: %s" % self._form(stream.words(first, last)))
        start, head = stream.item_start(one.i)
        for k in range(start, head):
            if stream.live(k) and stream.text(k) == "Debug":
                listed = stream.prev(k) if stream.text(stream.prev(k)) == "," else stream.next(k)
                stream.remove(k)
                if stream.text(listed) == ",":
                    stream.remove(listed)
        lives = ["'_" for name in generics_of(stream, one.i)[1] if name[0] == "'"]
        return "crate::shim::shown!(%s%s { %s });" % (one.name, "<%s>" % ", ".join(lives) if lives else "", ", ".join(parts))


def _opaque(stream, one):
    """Returns `Debug` of a type whose fields no user needs: it prints the name."""
    declared, names = generics_of(stream, one.i)
    bounds, arguments = ("<%s>" % ", ".join(part) if part else "" for part in (declared, names))
    where = stream.next(stream.next(one.i))
    where = stream.next(stream.close(where)) if stream.text(where) == "<" else where
    more = " " + " ".join(stream.words(where, stream.prev(stream.seek(where, "{", ";")))) if stream.text(where) == "where" else ""
    return """impl%s core::fmt::Debug for %s%s%s {
    /// Prints the name of the type.
    fn fmt(&self, f: &mut core::fmt::Formatter<'_>) -> core::fmt::Result {
        f.debug_struct("%s").finish_non_exhaustive()
    }
}""" % (bounds, one.name, arguments, more, one.name)
