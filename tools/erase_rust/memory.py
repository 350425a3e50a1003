"""Passes for memory. Types, signatures and calls lose the allocator. Calls that may be refused memory become calls of the shim."""
from .known import MAKERS, RENAMED, TRAIT_OF

LISTS = {"String": 0, "Vec": 1, "BTreeMap": 2, "IndexSet": 2}


class Allocators:
    """The allocators of one file. Rust's Vec and String have the global one."""

    def __init__(self, stream, names):
        self.stream, self.names = stream, names
        self.lists = list(stream.generics())
        self.scopes = [scope for at, word in self.lists for scope in self._scopes(at, word)]

    def erase(self):
        """Erases all allocators."""
        self.of_types()
        self.of_bounds()
        self.of_functions()
        self.of_fields()
        self.of_calls()

    def _scopes(self, at, word):
        """Yields each name of the generics at a place as (first, last, name, whether it is an allocator). It means that from first to last."""
        stream = self.stream
        end = stream.item_end(stream.close(at))
        for first, last, _ in stream.parts(at):
            words = stream.words(first, last)
            is_one = "Allocator" in words[:4] or words[-2:] == ["=", "Global"]
            yield at, end, words[0], is_one or word == "type" and self._is_of_alias(words[0], at)

    def _is_of_alias(self, name, at):
        """Returns whether a name is the allocator of the list or text for which an alias is declared. The allocator is the argument after
        the usual ones."""
        of = self.stream.next(self.stream.seek(self.stream.close(at), "="))
        parts = self.stream.parts(self.stream.next(of)) if self.stream.text(of) in LISTS else []
        return len(parts) > LISTS.get(self.stream.text(of), 0) and self.stream.text(parts[-1][0]) == name

    def is_type(self, i):
        """Returns whether the name at i is the type of an allocator."""
        name = self.stream.text(i)
        inner = [scope for scope in self.scopes if scope[0] <= i <= scope[1] and scope[2] == name]
        return name == "Global" or bool(inner) and max(inner)[3]

    def of_types(self):
        """Erases parameters and arguments of types."""
        stream = self.stream
        for at, _ in self.lists:
            parts = stream.parts(at)
            stream.remove_parts(at, [n for n, part in enumerate(parts) if stream.is_name(part[0]) and self.is_type(part[0])])
        for i in stream.each("<"):
            if stream.opens_generics(i):
                stream.remove_parts(i, [n for n, part in enumerate(stream.parts(i)) if self._is_argument(*part[:2])])

    def _is_argument(self, first, last):
        """Returns whether an argument of a type is an allocator or a reference to one."""
        words = [word for word in self.stream.words(first, last) if word[0] not in "&'"]
        return words == [self.stream.text(last)] and self.is_type(last)

    def of_bounds(self):
        """Erases bounds after `where`."""
        for i in self.stream.each("where"):
            parts = self.stream.where_parts(i)
            self.stream.remove_where(i, [n for n, part in enumerate(parts) if self.is_type(part[0])])

    def of_functions(self):
        """Erases parameters of functions."""
        stream = self.stream
        for i in stream.each("fn"):
            open_ = stream.arguments(i)
            if open_ is None:
                continue
            parts = stream.parts(open_)
            for n, (first, last, _) in enumerate(parts):
                words = stream.words(first, last)
                if words[1:2] == [":"] and self._is_argument(stream.next(stream.next(first)), last):
                    self.names.add(words[0])
                    stream.remove_part(parts, n)

    def of_fields(self):
        """Erases fields of structs and of their values."""
        stream = self.stream
        for i in stream.each("{"):
            first = stream.next(i)
            if stream.text(stream.next(first)) not in (":", ",", "}") and stream.text(first) != "pub":
                continue
            parts = stream.parts(i)
            for n, (first, last, _) in enumerate(parts):
                words = stream.words(first, last)
                if words[-2:-1] == [":"] and len(words) <= 4 and words[0] != "where" and self.is_type(last):
                    self.names.add(words[-3])
                    stream.remove_part(parts, n)
                elif len(words) == 1 and words[0] in self.names and len(parts) > 1:
                    stream.remove_part(parts, n)

    def of_calls(self):
        """Erases arguments of calls."""
        stream = self.stream
        for i in stream.each("("):
            parts = stream.parts(i) if self.names else []
            for n, (first, last, _) in enumerate(parts):
                words = stream.words(first, last)
                words = words[1:] if words[:1] in (["&"], ["*"]) else words
                words = words[2:] if words[:2] == ["self", "."] else words
                if words and words[0] in self.names and words[1:] in ([], [".", "clone", "(", ")", "?"]):
                    stream.remove_part(parts, n)


def is_statement(stream, i, end):
    """Returns whether the call of a method at i, which ends at `end`, is a statement. Such a call returns nothing that can fail, since
    Rattle refuses a Result that nothing uses."""
    if stream.text(stream.next(end)) != ";":
        return False
    k = stream.prev(i)
    while stream.text(k) in (".", "::", ")", "]") or stream.tokens[k].kind in ("name", "number"):
        if stream.text(k) == "return":
            return False
        k = stream.prev(stream.pair[k] if stream.text(k) in (")", "]") else k)
    return stream.text(k) in ("{", "}", ";")


def calls(stream):
    """Replaces calls that may be refused memory by calls of the shim."""
    for i in stream.each():
        text, after = stream.text(i), stream.next(i)
        if not stream.is_name(i):
            continue
        if text in TRAIT_OF and stream.text(stream.prev(i)) == "." and stream.text(after) == "(":
            if not is_statement(stream, i, stream.close(after)):
                stream.tokens[i].text = RENAMED.get(text, "try_" + text)
                stream.shim.add(TRAIT_OF[text])
        elif text == "push_reserved":
            stream.shim.add("TryGrow")
        elif stream.text(after) == "::" and (text, stream.text(stream.next(after))) in MAKERS:
            stream.tokens[i].text = MAKERS[text, stream.text(stream.next(after))]
            stream.shim.add(stream.tokens[i].text)
        elif text == "vec" and stream.text(after) == "!":
            _vec(stream, i)
        elif text == "clone" and stream.text(stream.prev(i)) == "." and stream.reads(i, "clone", "(", ")", "?"):
            stream.remove(stream.next(stream.close(after)))


def _vec(stream, i):
    """Makes `try_vec(ITEM, LEN)?` of `vec![in ALLOC; ITEM; LEN]?`."""
    open_ = stream.next(stream.next(i))
    first = stream.seek(stream.next(open_), ";", "]")
    second = stream.seek(stream.next(first), ";", "]")
    if not stream.reads(open_, "[", "in") or stream.text(first) != ";" or stream.text(second) != ";":
        stream.refuse(i, "a vec! of another form")
    stream.replace(i, first, "try_vec(")
    stream.remove_space(first + 1)
    stream.tokens[second].text = ","
    stream.tokens[stream.pair[open_]].text = ")"
    stream.shim.add("try_vec")


def failures(stream):
    """Makes `AllocError` of `AllocFailed<T>`, which has the item that took no place."""
    for i in stream.each("AllocFailed"):
        if stream.text(stream.next(i)) == "<":
            stream.replace(i, stream.close(stream.next(i)), "crate::shim::AllocError")


def proofs(stream):
    """Makes `prove!(X)` a test of X. Has the shim make text that is proved to be UTF-8."""
    for i in stream.each("prove", "unsafe"):
        if stream.text(i) == "prove" and stream.text(stream.next(i)) == "!":
            stream.tokens[i].text = "assert" if stream.text(stream.prev(i)) == "=" else "debug_assert"
        elif stream.text(i) == "unsafe":
            _unsafe(stream, i)


def _unsafe(stream, i):
    """Makes `proved_utf8(X)` of `unsafe { str::from_utf8_unchecked(X) }`."""
    open_ = stream.next(i)
    if not stream.reads(i, "unsafe", "{", "str", "::", "from_utf8_unchecked", "("):
        stream.refuse(i, "an unsafe block of another form")
    call = stream.seek(stream.next(open_), "(")
    if stream.next(stream.close(call)) != stream.close(open_):
        stream.refuse(i, "an unsafe block of another form")
    stream.remove(stream.close(call) + 1, stream.close(open_))
    stream.replace(i, stream.prev(call), "proved_utf8")
    stream.shim.add("proved_utf8")
