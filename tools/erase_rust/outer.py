"""Passes for a type that a feature takes of another crate, so that users have one type of the name."""


class Outer:
    """A type that is `path` of another crate if a feature is on. Its methods that only this crate calls are those of a trait of the shim.
    `place` is the module of the type, and begins with its crate."""

    def __init__(self, place, name, path, feature, trait):
        self.place, self.name, self.path, self.trait = place, name, path, trait
        self.on, self.off = '#[cfg(feature = "%s")]\n' % feature, '#[cfg(not(feature = "%s"))]\n' % feature
        self.is_met, self.methods = False, set()

    def declare(self, stream):
        """Guards the type and its implementations, in the file of its module. Moves methods to the trait."""
        for i in stream.each("struct", "enum"):
            if stream.text(stream.next(i)) == self.name:
                start, head = stream.item_start(i)
                stream.tokens[start].before += "%spub use %s;\n\n" % (self.on, self.path)
                stream.tokens[head].before += self.off
                self.is_met = True
        for i, body, trait, name in list(stream.impls()):
            if name == self.name:
                stream.tokens[i].before += self.off
                if not trait:
                    self._split(stream, body)

    def _split(self, stream, body):
        """Ends the implementation at its first method that only this crate calls. The methods from there on are those of the trait."""
        is_moved = False
        for i in [i for i in stream.each("fn") if body < i < stream.close(body)]:
            start, head = stream.item_start(i)
            needs = any(token.kind == "clause" and token.text.startswith("requires") for token in stream.tokens[i:stream.seek(i, "{")])
            if stream.text(head) == "pub" and not needs:
                if is_moved:
                    stream.refuse(i, "a public method after one that only this crate calls")
                continue
            if not is_moved:
                stream.tokens[start].before += "}\n\nimpl crate::shim::%s for %s {\n" % (self.trait, self.name)
                is_moved = True
            if stream.text(head) == "pub":
                stream.remove(head, i - 1)
            self.methods.add(stream.text(stream.next(i)))

    def use(self, stream):
        """Imports the trait where a file calls its methods."""
        for i in stream.each(*self.methods) if self.methods else ():
            if stream.text(stream.prev(i)) in (".", "fn") and stream.text(stream.next(i)) == "(":
                stream.shim.add(self.trait)
