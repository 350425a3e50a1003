"""Passes for fields of another name. Rattle reserves some words that Rust doesn't, such as `data`."""


class Field:
    """A public field of a struct that gets another name. `place` is the module of the struct, and begins with its crate. `variables` are
    the names by which other sources have values of the struct."""

    def __init__(self, place, owner, name, new, variables):
        self.place, self.owner, self.name, self.new, self.variables = place, owner, name, new, variables
        self.is_met = False

    def rename(self, stream, here):
        """Renames the field in the file of the module `here`."""
        if here == self.place:
            self._declaration(stream)
            for i in stream.each(self.owner):
                if stream.text(stream.next(i)) == "{" and stream.text(stream.prev(i)) not in ("struct", "for", "impl", ">", "->"):
                    self._literal(stream, stream.next(i))
        bodies = [(body, stream.close(body)) for _, body, _, name in stream.impls() if name == self.owner]
        for i in stream.each(self.name, '"%s"' % self.name):
            before = stream.prev(i)
            holder = stream.text(stream.prev(before))
            is_own = holder == "self" and any(first < i < last for first, last in bodies)
            is_field = stream.text(before) == "." and stream.text(stream.next(i)) != "("
            is_shown = stream.text(before) == "(" and holder == "field" and any(first < i < last for first, last in bodies)
            if is_field and (is_own or holder in self.variables) or is_shown:
                stream.tokens[i].text = stream.text(i).replace(self.name, self.new)

    def _declaration(self, stream):
        """Renames the field where its struct is declared."""
        for i in stream.each("struct"):
            if stream.reads(i, "struct", self.owner):
                for first, _, _ in stream.parts(stream.seek(i, "{")):
                    if stream.reads(first, "pub", self.name, ":"):
                        stream.tokens[stream.next(first)].text = self.new
                        self.is_met = True

    def _literal(self, stream, body):
        """Renames the field in a value or a pattern of its struct."""
        for first, last, _ in stream.parts(body):
            if stream.text(first) == self.name:
                stream.tokens[first].text = self.new if last != first else "%s: %s" % (self.new, self.name)
