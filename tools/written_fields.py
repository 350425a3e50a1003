"""Reads which fields the programs write of an item, from their sources. Each branch counts that may be taken, given what is known.

An expression has some values: those that it may have. A value is a text, a boolean, or one of the three kinds below. Unknown are numbers, variables
that are `mut`, and what functions return that are in none of the files that were read. That a method changes what its `self` has isn't followed.
"""
import os
from collections import namedtuple

from erase_rust.lexer import Stop
from rattle_expressions import Parser, Source

# Something of which nothing is known but its type, if that isn't empty.
Unknown = namedtuple("Unknown", "type")
# A struct or a variant, with the values of its fields: pairs of a name, or a number, and values.
Made = namedtuple("Made", "path fields")
# An array or a tuple, with the values of its parts, and the name of the function that returned it first.
Parts = namedtuple("Parts", "parts origin")

NOTHING_KNOWN = (Unknown(""),)


class Frame:
    """A call: its function, the source of that, and the values that it returned."""

    def __init__(self, function, source):
        self.function, self.source, self.returned = function, source, []


def each(lists):
    """Returns the values of some lists, each once."""
    return tuple(dict.fromkeys(value for values in lists for value in values))


def shown(path):
    """Returns a path as a key: its last name, after that of its type if it has one."""
    return "::".join(path[-2:]) if len(path) > 1 and path[-2][0].isupper() else path[-1]


class Reader:
    """What some sources say: folders and files within a folder."""

    def __init__(self, top, *paths):
        self.paths, self.sources = paths, {}
        for path in paths:
            place = os.path.join(top, path)
            inner = sorted(os.path.join(folder, name) for folder, _, names in os.walk(place) for name in names if name.endswith(".rt"))
            for file in inner or [place]:
                with open(file, encoding="utf-8") as text:
                    self.sources[os.path.relpath(file, top)] = Source(text.read(), os.path.relpath(file, top))
        self.methods = {name: made for source in self.sources.values() for name, made in source.functions.items() if "::" in name}
        self.fields = {name: fields for source in self.sources.values() for name, fields in source.fields.items()}
        # The arrays of fields that were written, the lists that were used, and the functions that are being read.
        self.written, self.listed, self.open = [], [], []

    def function(self, name, file=""):
        """Returns the only function with this name in the files whose paths end so. That of a type has the name `TYPE::FUNCTION`."""
        found = [source.functions[name] for path, source in self.sources.items() if name in source.functions and path.endswith(file)]
        if len(found) != 1:
            raise Stop("%d functions %s, where one is wanted, in %s" % (len(found), name, file or ", ".join(self.paths)))
        return found[0]

    def constant(self, name):
        """Returns the only value of the first constant with this name."""
        source = next((source for source in self.sources.values() if name in source.constants), None)
        if source is None:
            raise Stop("no constant %s in %s" % (name, ", ".join(self.paths)))
        value, = self.value(Parser(source, source.constants[name]).expression(), {}, Frame(None, source))
        return value

    def writes(self, name, *values, file=""):
        """Returns the arrays of fields that a call of a function may write, given the values of its first arguments."""
        self.written = []
        self.returns(name, *values, file=file)
        if not self.written:
            raise Stop("%s writes no fields" % name)
        return self.written

    def lists(self, name, *values):
        """Returns the lists that a call of a function may use by `of_list`, given the values of its first arguments."""
        self.listed = []
        self.returns(name, *values)
        return tuple(self.listed)

    def returns(self, name, *values, file=""):
        """Returns the values of a call of a function, given those of its first arguments."""
        return self.call(self.function(name, file), values)

    def call(self, function, values):
        """Returns the values of a call, given those of its first arguments."""
        if function in self.open:
            return (Unknown(function.result),)
        frame, names = Frame(function, function.source), {}
        for n, (pattern, kind) in enumerate(function.parameters):
            given = values[n] if n < len(values) else NOTHING_KNOWN
            given = tuple(Unknown(kind) if value == Unknown("") else value for value in given)
            self.met(pattern, given, names, frame)
        self.open.append(function)
        found = each([self.value(function.body(), names, frame), frame.returned])
        self.open.pop()
        return tuple(self.returned(value, function) for value in found)

    def returned(self, value, function):
        """Returns a value as a function returns it."""
        if isinstance(value, Parts) and not value.origin:
            return value._replace(origin=function.name)
        return Unknown(function.result) if value == Unknown("") else value

    def value(self, expression, names, frame):
        """Returns the values of an expression; none if it leaves its function."""
        return getattr(self, "of_" + expression[0])(expression, names, frame)

    def of_opaque(self, expression, names, frame):
        """Of such an expression nothing is known."""
        return NOTHING_KNOWN

    def of_literal(self, expression, names, frame):
        """Returns the value of a text or a boolean."""
        return (expression[1],)

    def of_end(self, expression, names, frame):
        """A round of a loop ends."""
        return ()

    def of_path(self, expression, names, frame):
        """Returns the values of a variable or of a variant without fields."""
        path = self.own(expression[1], frame)
        if len(path) == 1 and path[0] in names:
            return names[path[0]]
        is_made = path[-1] == "None" or len(path) > 1 and path[-2][0].isupper() and not path[-1].isupper() and path[-1][0].isupper()
        return (Made(shown(path), ()),) if is_made else NOTHING_KNOWN

    def own(self, path, frame):
        """Returns a path with the name of the type in place of `Self`."""
        return (frame.function.owner,) + path[1:] if path[0] == "Self" else path

    def of_array(self, expression, names, frame):
        """Returns an array or a tuple."""
        return (Parts(tuple(self.value(part, names, frame) for part in expression[1]), ""),)

    of_tuple = of_array

    def of_struct(self, expression, names, frame):
        """Returns a struct; what follows `..` has its other fields."""
        path, fields = self.own(expression[1], frame), {}
        for name, value in sorted(expression[2], key=lambda field: field[0] != ".."):
            values = self.value(value, names, frame)
            if name == "..":
                fields = dict(values[0].fields) if values and isinstance(values[0], Made) else {}
            else:
                fields[name] = values
        return (self.made(shown(path), fields),)

    def made(self, path, fields):
        """Returns a struct or a variant. A field of which nothing is known has its type."""
        types = self.fields.get(path, {})
        typed = {name: tuple(Unknown(types.get(name, "")) if value == Unknown("") else value for value in values) for name, values in fields.items()}
        return Made(path, tuple(sorted(typed.items())))

    def of_block(self, expression, names, frame):
        """Returns the values of a block."""
        names = dict(names)
        for statement in expression[1]:
            if statement[0] == "let":
                _, pattern, value, otherwise = statement
                values = self.value(value, names, frame)
                if otherwise:
                    self.value(otherwise, names, frame)
                if not values or not self.met(pattern, values, names, frame):
                    return ()
            elif not self.value(statement[1], names, frame):
                return ()
        return self.value(expression[2], names, frame) if expression[2] else NOTHING_KNOWN

    def of_loop(self, expression, names, frame):
        """Reads the body of a loop once."""
        self.value(expression[1], names, frame)
        return NOTHING_KNOWN

    def of_if(self, expression, names, frame):
        """Returns the values of both branches."""
        _, pattern, value, then, otherwise = expression
        values, inner, found = self.value(value, names, frame), dict(names), []
        if pattern is None or self.met(pattern, values, inner, frame):
            found.append(self.value(then, inner, frame))
        found.append(self.value(otherwise, names, frame) if otherwise else NOTHING_KNOWN)
        return each(found)

    def of_match(self, expression, names, frame):
        """Returns the values of the arms that may be taken."""
        left, found = self.value(expression[1], names, frame), []
        for pattern, guard, body in expression[2]:
            inner = dict(names)
            if left and self.met(pattern, left, inner, frame):
                found.append(self.value(body, inner, frame))
                left = left if guard else tuple(value for value in left if not self.is_met(pattern, value, frame))
        return each(found)

    def of_return(self, expression, names, frame):
        """Keeps what is returned."""
        frame.returned += self.value(expression[1], names, frame) if expression[1] else NOTHING_KNOWN
        return ()

    def of_try(self, expression, names, frame):
        """Returns what `?` lets through, and keeps what it returns."""
        found = []
        for value in self.value(expression[1], names, frame):
            if isinstance(value, Made) and value.path in ("Some", "Ok"):
                found.append(value.fields[0][1])
            elif isinstance(value, Made):
                frame.returned.append(value)
            else:
                found.append(NOTHING_KNOWN)
                frame.returned.append(Made("None", ()) if frame.function.result == "Option" else Made("Err", (("0", NOTHING_KNOWN),)))
        return each(found)

    def of_field(self, expression, names, frame):
        """Returns the values of a field."""
        return each(self.field_of(value, expression[2]) for value in self.value(expression[1], names, frame))

    def field_of(self, value, name):
        """Returns the values of a field of a value."""
        if isinstance(value, Made):
            return dict(value.fields).get(name, NOTHING_KNOWN)
        if isinstance(value, Parts) and name.isdigit():
            return value.parts[int(name)]
        return (Unknown(self.fields.get(value.type, {}).get(name, "")),) if isinstance(value, Unknown) else NOTHING_KNOWN

    def of_method(self, expression, names, frame):
        """Returns the values of a call of a method, if its type is known and was read."""
        _, receiver, name, arguments = expression
        given = [self.value(argument, names, frame) for argument in arguments]
        self.listed += given[0] if name == "of_list" else ()
        found = []
        for value in self.value(receiver, names, frame):
            kind = value.path.split("::")[0] if isinstance(value, Made) else value.type if isinstance(value, Unknown) else ""
            function = self.methods.get(kind + "::" + name)
            found.append(self.call(function, [(value,)] + given) if function else NOTHING_KNOWN)
        return each(found)

    def of_call(self, expression, names, frame):
        """Returns the values of a call, or of a struct or a variant without names of fields."""
        _, callee, arguments = expression
        given = [self.value(argument, names, frame) for argument in arguments]
        if callee[0] != "path":
            return NOTHING_KNOWN
        path = self.own(callee[1], frame)
        if path in (("F", "write"), ("F", "write_both")):
            return self.write(given[:1 if path[1] == "write" else 2], frame)
        function = self.named(path, frame)
        if function:
            return self.call(function, given)
        if path[-1][0].isupper():
            return (self.made(shown(path), {str(n): values for n, values in enumerate(given)}),)
        return NOTHING_KNOWN

    def named(self, path, frame):
        """Returns the function that a path names in a file, if it was read."""
        if len(path) > 1:
            return self.methods.get(shown(path))
        if path[0] in frame.source.functions:
            return frame.source.functions[path[0]]
        brought = frame.source.uses.get(path[0])
        if brought is None:
            return None
        crate = frame.source.path.split(os.sep)[1] if brought[0] == "crate" else brought[0]
        end = os.sep + os.path.join(*brought[1:-1]) + ".rt" if brought[0] == "crate" and brought[1:-1] else ".rt"
        places = [it for it in self.sources if it.startswith(os.path.join("crates", crate) + os.sep) and it.endswith(end)]
        found = [self.sources[it].functions[brought[-1]] for it in places if brought[-1] in self.sources[it].functions]
        return found[0] if len(found) == 1 else None

    def write(self, lists, frame):
        """Keeps the arrays of fields that are written."""
        joined = [Parts((), "")]
        for values in lists:
            if not all(isinstance(value, Parts) for value in values):
                raise Stop("%s: %s writes fields that can't be read" % (frame.source.path, frame.function.name))
            joined = [Parts(first.parts + value.parts, value.origin or first.origin) for first in joined for value in values]
        self.written += joined
        return NOTHING_KNOWN

    def met(self, pattern, values, names, frame):
        """Binds the names of a pattern to what it has of some values. Returns whether it may meet one."""
        found = {}
        met = [self.binds(pattern, value, found, frame) for value in values]
        names.update({name: each(parts) for name, parts in found.items()})
        return any(met)

    def binds(self, pattern, value, found, frame):
        """Adds what the names of a pattern have of a value. Returns whether the pattern may meet it."""
        kind = pattern[0]
        if kind == "name":
            found.setdefault(pattern[1], []).append((value,))
        elif kind == "variable":
            found[pattern[1]] = [NOTHING_KNOWN]
        elif kind == "literal":
            return value == pattern[1] or isinstance(value, Unknown)
        elif kind == "either":
            return any([self.binds(part, value, found, frame) for part in pattern[1]])
        elif kind == "tuple":
            return self.binds_parts(pattern[1], value, found, frame)
        elif kind == "made":
            return self.binds_made(pattern, value, found, frame)
        return True

    def binds_parts(self, patterns, value, found, frame):
        """Does so for a tuple."""
        parts = value.parts if isinstance(value, Parts) and len(value.parts) == len(patterns) else [NOTHING_KNOWN] * len(patterns)
        return all([any([self.binds(part, it, found, frame) for it in values]) for part, values in zip(patterns, parts)])

    def binds_made(self, pattern, value, found, frame):
        """Does so for a struct or a variant."""
        path = shown(self.own(pattern[1], frame))
        if isinstance(value, Made) and value.path != path or isinstance(value, (str, bool, Parts)):
            return False
        known = dict(value.fields) if isinstance(value, Made) else {name: (Unknown(kind),) for name, kind in self.fields.get(path, {}).items()}
        parts = [(part, known.get(name, NOTHING_KNOWN)) for name, part in pattern[2] if name != ".."]
        return all([any([self.binds(part, it, found, frame) for it in values]) for part, values in parts])

    def is_met(self, pattern, value, frame):
        """Returns whether a pattern surely meets a value."""
        kind = pattern[0]
        if kind == "either":
            return any(self.is_met(part, value, frame) for part in pattern[1])
        if kind == "made" and isinstance(value, Made):
            known = dict(value.fields)
            return value.path == shown(self.own(pattern[1], frame)) and all(
                all(self.is_met(part, it, frame) for it in known.get(name, NOTHING_KNOWN)) for name, part in pattern[2] if name != "..")
        if kind == "tuple" and isinstance(value, Parts) and len(value.parts) == len(pattern[1]):
            return all(all(self.is_met(part, it, frame) for it in values) for part, values in zip(pattern[1], value.parts))
        return kind in ("name", "variable", "any") or kind == "literal" and value == pattern[1]
