"""Reads items and expressions of Rattle, as far as the functions have them that tools/schemas follows. It stops at another expression.

An expression is a tuple that begins with its kind, and so is a pattern. Of an expression `opaque` nothing is kept, such as of a sum. A pattern
`opaque` may meet any value.
"""
from erase_rust.lexer import IDLE, Lexer, Stop

OPEN = {"(": ")", "[": "]", "{": "}"}
BINARY = frozenset("+ - * / % ^ | & && || == != < > <= >= = += -= *= /= %= ^= |= &= .. ..=".split())
OPAQUE = ("opaque",)
ANY = ("any",)


class Function:
    """A function: its parameters as (pattern, type), the type of its result, the place of its body, and the type whose it is."""

    def __init__(self, source, name, parameters, result, body, owner):
        self.source, self.name, self.parameters, self.result, self.place, self.owner = source, name, parameters, result, body, owner
        self.parsed = None

    def body(self):
        """Returns the body."""
        if self.parsed is None:
            self.parsed = Parser(self.source, self.place).block()
        return self.parsed


class Source:
    """The items of a file: functions and constants by name, the types of fields by struct or variant, and what `use` brings, as paths."""

    def __init__(self, text, path):
        self.path = path
        self.tokens = [token for token in Lexer(text, path).tokens() if token.kind not in IDLE]
        self.functions, self.constants, self.fields, self.uses = {}, {}, {}, {}
        self.pair, opened = {}, []
        for i, token in enumerate(self.tokens):
            if token.text in OPEN:
                opened.append(i)
            elif token.kind == "mark" and token.text in OPEN.values():
                self.pair[opened[-1]] = i
                opened.pop()
        Items(self, 0, len(self.tokens), "").read()


class Cursor:
    """A place among the tokens of a file."""

    def __init__(self, source, at):
        self.source, self.tokens, self.at = source, source.tokens, at

    def text(self, ahead=0):
        """Returns the text of a token from here."""
        return self.tokens[self.at + ahead].text if self.at + ahead < len(self.tokens) else ""

    def kind(self):
        """Returns the kind of the token here."""
        return self.tokens[self.at].kind if self.at < len(self.tokens) else ""

    def take(self):
        """Takes the token here."""
        self.at += 1
        return self.tokens[self.at - 1].text

    def takes(self, *texts):
        """Takes the token here if it is one of these."""
        return self.text() in texts and bool(self.take())

    def needs(self, text):
        """Takes a token that must be here."""
        if self.text() != text:
            self.refuse("%s, and not %s" % (text, self.text()))
        self.at += 1

    def refuse(self, wanted):
        """Stops, since something else is here."""
        raise Stop("%s:%d: an expression of another form: %s" % (self.source.path, self.tokens[min(self.at, len(self.tokens) - 1)].line, wanted))

    def skip(self):
        """Takes the token here, with what it opens."""
        self.at = self.source.pair.get(self.at, self.at) + 1

    def generics(self):
        """Takes the generics that begin here, if any do."""
        depth = 0
        while self.text() == "<" or depth and self.text():
            depth += (self.text() == "<") - (self.text() == ">")
            self.skip()
            if depth == 0:
                return

    def type(self, *ends):
        """Takes a type up to one of these tokens, and returns its name: the last one of its first path, nothing if it has none."""
        name, closed = "", False
        while self.at < len(self.tokens) and self.text() not in ends:
            if self.text() == "<":
                self.generics()
                closed = True
                continue
            if self.kind() == "name" and not closed and self.text() not in ("mut", "dyn", "pub"):
                name, closed = self.text(), self.text(1) != "::"
            self.skip()
        return name

    def listed(self, read):
        """Takes a list in brackets, each part of which a function reads."""
        end, found = self.source.pair[self.at], []
        self.at += 1
        while self.at < end:
            found.append(read())
            if self.at < end:
                self.needs(",")
        self.at = end + 1
        return found


class Items(Cursor):
    """The items from one place to another, within an `impl` of a type if it has a name."""

    def __init__(self, source, at, end, owner):
        super().__init__(source, at)
        self.end, self.owner = end, owner

    def read(self):
        """Reads the items into their source."""
        read = {"fn": self.function, "impl": self.implementation, "enum": self.enumeration, "struct": self.structure, "const": self.constant, "use": self.use}
        while self.at < self.end:
            found = read.get(self.text())
            if found:
                self.at += 1
                found()
            else:
                self.skip()

    def function(self):
        """Reads a function."""
        name = self.take()
        self.generics()
        parameters = self.listed(self.parameter)
        result = self.type("{", ";", "where") if self.takes("->") else ""
        self.type("{", ";")
        if self.text() == "{":
            made = Function(self.source, name, parameters, result or self.owner, self.at, self.owner)
            self.source.functions[self.owner + "::" + name if self.owner else name] = made
        self.skip()

    def parameter(self):
        """Reads a parameter."""
        pattern = Parser(self.source, self.at)
        found = pattern.pattern()
        self.at = pattern.at
        return (found, self.type(",", ")")) if self.takes(":") else (found, self.owner)

    def implementation(self):
        """Reads an `impl` of a type or of a trait."""
        self.generics()
        owner = self.type("{", "for", "where")
        if self.takes("for"):
            owner = self.type("{", "where")
        self.type("{")
        Items(self.source, self.at + 1, self.source.pair[self.at], owner).read()
        self.skip()

    def enumeration(self):
        """Reads the variants of an enum."""
        name = self.take()
        self.type("{")
        self.source.fields[name] = {}
        self.listed(lambda: self.variant(name))

    def variant(self, name):
        """Reads a variant of an enum with this name."""
        while self.takes("#"):
            self.skip()
        self.held(name + "::" + self.take())
        self.type(",", "}")

    def structure(self):
        """Reads the fields of a struct."""
        name = self.take()
        self.generics()
        self.held(name)

    def held(self, name):
        """Reads the types of the fields of a struct or of a variant."""
        numbers = iter(range(100))
        fields = {}
        if self.text() == "{":
            fields = dict(self.listed(self.named))
        elif self.text() == "(":
            fields = dict(self.listed(lambda: (str(next(numbers)), self.type(",", ")"))))
        self.source.fields[name] = fields

    def named(self):
        """Reads a field with a name."""
        while self.text(1) != ":":
            self.skip()
        name = self.take()
        self.needs(":")
        return name, self.type(",", "}")

    def constant(self):
        """Reads a constant."""
        name = self.take()
        self.type("=", ";")
        if self.takes("="):
            self.source.constants[name] = self.at
        while self.text() not in (";", ""):
            self.skip()

    def use(self):
        """Reads what a `use` brings."""
        self.brought(())
        self.needs(";")

    def brought(self, path):
        """Reads the rest of a path of `use`."""
        if self.text() == "{":
            self.listed(lambda: self.brought(path))
            return
        path = path + (self.take(),)
        if self.takes("::"):
            self.brought(path)
        else:
            self.source.uses[self.take() if self.takes("as") else path[-1]] = path


class Parser(Cursor):
    """Reads an expression or a pattern."""

    def block(self):
        """Reads a block: its statements, and the expression at its end."""
        end = self.source.pair[self.at]
        self.needs("{")
        statements, last = [], None
        while self.at < end:
            if self.takes("let"):
                statements.append(self.let())
                continue
            begun = self.text()
            last = self.expression(is_statement=True)
            if self.takes(";") or self.at < end:
                statements.append(("do", last))
                last = None
                if self.at < end and self.text(-1) not in (";", "}"):
                    self.refuse("a statement that ends, after " + begun)
        self.at = end + 1
        return ("block", tuple(statements), last)

    def let(self):
        """Reads a `let` after its word."""
        pattern = self.pattern()
        if self.takes(":"):
            self.type("=", ";")
        value = self.expression() if self.takes("=") else OPAQUE
        otherwise = self.block() if self.takes("else") else None
        self.needs(";")
        return ("let", pattern, value, otherwise)

    def expression(self, bare=False, is_statement=False):
        """Reads an expression; a `bare` one has no struct outside of brackets. One that begins a statement ends after its block."""
        begun = self.at
        found = self.unary(bare)
        if is_statement and found[0] in ("if", "match", "block", "loop") and self.at > begun and self.text(-1) == "}" and self.text() not in (".", "?"):
            return found
        while self.text() in BINARY or self.text() == "as":
            if self.takes("as"):
                self.type(",", ")", "]", "}", ";", "{", "=>", *BINARY)
            elif self.take() in ("..", "..=") and self.text() in ("]", ")", ",", "{", ";"):
                pass
            else:
                # The lexer makes two signs of a shift.
                if self.text(-1) in ("<", ">"):
                    self.takes(self.text(-1))
                self.unary(bare)
            found = OPAQUE
        return found

    def unary(self, bare):
        """Reads an expression without an operator between two."""
        if self.takes("&", "&&"):
            self.takes("mut")
            return self.unary(bare)
        if self.takes("*"):
            return self.unary(bare)
        if self.takes("!", "-"):
            self.unary(bare)
            return OPAQUE
        return self.after(self.primary(bare))

    def after(self, found):
        """Reads what follows an expression: calls, fields, methods, indices, `?`."""
        while True:
            if self.text() == "(":
                found = ("call", found, tuple(self.listed(self.expression)))
            elif self.text() == "[":
                self.skip()
                found = OPAQUE
            elif self.takes("?"):
                found = ("try", found)
            elif self.takes("."):
                name = self.take()
                if self.takes("::"):
                    self.generics()
                if self.text() == "(":
                    found = ("method", found, name, tuple(self.listed(self.expression)))
                else:
                    found = ("field", found, name)
            else:
                return found

    def primary(self, bare):
        """Reads a literal, a path, or what a word or a bracket begins."""
        begins = {"(": self.tuple, "[": self.array, "{": self.block, "match": self.match, "if": self.conditional, "return": self.leave,
                  "break": self.leave, "continue": self.leave, "while": self.loop, "for": self.loop, "loop": self.loop}
        if self.kind() == "lifetime":
            self.at += 1
            self.needs(":")
        if self.text() in begins and self.kind() in ("mark", "name"):
            return begins[self.text()]()
        if self.text() in ("true", "false"):
            return ("literal", self.take() == "true")
        if self.kind() == "literal":
            text = self.take()
            return ("literal", text[1:-1]) if text[0] == '"' and "\\" not in text else OPAQUE
        if self.kind() == "number":
            self.at += 1
            return OPAQUE
        return self.path_or_struct(bare)

    def path(self):
        """Reads a path; its generics are left out."""
        if self.kind() != "name":
            self.refuse("a name, and not " + self.text())
        names = [self.take()]
        while self.takes("::"):
            if self.text() == "<":
                self.generics()
            else:
                names.append(self.take())
        return tuple(names)

    def path_or_struct(self, bare):
        """Reads a path, a macro, or a struct."""
        names = self.path()
        if self.text() == "!" and self.text(1) in OPEN:
            self.at += 1
            self.skip()
            return OPAQUE
        if self.text() == "{" and not bare and names[-1][0].isupper():
            fields = self.listed(self.filled)
            return ("struct", names, tuple(fields))
        return ("path", names)

    def filled(self):
        """Reads a field of a struct, or what the others are taken from."""
        if self.takes(".."):
            return "..", self.expression()
        name = self.take()
        return name, self.expression() if self.takes(":") else ("path", (name,))

    def tuple(self):
        """Reads what is in parentheses."""
        is_tuple = self.text(1) == ")" or self.text(self.source.pair[self.at] - self.at - 1) == ","
        found = self.listed(self.expression)
        return found[0] if len(found) == 1 and not is_tuple else ("tuple", tuple(found))

    def array(self):
        """Reads an array."""
        return ("array", tuple(self.listed(self.expression)))

    def match(self):
        """Reads a `match`."""
        self.at += 1
        value = self.expression(bare=True)
        end, arms = self.source.pair[self.at], []
        self.at += 1
        while self.at < end:
            self.takes("|")
            pattern = self.pattern()
            guard = self.expression() if self.takes("if") else None
            self.needs("=>")
            arms.append((pattern, guard, self.expression(is_statement=True)))
            self.takes(",")
        self.at = end + 1
        return ("match", value, tuple(arms))

    def conditional(self):
        """Reads an `if`."""
        self.at += 1
        pattern = None
        if self.takes("let"):
            pattern = self.pattern()
            self.needs("=")
        value = self.expression(bare=True)
        then = self.block()
        otherwise = None
        if self.takes("else"):
            otherwise = self.conditional() if self.text() == "if" else self.block()
        return ("if", pattern, value, then, otherwise)

    def leave(self):
        """Reads a `return`, or the end of a round of a loop."""
        word = self.take()
        value = None if self.text() in (";", "}", ",") or self.kind() == "lifetime" and self.take() else self.expression()
        return ("return", value) if word == "return" else ("end",)

    def loop(self):
        """Reads a loop."""
        if self.take() != "loop":
            if self.takes("let") or self.text(-1) == "for":
                self.pattern()
                self.at += 1
            self.expression(bare=True)
        return ("loop", self.block())

    def pattern(self):
        """Reads a pattern, with those after a `|`."""
        found = [self.one_pattern()]
        while self.takes("|"):
            found.append(self.one_pattern())
        return ("either", tuple(found)) if len(found) > 1 else found[0]

    def one_pattern(self):
        """Reads a pattern. One of a number, of a range or of a slice may be met."""
        while self.takes("&", "ref") or self.kind() == "lifetime" and self.take():
            self.takes("mut")
        if self.takes("mut"):
            return ("variable", self.take())
        if self.takes("_", ".."):
            return ANY
        if self.text() == "(":
            return ("tuple", tuple(self.listed(self.pattern)))
        if self.text() == "[":
            self.skip()
            return OPAQUE
        if self.kind() == "literal" and self.text()[0] == '"':
            return ("literal", self.take()[1:-1])
        if self.kind() in ("number", "literal") or self.text() == "-":
            while self.kind() in ("number", "literal") or self.text() in ("-", "..=", ".."):
                self.at += 1
            return OPAQUE
        if self.text() in ("true", "false"):
            return ("literal", self.take() == "true")
        return self.named_pattern()

    def named_pattern(self):
        """Reads a pattern that begins with a name."""
        names = self.path()
        if self.text() == "(":
            parts = self.listed(self.pattern)
            return ("made", names, tuple((str(n), part) for n, part in enumerate(parts)))
        if self.text() == "{":
            return ("made", names, tuple(self.listed(self.field_pattern)))
        if len(names) == 1 and not names[0][0].isupper():
            return ("name", names[0])
        return ("constant", names[-1]) if names[-1].isupper() and len(names[-1]) > 1 else ("made", names, ())

    def field_pattern(self):
        """Reads the pattern of a field."""
        if self.takes(".."):
            return "..", ANY
        name = self.take()
        return name, self.pattern() if self.takes(":") else ("name", name)
