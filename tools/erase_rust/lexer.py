"""The tokens of Rattle: those of Rust, with one token for each ghost item and for each clause."""
import re

# Kinds of tokens that are text for a reader or for the prover, and not part of the program.
IDLE = frozenset(("space", "comment", "doc", "inner", "ghost", "clause"))

PART = re.compile(
    r"""(?P<space>\s+)
      | (?P<inner>//![^\n]*)
      | (?P<doc>///(?!/)[^\n]*)
      | (?P<comment>//[^\n]*)
      | (?P<literal>b?"(?:\\.|[^"\\])*" | b?'(?:\\u\{[0-9a-fA-F]+\}|\\x[0-9a-fA-F]{2}|\\.|[^\\'\n])')
      | (?P<lifetime>'[A-Za-z_][A-Za-z0-9_]*)
      | (?P<refused>/\* | b?r\#*" | cr?\#*" | r\#[A-Za-z_])
      | (?P<number>[0-9][0-9a-zA-Z_]*(?:\.[0-9][0-9a-zA-Z_]*)?)
      | (?P<name>[A-Za-z_][A-Za-z0-9_]*)
      | (?P<mark>->|=>|::|\.\.=|\.\.|&&|\|\||[-+*/%^&|=!<>]=|[\x21-\x2f\x3a-\x40\x5b-\x60\x7b-\x7e])""",
    re.X | re.S,
)
INDEX = re.compile(r"[0-9]+")
STRING = re.compile(r'"(?:\\.|[^"\\])*"', re.S)
CLAUSE = re.compile(r"(?:requires|ensures)\*?(?:\s+[A-Za-z_][A-Za-z0-9_]*)?\s*(?=\{)")
GHOST = re.compile(r"ghost\s+(?:(use)\b|[A-Za-z_][A-Za-z0-9_]*\s*(?=[:=]))")


class Stop(Exception):
    """Why the tool ends without having written anything."""


class Token:
    """A token: its kind, its text, its line, whether it was removed, and what is written before it."""

    __slots__ = ("kind", "text", "line", "gone", "before")

    def __init__(self, kind, text, line):
        self.kind, self.text, self.line, self.gone, self.before = kind, text, line, False, ""


class Lexer:
    """Reads the tokens of one file."""

    def __init__(self, text, path):
        self.text, self.path, self.at, self.line, self.found = text, path, 0, 1, []

    def tokens(self):
        """Returns all tokens of the file. Their texts together are the file."""
        while self.at < len(self.text):
            met = PART.match(self.text, self.at)
            if met is None:
                self.refuse("a character that Rust doesn't have: %r" % self.text[self.at])
            kind, end = met.lastgroup, met.end()
            if kind == "refused":
                self.refuse("a comment, a string or a name of another form: " + self.shown())
            if kind == "number" and self.text[self.at - 1:self.at] == ".":  # t.0.1
                end = INDEX.match(self.text, self.at).end()
            if kind == "name" and met.group() in ("requires", "ensures"):
                kind, end = "clause", self.clause_end()
            elif kind == "name" and met.group() == "ghost":
                kind, end = "ghost", self.ghost_end()
            self.found.append(Token(kind, self.text[self.at:end], self.line))
            self.line += self.found[-1].text.count("\n")
            self.at = end
        return self.found

    def refuse(self, construct):
        """Stops at what this tool doesn't know."""
        raise Stop("%s:%d: %s" % (self.path, self.line, construct))

    def clause_end(self):
        """Returns the place after the clause that begins here."""
        met = CLAUSE.match(self.text, self.at)
        if met is None:
            self.refuse("a clause of another form: " + self.shown())
        return self.block_end(met.end())

    def ghost_end(self):
        """Returns the place after the ghost item that begins here: `ghost use PATH;` or `ghost NAME [: {..}] [by {..}] [= {..}]` with `;` or `,`."""
        met = GHOST.match(self.text, self.at)
        if met is None:
            self.refuse("a ghost item of another form: " + self.shown())
        at = met.end()
        while self.text[at:at + 1] not in (";", ""):
            char = self.text[at]
            if char == "{":
                at = self.block_end(at)
            elif met.group(1) or char.isspace() or char in ":=":
                at += 1
            elif self.text.startswith("by {", at):
                at += len("by ")
            elif char == ",":
                return at + 1
            elif char == "}":  # the last field of a struct, without a comma
                return at
            else:
                self.refuse("a ghost item of another form: " + self.shown())
        return at + 1

    def block_end(self, at):
        """Returns the place after the block of the prover's language that begins at a place."""
        depth = 0
        while at < len(self.text):
            char = self.text[at]
            if char == '"':
                met = STRING.match(self.text, at)
                at = met.end() if met else len(self.text)
                continue
            depth += (char == "{") - (char == "}")
            at += 1
            if depth == 0:
                return at
        return self.refuse("a block without an end: " + self.shown())

    def shown(self):
        """Returns the beginning of the text from here, for a message."""
        return " ".join(self.text[self.at:self.at + 60].split())
