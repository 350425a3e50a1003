"""Finds the mutants of generated Rust sources, and writes sources that have them. tools/mutants says what a mutant is."""
import hashlib
import os
import re

TOKEN = re.compile(
    r"""(?P<space>\s+|//[^\n]*|/\*.*?\*/)
    |(?P<text>b?"(?:[^"\\]|\\.)*"|b?r(?P<hashes>\#*)".*?"(?P=hashes))
    |(?P<char>b?'(?:[^'\\]|\\(?:x[0-9a-f]{2}|u\{[0-9a-f]+\}|.))')
    |(?P<life>'\w+)
    |(?P<number>\d[\w]*(?:\.\d\w*)?)
    |(?P<word>[A-Za-z_]\w*)
    |(?P<mark>\.\.=|<<=|>>=|\.\.\.|->|=>|==|!=|<=|>=|&&|\|\||::|\.\.|\+=|-=|\*=|/=|%=|\^=|&=|\|=|.)""",
    re.S | re.X,
)
OPEN, CLOSED = {"(": ")", "[": "]", "{": "}"}, {")", "]", "}"}
BOUNDS = {"<": "<=", "<=": "<", ">": ">=", ">=": ">"}
# The words that begin a statement that can't be left out.
NO_STATEMENT = set("let return break continue use const static fn struct enum impl loop for while if match macro_rules".split())


class Token:
    def __init__(self, kind, text, start):
        self.kind, self.text, self.start, self.end, self.pair = kind, text, start, start + len(text), None


def tokens_of(source):
    """Returns the tokens of a source, each bracket with the number of the other one of its pair."""
    found = [Token(it.lastgroup if it.lastgroup != "hashes" else "text", it[0], it.start()) for it in TOKEN.finditer(source)]
    found = [it for it in found if it.kind != "space"]
    opened = []
    for number, token in enumerate(found):
        if token.kind == "mark" and token.text in OPEN:
            opened.append(number)
        elif token.kind == "mark" and token.text in CLOSED:
            token.pair = opened.pop()
            found[token.pair].pair = number
    return found


def types_of(source, tokens, opened):
    """Returns the types of the parameters in these parentheses, without that of `self`."""
    at, first, depth, found = opened + 1, opened + 1, 0, []
    while at <= tokens[opened].pair:
        token = tokens[at]
        depth += {"<": 1, ">": -1}.get(token.text, 0)
        if at == tokens[opened].pair or token.text == "," and not depth:
            found.append(" ".join(source[tokens[first].start : token.start].split()))
            first = at + 1
        at = token.pair + 1 if token.text in OPEN else at + 1
    return tuple(it.partition(":")[2].strip() for it in found if it and not it.endswith("self"))


class Mutant:
    """A change: the range of the source that it is about, what is written before and after that, or what is put in its place if it is selected."""

    def __init__(self, file, function, kind, start, end, before, after, other=None):
        self.file, self.function, self.kind, self.start, self.end = file, function, kind, start, end
        self.before, self.after, self.other, self.name, self.id, self.line, self.shown = before, after, other, None, None, 0, ""


class Maker:
    """Finds the mutants of a source."""

    def __init__(self, file, source):
        self.file, self.source, self.tokens, self.made, self.known = file, source, tokens_of(source), [], {}

    def signatures(self):
        """Yields the functions, each by its name and the types of its parameters."""
        for number, token in enumerate(self.tokens[:-1]):
            if token.text == "fn" and self.tokens[number + 1].kind == "word":
                opened = next(it for it in range(number, len(self.tokens)) if self.tokens[it].text == "(")
                yield self.tokens[number + 1].text, types_of(self.source, self.tokens, opened)

    def all(self, known):
        """Returns the mutants, given the types of each name's functions."""
        number, self.known = 0, known
        while number < len(self.tokens):
            token = self.tokens[number]
            if token.text == "fn" and self.tokens[number + 1].kind == "word":
                self.function = self.tokens[number + 1].text
                number = self.body_of(number)
            number += 1
        counts = {}
        for it in self.made:
            counts[it.function, it.kind] = counts.get((it.function, it.kind), 0) + 1
            it.name = f"{self.file} {it.function} {it.kind} {counts[it.function, it.kind]}"
            it.line = self.source.count("\n", 0, it.start) + 1
            it.shown = " ".join(self.source[it.start : it.end].split())
        return self.made

    def body_of(self, number):
        """Finds those of the function at a token, and returns the number of its last one."""
        while self.tokens[number].text not in ("{", ";"):
            number = self.tokens[number].pair if self.tokens[number].text in ("(", "[") else number + 1
        if self.tokens[number].text == ";":
            return number
        end = self.tokens[number].pair
        self.statements(number, end)
        at = number + 1
        while at < end:
            at = self.token(at)
        return end

    def add(self, kind, first, last, before, after, other=None):
        self.made.append(Mutant(self.file, self.function, kind, self.tokens[first].start, self.tokens[last].end, before, after, other))

    def token(self, at):
        """Finds those that begin at a token, and returns the number of the next token to look at."""
        token, last, following = self.tokens[at], self.tokens[at - 1], self.tokens[at + 1]
        if token.text in ("#", "&") and following.text == "[":
            return following.pair + 1
        # (A pattern.)
        if token.text in OPEN and self.tokens[token.pair + 1].text in ("=>", "|", "if"):
            return token.pair + 1
        if token.text in ("const", "static"):
            while self.tokens[at].text != ";":
                at = self.tokens[at].pair + 1 if self.tokens[at].text in OPEN else at + 1
            return at + 1
        if token.kind == "word" and following.text == "!" and self.tokens[at + 2].text in OPEN:
            return self.tokens[at + 2].pair + 1
        if following.text in ("=>", "|") or last.text == "|":
            return at + 1
        if token.kind == "number" and last.text != "." and not (last.text == ";" and following.text == "]"):
            is_whole = last.text in ("(", ",") and following.text in (")", ",")
            self.add("number", at, at, f"crate::mutants::{'argument' if is_whole else 'number'}({{id}}, ", ")")
        elif token.text in ("true", "false"):
            self.add("flag", at, at, "crate::mutants::flipped({id}, ", ")")
        elif token.kind == "text" and not token.text.startswith("b"):
            self.add("text", at, at, "crate::mutants::text({id}, ", f', concat!({token.text}, "~"))')
        elif token.text == "if" and following.text != "let":
            self.condition(at + 1)
        elif token.kind == "word" and following.text == "(" and token.text not in ("for", "in", "match", "Some", "Ok"):
            self.arguments(at + 1)
        return at + 1

    def condition(self, first):
        at, marks = first, []
        while self.tokens[at].text not in ("{", "=>"):
            marks.append(at)
            at = self.tokens[at].pair + 1 if self.tokens[at].text in OPEN else at + 1
        if any(self.tokens[it].text == "let" for it in marks):
            return
        self.add("condition", first, at - 1, "crate::mutants::flipped({id}, ", ")")
        bounds = [it for it in marks if self.tokens[it].text in BOUNDS and self.tokens[it - 1].text != "::"]
        if len(bounds) == 1 and not any(self.tokens[it].text in ("&&", "||", "::") for it in marks):
            sign = self.tokens[bounds[0]]
            other = self.source[self.tokens[first].start : sign.start] + BOUNDS[sign.text] + self.source[sign.end : self.tokens[at - 1].end]
            self.add("bound", first, at - 1, "(if crate::mutants::is({id}) {{ {other} }} else {{ ", " })", other)

    def arguments(self, opened):
        """Finds the pairs of arguments that follow each other, are names, perhaps borrowed, and have one type, by all functions of the called name."""
        end = self.tokens[opened].pair
        parts, first, at = [], opened + 1, opened + 1
        while at <= end:
            if self.tokens[at].text == "," or at == end:
                parts.append((first, at - 1))
                first = at + 1
            at = self.tokens[at].pair + 1 if at < end and self.tokens[at].text in OPEN else at + 1
        simple = re.compile(r"&?(?:mut )?(?:self\.)?[a-z_][\w.]*")
        texts = [self.source[self.tokens[a].start : self.tokens[b].end] for a, b in parts if a <= b]
        name = self.tokens[opened - 1].text
        known = [it for it in self.known.get(name, ()) if len(it) == len(texts)]
        if self.tokens[opened - 2].text in (".", "::", "fn") or not known:
            return
        for one in range(len(texts) - 1):
            is_one_type = all(it[one] == it[one + 1] for it in known)
            if texts[one] != texts[one + 1] and simple.fullmatch(texts[one]) and simple.fullmatch(texts[one + 1]) and is_one_type:
                other = f"{name}({', '.join(texts[:one] + [texts[one + 1], texts[one]] + texts[one + 2 :])})"
                self.add("order", opened - 1, end, "(if crate::mutants::is({id}) {{ {other} }} else {{ ", " })", other)

    def statements(self, opened, end):
        """Finds the statements that can be left out, in a block and the blocks within it."""
        at = first = opened + 1
        while at < end:
            token = self.tokens[at]
            if token.text == ";":
                if self.tokens[first].kind == "word" and self.tokens[first].text not in NO_STATEMENT or self.tokens[first].text == "*":
                    self.add("statement", first, at, "if !crate::mutants::is({id}) {{ ", " }")
                first = at + 1
            elif token.text in OPEN:
                if token.text == "{":
                    self.statements(at, token.pair)
                else:
                    self.inner_blocks(at, token.pair)
                at = token.pair
                if token.text == "{" and self.tokens[at + 1].text not in (";", ".", "?", ")", ",", "else", "as"):
                    first = at + 1
            at += 1

    def inner_blocks(self, opened, end):
        at = opened + 1
        while at < end:
            if self.tokens[at].text == "{":
                self.statements(at, self.tokens[at].pair)
                at = self.tokens[at].pair
            at += 1


def rendered(source, mutants):
    """Returns a source with mutants, as bytes, and the range of each there. One mutant lies within another, after it, or before it."""
    made, ranges = bytearray(), {}

    def render(start, end, inner):
        at = start
        while inner:
            one = inner[0]
            within = [it for it in inner[1:] if it.end <= one.end]
            inner = [it for it in inner[1:] if it.end > one.end]
            made.extend(source[at : one.start].encode())
            begun = len(made)
            made.extend(one.before.format(id=one.id, other=one.other).encode())
            render(one.start, one.end, within)
            made.extend(one.after.encode())
            ranges[one.id], at = (begun, len(made)), one.end
        made.extend(source[at:end].encode())

    render(0, len(source), sorted(mutants, key=lambda it: (it.start, -it.end, it.id)))
    return bytes(made), ranges


def found_in(folder):
    """Returns all mutants of the folders in a folder, in the order in which they are chosen."""
    makers, known = [], {}
    for place, folders, names in os.walk(folder):
        folders.sort()
        for name in sorted(names):
            file = os.path.relpath(os.path.join(place, name), folder)
            if file.endswith(".rs") and "/" in file:
                with open(os.path.join(place, name), encoding="utf-8") as it:
                    makers.append(Maker(file, it.read()))
    for maker in makers:
        for name, types in maker.signatures():
            known.setdefault(name, set()).add(types)
    return sorted((it for maker in makers for it in maker.all(known)), key=lambda it: hashlib.sha256(it.name.encode()).digest())
