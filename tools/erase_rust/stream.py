"""The tokens of a file, and functions that find, remove and replace some of them."""
import re

from .lexer import IDLE, Lexer, Stop

PAIRS = {"(": ")", "[": "]", "{": "}"}
VISIBILITY = ("pub", "final", "const", "unsafe")


class Stream:
    """The tokens of a file. A place is an index of a token. It stays the same while tokens are removed and replaced."""

    def __init__(self, text, path):
        self.path, self.tokens, self.shim = path, Lexer(text, path).tokens(), set()
        self.pair = {}  # leads from each bracket to its partner
        open_ = []
        for i, token in enumerate(self.tokens):
            if token.kind == "mark" and token.text in PAIRS:
                open_.append(i)
            elif token.kind == "mark" and token.text in PAIRS.values():
                if not open_ or PAIRS[self.text(open_[-1])] != token.text:
                    self.refuse(i, "a bracket without its partner: " + token.text)
                self.pair[i] = open_.pop()
                self.pair[self.pair[i]] = i
        if open_:
            self.refuse(open_[-1], "a bracket without its partner: " + self.text(open_[-1]))

    def refuse(self, i, construct):
        """Stops at what this tool doesn't know."""
        raise Stop("%s:%d: %s" % (self.path, self.tokens[min(i, len(self.tokens) - 1)].line, construct))

    def live(self, i):
        """Returns whether the token at i is part of the program and not removed."""
        return not self.tokens[i].gone and self.tokens[i].kind not in IDLE

    def next(self, i):
        """Returns the next live token after i."""
        i += 1
        while i < len(self.tokens) and not self.live(i):
            i += 1
        return i

    def prev(self, i):
        """Returns the last live token before i, or -1."""
        i -= 1
        while i >= 0 and not self.live(i):
            i -= 1
        return i

    def text(self, i):
        """Returns the text of the token at i, or nothing outside the file."""
        return self.tokens[i].text if 0 <= i < len(self.tokens) else ""

    def is_name(self, i):
        """Returns whether the token at i is a name."""
        return 0 <= i < len(self.tokens) and self.tokens[i].kind == "name"

    def each(self, *texts):
        """Returns the places of the live tokens with one of these texts, or of all without texts. Tokens that are removed meanwhile are left out."""
        return (i for i, token in enumerate(self.tokens) if self.live(i) and (not texts or token.text in texts))

    def reads(self, i, *texts):
        """Returns whether the live tokens from i on are these."""
        for text in texts:
            if self.text(i) != text:
                return False
            i = self.next(i)
        return True

    def words(self, first, last):
        """Returns the texts of the live tokens from first to last."""
        return [self.text(k) for k in range(first, last + 1) if self.live(k)]

    def seek(self, i, *texts):
        """Returns the first live token at i or after it with one of these texts, outside of brackets that open there."""
        while i < len(self.tokens) and self.text(i) not in texts:
            i = self.next(self.pair[i] if self.text(i) in PAIRS else i)
        if i >= len(self.tokens):
            self.refuse(i, "no %s follows" % " or ".join(texts))
        return i

    def close(self, i):
        """Returns the bracket that closes the one at i. A `<` must be one that opens generics."""
        if self.text(i) != "<":
            return self.pair[i]
        depth = 0
        while i < len(self.tokens) and self.text(i) != ";":
            depth += (self.text(i) == "<") - (self.text(i) == ">")
            if depth == 0:
                return i
            i = self.next(self.pair[i] if self.text(i) in PAIRS else i)
        return self.refuse(i, "generics without an end")

    def opens_generics(self, i):
        """Returns whether the `<` at i opens generics: it follows a name or `::` without a space."""
        k = i - 1
        while k >= 0 and self.tokens[k].gone:
            k -= 1
        return self.text(i) == "<" and (self.is_name(k) or self.text(k) == "::")

    def parts(self, open_, close=None):
        """Returns the parts of a list between brackets, as (first, last, comma after it or None)."""
        close = self.close(open_) if close is None else close
        found, first, last, k = [], None, None, self.next(open_)
        while k < close:
            if self.text(k) == ",":
                found += [(first, last, k)] if first is not None else []
                first = None
            else:
                first = k if first is None else first
                last = k = self.close(k) if self.text(k) in PAIRS or self.opens_generics(k) else k
            k = self.next(k)
        return found + ([(first, last, None)] if first is not None else [])

    def item_start(self, i):
        """Returns two first tokens of the item whose keyword is at i: with its documentation and attributes, and without them."""
        head = i
        while True:
            k = self.prev(head)
            if self.text(k) in VISIBILITY and self.is_name(k):
                head = k
            elif self.text(k) == ")" and self.text(self.prev(self.pair[k])) == "pub":
                head = self.prev(self.pair[k])
            else:
                return self.above(head), head

    def above(self, start):
        """Returns the first token of the documentation, comments and attributes above a token."""
        while True:
            k = start - 1
            while k >= 0 and (self.tokens[k].gone or self.tokens[k].kind == "space" and self.tokens[k].text.count("\n") < 2):
                k -= 1
            if k >= 0 and self.tokens[k].kind in ("doc", "comment"):
                start = k
            elif self.text(k) == "]" and self.live(k) and self.text(self.prev(self.pair[k])) == "#":
                start = self.prev(self.pair[k])
            else:
                return start

    def item_end(self, i):
        """Returns the last token of the item at i: its `;` or the `}` of its body."""
        k = self.seek(i, ";", "{")
        return self.close(k) if self.text(k) == "{" else k

    def generics(self):
        """Yields the place of each `<` that declares generics, with the keyword of its item."""
        for i in self.each("fn", "struct", "enum", "type", "trait", "impl"):
            n = i if self.text(i) == "impl" else self.next(i)
            if self.text(self.next(n)) == "<" and self.is_name(n):
                yield self.next(n), self.text(i)

    def owners(self):
        """Returns the items that have functions, as (first place of the body, last, what it is): an `impl` of a type, an `impl` of a trait
        (`impl for`), or a `trait`."""
        found = []
        for i in self.each("impl", "trait"):
            if self.text(self.prev(i)) not in ("", "}", ";", "]", "pub", ")"):
                continue
            body = self.seek(i, "{", ";")
            if self.text(body) == "{":
                is_of_trait = self.text(i) == "impl" and "for" in self.words(i, body)
                found.append((body, self.close(body), "impl for" if is_of_trait else self.text(i)))
        return found

    def impls(self):
        """Yields each `impl` as (its place, first place of the body, words of its trait, name of its type). An `impl` of a type has no words
        of a trait."""
        for body, _, what in self.owners():
            if what == "trait":
                continue
            i = self.prev(body)
            while self.text(i) != "impl":
                i = self.prev(i)
            first = self.next(i)
            first = self.next(self.close(first)) if self.text(first) == "<" else first
            words = self.words(first, self.prev(body))
            trait, kind = (words[:words.index("for")], words[words.index("for") + 1:]) if "for" in words else ([], words)
            yield i, body, trait, next(word for word in kind if word[0] not in "&'")

    def arguments(self, i):
        """Returns the `(` of the parameters of the function whose `fn` is at i, or None for a type of functions."""
        k = self.next(self.next(i))
        return (self.next(self.close(k)) if self.text(k) == "<" else k) if self.is_name(self.next(i)) else None

    def remove(self, first, last=None):
        """Removes the tokens from first to last."""
        for k in range(first, (first if last is None else last) + 1):
            self.tokens[k].gone = True

    def remove_comments(self, first, last):
        """Removes the comments from first to last."""
        for token in self.tokens[first:last + 1]:
            token.gone = token.gone or token.kind == "comment"

    def replace(self, first, last, text):
        """Replaces the tokens from first to last by a text."""
        self.remove(first, last)
        token = self.tokens[first]
        token.kind, token.text, token.gone = "name", text, False

    def remove_space(self, i, lines=False):
        """Removes the space at i, if there is one. A space with a line break goes only if `lines` is true."""
        if i < len(self.tokens) and self.tokens[i].kind == "space" and (lines or "\n" not in self.tokens[i].text):
            self.remove(i)

    def remove_part(self, parts, n):
        """Removes part n of a list, with a comma."""
        first, last, comma = parts[n]
        self.remove(first, last)
        if comma is None:
            before = [k for _, _, k in parts[:n] if not self.tokens[k].gone]
            comma = before[-1] if before else None
        if comma is not None:
            self.remove(comma)
            self.remove_space(comma + 1, lines=comma < first)

    def remove_parts(self, open_, numbers):
        """Removes parts of the list at a bracket, and the brackets if no part is left."""
        close, parts = self.close(open_), self.parts(open_)
        for n in numbers:
            self.remove_part(parts, n)
        if numbers and len(numbers) == len(parts):
            self.remove(open_, close)

    def where_parts(self, i):
        """Returns the parts of the `where` at i, up to the `{` or `;` after it."""
        return self.parts(i, self.seek(i, "{", ";"))

    def remove_where(self, i, numbers):
        """Removes parts of the `where` at i, and the word if no part is left."""
        parts = self.where_parts(i)
        for n in numbers:
            self.remove_part(parts, n)
        if len(numbers) == len(parts):
            self.remove(i)

    def written(self):
        """Returns the text of what is left. A line goes if all of it was removed."""
        text = "".join("\0" if t.gone else t.before + t.text for t in self.tokens)
        lines = [(line, line.replace("\0", "").rstrip()) for line in text.split("\n")]
        text = "\n".join(bare for line, bare in lines if bare or "\0" not in line)
        text = re.sub(r"\{\n\n+", "{\n", re.sub(r"\n{3,}", "\n\n", text))
        return re.sub(r"\n\n(\s*\})", r"\n\1", text).strip() + "\n"
