"""Contracts as documentation: what is proved of a public function, in a form for readers."""
import re

CLAUSE = re.compile(r"(requires|ensures)(\*?)\s*([A-Za-z_0-9]*)\s*\{(.*)\}\s*\Z", re.S)
# Predicates on the result: the form of the result that each argument speaks about, and the name of the value in it.
WRAPPERS = {
    "IfOk": [("Ok", "x")], "OnOk": [("Ok", "")], "IfErr": [("Err", "e")], "OnErr": [("Err", "")], "IfSome": [("Some", "x")],
    "IfNone": [("None", "")], "MatchResult": [("Ok", "x"), ("Err", "e")], "MatchOption": [("None", ""), ("Some", "x")],
}
CALLERS = "Callers make sure of"
MEMORY = "the result is `Ok`, unless memory is refused"
WHOLE = {"IsOk result": "the result is `Ok`", "IsErr result": "the result is `Err`", "IsOkUnlessMemory result": MEMORY}
BINDERS = re.compile(r"(?:\((?:[A-Za-z_0-9]+ )+: [^()]*(?:\([^()]*\)[^()]*)*\)\s*)+")


def split(text, marks):
    """Returns the parts of a formula between marks that are in no brackets, without empty parts."""
    found, depth, first = [], 0, 0
    for met in re.finditer(r'"(?:\\.|[^"\\])*"|.', text):
        depth += {"(": 1, "[": 1, "{": 1, ")": -1, "]": -1, "}": -1}.get(met.group(), 0)
        if met.group() == marks and depth == 0:
            found.append(text[first:met.start()].strip())
            first = met.end()
    return [part for part in found + [text[first:].strip()] if part]


def bare(text):
    """Returns a formula without brackets around all of it."""
    return text[1:-1].strip() if text.startswith("(") and text.endswith(")") and len(split(text, " ")) == 1 else text


def phrase(text):
    """Returns a formula in words as far as these are short, and the rest of it as code."""
    text = text.strip()
    if text in WHOLE:
        return WHOLE[text]
    parts, exact = split(text, "→"), split(text, "↔")
    if len(parts) > 1:
        return ", ".join([_premise(part) for part in parts[:-1]] + [phrase(parts[-1])])
    if len(exact) == 2 and re.fullmatch(r"Is(True|Ok|Some|None|Err) result", exact[0]):
        head = exact[0].split()[0][2:]
        return "the result is `%s` exactly if `%s`" % (head.lower() if head == "True" else head, bare(exact[1]))
    words = split(text, " ")
    if words[0] in WRAPPERS and words[1:2] == ["result"] and len(words) == 2 + len(WRAPPERS[words[0]]):
        return "; ".join(_case(head, value, bare(word)) for (head, value), word in zip(WRAPPERS[words[0]], words[2:]))
    met = BINDERS.match(text)
    if met and text[met.end():].startswith("× "):
        return "there is `%s` with: %s" % (_names(met.group()), phrase(text[met.end() + 2:]))
    return "`%s`" % text


def _case(head, value, text):
    """Returns the words for one form of a result."""
    bound = re.match(r"λ ([A-Za-z_0-9]+)\. ", text)
    if value and bound:
        value, text = bound.group(1), text[bound.end():]
    elif value:
        text = "%s %s" % (text, value)
    return "if `%s`: %s" % ("%s(%s)" % (head, value) if value else head, phrase(text))


def _premise(text):
    """Returns the words for a premise: a condition, or names with their types."""
    return "for each `%s`" % _names(text) if BINDERS.fullmatch(text) else "if " + phrase(bare(text))


def _names(text):
    """Returns names with their types, without the brackets."""
    return "`, `".join(bare(part) for part in split(text, " "))


def readable(clause):
    """Returns a clause as (whether it is a condition for callers, name, text), or None if it speaks to the prover alone."""
    kind, star, name, body = CLAUSE.match(clause).groups()
    body = re.sub(r"\.now\b", "", re.sub(r"\s+", " ", body)).strip()
    return None if star else (kind == "requires", name, phrase(body))


# Where each definition is explained: its name, and the address of the heading. tools/erase fills it if the crate has a public address.
DEFINED = {}


def find_definitions(page, address):
    """Fills DEFINED from the headings of the page of definitions, which is at an address."""
    for heading in re.findall(r"(?m)^###? (.*`.*)$", page):
        anchor = re.sub(r"[^\w\- ]", "", heading.lower()).replace(" ", "-")
        DEFINED.update({name: "%s#%s" % (address, anchor) for name in re.findall(r"`(\w+)`", heading)})


def links(text):
    """Returns a link to the first definition that a clause names, or nothing if the page has none of its names."""
    name = next((name for name in re.findall(r"\w+", text) if name in DEFINED), None)
    return " ([%s](%s))" % (name, DEFINED[name]) if name else ""


def documentation(clauses, has_more, otherwise):
    """Returns the lines that document clauses. `has_more` says whether other documentation is above them. `otherwise` says what a function
    does if its conditions don't hold, and is None if callers have to keep them."""
    found = [one for one in map(readable, clauses) if one]
    needs = "; ".join(text for is_need, _, text in found if is_need)
    lines = ([""] if has_more else []) + ["<details><summary>Proved</summary>", ""]
    if needs:
        lines += ["%s: %s." % (CALLERS, needs) if otherwise is None else "Under this condition: %s. Else %s." % (needs, otherwise), ""]
    lines += ["- %s%s%s" % ("*%s*: " % name.replace("_", " ") if name else "", text, links(text)) for is_need, name, text in found if not is_need]
    lines += ["", "</details>"]
    return "".join("///%s\n" % (" " + line if line else "") for line in lines) if found else ""


def contracts(stream, is_library=True, totals=(), inner=()):
    """Takes the clauses out. Those of public functions and of traits become documentation.

    A public method of a library that has conditions on its callers becomes one that only the crate calls. `totals` has the functions that
    need no such thing, with what each does if its conditions don't hold. `inner` has the names of methods of traits that only the crate
    calls, which documentation leaves out. Returns those of `totals` that it met."""
    owners, met = stream.owners(), set()
    for i in stream.each("fn"):
        end = stream.seek(i, "{", ";")
        clauses = [k for k in range(i, end) if stream.tokens[k].kind == "clause"]
        if not clauses:
            continue
        stream.remove_comments(clauses[0], end)
        for k in clauses + [end] * (stream.text(end) == "{"):
            stream.tokens[k].gone = k != end
            stream.tokens[k - 1].gone = stream.tokens[k - 1].gone or stream.tokens[k - 1].kind == "space"
        stream.tokens[end].before = " " if stream.text(end) == "{" else ""
        start, head = stream.item_start(i)
        is_public = stream.text(head) == "pub" and stream.text(stream.next(head)) != "("
        owner = min(((last - first, what) for first, last, what in owners if first < i < last), default=(0, ""))[1]
        texts, name = [stream.text(k) for k in clauses], stream.text(stream.next(i))
        otherwise = dict(totals).get(name)
        met |= {name} & set(totals)
        needs = any(is_need for is_need, _, _ in filter(None, map(readable, texts)))
        if is_public and owner == "impl" and is_library and needs and otherwise is None:
            _inner(stream, start, head, end)
        elif is_public or owner == "trait":
            docs = [k for k in range(start, head) if stream.tokens[k].kind == "doc" and not stream.tokens[k].gone]
            at = stream.next(docs[-1] if docs else start - 1)
            is_inner = owner == "trait" and name in inner
            stream.tokens[at].before += "#[doc(hidden)]\n" if is_inner else documentation(texts, bool(docs), otherwise)
    for i, token in enumerate(stream.tokens):
        if token.kind == "clause" and not token.gone:
            stream.refuse(i, "a clause in another place: " + " ".join(token.text.split())[:60])
    return met


def _inner(stream, start, head, end):
    """Makes a public method one that only the crate calls, by a macro of the shim."""
    if stream.text(stream.next(head)) != "fn":
        stream.refuse(head, "a method of another form with a condition on its callers")
    stream.tokens[start].before += "crate::shim::inner! {\n"
    stream.remove(head, stream.next(head) - 1)
    close = stream.tokens[stream.close(end)]
    close.text += "\n}"


def tokens_of_crate(stream, names):
    """Gives the methods of traits with these names, and their calls, one more argument that only the crate can make."""
    for i in stream.each(*names) if names else ():
        open_ = stream.next(i)
        if stream.text(open_) != "(" or stream.text(stream.prev(i)) not in ("fn", "::"):
            continue
        close = stream.close(open_)
        comma = "" if stream.text(stream.prev(close)) in ("(", ",") else ", "
        what = "_: crate::shim::Inner" if stream.text(stream.prev(i)) == "fn" else "crate::shim::Inner(())"
        stream.tokens[close].before += comma + what
