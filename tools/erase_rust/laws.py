"""Laws: functions that prove something and do nothing."""


def law_calls(stream, i):
    """Returns the names that the body of the function at i calls, or None if the function can't be a law. A law has a clause, no self and
    no result, and its body has only calls."""
    open_ = stream.arguments(i)
    if open_ is None or "self" in stream.words(open_, stream.close(open_)):
        return None
    body = stream.seek(stream.close(open_), "{", ";")
    if stream.text(body) == ";" or "->" in stream.words(stream.close(open_), body):
        return None
    if not any(token.kind == "clause" for token in stream.tokens[open_:body]):
        return None
    called, k = [], stream.next(body)
    while k < stream.close(body):
        while stream.text(stream.next(k)) == "::":
            k = stream.next(stream.next(k))
        open_ = stream.next(k)
        if not stream.is_name(k) or stream.text(open_) != "(":
            return None
        called.append(stream.text(k))
        k = stream.next(stream.close(open_))
        if stream.text(k) != ";":
            return None
        k = stream.next(k)
    return called


def find_laws(streams):
    """Returns the names of all laws. The body of a law calls laws alone. A name that another function has too is the name of no law."""
    calls, others = {}, set()
    for stream in streams:
        for i in stream.each("fn"):
            called = law_calls(stream, i)
            if called is not None:
                calls.setdefault(stream.text(stream.next(i)), []).extend(called)
            elif stream.is_name(stream.next(i)):
                others.add(stream.text(stream.next(i)))
    laws = set(calls) - others
    while (fewer := {name for name in laws if laws.issuperset(calls[name])}) != laws:
        laws = fewer
    return laws


def remove_laws(stream, laws):
    """Removes laws and calls of them."""
    for i in stream.each():
        if stream.text(i) == "fn" and stream.text(stream.next(i)) in laws and law_calls(stream, i) is not None:
            stream.remove(stream.item_start(i)[0], stream.item_end(i))
        elif stream.text(i) in laws and stream.text(stream.next(i)) == "(" and stream.text(stream.prev(i)) != "fn":
            _remove_call(stream, i)


def _remove_call(stream, i):
    """Removes the call of a law, which is a statement."""
    start = i
    while stream.text(stream.prev(start)) == "::":
        start = stream.prev(stream.prev(start))
    end = stream.next(stream.close(stream.next(i)))
    if stream.text(stream.prev(start)) not in ("{", "}", ";") or stream.text(end) != ";":
        stream.refuse(i, "the call of a law in another form: " + stream.text(i))
    stream.remove(start, end)

