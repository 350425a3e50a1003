"""Passes over paths and imports: where each name of Rattle is in the crate of Rust."""
import re

from . import programs
from .known import PATHS, TRAITS

# A name in a format.
NAMED = re.compile(r"\{([A-Za-z_]\w*)[:}]")


def leaves(stream, i, prefix=()):
    """Returns the leaves of the tree of a `use` at i, as (path, alias), and the place after it."""
    path = list(prefix)
    while True:
        if stream.text(i) == "{":
            found, k = [], stream.next(i)
            while k < stream.close(i):
                below, k = leaves(stream, k, path)
                found += below
                k = stream.next(k) if stream.text(k) == "," else k
            return found, stream.next(stream.close(i))
        path.append(stream.text(i))
        after = stream.next(i)
        if stream.text(after) != "::":
            break
        i = stream.next(after)
    alias = None
    if stream.text(after) == "as":
        alias = stream.text(stream.next(after))
        after = stream.next(stream.next(after))
    return [(path[:-1] if path[-1] == "self" else path, alias)], after


class Paths:
    """The paths of one file. `project` has the modules of all crates, the laws, the traits, and what features guard."""

    def __init__(self, stream, project, crate, module):
        self.stream, self.project, self.crate = stream, project, crate
        self.known = {**PATHS, **(programs.PATHS if project.programs else {})}
        self.heads = {path.split("::")[0] for path in self.known}
        self.feature = project.feature([crate] + module)
        self.mentioned = self._mentioned()
        self.has_bounds = any(token.gone and token.text == "Write" for token in stream.tokens)

    def _mentioned(self):
        """Returns the names that the file mentions outside of imports."""
        found, end = set(), 0
        for i in self.stream.each():
            if self.stream.text(i) == "use":
                end = self.stream.seek(i, ";")
            elif i > end and self.stream.is_name(i):
                found.add(self.stream.text(i))
            elif self.stream.tokens[i].kind == "literal":
                found.update(NAMED.findall(self.stream.text(i)))
        return found

    def rewrite(self, path, i):
        """Returns the path in Rust of a path in Rattle, as a list of names, or None if it names what is erased."""
        if path[0] == "crate" or path[0] in self.project.modules:
            crate = self.crate if path[0] == "crate" else path[0]
            if self.project.roots[crate] != "crate":
                return self.project.public.path(path) or self.stream.refuse(i, "a path to what the library doesn't lend: " + "::".join(path))
            return ["crate", "generated", self.project.modules[crate]] + path[1:]
        if path[0] not in self.heads:
            return path
        for n in range(len(path), 0, -1):
            if "::".join(path[:n]) in self.known:
                there = self.known["::".join(path[:n])]
                return None if there is None else self.project.of_shim(there).split("::") + path[n:]
        return self.stream.refuse(i, "a path of the standard library: " + "::".join(path))

    def in_code(self):
        """Rewrites paths in code."""
        stream = self.stream
        heads = {"crate"} | self.heads | set(self.project.modules)
        for i in stream.each():
            if stream.text(i) not in heads or stream.text(stream.next(i)) != "::" or stream.text(stream.prev(i)) in ("::", "."):
                continue
            path, k = [stream.text(i)], i
            while stream.text(stream.next(k)) == "::" and stream.is_name(stream.next(stream.next(k))):
                k = stream.next(stream.next(k))
                path.append(stream.text(k))
            new = self.rewrite(path, i)
            if new is None:
                stream.refuse(i, "a path to a name that is erased: " + "::".join(path))
            stream.replace(i, k, "::".join(new))

    def imports(self):
        """Rewrites imports. Names that are erased and names that only proofs mention go."""
        stream = self.stream
        for i in list(stream.each("use")):
            found, end = leaves(stream, stream.next(i))
            if stream.text(end) != ";" or any(token.kind == "comment" for token in stream.tokens[i:end]):
                stream.refuse(i, "an import of another form")
            kept = [leaf for leaf in (self._import(path, alias, i) for path, alias in found) if leaf]
            start, head = stream.item_start(i)
            if kept:
                visibility = "".join(t.text for t in stream.tokens[head:i] if not t.gone)
                stream.replace(head, end, "\n".join(self._grouped(kept, visibility)))
                stream.tokens[head].kind = "export" if visibility else "import"
            else:
                stream.remove(start, end)

    def _import(self, path, alias, i):
        """Returns what is imported of a leaf: (feature, module, name), or None if nothing is."""
        if path[-1] in self.project.laws:
            return None
        name = alias or path[-1]
        is_public = self.stream.text(self.stream.prev(i)) in ("pub", ")")
        is_mentioned = is_public or name == "*" or name in self.mentioned
        is_trait = name in TRAITS | programs.TRAITS or name in self.project.traits
        new = self.rewrite(path, i) if is_mentioned or is_trait else None
        if new is None or not is_mentioned and new[:2] == ["core", "fmt"] and self.has_bounds:
            return None
        feature = self.project.feature([self.crate] + path[1:] if path[0] == "crate" else path)
        is_on = feature == self.feature or (self.feature, feature) in self.project.implied
        return None if is_on else feature, "::".join(new[:-1]), new[-1] + (" as " + name if name != new[-1] else "")

    @staticmethod
    def _grouped(kept, visibility):
        """Yields the lines that import what is kept: one for each module and feature."""
        groups = {}
        for feature, module, name in kept:
            groups.setdefault((feature, module), []).append(name)
        for (feature, module), names in groups.items():
            if feature:
                yield '#[cfg(feature = "%s")]' % feature
            joined = names[0] if len(names) == 1 else "{%s}" % ", ".join(names)
            yield "%suse %s%s;" % (visibility, module + "::" if module else "", joined)

    def modules(self, base):
        """Yields the modules that the file declares, as (name, place of `mod`). Those that a feature guards get its condition."""
        for i in self.stream.each("mod"):
            name = self.stream.text(self.stream.next(i))
            if self.stream.text(self.stream.next(self.stream.next(i))) == ";":
                feature = self.project.feature([self.crate] + base + [name])
                if name in self.project.hidden and self.stream.text(self.stream.prev(i)) == "pub":
                    self.stream.tokens[self.stream.item_start(i)[1]].before += "#[doc(hidden)]\n"
                if feature != self.feature:
                    self.stream.tokens[self.stream.item_start(i)[1]].before += '#[cfg(feature = "%s")]\n' % feature
                yield name, i
