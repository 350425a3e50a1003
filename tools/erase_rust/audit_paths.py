"""Where paths lead in the Rust crates, by their own files. The audit compares paths by it, and nothing else uses it."""
import os
import re

TOKEN = re.compile(r"""//[^\n]*|#!?\[(?:[^\[\]"]|"[^"]*"|\[[^\]]*\])*\]|b?"(?:\\.|[^"\\])*"|b?'(?:\\.[^']*|[^'\\])'|'[a-z_]\w*|\w+|::|->|=>|\s+|.""", re.S)
PATH = re.compile(r"(?<![\w:])(?:generated|goblin_mach)(?:::\w+)+")
ITEMS = ("struct", "enum", "fn", "trait", "const", "type", "static")


def leaves(tree):
    """Returns the paths of the tree of an import."""
    head, brace, rest = tree.partition("{")
    if not brace:
        return {re.sub("::self$", "", tree)} if tree else set()
    found, depth, part = set(), 0, ""
    for char in rest[:rest.rindex("}")] + ",":
        depth += (char == "{") - (char == "}")
        if char == "," and depth == 0:
            found |= {head + leaf if leaf != "self" else head[:-2] for leaf in leaves(part)}
            part = ""
        else:
            part += char
    return found


class Places:
    """The names in each module of the crates. All crates have one root, since each names its own generated modules by `crate`."""

    def __init__(self, top, library, others):
        self.names, self.globs = {}, {}
        for folder, is_all in [(library, True)] + [(folder, False) for folder in others]:
            for place, _, names in os.walk(os.path.join(top, folder)):
                for name in sorted(names):
                    path = os.path.relpath(os.path.join(place, name), os.path.join(top, folder))[:-len(".rs")].split(os.sep)
                    if is_all or path[0] == "generated":
                        path = path[:-1] if path[-1] in ("mod", "lib") else path
                        with open(os.path.join(place, name), encoding="utf-8") as file:
                            self._read(tuple(path), TOKEN.findall(file.read()))

    def _read(self, module, tokens):
        """Reads the declarations of a file's module and of the modules in it."""
        words = [token for token in tokens if not token.isspace() and not token.startswith(("//", "#["))]
        open_, depth, i = [(module, 0)], 0, 0
        self.names.setdefault(module, {})
        while i < len(words):
            module, own = open_[-1]
            depth += (words[i] == "{") - (words[i] == "}")
            if depth < own:
                open_.pop()
            elif depth == own and words[i] == "use":
                end = words.index(";", i)
                self._import(module, " ".join(words[i + 1:end]))
                i = end
            elif depth == own and words[i] == "mod" or depth == own and words[i] in ITEMS:
                self.names[module][words[i + 1]] = (*module, words[i + 1])
                if words[i] == "mod" and words[i + 2] == "{":
                    depth += 1
                    open_.append(((*module, words[i + 1]), depth))
                    self.names.setdefault(open_[-1][0], {})
                    i += 2
            i += 1

    def _import(self, module, tree):
        """Adds the names that an import brings."""
        for leaf in leaves(re.sub(r"(?<!\bas)\s+(?!as\b)", "", tree)):
            path, _, alias = leaf.partition(" as ")
            path, base = path.split("::"), module
            while path[0] == "super":
                path, base = path[1:], base[:-1]
            to = tuple(path[1:]) if path[0] in ("crate", "goblin_mach") else (*base, *path)
            if path[-1] == "*":
                self.globs.setdefault(module, []).append(to[:-1])
            else:
                self.names[module].setdefault(alias or path[-1], to)

    def _named(self, module, name, seen):
        """Returns where a name of a module is declared, or None."""
        to = self.names.get(module, {}).get(name)
        if to == (*module, name):
            return to
        if (module, name) in seen:
            return None
        seen = seen | {(module, name)}
        if to is not None:
            at, rest = self.find(to, seen)
            return None if rest else at
        for glob in self.globs.get(module, ()):
            at, rest = self.find(glob, seen)
            found = None if rest else self._named(at, name, seen)
            if found is not None:
                return found
        return None

    def find(self, path, seen=frozenset()):
        """Returns where the longest beginning of a path leads, and the rest of the path."""
        at = ()
        for n, name in enumerate(path):
            to = self._named(at, name, seen)
            if to is None:
                return at, tuple(path[n:])
            at = to
        return at, ()

    def same(self, text):
        """Returns a text in which each path to an item of the crates is the one at which the item is declared."""
        def declared(met):
            at, rest = self.find(tuple(met[0].removeprefix("goblin_mach::").split("::")))
            return met[0] if not at else "::".join(((() if at[0] == "generated" else ("crate",)) + at + rest))
        return PATH.sub(declared, text)
