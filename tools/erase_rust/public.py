"""Where other crates of Rust find the items of the library: by their public paths, or in its hidden module `internals`."""
import os
import re

from .known import SHIM
from .lexer import Stop
from .paths import leaves
from .stream import Stream

# What declares a name in a module, and the marks at one of which the item ends.
ENDS = {"struct": "{;", "enum": "{", "trait": "{", "fn": "{;", "type": ";", "const": ";", "mod": "{;", "use": ";", "impl": "{", "macro_rules": "{"}
# What is written by hand in Rust is a crate of this name. It has the public names.
HAND = "by hand"
# The most names in a public path.
LONGEST = 6


class Modules:
    """The names in all modules of some crates. A module and an item have a path of names, which begins with the crate."""

    def __init__(self, project, crates):
        self.project, self.seen = project, []
        self.names = {}  # from a module to its names: whether each is public, and the path that it stands for
        self.globs = {}  # from a module to those of which it has all names, in the same form
        for crate in crates:
            for path, stream in project.streams_of(crate):
                self._read(stream, -1, len(stream.tokens), (crate, *path))

    def read_by_hand(self, folder):
        """Reads the files of Rust that are written by hand: `lib.rs` of a folder, the facade and the shim."""
        for place, _, names in os.walk(folder):
            path = [] if place == folder else os.path.relpath(place, folder).split(os.sep)
            for name in sorted(names) if path[:1] in ([], ["facade"], ["shim"]) else ():
                module = path if name in ("lib.rs", "mod.rs") else path + [name.removesuffix(".rs")]
                with open(os.path.join(place, name), encoding="utf-8") as file:
                    stream = Stream(file.read(), os.path.join(place, name))
                self._read(stream, -1, len(stream.tokens), (HAND, *module))

    def _read(self, stream, open_, end, module):
        """Reads the declarations of a module between two places."""
        found, i = self.names.setdefault(module, {}), stream.next(open_)
        while i < end:
            word, name = stream.text(i), stream.next(i)
            if word in ENDS and (word in ("use", "impl", "macro_rules") or stream.is_name(name) and stream.text(name) != "fn"):
                last = stream.seek(name, *ENDS[word])
                head = stream.item_start(i)[1]
                is_public = stream.text(head) == "pub" and stream.text(stream.next(head)) != "("
                if word == "use":
                    self._import(module, is_public, leaves(stream, name)[0])
                elif word not in ("impl", "macro_rules"):
                    there = (is_public, (*module, stream.text(name)))
                    found[stream.text(name)] = found.get(stream.text(name), there) if word == "mod" else there
                if word == "mod" and stream.text(last) == "{":
                    self._read(stream, last, stream.close(last), (*module, stream.text(name)))
                i = last
            i = stream.next(stream.pair[i] if stream.text(i) in ("(", "[", "{") else i)

    def _import(self, module, is_public, found):
        """Adds what an import of a module brings."""
        for path, alias in found:
            to = self._path(path, module)
            if path[-1] == "*":
                self.globs.setdefault(module, []).append((is_public, to[:-1]))
            else:
                self.names[module].setdefault(alias or path[-1], (is_public, to))

    def _path(self, path, module):
        """Returns the path that an import in a module names."""
        base = module
        while path[0] == "super":
            base, path = base[:-1], path[1:]
        to = (module[0], *path[1:]) if path[0] == "crate" else (*base, *path) if path[0] not in self.project.modules else tuple(path)
        if to[:2] == (HAND, "generated"):
            crate = next((crate for crate, name in self.project.modules.items() if name == to[2]), None)
            return (crate, *to[3:]) if crate else to
        return to

    def _named(self, module, name):
        """Returns the path that a name of a module stands for, or None."""
        if name in self.names.get(module, {}):
            return self.names[module][name][1]
        for _, to in self.globs.get(module, ()):
            if to not in self.seen:
                self.seen.append(to)
                origin, rest = self.origin((*to, name))
                self.seen.pop()
                if not rest:
                    return origin
        return None

    def origin(self, path):
        """Returns the path at which the item or module of the longest beginning of a path is declared, and the rest of the path."""
        at = tuple(path[:1])
        for n, name in enumerate(path[1:], 1):
            if n + 1 < len(path) and (*at, name) in self.names:
                at = (*at, name)
                continue
            to = self._named(at, name)
            if to != (*at, name):
                if to is None or to in self.seen:
                    return at, tuple(path[n:])
                self.seen.append(to)
                to, rest = self.origin(to)
                self.seen.pop()
                if rest:
                    return at, tuple(path[n:])
            at = to
        return at, ()

    def reached(self, module, at, hidden=()):
        """Returns the public paths below a module that users have at a path, by the origin of each. A module that has all names of another one
        is as good as that."""
        found, left = {}, [(module, at, set())]
        while left:
            module, at, shadowed = left.pop()
            found.setdefault(module, set()).add(at)
            names = self.names.get(module, {})
            for name, (is_public, to) in names.items():
                origin, rest = self.origin(to)
                if is_public and name not in hidden and name not in shadowed and not rest and len(at) < LONGEST:
                    left.append((origin, (*at, name), set()))
            for is_public, to in self.globs.get(module, ()):
                origin, rest = self.origin(to)
                if is_public and not rest:
                    left.append((origin, at, shadowed | names.keys()))
        return found


class Public:
    """The public paths of a library, and what it lends beside them in its hidden module `internals`: items of its crates and of its shim."""

    def __init__(self, project, library):
        self.project, self.library, self.lent = project, library, {}
        folder = os.path.join(project.top, "rust", library, "src")
        self.modules = Modules(project, [crate for crate, root in project.roots.items() if root == library])
        self.modules.read_by_hand(folder)
        self.paths = self.modules.reached((HAND,), (), project.hidden)
        self.shim = names_of_shim(os.path.join(folder, "shim", "mod.rs"))

    def path(self, path):
        """Returns the path in Rust of a path to an item of the library, or None if it has no name for users and can't be lent."""
        origin, rest = self.modules.origin(path)
        if origin in self.paths:
            return [self.library, *_shortest(self.paths[origin]), *rest]
        place = (self.project.modules[origin[0]], origin[-1])
        if len(origin) == 1 or self.lent.setdefault(place, origin) != origin:
            return None
        return [self.library, "internals", *place, *rest]

    def path_of_shim(self, name):
        """Returns the path of a name that a file takes of a shim: of that of its own crate, or of the library's."""
        origin, _ = self.modules.origin((HAND, "shim", name))
        if origin in self.paths and origin[-1] == name:
            return [self.library, *_shortest(self.paths[origin])]
        if name not in self.shim:
            return [*SHIM.split("::"), name]
        self.lent["shim", name] = (name,)
        return [self.library, "internals", "shim", name]

    def lend_by_hand(self, folder):
        """Lends what the sources that are written by hand take of the library's shim: those of a folder, without what was generated."""
        for place, _, names in os.walk(folder):
            for name in names if "generated" not in place.split(os.sep) else ():
                with open(os.path.join(place, name), encoding="utf-8") as file:
                    for met in re.finditer(r"\b%s::internals::shim::(\w+|\{[^}]*\})" % self.library, file.read()):
                        self.lent.update({("shim", item): (item,) for item in re.findall(r"\w+", met[1])})


def _shortest(paths):
    """Returns the shortest of some paths."""
    return min(paths, key=lambda path: (len(path), path))


def names_of_shim(path):
    """Returns the names that the shim of the library has for other crates, and the feature that guards each, or None."""
    text = open(path, encoding="utf-8").read() if os.path.exists(path) else ""
    found = re.findall(r'(?m)^(?:#\[cfg\(feature = "(\w+)"\)\]\n)?pub (?:(?:fn|struct|trait|mod) (\w+)|use \w+::(\w+);)', text)
    return {one or other: feature or None for feature, one, other in found}


def internals(library, users):
    """Returns the text of the module `internals` of a library, which lends what other projects need."""
    lent, lender = {}, users[0].public
    for user in users:
        for place, origin in user.public.lent.items():
            if lent.setdefault(place, origin) != origin:
                raise Stop("two items of the name %s would be lent" % "::".join(place))
    crates, lines = {name: crate for crate, name in library.own()}, []
    for module in sorted({module for module, _ in lent}):
        crate = crates.get(module)
        reached = lender.modules.reached((crate,), ("generated", module)) if crate else {}
        feature = library.feature([crate]) if crate else None
        lines += _guard(feature) + ["pub mod %s {" % module]
        for origin in sorted(origin for (place, _), origin in lent.items() if place == module):
            inner = library.feature(origin) if crate else lender.shim[origin[-1]]
            path = _shortest(reached[origin]) if crate else ("shim", *origin)
            lines += _guard(inner if inner != feature else None) + ["pub use crate::%s;" % "::".join(path)]
        lines.append("}")
    return "\n".join(lines) + "\n"


def _guard(feature):
    """Returns the line with which a feature guards an item."""
    return ['#[cfg(feature = "%s")]' % feature] if feature else []
