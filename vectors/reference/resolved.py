"""Where the bound names of a program are found. The definitions are those of crates/mach_resolve/specs."""

from collections import namedtuple
from itertools import islice

from . import chains, trie
from .files import ARCHIVE, THIN, Archive, fat_file
from .image import USED_REEXPORT, USED_WEAK, open_image, use_flags
from .providers import provider_of
from .reading import Fault, bad_magic, malformed, quoted, words

EXECUTE = 2
ABSOLUTE_KIND, WEAK_DEFINITION = 2, 0x04

# A file that is used: its number, 0 for the program, its name, and the image.
File = namedtuple("File", "number name image")
# A name that is looked up in a library.
Symbol = namedtuple("Symbol", "library name")
# Where a name is: the words of an answer, whether it is found, and the library that is absent, if one is.
Place = namedtuple("Place", "words is_found absent")


class Refused(Exception):
    """A file is refused: its number, and the fault."""

    def __init__(self, number, fault):
        super().__init__(number, fault)
        self.number, self.fault = number, fault


def of_file(number, function, *arguments):
    """Returns what the function returns. A fault that it raises refuses a file."""
    try:
        return function(*arguments)
    except Fault as fault:
        raise Refused(number, fault) from None


# ---- the files

def image_for(data, cputype):
    """Opens what a library has for a cpu: itself, or the first entry for the cpu of a fat file; None if it has nothing."""
    if data[:8] in (ARCHIVE, THIN):
        Archive(data)
        raise bad_magic(int.from_bytes(ARCHIVE[:4], "big"))
    if len(data) < 4:
        raise malformed()
    fat = fat_file(data)
    if fat:
        entry = next((arch for arch in fat.records() if arch.cputype == cputype), None)
        return None if entry is None else open_image(fat.slice(entry))
    image = open_image(data)
    return image if image.header.cputype == cputype else None


def name_of(image, path):
    return image.ids[-1] if image.ids else path


class Files:
    """The files that are used, by their names, and the lines about those that aren't."""

    def __init__(self, program, libraries):
        path, data = program
        own = of_file(0, open_image, data)
        self.all = {name_of(own, path): File(0, name_of(own, path), own)}
        self.unused = []
        for number, (path, data) in enumerate(libraries, 1):
            image = of_file(number, image_for, data, own.header.cputype)
            if image is None:
                self.unused.append(f"unused {number} nothing-for {own.header.cputype:#x}")
            else:
                self.add(File(number, name_of(image, path), image))

    def add(self, file):
        if file.name in self.all:
            self.unused.append(f"unused {file.number} given-before ({quoted(file.name)})")
        else:
            self.all[file.name] = file

    def closure(self, edges):
        """Follows edges from one library to another, and those of each file that is met first before the next. Returns the files in this order, and the
        first edge that leads to no file."""
        met, gap, left = {}, None, list(reversed(edges))
        while left:
            edge = left.pop()
            file = self.all.get(edge[1])
            if file is None:
                gap = gap or edge
            elif file.name not in met:
                met[file.name] = file
                left += reversed(reexports(file))
        return list(met.values()), gap

    def all_in_order(self):
        return self.closure([(name, name) for name in self.all])[0]


def reexports(file):
    """Returns an edge to each library that a file re-exports as a whole."""
    image = file.image
    return [(file.name, name) for name, command in zip(image.libs[1:], image.libraries) if use_flags(image, command) & USED_REEXPORT]


# ---- names

def says(file, name):
    """Returns the export of a name in the file's own trie, or None."""
    return of_file(file.number, trie.look_up, file.image, name)


def first_that_says(files, name):
    """Returns the first file whose own trie has a name, and the export; None if there is none."""
    return next(((file, export) for file, export in ((file, says(file, name)) for file in files) if export), None)


def found(file, export):
    how = "absolute" if export.flags & 3 == ABSOLUTE_KIND else "at"
    return Place(f"found in {file.number} {how} {export.address:#x}", True, None)


def nowhere(word, *names):
    return Place(f"{word} ({' '.join(map(quoted, names))})" if names else word, False, None)


def at_export(files, file, export, name):
    """Returns where an export leads to: to its address, or to the place of the symbol that it re-exports."""
    return found(file, export) if export.library is None else follow(files, Symbol(export.library, export.name or name))


def follow(files, symbol):
    """Returns where a symbol leads to, by the re-exports of tries."""
    met = []
    while symbol not in met:
        met.append(symbol)
        if symbol.library not in files.all:
            return Place(f"no-library ({quoted(symbol.library)})", False, symbol.library)
        closure, gap = files.closure([(symbol.library, symbol.library)])
        first = first_that_says(closure, symbol.name)
        if first is None:
            return nowhere("not-given", *gap) if gap else nowhere("missing", symbol.library)
        file, export = first
        if export.library is None:
            return found(file, export)
        symbol = Symbol(export.library, export.name or symbol.name)
    return nowhere("leads-back", symbol.library)


def flat(files, name):
    first = first_that_says(files.all_in_order(), name)
    return at_export(files, *first, name) if first else nowhere("not-found")


def weak_look_up(files, name):
    """Returns the place of the first definition that isn't weak; if all are, of the first one. A re-export is none."""
    weak = None
    for file in files.all.values():
        export = says(file, name)
        if export and export.library is None:
            if not export.flags & WEAK_DEFINITION:
                return found(file, export)
            weak = weak or found(file, export)
    return weak or nowhere("not-found")


def in_main(files, name):
    main = next((file for file in files.all.values() if file.image.header.filetype == EXECUTE), None)
    return follow(files, Symbol(main.name, name)) if main else nowhere("no-main")


# ---- answers

def place_of(files, program, ordinal, name):
    special = {-1: in_main, -2: flat, -3: weak_look_up}.get(ordinal)
    if special:
        return special(files, name)
    return follow(files, Symbol(program.image.libs[ordinal] if ordinal else program.name, name))


def answer_line(files, program, bind):
    image = program.image
    place = place_of(files, program, bind.ordinal, bind.name)
    is_weak = bind.is_weak or (bind.ordinal > 0 and place.absent == image.libs[bind.ordinal]
                               and bool(use_flags(image, image.libraries[bind.ordinal - 1]) & USED_WEAK))
    is_settled = place.is_found or is_weak and not place.words.startswith("leads-back")
    return words(f"answer {quoted(bind.name)} of {provider_of(bind.ordinal, image.libs)} {place.words}", "weak" if is_weak else "",
                 "" if is_settled else "open")


def answers(data, vector):
    """Gives the answers up to the limit, whether there are more bindings, and the files that aren't used."""
    files = Files((vector.wanted_name, data), vector.libraries)
    program = next(iter(files.all.values()))
    limit = vector.number if vector.numbers else len(data)
    binds = chains.all_bindings(program.image)
    lines = []
    for bind in of_file(0, list, islice(binds, limit)):
        lines.append(answer_line(files, program, bind))
    return lines + ["limited"] * has_more(binds) + files.unused


def has_more(binds):
    """Returns whether another binding or a fault follows."""
    try:
        return next(binds, None) is not None
    except Fault:
        return True


def resolve(data, vector):
    try:
        yield from answers(data, vector)
    except Refused as refused:
        yield f"refused {refused.number}"
        raise refused.fault from None


LISTS = {"resolve": resolve}
