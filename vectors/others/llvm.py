"""Asks the tools of LLVM 19, and gives what they print as lines of answers. CALLS says what is left out of these lines, since no tool
shows it."""
import re
import shutil

from vectors.others.compared import Ran, Said, quoted
from vectors.reference.records import COMMAND_NAMES

TOOLS = {"objdump": "llvm-objdump-19", "nm": "llvm-nm-19", "readobj": "llvm-readobj-19", "ar": "llvm-ar-19"}
NUMBERS = {name: number for number, name in COMMAND_NAMES.items()}
LIBRARIES = {"LC_LOAD_DYLIB": "required", "LC_LOAD_WEAK_DYLIB": "weak", "LC_REEXPORT_DYLIB": "reexport", "LC_LOAD_UPWARD_DYLIB": "upward",
             "LC_LAZY_LOAD_DYLIB": "lazy"}
SPECIAL = {"this-image": "itself", "main-executable": "main-executable", "flat-namespace": "flat", "weak": "weak-look-up"}
REBASES = {"pointer": "pointer", "text abs32": "absolute32", "text rel32": "relative32"}
LOCALS = {0x80000000: "local", 0x40000000: "absolute", 0xc0000000: "local-absolute"}
KEY = re.compile(r"\s*(time stamp|current version|compatibility version|data_owner|string #\d+|Load command|\w+) ?(.*)")
# A row of binds: its address, its kind, an addend, a library and a name.
BIND = re.compile(r"(?P<segment>.*?)\s+(?P<section>.*?)\s+0x(?P<at>\w+) (?P<kind>text abs32|text rel32|\S*)\s+(?P<addend>-?\d+)"
                  r"(?: (?P<library>\S*)\s+|   )(?P<name>.*?)(?P<weak> \(weak_import\))?")
LAZY = re.compile(r"(?P<segment>.*?)\s+(?P<section>.*?)\s+0x(?P<at>\w+) (?P<library>\S*)\s+(?P<name>\S*?)(?P<weak> \(weak_import\))?")
FIXED = re.compile(r"\S* +\S* +0x(?P<at>\w+) +0x(?P<raw>\w+) +(?P<kind>bind|rebase) +(?P<rest>.*)")
EXPORT = re.compile(r"(?:0x(?P<at>\w+)  |\[re-export\] )(?P<name>.*?)(?: \[(?P<words>[^]]*)\])?(?: \(from (?P<library>[^)]*)\))?")


def hexadecimal(text):
    """Returns a hexadecimal number as answers have it. A remark may follow the number."""
    return f"{int(text.split()[0], 16):#x}"


def decimal(text):
    """Returns a decimal number as a hexadecimal one. A remark may follow the number."""
    return f"{int(text.split()[0]):#x}"


class Command:
    """A load command as llvm-objdump shows it: pairs of keys and values, and its sections."""

    def __init__(self, at):
        self.at, self.pairs, self.sections = at, [], []

    def get(self, key):
        return next(value for found, value in self.pairs if found == key)

    @property
    def name(self):
        return self.get("cmd")

    @property
    def size(self):
        return int(self.get("cmdsize").split()[0])


class Image:
    """What `--private-headers` shows."""

    def __init__(self, text):
        rows = text.split("\n")
        start = next((index for index, row in enumerate(rows) if row.startswith(" 0xfeedfac")), None)
        self.is_there, self.commands, self.is_64 = start is not None, [], False
        if self.is_there:
            self.header = rows[start].split()
            self.is_64 = self.header[0] == "0xfeedfacf"
            self._read(rows[start + 1:])

    def _read(self, rows):
        at, pairs = 32 if self.is_64 else 28, None
        for row in rows:
            found = KEY.fullmatch(row)
            if not found:
                continue
            if found[1] == "Load command":
                at += self.commands[-1].size if self.commands else 0
                self.commands.append(Command(at))
                pairs = self.commands[-1].pairs
            elif row == "Section":
                pairs = []
                self.commands[-1].sections.append(pairs)
            elif pairs is not None:
                pairs.append((found[1], found[2]))

    def named(self, *names):
        return [command for command in self.commands if command.name in names]

    def segments(self):
        return self.named("LC_SEGMENT_64" if self.is_64 else "LC_SEGMENT")


def name_of(command, key="name"):
    """Returns a name that lies in a command, without the place that is printed after it."""
    return re.sub(r" \(offset \d+\)$", "", command.get(key))


def header(image):
    magic, cpu, subtype, capabilities, kind, commands, _, flags = image.header
    subtype = int(subtype) | int(capabilities, 16) << 24
    tables = image.named("LC_SYMTAB")
    counts = [len(image.segments()), len(image.named(*LIBRARIES)), len(image.named("LC_RPATH")), int(tables[-1].get("nsyms")) if tables else 0]
    yield f"header {magic} cpu {decimal(cpu)} {subtype:#x} type {kind} flags {hexadecimal(flags)} {64 if image.is_64 else 32}"
    yield "holds commands {} segments {} libraries {} run-paths {} symbols {}".format(commands, *counts)


def commands(image):
    for command in image.commands:
        unknown = re.fullmatch(r"\?\(0x(\w+)\)(?: .*)?", command.name)
        yield f"command {int(unknown[1], 16) if unknown else NUMBERS[command.name]:#x} at {command.at:#x} size {command.size}"


def segments(image):
    for command in image.segments():
        get = command.get
        yield (f"segment {quoted(get('segname'))} at {hexadecimal(get('vmaddr'))} size {hexadecimal(get('vmsize'))} file {decimal(get('fileoff'))} "
               f"{decimal(get('filesize'))} protection {hexadecimal(get('initprot'))} {hexadecimal(get('maxprot'))} sections {get('nsects')} "
               f"flags {hexadecimal(get('flags'))}")


def sections(image):
    for number, command in enumerate(image.segments()):
        for section in map(dict, command.sections):
            align = section["align"].split()[0].removeprefix("2^")
            yield (f"section {number} {quoted(section['sectname'])} of {quoted(section['segname'])} at {hexadecimal(section['addr'])} "
                   f"size {hexadecimal(section['size'])} offset {decimal(section['offset'])} align {align} relocations {section['nreloc'].split()[0]} "
                   f"at {decimal(section['reloff'])} flags {hexadecimal(section['flags'])}")


def version(text):
    """Returns the number of a version of 16, 8 and 8 bits."""
    parts = [int(part) for part in text.split(".")] if text[0].isdigit() else [0xffff, 0xff, 0xff]
    return f"{(parts[0] << 16) + (parts[1] << 8) + (parts[2] if len(parts) > 2 else 0):#x}"


def libraries(image):
    for ordinal, command in enumerate(image.named(*LIBRARIES), 1):
        yield (f"library {ordinal} {quoted(name_of(command))} {LIBRARIES[command.name]} timestamp {command.get('time stamp').split()[0]} "
               f"current {version(command.get('current version'))} compatible {version(command.get('compatibility version'))}")


def paths(image):
    return [f"path {quoted(name_of(command, 'path'))}" for command in image.named("LC_RPATH")]


def ids(image):
    return [f"id {quoted(name_of(command))}" for command in image.named("LC_ID_DYLIB")]


def linker_options(image):
    for command in image.named("LC_LINKER_OPTION"):
        for key, value in command.pairs:
            if key.startswith("string #"):
                yield f"option {quoted(value)} of {command.at:#x}"


def build_tools(image):
    for command in image.named("LC_BUILD_VERSION"):
        pairs = [(key, value) for key, value in command.pairs if key in ("tool", "version")]
        for (_, tool), (_, of_tool) in zip(pairs[::2], pairs[1::2]):
            yield f"tool {tool} version {version(of_tool)} of {command.at:#x}"


def notes(image):
    for command in image.named("LC_NOTE"):
        size = int(command.get("size").split()[0])
        place = f" at {decimal(command.get('offset'))}" if size else ""
        yield f"note {quoted(command.get('data_owner'))}{place} size {size} of {command.at:#x}"


def signature(image):
    return ["signature" if image.named("LC_CODE_SIGNATURE") else "unsigned"]


def symbols(text, _):
    for found in re.finditer(r"^(\w{16}|\w{8}) (\w\w) (\w\w) (\w{4}) \w{8} ?(.*)$", text, re.M):
        value, kind, section, description = (int(word, 16) for word in found.groups()[:4])
        name = re.sub(r" \(indirect for [^)]*\)$", "", found[5]) if kind & 0x0e == 0x0a else found[5]
        yield f"symbol {quoted(name)} value {value:#x} type {kind:#x} section {section} description {description:#x}"


def tables(text, heads):
    """Yields the rows of tables, each with the head of its table, which ends with a colon."""
    head = None
    for row in text.split("\n"):
        if row in heads:
            head = row
        elif not row:
            head = None
        elif head and not row.startswith("segment "):
            yield head, row


def bound(text):
    """Yields the binds of both tables: whether they are lazy, and their parts."""
    for head, row in tables(text, ("Bind table:", "Lazy bind table:")):
        found = (LAZY if head.startswith("Lazy") else BIND).fullmatch(row.rstrip())
        if found:
            yield head.startswith("Lazy"), found.groupdict()


def words(is_lazy, row):
    return " weak" * bool(row["weak"]) + " lazy" * is_lazy


def imports(text, _):
    for is_lazy, row in bound(text):
        yield f"import {quoted(row['name'])} at {hexadecimal(row['at'])} addend {row.get('addend', 0)}{words(is_lazy, row)}"


def where(library):
    return SPECIAL.get(library) or quoted(library or "")


def bindings(text, _):
    for is_lazy, row in bound(text):
        yield f"binding {quoted(row['name'])} of {where(row['library'])} at {hexadecimal(row['at'])} addend {row.get('addend', 0)}{words(is_lazy, row)}"
    for row in fixed(text):
        if row["kind"] == "bind":
            yield f"binding {quoted(row['name'])} of {where(row['library'])} at {hexadecimal(row['at'])} addend {row['addend']}{' weak' * row['is_weak']}"


def fixed(text):
    """Yields the rows of chained fixups."""
    for found in re.finditer(FIXED.pattern + "$", text, re.M):
        row = found.groupdict()
        if row["kind"] == "bind":
            parts = re.fullmatch(r"0x(\w+) +(\S+) +(.*?)( \(weak import\))?", row["rest"])
            addend = int(parts[1], 16)
            row.update(addend=addend - (addend >> 63 << 64), library=parts[2], name=parts[3], is_weak=bool(parts[4]))
        else:
            row["target"] = hexadecimal(row["rest"].strip())
        yield row


def fixups(text, _):
    for row in fixed(text):
        said = f"rebase {row['target']}" if row["kind"] == "rebase" else f"bind addend {row['addend']}"
        yield f"{said} at {hexadecimal(row['at'])}"


def weak_binds(text, _):
    for _, row in tables(text, ("Weak bind table:",)):
        found = BIND.fullmatch(row.rstrip())
        if found:
            yield f"binding {quoted(found['name'])} of weak-look-up at {hexadecimal(found['at'])} addend {found['addend']}{words(False, found)}"
        else:
            yield f"strong {quoted(row.split('strong', 1)[-1].strip())}"


def rebases(text, _):
    for _, row in tables(text, ("Rebase table:",)):
        found = re.fullmatch(r".*? 0x(\w+)  (.*)", row)
        yield f"rebase {REBASES[found[2]]} at {hexadecimal(found[1])}"
    for row in fixed(text):
        if row["kind"] == "rebase":
            yield f"rebase pointer at {hexadecimal(row['at'])}"


def base_of(text):
    """Returns the address from which llvm-objdump counts: that of __TEXT."""
    return next((int(command.get("vmaddr"), 16) for command in Image(text).segments() if command.get("segname") == "__TEXT"), 0)


def exports(text, _):
    base, inside = base_of(text), text.partition("\nExports trie:\n")[2]
    for row in inside.split("\n"):
        found = EXPORT.fullmatch(row)
        if not found:
            continue
        name, flags = quoted(found["name"]), [word for word in (found["words"] or "").split(", ") if word]
        if not found["at"]:
            yield f"export {name} of {quoted(found['library'] or '')}"
            continue
        at = int(found["at"], 16) - (0 if "absolute" in flags else base)
        resolver = next((word.partition("=0x")[2] for word in flags if word.startswith("resolver")), "")
        yield f"export {name} stub {at:#x} resolver {hexadecimal(resolver)}" if resolver else f"export {name} at {at % 2 ** 64:#x}"


def find(text, vector):
    """Returns the export of a name."""
    wanted = f"export {quoted(vector.wanted_name.decode('latin-1'))} "
    return [next((line for line in exports(text, vector) if line.startswith(wanted)), "none")]


def function_starts(text, _):
    return [f"start {hexadecimal(row)}" for row in text.split("\n") if re.fullmatch(r"\w{16}|\w{8}", row)]


def data_in_code(text, _):
    rows = text.partition("\noffset     length kind\n")[2].split("\n")
    return [f"data {hexadecimal(at)} length {length} kind {int(kind, 16)}" for at, length, kind in map(str.split, filter(None, rows))]


def indirect_symbols(text, _):
    for number in re.findall(r"Symbol Index: 0x(\w+)", text):
        number = int(number, 16)
        yield f"indirect {LOCALS.get(number, number)}"


def slots(text, _):
    rows = re.findall(r"^0x(\w+) +(\d+|LOCAL|ABSOLUTE|LOCAL ABSOLUTE) ?(.*)$", text, re.M)
    for at, number, name in rows:
        yield f"slot at {hexadecimal(at)} of " + (f"{number} {quoted(name)}" if number.isdigit() else number.lower().replace(" ", "-"))


def words_of(at, symbol, fields, is_big):
    """Returns both words of a relocation, made of the fields that a tool shows."""
    relative, length, external, kind, scattered = fields
    if scattered:
        return 0x80000000 | relative << 30 | length << 28 | kind << 24 | at, symbol
    if is_big:
        return at, symbol << 8 | relative << 7 | length << 5 | external << 4 | kind
    return at, symbol | relative << 24 | length << 25 | external << 27 | kind << 28


def relocations(text, vector):
    """Yields the words of relocations. No tool shows the byte order of the file, so it is read from the file."""
    is_big = vector.bytes()[:1] == b"\xfe"
    for row in re.findall(r"^(\w{8}) (\d) +(\d) +(\w+|n/a) +(\d+) +(\d) +(\S+)$", text, re.M):
        at, symbol = int(row[0], 16), int(row[6], 16 if row[6].startswith("0x") else 10)
        relative, length, external, kind, scattered = (int(field.replace("n/a", "0")) for field in row[1:6])
        first, info = words_of(at, symbol, (relative, length, external, kind, scattered), is_big)
        yield f"relocation address {first:#x} info {info:#x}"


def entries(text, _):
    pattern = r"cputype (\d+)\s+cpusubtype (\d+)\s+capabilities (0x\w+)\s+offset (\d+).*\s+size (\d+).*\s+align 2\^(\d+)"
    for cpu, subtype, capabilities, offset, size, align in re.findall(pattern, text):
        subtype = int(subtype) | int(capabilities, 16) << 24
        yield f"entry cpu {int(cpu):#x} {subtype:#x} at {int(offset):#x} size {size} align {align}"


def kind_of_file(text, _):
    count = re.search(r"fat_magic 0xcafebab([ef])\nnfat_arch (\d+)", text)
    if count:
        return [f"fat{'64' * (count[1] == 'f')} {count[2]}"]
    return ["archive"] if text.startswith("Archive : ") else ["image"] if Image(text).is_there else []


def members(text, _):
    for owner, group, size, name, at in re.findall(r"^[-rwx]{9} (\d+)/(\d+) +(\d+) \w{3} [ \d]\d \d\d:\d\d +\d+ (.*) (0x\w+)$", text, re.M):
        yield f"member {quoted(name)} at {at} size {size} owner {owner} group {group}"


def archive_symbols(text, _):
    inside = re.search(r"^Archive map\n((?:.+ in .*\n)*)", text, re.M)
    return [f"symbol {quoted(row.rpartition(' in ')[0])}" for row in inside[1].splitlines()] if inside else []


def of_image(parts):
    """Returns a parser of what `--private-headers` shows."""
    def parse(text, _):
        image = Image(text)
        return list(parts(image)) if image.is_there else []
    return parse


class Call:
    """A tool with its options, the function that makes lines of what it prints, and what is left out of an answer's lines."""

    def __init__(self, words, parse, left_out=r"(?!)", is_list=True):
        tool, *self.options = words.split()
        self.tool, self.parse, self.left_out, self.is_list = TOOLS[tool], parse, left_out, is_list


HEADERS = "objdump --macho --non-verbose --private-headers"
PLACES = r" segment \d+ offset \S+| target \S+| \[key[^]]*\]|(?: key \d+ diversity \d+(?: by-address)?)"
# The second number of a place, which is its offset in the file.
SECOND = r"(?<=[0-9a-f]) 0x\w+(?= addend)"
# What the table of lazy binds has no column for.
LAZILY = r" addend \S+(?: start \d+)?(?: weak)?(?= lazy$)"
IMPORTS = LAZILY + r"| of \"[^\"]*\"(?= at)|(?<=[0-9a-f]) 0x\w+ size \d+| start \d+"
CALLS = {
    "header": Call(HEADERS, of_image(header), r" (?:little|big)$| entry .*"),
    "commands": Call(HEADERS, of_image(commands)),
    "segments": Call(HEADERS, of_image(segments), r" data \d+"),
    "sections": Call(HEADERS, of_image(sections), r" data \d+"),
    "libraries": Call(HEADERS, of_image(libraries), r" used-\w+"),
    "run-paths": Call(HEADERS, of_image(paths)),
    "ids": Call(HEADERS, of_image(ids)),
    "linker-options": Call(HEADERS, of_image(linker_options)),
    "build-tools": Call(HEADERS, of_image(build_tools)),
    "notes": Call(HEADERS, of_image(notes)),
    "symbols": Call("nm -apx", symbols),
    "relocations": Call("objdump --macho --non-verbose --reloc", relocations, r"(?<=relocation) \d+ \d+"),
    "exports": Call(HEADERS + " --exports-trie", exports, r" flags \S+"),
    "walk": Call(HEADERS + " --exports-trie", exports, r" flags \S+"),
    "find": Call(HEADERS + " --exports-trie", find, r" flags \S+", False),
    "imports": Call("objdump --macho --bind --lazy-bind", imports, IMPORTS),
    "iter-imports": Call("objdump --macho --bind --lazy-bind", imports, IMPORTS),
    "bindings": Call("objdump --macho --bind --lazy-bind --dyld-info", bindings, r"(?<= of )\d+ (?=\")|" + LAZILY + "|" + SECOND),
    "weak-binds": Call("objdump --macho --weak-bind", weak_binds, SECOND),
    "rebases": Call("objdump --macho --rebase --dyld-info", rebases, PLACES),
    "fixups": Call("objdump --macho --dyld-info", fixups, PLACES + r"|(?<=bind) \d+"),
    "function-starts": Call("objdump --macho --function-starts=addrs", function_starts),
    "data-in-code": Call("objdump --macho --non-verbose --data-in-code", data_in_code),
    "indirect-symbols": Call("readobj --macho-indirect-symbols", indirect_symbols),
    "slots": Call("objdump --macho --indirect-symbols", slots, r"(?<=slot) [-\w]+(?= at)| size \d+ segment \d+ section \d+ index \d+"),
    "mach": Call(HEADERS + " --universal-headers", kind_of_file, is_list=False),
    "input": Call(HEADERS + " --universal-headers --archive-headers", kind_of_file, r"(?<=^fat)64", False),
    "entries": Call("objdump --macho --non-verbose --universal-headers", entries),
    "members": Call("ar tvO", members, r" header \S+| date \S+| mode \S+"),
    "archive-symbols": Call("nm --print-armap", archive_symbols, r" member \S+"),
    "signature": Call(HEADERS, of_image(signature), r"(?<=^signature).*", False),
}


def missing():
    """Returns why LLVM can't be asked, or nothing if it can."""
    lacking = [tool for tool in TOOLS.values() if not shutil.which(tool)]
    return "missing: " + ", ".join(lacking) if lacking else ""


def ask(vector, path):
    """Returns what LLVM says of a vector whose file is at a path."""
    call = CALLS[vector.call]
    ran = Ran([call.tool, *call.options, path])
    if ran.end:
        return Said(end=ran.end)
    message = ran.message or "".join(re.findall(r"^.*: is not an object file$", ran.text, re.M))
    lines = list(call.parse(ran.text, vector))
    if message:
        lines.append("error")
    elif call.is_list:
        lines.append("end")
    return Said(lines, message, ran.end)
