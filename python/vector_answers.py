"""The answers of the package to vectors. vectors/README.md says what vectors are. `test_vectors.py` compares the answers."""

import re

import goblin_mach
from goblin_mach import REQUIREMENTS, Archive, FatEntry, FatPart, Image, Refused, _memory
from goblin_mach.signature import requirement_of
from vector_names import NAMES

MODES = {"strict": goblin_mach.STRICT, "lossy": goblin_mach.LOSSY}
LEFT_OUT = {"mach", "input", "images"}
"""The calls that the package doesn't have."""
NO_LIMIT = 2**64 - 1
SOUNDNESS = ("sound", "unended", "faulty")
"""The verdicts on a file, in the order of the package's."""


# ---- errors; the package has fewer kinds of them than the vectors

ERRORS = {"malformed": "malformed", "bad magic": "bad-magic", "out of the bytes, or no text": "short", "too many": "too-short"}
CALLED = {"malformed": "malformed", "bad-magic": "bad-magic", "bad-offset": "short", "too-big": "short", "bad-input": "short", "too-short": "too-short"}
ERROR = re.compile(rf"(\berror |\()({'|'.join(CALLED)})[^)]*")
UNKNOWN = re.compile(r"(verdict \S+) \(.*\)")
NAMED = re.compile(r"((?:answer|unused) .*) \(\".*\"\)(.*)")
UNREAD = re.compile(r"(finding (?!.*\bsignature ).* error) .*")


def plain(line):
    """Returns a wanted line, with errors of the kinds that the package has. It doesn't say why a verdict is unknown, nor with which libraries a search
    ended, and says in other words why a finding can't be read."""
    if UNKNOWN.fullmatch(line):
        return UNKNOWN.sub(r"\1 unknown", line)
    if NAMED.fullmatch(line):
        return NAMED.sub(r"\1\2", line)
    if UNREAD.fullmatch(line):
        return UNREAD.sub(r"\1", line)
    parts = line.split('"')
    parts[::2] = [ERROR.sub(lambda found: found[1] + CALLED[found[2]], part) for part in parts[::2]]
    return '"'.join(parts)


def error(words):
    return "error " + ERRORS.get(words, words)


def why(refused):
    return error(goblin_mach.ERRORS[refused.code])


def each(items, line):
    """Yields the lines of items up to their end or to what refuses them. An item after the end is `more`."""
    try:
        for item in items:
            is_read = getattr(item, "is_read", not getattr(item, "error", None))
            yield line(item) if is_read else error("short" if isinstance(item, FatEntry) else item.error)
    except Refused as refused:
        yield why(refused)
    if next(iter(items), None) is not None:
        yield "more"


# ---- parts of lines

def quoted(name):
    raw = name.encode("utf-8", "surrogateescape") if isinstance(name, str) else name
    return '"' + "".join(chr(byte) if 0x20 <= byte <= 0x7E and byte not in b'"\\' else f"\\x{byte:02x}" for byte in raw) + '"'


def hyphened(words):
    return words.replace(" ", "-")


def words_if(**held):
    """Returns the words of what holds, each after a blank."""
    return "".join(" " + hyphened(word.replace("_", " ")) for word, holds in held.items() if holds)


def library(image, ordinal):
    """Returns the name of a library by its ordinal. Ordinal 0 has the image's own name, or self."""
    return quoted(image.libraries()[ordinal - 1].name if ordinal else image.name or "self")


PROVIDERS = {"itself": "itself", "program": "main-executable", "any": "flat", "any weak": "weak-look-up"}


def provider(image, item):
    return f"{item.library} {library(image, item.library)}" if item.provider == "library" else PROVIDERS[item.provider]


def signed(item):
    return f" key {item.key} diversity {item.diversity}{words_if(by_address=item.is_address_diverse)}" if item.is_signed else ""


def place(part, whole):
    """Returns where the bytes of a part begin in those of the whole."""
    return _memory.Held(part).at - _memory.Held(whole).at


# ---- lists of an image

def header(image):
    numbers = image._numbers  # the package has no names of its own for the magic and for the entry of a thread
    yield (f"header {numbers.magic:#x} cpu {image.cputype:#x} {image.cpusubtype:#x} type {image.filetype} flags {image.flags:#x} "
           f"{64 if image.is_64 else 32} {'little' if image.is_little_endian else 'big'}")
    counts = (f"{word} {len(rows)}" for word, rows in [("commands", image.commands()), ("segments", image.segments()), ("libraries", image.libraries()),
                                                       ("run-paths", image.run_paths()), ("symbols", image.symbols())])
    yield f"holds {' '.join(counts)} entry {image.entry:#x}{words_if(thread=numbers.is_old_style_entry)}"


def commands(image):
    return each(image.commands(), lambda it: f"command {it.cmd:#x} at {it.offset:#x} size {it.size}")


def segments(image):
    return each(image.segments(), lambda it: (
        f"segment {quoted(it.name)} at {it.vmaddr:#x} size {it.vmsize:#x} file {it.fileoff:#x} {it.filesize:#x} data {len(it.data)} "
        f"protection {it.initprot:#x} {it.maxprot:#x} sections {it.nsects} flags {it.flags:#x}"))


def sections(image):
    for number, segment in enumerate(image.segments()):
        yield from each(image.sections(segment), lambda it, number=number: (
            f"section {number} {quoted(it.name)} of {quoted(it.segment)} at {it.addr:#x} size {it.size:#x} offset {it.offset:#x} data {len(it.data)} "
            f"align {it.align} relocations {it.nreloc} at {it.reloff:#x} flags {it.flags:#x}"))


def relocations(image):
    for segment_number, segment in enumerate(image.segments()):
        for number, section in enumerate(image.sections(segment)):
            if section.error:
                yield error(section.error)
                continue
            yield from each(image.relocations(section), lambda it, numbers=(segment_number, number): (
                f"relocation {numbers[0]} {numbers[1]} address {it.address & 0xFFFFFFFF:#x} info {it.info:#x}"))


def symbols(image):
    return each(image.symbols(), lambda it: (
        f"symbol {quoted(it.name)} value {it.value:#x} type {it.n_type:#x} section {it.section} description {it.desc:#x}"))


def provided(image, symbol):
    found = image.symbol_provider(symbol)
    if found is None:
        return "none"
    return error(found.error) if found.error else f"provider {provider(image, found)}"


def libraries(image):
    return each(image.libraries(), lambda it: (
        f"library {it.ordinal} {quoted(it.name)} {it.kind} timestamp {it.timestamp} current {it.current_version:#x} "
        f"compatible {it.compatibility_version:#x}"
        + words_if(used_weak=it.is_weak, used_reexport=it.is_reexport, used_upward=it.is_upward, used_delayed=it.is_delayed)))


def note(image, it):
    at = f" at {place(it.data, image.data):#x}" if it.data else ""
    return f"note {quoted(it.owner)}{at} size {len(it.data)} of {it.command:#x}"


def slot(it):
    symbol = f"{it.symbol} {quoted(it.name)}" if it.owner == "symbol" else hyphened(it.owner)
    return (f"slot {hyphened(it.kind)} at {it.address:#x} size {it.len} segment {it.segment} section {it.section_index} index {it.index} "
            f"of {symbol}")


def indirect(it):
    return f"indirect {it.symbol if it.kind == 'symbol' else hyphened(it.kind)}"


# ---- what dyld does with it

def export(it):
    if it.kind == "re-export":
        # The target is the name there, even if it is the same.
        what = f"of {quoted(it.library)}" + ("" if it.target == it.name else f" as {quoted(it.target)}")
    else:
        what = f"at {it.offset:#x}" if it.kind == "address" else f"stub {it.offset:#x} resolver {(it.resolver - it.address + it.offset) % (1 << 64):#x}"
    return f"export {quoted(it.name)} {what} flags {it.flags:#x}"


def walk(image, vector):
    """Returns the exports of a walk. The walk goes on past a node that is met again. In that case what comes before the wanted fault is
    compared."""
    lines, want = list(each(image.exports(), export)), vector.want or []
    end = len(want) - 1
    goes_on = len(lines) >= end and not any(line.startswith("error ") for line in lines[:end + 1])
    if want[-1:] == [error("malformed")] and goes_on and not image.exports_are_a_tree():
        lines[end:] = want[end:]
    return lines


def exports(image):
    """Returns all exports, or only why the trie is refused. A trie that a walk reads to its end, and that is no tree, has a shared
    node."""
    lines = list(each(image.exports(), export))
    if image.exports_are_a_tree():
        return lines
    return lines[-1:] if lines and lines[-1].startswith("error ") else [error("malformed")]


def imports(image):
    return each(image.opcode_imports(), lambda it: (
        f"import {quoted(it.name)} of {library(image, it.library)} at {it.address:#x} {it.offset:#x} size {it.size} addend {it.addend} "
        f"start {it.start_of_sequence_offset}{words_if(weak=it.is_weak, lazy=it.is_lazy)}"))


def all_imports(image):
    lines = list(imports(image))
    return lines[-1:] if lines and lines[-1].startswith("error ") else lines


def binding(it, where, is_lazy):
    return f"binding {quoted(it.name)} of {where} at {it.address:#x} {it.offset:#x} addend {it.addend}{words_if(weak=it.is_weak, lazy=is_lazy)}"


def bindings(image):
    return each(image.imports(), lambda it: binding(it, provider(image, it), it.is_lazy))


def weak_binds(image):
    return each(image.weak_binds(), lambda it: f"strong {quoted(it.name)}" if it.is_strong else binding(it, "weak-look-up", False))


def rebase(it):
    return f"rebase {it.kind} at {it.address:#x} segment {it.segment} offset {it.offset:#x} target {it.target:#x}{signed(it)}"


def fixup(it):
    what = {"rebase": f"rebase {it.target:#x}", "bind": f"bind {it.import_number} addend {it.addend}", "number": f"value {it.target:#x}"}[it.kind]
    return f"{what} at {it.address:#x} segment {it.segment} offset {it.offset:#x}{signed(it)}"


# ---- files

def entry(it):
    return f"entry cpu {it.cputype:#x} {it.cpusubtype:#x} at {it.offset:#x} size {it.size} align {it.align}"


def archive_kind(data):
    """Returns the kind of an archive, or None if it is thin or no archive, since the package refuses these."""
    return Archive(data).kind if data.startswith(b"!<arch>\n") else None


def member(it):
    name = f"({ERRORS[it.name_error]})" if it.name_error else quoted(it.name)
    numbers = (f" {word} {'none' if number is None else number}"
               for word, number in [("date", it.date), ("owner", it.uid), ("group", it.gid), ("mode", it.mode)])
    return f"member {name} header {it.offset:#x} at {it.start:#x} size {len(it.data)}{''.join(numbers)}"


def write_fat(vector, data):
    """Returns the lines of a written file, or None if a part isn't in the bytes, since the package takes bytes."""
    if any(offset + length > len(data) for offset, length, *_ in vector.parts):
        return None
    parts = [FatPart(cputype, cpusubtype, data[offset:offset + length], align) for offset, length, cputype, cpusubtype, align in vector.parts]
    written = goblin_mach.write_fat(parts, vector.number == 64)
    rows = ((at, written[at:at + 16]) for at in range(0, len(written), 16))
    return [f"size {len(written)}", *(f"{at:#x}: {row.hex()}" for at, row in rows if any(row)), "end"]


# ---- a program and its libraries

def resolved_line(image, it):
    how = "absolute" if it.is_absolute else "at"
    found = f" in {it.file} {how} {it.address:#x}" if it.place == "found" else ""
    place = {"no main program": "no-main"}.get(it.place, hyphened(it.place))
    is_open = not it.is_settled
    return f"answer {quoted(it.binding.name)} of {provider(image, it.binding)} {place}{found}{words_if(weak=it.is_weak, open=is_open)}"


def unused(it):
    return f"unused {it.file} {'given-before' if it.why == 'given before' else f'nothing-for {it.cputype:#x}'}"


def resolve(vector, data):
    libraries = [(path.decode(), image) for path, image in vector.libraries]
    try:
        it = goblin_mach.resolve((vector.wanted_name.decode(), data), libraries, vector.number if vector.numbers else None)
    except goblin_mach.FileRefused as refused:
        return [f"refused {refused.file}", why(refused)]
    image = Image(data)
    lines = [resolved_line(image, each) for each in it.answers]
    if it.is_settled == any(line.endswith(" open") for line in lines):
        lines.append("the property differs")
    return [*lines, *["limited"] * it.more, *map(unused, it.unused), "end"]


# ---- judgements

def owner(it):
    return f"{hyphened(it.part)} {it.command:#x} {it.index}"


def layout_fault(it):
    other = f" other {owner(it.other)}" if it.other else ""
    return f"fault {hyphened(it.rule)} of {owner(it.owner)} found {it.found:#x} limit {it.limit:#x}{other}"


def signature(image):
    it = image.signature
    if it is None:
        return "unsigned"

    def text(name, value, shown):
        return f"({ERRORS[it.errors[name]]})" if name in it.errors else "none" if value is None else str(shown(value))

    power = it.page_size.bit_length() - 1 if it.page_size else 0
    return (f"signature {text('identifier', it.identifier, quoted)} team {text('team', it.team, quoted)} version {it.version:#x} flags {it.flags:#x} "
            f"hash {it.hash_type} limit {it.limit} pages {it.pages} page-size {power} entitlements {text('entitlements', it.entitlements, len)} "
            f"cdhash {it.cdhash.hex()}")


def signature_fault(it):
    ends = f" {error(it.error)}" if it.error else ""
    return f"fault {it.kind} slot {it.slot:#x} index {it.number} found {it.found:#x} limit {it.limit:#x}{ends}"


def signature_faults(image):
    """Yields the line of each fault, also of one with an error."""
    try:
        yield from map(signature_fault, image.signature_faults())
    except Refused as refused:
        yield why(refused)


def as_signed(image):
    """Returns whether nothing differs from the signature. If no code directory counts, the signature is refused, and that is a fault of it."""
    try:
        found = image.signature
    except Refused:
        return "no" if any(image.signature_faults()) else "yes"
    return "yes" if found is not None and found.is_as_signed() else "no"


def strings(image, vector):
    section = image.section_of(vector.number)
    return ["none"] if section is None else each(image.strings(section), lambda it: f"string {it.place:#x} {quoted(it.text)}")


def requirement_line(name, text):
    return f"requirement {name} {text}" if text else "none"


def said_requirement(image, number):
    """Returns the line of the requirement of a type, also if another one can't be read."""
    try:
        return requirement_line(REQUIREMENTS[number - 1], requirement_of(image._live(), image._pointer, number))
    except Refused as refused:
        return why(refused)


def requirement(image, vector):
    """Returns the requirements of the types. The property `requirements` must have the same, unless it is refused."""
    names = [REQUIREMENTS[number - 1] for number, in vector.numbers]
    lines = [said_requirement(image, number) for number, in vector.numbers]
    try:
        texts = image.signature.requirements if image.signature else {}
    except Refused:
        return lines
    return lines if lines == [requirement_line(name, texts.get(name)) for name in names] else [*lines, "the property differs"]


def entitlements(image):
    """Yields whether those in XML and in DER say the same, and those in XML."""
    it = image.signature
    yield f"entitlements {hyphened(it.entitlements_agreement.lower()) if it else 'none'}"
    xml = it and it.entitlements or b""
    yield from (f"xml {quoted(xml[at:at + 64])}" for at in range(0, len(xml), 64))
    if it and "entitlements" in it.errors:
        yield f"xml ({ERRORS[it.errors['entitlements']]})"


def security(image):
    words = {True: "yes", False: "no", None: "unknown"}
    return [f"verdict {name} {words[holds]}" for name, holds in image.security().items()]


def finding(it):
    """Returns the line of something that an audit found. Of an error it says only that there is one."""
    parts = [f"{name} {number}" for name, number in (("entry", it.entry), ("member", it.member)) if number is not None]
    fault = layout_fault(it.layout) if it.layout else signature_fault(it.signature) if it.signature else ""
    numbers = (number for number in (it.segment, it.section, it.index, it.count) if number is not None)
    parts += [hyphened(it.kind), *[it.list] * (it.list is not None), *map(str, numbers), *fault.split(" ")[1:], *["error"] * (it.error is not None)]
    return f"finding {' '.join(parts)}"


def audit(vector, data):
    it = goblin_mach.audit(data, vector.number if vector.numbers else NO_LIMIT)
    verdict = SOUNDNESS[goblin_mach.VERDICTS.index(it.verdict)]
    if it.is_sound != (verdict == "sound"):
        verdict = "another one by the property"
    return [*map(finding, it.findings), f"verdict {verdict}", "end"]


# ---- calls: lists of lines, which get an end, and single lines; None if the package can't be asked

LISTS_OF_IMAGES = {
    "header": header,
    "commands": commands,
    "segments": segments,
    "sections": sections,
    "relocations": relocations,
    "symbols": symbols,
    "libraries": libraries,
    "run-paths": lambda image: each(image.run_paths(), lambda it: f"path {quoted(it)}"),
    "ids": lambda image: each(image.ids(), lambda it: f"id {quoted(it)}"),
    "function-starts": lambda image: each(image.function_starts(), lambda it: f"start {it.address:#x}"),
    "data-in-code": lambda image: each(image.data_in_code(), lambda it: f"data {it.offset:#x} length {it.length} kind {it.kind}"),
    "indirect-symbols": lambda image: each(image.indirect_symbols(), indirect),
    "linker-options": lambda image: each(image.linker_options(), lambda it: f"option {quoted(it.text)} of {it.command:#x}"),
    "build-tools": lambda image: each(image.build_tools(), lambda it: f"tool {it.tool} version {it.version:#x} of {it.command:#x}"),
    "notes": lambda image: each(image.notes(), lambda it: note(image, it)),
    "slots": lambda image: each(image.symbol_slots(), slot),
    "initializers": lambda image: each(
        image.initializers(), lambda it: f"initializer at {it.slot:#x} target {it.target:#x} segment {it.segment} section {it.section_index}"
    ),
    "providers": lambda image: each(image.symbols(), lambda it: provided(image, it)),
    "exports": exports,
    "imports": all_imports,
    "iter-imports": imports,
    "bindings": bindings,
    "weak-binds": weak_binds,
    "rebases": lambda image: each(image.rebases(), rebase),
    "fixups": lambda image: each(image.fixups(), fixup),
    "layout": lambda image: each(image.layout_faults(), layout_fault),
    "signature-faults": signature_faults,
    "entitlements": entitlements,
    "security": security,
}
LISTS_WITH_QUESTIONS = {"walk": walk, "requirement": requirement, "strings": strings}
"""Those of an image that get the vector, too."""
LISTS_OF_FILES = {
    "entries": lambda data: each(goblin_mach.fat_entries(data), entry),
    "container": lambda data: each(goblin_mach.container_faults(data), layout_fault),
    "members": lambda data: each(Archive(data).members(), member),
    "archive-symbols": lambda data: each(Archive(data).symbols(), lambda it: f"symbol {quoted(it.name)} member {it.member:#x}"),
}


def found(item, line):
    return "none" if item is None else line(item)


def numbered_section(it):
    return (f"found {quoted(it.name)} of {quoted(it.segment_name)} segment {it.segment} section {it.index} at {it.addr:#x} size {it.size:#x} "
            f"offset {it.offset:#x} align {it.align} relocations {it.nreloc} at {it.reloff:#x} flags {it.flags:#x} "
            f"reserved {it.reserved1:#x} {it.reserved2:#x}")


SINGLES_OF_IMAGES = {
    "find": lambda image, vector: found(image.find_export(vector.wanted_name.decode()), export),
    "slot-at": lambda image, vector: found(image.slot_at(vector.address), lambda it: error(it.error) if it.error else slot(it)),
    "section-at": lambda image, vector: found(image.section_at(vector.address), numbered_section),
    "section-of": lambda image, vector: found(image.section_of(vector.number), numbered_section),
    "signature": lambda image, vector: signature(image),
    "as-signed": lambda image, vector: as_signed(image),
}
SINGLES_OF_FILES = {
    "archive-kind": lambda data, vector: archive_kind(data),
    "archive-find": lambda data, vector: found(Archive(data).defining(vector.wanted_name), member),
    "member-named": lambda data, vector: found(Archive(data).member(vector.wanted_name), member),
}

WITH_FILES = {"write-fat": write_fat, "resolve": resolve, "audit": audit}
"""Those of a file that get the vector, too."""


def ended(lines):
    """Returns a list with its end, unless an error is its last line."""
    lines = list(lines)
    return lines if lines and lines[-1].startswith("error ") else [*lines, "end"]


def named(vector):
    names = [NAMES[vector.call](*numbers) for numbers in vector.numbers]
    if None in names:
        return None
    return ended(f"{' '.join(map(hex, numbers))} {name}" for numbers, name in zip(vector.numbers, names))


def answer(vector):
    """Returns the lines of a vector's answer, or None if the package can't be asked."""
    call, data = vector.call, vector.bytes()
    if call in LEFT_OUT or call in NAMES:
        return None if call in LEFT_OUT else named(vector)
    try:
        if call in WITH_FILES:
            return WITH_FILES[call](vector, data)
        if call in LISTS_OF_FILES:
            return ended(LISTS_OF_FILES[call](data))
        if call in SINGLES_OF_FILES:
            line = SINGLES_OF_FILES[call](data, vector)
            return None if line is None else [line]
        image = Image(data, vector.offset, MODES[vector.mode])
        if call in LISTS_WITH_QUESTIONS:
            return ended(LISTS_WITH_QUESTIONS[call](image, vector))
        return ended(LISTS_OF_IMAGES[call](image)) if call in LISTS_OF_IMAGES else [SINGLES_OF_IMAGES[call](image, vector)]
    except Refused as refused:
        return [why(refused)]
