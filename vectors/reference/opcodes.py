"""The opcodes of binds, weak binds and rebases (docs/FORMAT-DYLD.md, parts 2, 3 and 5).

`instructions` reads a range. The lists run over it with a `State`, which has the settings.
"""

from collections import namedtuple

from .providers import SPECIAL, is_provider, provider_of
from .reading import WORD, limited, number, quoted, read, require, sleb, text, uleb, words

DYLD_INFO = ("LC_DYLD_INFO", "LC_DYLD_INFO_ONLY")
KINDS = {1: "pointer", 2: "absolute32", 3: "relative32"}
WEAK_IMPORT, NON_WEAK_DEFINITION = 0x01, 0x08

(DONE, ORDINAL_IMM, ORDINAL_ULEB, ORDINAL_SPECIAL, NAME, TYPE, ADDEND, SEGMENT, ADVANCE, BIND, BIND_ADVANCE, BIND_SCALED,
 BIND_TIMES) = range(0x00, 0xd0, 0x10)
OPERANDS = {ORDINAL_ULEB: (uleb,), ADDEND: (sleb,), SEGMENT: (uleb,), ADVANCE: (uleb,), BIND_ADVANCE: (uleb,),
            BIND_TIMES: (uleb, uleb)}
(_, REBASE_TYPE, REBASE_SEGMENT, REBASE_ADVANCE, REBASE_ADVANCE_SCALED, REBASE_IMM_TIMES, REBASE_TIMES, REBASE_ADD,
 REBASE_SKIPPING) = range(0x00, 0x90, 0x10)
REBASE_OPERANDS = {REBASE_SEGMENT: (uleb,), REBASE_ADVANCE: (uleb,), REBASE_TIMES: (uleb,), REBASE_ADD: (uleb,),
                   REBASE_SKIPPING: (uleb, uleb)}

Instruction = namedtuple("Instruction", "opcode immediate operands after")
# What dyld binds: the name, the ordinal, the words of the place, the addend, whether the import is weak, and whether it is bound lazily.
Binding = namedtuple("Binding", "name ordinal place addend is_weak is_lazy")


def name_operand(data, place):
    """Reads a text; returns it and the place after it and its zero byte, whether or not that byte is there."""
    name = text(data, place)
    return name, place + len(name) + 1


def ended_name_operand(data, place):
    """Reads a text that a zero byte has to end."""
    name, after = name_operand(data, place)
    require(after <= len(data))
    return name, after


def instructions(data, start, end, operands, refused=()):
    """Yields the instructions of a range, each with its operands and the place after it. Opcodes of `refused` are malformed."""
    place = start
    while place < end:
        byte = read(data, place, 1)[0]
        opcode, place, values = byte & 0xf0, place + 1, []
        require(opcode not in refused)
        for operand in operands.get(opcode, ()):
            value, place = operand(data, place)
            values.append(value)
        yield Instruction(opcode, byte & 0x0f, values, place)


class State:
    """The settings of a stream. Flags, addend and offset that were not set are 0, and other settings None, except what `settings` give."""

    def __init__(self, image, **settings):
        self.image, self.settings = image, settings
        self.fresh()

    def fresh(self):
        self.library = self.name = self.type = self.segment = None
        self.flags = self.addend = self.offset = 0
        self.__dict__.update(self.settings)

    def advance(self, by):
        self.offset = (self.offset + by) % WORD

    def set(self, instruction):
        """Takes what an instruction sets. One that binds sets nothing."""
        opcode, immediate, operands, _ = instruction
        if opcode == ORDINAL_IMM:
            self.library = immediate
        elif opcode == ORDINAL_ULEB:
            self.library = operands[0]
        elif opcode == NAME:
            self.flags, self.name = immediate, operands[0]
        elif opcode == TYPE:
            self.type = immediate
        elif opcode == ADDEND:
            self.addend = operands[0]
        elif opcode == SEGMENT:
            self.segment, self.offset = immediate, operands[0]
        elif opcode == ADVANCE:
            self.advance(operands[0])

    def binds(self, instruction):
        """Returns how many binds an instruction makes, and how far it advances after each."""
        opcode, immediate, operands, _ = instruction
        pointer = self.image.pointer
        count, skip = {BIND: (1, 0), BIND_ADVANCE: (1, *operands), BIND_SCALED: (1, immediate * pointer),
                       BIND_TIMES: operands}.get(opcode, (0, 0))
        return count, skip + pointer

    def rebases(self, instruction):
        """Returns how many rebases an instruction makes, and how far it advances after each."""
        opcode, immediate, operands, _ = instruction
        count, skip = {REBASE_IMM_TIMES: (immediate, 0), REBASE_TIMES: (*operands, 0), REBASE_ADD: (1, *operands),
                       REBASE_SKIPPING: operands}.get(opcode, (0, 0))
        return count, skip + self.image.pointer

    def turns(self, count, step):
        """Gives the state at each of so many places, and advances after it."""
        for _ in range(count):
            yield self
            self.advance(step)

    def place(self, width):
        """Returns the words of the place. `width` bytes from it on must lie in the segment."""
        segments = self.image.segments
        require(self.segment is not None and self.segment < len(segments))
        segment = segments[self.segment]
        address, offset = segment.vmaddr + self.offset, segment.fileoff + self.offset
        require(self.offset + width <= segment.vmsize and address < WORD and offset < WORD)
        return f"at {address:#x} {offset:#x}"

    def weak(self):
        return "weak" if self.flags & WEAK_IMPORT else ""


def import_items(image, start, size, lazy):
    """Yields the imports of a stream, as the Rust crate reads them. A DONE begins anew, and nothing has to be set."""
    state = State(image, library=0, name=b"", segment=0)
    sequence = 0
    for instruction in instructions(image.data, start, start + size, {**OPERANDS, NAME: (name_operand,)}):
        if instruction.opcode == DONE:
            state.fresh()
            sequence = instruction.after - start
        state.set(instruction)
        for bind in state.turns(*state.binds(instruction)):
            require(bind.library < len(image.libs))
            yield words(f"import {quoted(bind.name)} of {quoted(image.libs[bind.library])} {bind.place(1)} "
                        f"size {8 if lazy else 0} addend {bind.addend} start {sequence}", bind.weak(), "lazy" if lazy else "")


def iter_imports(image, _):
    body = image.last(*DYLD_INFO)
    if body:
        yield from import_items(image, body.bind_off, body.bind_size, False)
        yield from import_items(image, body.lazy_bind_off, body.lazy_bind_size, True)


def imports(image, _):
    return list(limited(iter_imports(image, None)))


def binding_runs(image, start, size, lazy):
    """Yields what dyld binds by a stream: for each instruction that binds, the state, how many places it has, and their distance."""
    state = State(image, type=1 if lazy else None)
    refused = (0xd0, 0xe0, 0xf0) + ((BIND_ADVANCE, BIND_SCALED, BIND_TIMES) if lazy else ())
    for instruction in instructions(image.data, start, start + size, {**OPERANDS, NAME: (name_operand,)}, refused):
        if instruction.opcode == DONE and not lazy:
            return
        state.set(instruction)
        if instruction.opcode == ORDINAL_SPECIAL:
            state.library = instruction.immediate - 16 if instruction.immediate else 0
        count, step = state.binds(instruction)
        if count:
            require(state.library is not None and state.name is not None and state.type in KINDS)
            require(is_provider(state.library, image.libs))
            yield state, count, step


def binding_items(image, start, size, lazy):
    for state, count, step in binding_runs(image, start, size, lazy):
        for bind in state.turns(count, step):
            yield Binding(bind.name, bind.library, bind.place(image.pointer), bind.addend, bool(bind.weak()), lazy)


def binding_line(image, bind):
    return words(f"binding {quoted(bind.name)} of {provider_of(bind.ordinal, image.libs)} {bind.place} addend {bind.addend}",
                 "weak" if bind.is_weak else "", "lazy" if bind.is_lazy else "")


def opcode_bindings(image):
    body = image.last(*DYLD_INFO)
    if body:
        yield from binding_items(image, body.bind_off, body.bind_size, False)
        yield from binding_items(image, body.lazy_bind_off, body.lazy_bind_size, True)


def weak_runs(image, body):
    """Yields the same for the stream of weak binds. A strong name is a state with no place."""
    end = body.weak_bind_off + body.weak_bind_size
    state = State(image, type=0)
    refused = (ORDINAL_IMM, ORDINAL_ULEB, ORDINAL_SPECIAL, 0xd0, 0xe0, 0xf0)
    operands = {**OPERANDS, NAME: (ended_name_operand,)}
    for instruction in instructions(image.data[:end], body.weak_bind_off, end, operands, refused):
        if instruction.opcode == DONE:
            return
        state.set(instruction)
        if instruction.opcode == NAME and state.flags & NON_WEAK_DEFINITION:
            yield state, 0, 0
        count, step = state.binds(instruction)
        if count:
            require(state.name is not None and state.type in KINDS)
            yield state, count, step


def weak_binds(image, _):
    body = image.last(*DYLD_INFO)
    for state, count, step in weak_runs(image, body) if body else ():
        if count == 0:
            yield f"strong {quoted(state.name)}"
        for bind in state.turns(count, step):
            yield words(f"binding {quoted(bind.name)} of {SPECIAL[-3]} {bind.place(image.pointer)} addend {bind.addend}",
                        bind.weak())


def set_for_rebases(state, instruction):
    opcode, immediate, operands, _ = instruction
    if opcode == REBASE_TYPE:
        state.type = immediate
    elif opcode == REBASE_SEGMENT:
        state.segment, state.offset = immediate, operands[0]
    elif opcode == REBASE_ADVANCE:
        state.advance(operands[0])
    elif opcode == REBASE_ADVANCE_SCALED:
        state.advance(immediate * state.image.pointer)


def rebase_runs(image, body):
    """Yields the same for the stream of rebases."""
    end = body.rebase_off + body.rebase_size
    state = State(image, type=0)
    for instruction in instructions(image.data[:end], body.rebase_off, end, REBASE_OPERANDS, range(0x90, 0x100)):
        if instruction.opcode == DONE:
            return
        set_for_rebases(state, instruction)
        count, step = state.rebases(instruction)
        if count:
            require(state.type in KINDS)
            yield state, count, step


def opcode_rebases(image, _):
    body = image.last(*DYLD_INFO)
    for state, count, step in rebase_runs(image, body) if body else ():
        for rebase in state.turns(count, step):
            yield rebase_line(image, rebase)


def rebase_line(image, rebase):
    require(rebase.segment is not None and rebase.segment < len(image.segments))
    segment = image.segments[rebase.segment]
    address = segment.vmaddr + rebase.offset
    require(rebase.offset + image.pointer <= segment.vmsize and address < WORD)
    width = image.pointer if rebase.type == 1 else 4
    stored = bytes(segment.data[rebase.offset:rebase.offset + width]).ljust(width, b"\0")
    return (f"rebase {KINDS[rebase.type]} at {address:#x} segment {rebase.segment} offset {rebase.offset:#x} "
            f"target {number(stored, 0, width, image.order):#x}")


LISTS = {"imports": imports, "iter-imports": iter_imports, "weak-binds": weak_binds}
