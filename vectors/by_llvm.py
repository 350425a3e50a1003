"""Says whether LLVM's tools confirm the answer of a vector, for tools/vectors. others/llvm.py reads what they print."""
import concurrent.futures
import os
import re
import tempfile

from vectors.others import llvm
from vectors.others.compared import is_refusal, kind

THREADS = 4
# Refusals of a whole file: what LLVM demands of it, whatever the question is.
WHOLE_FILE = {
    "a library of type DYLIB has to have LC_ID_DYLIB": r"no LC_ID_DYLIB|LC_ID_DYLIB load command in non-dynamic",
    "a command that may come once comes again": r"more than one LC_",
    "a command has to be exactly as long as its record": r"incorrect cmdsize|inconsistent cmdsize|cmdsize too small|cmdsize not a multiple",
    "parts may not overlap": r"overlaps",
    "bytes of sections have to lie in the file, in their segment and after the commands": r"field of section|not past the headers|greater than the segment",
    "a segment may not be larger in the file than in memory": r"greater than vmsize",
    "a segment has to lie in the file": r"fileoff field",
    "every range of a command has to lie in the file": r"_off field|dataoff field|reloff field|LC_\w+ command \d+ extends past",
    "the type of a file has to be one of those it knows": r"is not an object file|not recognized as a valid object file",
}
# Refusals of what the question is about. A reader that demands more than the pages of the format refuses more.
QUESTION = {
    "the header of a fat file has entries, and no two of one cpu": r"zero architecture types|two of the same architecture",
    "an entry has to lie in the file, and to be an image or an archive": r"extends past the end of the file|is not a Mach-O file",
    "a fat file has to have the records that it claims": r"structs would extend past",
    "a bind, a rebase or a fixup has to lie in a section": r"not in section|bad offset|bad segIndex|bad segment info",
    "a bind needs a name, and a segment; only opcodes that it knows are read": r"missing preceding|bad opcode|bad (?:lazy |weak )?bind info|bad rebase info",
    "ordinal -3 of LC_DYLD_INFO isn't known": r"unknown special ordinal: -3",
    "an archive with a field or a name that can't be read has no members": r"archive|Invalid data was encountered|unexpectedly encountered",
    "a trie with a name that is empty, or with an export of kind 3, is refused": r"export info|export name|trie",
    "chained fixups of this format aren't known": r"chained|fixup|pointer_format|pointer format",
    "bytes after the last start are an error": r"function starts|uleb",
}
# Answers that differ: what LLVM does, for which calls, and a pattern of what it gives.
OTHERWISE = [
    ("nm shows no map of an index that it can't read, and none of a sorted one", ("archive-symbols",), r"^end$"),
    ("a member `__.SYMDEF SORTED` by its short name is listed; an archive that is thin has no members of its own", ("members",), r"SYMDEF SORTED|^end$"),
    ("a thin archive is an archive", ("input",), r"^archive$"),
    ("a name at 0 of the strings is empty", ("symbols",), r'symbol ""'),
    ("a bind after a strong definition is shown as one more", ("weak-binds",), r"strong .*\nstrong "),
    ("relocations of what is no object file are those of LC_DYSYMTAB", ("relocations",), r"0xfeedfac"),
    ("two branches may lead to one node", ("exports", "walk"), r"export"),
    ("only whether there is a signature is shown", ("signature",), r"^signature"),
]
_answers = {}


def missing():
    """Returns why LLVM can't be asked, or nothing if it can."""
    return llvm.missing()


def known(vector, said, how):
    """Returns the words for a difference that is known, or nothing."""
    if how == "endless":
        return "a count of the opcodes is taken as it is, and the list printed without an end"
    if how == "crashes":
        return "llvm-objdump and llvm-nm end by a signal at some damaged files, and at fixups outside of sections"
    if how == "refuses":
        return next((what for what, pattern in {**WHOLE_FILE, **QUESTION}.items() if re.search(pattern, said.message)), "")
    text = "\n".join(said.lines)
    return next((what for what, calls, pattern in OTHERWISE if vector.call in calls and re.search(pattern, text)), "")


def judged(vector, said):
    """Returns True if LLVM confirms an answer, and False if it contradicts. Returns None if LLVM says nothing of it or differs in a known
    way."""
    how = kind(vector, said, llvm.CALLS[vector.call].left_out)
    if how != "alike":
        return None if known(vector, said, how) else False
    if vector.call == "signature" and vector.want != ["unsigned"]:
        return None
    if is_refusal(vector) and any(re.search(pattern, said.message) for pattern in WHOLE_FILE.values()):
        # A file that is refused for another reason says nothing of the question.
        return True if vector.call in ("header", "commands", "segments", "sections", "mach", "input") else None
    return True


def can_be_asked(vector):
    return vector.call in llvm.CALLS and vector.mode == "strict" and not vector.offset


def prepare(vectors):
    """Asks LLVM several vectors at a time, before their answers are needed."""
    def ask(vector):
        path = os.path.join(room, f"{os.path.basename(vector.file)}.{vector.line}")
        with open(path, "wb") as file:
            file.write(vector.bytes())
        said = llvm.ask(vector, path)
        os.unlink(path)
        return vector.name, judged(vector, said)

    with tempfile.TemporaryDirectory() as room, concurrent.futures.ThreadPoolExecutor(THREADS) as pool:
        _answers.update(pool.map(ask, filter(can_be_asked, vectors)))


def answer(vector):
    """Returns whether LLVM confirms a vector, as `judged` does, or None if LLVM can't be asked."""
    if can_be_asked(vector) and vector.name not in _answers:
        prepare([vector])
    return _answers.get(vector.name)
