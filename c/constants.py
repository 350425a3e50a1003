#!/usr/bin/env python3
"""Writes what the C interface takes from the sources of the library. These are c/names.h (the names of numbers) and the marked parts of
c/include/goblin_mach.h: the constants of the format, and asserts on structs and numbers.

  c/constants.py           writes them
  c/constants.py --check   compares them with the sources, and ends with 1 and a diff if they differ

It refuses a constant that is in no group below. It also refuses a constant of MORE that the sources have."""
import difflib
import pathlib
import re
import sys

TOP = pathlib.Path(__file__).resolve().parent.parent
HEADER, NAMES = TOP / "c/include/goblin_mach.h", TOP / "c/names.h"
CRATES = ["mach_records", "mach_parts", "mach_dyld", "mach_chained"]
WIDTHS = {"u8": 1, "u16": 2, "u32": 4, "i32": 4, "u64": 8, "i64": 8, "usize": 8}

# What the sources have and C doesn't need: the sizes of records, and the opcodes of rebases.
LEFT_OUT = r"(SIZEOF|REBASE)_\w+"

# The groups of constants, in order: what they are, and their names. A constant is in the first group that it fits.
GROUPS = [
    ("the magic numbers: `magic` of a gm_image, and the first four bytes of a fat file", r"(MH|FAT)_(MAGIC|CIGAM)(_64)?"),
    ("cpus: `cputype`", r"CPU_(TYPE|ARCH)_\w+"),
    ("`cpusubtype`: the bits of capabilities; the others are the kind of the cpu", r"CPU_SUBTYPE_(MASK|LIB64|ANY)"),
    ("the kinds of GM_CPU_TYPE_X86 and GM_CPU_TYPE_X86_64", r"CPU_SUBTYPE_(I386|X86_64)_\w+"),
    ("the kinds of GM_CPU_TYPE_ARM", r"CPU_SUBTYPE_ARM_\w+"),
    ("the kinds of GM_CPU_TYPE_ARM64 and GM_CPU_TYPE_ARM64_32", r"CPU_SUBTYPE_ARM64\w+"),
    ("the kind of GM_CPU_TYPE_POWERPC and GM_CPU_TYPE_POWERPC64", r"CPU_SUBTYPE_POWERPC_\w+"),
    ("file types: `filetype` of a gm_image",
     r"MH_(OBJECT|EXECUTE|FVMLIB|CORE|PRELOAD|DYLIB|DYLINKER|BUNDLE|DYLIB_STUB|DSYM|KEXT_BUNDLE|FILESET|GPU_\w+)"),
    ("the bits of `flags` of a gm_image", r"MH_\w+"),
    ("load commands: `cmd` of a gm_command", r"LC_\w+"),
    ("what memory allows: `maxprot` and `initprot` of a gm_segment", r"VM_PROT_\w+"),
    ("the bits of `flags` of a gm_segment", r"SG_\w+"),
    ("the types of sections: `flags` of a gm_section in the bits of GM_SECTION_TYPE", r"SECTION_TYPE|S_(?!ATTR)\w+"),
    ("the bits above them", r"SECTION_ATTRIBUTES\w*|S_ATTR_\w+"),
    ("the parts of `n_type` of a gm_symbol", r"N_(STAB|PEXT|TYPE|EXT)|NLIST_TYPE_\w+"),
    ("the types of symbols: `n_type` in the bits of GM_N_TYPE, where none of GM_N_STAB is set", r"N_(UNDF|ABS|SECT|PBUD|INDR)"),
    ("`section` of a gm_symbol", r"(NO|MAX)_SECT"),
    ("how an undefined symbol is referred to: `desc` of a gm_symbol in the bits of GM_REFERENCE_TYPE", r"REFERENCE_(TYPE|FLAG_\w+)"),
    ("the other bits of `desc`",
     r"REFERENCED_DYNAMICALLY|N_(DESC_DISCARDED|NO_DEAD_STRIP|WEAK_REF|WEAK_DEF|REF_TO_WEAK|ARM_THUMB_DEF|SYMBOL_RESOLVER|ALT_ENTRY|COLD_FUNC)"),
    ("the types of entries for a debugger: `n_type`, where a bit of GM_N_STAB is set",
     r"N_(GSYM|FNAME|FUN|STSYM|LCSYM|BNSYM|PC|AST|OPT|RSYM|SLINE|ENSYM|SSYM|SO|OSO|LSYM|BINCL|SOL|PARAMS|VERSION|OLEVEL|PSYM|EINCL|ENTRY)"
     r"|N_(LBRAC|EXCL|RBRAC|BCOMM|ECOMM|ECOML|LENG)"),
    ("the library of an undefined symbol: the high 8 bits of `desc`, where the image has GM_MH_TWOLEVEL",
     r"(SELF|MAX)_LIBRARY_ORDINAL|(DYNAMIC_LOOKUP|EXECUTABLE)_ORDINAL"),
    ("`flags` of a gm_export", r"EXPORT_SYMBOL_FLAGS_\w+"),
    ("relocations of GM_CPU_TYPE_X86_64: bits 28 to 31 of `info` of a gm_relocation", r"X86_64_RELOC_\w+"),
    ("relocations of GM_CPU_TYPE_X86", r"GENERIC_RELOC_\w+"),
    ("relocations of GM_CPU_TYPE_ARM", r"ARM_RELOC_\w+|ARM_THUMB_\w+"),
    ("relocations of GM_CPU_TYPE_ARM64 and GM_CPU_TYPE_ARM64_32", r"ARM64_RELOC_\w+"),
    ("bits 0 to 23 of `info`", r"R_ABS"),
    ("platforms, of GM_LC_BUILD_VERSION", r"PLATFORM_\w+"),
    ("tools, of GM_LC_BUILD_VERSION", r"TOOL_\w+"),
    ("`kind` of a gm_data_in_code_entry", r"DICE_KIND_\w+"),
    ("the opcodes of binds: the halves of a byte", r"BIND_(OPCODE|IMMEDIATE)_MASK"),
    ("the opcodes", r"BIND_OPCODE_\w+"),
    ("the immediates of GM_BIND_OPCODE_SET_TYPE_IMM", r"BIND_TYPE_\w+"),
    ("those of GM_BIND_OPCODE_SET_DYLIB_SPECIAL_IMM", r"BIND_SPECIAL_DYLIB_\w+"),
    ("the bits of those of GM_BIND_OPCODE_SET_SYMBOL_TRAILING_FLAGS_IMM", r"BIND_SYMBOL_FLAGS_\w+"),
    ("how the imports of chained fixups are laid out", r"DYLD_CHAINED_IMPORT\w*"),
    ("how the pointers of chained fixups are laid out, of those that are read", r"DYLD_CHAINED_PTR_(?!START)\w+"),
    ("where the chain of a page starts", r"DYLD_CHAINED_PTR_START_\w+"),
    ("`hash_type` of a gm_signature", r"CS_HASHTYPE_\w+"),
    ("the bits of `flags` of a gm_signature", r"CS_\w+"),
    ("verdicts on how an image is hardened: `verdict` of a gm_verdict, and what it means that it holds", r"VERDICT_\w+"),
]

# What no source of the library has, by the header of the format that defines it.
MORE = """
mach/machine.h
CPU_ARCH_ABI64_32 u32 0x02000000 the bit of a cpu of 64 bits whose addresses have 32
CPU_TYPE_POWERPC64 u32 0x01000012
CPU_SUBTYPE_LIB64 u32 0x80000000 a capability: an executable for libraries of 64 bits
CPU_SUBTYPE_ANY u32 0xffffffff for gm_image_for: every kind
CPU_SUBTYPE_I386_ALL u32 3
CPU_SUBTYPE_X86_64_ALL u32 3
CPU_SUBTYPE_X86_64_H u32 8 Haswell
CPU_SUBTYPE_ARM_ALL u32 0
CPU_SUBTYPE_ARM_V4T u32 5
CPU_SUBTYPE_ARM_V6 u32 6
CPU_SUBTYPE_ARM_V5TEJ u32 7
CPU_SUBTYPE_ARM_XSCALE u32 8
CPU_SUBTYPE_ARM_V7 u32 9
CPU_SUBTYPE_ARM_V7S u32 11
CPU_SUBTYPE_ARM_V7K u32 12
CPU_SUBTYPE_ARM_V6M u32 14
CPU_SUBTYPE_ARM_V7M u32 15
CPU_SUBTYPE_ARM_V7EM u32 16
CPU_SUBTYPE_ARM64_ALL u32 0
CPU_SUBTYPE_ARM64_V8 u32 1
CPU_SUBTYPE_ARM64E u32 2 with signed pointers
CPU_SUBTYPE_ARM64_32_V8 u32 1
CPU_SUBTYPE_POWERPC_ALL u32 0

mach-o/loader.h
MH_NLIST_OUTOFSYNC_WITH_DYLDINFO u32 0x04000000 symbols and what dyld reads say different things
MH_SIM_SUPPORT u32 0x08000000 it may be used in a simulator
MH_DYLIB_IN_CACHE u32 0x80000000 it is in a shared cache
SG_HIGHVM u32 0x1 its bytes are the last ones of its memory
SG_FVMLIB u32 0x2 it is memory of a library at a fixed address
SG_NORELOC u32 0x4 nothing of it is corrected
SG_PROTECTED_VERSION_1 u32 0x8 it is encrypted, but for its first page
SG_READ_ONLY u32 0x10 it may not be written once it is corrected
S_REGULAR u32 0x0 a section like most
S_CSTRING_LITERALS u32 0x2 texts, each with a zero byte behind it
S_4BYTE_LITERALS u32 0x3 literals of 4 bytes
S_8BYTE_LITERALS u32 0x4 literals of 8 bytes
S_LITERAL_POINTERS u32 0x5 pointers to literals
S_NON_LAZY_SYMBOL_POINTERS u32 0x6 pointers to symbols, bound when the image is loaded
S_LAZY_SYMBOL_POINTERS u32 0x7 pointers to symbols, bound at their first use
S_SYMBOL_STUBS u32 0x8 stubs of symbols
S_MOD_INIT_FUNC_POINTERS u32 0x9 pointers to functions to call at the start
S_MOD_TERM_FUNC_POINTERS u32 0xa pointers to functions to call at the end
S_COALESCED u32 0xb symbols of which one definition stays
S_INTERPOSING u32 0xd pairs of functions, of which one takes the other's place
S_16BYTE_LITERALS u32 0xe literals of 16 bytes
S_DTRACE_DOF u32 0xf what DTrace reads
S_LAZY_DYLIB_SYMBOL_POINTERS u32 0x10 pointers to symbols of libraries that are loaded at their first use
S_THREAD_LOCAL_REGULAR u32 0x11 first values of variables that every thread has for itself
S_THREAD_LOCAL_VARIABLES u32 0x13 descriptors of such variables
S_THREAD_LOCAL_VARIABLE_POINTERS u32 0x14 pointers to such descriptors
S_THREAD_LOCAL_INIT_FUNCTION_POINTERS u32 0x15 pointers to functions that make such values
S_INIT_FUNC_OFFSETS u32 0x16 places of functions to call at the start, of 32 bits
SECTION_ATTRIBUTES u32 0xffffff00 all of them
SECTION_ATTRIBUTES_USR u32 0xff000000 those that a user may set
SECTION_ATTRIBUTES_SYS u32 0x00ffff00 those that the system sets
S_ATTR_PURE_INSTRUCTIONS u32 0x80000000 instructions alone
S_ATTR_NO_TOC u32 0x40000000 its symbols are in no table of contents
S_ATTR_STRIP_STATIC_SYMS u32 0x20000000 its local symbols may be stripped
S_ATTR_NO_DEAD_STRIP u32 0x10000000 never stripped as unused
S_ATTR_LIVE_SUPPORT u32 0x08000000 used where what it refers to is used
S_ATTR_SELF_MODIFYING_CODE u32 0x04000000 code that dyld writes
S_ATTR_DEBUG u32 0x02000000 for a debugger
S_ATTR_SOME_INSTRUCTIONS u32 0x00000400 some instructions
S_ATTR_EXT_RELOC u32 0x00000200 it has external relocations
S_ATTR_LOC_RELOC u32 0x00000100 it has local relocations
DICE_KIND_DATA u16 1 data
DICE_KIND_JUMP_TABLE8 u16 2 jump tables of 8 bits
DICE_KIND_JUMP_TABLE16 u16 3 jump tables of 16 bits
DICE_KIND_JUMP_TABLE32 u16 4 jump tables of 32 bits
DICE_KIND_ABS_JUMP_TABLE32 u16 5 jump tables of 32 bits with absolute addresses

mach-o/nlist.h
N_ARM_THUMB_DEF u16 0x0008 it is Thumb code
N_REF_TO_WEAK u16 0x0080 of an undefined symbol: its definition is weak
N_SYMBOL_RESOLVER u16 0x0100 a function that answers the address to use
N_ALT_ENTRY u16 0x0200 a place inside of what the symbol before it names
N_COLD_FUNC u16 0x0400 a function that is seldom called
SELF_LIBRARY_ORDINAL u8 0 the image itself
MAX_LIBRARY_ORDINAL u8 0xfd the last one that is an ordinal
DYNAMIC_LOOKUP_ORDINAL u8 0xfe any image
EXECUTABLE_ORDINAL u8 0xff the main executable

kern/cs_blobs.h
CS_ADHOC u32 0x2 it is signed by no one
CS_HARD u32 0x100 pages that aren't as they were signed are not loaded
CS_KILL u32 0x200 the process is killed where one isn't
CS_CHECK_EXPIRATION u32 0x400 certificates must not be expired
CS_RESTRICT u32 0x800 dyld takes no variables of the environment
CS_ENFORCEMENT u32 0x1000 all pages must be signed
CS_REQUIRE_LV u32 0x2000 libraries must be the system's or of the same team
CS_RUNTIME u32 0x10000 the hardened runtime
CS_LINKER_SIGNED u32 0x20000 the linker signed it
CS_HASHTYPE_SHA1 u32 1
CS_HASHTYPE_SHA256 u32 2
CS_HASHTYPE_SHA256_TRUNCATED u32 3 cut to 20 bytes
CS_HASHTYPE_SHA384 u32 4

mach/vm_prot.h
VM_PROT_NONE u32 0x0 nothing
VM_PROT_READ u32 0x1 reading
VM_PROT_WRITE u32 0x2 writing
VM_PROT_EXECUTE u32 0x4 running
"""

# The numbers of goblin_mach_c without a named constant: where each is in its sources, and its name in C.
NUMBERS = {
    "archive.rt": [(rf"ArchiveForm::{form} => (\d+),", f"GM_ARCHIVE_{name}")
                   for form, name in (("NoArchive", "NONE"), ("Gnu", "GNU"), ("Bsd", "BSD"), ("Thin", "THIN"))],
    "audit.rt": [*((rf"FindingKind::{kind}\b.*?place, (\d+),", f"GM_FINDING_{name}") for kind, name in (
                     ("Refused", "REFUSED"), ("Lossy", "LOSSY"), ("Table", "TABLE"), ("NoEntries", "NO_ENTRIES"), ("Archive", "ARCHIVE"), ("More", "MORE"),
                     ("Past", "PAST"), ("Cut", "CUT"), ("Unreadable", "UNREADABLE"), ("Signature", "SIGNATURE"), ("Layout", "LAYOUT"))),
                 (r"fn item_row.*?row_with\(place, (\d+),", "GM_FINDING_ITEM"),
                 *((rf"AuditedPart::{kind} => (\d+),", f"GM_LIST_{kind.upper()}")
                   for kind in ("Sections", "Relocations", "Symbols", "Exports", "Imports", "Fixups", "Bindings", "Signature", "Members", "Entries")),
                 *((rf"Soundness::{kind} => (\d+),", f"GM_{kind.upper()}") for kind in ("Sound", "Unended", "Faulty"))],
    "fields.rt": [(rf"FieldKind::{kind} => (\d+),", f"GM_FIELD_{name}")
                  for kind, name in (("Number", "NUMBER"), ("Hexadecimal", "HEXADECIMAL"), ("Version", "VERSION"), ("SourceVersion", "SOURCE_VERSION"),
                                     ("Platform", "PLATFORM"), ("Protection", "PROTECTION"), ("Name", "NAME"), ("Text", "TEXT"), ("Uuid", "UUID"))],
    "find.rt": [(r"None => gm_export \{[^}]*kind: (\d+)", "GM_NO_EXPORT"), (r"::Regular \{ \.\. \} => (\d+),", "GM_ADDRESS"),
                (r"::Reexport \{ \.\. \} => (\d+),", "GM_REEXPORTED"), (r"::Stub \{ \.\. \} => (\d+),", "GM_STUB")],
    "fixups.rt": [(r"FixupKind::Rebase [^=]*=> \((\d+),", "GM_REBASE"), (r"FixupKind::Bind [^=]*=> \((\d+),", "GM_BIND"),
                  (r"FixupKind::Value [^=]*=> \((\d+),", "GM_NUMBER")],
    "bindings.rt": [(r"Provider::Library [^=]*=> \((\d+),", "GM_OF_LIBRARY"), (r"Provider::Itself => \((\d+),", "GM_OF_ITSELF"),
                    (r"Provider::MainExecutable => \((\d+),", "GM_OF_PROGRAM"), (r"Provider::Flat => \((\d+),", "GM_OF_ANY"),
                    (r"Provider::WeakLookup => \((\d+),", "GM_OF_ANY_WEAK")],
    "rebases.rt": [(r"RebaseKind::Pointer => (\d+),", "GM_REBASE_POINTER"), (r"RebaseKind::TextAbsolute32 => (\d+),", "GM_REBASE_TEXT_ABSOLUTE"),
                   (r"RebaseKind::TextRelative32 => (\d+),", "GM_REBASE_TEXT_RELATIVE")],
    "requirements.rt": [(rf"(\d+) => Some\(RequirementType::{kind}\)", f"GM_REQUIREMENT_{kind.upper()}")
                        for kind in ("Host", "Guest", "Designated", "Library", "Plugin")],
    "signature.rt": [*((rf"{kind}\b.*?fault_row\((\d+),", f"GM_SIGNATURE_{name}") for kind, name in (
                         ("SignatureFault::Blob", "BLOB"), ("SignatureFault::Magic", "MAGIC"), ("SignatureFault::Refused", "DIRECTORY"),
                         ("DirectoryFault::Identifier", "IDENTIFIER"), ("DirectoryFault::Team", "TEAM"), ("DirectoryFault::Short", "SHORT"),
                         ("CodeFault::Scattered", "SCATTERED"), ("CodeFault::Limit", "LIMIT"), ("CodeFault::Slots", "SLOTS"), ("CodeFault::Page", "PAGE"))),
                     *((rf"SpecialFault::{kind} \{{ slot \}} => \((\d+),", f"GM_SIGNATURE_{name}") for kind, name in (
                         ("Unknown", "UNKNOWN"), ("Unsealed", "UNSEALED"), ("Changed", "SPECIAL"), ("Absent", "ABSENT")))],
}

# The verdicts on how an image is hardened are in the second of these crates by name and meaning, and in the first one by number.
VERDICTS = "crates/goblin_mach_c/src/security.rt", "crates/mach_audit/src/security.rt"

# The cpus that have names.
CPUS = "crates/mach_records/src/cpu_names.rt"

# The functions of names, each with its argument. After it are the functions in the sources that return the names, or the constant whose group
# it names. The last text is the prefix that is left out of a name.
NAMED = [
    ("const char *gm_command_name(uint32_t cmd)", "table_name command_name", ""),
    ("const char *gm_file_type_name(uint32_t filetype)", "filetype_to_str", ""),
    ("const char *gm_header_flag_name(uint32_t flag)", "flag_to_str", ""),
    ("const char *gm_platform_name(uint32_t platform)", "PLATFORM_MACOS", "PLATFORM_"),
    ("static const char *symbol_type_name(int type)", "n_type_to_str", ""),
    ("static const char *debugger_entry_name(int type)", "N_GSYM", ""),
    ("static const char *x86_64_name(uint32_t type)", "x86_64_name", ""),
    ("static const char *x86_name(uint32_t type)", "x86_name", ""),
    ("static const char *arm_name(uint32_t type)", "arm_name", ""),
    ("static const char *arm64_name(uint32_t type)", "arm64_name", ""),
]


def refuse(words):
    sys.exit(f"c/constants.py: {words}")


def sources(crate):
    """Returns the text of each source file of a crate, except its tests."""
    folder = TOP / "crates" / crate / "src"
    return {path.relative_to(TOP): path.read_text() for path in sorted(folder.rglob("*.rt")) if "tests" not in path.parts}


def words_of(comment):
    """Returns a comment of the sources as C has it: on one line, without a full stop at the end, and without a header of the format."""
    text = re.sub(r" \(`[^`]*`\)", "", " ".join(line.strip(" /") for line in comment.splitlines())).rstrip(".")
    return text if re.match(r"(?!A\b)\w*[A-Z0-9]\b", text) or not text else text[0].lower() + text[1:]


def pointer_formats(path, text):
    """Yields the constants that the sources have as variants, by name: the type, the number and the comment of each."""
    rows = re.findall(r"/// `(DYLD_CHAINED_PTR_\w+)`, (\d+): (.*)\n +(\w+),", text)
    called = {variant: name for name, _, _, variant in rows}
    for name, number, words, variant in rows:
        if not re.search(rf"\b{number} => Some\(PointerFormat::{variant}\)", text):
            refuse(f"{path}: {name} isn't {number}")
        yield name, ("u16", number, words_of(re.sub(r"`(\w+)`", lambda it: f"`{called[it[1]]}`", words)))


def verdicts():
    """Returns the number, the name and the meaning of each verdict, by the name of its constant."""
    numbered, worded = (sources(path.split("/")[1])[pathlib.Path(path)] for path in VERDICTS)
    numbers = dict(re.findall(r"Verdict::(\w+) => (\d+),", numbered))
    words = re.findall(r'Verdict::(\w+) => \(\s*"([^"]*)",\s*"([^"]*)",?\s*\),', worded)
    if [numbers.get(verdict) for verdict, _, _ in words] != [str(number) for number in range(1, len(numbers) + 1)]:
        refuse("a verdict has no number or no words")
    return {"VERDICT_" + name.upper().replace("-", "_"): (numbers[verdict], name, meaning) for verdict, name, meaning in words}


def more():
    """Yields the constants of MORE."""
    for line in MORE.strip().splitlines():
        if re.match(r"[A-Z]", line):
            name, kind, number, *words = line.split(" ", 3)
            yield name, (kind, number, "".join(words))


def constants():
    """Returns the type, the number and the comment of each constant, by name."""
    found, types = {}, {}
    texts = {path: text for crate in CRATES for path, text in sources(crate).items()}
    for text in texts.values():
        types.update(re.findall(r"^pub type (\w+) = (u\d+);$", text, re.M))
    for path, text in texts.items():
        rows = re.findall(r"^((?:///.*\n)*)pub const (\w+): (\w+) = (\w+);$", text, re.M)
        if len(rows) != len(re.findall(r"^ *pub const (?!fn)", text, re.M)):
            refuse(f"{path} has a constant that isn't read")
        rows = [(name, (types.get(kind, kind), number.replace("_", ""), words_of(comment))) for comment, name, kind, number in rows]
        for name, row in [*rows, *pointer_formats(path, text)]:
            if found.setdefault(name, row) is not row:
                refuse(f"two sources have {name}")
    for name, row in more():
        if found.setdefault(name, row) is not row:
            refuse(f"{name} of MORE stands elsewhere too")
    found.update((name, ("u32", number, meaning)) for name, (number, _, meaning) in verdicts().items())
    return {name: row for name, row in found.items() if not re.fullmatch(LEFT_OUT, name)}


def grouped(found):
    """Returns the constants of each group, by their numbers."""
    groups = {words: [] for words, _ in GROUPS}
    for name in sorted(found, key=lambda name: int(found[name][1], 0)):
        fits = [words for words, pattern in GROUPS if re.fullmatch(pattern, name)]
        groups[fits[0] if fits else refuse(f"{name} is in no group")].append(name)
    return groups


def header_constants(found):
    lines = []
    for words, names in grouped(found).items():
        lines.append(f"/* {words} */")
        for name in names:
            kind, number, words = found[name]
            words = re.sub(r"(?:\ban )?`([A-Z]\w+)`", lambda it: ("a " if it[0][0] == "a" else "") + "GM_" * (it[1] in found) + it[1], words)
            line = f"#define GM_{name.ljust(max(map(len, names)))} UINT{8 * WIDTHS[kind]}_C({number})"
            whole = f"{line} /* {words} */"
            lines += [line] if not words else [whole] if len(whole) <= 160 else [f"/* {words} */", line]
    return lines


def structs():
    """Returns the structs of the sources whose layout C sees, by name: the fields of each."""
    found = {}
    for crate in ["goblin_mach_c", "mach_fat_writer", *CRATES]:
        for text in sources(crate).values():
            for name, body in re.findall(r"^#\[repr\(C\)\]\npub struct (\w+) \{\n(.*?)^\}", text, re.M | re.S):
                found[name] = re.findall(r"^    pub (\w+): (.*),$", body, re.M)
                if len(found[name]) != len(re.findall(r"^ *[^ /]", body, re.M)):
                    refuse(f"a field of {name} isn't read")
    return found


def laid_out(found, name):
    """Returns the fields of a struct with offset and size of each, its size, and its alignment, as C lays them out."""
    rows, end, most = [], 0, 1
    for field, kind in found[name]:
        array = re.fullmatch(r"\[(\w+); (\d+)\]", kind)
        one = array[1] if array else kind
        size, align = (WIDTHS[one],) * 2 if one in WIDTHS else laid_out(found, one)[1:]
        end += -end % align
        rows.append((field, end, size * (int(array[2]) if array else 1)))
        end += rows[-1][2]
        most = max(most, align)
    return rows, end + -end % most, most


def header_asserts():
    found = structs()
    found["gm_open_node"], found["gm_fat_part"] = found["Open"], found["FatPart"]
    # (C has the numbers of this cursor as fields of the walk)
    found["gm_export_walk"] = [row for field in found["gm_export_walk"] for row in (found["TrieCursor"] if field[0] == "cursor" else [field])]
    lines = []
    for name in sorted(name for name in found if name.startswith("gm_")):
        rows, size, _ = laid_out(found, name)
        lines += [f"GM_FIELD({name}, {field}, {at}, {width});" for field, at, width in rows] + [f"GM_SIZE({name}, {size});"]
    for path, text in sources("goblin_mach_c").items():
        numbers = [(name, number) for name, number in re.findall(r"^(?:pub )?const (GM_\w+): u32 = (\d+);$", text, re.M)]
        for pattern, name in NUMBERS.get(path.name, []):
            at = re.search(pattern, text, re.S)
            numbers.append((name, at[1] if at else refuse(f"{path}: the number of {name} isn't found")))
        lines += [f"GM_IS({name}, {number});" for name, number in numbers]
    return lines


def arms(function):
    """Returns the constants and the names that a function of the sources returns."""
    texts = [text for crate in CRATES for text in sources(crate).values()]
    body = [it for text in texts for it in re.findall(rf"^(?:pub )?fn {function}\(.*?^}}", text, re.M | re.S)]
    rows = re.findall(r"([A-Z]\w+) =>\s*(?:Some\()?\"([^\"]*)\"\)?,", body[0] if len(body) == 1 else refuse(f"{len(body)} functions are {function}"))
    if len(re.findall(r"\b_ =>", body[0])) != 1 or len(rows) + 1 != body[0].count("=>"):
        refuse(f"an arm of {function} isn't read")
    return rows


def names(found):
    """Returns the functions of names. A constant of MORE is named with those of its group."""
    groups = grouped(found)
    lines = ["/* Written by c/constants.py. The names of numbers, as the sources of the library have them. */"]
    for head, of, left_out in NAMED:
        rows = [row for function in of.split() for row in arms(function)] if of not in found else []
        first = rows[0][0] if rows else of
        group = next(names for names in groups.values() if first in names)
        rows += [(name, name[len(left_out):]) for name in group if not rows or name in dict(more())]
        lines += ["", head + " {", f"    switch ({head[:-1].split(' ')[-1]}) {{", *(f"    case GM_{name}: return \"{text}\";" for name, text in rows)]
        lines += ["    default: return NULL;", "    }", "}"]
    return "".join(line + "\n" for line in [*lines, *cpu_names(), *kind_names(), *verdict_words("name", 1), *verdict_words("meaning", 2)])


def cpu_names():
    """Returns the function of the names of cpus."""
    text = sources("mach_records")[pathlib.Path(CPUS)]
    rows = re.findall(r'"(\w+)" => row\("\1", (CPU_TYPE_\w+), (\d+)\),', text)
    if len(rows) != text.count("=> row("):
        refuse("a cpu's name isn't read")
    return ["", "const char *gm_cpu_name(uint32_t cputype, uint32_t cpusubtype) {", "    const uint32_t kind = cpusubtype & ~GM_CPU_SUBTYPE_MASK;",
            *(f'    if (cputype == GM_{cputype} && kind == {kind}) return "{name}";' for name, cputype, kind in rows), "    return NULL;", "}"]


def verdict_words(what, field):
    """Returns the function of the names of verdicts, or of their meanings."""
    return ["", f"const char *gm_verdict_{what}(uint32_t verdict) {{", "    switch (verdict) {",
            *(f'    case GM_{name}: return "{row[field]}";' for name, row in verdicts().items()), "    default: return NULL;", "    }", "}"]


def kind_names():
    """Returns the plain names of what bytes are, by the numbers of goblin_mach_c. Those of foreign kinds are the words of the programs."""
    numbers = dict(re.findall(r"Foreign::(\w+) => (GM_KIND_\w+),", sources("goblin_mach_c")[pathlib.Path("crates/goblin_mach_c/src/kinds.rt")]))
    words = re.findall(r'Foreign::(\w+) => write!\(f, "not Mach-O: ([^"]*)"\)', sources("goblin_mach")[pathlib.Path("crates/goblin_mach/src/first_bytes.rt")])
    if {name for name, _ in words} != set(numbers):
        refuse("a kind that isn't Mach-O has no number or no words")
    rows = [(numbers[name], text) for name, text in words]
    rows += [("GM_KIND_IMAGE", "an image"), ("GM_KIND_FAT", "a fat file"), ("GM_KIND_FAT_64", "a fat file of 64 bits")]
    return ["", "const char *gm_kind_name(uint32_t kind) {", "    switch (kind) {", *(f'    case {name}: return "{text}";' for name, text in rows),
            "    default: return NULL;", "    }", "}"]


def with_part(text, part, lines):
    """Returns the text with these lines between the marks of a part."""
    marks = re.compile(rf"(/\* ---- {part}: written by c/constants.py \*/\n).*?(/\* ---- end \*/\n)", re.S)
    if len(marks.findall(text)) != 1:
        refuse(f"{HEADER} has no part '{part}'")
    return marks.sub(lambda it: it[1] + "".join(line + "\n" for line in lines) + it[2], text)


def main(words):
    if words not in ([], ["--check"]):
        sys.exit("usage: c/constants.py [--check]")
    found = constants()
    header = with_part(HEADER.read_text(), "constants", header_constants(found))
    wanted = {HEADER: with_part(header, "layout", header_asserts()), NAMES: names(found)}
    differ = 0
    for path, text in wanted.items():
        held = path.read_text() if path.exists() else ""
        if not words:
            path.write_text(text)
        elif text != held:
            differ = 1
            name = str(path.relative_to(TOP))
            sys.stdout.writelines(difflib.unified_diff(held.splitlines(True), text.splitlines(True), name, name + ", by the sources"))
    return differ


if __name__ == "__main__":
    sys.exit(main(sys.argv[1:]))
