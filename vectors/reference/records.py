"""The records of load commands and of what they place (docs/FORMAT-IMAGE.md, parts 3, 4, 6 and 7)."""

from .reading import Layout

_SECTION_END = "offset align reloff nreloc flags reserved1 reserved2"
_DYSYMTAB = ("ilocalsym nlocalsym iextdefsym nextdefsym iundefsym nundefsym tocoff ntoc modtaboff nmodtab extrefsymoff "
             "nextrefsyms indirectsymoff nindirectsyms extreloff nextrel locreloff nlocrel")
_DYLD_INFO = ("rebase_off rebase_size bind_off bind_size weak_bind_off weak_bind_size lazy_bind_off lazy_bind_size "
              "export_off export_size")
_ROUTINES = "init_address init_module reserved1 reserved2 reserved3 reserved4 reserved5 reserved6"

# The records of commands: the fields after `cmd` and `cmdsize`, which all have, and the commands that have these fields.
_COMMANDS = [
    ("segname:16s vmaddr vmsize fileoff filesize maxprot initprot nsects flags", "0x1 SEGMENT"),
    ("segname:16s vmaddr:8 vmsize:8 fileoff:8 filesize:8 maxprot initprot nsects flags", "0x19 SEGMENT_64"),
    ("symoff nsyms stroff strsize", "0x2 SYMTAB"),
    ("offset size", "0x3 SYMSEG"),
    ("flavor count", "0x4 THREAD 0x5 UNIXTHREAD"),
    ("name minor_version header_addr", "0x6 LOADFVMLIB 0x7 IDFVMLIB"),
    ("name header_addr", "0x9 FVMFILE"),
    ("", "0x8 IDENT 0xa PREPAGE"),
    (_DYSYMTAB, "0xb DYSYMTAB"),
    ("name timestamp current_version compatibility_version", "0xc LOAD_DYLIB 0xd ID_DYLIB 0x80000018 LOAD_WEAK_DYLIB "
     "0x8000001f REEXPORT_DYLIB 0x20 LAZY_LOAD_DYLIB 0x80000023 LOAD_UPWARD_DYLIB"),
    ("name", "0xe LOAD_DYLINKER 0xf ID_DYLINKER 0x27 DYLD_ENVIRONMENT"),
    ("name nmodules linked_modules", "0x10 PREBOUND_DYLIB"),
    (_ROUTINES, "0x11 ROUTINES"),
    (" ".join(field + ":8" for field in _ROUTINES.split()), "0x1a ROUTINES_64"),
    ("umbrella", "0x12 SUB_FRAMEWORK"),
    ("sub_umbrella", "0x13 SUB_UMBRELLA"),
    ("client", "0x14 SUB_CLIENT"),
    ("sub_library", "0x15 SUB_LIBRARY"),
    ("offset nhints", "0x16 TWOLEVEL_HINTS"),
    ("cksum", "0x17 PREBIND_CKSUM"),
    ("uuid:16s", "0x1b UUID"),
    ("path", "0x8000001c RPATH"),
    ("dataoff datasize", "0x1d CODE_SIGNATURE 0x1e SEGMENT_SPLIT_INFO 0x26 FUNCTION_STARTS 0x29 DATA_IN_CODE 0x2b DYLIB_CODE_SIGN_DRS "
     "0x2d LINKER_OPTION 0x2e LINKER_OPTIMIZATION_HINT 0x80000033 DYLD_EXPORTS_TRIE 0x80000034 DYLD_CHAINED_FIXUPS"),
    ("cryptoff cryptsize cryptid", "0x21 ENCRYPTION_INFO"),
    ("cryptoff cryptsize cryptid pad", "0x2c ENCRYPTION_INFO_64"),
    (_DYLD_INFO, "0x22 DYLD_INFO 0x80000022 DYLD_INFO_ONLY"),
    ("version sdk", "0x24 VERSION_MIN_MACOSX 0x25 VERSION_MIN_IPHONEOS 0x2f VERSION_MIN_TVOS 0x30 VERSION_MIN_WATCHOS"),
    ("entryoff:8 stacksize:8", "0x80000028 MAIN"),
    ("version:8", "0x2a SOURCE_VERSION"),
    ("data_owner:16s offset:8 size:8", "0x31 NOTE"),
    ("platform minos sdk ntools", "0x32 BUILD_VERSION"),
    ("vmaddr:8 fileoff:8 entry_id reserved", "0x80000035 FILESET_ENTRY"),
]

# Those that only later headers have. Opening an image doesn't read their records.
_NEWER = [
    ("dataoff datasize", "0x36 ATOM_INFO 0x37 FUNCTION_VARIANTS 0x38 FUNCTION_VARIANT_FIXUPS"),
    ("triple", "0x39 TARGET_TRIPLE"),
]
NEWER = {"LC_" + name for _, names in _NEWER for name in names.split()[1::2]}

HEADER = {
    False: Layout("Header", "magic cputype cpusubtype filetype ncmds sizeofcmds flags"),
    True: Layout("Header", "magic cputype cpusubtype filetype ncmds sizeofcmds flags reserved"),
}
COMMAND_HEADER = Layout("LoadCommandHeader", "cmd cmdsize")
COMMAND_NAMES, LAYOUT_BY_COMMAND = {}, {}
for _fields, _names in _COMMANDS + _NEWER:
    _layout, _words = Layout("Command", "cmd cmdsize " + _fields), _names.split()
    COMMAND_NAMES.update({int(number, 16): "LC_" + name for number, name in zip(_words[::2], _words[1::2])})
    LAYOUT_BY_COMMAND.update({"LC_" + name: _layout for name in _words[1::2]})

# Records of an image of 32 bits, and of one of 64.
SECTION = {
    False: Layout("Section", "sectname:16s segname:16s addr size " + _SECTION_END),
    True: Layout("Section", "sectname:16s segname:16s addr:8 size:8 " + _SECTION_END + " reserved3"),
}
SYMBOL = {
    False: Layout("Nlist", "n_strx n_type:1 n_sect:1 n_desc:2 n_value"),
    True: Layout("Nlist", "n_strx n_type:1 n_sect:1 n_desc:2 n_value:8"),
}
SEGMENT_SIZE = {False: 56, True: 72}
RELOCATION = Layout("Relocation", "r_address r_info")
DATA_IN_CODE = Layout("DataInCode", "offset length:2 kind:2")
BUILD_TOOL = Layout("BuildTool", "tool version")
