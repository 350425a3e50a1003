// Written by tools/rust-names: do not edit.
//! Uses the names of goblin's module `mach` that docs/RUST-NAMES.md says are here.
#![allow(dead_code, unused_imports)]
#![cfg_attr(rustfmt, rustfmt_skip)]

macro_rules! field {
    ($of:ty, $name:ident) => {
        let _ = |it: &$of| {
            let _ = &it.$name;
        };
    };
}

mod names_0 {
    pub use goblin_mach::mach::{
        FatArchIterator,
        Mach,
        MachO,
        MultiArch,
        SingleArch,
        SingleArchIterator,
        parse_magic_and_ctx,
        peek,
        peek_bytes,
    };
}

mod names_1 {
    pub use goblin_mach::mach::bind_opcodes::{
        BIND_IMMEDIATE_MASK,
        BIND_OPCODE_ADD_ADDR_ULEB,
        BIND_OPCODE_DONE,
        BIND_OPCODE_DO_BIND,
        BIND_OPCODE_DO_BIND_ADD_ADDR_IMM_SCALED,
        BIND_OPCODE_DO_BIND_ADD_ADDR_ULEB,
        BIND_OPCODE_DO_BIND_ULEB_TIMES_SKIPPING_ULEB,
        BIND_OPCODE_MASK,
        BIND_OPCODE_SET_ADDEND_SLEB,
        BIND_OPCODE_SET_DYLIB_ORDINAL_IMM,
        BIND_OPCODE_SET_DYLIB_ORDINAL_ULEB,
        BIND_OPCODE_SET_DYLIB_SPECIAL_IMM,
        BIND_OPCODE_SET_SEGMENT_AND_OFFSET_ULEB,
        BIND_OPCODE_SET_SYMBOL_TRAILING_FLAGS_IMM,
        BIND_OPCODE_SET_TYPE_IMM,
        BIND_SPECIAL_DYLIB_FLAT_LOOKUP,
        BIND_SPECIAL_DYLIB_MAIN_EXECUTABLE,
        BIND_SPECIAL_DYLIB_SELF,
        BIND_SYMBOL_FLAGS_NON_WEAK_DEFINITION,
        BIND_SYMBOL_FLAGS_WEAK_IMPORT,
        BIND_TYPE_POINTER,
        BIND_TYPE_TEXT_ABSOLUTE32,
        BIND_TYPE_TEXT_PCREL32,
        Opcode,
        opcode_to_str,
    };
}

mod names_2 {
    pub use goblin_mach::mach::constants::{
        DYLD_IOS_VERSION_10_0,
        DYLD_IOS_VERSION_11_0,
        DYLD_IOS_VERSION_2_0,
        DYLD_IOS_VERSION_2_1,
        DYLD_IOS_VERSION_2_2,
        DYLD_IOS_VERSION_3_0,
        DYLD_IOS_VERSION_3_1,
        DYLD_IOS_VERSION_3_2,
        DYLD_IOS_VERSION_4_0,
        DYLD_IOS_VERSION_4_1,
        DYLD_IOS_VERSION_4_2,
        DYLD_IOS_VERSION_4_3,
        DYLD_IOS_VERSION_5_0,
        DYLD_IOS_VERSION_5_1,
        DYLD_IOS_VERSION_6_0,
        DYLD_IOS_VERSION_6_1,
        DYLD_IOS_VERSION_7_0,
        DYLD_IOS_VERSION_7_1,
        DYLD_IOS_VERSION_8_0,
        DYLD_IOS_VERSION_9_0,
        DYLD_MACOSX_VERSION_10_10,
        DYLD_MACOSX_VERSION_10_11,
        DYLD_MACOSX_VERSION_10_12,
        DYLD_MACOSX_VERSION_10_13,
        DYLD_MACOSX_VERSION_10_4,
        DYLD_MACOSX_VERSION_10_5,
        DYLD_MACOSX_VERSION_10_6,
        DYLD_MACOSX_VERSION_10_7,
        DYLD_MACOSX_VERSION_10_8,
        DYLD_MACOSX_VERSION_10_9,
        SECTION_ATTRIBUTES,
        SECTION_ATTRIBUTES_SYS,
        SECTION_ATTRIBUTES_USR,
        SECTION_TYPE,
        SECT_BSS,
        SECT_COMMON,
        SECT_DATA,
        SECT_FVMLIB_INIT0,
        SECT_FVMLIB_INIT1,
        SECT_ICON_HEADER,
        SECT_ICON_TIFF,
        SECT_OBJC_MODULES,
        SECT_OBJC_REFS,
        SECT_OBJC_STRINGS,
        SECT_OBJC_SYMBOLS,
        SECT_TEXT,
        SEG_DATA,
        SEG_ICON,
        SEG_IMPORT,
        SEG_LINKEDIT,
        SEG_OBJC,
        SEG_PAGEZERO,
        SEG_TEXT,
        SEG_UNIXSTACK,
        S_16BYTE_LITERALS,
        S_4BYTE_LITERALS,
        S_8BYTE_LITERALS,
        S_ATTR_DEBUG,
        S_ATTR_EXT_RELOC,
        S_ATTR_LIVE_SUPPORT,
        S_ATTR_LOC_RELOC,
        S_ATTR_NO_DEAD_STRIP,
        S_ATTR_NO_TOC,
        S_ATTR_PURE_INSTRUCTIONS,
        S_ATTR_SELF_MODIFYING_CODE,
        S_ATTR_SOME_INSTRUCTIONS,
        S_ATTR_STRIP_STATIC_SYMS,
        S_COALESCED,
        S_CSTRING_LITERALS,
        S_DTRACE_DOF,
        S_GB_ZEROFILL,
        S_INTERPOSING,
        S_LAZY_DYLIB_SYMBOL_POINTERS,
        S_LAZY_SYMBOL_POINTERS,
        S_LITERAL_POINTERS,
        S_MOD_INIT_FUNC_POINTERS,
        S_MOD_TERM_FUNC_POINTERS,
        S_NON_LAZY_SYMBOL_POINTERS,
        S_REGULAR,
        S_SYMBOL_STUBS,
        S_THREAD_LOCAL_INIT_FUNCTION_POINTERS,
        S_THREAD_LOCAL_REGULAR,
        S_THREAD_LOCAL_VARIABLES,
        S_THREAD_LOCAL_VARIABLE_POINTERS,
        S_THREAD_LOCAL_ZEROFILL,
        S_ZEROFILL,
        VM_PROT_EXECUTE,
        VM_PROT_READ,
        VM_PROT_WRITE,
    };
}

mod names_3 {
    pub use goblin_mach::mach::constants::cputype::{
        CPU_ARCH_ABI64,
        CPU_ARCH_ABI64_32,
        CPU_ARCH_MASK,
        CPU_SUBTYPE_386,
        CPU_SUBTYPE_486,
        CPU_SUBTYPE_486SX,
        CPU_SUBTYPE_586,
        CPU_SUBTYPE_ARM64_32_ALL,
        CPU_SUBTYPE_ARM64_32_V8,
        CPU_SUBTYPE_ARM64_ALL,
        CPU_SUBTYPE_ARM64_E,
        CPU_SUBTYPE_ARM64_V8,
        CPU_SUBTYPE_ARM_ALL,
        CPU_SUBTYPE_ARM_V4T,
        CPU_SUBTYPE_ARM_V5TEJ,
        CPU_SUBTYPE_ARM_V6,
        CPU_SUBTYPE_ARM_V6M,
        CPU_SUBTYPE_ARM_V7,
        CPU_SUBTYPE_ARM_V7EM,
        CPU_SUBTYPE_ARM_V7F,
        CPU_SUBTYPE_ARM_V7K,
        CPU_SUBTYPE_ARM_V7M,
        CPU_SUBTYPE_ARM_V7S,
        CPU_SUBTYPE_ARM_V8,
        CPU_SUBTYPE_ARM_XSCALE,
        CPU_SUBTYPE_BIG_ENDIAN,
        CPU_SUBTYPE_CELERON,
        CPU_SUBTYPE_CELERON_MOBILE,
        CPU_SUBTYPE_HPPA_7100,
        CPU_SUBTYPE_HPPA_7100LC,
        CPU_SUBTYPE_HPPA_ALL,
        CPU_SUBTYPE_I386_ALL,
        CPU_SUBTYPE_I860_860,
        CPU_SUBTYPE_I860_ALL,
        CPU_SUBTYPE_INTEL_FAMILY_MAX,
        CPU_SUBTYPE_INTEL_MODEL_ALL,
        CPU_SUBTYPE_ITANIUM,
        CPU_SUBTYPE_ITANIUM_2,
        CPU_SUBTYPE_LITTLE_ENDIAN,
        CPU_SUBTYPE_MASK,
        CPU_SUBTYPE_MC68030,
        CPU_SUBTYPE_MC68030_ONLY,
        CPU_SUBTYPE_MC68040,
        CPU_SUBTYPE_MC680X0_ALL,
        CPU_SUBTYPE_MC88000_ALL,
        CPU_SUBTYPE_MC88100,
        CPU_SUBTYPE_MC88110,
        CPU_SUBTYPE_MC98000_ALL,
        CPU_SUBTYPE_MC98601,
        CPU_SUBTYPE_MIPS_ALL,
        CPU_SUBTYPE_MIPS_R2000,
        CPU_SUBTYPE_MIPS_R2000A,
        CPU_SUBTYPE_MIPS_R2300,
        CPU_SUBTYPE_MIPS_R2600,
        CPU_SUBTYPE_MIPS_R2800,
        CPU_SUBTYPE_MIPS_R3000,
        CPU_SUBTYPE_MIPS_R3000A,
        CPU_SUBTYPE_MULTIPLE,
        CPU_SUBTYPE_PENT,
        CPU_SUBTYPE_PENTII_M3,
        CPU_SUBTYPE_PENTII_M5,
        CPU_SUBTYPE_PENTIUM_3,
        CPU_SUBTYPE_PENTIUM_3_M,
        CPU_SUBTYPE_PENTIUM_3_XEON,
        CPU_SUBTYPE_PENTIUM_4,
        CPU_SUBTYPE_PENTIUM_4_M,
        CPU_SUBTYPE_PENTIUM_M,
        CPU_SUBTYPE_PENTPRO,
        CPU_SUBTYPE_POWERPC_601,
        CPU_SUBTYPE_POWERPC_602,
        CPU_SUBTYPE_POWERPC_603,
        CPU_SUBTYPE_POWERPC_603E,
        CPU_SUBTYPE_POWERPC_603EV,
        CPU_SUBTYPE_POWERPC_604,
        CPU_SUBTYPE_POWERPC_604E,
        CPU_SUBTYPE_POWERPC_620,
        CPU_SUBTYPE_POWERPC_7400,
        CPU_SUBTYPE_POWERPC_7450,
        CPU_SUBTYPE_POWERPC_750,
        CPU_SUBTYPE_POWERPC_970,
        CPU_SUBTYPE_POWERPC_ALL,
        CPU_SUBTYPE_SPARC_ALL,
        CPU_SUBTYPE_UVAXI,
        CPU_SUBTYPE_UVAXII,
        CPU_SUBTYPE_UVAXIII,
        CPU_SUBTYPE_VAX730,
        CPU_SUBTYPE_VAX750,
        CPU_SUBTYPE_VAX780,
        CPU_SUBTYPE_VAX785,
        CPU_SUBTYPE_VAX8200,
        CPU_SUBTYPE_VAX8500,
        CPU_SUBTYPE_VAX8600,
        CPU_SUBTYPE_VAX8650,
        CPU_SUBTYPE_VAX8800,
        CPU_SUBTYPE_VAX_ALL,
        CPU_SUBTYPE_X86_64_ALL,
        CPU_SUBTYPE_X86_64_H,
        CPU_SUBTYPE_X86_ALL,
        CPU_SUBTYPE_X86_ARCH1,
        CPU_SUBTYPE_XEON,
        CPU_SUBTYPE_XEON_MP,
        CPU_TYPE_ALPHA,
        CPU_TYPE_ANY,
        CPU_TYPE_ARM,
        CPU_TYPE_ARM64,
        CPU_TYPE_ARM64_32,
        CPU_TYPE_HPPA,
        CPU_TYPE_I386,
        CPU_TYPE_I860,
        CPU_TYPE_MC680X0,
        CPU_TYPE_MC88000,
        CPU_TYPE_MC98000,
        CPU_TYPE_MIPS,
        CPU_TYPE_POWERPC,
        CPU_TYPE_POWERPC64,
        CPU_TYPE_SPARC,
        CPU_TYPE_VAX,
        CPU_TYPE_X86,
        CPU_TYPE_X86_64,
        CpuSubType,
        CpuType,
        get_arch_from_flag,
        get_arch_name_from_types,
    };
}

mod names_4 {
    pub use goblin_mach::mach::exports::{
        EXPORT_SYMBOL_FLAGS_KIND_ABSOLUTE,
        EXPORT_SYMBOL_FLAGS_KIND_MASK,
        EXPORT_SYMBOL_FLAGS_KIND_REGULAR,
        EXPORT_SYMBOL_FLAGS_KIND_THREAD_LOCAL,
        EXPORT_SYMBOL_FLAGS_REEXPORT,
        EXPORT_SYMBOL_FLAGS_STUB_AND_RESOLVER,
        EXPORT_SYMBOL_FLAGS_WEAK_DEFINITION,
        Export,
        ExportInfo,
        ExportTrie,
        SymbolKind,
    };
}

mod names_5 {
    pub use goblin_mach::mach::fat::{
        FAT_CIGAM,
        FAT_MAGIC,
        FatArch,
        FatHeader,
        SIZEOF_FAT_ARCH,
        SIZEOF_FAT_HEADER,
    };
}

mod names_6 {
    pub use goblin_mach::mach::header::{
        Header,
        Header32,
        Header64,
        MH_ALLMODSBOUND,
        MH_ALLOW_STACK_EXECUTION,
        MH_APP_EXTENSION_SAFE,
        MH_BINDATLOAD,
        MH_BINDS_TO_WEAK,
        MH_BUNDLE,
        MH_CANONICAL,
        MH_CIGAM,
        MH_CIGAM_64,
        MH_CORE,
        MH_DEAD_STRIPPABLE_DYLIB,
        MH_DSYM,
        MH_DYLDLINK,
        MH_DYLIB,
        MH_DYLIB_STUB,
        MH_DYLINKER,
        MH_EXECUTE,
        MH_FILESET,
        MH_FORCE_FLAT,
        MH_FVMLIB,
        MH_GPU_DYLIB,
        MH_GPU_EXECUTE,
        MH_HAS_TLV_DESCRIPTORS,
        MH_INCRLINK,
        MH_KEXT_BUNDLE,
        MH_LAZY_INIT,
        MH_MAGIC,
        MH_MAGIC_64,
        MH_NOFIXPREBINDING,
        MH_NOMULTIDEFS,
        MH_NOUNDEFS,
        MH_NO_HEAP_EXECUTION,
        MH_NO_REEXPORTED_DYLIBS,
        MH_OBJECT,
        MH_PIE,
        MH_PREBINDABLE,
        MH_PREBOUND,
        MH_PRELOAD,
        MH_ROOT_SAFE,
        MH_SETUID_SAFE,
        MH_SPLIT_SEGS,
        MH_SUBSECTIONS_VIA_SYMBOLS,
        MH_TWOLEVEL,
        MH_WEAK_DEFINES,
        SIZEOF_HEADER_32,
        SIZEOF_HEADER_64,
        filetype_to_str,
        flag_to_str,
    };
}

mod names_7 {
    pub use goblin_mach::mach::imports::{
        BindInterpreter,
        Import,
    };
}

mod names_8 {
    pub use goblin_mach::mach::load_command::{
        BuildToolVersion,
        BuildVersionCommand,
        CommandVariant,
        DataInCodeEntry,
        DyldInfoCommand,
        Dylib,
        DylibCommand,
        DylibModule,
        DylibModule64,
        DylibReference,
        DylibTableOfContents,
        DylinkerCommand,
        DysymtabCommand,
        EncryptionInfoCommand32,
        EncryptionInfoCommand64,
        EntryPointCommand,
        FilesetEntryCommand,
        FvmfileCommand,
        Fvmlib,
        FvmlibCommand,
        IdentCommand,
        LC_BUILD_VERSION,
        LC_CODE_SIGNATURE,
        LC_DATA_IN_CODE,
        LC_DYLD_CHAINED_FIXUPS,
        LC_DYLD_ENVIRONMENT,
        LC_DYLD_EXPORTS_TRIE,
        LC_DYLD_INFO,
        LC_DYLD_INFO_ONLY,
        LC_DYLIB_CODE_SIGN_DRS,
        LC_DYSYMTAB,
        LC_ENCRYPTION_INFO,
        LC_ENCRYPTION_INFO_64,
        LC_FILESET_ENTRY,
        LC_FUNCTION_STARTS,
        LC_FVMFILE,
        LC_IDENT,
        LC_IDFVMLIB,
        LC_ID_DYLIB,
        LC_ID_DYLINKER,
        LC_LAZY_LOAD_DYLIB,
        LC_LINKER_OPTIMIZATION_HINT,
        LC_LINKER_OPTION,
        LC_LOADFVMLIB,
        LC_LOAD_DYLIB,
        LC_LOAD_DYLINKER,
        LC_LOAD_UPWARD_DYLIB,
        LC_LOAD_WEAK_DYLIB,
        LC_MAIN,
        LC_NOTE,
        LC_PREBIND_CKSUM,
        LC_PREBOUND_DYLIB,
        LC_PREPAGE,
        LC_REEXPORT_DYLIB,
        LC_REQ_DYLD,
        LC_ROUTINES,
        LC_ROUTINES_64,
        LC_RPATH,
        LC_SEGMENT,
        LC_SEGMENT_64,
        LC_SEGMENT_SPLIT_INFO,
        LC_SOURCE_VERSION,
        LC_SUB_CLIENT,
        LC_SUB_FRAMEWORK,
        LC_SUB_LIBRARY,
        LC_SUB_UMBRELLA,
        LC_SYMSEG,
        LC_SYMTAB,
        LC_THREAD,
        LC_TWOLEVEL_HINTS,
        LC_UNIXTHREAD,
        LC_UUID,
        LC_VERSION_MIN_IPHONEOS,
        LC_VERSION_MIN_MACOSX,
        LC_VERSION_MIN_TVOS,
        LC_VERSION_MIN_WATCHOS,
        LcStr,
        LinkeditDataCommand,
        LinkerOptionCommand,
        LoadCommand,
        LoadCommandHeader,
        NoteCommand,
        PLATFORM_BRIDGEOS,
        PLATFORM_DRIVERKIT,
        PLATFORM_IOS,
        PLATFORM_IOSSIMULATOR,
        PLATFORM_MACCATALYST,
        PLATFORM_MACOS,
        PLATFORM_TVOS,
        PLATFORM_TVOSSIMULATOR,
        PLATFORM_VISIONOS,
        PLATFORM_VISIONOSSIMULATOR,
        PLATFORM_WATCHOS,
        PLATFORM_WATCHOSSIMULATOR,
        Platform,
        PrebindCksumCommand,
        PreboundDylibCommand,
        RoutinesCommand32,
        RoutinesCommand64,
        RpathCommand,
        SIZEOF_DYLIB,
        SIZEOF_DYLIB_COMMAND,
        SIZEOF_DYLIB_INFO_COMMAND,
        SIZEOF_DYLINKER_COMMAND,
        SIZEOF_DYSYMTAB_COMMAND,
        SIZEOF_ENCRYPTION_INFO_COMMAND_32,
        SIZEOF_ENCRYPTION_INFO_COMMAND_64,
        SIZEOF_ENTRY_POINT_COMMAND,
        SIZEOF_FVMFILE_COMMAND,
        SIZEOF_FVMLIB,
        SIZEOF_FVMLIB_COMMAND,
        SIZEOF_IDENT_COMMAND,
        SIZEOF_LC_STR,
        SIZEOF_LINKEDIT_DATA_COMMAND,
        SIZEOF_LINKER_OPTION_COMMAND,
        SIZEOF_LOAD_COMMAND,
        SIZEOF_PREBOUND_DYLIB_COMMAND,
        SIZEOF_RPATH_COMMAND,
        SIZEOF_SECTION_32,
        SIZEOF_SECTION_64,
        SIZEOF_SEGMENT_COMMAND_32,
        SIZEOF_SEGMENT_COMMAND_64,
        SIZEOF_SUB_CLIENT_COMMAND,
        SIZEOF_SUB_FRAMEWORK_COMMAND,
        SIZEOF_SUB_LIBRARY_COMMAND,
        SIZEOF_SUB_UMBRELLA_COMMAND,
        SIZEOF_SYMSEG_COMMAND,
        SIZEOF_SYMTAB_COMMAND,
        SIZEOF_UUID_COMMAND,
        SIZEOF_VERSION_MIN_COMMAND,
        Section32,
        Section64,
        SegmentCommand32,
        SegmentCommand64,
        SourceVersionCommand,
        SubClientCommand,
        SubFrameworkCommand,
        SubLibraryCommand,
        SubUmbrellaCommand,
        SymsegCommand,
        SymtabCommand,
        TOOL_CLANG,
        TOOL_LD,
        TOOL_LLD,
        TOOL_SWIFT,
        ThreadCommand,
        TwolevelHint,
        TwolevelHintsCommand,
        UuidCommand,
        VersionMinCommand,
        cmd_to_str,
    };
}

mod names_9 {
    pub use goblin_mach::mach::relocation::{
        ARM64_RELOC_ADDEND,
        ARM64_RELOC_BRANCH26,
        ARM64_RELOC_GOT_LOAD_PAGE21,
        ARM64_RELOC_GOT_LOAD_PAGEOFF12,
        ARM64_RELOC_PAGE21,
        ARM64_RELOC_PAGEOFF12,
        ARM64_RELOC_POINTER_TO_GOT,
        ARM64_RELOC_SUBTRACTOR,
        ARM64_RELOC_TLVP_LOAD_PAGE21,
        ARM64_RELOC_TLVP_LOAD_PAGEOFF12,
        ARM64_RELOC_UNSIGNED,
        ARM_RELOC_BR24,
        ARM_RELOC_HALF,
        ARM_RELOC_HALF_SECTDIFF,
        ARM_RELOC_LOCAL_SECTDIFF,
        ARM_RELOC_PAIR,
        ARM_RELOC_PB_LA_PTR,
        ARM_RELOC_SECTDIFF,
        ARM_RELOC_VANILLA,
        ARM_THUMB_32BIT_BRANCH,
        ARM_THUMB_RELOC_BR22,
        GENERIC_RELOC_LOCAL_SECTDIFF,
        GENERIC_RELOC_PAIR,
        GENERIC_RELOC_PB_LA_PTR,
        GENERIC_RELOC_SECTDIFF,
        GENERIC_RELOC_TLV,
        GENERIC_RELOC_VANILLA,
        R_ABS,
        RelocType,
        RelocationInfo,
        SIZEOF_RELOCATION_INFO,
        X86_64_RELOC_BRANCH,
        X86_64_RELOC_GOT,
        X86_64_RELOC_GOT_LOAD,
        X86_64_RELOC_SIGNED,
        X86_64_RELOC_SIGNED_1,
        X86_64_RELOC_SIGNED_2,
        X86_64_RELOC_SIGNED_4,
        X86_64_RELOC_SUBTRACTOR,
        X86_64_RELOC_TLV,
        X86_64_RELOC_UNSIGNED,
        reloc_to_str,
    };
}

mod names_10 {
    pub use goblin_mach::mach::segment::{
        RelocationIterator,
        Section,
        SectionData,
        SectionIterator,
        Segment,
        Segments,
    };
}

mod names_11 {
    pub use goblin_mach::mach::symbols::{
        MAX_SECT,
        NLIST_TYPE_GLOBAL,
        NLIST_TYPE_LOCAL,
        NLIST_TYPE_MASK,
        NO_SECT,
        N_ABS,
        N_AST,
        N_BCOMM,
        N_BINCL,
        N_BNSYM,
        N_DESC_DISCARDED,
        N_ECOML,
        N_ECOMM,
        N_EINCL,
        N_ENSYM,
        N_ENTRY,
        N_EXCL,
        N_EXT,
        N_FNAME,
        N_FUN,
        N_GSYM,
        N_INDR,
        N_LBRAC,
        N_LCSYM,
        N_LENG,
        N_LSYM,
        N_NO_DEAD_STRIP,
        N_OLEVEL,
        N_OPT,
        N_OSO,
        N_PARAMS,
        N_PBUD,
        N_PC,
        N_PEXT,
        N_PSYM,
        N_RBRAC,
        N_RSYM,
        N_SECT,
        N_SLINE,
        N_SO,
        N_SOL,
        N_SSYM,
        N_STAB,
        N_STSYM,
        N_TYPE,
        N_UNDF,
        N_VERSION,
        N_WEAK_DEF,
        N_WEAK_REF,
        Nlist,
        Nlist32,
        Nlist64,
        REFERENCED_DYNAMICALLY,
        REFERENCE_FLAG_DEFINED,
        REFERENCE_FLAG_PRIVATE_DEFINED,
        REFERENCE_FLAG_PRIVATE_UNDEFINED_LAZY,
        REFERENCE_FLAG_PRIVATE_UNDEFINED_NON_LAZY,
        REFERENCE_FLAG_UNDEFINED_LAZY,
        REFERENCE_FLAG_UNDEFINED_NON_LAZY,
        REFERENCE_TYPE,
        SIZEOF_NLIST_32,
        SIZEOF_NLIST_64,
        SymbolIterator,
        Symbols,
        SymbolsCtx,
        n_type_to_str,
    };
}

mod variants_0 {
    pub use goblin_mach::mach::Mach::{
        Binary,
        Fat,
    };
}

mod variants_1 {
    pub use goblin_mach::mach::SingleArch::{
        Archive,
        MachO,
    };
}

mod variants_2 {
    pub use goblin_mach::mach::exports::ExportInfo::{
        Reexport,
        Regular,
        Stub,
    };
}

mod variants_3 {
    pub use goblin_mach::mach::exports::SymbolKind::{
        Absolute,
        Regular,
        ThreadLocal,
        UnknownSymbolKind,
    };
}

mod variants_4 {
    pub use goblin_mach::mach::load_command::CommandVariant::{
        BuildVersion,
        CodeSignature,
        DataInCode,
        DyldChainedFixups,
        DyldEnvironment,
        DyldExportsTrie,
        DyldInfo,
        DyldInfoOnly,
        DylibCodeSignDrs,
        Dysymtab,
        EncryptionInfo32,
        EncryptionInfo64,
        FilesetEntry,
        FunctionStarts,
        Fvmfile,
        IdDylib,
        IdDylinker,
        IdFvmlib,
        Ident,
        LazyLoadDylib,
        LinkerOptimizationHint,
        LinkerOption,
        LoadDylib,
        LoadDylinker,
        LoadFvmlib,
        LoadUpwardDylib,
        LoadWeakDylib,
        Main,
        Note,
        PrebindCksum,
        PreboundDylib,
        Prepage,
        ReexportDylib,
        Routines32,
        Routines64,
        Rpath,
        Segment32,
        Segment64,
        SegmentSplitInfo,
        SourceVersion,
        SubClient,
        SubFramework,
        SubLibrary,
        SubUmbrella,
        Symseg,
        Symtab,
        Thread,
        TwolevelHints,
        Unimplemented,
        Unixthread,
        Uuid,
        VersionMinIphoneos,
        VersionMinMacosx,
        VersionMinTvos,
        VersionMinWatchos,
    };
}

mod variants_5 {
    pub use goblin_mach::mach::load_command::Platform::{
        Iphoneos,
        Macos,
        Tvos,
        Watchos,
    };
}

fn clone<T: Clone>() {}

fn copy<T: Copy>() {}

fn debug<T: core::fmt::Debug>() {}

fn display<T: core::fmt::Display>() {}

fn default<T: Default>() {}

fn eq<T: Eq>() {}

fn partialeq<T: PartialEq>() {}

fn hash<T: core::hash::Hash>() {}

fn iterator<T: Iterator>() {}

fn exactsizeiterator<T: ExactSizeIterator>() {}

#[test]
fn members() {
    iterator::<goblin_mach::mach::FatArchIterator>();
    debug::<goblin_mach::mach::Mach>();
    let _ = goblin_mach::mach::Mach::parse;
    let _ = goblin_mach::mach::Mach::parse_lossy;
    field!(goblin_mach::mach::MachO, entry);
    let _ = goblin_mach::mach::MachO::exports;
    field!(goblin_mach::mach::MachO, header);
    debug::<goblin_mach::mach::MachO>();
    let _ = goblin_mach::mach::MachO::imports;
    field!(goblin_mach::mach::MachO, is_64);
    let _ = goblin_mach::mach::MachO::is_object_file;
    field!(goblin_mach::mach::MachO, libs);
    field!(goblin_mach::mach::MachO, little_endian);
    field!(goblin_mach::mach::MachO, load_commands);
    field!(goblin_mach::mach::MachO, name);
    field!(goblin_mach::mach::MachO, old_style_entry);
    let _ = goblin_mach::mach::MachO::parse;
    let _ = goblin_mach::mach::MachO::parse_lossy;
    let _ = goblin_mach::mach::MachO::relocations;
    field!(goblin_mach::mach::MachO, rpaths);
    field!(goblin_mach::mach::MachO, segments);
    let _ = goblin_mach::mach::MachO::symbols;
    let _ = goblin_mach::mach::MultiArch::arches;
    let _ = goblin_mach::mach::MultiArch::find_cputype;
    let _ = goblin_mach::mach::MultiArch::get;
    debug::<goblin_mach::mach::MultiArch>();
    let _ = goblin_mach::mach::MultiArch::iter_arches;
    field!(goblin_mach::mach::MultiArch, narches);
    let _ = goblin_mach::mach::MultiArch::new;
    debug::<goblin_mach::mach::SingleArch>();
    iterator::<goblin_mach::mach::SingleArchIterator>();
    debug::<goblin_mach::mach::exports::Export>();
    field!(goblin_mach::mach::exports::Export, info);
    field!(goblin_mach::mach::exports::Export, name);
    let _ = goblin_mach::mach::exports::Export::new;
    field!(goblin_mach::mach::exports::Export, offset);
    field!(goblin_mach::mach::exports::Export, size);
    debug::<goblin_mach::mach::exports::ExportInfo>();
    let _ = goblin_mach::mach::exports::ExportInfo::parse;
    let _ = goblin_mach::mach::exports::ExportTrie::exports;
    debug::<goblin_mach::mach::exports::ExportTrie>();
    let _ = goblin_mach::mach::exports::ExportTrie::new;
    let _ = goblin_mach::mach::exports::ExportTrie::new_from_linkedit_data_command;
    debug::<goblin_mach::mach::exports::SymbolKind>();
    let _ = goblin_mach::mach::exports::SymbolKind::new;
    let _ = goblin_mach::mach::exports::SymbolKind::to_str;
    field!(goblin_mach::mach::fat::FatArch, align);
    let _ = goblin_mach::mach::fat::FatArch::cpu_caps;
    let _ = goblin_mach::mach::fat::FatArch::cpusubtype;
    let _ = goblin_mach::mach::fat::FatArch::cputype;
    clone::<goblin_mach::mach::fat::FatArch>();
    copy::<goblin_mach::mach::fat::FatArch>();
    debug::<goblin_mach::mach::fat::FatArch>();
    default::<goblin_mach::mach::fat::FatArch>();
    let _ = goblin_mach::mach::fat::FatArch::is_64;
    field!(goblin_mach::mach::fat::FatArch, offset);
    let _ = goblin_mach::mach::fat::FatArch::parse;
    field!(goblin_mach::mach::fat::FatArch, size);
    let _ = goblin_mach::mach::fat::FatArch::slice;
    let _ = goblin_mach::mach::fat::FatHeader::from_bytes;
    let _ = goblin_mach::mach::fat::FatHeader::from_fd;
    clone::<goblin_mach::mach::fat::FatHeader>();
    copy::<goblin_mach::mach::fat::FatHeader>();
    debug::<goblin_mach::mach::fat::FatHeader>();
    default::<goblin_mach::mach::fat::FatHeader>();
    field!(goblin_mach::mach::fat::FatHeader, magic);
    field!(goblin_mach::mach::fat::FatHeader, nfat_arch);
    let _ = goblin_mach::mach::fat::FatHeader::parse;
    field!(goblin_mach::mach::header::Header32, cpusubtype);
    field!(goblin_mach::mach::header::Header32, cputype);
    field!(goblin_mach::mach::header::Header32, filetype);
    field!(goblin_mach::mach::header::Header32, flags);
    let _ = goblin_mach::mach::header::Header32::from_bytes;
    clone::<goblin_mach::mach::header::Header32>();
    copy::<goblin_mach::mach::header::Header32>();
    debug::<goblin_mach::mach::header::Header32>();
    default::<goblin_mach::mach::header::Header32>();
    field!(goblin_mach::mach::header::Header32, magic);
    field!(goblin_mach::mach::header::Header32, ncmds);
    let _ = goblin_mach::mach::header::Header32::size;
    field!(goblin_mach::mach::header::Header32, sizeofcmds);
    field!(goblin_mach::mach::header::Header64, cpusubtype);
    field!(goblin_mach::mach::header::Header64, cputype);
    field!(goblin_mach::mach::header::Header64, filetype);
    field!(goblin_mach::mach::header::Header64, flags);
    let _ = goblin_mach::mach::header::Header64::from_bytes;
    clone::<goblin_mach::mach::header::Header64>();
    copy::<goblin_mach::mach::header::Header64>();
    debug::<goblin_mach::mach::header::Header64>();
    default::<goblin_mach::mach::header::Header64>();
    field!(goblin_mach::mach::header::Header64, magic);
    field!(goblin_mach::mach::header::Header64, ncmds);
    field!(goblin_mach::mach::header::Header64, reserved);
    let _ = goblin_mach::mach::header::Header64::size;
    field!(goblin_mach::mach::header::Header64, sizeofcmds);
    let _ = goblin_mach::mach::header::Header::cpu_caps;
    let _ = goblin_mach::mach::header::Header::cpusubtype;
    let _ = goblin_mach::mach::header::Header::cputype;
    field!(goblin_mach::mach::header::Header, filetype);
    field!(goblin_mach::mach::header::Header, flags);
    clone::<goblin_mach::mach::header::Header>();
    copy::<goblin_mach::mach::header::Header>();
    debug::<goblin_mach::mach::header::Header>();
    default::<goblin_mach::mach::header::Header>();
    field!(goblin_mach::mach::header::Header, magic);
    field!(goblin_mach::mach::header::Header, ncmds);
    let _ = goblin_mach::mach::header::Header::new;
    field!(goblin_mach::mach::header::Header, reserved);
    field!(goblin_mach::mach::header::Header, sizeofcmds);
    debug::<goblin_mach::mach::imports::BindInterpreter>();
    let _ = goblin_mach::mach::imports::BindInterpreter::imports;
    let _ = goblin_mach::mach::imports::BindInterpreter::new;
    field!(goblin_mach::mach::imports::Import, addend);
    field!(goblin_mach::mach::imports::Import, address);
    field!(goblin_mach::mach::imports::Import, dylib);
    debug::<goblin_mach::mach::imports::Import>();
    field!(goblin_mach::mach::imports::Import, is_lazy);
    field!(goblin_mach::mach::imports::Import, is_weak);
    field!(goblin_mach::mach::imports::Import, name);
    field!(goblin_mach::mach::imports::Import, offset);
    field!(goblin_mach::mach::imports::Import, size);
    field!(goblin_mach::mach::imports::Import, start_of_sequence_offset);
    clone::<goblin_mach::mach::load_command::BuildToolVersion>();
    copy::<goblin_mach::mach::load_command::BuildToolVersion>();
    debug::<goblin_mach::mach::load_command::BuildToolVersion>();
    field!(goblin_mach::mach::load_command::BuildToolVersion, tool);
    field!(goblin_mach::mach::load_command::BuildToolVersion, version);
    field!(goblin_mach::mach::load_command::BuildVersionCommand, cmd);
    field!(goblin_mach::mach::load_command::BuildVersionCommand, cmdsize);
    clone::<goblin_mach::mach::load_command::BuildVersionCommand>();
    copy::<goblin_mach::mach::load_command::BuildVersionCommand>();
    debug::<goblin_mach::mach::load_command::BuildVersionCommand>();
    field!(goblin_mach::mach::load_command::BuildVersionCommand, minos);
    field!(goblin_mach::mach::load_command::BuildVersionCommand, ntools);
    field!(goblin_mach::mach::load_command::BuildVersionCommand, platform);
    field!(goblin_mach::mach::load_command::BuildVersionCommand, sdk);
    let _ = goblin_mach::mach::load_command::CommandVariant::cmd;
    let _ = goblin_mach::mach::load_command::CommandVariant::cmdsize;
    debug::<goblin_mach::mach::load_command::CommandVariant>();
    clone::<goblin_mach::mach::load_command::DataInCodeEntry>();
    copy::<goblin_mach::mach::load_command::DataInCodeEntry>();
    debug::<goblin_mach::mach::load_command::DataInCodeEntry>();
    field!(goblin_mach::mach::load_command::DataInCodeEntry, kind);
    field!(goblin_mach::mach::load_command::DataInCodeEntry, length);
    field!(goblin_mach::mach::load_command::DataInCodeEntry, offset);
    field!(goblin_mach::mach::load_command::DyldInfoCommand, bind_off);
    field!(goblin_mach::mach::load_command::DyldInfoCommand, bind_size);
    field!(goblin_mach::mach::load_command::DyldInfoCommand, cmd);
    field!(goblin_mach::mach::load_command::DyldInfoCommand, cmdsize);
    field!(goblin_mach::mach::load_command::DyldInfoCommand, export_off);
    field!(goblin_mach::mach::load_command::DyldInfoCommand, export_size);
    clone::<goblin_mach::mach::load_command::DyldInfoCommand>();
    copy::<goblin_mach::mach::load_command::DyldInfoCommand>();
    debug::<goblin_mach::mach::load_command::DyldInfoCommand>();
    default::<goblin_mach::mach::load_command::DyldInfoCommand>();
    field!(goblin_mach::mach::load_command::DyldInfoCommand, lazy_bind_off);
    field!(goblin_mach::mach::load_command::DyldInfoCommand, lazy_bind_size);
    field!(goblin_mach::mach::load_command::DyldInfoCommand, rebase_off);
    field!(goblin_mach::mach::load_command::DyldInfoCommand, rebase_size);
    field!(goblin_mach::mach::load_command::DyldInfoCommand, weak_bind_off);
    field!(goblin_mach::mach::load_command::DyldInfoCommand, weak_bind_size);
    field!(goblin_mach::mach::load_command::Dylib, compatibility_version);
    field!(goblin_mach::mach::load_command::Dylib, current_version);
    clone::<goblin_mach::mach::load_command::Dylib>();
    copy::<goblin_mach::mach::load_command::Dylib>();
    debug::<goblin_mach::mach::load_command::Dylib>();
    field!(goblin_mach::mach::load_command::Dylib, name);
    field!(goblin_mach::mach::load_command::Dylib, timestamp);
    field!(goblin_mach::mach::load_command::DylibCommand, cmd);
    field!(goblin_mach::mach::load_command::DylibCommand, cmdsize);
    field!(goblin_mach::mach::load_command::DylibCommand, dylib);
    clone::<goblin_mach::mach::load_command::DylibCommand>();
    copy::<goblin_mach::mach::load_command::DylibCommand>();
    debug::<goblin_mach::mach::load_command::DylibCommand>();
    field!(goblin_mach::mach::load_command::DylibModule64, iextdefsym);
    field!(goblin_mach::mach::load_command::DylibModule64, iextrel);
    field!(goblin_mach::mach::load_command::DylibModule64, iinit_iterm);
    field!(goblin_mach::mach::load_command::DylibModule64, ilocalsym);
    clone::<goblin_mach::mach::load_command::DylibModule64>();
    copy::<goblin_mach::mach::load_command::DylibModule64>();
    debug::<goblin_mach::mach::load_command::DylibModule64>();
    field!(goblin_mach::mach::load_command::DylibModule64, irefsym);
    field!(goblin_mach::mach::load_command::DylibModule64, module_name);
    field!(goblin_mach::mach::load_command::DylibModule64, nextdefsym);
    field!(goblin_mach::mach::load_command::DylibModule64, nextrel);
    field!(goblin_mach::mach::load_command::DylibModule64, ninit_nterm);
    field!(goblin_mach::mach::load_command::DylibModule64, nlocalsym);
    field!(goblin_mach::mach::load_command::DylibModule64, nrefsym);
    field!(goblin_mach::mach::load_command::DylibModule64, objc_module_info_addr);
    field!(goblin_mach::mach::load_command::DylibModule64, objc_module_info_size);
    field!(goblin_mach::mach::load_command::DylibModule, iextdefsym);
    field!(goblin_mach::mach::load_command::DylibModule, iextrel);
    field!(goblin_mach::mach::load_command::DylibModule, iinit_iterm);
    field!(goblin_mach::mach::load_command::DylibModule, ilocalsym);
    clone::<goblin_mach::mach::load_command::DylibModule>();
    copy::<goblin_mach::mach::load_command::DylibModule>();
    debug::<goblin_mach::mach::load_command::DylibModule>();
    field!(goblin_mach::mach::load_command::DylibModule, irefsym);
    field!(goblin_mach::mach::load_command::DylibModule, module_name);
    field!(goblin_mach::mach::load_command::DylibModule, nextdefsym);
    field!(goblin_mach::mach::load_command::DylibModule, nextrel);
    field!(goblin_mach::mach::load_command::DylibModule, ninit_nterm);
    field!(goblin_mach::mach::load_command::DylibModule, nlocalsym);
    field!(goblin_mach::mach::load_command::DylibModule, nrefsym);
    field!(goblin_mach::mach::load_command::DylibModule, objc_module_info_addr);
    field!(goblin_mach::mach::load_command::DylibModule, objc_module_info_size);
    field!(goblin_mach::mach::load_command::DylibReference, flags);
    clone::<goblin_mach::mach::load_command::DylibReference>();
    copy::<goblin_mach::mach::load_command::DylibReference>();
    debug::<goblin_mach::mach::load_command::DylibReference>();
    field!(goblin_mach::mach::load_command::DylibReference, isym);
    clone::<goblin_mach::mach::load_command::DylibTableOfContents>();
    copy::<goblin_mach::mach::load_command::DylibTableOfContents>();
    debug::<goblin_mach::mach::load_command::DylibTableOfContents>();
    field!(goblin_mach::mach::load_command::DylibTableOfContents, module_index);
    field!(goblin_mach::mach::load_command::DylibTableOfContents, symbol_index);
    field!(goblin_mach::mach::load_command::DylinkerCommand, cmd);
    field!(goblin_mach::mach::load_command::DylinkerCommand, cmdsize);
    clone::<goblin_mach::mach::load_command::DylinkerCommand>();
    copy::<goblin_mach::mach::load_command::DylinkerCommand>();
    debug::<goblin_mach::mach::load_command::DylinkerCommand>();
    field!(goblin_mach::mach::load_command::DylinkerCommand, name);
    field!(goblin_mach::mach::load_command::DysymtabCommand, cmd);
    field!(goblin_mach::mach::load_command::DysymtabCommand, cmdsize);
    field!(goblin_mach::mach::load_command::DysymtabCommand, extrefsymoff);
    field!(goblin_mach::mach::load_command::DysymtabCommand, extreloff);
    field!(goblin_mach::mach::load_command::DysymtabCommand, iextdefsym);
    field!(goblin_mach::mach::load_command::DysymtabCommand, ilocalsym);
    clone::<goblin_mach::mach::load_command::DysymtabCommand>();
    copy::<goblin_mach::mach::load_command::DysymtabCommand>();
    debug::<goblin_mach::mach::load_command::DysymtabCommand>();
    default::<goblin_mach::mach::load_command::DysymtabCommand>();
    field!(goblin_mach::mach::load_command::DysymtabCommand, indirectsymoff);
    field!(goblin_mach::mach::load_command::DysymtabCommand, iundefsym);
    field!(goblin_mach::mach::load_command::DysymtabCommand, locreloff);
    field!(goblin_mach::mach::load_command::DysymtabCommand, modtaboff);
    let _ = goblin_mach::mach::load_command::DysymtabCommand::new;
    field!(goblin_mach::mach::load_command::DysymtabCommand, nextdefsym);
    field!(goblin_mach::mach::load_command::DysymtabCommand, nextrefsyms);
    field!(goblin_mach::mach::load_command::DysymtabCommand, nextrel);
    field!(goblin_mach::mach::load_command::DysymtabCommand, nindirectsyms);
    field!(goblin_mach::mach::load_command::DysymtabCommand, nlocalsym);
    field!(goblin_mach::mach::load_command::DysymtabCommand, nlocrel);
    field!(goblin_mach::mach::load_command::DysymtabCommand, nmodtab);
    field!(goblin_mach::mach::load_command::DysymtabCommand, ntoc);
    field!(goblin_mach::mach::load_command::DysymtabCommand, nundefsym);
    field!(goblin_mach::mach::load_command::DysymtabCommand, tocoff);
    field!(goblin_mach::mach::load_command::EncryptionInfoCommand32, cmd);
    field!(goblin_mach::mach::load_command::EncryptionInfoCommand32, cmdsize);
    field!(goblin_mach::mach::load_command::EncryptionInfoCommand32, cryptid);
    field!(goblin_mach::mach::load_command::EncryptionInfoCommand32, cryptoff);
    field!(goblin_mach::mach::load_command::EncryptionInfoCommand32, cryptsize);
    clone::<goblin_mach::mach::load_command::EncryptionInfoCommand32>();
    copy::<goblin_mach::mach::load_command::EncryptionInfoCommand32>();
    debug::<goblin_mach::mach::load_command::EncryptionInfoCommand32>();
    field!(goblin_mach::mach::load_command::EncryptionInfoCommand64, cmd);
    field!(goblin_mach::mach::load_command::EncryptionInfoCommand64, cmdsize);
    field!(goblin_mach::mach::load_command::EncryptionInfoCommand64, cryptid);
    field!(goblin_mach::mach::load_command::EncryptionInfoCommand64, cryptoff);
    field!(goblin_mach::mach::load_command::EncryptionInfoCommand64, cryptsize);
    clone::<goblin_mach::mach::load_command::EncryptionInfoCommand64>();
    copy::<goblin_mach::mach::load_command::EncryptionInfoCommand64>();
    debug::<goblin_mach::mach::load_command::EncryptionInfoCommand64>();
    field!(goblin_mach::mach::load_command::EncryptionInfoCommand64, pad);
    field!(goblin_mach::mach::load_command::EntryPointCommand, cmd);
    field!(goblin_mach::mach::load_command::EntryPointCommand, cmdsize);
    field!(goblin_mach::mach::load_command::EntryPointCommand, entryoff);
    clone::<goblin_mach::mach::load_command::EntryPointCommand>();
    copy::<goblin_mach::mach::load_command::EntryPointCommand>();
    debug::<goblin_mach::mach::load_command::EntryPointCommand>();
    field!(goblin_mach::mach::load_command::EntryPointCommand, stacksize);
    field!(goblin_mach::mach::load_command::FilesetEntryCommand, cmd);
    field!(goblin_mach::mach::load_command::FilesetEntryCommand, cmdsize);
    field!(goblin_mach::mach::load_command::FilesetEntryCommand, entry_id);
    field!(goblin_mach::mach::load_command::FilesetEntryCommand, fileoff);
    clone::<goblin_mach::mach::load_command::FilesetEntryCommand>();
    copy::<goblin_mach::mach::load_command::FilesetEntryCommand>();
    debug::<goblin_mach::mach::load_command::FilesetEntryCommand>();
    field!(goblin_mach::mach::load_command::FilesetEntryCommand, reserved);
    field!(goblin_mach::mach::load_command::FilesetEntryCommand, vmaddr);
    field!(goblin_mach::mach::load_command::FvmfileCommand, cmd);
    field!(goblin_mach::mach::load_command::FvmfileCommand, cmdsize);
    field!(goblin_mach::mach::load_command::FvmfileCommand, header_addr);
    clone::<goblin_mach::mach::load_command::FvmfileCommand>();
    copy::<goblin_mach::mach::load_command::FvmfileCommand>();
    debug::<goblin_mach::mach::load_command::FvmfileCommand>();
    field!(goblin_mach::mach::load_command::FvmfileCommand, name);
    field!(goblin_mach::mach::load_command::Fvmlib, header_addr);
    clone::<goblin_mach::mach::load_command::Fvmlib>();
    copy::<goblin_mach::mach::load_command::Fvmlib>();
    debug::<goblin_mach::mach::load_command::Fvmlib>();
    field!(goblin_mach::mach::load_command::Fvmlib, minor_version);
    field!(goblin_mach::mach::load_command::Fvmlib, name);
    field!(goblin_mach::mach::load_command::FvmlibCommand, cmd);
    field!(goblin_mach::mach::load_command::FvmlibCommand, cmdsize);
    field!(goblin_mach::mach::load_command::FvmlibCommand, fvmlib);
    clone::<goblin_mach::mach::load_command::FvmlibCommand>();
    copy::<goblin_mach::mach::load_command::FvmlibCommand>();
    debug::<goblin_mach::mach::load_command::FvmlibCommand>();
    field!(goblin_mach::mach::load_command::IdentCommand, cmd);
    field!(goblin_mach::mach::load_command::IdentCommand, cmdsize);
    clone::<goblin_mach::mach::load_command::IdentCommand>();
    copy::<goblin_mach::mach::load_command::IdentCommand>();
    debug::<goblin_mach::mach::load_command::IdentCommand>();
    field!(goblin_mach::mach::load_command::LinkeditDataCommand, cmd);
    field!(goblin_mach::mach::load_command::LinkeditDataCommand, cmdsize);
    field!(goblin_mach::mach::load_command::LinkeditDataCommand, dataoff);
    field!(goblin_mach::mach::load_command::LinkeditDataCommand, datasize);
    clone::<goblin_mach::mach::load_command::LinkeditDataCommand>();
    copy::<goblin_mach::mach::load_command::LinkeditDataCommand>();
    debug::<goblin_mach::mach::load_command::LinkeditDataCommand>();
    default::<goblin_mach::mach::load_command::LinkeditDataCommand>();
    field!(goblin_mach::mach::load_command::LinkerOptionCommand, cmd);
    field!(goblin_mach::mach::load_command::LinkerOptionCommand, cmdsize);
    field!(goblin_mach::mach::load_command::LinkerOptionCommand, count);
    clone::<goblin_mach::mach::load_command::LinkerOptionCommand>();
    copy::<goblin_mach::mach::load_command::LinkerOptionCommand>();
    debug::<goblin_mach::mach::load_command::LinkerOptionCommand>();
    field!(goblin_mach::mach::load_command::LoadCommand, command);
    debug::<goblin_mach::mach::load_command::LoadCommand>();
    field!(goblin_mach::mach::load_command::LoadCommand, offset);
    let _ = goblin_mach::mach::load_command::LoadCommand::parse;
    field!(goblin_mach::mach::load_command::LoadCommandHeader, cmd);
    field!(goblin_mach::mach::load_command::LoadCommandHeader, cmdsize);
    clone::<goblin_mach::mach::load_command::LoadCommandHeader>();
    copy::<goblin_mach::mach::load_command::LoadCommandHeader>();
    debug::<goblin_mach::mach::load_command::LoadCommandHeader>();
    display::<goblin_mach::mach::load_command::LoadCommandHeader>();
    field!(goblin_mach::mach::load_command::NoteCommand, cmd);
    field!(goblin_mach::mach::load_command::NoteCommand, cmdsize);
    field!(goblin_mach::mach::load_command::NoteCommand, data_owner);
    clone::<goblin_mach::mach::load_command::NoteCommand>();
    copy::<goblin_mach::mach::load_command::NoteCommand>();
    debug::<goblin_mach::mach::load_command::NoteCommand>();
    field!(goblin_mach::mach::load_command::NoteCommand, offset);
    field!(goblin_mach::mach::load_command::NoteCommand, size);
    debug::<goblin_mach::mach::load_command::Platform>();
    field!(goblin_mach::mach::load_command::PrebindCksumCommand, cksum);
    field!(goblin_mach::mach::load_command::PrebindCksumCommand, cmd);
    field!(goblin_mach::mach::load_command::PrebindCksumCommand, cmdsize);
    clone::<goblin_mach::mach::load_command::PrebindCksumCommand>();
    copy::<goblin_mach::mach::load_command::PrebindCksumCommand>();
    debug::<goblin_mach::mach::load_command::PrebindCksumCommand>();
    field!(goblin_mach::mach::load_command::PreboundDylibCommand, cmd);
    field!(goblin_mach::mach::load_command::PreboundDylibCommand, cmdsize);
    clone::<goblin_mach::mach::load_command::PreboundDylibCommand>();
    copy::<goblin_mach::mach::load_command::PreboundDylibCommand>();
    debug::<goblin_mach::mach::load_command::PreboundDylibCommand>();
    field!(goblin_mach::mach::load_command::PreboundDylibCommand, linked_modules);
    field!(goblin_mach::mach::load_command::PreboundDylibCommand, name);
    field!(goblin_mach::mach::load_command::PreboundDylibCommand, nmodules);
    field!(goblin_mach::mach::load_command::RoutinesCommand32, cmd);
    field!(goblin_mach::mach::load_command::RoutinesCommand32, cmdsize);
    clone::<goblin_mach::mach::load_command::RoutinesCommand32>();
    copy::<goblin_mach::mach::load_command::RoutinesCommand32>();
    debug::<goblin_mach::mach::load_command::RoutinesCommand32>();
    field!(goblin_mach::mach::load_command::RoutinesCommand32, init_address);
    field!(goblin_mach::mach::load_command::RoutinesCommand32, init_module);
    field!(goblin_mach::mach::load_command::RoutinesCommand32, reserved1);
    field!(goblin_mach::mach::load_command::RoutinesCommand32, reserved2);
    field!(goblin_mach::mach::load_command::RoutinesCommand32, reserved3);
    field!(goblin_mach::mach::load_command::RoutinesCommand32, reserved4);
    field!(goblin_mach::mach::load_command::RoutinesCommand32, reserved5);
    field!(goblin_mach::mach::load_command::RoutinesCommand32, reserved6);
    field!(goblin_mach::mach::load_command::RoutinesCommand64, cmd);
    field!(goblin_mach::mach::load_command::RoutinesCommand64, cmdsize);
    clone::<goblin_mach::mach::load_command::RoutinesCommand64>();
    copy::<goblin_mach::mach::load_command::RoutinesCommand64>();
    debug::<goblin_mach::mach::load_command::RoutinesCommand64>();
    field!(goblin_mach::mach::load_command::RoutinesCommand64, init_address);
    field!(goblin_mach::mach::load_command::RoutinesCommand64, init_module);
    field!(goblin_mach::mach::load_command::RoutinesCommand64, reserved1);
    field!(goblin_mach::mach::load_command::RoutinesCommand64, reserved2);
    field!(goblin_mach::mach::load_command::RoutinesCommand64, reserved3);
    field!(goblin_mach::mach::load_command::RoutinesCommand64, reserved4);
    field!(goblin_mach::mach::load_command::RoutinesCommand64, reserved5);
    field!(goblin_mach::mach::load_command::RoutinesCommand64, reserved6);
    field!(goblin_mach::mach::load_command::RpathCommand, cmd);
    field!(goblin_mach::mach::load_command::RpathCommand, cmdsize);
    clone::<goblin_mach::mach::load_command::RpathCommand>();
    copy::<goblin_mach::mach::load_command::RpathCommand>();
    debug::<goblin_mach::mach::load_command::RpathCommand>();
    field!(goblin_mach::mach::load_command::RpathCommand, path);
    field!(goblin_mach::mach::load_command::Section32, addr);
    field!(goblin_mach::mach::load_command::Section32, align);
    field!(goblin_mach::mach::load_command::Section32, flags);
    clone::<goblin_mach::mach::load_command::Section32>();
    copy::<goblin_mach::mach::load_command::Section32>();
    debug::<goblin_mach::mach::load_command::Section32>();
    field!(goblin_mach::mach::load_command::Section32, nreloc);
    field!(goblin_mach::mach::load_command::Section32, offset);
    field!(goblin_mach::mach::load_command::Section32, reloff);
    field!(goblin_mach::mach::load_command::Section32, reserved1);
    field!(goblin_mach::mach::load_command::Section32, reserved2);
    field!(goblin_mach::mach::load_command::Section32, sectname);
    field!(goblin_mach::mach::load_command::Section32, segname);
    field!(goblin_mach::mach::load_command::Section32, size);
    field!(goblin_mach::mach::load_command::Section64, addr);
    field!(goblin_mach::mach::load_command::Section64, align);
    field!(goblin_mach::mach::load_command::Section64, flags);
    clone::<goblin_mach::mach::load_command::Section64>();
    copy::<goblin_mach::mach::load_command::Section64>();
    debug::<goblin_mach::mach::load_command::Section64>();
    field!(goblin_mach::mach::load_command::Section64, nreloc);
    field!(goblin_mach::mach::load_command::Section64, offset);
    field!(goblin_mach::mach::load_command::Section64, reloff);
    field!(goblin_mach::mach::load_command::Section64, reserved1);
    field!(goblin_mach::mach::load_command::Section64, reserved2);
    field!(goblin_mach::mach::load_command::Section64, reserved3);
    field!(goblin_mach::mach::load_command::Section64, sectname);
    field!(goblin_mach::mach::load_command::Section64, segname);
    field!(goblin_mach::mach::load_command::Section64, size);
    field!(goblin_mach::mach::load_command::SegmentCommand32, cmd);
    field!(goblin_mach::mach::load_command::SegmentCommand32, cmdsize);
    field!(goblin_mach::mach::load_command::SegmentCommand32, fileoff);
    field!(goblin_mach::mach::load_command::SegmentCommand32, filesize);
    field!(goblin_mach::mach::load_command::SegmentCommand32, flags);
    clone::<goblin_mach::mach::load_command::SegmentCommand32>();
    copy::<goblin_mach::mach::load_command::SegmentCommand32>();
    debug::<goblin_mach::mach::load_command::SegmentCommand32>();
    field!(goblin_mach::mach::load_command::SegmentCommand32, initprot);
    field!(goblin_mach::mach::load_command::SegmentCommand32, maxprot);
    let _ = goblin_mach::mach::load_command::SegmentCommand32::name;
    field!(goblin_mach::mach::load_command::SegmentCommand32, nsects);
    field!(goblin_mach::mach::load_command::SegmentCommand32, segname);
    field!(goblin_mach::mach::load_command::SegmentCommand32, vmaddr);
    field!(goblin_mach::mach::load_command::SegmentCommand32, vmsize);
    field!(goblin_mach::mach::load_command::SegmentCommand64, cmd);
    field!(goblin_mach::mach::load_command::SegmentCommand64, cmdsize);
    field!(goblin_mach::mach::load_command::SegmentCommand64, fileoff);
    field!(goblin_mach::mach::load_command::SegmentCommand64, filesize);
    field!(goblin_mach::mach::load_command::SegmentCommand64, flags);
    clone::<goblin_mach::mach::load_command::SegmentCommand64>();
    copy::<goblin_mach::mach::load_command::SegmentCommand64>();
    debug::<goblin_mach::mach::load_command::SegmentCommand64>();
    field!(goblin_mach::mach::load_command::SegmentCommand64, initprot);
    field!(goblin_mach::mach::load_command::SegmentCommand64, maxprot);
    let _ = goblin_mach::mach::load_command::SegmentCommand64::name;
    field!(goblin_mach::mach::load_command::SegmentCommand64, nsects);
    field!(goblin_mach::mach::load_command::SegmentCommand64, segname);
    field!(goblin_mach::mach::load_command::SegmentCommand64, vmaddr);
    field!(goblin_mach::mach::load_command::SegmentCommand64, vmsize);
    field!(goblin_mach::mach::load_command::SourceVersionCommand, cmd);
    field!(goblin_mach::mach::load_command::SourceVersionCommand, cmdsize);
    clone::<goblin_mach::mach::load_command::SourceVersionCommand>();
    copy::<goblin_mach::mach::load_command::SourceVersionCommand>();
    debug::<goblin_mach::mach::load_command::SourceVersionCommand>();
    field!(goblin_mach::mach::load_command::SourceVersionCommand, version);
    field!(goblin_mach::mach::load_command::SubClientCommand, client);
    field!(goblin_mach::mach::load_command::SubClientCommand, cmd);
    field!(goblin_mach::mach::load_command::SubClientCommand, cmdsize);
    clone::<goblin_mach::mach::load_command::SubClientCommand>();
    copy::<goblin_mach::mach::load_command::SubClientCommand>();
    debug::<goblin_mach::mach::load_command::SubClientCommand>();
    field!(goblin_mach::mach::load_command::SubFrameworkCommand, cmd);
    field!(goblin_mach::mach::load_command::SubFrameworkCommand, cmdsize);
    clone::<goblin_mach::mach::load_command::SubFrameworkCommand>();
    copy::<goblin_mach::mach::load_command::SubFrameworkCommand>();
    debug::<goblin_mach::mach::load_command::SubFrameworkCommand>();
    field!(goblin_mach::mach::load_command::SubFrameworkCommand, umbrella);
    field!(goblin_mach::mach::load_command::SubLibraryCommand, cmd);
    field!(goblin_mach::mach::load_command::SubLibraryCommand, cmdsize);
    clone::<goblin_mach::mach::load_command::SubLibraryCommand>();
    copy::<goblin_mach::mach::load_command::SubLibraryCommand>();
    debug::<goblin_mach::mach::load_command::SubLibraryCommand>();
    field!(goblin_mach::mach::load_command::SubLibraryCommand, sub_library);
    field!(goblin_mach::mach::load_command::SubUmbrellaCommand, cmd);
    field!(goblin_mach::mach::load_command::SubUmbrellaCommand, cmdsize);
    clone::<goblin_mach::mach::load_command::SubUmbrellaCommand>();
    copy::<goblin_mach::mach::load_command::SubUmbrellaCommand>();
    debug::<goblin_mach::mach::load_command::SubUmbrellaCommand>();
    field!(goblin_mach::mach::load_command::SubUmbrellaCommand, sub_umbrella);
    field!(goblin_mach::mach::load_command::SymsegCommand, cmd);
    field!(goblin_mach::mach::load_command::SymsegCommand, cmdsize);
    clone::<goblin_mach::mach::load_command::SymsegCommand>();
    copy::<goblin_mach::mach::load_command::SymsegCommand>();
    debug::<goblin_mach::mach::load_command::SymsegCommand>();
    field!(goblin_mach::mach::load_command::SymsegCommand, offset);
    field!(goblin_mach::mach::load_command::SymsegCommand, size);
    field!(goblin_mach::mach::load_command::SymtabCommand, cmd);
    field!(goblin_mach::mach::load_command::SymtabCommand, cmdsize);
    clone::<goblin_mach::mach::load_command::SymtabCommand>();
    copy::<goblin_mach::mach::load_command::SymtabCommand>();
    debug::<goblin_mach::mach::load_command::SymtabCommand>();
    default::<goblin_mach::mach::load_command::SymtabCommand>();
    let _ = goblin_mach::mach::load_command::SymtabCommand::new;
    field!(goblin_mach::mach::load_command::SymtabCommand, nsyms);
    field!(goblin_mach::mach::load_command::SymtabCommand, stroff);
    field!(goblin_mach::mach::load_command::SymtabCommand, strsize);
    field!(goblin_mach::mach::load_command::SymtabCommand, symoff);
    field!(goblin_mach::mach::load_command::ThreadCommand, cmd);
    field!(goblin_mach::mach::load_command::ThreadCommand, cmdsize);
    field!(goblin_mach::mach::load_command::ThreadCommand, count);
    field!(goblin_mach::mach::load_command::ThreadCommand, flavor);
    clone::<goblin_mach::mach::load_command::ThreadCommand>();
    copy::<goblin_mach::mach::load_command::ThreadCommand>();
    debug::<goblin_mach::mach::load_command::ThreadCommand>();
    let _ = goblin_mach::mach::load_command::ThreadCommand::instruction_pointer;
    field!(goblin_mach::mach::load_command::ThreadCommand, thread_state);
    clone::<goblin_mach::mach::load_command::TwolevelHint>();
    copy::<goblin_mach::mach::load_command::TwolevelHint>();
    debug::<goblin_mach::mach::load_command::TwolevelHint>();
    field!(goblin_mach::mach::load_command::TwolevelHint, isub_image);
    field!(goblin_mach::mach::load_command::TwolevelHint, itoc);
    field!(goblin_mach::mach::load_command::TwolevelHintsCommand, cmd);
    field!(goblin_mach::mach::load_command::TwolevelHintsCommand, cmdsize);
    clone::<goblin_mach::mach::load_command::TwolevelHintsCommand>();
    copy::<goblin_mach::mach::load_command::TwolevelHintsCommand>();
    debug::<goblin_mach::mach::load_command::TwolevelHintsCommand>();
    field!(goblin_mach::mach::load_command::TwolevelHintsCommand, nhints);
    field!(goblin_mach::mach::load_command::TwolevelHintsCommand, offset);
    field!(goblin_mach::mach::load_command::UuidCommand, cmd);
    field!(goblin_mach::mach::load_command::UuidCommand, cmdsize);
    clone::<goblin_mach::mach::load_command::UuidCommand>();
    copy::<goblin_mach::mach::load_command::UuidCommand>();
    debug::<goblin_mach::mach::load_command::UuidCommand>();
    field!(goblin_mach::mach::load_command::UuidCommand, uuid);
    field!(goblin_mach::mach::load_command::VersionMinCommand, cmd);
    field!(goblin_mach::mach::load_command::VersionMinCommand, cmdsize);
    clone::<goblin_mach::mach::load_command::VersionMinCommand>();
    copy::<goblin_mach::mach::load_command::VersionMinCommand>();
    debug::<goblin_mach::mach::load_command::VersionMinCommand>();
    let _ = goblin_mach::mach::load_command::VersionMinCommand::new;
    let _ = goblin_mach::mach::load_command::VersionMinCommand::platform;
    field!(goblin_mach::mach::load_command::VersionMinCommand, sdk);
    field!(goblin_mach::mach::load_command::VersionMinCommand, version);
    clone::<goblin_mach::mach::relocation::RelocationInfo>();
    copy::<goblin_mach::mach::relocation::RelocationInfo>();
    debug::<goblin_mach::mach::relocation::RelocationInfo>();
    let _ = goblin_mach::mach::relocation::RelocationInfo::is_extern;
    let _ = goblin_mach::mach::relocation::RelocationInfo::is_pic;
    field!(goblin_mach::mach::relocation::RelocationInfo, r_address);
    let _ = goblin_mach::mach::relocation::RelocationInfo::r_extern;
    field!(goblin_mach::mach::relocation::RelocationInfo, r_info);
    let _ = goblin_mach::mach::relocation::RelocationInfo::r_length;
    let _ = goblin_mach::mach::relocation::RelocationInfo::r_pcrel;
    let _ = goblin_mach::mach::relocation::RelocationInfo::r_symbolnum;
    let _ = goblin_mach::mach::relocation::RelocationInfo::r_type;
    let _ = goblin_mach::mach::relocation::RelocationInfo::to_str;
    iterator::<goblin_mach::mach::segment::RelocationIterator>();
    field!(goblin_mach::mach::segment::Section, addr);
    field!(goblin_mach::mach::segment::Section, align);
    field!(goblin_mach::mach::segment::Section, flags);
    debug::<goblin_mach::mach::segment::Section>();
    default::<goblin_mach::mach::segment::Section>();
    let _ = goblin_mach::mach::segment::Section::iter_relocations;
    let _ = goblin_mach::mach::segment::Section::name;
    field!(goblin_mach::mach::segment::Section, nreloc);
    field!(goblin_mach::mach::segment::Section, offset);
    field!(goblin_mach::mach::segment::Section, reloff);
    field!(goblin_mach::mach::segment::Section, sectname);
    let _ = goblin_mach::mach::segment::Section::segname;
    field!(goblin_mach::mach::segment::Section, size);
    exactsizeiterator::<goblin_mach::mach::segment::SectionIterator>();
    iterator::<goblin_mach::mach::segment::SectionIterator>();
    field!(goblin_mach::mach::segment::Segment, cmd);
    field!(goblin_mach::mach::segment::Segment, cmdsize);
    field!(goblin_mach::mach::segment::Segment, data);
    field!(goblin_mach::mach::segment::Segment, fileoff);
    field!(goblin_mach::mach::segment::Segment, filesize);
    field!(goblin_mach::mach::segment::Segment, flags);
    let _ = goblin_mach::mach::segment::Segment::from_32;
    let _ = goblin_mach::mach::segment::Segment::from_32_lossy;
    let _ = goblin_mach::mach::segment::Segment::from_64;
    let _ = goblin_mach::mach::segment::Segment::from_64_lossy;
    debug::<goblin_mach::mach::segment::Segment>();
    field!(goblin_mach::mach::segment::Segment, initprot);
    field!(goblin_mach::mach::segment::Segment, maxprot);
    let _ = goblin_mach::mach::segment::Segment::name;
    let _ = goblin_mach::mach::segment::Segment::new;
    field!(goblin_mach::mach::segment::Segment, nsects);
    let _ = goblin_mach::mach::segment::Segment::sections;
    field!(goblin_mach::mach::segment::Segment, segname);
    field!(goblin_mach::mach::segment::Segment, vmaddr);
    field!(goblin_mach::mach::segment::Segment, vmsize);
    debug::<goblin_mach::mach::segment::Segments>();
    let _ = goblin_mach::mach::segment::Segments::new;
    let _ = goblin_mach::mach::segment::Segments::sections;
    clone::<goblin_mach::mach::symbols::Nlist32>();
    copy::<goblin_mach::mach::symbols::Nlist32>();
    debug::<goblin_mach::mach::symbols::Nlist32>();
    field!(goblin_mach::mach::symbols::Nlist32, n_desc);
    field!(goblin_mach::mach::symbols::Nlist32, n_sect);
    field!(goblin_mach::mach::symbols::Nlist32, n_strx);
    field!(goblin_mach::mach::symbols::Nlist32, n_type);
    field!(goblin_mach::mach::symbols::Nlist32, n_value);
    clone::<goblin_mach::mach::symbols::Nlist64>();
    copy::<goblin_mach::mach::symbols::Nlist64>();
    debug::<goblin_mach::mach::symbols::Nlist64>();
    field!(goblin_mach::mach::symbols::Nlist64, n_desc);
    field!(goblin_mach::mach::symbols::Nlist64, n_sect);
    field!(goblin_mach::mach::symbols::Nlist64, n_strx);
    field!(goblin_mach::mach::symbols::Nlist64, n_type);
    field!(goblin_mach::mach::symbols::Nlist64, n_value);
    let _ = goblin_mach::mach::symbols::Nlist::get_type;
    clone::<goblin_mach::mach::symbols::Nlist>();
    debug::<goblin_mach::mach::symbols::Nlist>();
    let _ = goblin_mach::mach::symbols::Nlist::is_global;
    let _ = goblin_mach::mach::symbols::Nlist::is_stab;
    let _ = goblin_mach::mach::symbols::Nlist::is_undefined;
    let _ = goblin_mach::mach::symbols::Nlist::is_weak;
    field!(goblin_mach::mach::symbols::Nlist, n_desc);
    field!(goblin_mach::mach::symbols::Nlist, n_sect);
    field!(goblin_mach::mach::symbols::Nlist, n_strx);
    field!(goblin_mach::mach::symbols::Nlist, n_type);
    field!(goblin_mach::mach::symbols::Nlist, n_value);
    let _ = goblin_mach::mach::symbols::Nlist::type_str;
    default::<goblin_mach::mach::symbols::SymbolIterator>();
    iterator::<goblin_mach::mach::symbols::SymbolIterator>();
    let _ = goblin_mach::mach::symbols::Symbols::get;
    debug::<goblin_mach::mach::symbols::Symbols>();
    let _ = goblin_mach::mach::symbols::Symbols::iter;
    let _ = goblin_mach::mach::symbols::Symbols::new;
    let _ = goblin_mach::mach::symbols::Symbols::parse;
    field!(goblin_mach::mach::symbols::SymbolsCtx, ctx);
    clone::<goblin_mach::mach::symbols::SymbolsCtx>();
    copy::<goblin_mach::mach::symbols::SymbolsCtx>();
    debug::<goblin_mach::mach::symbols::SymbolsCtx>();
    default::<goblin_mach::mach::symbols::SymbolsCtx>();
    field!(goblin_mach::mach::symbols::SymbolsCtx, nsyms);
    field!(goblin_mach::mach::symbols::SymbolsCtx, strtab);
}
