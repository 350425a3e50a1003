/* Written by c/constants.py. The names of numbers, as the sources of the library have them. */

const char *gm_command_name(uint32_t cmd) {
    switch (cmd) {
    case GM_LC_SEGMENT: return "LC_SEGMENT";
    case GM_LC_SYMTAB: return "LC_SYMTAB";
    case GM_LC_SYMSEG: return "LC_SYMSEG";
    case GM_LC_THREAD: return "LC_THREAD";
    case GM_LC_UNIXTHREAD: return "LC_UNIXTHREAD";
    case GM_LC_LOADFVMLIB: return "LC_LOADFVMLIB";
    case GM_LC_IDFVMLIB: return "LC_IDFVMLIB";
    case GM_LC_IDENT: return "LC_IDENT";
    case GM_LC_FVMFILE: return "LC_FVMFILE";
    case GM_LC_PREPAGE: return "LC_PREPAGE";
    case GM_LC_DYSYMTAB: return "LC_DYSYMTAB";
    case GM_LC_LOAD_DYLIB: return "LC_LOAD_DYLIB";
    case GM_LC_ID_DYLIB: return "LC_ID_DYLIB";
    case GM_LC_LOAD_DYLINKER: return "LC_LOAD_DYLINKER";
    case GM_LC_ID_DYLINKER: return "LC_ID_DYLINKER";
    case GM_LC_PREBOUND_DYLIB: return "LC_PREBOUND_DYLIB";
    case GM_LC_ROUTINES: return "LC_ROUTINES";
    case GM_LC_SUB_FRAMEWORK: return "LC_SUB_FRAMEWORK";
    case GM_LC_SUB_UMBRELLA: return "LC_SUB_UMBRELLA";
    case GM_LC_SUB_CLIENT: return "LC_SUB_CLIENT";
    case GM_LC_SUB_LIBRARY: return "LC_SUB_LIBRARY";
    case GM_LC_TWOLEVEL_HINTS: return "LC_TWOLEVEL_HINTS";
    case GM_LC_PREBIND_CKSUM: return "LC_PREBIND_CKSUM";
    case GM_LC_SEGMENT_64: return "LC_SEGMENT_64";
    case GM_LC_ROUTINES_64: return "LC_ROUTINES_64";
    case GM_LC_UUID: return "LC_UUID";
    case GM_LC_CODE_SIGNATURE: return "LC_CODE_SIGNATURE";
    case GM_LC_SEGMENT_SPLIT_INFO: return "LC_SEGMENT_SPLIT_INFO";
    case GM_LC_LAZY_LOAD_DYLIB: return "LC_LAZY_LOAD_DYLIB";
    case GM_LC_ENCRYPTION_INFO: return "LC_ENCRYPTION_INFO";
    case GM_LC_DYLD_INFO: return "LC_DYLD_INFO";
    case GM_LC_VERSION_MIN_MACOSX: return "LC_VERSION_MIN_MACOSX";
    case GM_LC_VERSION_MIN_IPHONEOS: return "LC_VERSION_MIN_IPHONEOS";
    case GM_LC_FUNCTION_STARTS: return "LC_FUNCTION_STARTS";
    case GM_LC_DYLD_ENVIRONMENT: return "LC_DYLD_ENVIRONMENT";
    case GM_LC_DATA_IN_CODE: return "LC_DATA_IN_CODE";
    case GM_LC_SOURCE_VERSION: return "LC_SOURCE_VERSION";
    case GM_LC_DYLIB_CODE_SIGN_DRS: return "LC_DYLIB_CODE_SIGN_DRS";
    case GM_LC_ENCRYPTION_INFO_64: return "LC_ENCRYPTION_INFO_64";
    case GM_LC_LINKER_OPTION: return "LC_LINKER_OPTION";
    case GM_LC_LINKER_OPTIMIZATION_HINT: return "LC_LINKER_OPTIMIZATION_HINT";
    case GM_LC_VERSION_MIN_TVOS: return "LC_VERSION_MIN_TVOS";
    case GM_LC_VERSION_MIN_WATCHOS: return "LC_VERSION_MIN_WATCHOS";
    case GM_LC_NOTE: return "LC_NOTE";
    case GM_LC_BUILD_VERSION: return "LC_BUILD_VERSION";
    case GM_LC_LOAD_WEAK_DYLIB: return "LC_LOAD_WEAK_DYLIB";
    case GM_LC_RPATH: return "LC_RPATH";
    case GM_LC_REEXPORT_DYLIB: return "LC_REEXPORT_DYLIB";
    case GM_LC_DYLD_INFO_ONLY: return "LC_DYLD_INFO_ONLY";
    case GM_LC_LOAD_UPWARD_DYLIB: return "LC_LOAD_UPWARD_DYLIB";
    case GM_LC_MAIN: return "LC_MAIN";
    case GM_LC_DYLD_EXPORTS_TRIE: return "LC_DYLD_EXPORTS_TRIE";
    case GM_LC_DYLD_CHAINED_FIXUPS: return "LC_DYLD_CHAINED_FIXUPS";
    case GM_LC_FILESET_ENTRY: return "LC_FILESET_ENTRY";
    case GM_LC_ATOM_INFO: return "LC_ATOM_INFO";
    case GM_LC_FUNCTION_VARIANTS: return "LC_FUNCTION_VARIANTS";
    case GM_LC_FUNCTION_VARIANT_FIXUPS: return "LC_FUNCTION_VARIANT_FIXUPS";
    case GM_LC_TARGET_TRIPLE: return "LC_TARGET_TRIPLE";
    default: return NULL;
    }
}

const char *gm_file_type_name(uint32_t filetype) {
    switch (filetype) {
    case GM_MH_OBJECT: return "OBJECT";
    case GM_MH_EXECUTE: return "EXECUTE";
    case GM_MH_FVMLIB: return "FVMLIB";
    case GM_MH_CORE: return "CORE";
    case GM_MH_PRELOAD: return "PRELOAD";
    case GM_MH_DYLIB: return "DYLIB";
    case GM_MH_DYLINKER: return "DYLINKER";
    case GM_MH_BUNDLE: return "BUNDLE";
    case GM_MH_DYLIB_STUB: return "DYLIB_STUB";
    case GM_MH_DSYM: return "DSYM";
    case GM_MH_KEXT_BUNDLE: return "KEXT_BUNDLE";
    case GM_MH_FILESET: return "FILESET";
    case GM_MH_GPU_EXECUTE: return "GPU_EXECUTE";
    case GM_MH_GPU_DYLIB: return "GPU_DYLIB";
    default: return NULL;
    }
}

const char *gm_header_flag_name(uint32_t flag) {
    switch (flag) {
    case GM_MH_NOUNDEFS: return "MH_NOUNDEFS";
    case GM_MH_INCRLINK: return "MH_INCRLINK";
    case GM_MH_DYLDLINK: return "MH_DYLDLINK";
    case GM_MH_BINDATLOAD: return "MH_BINDATLOAD";
    case GM_MH_PREBOUND: return "MH_PREBOUND";
    case GM_MH_SPLIT_SEGS: return "MH_SPLIT_SEGS";
    case GM_MH_LAZY_INIT: return "MH_LAZY_INIT";
    case GM_MH_TWOLEVEL: return "MH_TWOLEVEL";
    case GM_MH_FORCE_FLAT: return "MH_FORCE_FLAT";
    case GM_MH_NOMULTIDEFS: return "MH_NOMULTIDEFS";
    case GM_MH_NOFIXPREBINDING: return "MH_NOFIXPREBINDING";
    case GM_MH_PREBINDABLE: return "MH_PREBINDABLE";
    case GM_MH_ALLMODSBOUND: return "MH_ALLMODSBOUND";
    case GM_MH_SUBSECTIONS_VIA_SYMBOLS: return "MH_SUBSECTIONS_VIA_SYMBOLS";
    case GM_MH_CANONICAL: return "MH_CANONICAL";
    case GM_MH_WEAK_DEFINES: return "MH_WEAK_DEFINES";
    case GM_MH_BINDS_TO_WEAK: return "MH_BINDS_TO_WEAK";
    case GM_MH_ALLOW_STACK_EXECUTION: return "MH_ALLOW_STACK_EXECUTION";
    case GM_MH_ROOT_SAFE: return "MH_ROOT_SAFE";
    case GM_MH_SETUID_SAFE: return "MH_SETUID_SAFE";
    case GM_MH_NO_REEXPORTED_DYLIBS: return "MH_NO_REEXPORTED_DYLIBS";
    case GM_MH_PIE: return "MH_PIE";
    case GM_MH_DEAD_STRIPPABLE_DYLIB: return "MH_DEAD_STRIPPABLE_DYLIB";
    case GM_MH_HAS_TLV_DESCRIPTORS: return "MH_HAS_TLV_DESCRIPTORS";
    case GM_MH_NO_HEAP_EXECUTION: return "MH_NO_HEAP_EXECUTION";
    case GM_MH_APP_EXTENSION_SAFE: return "MH_APP_EXTENSION_SAFE";
    case GM_MH_NLIST_OUTOFSYNC_WITH_DYLDINFO: return "MH_NLIST_OUTOFSYNC_WITH_DYLDINFO";
    case GM_MH_SIM_SUPPORT: return "MH_SIM_SUPPORT";
    case GM_MH_DYLIB_IN_CACHE: return "MH_DYLIB_IN_CACHE";
    default: return NULL;
    }
}

const char *gm_platform_name(uint32_t platform) {
    switch (platform) {
    case GM_PLATFORM_MACOS: return "MACOS";
    case GM_PLATFORM_IOS: return "IOS";
    case GM_PLATFORM_TVOS: return "TVOS";
    case GM_PLATFORM_WATCHOS: return "WATCHOS";
    case GM_PLATFORM_BRIDGEOS: return "BRIDGEOS";
    case GM_PLATFORM_MACCATALYST: return "MACCATALYST";
    case GM_PLATFORM_IOSSIMULATOR: return "IOSSIMULATOR";
    case GM_PLATFORM_TVOSSIMULATOR: return "TVOSSIMULATOR";
    case GM_PLATFORM_WATCHOSSIMULATOR: return "WATCHOSSIMULATOR";
    case GM_PLATFORM_DRIVERKIT: return "DRIVERKIT";
    case GM_PLATFORM_VISIONOS: return "VISIONOS";
    case GM_PLATFORM_VISIONOSSIMULATOR: return "VISIONOSSIMULATOR";
    default: return NULL;
    }
}

static const char *symbol_type_name(int type) {
    switch (type) {
    case GM_N_UNDF: return "N_UNDF";
    case GM_N_ABS: return "N_ABS";
    case GM_N_SECT: return "N_SECT";
    case GM_N_PBUD: return "N_PBUD";
    case GM_N_INDR: return "N_INDR";
    default: return NULL;
    }
}

static const char *debugger_entry_name(int type) {
    switch (type) {
    case GM_N_GSYM: return "N_GSYM";
    case GM_N_FNAME: return "N_FNAME";
    case GM_N_FUN: return "N_FUN";
    case GM_N_STSYM: return "N_STSYM";
    case GM_N_LCSYM: return "N_LCSYM";
    case GM_N_BNSYM: return "N_BNSYM";
    case GM_N_PC: return "N_PC";
    case GM_N_AST: return "N_AST";
    case GM_N_OPT: return "N_OPT";
    case GM_N_RSYM: return "N_RSYM";
    case GM_N_SLINE: return "N_SLINE";
    case GM_N_ENSYM: return "N_ENSYM";
    case GM_N_SSYM: return "N_SSYM";
    case GM_N_SO: return "N_SO";
    case GM_N_OSO: return "N_OSO";
    case GM_N_LSYM: return "N_LSYM";
    case GM_N_BINCL: return "N_BINCL";
    case GM_N_SOL: return "N_SOL";
    case GM_N_PARAMS: return "N_PARAMS";
    case GM_N_VERSION: return "N_VERSION";
    case GM_N_OLEVEL: return "N_OLEVEL";
    case GM_N_PSYM: return "N_PSYM";
    case GM_N_EINCL: return "N_EINCL";
    case GM_N_ENTRY: return "N_ENTRY";
    case GM_N_LBRAC: return "N_LBRAC";
    case GM_N_EXCL: return "N_EXCL";
    case GM_N_RBRAC: return "N_RBRAC";
    case GM_N_BCOMM: return "N_BCOMM";
    case GM_N_ECOMM: return "N_ECOMM";
    case GM_N_ECOML: return "N_ECOML";
    case GM_N_LENG: return "N_LENG";
    default: return NULL;
    }
}

static const char *x86_64_name(uint32_t type) {
    switch (type) {
    case GM_X86_64_RELOC_UNSIGNED: return "X86_64_RELOC_UNSIGNED";
    case GM_X86_64_RELOC_SIGNED: return "X86_64_RELOC_SIGNED";
    case GM_X86_64_RELOC_BRANCH: return "X86_64_RELOC_BRANCH";
    case GM_X86_64_RELOC_GOT_LOAD: return "X86_64_RELOC_GOT_LOAD";
    case GM_X86_64_RELOC_GOT: return "X86_64_RELOC_GOT";
    case GM_X86_64_RELOC_SUBTRACTOR: return "X86_64_RELOC_SUBTRACTOR";
    case GM_X86_64_RELOC_SIGNED_1: return "X86_64_RELOC_SIGNED_1";
    case GM_X86_64_RELOC_SIGNED_2: return "X86_64_RELOC_SIGNED_2";
    case GM_X86_64_RELOC_SIGNED_4: return "X86_64_RELOC_SIGNED_4";
    case GM_X86_64_RELOC_TLV: return "X86_64_RELOC_TLV";
    default: return NULL;
    }
}

static const char *x86_name(uint32_t type) {
    switch (type) {
    case GM_GENERIC_RELOC_VANILLA: return "GENERIC_RELOC_VANILLA";
    case GM_GENERIC_RELOC_PAIR: return "GENERIC_RELOC_PAIR";
    case GM_GENERIC_RELOC_SECTDIFF: return "GENERIC_RELOC_SECTDIFF";
    case GM_GENERIC_RELOC_PB_LA_PTR: return "GENERIC_RELOC_PB_LA_PTR";
    case GM_GENERIC_RELOC_LOCAL_SECTDIFF: return "GENERIC_RELOC_LOCAL_SECTDIFF";
    case GM_GENERIC_RELOC_TLV: return "GENERIC_RELOC_TLV";
    default: return NULL;
    }
}

static const char *arm_name(uint32_t type) {
    switch (type) {
    case GM_ARM_RELOC_VANILLA: return "ARM_RELOC_VANILLA";
    case GM_ARM_RELOC_PAIR: return "ARM_RELOC_PAIR";
    case GM_ARM_RELOC_SECTDIFF: return "ARM_RELOC_SECTDIFF";
    case GM_ARM_RELOC_LOCAL_SECTDIFF: return "ARM_RELOC_LOCAL_SECTDIFF";
    case GM_ARM_RELOC_PB_LA_PTR: return "ARM_RELOC_PB_LA_PTR";
    case GM_ARM_RELOC_BR24: return "ARM_RELOC_BR24";
    case GM_ARM_THUMB_RELOC_BR22: return "ARM_THUMB_RELOC_BR22";
    case GM_ARM_THUMB_32BIT_BRANCH: return "ARM_THUMB_32BIT_BRANCH";
    case GM_ARM_RELOC_HALF: return "ARM_RELOC_HALF";
    case GM_ARM_RELOC_HALF_SECTDIFF: return "ARM_RELOC_HALF_SECTDIFF";
    default: return NULL;
    }
}

static const char *arm64_name(uint32_t type) {
    switch (type) {
    case GM_ARM64_RELOC_UNSIGNED: return "ARM64_RELOC_UNSIGNED";
    case GM_ARM64_RELOC_SUBTRACTOR: return "ARM64_RELOC_SUBTRACTOR";
    case GM_ARM64_RELOC_BRANCH26: return "ARM64_RELOC_BRANCH26";
    case GM_ARM64_RELOC_PAGE21: return "ARM64_RELOC_PAGE21";
    case GM_ARM64_RELOC_PAGEOFF12: return "ARM64_RELOC_PAGEOFF12";
    case GM_ARM64_RELOC_GOT_LOAD_PAGE21: return "ARM64_RELOC_GOT_LOAD_PAGE21";
    case GM_ARM64_RELOC_GOT_LOAD_PAGEOFF12: return "ARM64_RELOC_GOT_LOAD_PAGEOFF12";
    case GM_ARM64_RELOC_POINTER_TO_GOT: return "ARM64_RELOC_POINTER_TO_GOT";
    case GM_ARM64_RELOC_TLVP_LOAD_PAGE21: return "ARM64_RELOC_TLVP_LOAD_PAGE21";
    case GM_ARM64_RELOC_TLVP_LOAD_PAGEOFF12: return "ARM64_RELOC_TLVP_LOAD_PAGEOFF12";
    case GM_ARM64_RELOC_ADDEND: return "ARM64_RELOC_ADDEND";
    default: return NULL;
    }
}

const char *gm_cpu_name(uint32_t cputype, uint32_t cpusubtype) {
    const uint32_t kind = cpusubtype & ~GM_CPU_SUBTYPE_MASK;
    if (cputype == GM_CPU_TYPE_X86 && kind == 3) return "i386";
    if (cputype == GM_CPU_TYPE_X86_64 && kind == 3) return "x86_64";
    if (cputype == GM_CPU_TYPE_X86_64 && kind == 8) return "x86_64h";
    if (cputype == GM_CPU_TYPE_ARM && kind == 5) return "armv4t";
    if (cputype == GM_CPU_TYPE_ARM && kind == 7) return "armv5e";
    if (cputype == GM_CPU_TYPE_ARM && kind == 8) return "xscale";
    if (cputype == GM_CPU_TYPE_ARM && kind == 6) return "armv6";
    if (cputype == GM_CPU_TYPE_ARM && kind == 14) return "armv6m";
    if (cputype == GM_CPU_TYPE_ARM && kind == 9) return "armv7";
    if (cputype == GM_CPU_TYPE_ARM && kind == 16) return "armv7em";
    if (cputype == GM_CPU_TYPE_ARM && kind == 12) return "armv7k";
    if (cputype == GM_CPU_TYPE_ARM && kind == 15) return "armv7m";
    if (cputype == GM_CPU_TYPE_ARM && kind == 11) return "armv7s";
    if (cputype == GM_CPU_TYPE_ARM64 && kind == 0) return "arm64";
    if (cputype == GM_CPU_TYPE_ARM64 && kind == 2) return "arm64e";
    if (cputype == GM_CPU_TYPE_ARM64_32 && kind == 1) return "arm64_32";
    if (cputype == GM_CPU_TYPE_POWERPC && kind == 0) return "ppc";
    if (cputype == GM_CPU_TYPE_POWERPC64 && kind == 0) return "ppc64";
    return NULL;
}

const char *gm_kind_name(uint32_t kind) {
    switch (kind) {
    case GM_KIND_EMPTY: return "an empty file";
    case GM_KIND_ELF: return "an ELF file";
    case GM_KIND_JAVA_CLASS: return "a Java class";
    case GM_KIND_PE: return "a PE or DOS program";
    case GM_KIND_ARCHIVE: return "an archive";
    case GM_KIND_BITCODE: return "LLVM bitcode";
    case GM_KIND_TEXT: return "a text file";
    case GM_KIND_IMAGE: return "an image";
    case GM_KIND_FAT: return "a fat file";
    case GM_KIND_FAT_64: return "a fat file of 64 bits";
    default: return NULL;
    }
}

const char *gm_verdict_name(uint32_t verdict) {
    switch (verdict) {
    case GM_VERDICT_NO_HEAP_EXECUTION: return "no-heap-execution";
    case GM_VERDICT_PIE: return "pie";
    case GM_VERDICT_STACK_EXECUTION: return "stack-execution";
    case GM_VERDICT_POINTER_AUTHENTICATION: return "pointer-authentication";
    case GM_VERDICT_STACK_CANARY: return "stack-canary";
    case GM_VERDICT_WRITABLE_CODE: return "writable-code";
    case GM_VERDICT_WRITABLE_CODE_ALLOWED: return "writable-code-allowed";
    case GM_VERDICT_RESTRICTED: return "restricted";
    case GM_VERDICT_CHAINED_FIXUPS: return "chained-fixups";
    case GM_VERDICT_RELATIVE_RUN_PATHS: return "relative-run-paths";
    case GM_VERDICT_ENCRYPTED: return "encrypted";
    case GM_VERDICT_STRIPPED: return "stripped";
    case GM_VERDICT_SIGNED: return "signed";
    case GM_VERDICT_AD_HOC: return "ad-hoc";
    case GM_VERDICT_CMS: return "cms";
    case GM_VERDICT_HARDENED_RUNTIME: return "hardened-runtime";
    case GM_VERDICT_LIBRARY_VALIDATION: return "library-validation";
    case GM_VERDICT_ENTITLEMENTS: return "entitlements";
    case GM_VERDICT_GET_TASK_ALLOW: return "get-task-allow";
    default: return NULL;
    }
}

const char *gm_verdict_meaning(uint32_t verdict) {
    switch (verdict) {
    case GM_VERDICT_NO_HEAP_EXECUTION: return "execution refused on the heap";
    case GM_VERDICT_PIE: return "loaded at a random address";
    case GM_VERDICT_STACK_EXECUTION: return "execution allowed on the stack";
    case GM_VERDICT_POINTER_AUTHENTICATION: return "for arm64e, which signs pointers";
    case GM_VERDICT_STACK_CANARY: return "code that checks its stack by canaries";
    case GM_VERDICT_WRITABLE_CODE: return "a segment both writable and executable";
    case GM_VERDICT_WRITABLE_CODE_ALLOWED: return "a segment that may become both";
    case GM_VERDICT_RESTRICTED: return "dyld is to ignore environment variables";
    case GM_VERDICT_CHAINED_FIXUPS: return "pointers in chains of fixups";
    case GM_VERDICT_RELATIVE_RUN_PATHS: return "a run path that begins with neither / nor @";
    case GM_VERDICT_ENCRYPTED: return "a part is encrypted";
    case GM_VERDICT_STRIPPED: return "no local symbols";
    case GM_VERDICT_SIGNED: return "a code directory";
    case GM_VERDICT_AD_HOC: return "signed without an identity";
    case GM_VERDICT_CMS: return "a CMS message, which says who signed";
    case GM_VERDICT_HARDENED_RUNTIME: return "started in the hardened runtime";
    case GM_VERDICT_LIBRARY_VALIDATION: return "only libraries of its team or of the system";
    case GM_VERDICT_ENTITLEMENTS: return "entitlements in the signature";
    case GM_VERDICT_GET_TASK_ALLOW: return "debuggers may attach to it";
    default: return NULL;
    }
}
