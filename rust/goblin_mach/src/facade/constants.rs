//! Constants that the sources in Rattle don't need and goblin has. Their numbers are those of Apple's headers.

/// Constants of CPUs and of sections.
pub mod constants {
    pub use crate::generated::mach::constants::*;

    macro_rules! constants {
        ($($doc:literal $kind:ty { $($name:ident = $value:expr,)* })*) => {
            $($(#[doc = $doc] pub const $name: $kind = $value;)*)*
        };
    }

    constants! {
        "A type of section: the lowest 8 bits of its flags." u32 {
            S_REGULAR = 0x0, S_CSTRING_LITERALS = 0x2, S_4BYTE_LITERALS = 0x3, S_8BYTE_LITERALS = 0x4, S_LITERAL_POINTERS = 0x5,
            S_NON_LAZY_SYMBOL_POINTERS = 0x6, S_LAZY_SYMBOL_POINTERS = 0x7, S_SYMBOL_STUBS = 0x8, S_MOD_INIT_FUNC_POINTERS = 0x9,
            S_MOD_TERM_FUNC_POINTERS = 0xa, S_COALESCED = 0xb, S_INTERPOSING = 0xd, S_16BYTE_LITERALS = 0xe, S_DTRACE_DOF = 0xf,
            S_LAZY_DYLIB_SYMBOL_POINTERS = 0x10, S_THREAD_LOCAL_REGULAR = 0x11, S_THREAD_LOCAL_VARIABLES = 0x13,
            S_THREAD_LOCAL_VARIABLE_POINTERS = 0x14, S_THREAD_LOCAL_INIT_FUNCTION_POINTERS = 0x15, S_INIT_FUNC_OFFSETS = 0x16,
        }
        "The bits of a section's flags that are attributes: all, those that a user sets, those that the system sets." u32 {
            SECTION_ATTRIBUTES = 0xffff_ff00, SECTION_ATTRIBUTES_USR = 0xff00_0000, SECTION_ATTRIBUTES_SYS = 0x00ff_ff00,
        }
        "An attribute of a section: one bit of its flags." u32 {
            S_ATTR_PURE_INSTRUCTIONS = 0x8000_0000, S_ATTR_NO_TOC = 0x4000_0000, S_ATTR_STRIP_STATIC_SYMS = 0x2000_0000,
            S_ATTR_NO_DEAD_STRIP = 0x1000_0000, S_ATTR_LIVE_SUPPORT = 0x0800_0000, S_ATTR_SELF_MODIFYING_CODE = 0x0400_0000,
            S_ATTR_DEBUG = 0x0200_0000, S_ATTR_SOME_INSTRUCTIONS = 0x400, S_ATTR_EXT_RELOC = 0x200, S_ATTR_LOC_RELOC = 0x100,
        }
        "The name of a segment." &str {
            SEG_PAGEZERO = "__PAGEZERO", SEG_TEXT = "__TEXT", SEG_DATA = "__DATA", SEG_OBJC = "__OBJC", SEG_ICON = "__ICON",
            SEG_LINKEDIT = "__LINKEDIT", SEG_UNIXSTACK = "__UNIXSTACK", SEG_IMPORT = "__IMPORT",
        }
        "The name of a section." &str {
            SECT_TEXT = "__text", SECT_FVMLIB_INIT0 = "__fvmlib_init0", SECT_FVMLIB_INIT1 = "__fvmlib_init1", SECT_DATA = "__data",
            SECT_BSS = "__bss", SECT_COMMON = "__common", SECT_OBJC_SYMBOLS = "__symbol_table", SECT_OBJC_MODULES = "__module_info",
            SECT_OBJC_STRINGS = "__selector_strs", SECT_OBJC_REFS = "__selector_refs", SECT_ICON_HEADER = "__header",
            SECT_ICON_TIFF = "__tiff",
        }
        "A protection of memory: a bit of a segment's `maxprot` and `initprot`." u32 {
            VM_PROT_READ = 0x1, VM_PROT_WRITE = 0x2, VM_PROT_EXECUTE = 0x4,
        }
        "A version of macOS, as `LC_VERSION_MIN_MACOSX` has it, in goblin's spelling." u32 {
            DYLD_MACOSX_VERSION_10_4 = 0xa_0400, DYLD_MACOSX_VERSION_10_5 = 0xa_0500, DYLD_MACOSX_VERSION_10_6 = 0xa_0600,
            DYLD_MACOSX_VERSION_10_7 = 0xa_0700, DYLD_MACOSX_VERSION_10_8 = 0xa_0800, DYLD_MACOSX_VERSION_10_9 = 0xa_0900,
            DYLD_MACOSX_VERSION_10_10 = 0xa_0a00, DYLD_MACOSX_VERSION_10_11 = 0xa_0b00, DYLD_MACOSX_VERSION_10_12 = 0xa_0c00,
            DYLD_MACOSX_VERSION_10_13 = 0xa_0d00,
        }
        "A version of iOS, as `LC_VERSION_MIN_IPHONEOS` has it, in goblin's spelling." u32 {
            DYLD_IOS_VERSION_2_0 = 0x2_0000, DYLD_IOS_VERSION_2_1 = 0x2_0100, DYLD_IOS_VERSION_2_2 = 0x2_0200,
            DYLD_IOS_VERSION_3_0 = 0x3_0000, DYLD_IOS_VERSION_3_1 = 0x3_0100, DYLD_IOS_VERSION_3_2 = 0x3_0200,
            DYLD_IOS_VERSION_4_0 = 0x4_0000, DYLD_IOS_VERSION_4_1 = 0x4_0100, DYLD_IOS_VERSION_4_2 = 0x4_0200,
            DYLD_IOS_VERSION_4_3 = 0x4_0300, DYLD_IOS_VERSION_5_0 = 0x5_0000, DYLD_IOS_VERSION_5_1 = 0x5_0100,
            DYLD_IOS_VERSION_6_0 = 0x6_0000, DYLD_IOS_VERSION_6_1 = 0x6_0100, DYLD_IOS_VERSION_7_0 = 0x7_0000,
            DYLD_IOS_VERSION_7_1 = 0x7_0100, DYLD_IOS_VERSION_8_0 = 0x8_0000, DYLD_IOS_VERSION_9_0 = 0x9_0000,
            DYLD_IOS_VERSION_10_0 = 0xa_0000, DYLD_IOS_VERSION_11_0 = 0xb_0000,
        }
    }

    /// The numbers of CPUs (`mach/machine.h`), and their names.
    pub mod cputype {
        pub use crate::generated::mach::constants::cputype::*;

        constants! {
            "Bits of a CPU type: its mask, and the data model of 32 bits on a CPU of 64." CpuType {
                CPU_ARCH_MASK = 0xff00_0000, CPU_ARCH_ABI64_32 = 0x0200_0000,
            }
            "A type of CPU." CpuType {
                CPU_TYPE_ANY = !0, CPU_TYPE_VAX = 1, CPU_TYPE_MC680X0 = 6, CPU_TYPE_I386 = CPU_TYPE_X86, CPU_TYPE_MIPS = 8,
                CPU_TYPE_MC98000 = 10, CPU_TYPE_HPPA = 11, CPU_TYPE_MC88000 = 13, CPU_TYPE_SPARC = 14, CPU_TYPE_I860 = 15,
                CPU_TYPE_ALPHA = 16, CPU_TYPE_POWERPC64 = CPU_TYPE_POWERPC | CPU_ARCH_ABI64,
            }
            "A subtype of any CPU." CpuSubType {
                CPU_SUBTYPE_MULTIPLE = !0, CPU_SUBTYPE_LITTLE_ENDIAN = 0, CPU_SUBTYPE_BIG_ENDIAN = 1,
            }
            "A subtype of VAX." CpuSubType {
                CPU_SUBTYPE_VAX_ALL = 0, CPU_SUBTYPE_VAX780 = 1, CPU_SUBTYPE_VAX785 = 2, CPU_SUBTYPE_VAX750 = 3, CPU_SUBTYPE_VAX730 = 4,
                CPU_SUBTYPE_UVAXI = 5, CPU_SUBTYPE_UVAXII = 6, CPU_SUBTYPE_VAX8200 = 7, CPU_SUBTYPE_VAX8500 = 8, CPU_SUBTYPE_VAX8600 = 9,
                CPU_SUBTYPE_VAX8650 = 10, CPU_SUBTYPE_VAX8800 = 11, CPU_SUBTYPE_UVAXIII = 12,
            }
            "A subtype of Motorola's CPUs." CpuSubType {
                CPU_SUBTYPE_MC680X0_ALL = 1, CPU_SUBTYPE_MC68030 = 1, CPU_SUBTYPE_MC68040 = 2, CPU_SUBTYPE_MC68030_ONLY = 3,
                CPU_SUBTYPE_MC98000_ALL = 0, CPU_SUBTYPE_MC98601 = 1, CPU_SUBTYPE_MC88000_ALL = 0, CPU_SUBTYPE_MC88100 = 1,
                CPU_SUBTYPE_MC88110 = 2,
            }
            "A subtype of x86: a family in 4 bits, and a model in the others." CpuSubType {
                CPU_SUBTYPE_I386_ALL = 0x03, CPU_SUBTYPE_386 = 0x03, CPU_SUBTYPE_486 = 0x04, CPU_SUBTYPE_486SX = 0x84,
                CPU_SUBTYPE_586 = 0x05, CPU_SUBTYPE_PENT = 0x05, CPU_SUBTYPE_PENTPRO = 0x16, CPU_SUBTYPE_PENTII_M3 = 0x36,
                CPU_SUBTYPE_PENTII_M5 = 0x56, CPU_SUBTYPE_CELERON = 0x67, CPU_SUBTYPE_CELERON_MOBILE = 0x77, CPU_SUBTYPE_PENTIUM_3 = 0x08,
                CPU_SUBTYPE_PENTIUM_3_M = 0x18, CPU_SUBTYPE_PENTIUM_3_XEON = 0x28, CPU_SUBTYPE_PENTIUM_M = 0x09,
                CPU_SUBTYPE_PENTIUM_4 = 0x0a, CPU_SUBTYPE_PENTIUM_4_M = 0x1a, CPU_SUBTYPE_ITANIUM = 0x0b, CPU_SUBTYPE_ITANIUM_2 = 0x1b,
                CPU_SUBTYPE_XEON = 0x0c, CPU_SUBTYPE_XEON_MP = 0x1c, CPU_SUBTYPE_INTEL_FAMILY_MAX = 15, CPU_SUBTYPE_INTEL_MODEL_ALL = 0,
                CPU_SUBTYPE_X86_ALL = 3, CPU_SUBTYPE_X86_64_ALL = 3, CPU_SUBTYPE_X86_ARCH1 = 4, CPU_SUBTYPE_X86_64_H = 8,
            }
            "A subtype of MIPS." CpuSubType {
                CPU_SUBTYPE_MIPS_ALL = 0, CPU_SUBTYPE_MIPS_R2300 = 1, CPU_SUBTYPE_MIPS_R2600 = 2, CPU_SUBTYPE_MIPS_R2800 = 3,
                CPU_SUBTYPE_MIPS_R2000A = 4, CPU_SUBTYPE_MIPS_R2000 = 5, CPU_SUBTYPE_MIPS_R3000A = 6, CPU_SUBTYPE_MIPS_R3000 = 7,
            }
            "A subtype of HPPA, SPARC or i860." CpuSubType {
                CPU_SUBTYPE_HPPA_ALL = 0, CPU_SUBTYPE_HPPA_7100 = 0, CPU_SUBTYPE_HPPA_7100LC = 1, CPU_SUBTYPE_SPARC_ALL = 0,
                CPU_SUBTYPE_I860_ALL = 0, CPU_SUBTYPE_I860_860 = 1,
            }
            "A subtype of PowerPC." CpuSubType {
                CPU_SUBTYPE_POWERPC_ALL = 0, CPU_SUBTYPE_POWERPC_601 = 1, CPU_SUBTYPE_POWERPC_602 = 2, CPU_SUBTYPE_POWERPC_603 = 3,
                CPU_SUBTYPE_POWERPC_603E = 4, CPU_SUBTYPE_POWERPC_603EV = 5, CPU_SUBTYPE_POWERPC_604 = 6, CPU_SUBTYPE_POWERPC_604E = 7,
                CPU_SUBTYPE_POWERPC_620 = 8, CPU_SUBTYPE_POWERPC_750 = 9, CPU_SUBTYPE_POWERPC_7400 = 10, CPU_SUBTYPE_POWERPC_7450 = 11,
                CPU_SUBTYPE_POWERPC_970 = 100,
            }
            "A subtype of ARM." CpuSubType {
                CPU_SUBTYPE_ARM_ALL = 0, CPU_SUBTYPE_ARM_V4T = 5, CPU_SUBTYPE_ARM_V6 = 6, CPU_SUBTYPE_ARM_V5TEJ = 7,
                CPU_SUBTYPE_ARM_XSCALE = 8, CPU_SUBTYPE_ARM_V7 = 9, CPU_SUBTYPE_ARM_V7F = 10, CPU_SUBTYPE_ARM_V7S = 11,
                CPU_SUBTYPE_ARM_V7K = 12, CPU_SUBTYPE_ARM_V8 = 13, CPU_SUBTYPE_ARM_V6M = 14, CPU_SUBTYPE_ARM_V7M = 15,
                CPU_SUBTYPE_ARM_V7EM = 16, CPU_SUBTYPE_ARM64_ALL = 0, CPU_SUBTYPE_ARM64_V8 = 1, CPU_SUBTYPE_ARM64_E = 2,
                CPU_SUBTYPE_ARM64_32_ALL = 0, CPU_SUBTYPE_ARM64_32_V8 = 1,
            }
        }

        macro_rules! names {
            ($($name:literal $cpu:ident $sub:ident;)*) => { &[$(($name, $cpu, $sub),)*] };
        }

        // The names of CPUs that Apple's tools take; the last three are other names of CPUs before them.
        const NAMES: &[(&str, CpuType, CpuSubType)] = names! {
            "any" CPU_TYPE_ANY CPU_SUBTYPE_MULTIPLE; "little" CPU_TYPE_ANY CPU_SUBTYPE_LITTLE_ENDIAN;
            "big" CPU_TYPE_ANY CPU_SUBTYPE_BIG_ENDIAN; "ppc64" CPU_TYPE_POWERPC64 CPU_SUBTYPE_POWERPC_ALL;
            "x86_64" CPU_TYPE_X86_64 CPU_SUBTYPE_X86_64_ALL; "x86_64h" CPU_TYPE_X86_64 CPU_SUBTYPE_X86_64_H;
            "arm64" CPU_TYPE_ARM64 CPU_SUBTYPE_ARM64_ALL; "arm64_32" CPU_TYPE_ARM64_32 CPU_SUBTYPE_ARM64_32_ALL;
            "ppc970-64" CPU_TYPE_POWERPC64 CPU_SUBTYPE_POWERPC_970; "ppc" CPU_TYPE_POWERPC CPU_SUBTYPE_POWERPC_ALL;
            "i386" CPU_TYPE_I386 CPU_SUBTYPE_I386_ALL; "m68k" CPU_TYPE_MC680X0 CPU_SUBTYPE_MC680X0_ALL;
            "hppa" CPU_TYPE_HPPA CPU_SUBTYPE_HPPA_ALL; "sparc" CPU_TYPE_SPARC CPU_SUBTYPE_SPARC_ALL;
            "m88k" CPU_TYPE_MC88000 CPU_SUBTYPE_MC88000_ALL; "i860" CPU_TYPE_I860 CPU_SUBTYPE_I860_ALL;
            "arm" CPU_TYPE_ARM CPU_SUBTYPE_ARM_ALL; "ppc601" CPU_TYPE_POWERPC CPU_SUBTYPE_POWERPC_601;
            "ppc603" CPU_TYPE_POWERPC CPU_SUBTYPE_POWERPC_603; "ppc603e" CPU_TYPE_POWERPC CPU_SUBTYPE_POWERPC_603E;
            "ppc603ev" CPU_TYPE_POWERPC CPU_SUBTYPE_POWERPC_603EV; "ppc604" CPU_TYPE_POWERPC CPU_SUBTYPE_POWERPC_604;
            "ppc604e" CPU_TYPE_POWERPC CPU_SUBTYPE_POWERPC_604E; "ppc750" CPU_TYPE_POWERPC CPU_SUBTYPE_POWERPC_750;
            "ppc7400" CPU_TYPE_POWERPC CPU_SUBTYPE_POWERPC_7400; "ppc7450" CPU_TYPE_POWERPC CPU_SUBTYPE_POWERPC_7450;
            "ppc970" CPU_TYPE_POWERPC CPU_SUBTYPE_POWERPC_970; "i486" CPU_TYPE_I386 CPU_SUBTYPE_486;
            "i486SX" CPU_TYPE_I386 CPU_SUBTYPE_486SX; "i586" CPU_TYPE_I386 CPU_SUBTYPE_586; "i686" CPU_TYPE_I386 CPU_SUBTYPE_PENTPRO;
            "pentIIm3" CPU_TYPE_I386 CPU_SUBTYPE_PENTII_M3; "pentIIm5" CPU_TYPE_I386 CPU_SUBTYPE_PENTII_M5;
            "pentium4" CPU_TYPE_I386 CPU_SUBTYPE_PENTIUM_4; "m68030" CPU_TYPE_MC680X0 CPU_SUBTYPE_MC68030_ONLY;
            "m68040" CPU_TYPE_MC680X0 CPU_SUBTYPE_MC68040; "hppa7100LC" CPU_TYPE_HPPA CPU_SUBTYPE_HPPA_7100LC;
            "armv4t" CPU_TYPE_ARM CPU_SUBTYPE_ARM_V4T; "armv5" CPU_TYPE_ARM CPU_SUBTYPE_ARM_V5TEJ;
            "xscale" CPU_TYPE_ARM CPU_SUBTYPE_ARM_XSCALE; "armv6" CPU_TYPE_ARM CPU_SUBTYPE_ARM_V6;
            "armv6m" CPU_TYPE_ARM CPU_SUBTYPE_ARM_V6M; "armv7" CPU_TYPE_ARM CPU_SUBTYPE_ARM_V7; "armv7f" CPU_TYPE_ARM CPU_SUBTYPE_ARM_V7F;
            "armv7s" CPU_TYPE_ARM CPU_SUBTYPE_ARM_V7S; "armv7k" CPU_TYPE_ARM CPU_SUBTYPE_ARM_V7K;
            "armv7m" CPU_TYPE_ARM CPU_SUBTYPE_ARM_V7M; "armv7em" CPU_TYPE_ARM CPU_SUBTYPE_ARM_V7EM;
            "arm64v8" CPU_TYPE_ARM64 CPU_SUBTYPE_ARM64_V8; "arm64e" CPU_TYPE_ARM64 CPU_SUBTYPE_ARM64_E;
            "arm64_32_v8" CPU_TYPE_ARM64_32 CPU_SUBTYPE_ARM64_32_V8; "pentium" CPU_TYPE_I386 CPU_SUBTYPE_PENT;
            "pentpro" CPU_TYPE_I386 CPU_SUBTYPE_PENTPRO; "x86" CPU_TYPE_I386 CPU_SUBTYPE_I386_ALL;
        };

        /// Returns the type and subtype of a CPU's name, if Apple's tools take the name.
        pub fn get_arch_from_flag(name: &str) -> Option<(CpuType, CpuSubType)> {
            let found = NAMES.iter().find(|row| row.0 == name)?;
            Some((found.1, found.2))
        }

        /// Returns the name of a CPU, if Apple's tools have one.
        pub fn get_arch_name_from_types(
            cputype: CpuType,
            cpusubtype: CpuSubType,
        ) -> Option<&'static str> {
            let found = NAMES
                .iter()
                .find(|row| (row.1, row.2) == (cputype, cpusubtype))?;
            Some(found.0)
        }
    }
}
