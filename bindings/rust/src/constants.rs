//! The numbers of the PE and COFF formats, by goblin's names, which are mostly the formats' own.
// bindings/generate.py makes this file of what the proved crates declare.

// The machines that a COFF header can name.
//
// Source: PE Format, "Machine Types", and for some the Windows headers.

/// The machine: any machine.
pub const COFF_MACHINE_UNKNOWN: u16 = 0x0;
/// The machine: Alpha AXP, 32 bits.
pub const COFF_MACHINE_ALPHA: u16 = 0x184;
/// The machine: Alpha, 64 bits.
pub const COFF_MACHINE_ALPHA64: u16 = 0x284;
/// The machine: Matsushita AM33.
pub const COFF_MACHINE_AM33: u16 = 0x1D3;
/// The machine: x86-64.
pub const COFF_MACHINE_X86_64: u16 = 0x8664;
/// The machine: ARM, little-endian.
pub const COFF_MACHINE_ARM: u16 = 0x1C0;
/// The machine: ARM64, little-endian.
pub const COFF_MACHINE_ARM64: u16 = 0xAA64;
/// The machine: ARM Thumb-2, little-endian.
pub const COFF_MACHINE_ARMNT: u16 = 0x1C4;
/// The machine: EFI byte code.
pub const COFF_MACHINE_EBC: u16 = 0xEBC;
/// The machine: Intel 386 and later.
pub const COFF_MACHINE_X86: u16 = 0x14C;
/// The machine: Intel Itanium.
pub const COFF_MACHINE_IA64: u16 = 0x200;
/// The machine: LoongArch, 32 bits.
pub const COFF_MACHINE_LOONGARCH32: u16 = 0x6232;
/// The machine: LoongArch, 64 bits.
pub const COFF_MACHINE_LOONGARCH64: u16 = 0x6264;
/// The machine: Mitsubishi M32R, little-endian.
pub const COFF_MACHINE_M32R: u16 = 0x9041;
/// The machine: MIPS16.
pub const COFF_MACHINE_MIPS16: u16 = 0x266;
/// The machine: MIPS with a floating-point unit.
pub const COFF_MACHINE_MIPSFPU: u16 = 0x366;
/// The machine: MIPS16 with a floating-point unit.
pub const COFF_MACHINE_MIPSFPU16: u16 = 0x466;
/// The machine: PowerPC, little-endian.
pub const COFF_MACHINE_POWERPC: u16 = 0x1F0;
/// The machine: PowerPC with floating point.
pub const COFF_MACHINE_POWERPCFP: u16 = 0x1F1;
/// The machine: MIPS R4000, little-endian.
pub const COFF_MACHINE_R4000: u16 = 0x166;
/// The machine: RISC-V, 32 bits.
pub const COFF_MACHINE_RISCV32: u16 = 0x5032;
/// The machine: RISC-V, 64 bits.
pub const COFF_MACHINE_RISCV64: u16 = 0x5064;
/// The machine: RISC-V, 128 bits.
pub const COFF_MACHINE_RISCV128: u16 = 0x5128;
/// The machine: Hitachi SH3.
pub const COFF_MACHINE_SH3: u16 = 0x1A2;
/// The machine: Hitachi SH3 DSP.
pub const COFF_MACHINE_SH3DSP: u16 = 0x1A3;
/// The machine: Hitachi SH4.
pub const COFF_MACHINE_SH4: u16 = 0x1A6;
/// The machine: Hitachi SH5.
pub const COFF_MACHINE_SH5: u16 = 0x1A8;
/// The machine: ARM or Thumb.
pub const COFF_MACHINE_THUMB: u16 = 0x1C2;
/// The machine: MIPS WCE v2, little-endian.
pub const COFF_MACHINE_WCEMIPSV2: u16 = 0x169;

// The characteristics of a file, as bits of its COFF header.
//
// Source: PE Format, "Characteristics".

/// The image has no base relocations, so it must be loaded at its preferred address.
pub const IMAGE_FILE_RELOCS_STRIPPED: u16 = 0x0001;
/// The image is valid and can be run. If the bit is not set, the linker failed.
pub const IMAGE_FILE_EXECUTABLE_IMAGE: u16 = 0x0002;
/// The COFF line numbers were removed. Obsolete.
pub const IMAGE_FILE_LINE_NUMS_STRIPPED: u16 = 0x0004;
/// The COFF symbols of local names were removed. Obsolete.
pub const IMAGE_FILE_LOCAL_SYMS_STRIPPED: u16 = 0x0008;
/// The working set is trimmed aggressively. Obsolete.
pub const IMAGE_FILE_AGGRESSIVE_WS_TRIM: u16 = 0x0010;
/// The program can use addresses above 2 GiB.
pub const IMAGE_FILE_LARGE_ADDRESS_AWARE: u16 = 0x0020;
/// The bytes of a word are stored little-endian. Obsolete.
pub const IMAGE_FILE_BYTES_REVERSED_LO: u16 = 0x0080;
/// The machine has words of 32 bits.
pub const IMAGE_FILE_32BIT_MACHINE: u16 = 0x0100;
/// The debug data was removed from the image.
pub const IMAGE_FILE_DEBUG_STRIPPED: u16 = 0x0200;
/// If the image is on removable media, it is loaded whole and copied to the swap file.
pub const IMAGE_FILE_REMOVABLE_RUN_FROM_SWAP: u16 = 0x0400;
/// If the image is on a network, it is loaded whole and copied to the swap file.
pub const IMAGE_FILE_NET_RUN_FROM_SWAP: u16 = 0x0800;
/// The image is a system file, not a user program.
pub const IMAGE_FILE_SYSTEM: u16 = 0x1000;
/// The image is a dynamic-link library.
pub const IMAGE_FILE_DLL: u16 = 0x2000;
/// The image may run only on machines with one processor.
pub const IMAGE_FILE_UP_SYSTEM_ONLY: u16 = 0x4000;
/// The bytes of a word are stored big-endian. Obsolete.
pub const IMAGE_FILE_BYTES_REVERSED_HI: u16 = 0x8000;

// The magic numbers of optional headers.

/// The magic of an optional header for 32 bits.
pub const MAGIC_32: u16 = 0x10B;
/// The magic of an optional header for 64 bits.
pub const MAGIC_64: u16 = 0x20B;
/// The magic of an optional header for 32 bits, by its name in the Windows headers.
pub const IMAGE_NT_OPTIONAL_HDR32_MAGIC: u16 = 0x10B;
/// The magic of an optional header for 64 bits, by its name in the Windows headers.
pub const IMAGE_NT_OPTIONAL_HDR64_MAGIC: u16 = 0x20B;
/// The magic of a ROM image. No reader accepts it.
pub const IMAGE_ROM_OPTIONAL_HDR_MAGIC: u16 = 0x107;

// The subsystems that run images.
//
// Source: PE Format, "Windows Subsystem".

/// The subsystem: unknown.
pub const IMAGE_SUBSYSTEM_UNKNOWN: u16 = 0;
/// The subsystem: none is needed, as for device drivers and native Windows processes.
pub const IMAGE_SUBSYSTEM_NATIVE: u16 = 1;
/// The subsystem: the graphical user interface of Windows.
pub const IMAGE_SUBSYSTEM_WINDOWS_GUI: u16 = 2;
/// The subsystem: the console of Windows.
pub const IMAGE_SUBSYSTEM_WINDOWS_CUI: u16 = 3;
/// The subsystem: the console of OS/2.
pub const IMAGE_SUBSYSTEM_OS2_CUI: u16 = 5;
/// The subsystem: the console of POSIX.
pub const IMAGE_SUBSYSTEM_POSIX_CUI: u16 = 7;
/// The subsystem: a native driver of Windows 9x.
pub const IMAGE_SUBSYSTEM_NATIVE_WINDOWS: u16 = 8;
/// The subsystem: Windows CE.
pub const IMAGE_SUBSYSTEM_WINDOWS_CE_GUI: u16 = 9;
/// The subsystem: an application of the Extensible Firmware Interface.
pub const IMAGE_SUBSYSTEM_EFI_APPLICATION: u16 = 10;
/// The subsystem: a driver of the Extensible Firmware Interface, with boot services.
pub const IMAGE_SUBSYSTEM_EFI_BOOT_SERVICE_DRIVER: u16 = 11;
/// The subsystem: a driver of the Extensible Firmware Interface, with run-time services.
pub const IMAGE_SUBSYSTEM_EFI_RUNTIME_DRIVER: u16 = 12;
/// The subsystem: a ROM image of the Extensible Firmware Interface.
pub const IMAGE_SUBSYSTEM_EFI_ROM: u16 = 13;
/// The subsystem: Xbox.
pub const IMAGE_SUBSYSTEM_XBOX: u16 = 14;
/// The subsystem: a boot application of Windows.
pub const IMAGE_SUBSYSTEM_WINDOWS_BOOT_APPLICATION: u16 = 16;

// What an image allows and requires of the loader, as bits of its optional header.
//
// Source: PE Format, "DLL Characteristics".

/// The image can be moved within the whole address space of 64 bits.
pub const IMAGE_DLLCHARACTERISTICS_HIGH_ENTROPY_VA: u16 = 0x0020;
/// The image can be moved when it is loaded.
pub const IMAGE_DLLCHARACTERISTICS_DYNAMIC_BASE: u16 = 0x0040;
/// The loader has to check the image's signature.
pub const IMAGE_DLLCHARACTERISTICS_FORCE_INTEGRITY: u16 = 0x0080;
/// The image can run where data can't be executed.
pub const IMAGE_DLLCHARACTERISTICS_NX_COMPAT: u16 = 0x0100;
/// The image is aware of isolation, but must not be isolated.
pub const IMAGE_DLLCHARACTERISTICS_NO_ISOLATION: u16 = 0x0200;
/// The image has no structured exception handlers.
pub const IMAGE_DLLCHARACTERISTICS_NO_SEH: u16 = 0x0400;
/// The image must not be bound.
pub const IMAGE_DLLCHARACTERISTICS_NO_BIND: u16 = 0x0800;
/// The image has to run in an AppContainer.
pub const IMAGE_DLLCHARACTERISTICS_APPCONTAINER: u16 = 0x1000;
/// The image is a driver of the Windows Driver Model.
pub const IMAGE_DLLCHARACTERISTICS_WDM_DRIVER: u16 = 0x2000;
/// The image supports Control Flow Guard.
pub const IMAGE_DLLCHARACTERISTICS_GUARD_CF: u16 = 0x4000;
/// The image is aware of terminal servers.
pub const IMAGE_DLLCHARACTERISTICS_TERMINAL_SERVER_AWARE: u16 = 0x8000;

// The characteristics of sections, as bits.
//
// Source: PE Format, "Section Flags".

/// The section is not padded to the next boundary. Obsolete; use `IMAGE_SCN_ALIGN_1BYTES`.
pub const IMAGE_SCN_TYPE_NO_PAD: u32 = 0x0000_0008;
/// The section has executable code.
pub const IMAGE_SCN_CNT_CODE: u32 = 0x0000_0020;
/// The section has initialized data.
pub const IMAGE_SCN_CNT_INITIALIZED_DATA: u32 = 0x0000_0040;
/// The section has uninitialized data.
pub const IMAGE_SCN_CNT_UNINITIALIZED_DATA: u32 = 0x0000_0080;
/// Reserved.
pub const IMAGE_SCN_LNK_OTHER: u32 = 0x0000_0100;
/// The section has comments or other information. For object files only.
pub const IMAGE_SCN_LNK_INFO: u32 = 0x0000_0200;
/// The section is not part of the image. For object files only.
pub const IMAGE_SCN_LNK_REMOVE: u32 = 0x0000_0800;
/// The section has COMDAT data. For object files only.
pub const IMAGE_SCN_LNK_COMDAT: u32 = 0x0000_1000;
/// The section has data that is referred to through the global pointer.
pub const IMAGE_SCN_GPREL: u32 = 0x0000_8000;
/// Reserved.
pub const IMAGE_SCN_MEM_PURGEABLE: u32 = 0x0002_0000;
/// Reserved.
pub const IMAGE_SCN_MEM_16BIT: u32 = 0x0002_0000;
/// Reserved.
pub const IMAGE_SCN_MEM_LOCKED: u32 = 0x0004_0000;
/// Reserved.
pub const IMAGE_SCN_MEM_PRELOAD: u32 = 0x0008_0000;
/// The data is aligned to 1 byte. For object files only, as are the alignments below.
pub const IMAGE_SCN_ALIGN_1BYTES: u32 = 0x0010_0000;
/// The data is aligned to 2 bytes.
pub const IMAGE_SCN_ALIGN_2BYTES: u32 = 0x0020_0000;
/// The data is aligned to 4 bytes.
pub const IMAGE_SCN_ALIGN_4BYTES: u32 = 0x0030_0000;
/// The data is aligned to 8 bytes.
pub const IMAGE_SCN_ALIGN_8BYTES: u32 = 0x0040_0000;
/// The data is aligned to 16 bytes.
pub const IMAGE_SCN_ALIGN_16BYTES: u32 = 0x0050_0000;
/// The data is aligned to 32 bytes.
pub const IMAGE_SCN_ALIGN_32BYTES: u32 = 0x0060_0000;
/// The data is aligned to 64 bytes.
pub const IMAGE_SCN_ALIGN_64BYTES: u32 = 0x0070_0000;
/// The data is aligned to 128 bytes.
pub const IMAGE_SCN_ALIGN_128BYTES: u32 = 0x0080_0000;
/// The data is aligned to 256 bytes.
pub const IMAGE_SCN_ALIGN_256BYTES: u32 = 0x0090_0000;
/// The data is aligned to 512 bytes.
pub const IMAGE_SCN_ALIGN_512BYTES: u32 = 0x00A0_0000;
/// The data is aligned to 1,024 bytes.
pub const IMAGE_SCN_ALIGN_1024BYTES: u32 = 0x00B0_0000;
/// The data is aligned to 2,048 bytes.
pub const IMAGE_SCN_ALIGN_2048BYTES: u32 = 0x00C0_0000;
/// The data is aligned to 4,096 bytes.
pub const IMAGE_SCN_ALIGN_4096BYTES: u32 = 0x00D0_0000;
/// The data is aligned to 8,192 bytes.
pub const IMAGE_SCN_ALIGN_8192BYTES: u32 = 0x00E0_0000;
/// The bits that give the alignment.
pub const IMAGE_SCN_ALIGN_MASK: u32 = 0x00F0_0000;
/// The section has more relocations than its section header can count. The address in the first one
/// is the number of relocations.
pub const IMAGE_SCN_LNK_NRELOC_OVFL: u32 = 0x0100_0000;
/// The section can be discarded once the image is loaded.
pub const IMAGE_SCN_MEM_DISCARDABLE: u32 = 0x0200_0000;
/// The section can't be cached.
pub const IMAGE_SCN_MEM_NOT_CACHED: u32 = 0x0400_0000;
/// The section can't be paged out.
pub const IMAGE_SCN_MEM_NOT_PAGED: u32 = 0x0800_0000;
/// The section can be shared in memory.
pub const IMAGE_SCN_MEM_SHARED: u32 = 0x1000_0000;
/// The section can be executed.
pub const IMAGE_SCN_MEM_EXECUTE: u32 = 0x2000_0000;
/// The section can be read.
pub const IMAGE_SCN_MEM_READ: u32 = 0x4000_0000;
/// The section can be written.
pub const IMAGE_SCN_MEM_WRITE: u32 = 0x8000_0000;

// The values of the fields of symbols and of their auxiliary records.
//
// Source: PE Format, "Section Number Values", "Type Representation", "Storage Class", "Auxiliary
// Format 3: Weak Externals" and "COMDAT Sections (Object Only)".

/// A symbol's section: none. The symbol is defined elsewhere, or is common if its value is not 0.
pub const IMAGE_SYM_UNDEFINED: i16 = 0;
/// A symbol's section: none; the value is not an address.
pub const IMAGE_SYM_ABSOLUTE: i16 = -1;
/// A symbol's section: none; the symbol is for debuggers.
pub const IMAGE_SYM_DEBUG: i16 = -2;
/// A symbol's base type: none, or unknown.
pub const IMAGE_SYM_TYPE_NULL: u16 = 0;
/// A symbol's base type: no valid type, as for a function that returns nothing.
pub const IMAGE_SYM_TYPE_VOID: u16 = 1;
/// A symbol's base type: a character, a signed byte.
pub const IMAGE_SYM_TYPE_CHAR: u16 = 2;
/// A symbol's base type: a signed number of 2 bytes.
pub const IMAGE_SYM_TYPE_SHORT: u16 = 3;
/// A symbol's base type: a number of the machine's natural size.
pub const IMAGE_SYM_TYPE_INT: u16 = 4;
/// A symbol's base type: a signed number of 4 bytes.
pub const IMAGE_SYM_TYPE_LONG: u16 = 5;
/// A symbol's base type: a floating-point number of 4 bytes.
pub const IMAGE_SYM_TYPE_FLOAT: u16 = 6;
/// A symbol's base type: a floating-point number of 8 bytes.
pub const IMAGE_SYM_TYPE_DOUBLE: u16 = 7;
/// A symbol's base type: a structure.
pub const IMAGE_SYM_TYPE_STRUCT: u16 = 8;
/// A symbol's base type: a union.
pub const IMAGE_SYM_TYPE_UNION: u16 = 9;
/// A symbol's base type: an enumeration.
pub const IMAGE_SYM_TYPE_ENUM: u16 = 10;
/// A symbol's base type: a member of an enumeration.
pub const IMAGE_SYM_TYPE_MOE: u16 = 11;
/// A symbol's base type: an unsigned byte.
pub const IMAGE_SYM_TYPE_BYTE: u16 = 12;
/// A symbol's base type: an unsigned number of 2 bytes.
pub const IMAGE_SYM_TYPE_WORD: u16 = 13;
/// A symbol's base type: an unsigned number of the machine's natural size.
pub const IMAGE_SYM_TYPE_UINT: u16 = 14;
/// A symbol's base type: an unsigned number of 4 bytes.
pub const IMAGE_SYM_TYPE_DWORD: u16 = 15;
/// The bits of a symbol's type that are its base type.
pub const IMAGE_SYM_TYPE_MASK: u16 = 15;
/// How many bits of a symbol's type are below its derived type.
pub const IMAGE_SYM_DTYPE_SHIFT: usize = 4;
/// A symbol's derived type: none.
pub const IMAGE_SYM_DTYPE_NULL: u16 = 0;
/// A symbol's derived type: a pointer to the base type.
pub const IMAGE_SYM_DTYPE_POINTER: u16 = 1;
/// A symbol's derived type: a function that returns the base type.
pub const IMAGE_SYM_DTYPE_FUNCTION: u16 = 2;
/// A symbol's derived type: an array of the base type.
pub const IMAGE_SYM_DTYPE_ARRAY: u16 = 3;
/// A symbol's class: none.
pub const IMAGE_SYM_CLASS_NULL: u8 = 0;
/// A symbol's class: a variable on the stack.
pub const IMAGE_SYM_CLASS_AUTOMATIC: u8 = 1;
/// A symbol's class: visible to other files.
pub const IMAGE_SYM_CLASS_EXTERNAL: u8 = 2;
/// A symbol's class: visible only in its own file; with the value 0 it may represent a section.
pub const IMAGE_SYM_CLASS_STATIC: u8 = 3;
/// A symbol's class: a variable in a register.
pub const IMAGE_SYM_CLASS_REGISTER: u8 = 4;
/// A symbol's class: defined elsewhere.
pub const IMAGE_SYM_CLASS_EXTERNAL_DEF: u8 = 5;
/// A symbol's class: a label.
pub const IMAGE_SYM_CLASS_LABEL: u8 = 6;
/// A symbol's class: a label that is not defined.
pub const IMAGE_SYM_CLASS_UNDEFINED_LABEL: u8 = 7;
/// A symbol's class: a member of a structure.
pub const IMAGE_SYM_CLASS_MEMBER_OF_STRUCT: u8 = 8;
/// A symbol's class: a function's argument.
pub const IMAGE_SYM_CLASS_ARGUMENT: u8 = 9;
/// A symbol's class: a structure's name.
pub const IMAGE_SYM_CLASS_STRUCT_TAG: u8 = 10;
/// A symbol's class: a member of a union.
pub const IMAGE_SYM_CLASS_MEMBER_OF_UNION: u8 = 11;
/// A symbol's class: a union's name.
pub const IMAGE_SYM_CLASS_UNION_TAG: u8 = 12;
/// A symbol's class: a type's name.
pub const IMAGE_SYM_CLASS_TYPE_DEFINITION: u8 = 13;
/// A symbol's class: static data that is not defined.
pub const IMAGE_SYM_CLASS_UNDEFINED_STATIC: u8 = 14;
/// A symbol's class: an enumeration's name.
pub const IMAGE_SYM_CLASS_ENUM_TAG: u8 = 15;
/// A symbol's class: a member of an enumeration.
pub const IMAGE_SYM_CLASS_MEMBER_OF_ENUM: u8 = 16;
/// A symbol's class: an argument in a register.
pub const IMAGE_SYM_CLASS_REGISTER_PARAM: u8 = 17;
/// A symbol's class: a bit field.
pub const IMAGE_SYM_CLASS_BIT_FIELD: u8 = 18;
/// A symbol's class: the start or the end of a block.
pub const IMAGE_SYM_CLASS_BLOCK: u8 = 100;
/// A symbol's class: the start or the end of a function, or its number of lines.
pub const IMAGE_SYM_CLASS_FUNCTION: u8 = 101;
/// A symbol's class: the end of a structure.
pub const IMAGE_SYM_CLASS_END_OF_STRUCT: u8 = 102;
/// A symbol's class: a source file, whose name is in the records that follow it.
pub const IMAGE_SYM_CLASS_FILE: u8 = 103;
/// A symbol's class: a section.
pub const IMAGE_SYM_CLASS_SECTION: u8 = 104;
/// A symbol's class: defined elsewhere; if it is not found, another symbol replaces it.
pub const IMAGE_SYM_CLASS_WEAK_EXTERNAL: u8 = 105;
/// A symbol's class: a token of the common language runtime.
pub const IMAGE_SYM_CLASS_CLR_TOKEN: u8 = 107;
/// A symbol's class: the end of a function.
pub const IMAGE_SYM_CLASS_END_OF_FUNCTION: u8 = 255;
/// Where a weak symbol is looked for: not in libraries.
pub const IMAGE_WEAK_EXTERN_SEARCH_NOLIBRARY: u32 = 1;
/// Where a weak symbol is looked for: in libraries too.
pub const IMAGE_WEAK_EXTERN_SEARCH_LIBRARY: u32 = 2;
/// Where a weak symbol is looked for: nowhere; it is an alias of the other symbol.
pub const IMAGE_WEAK_EXTERN_SEARCH_ALIAS: u32 = 3;
/// Which of several COMDAT sections is kept: only one may exist.
pub const IMAGE_COMDAT_SELECT_NODUPLICATES: u8 = 1;
/// Which of several COMDAT sections is kept: any.
pub const IMAGE_COMDAT_SELECT_ANY: u8 = 2;
/// Which of several COMDAT sections is kept: any, and all must have one size.
pub const IMAGE_COMDAT_SELECT_SAME_SIZE: u8 = 3;
/// Which of several COMDAT sections is kept: any, and all must be equal.
pub const IMAGE_COMDAT_SELECT_EXACT_MATCH: u8 = 4;
/// Which of several COMDAT sections is kept: this one if the section that it is associated with is
/// kept.
pub const IMAGE_COMDAT_SELECT_ASSOCIATIVE: u8 = 5;
/// Which of several COMDAT sections is kept: the largest.
pub const IMAGE_COMDAT_SELECT_LARGEST: u8 = 6;

// The types of relocations, by the machine, and those of base relocations.
//
// Source: PE Format, "Type Indicators" and "Base Relocation Types".

/// x86: nothing is changed.
pub const IMAGE_REL_I386_ABSOLUTE: u16 = 0x00;
/// x86: the target's address, 16 bits; not supported.
pub const IMAGE_REL_I386_DIR16: u16 = 0x01;
/// x86: the distance to the target, 16 bits; not supported.
pub const IMAGE_REL_I386_REL16: u16 = 0x02;
/// x86: the target's address, 32 bits.
pub const IMAGE_REL_I386_DIR32: u16 = 0x06;
/// x86: the target's address relative to the image's base, 32 bits.
pub const IMAGE_REL_I386_DIR32NB: u16 = 0x07;
/// x86: a segment's selector; not supported.
pub const IMAGE_REL_I386_SEG12: u16 = 0x09;
/// x86: the index of the target's section, 16 bits.
pub const IMAGE_REL_I386_SECTION: u16 = 0x0A;
/// x86: the target's offset from its section's start, 32 bits.
pub const IMAGE_REL_I386_SECREL: u16 = 0x0B;
/// x86: a token of the common language runtime.
pub const IMAGE_REL_I386_TOKEN: u16 = 0x0C;
/// x86: the target's offset from its section's start, 7 bits.
pub const IMAGE_REL_I386_SECREL7: u16 = 0x0D;
/// x86: the distance to the target, 32 bits.
pub const IMAGE_REL_I386_REL32: u16 = 0x14;
/// x86-64: nothing is changed.
pub const IMAGE_REL_AMD64_ABSOLUTE: u16 = 0x00;
/// x86-64: the target's address, 64 bits.
pub const IMAGE_REL_AMD64_ADDR64: u16 = 0x01;
/// x86-64: the target's address, 32 bits.
pub const IMAGE_REL_AMD64_ADDR32: u16 = 0x02;
/// x86-64: the target's address relative to the image's base, 32 bits.
pub const IMAGE_REL_AMD64_ADDR32NB: u16 = 0x03;
/// x86-64: the distance to the target from the byte after the field, 32 bits.
pub const IMAGE_REL_AMD64_REL32: u16 = 0x04;
/// x86-64: as `IMAGE_REL_AMD64_REL32`, from 1 byte further on.
pub const IMAGE_REL_AMD64_REL32_1: u16 = 0x05;
/// x86-64: as `IMAGE_REL_AMD64_REL32`, from 2 bytes further on.
pub const IMAGE_REL_AMD64_REL32_2: u16 = 0x06;
/// x86-64: as `IMAGE_REL_AMD64_REL32`, from 3 bytes further on.
pub const IMAGE_REL_AMD64_REL32_3: u16 = 0x07;
/// x86-64: as `IMAGE_REL_AMD64_REL32`, from 4 bytes further on.
pub const IMAGE_REL_AMD64_REL32_4: u16 = 0x08;
/// x86-64: as `IMAGE_REL_AMD64_REL32`, from 5 bytes further on.
pub const IMAGE_REL_AMD64_REL32_5: u16 = 0x09;
/// x86-64: the index of the target's section, 16 bits.
pub const IMAGE_REL_AMD64_SECTION: u16 = 0x0A;
/// x86-64: the target's offset from its section's start, 32 bits.
pub const IMAGE_REL_AMD64_SECREL: u16 = 0x0B;
/// x86-64: the target's offset from its section's start, 7 bits.
pub const IMAGE_REL_AMD64_SECREL7: u16 = 0x0C;
/// x86-64: a token of the common language runtime.
pub const IMAGE_REL_AMD64_TOKEN: u16 = 0x0D;
/// x86-64: a signed value that depends on a span, 32 bits.
pub const IMAGE_REL_AMD64_SREL32: u16 = 0x0E;
/// x86-64: the second half of a value that depends on a span, right after it.
pub const IMAGE_REL_AMD64_PAIR: u16 = 0x0F;
/// x86-64: a signed value that depends on a span and is applied by the linker, 32 bits.
pub const IMAGE_REL_AMD64_SSPAN32: u16 = 0x10;
/// ARM: nothing is changed.
pub const IMAGE_REL_ARM_ABSOLUTE: u16 = 0x00;
/// ARM: the target's address, 32 bits.
pub const IMAGE_REL_ARM_ADDR: u16 = 0x01;
/// ARM: the target's address relative to the image's base, 32 bits.
pub const IMAGE_REL_ARM_ADDR32NB: u16 = 0x02;
/// ARM: the distance of a branch, 24 bits.
pub const IMAGE_REL_ARM_BRANCH24: u16 = 0x03;
/// ARM: the distance of a branch in two instructions, 11 bits each.
pub const IMAGE_REL_ARM_BRANCH11: u16 = 0x04;
/// ARM: a token of the common language runtime.
pub const IMAGE_REL_ARM_TOKEN: u16 = 0x05;
/// ARM: an offset from the global pointer, 12 bits.
pub const IMAGE_REL_ARM_GPREL12: u16 = 0x06;
/// ARM: an offset from the global pointer, 7 bits.
pub const IMAGE_REL_ARM_GPREL7: u16 = 0x07;
/// ARM: the distance of a branch that may switch to Thumb, 24 bits.
pub const IMAGE_REL_ARM_BLX24: u16 = 0x08;
/// ARM: the distance of a branch that may switch from Thumb, 11 bits.
pub const IMAGE_REL_ARM_BLX11: u16 = 0x09;
/// ARM: the distance to the target from the byte after the field, 32 bits.
pub const IMAGE_REL_ARM_REL32: u16 = 0x0A;
/// ARM: the index of the target's section, 16 bits.
pub const IMAGE_REL_ARM_SECTION: u16 = 0x0E;
/// ARM: the target's offset from its section's start, 32 bits.
pub const IMAGE_REL_ARM_SECREL: u16 = 0x0F;
/// ARM: the target's address in two moves of 16 bits.
pub const IMAGE_REL_ARM_MOV32A: u16 = 0x10;
/// ARM: the target's address in two Thumb moves of 16 bits.
pub const IMAGE_REL_ARM_MOV32T: u16 = 0x11;
/// ARM: the distance of a conditional Thumb branch, 20 bits.
pub const IMAGE_REL_ARM_BRANCH20T: u16 = 0x12;
/// ARM: the distance of a Thumb branch, 24 bits.
pub const IMAGE_REL_ARM_BRANCH24T: u16 = 0x14;
/// ARM: the distance of a Thumb call, 23 bits.
pub const IMAGE_REL_ARM_BLX23T: u16 = 0x15;
/// ARM: the second half of a pair of relocations, whose symbol index is a displacement.
pub const IMAGE_REL_ARM_PAIR: u16 = 0x16;
/// ARM64: nothing is changed.
pub const IMAGE_REL_ARM64_ABSOLUTE: u16 = 0x00;
/// ARM64: the target's address, 32 bits.
pub const IMAGE_REL_ARM64_ADDR32: u16 = 0x01;
/// ARM64: the target's address relative to the image's base, 32 bits.
pub const IMAGE_REL_ARM64_ADDR32NB: u16 = 0x02;
/// ARM64: the distance of a branch, 26 bits.
pub const IMAGE_REL_ARM64_BRANCH26: u16 = 0x03;
/// ARM64: the distance to the target's page, 21 bits.
pub const IMAGE_REL_ARM64_PAGEBASE_REL21: u16 = 0x04;
/// ARM64: the distance to the target, 21 bits.
pub const IMAGE_REL_ARM64_REL21: u16 = 0x05;
/// ARM64: the target's offset in its page, 12 bits of an addition.
pub const IMAGE_REL_ARM64_PAGEOFFSET_12A: u16 = 0x06;
/// ARM64: the target's offset in its page, 12 bits of a load or a store.
pub const IMAGE_REL_ARM64_PAGEOFFSET_12L: u16 = 0x07;
/// ARM64: the target's offset from its section's start, 32 bits.
pub const IMAGE_REL_ARM64_SECREL: u16 = 0x08;
/// ARM64: the low 12 bits of the target's offset from its section's start, of an addition.
pub const IMAGE_REL_ARM64_SECREL_LOW12A: u16 = 0x09;
/// ARM64: bits 12 to 23 of the target's offset from its section's start, of an addition.
pub const IMAGE_REL_ARM64_SECREL_HIGH12A: u16 = 0x0A;
/// ARM64: the low 12 bits of the target's offset from its section's start, of a load or a store.
pub const IMAGE_REL_ARM64_SECREL_LOW12L: u16 = 0x0B;
/// ARM64: a token of the common language runtime.
pub const IMAGE_REL_ARM64_TOKEN: u16 = 0x0C;
/// ARM64: the index of the target's section, 16 bits.
pub const IMAGE_REL_ARM64_SECTION: u16 = 0x0D;
/// ARM64: the target's address, 64 bits.
pub const IMAGE_REL_ARM64_ADDR64: u16 = 0x0E;
/// ARM64: the distance of a conditional branch, 19 bits.
pub const IMAGE_REL_ARM64_BRANCH19: u16 = 0x0F;
/// ARM64: the distance of a branch that tests a bit, 14 bits.
pub const IMAGE_REL_ARM64_BRANCH14: u16 = 0x10;
/// ARM64: the distance to the target from the byte after the field, 32 bits.
pub const IMAGE_REL_ARM64_REL32: u16 = 0x11;
/// Itanium: nothing is changed.
pub const IMAGE_REL_IA64_ABSOLUTE: u16 = 0x00;
/// Itanium: an immediate of 14 bits.
pub const IMAGE_REL_IA64_IMM14: u16 = 0x01;
/// Itanium: an immediate of 22 bits.
pub const IMAGE_REL_IA64_IMM22: u16 = 0x02;
/// Itanium: an immediate of 64 bits.
pub const IMAGE_REL_IA64_IMM64: u16 = 0x03;
/// Itanium: the target's address, 32 bits.
pub const IMAGE_REL_IA64_DIR: u16 = 0x04;
/// Itanium: the target's address, 64 bits.
pub const IMAGE_REL_IA64_DIR64: u16 = 0x05;
/// Itanium: the distance of a branch in a bundle, 21 bits.
pub const IMAGE_REL_IA64_PCREL21B: u16 = 0x06;
/// Itanium: the distance of a branch in a memory instruction, 21 bits.
pub const IMAGE_REL_IA64_PCREL21M: u16 = 0x07;
/// Itanium: the distance of a branch in a floating-point instruction, 21 bits.
pub const IMAGE_REL_IA64_PCREL21F: u16 = 0x08;
/// Itanium: an offset from the global pointer, 22 bits.
pub const IMAGE_REL_IA64_GPREL22: u16 = 0x09;
/// Itanium: the offset of the target's linkage table entry from the global pointer, 22 bits.
pub const IMAGE_REL_IA64_LTOFF22: u16 = 0x0A;
/// Itanium: the index of the target's section, 16 bits.
pub const IMAGE_REL_IA64_SECTION: u16 = 0x0B;
/// Itanium: the target's offset from its section's start, 22 bits.
pub const IMAGE_REL_IA64_SECREL22: u16 = 0x0C;
/// Itanium: the target's offset from its section's start, an immediate of 64 bits.
pub const IMAGE_REL_IA64_SECREL64I: u16 = 0x0D;
/// Itanium: the target's offset from its section's start, 32 bits.
pub const IMAGE_REL_IA64_SECREL: u16 = 0x0E;
/// Itanium: the offset of the target's linkage table entry from the global pointer, 64 bits.
pub const IMAGE_REL_IA64_LTOFF64: u16 = 0x0F;
/// Itanium: the target's address relative to the image's base, 32 bits.
pub const IMAGE_REL_IA64_DIR32NB: u16 = 0x10;
/// Itanium: a signed immediate of 14 bits, the difference of two targets.
pub const IMAGE_REL_IA64_SREL14: u16 = 0x11;
/// Itanium: a signed immediate of 22 bits, the difference of two targets.
pub const IMAGE_REL_IA64_SREL22: u16 = 0x12;
/// Itanium: a signed value of 32 bits, the difference of two targets.
pub const IMAGE_REL_IA64_SREL32: u16 = 0x13;
/// Itanium: an unsigned value of 32 bits, the difference of two targets.
pub const IMAGE_REL_IA64_UREL32: u16 = 0x14;
/// Itanium: the distance of a branch, 60 bits; the branch stays a long one.
pub const IMAGE_REL_IA64_PCREL60X: u16 = 0x15;
/// Itanium: the distance of a branch, 60 bits; if 25 bits suffice, its bundle becomes an MBB one.
pub const IMAGE_REL_IA64_PCREL60B: u16 = 0x16;
/// Itanium: the distance of a branch, 60 bits; if 25 bits suffice, its bundle becomes an MFB one.
pub const IMAGE_REL_IA64_PCREL60F: u16 = 0x17;
/// Itanium: the distance of a branch, 60 bits; if 25 bits suffice, its bundle becomes an MIB one.
pub const IMAGE_REL_IA64_PCREL60I: u16 = 0x18;
/// Itanium: the distance of a branch, 60 bits; if 25 bits suffice, its bundle becomes an MMB one.
pub const IMAGE_REL_IA64_PCREL60M: u16 = 0x19;
/// Itanium: an offset from the global pointer, an immediate of 64 bits.
pub const IMAGE_REL_IA64_IMMGPREL64: u16 = 0x1A;
/// Itanium: a token of the common language runtime.
pub const IMAGE_REL_IA64_TOKEN: u16 = 0x1B;
/// Itanium: an offset from the global pointer, 32 bits.
pub const IMAGE_REL_IA64_GPREL32: u16 = 0x1C;
/// Itanium: a number to be added to the relocation before it.
pub const IMAGE_REL_IA64_ADDEND: u16 = 0x1F;
/// Base relocation: nothing is changed; it fills a block up to a multiple of four bytes.
pub const IMAGE_REL_BASED_ABSOLUTE: u16 = 0x00;
/// Base relocation: the high half of a 32-bit address.
pub const IMAGE_REL_BASED_HIGH: u16 = 0x01;
/// Base relocation: the low half of a 32-bit address.
pub const IMAGE_REL_BASED_LOW: u16 = 0x02;
/// Base relocation: a 32-bit address.
pub const IMAGE_REL_BASED_HIGHLOW: u16 = 0x03;
/// Base relocation: the high half of a 32-bit address whose low half is in the next word.
pub const IMAGE_REL_BASED_HIGHADJ: u16 = 0x04;
/// Base relocation: a MIPS jump.
pub const IMAGE_REL_BASED_MIPS_JMPADDR: u16 = 0x05;
/// Base relocation: a 32-bit address in two ARM moves.
pub const IMAGE_REL_BASED_ARM_MOV32A: u16 = 0x05;
/// Base relocation: a 32-bit address in two ARM moves.
pub const IMAGE_REL_BASED_ARM_MOV32: u16 = 0x05;
/// Base relocation: the index of a section; reserved.
pub const IMAGE_REL_BASED_SECTION: u16 = 0x06;
/// Base relocation: a relative address; reserved.
pub const IMAGE_REL_BASED_REL: u16 = 0x07;
/// Base relocation: a 32-bit address in two Thumb moves.
pub const IMAGE_REL_BASED_ARM_MOV32T: u16 = 0x07;
/// Base relocation: a 32-bit address in two Thumb moves.
pub const IMAGE_REL_BASED_THUMB_MOV32: u16 = 0x07;
/// Base relocation: a MIPS16 jump.
pub const IMAGE_REL_BASED_MIPS_JMPADDR16: u16 = 0x09;
/// Base relocation: a 64-bit immediate of Itanium.
pub const IMAGE_REL_BASED_IA64_IMM64: u16 = 0x09;
/// Base relocation: a 64-bit address.
pub const IMAGE_REL_BASED_DIR64: u16 = 0x0A;
/// Base relocation: the top 16 bits of a 48-bit address.
pub const IMAGE_REL_BASED_HIGH3ADJ: u16 = 0x0B;

// The sizes of records, in bytes, and offsets in them.

/// The size of a COFF header, in bytes.
pub const SIZEOF_COFF_HEADER: usize = 20;
/// The size of the standard fields for 32 bits, in bytes.
pub const SIZEOF_STANDARD_FIELDS_32: usize = 28;
/// The size of the standard fields for 64 bits, in bytes.
pub const SIZEOF_STANDARD_FIELDS_64: usize = 24;
/// The size of the Windows fields for 32 bits, in bytes.
pub const SIZEOF_WINDOWS_FIELDS_32: usize = 68;
/// The size of the Windows fields for 64 bits, in bytes.
pub const SIZEOF_WINDOWS_FIELDS_64: usize = 88;
/// The offset of the checksum in the Windows fields for 32 bits, in bytes from their front.
pub const OFFSET_WINDOWS_FIELDS_32_CHECKSUM: usize = 36;
/// The offset of the checksum in the Windows fields for 64 bits, in bytes from their front.
pub const OFFSET_WINDOWS_FIELDS_64_CHECKSUM: usize = 40;
/// The size of the signature of a PE header, in bytes.
pub const SIZEOF_PE_MAGIC: usize = 4;
/// The offset, in the DOS header, of the field with the file offset of the PE signature.
pub const PE_POINTER_OFFSET: u32 = 0x3C;
/// The file offset at which the DOS stub begins, just past the DOS header.
pub const DOS_STUB_OFFSET: u32 = 0x40;
/// The size of a data directory's record, in bytes.
pub const SIZEOF_DATA_DIRECTORY: usize = 8;
/// How many entries the table of data directories has.
pub const NUM_DATA_DIRECTORIES: usize = 16;
/// The size of a section header, in bytes.
pub const SIZEOF_SECTION_TABLE: usize = 40;
/// The size of a record of the symbol table, in bytes.
pub const COFF_SYMBOL_SIZE: usize = 18;
/// The size of a relocation of a COFF object, in bytes.
pub const COFF_RELOCATION_SIZE: usize = 10;
/// The size of an import descriptor, in bytes.
pub const SIZEOF_IMPORT_DIRECTORY_ENTRY: usize = 20;
/// The size of an export directory's record, in bytes.
pub const SIZEOF_EXPORT_DIRECTORY_TABLE: usize = 40;
/// The size of an entry of the export address table, in bytes.
pub const SIZEOF_EXPORT_ADDRESS_TABLE_ENTRY: usize = 4;
/// The size of the header of a base relocation block, in bytes.
pub const RELOCATION_BLOCK_SIZE: usize = 8;
