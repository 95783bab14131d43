/* The numbers of the PE and COFF formats, by goblin's names after GOBLIN_PE_. Most names are the
   formats' own. The libraries declare them as constants.
   bindings/generate.py makes this file of what the proved crates declare. */
#ifndef GOBLIN_PE_CONSTANTS_H
#define GOBLIN_PE_CONSTANTS_H

/* The machines that a COFF header can name.

   Source: PE Format, "Machine Types", and for some the Windows headers. */
/* The machine: any machine. */
#define GOBLIN_PE_COFF_MACHINE_UNKNOWN 0x0
/* The machine: Alpha AXP, 32 bits. */
#define GOBLIN_PE_COFF_MACHINE_ALPHA 0x184
/* The machine: Alpha, 64 bits. */
#define GOBLIN_PE_COFF_MACHINE_ALPHA64 0x284
/* The machine: Matsushita AM33. */
#define GOBLIN_PE_COFF_MACHINE_AM33 0x1D3
/* The machine: x86-64. */
#define GOBLIN_PE_COFF_MACHINE_X86_64 0x8664
/* The machine: ARM, little-endian. */
#define GOBLIN_PE_COFF_MACHINE_ARM 0x1C0
/* The machine: ARM64, little-endian. */
#define GOBLIN_PE_COFF_MACHINE_ARM64 0xAA64
/* The machine: ARM Thumb-2, little-endian. */
#define GOBLIN_PE_COFF_MACHINE_ARMNT 0x1C4
/* The machine: EFI byte code. */
#define GOBLIN_PE_COFF_MACHINE_EBC 0xEBC
/* The machine: Intel 386 and later. */
#define GOBLIN_PE_COFF_MACHINE_X86 0x14C
/* The machine: Intel Itanium. */
#define GOBLIN_PE_COFF_MACHINE_IA64 0x200
/* The machine: LoongArch, 32 bits. */
#define GOBLIN_PE_COFF_MACHINE_LOONGARCH32 0x6232
/* The machine: LoongArch, 64 bits. */
#define GOBLIN_PE_COFF_MACHINE_LOONGARCH64 0x6264
/* The machine: Mitsubishi M32R, little-endian. */
#define GOBLIN_PE_COFF_MACHINE_M32R 0x9041
/* The machine: MIPS16. */
#define GOBLIN_PE_COFF_MACHINE_MIPS16 0x266
/* The machine: MIPS with a floating-point unit. */
#define GOBLIN_PE_COFF_MACHINE_MIPSFPU 0x366
/* The machine: MIPS16 with a floating-point unit. */
#define GOBLIN_PE_COFF_MACHINE_MIPSFPU16 0x466
/* The machine: PowerPC, little-endian. */
#define GOBLIN_PE_COFF_MACHINE_POWERPC 0x1F0
/* The machine: PowerPC with floating point. */
#define GOBLIN_PE_COFF_MACHINE_POWERPCFP 0x1F1
/* The machine: MIPS R4000, little-endian. */
#define GOBLIN_PE_COFF_MACHINE_R4000 0x166
/* The machine: RISC-V, 32 bits. */
#define GOBLIN_PE_COFF_MACHINE_RISCV32 0x5032
/* The machine: RISC-V, 64 bits. */
#define GOBLIN_PE_COFF_MACHINE_RISCV64 0x5064
/* The machine: RISC-V, 128 bits. */
#define GOBLIN_PE_COFF_MACHINE_RISCV128 0x5128
/* The machine: Hitachi SH3. */
#define GOBLIN_PE_COFF_MACHINE_SH3 0x1A2
/* The machine: Hitachi SH3 DSP. */
#define GOBLIN_PE_COFF_MACHINE_SH3DSP 0x1A3
/* The machine: Hitachi SH4. */
#define GOBLIN_PE_COFF_MACHINE_SH4 0x1A6
/* The machine: Hitachi SH5. */
#define GOBLIN_PE_COFF_MACHINE_SH5 0x1A8
/* The machine: ARM or Thumb. */
#define GOBLIN_PE_COFF_MACHINE_THUMB 0x1C2
/* The machine: MIPS WCE v2, little-endian. */
#define GOBLIN_PE_COFF_MACHINE_WCEMIPSV2 0x169

/* The characteristics of a file, as bits of its COFF header.

   Source: PE Format, "Characteristics". */
/* The image has no base relocations, so it must be loaded at its preferred address. */
#define GOBLIN_PE_IMAGE_FILE_RELOCS_STRIPPED 0x0001
/* The image is valid and can be run. If the bit is not set, the linker failed. */
#define GOBLIN_PE_IMAGE_FILE_EXECUTABLE_IMAGE 0x0002
/* The COFF line numbers were removed. Obsolete. */
#define GOBLIN_PE_IMAGE_FILE_LINE_NUMS_STRIPPED 0x0004
/* The COFF symbols of local names were removed. Obsolete. */
#define GOBLIN_PE_IMAGE_FILE_LOCAL_SYMS_STRIPPED 0x0008
/* The working set is trimmed aggressively. Obsolete. */
#define GOBLIN_PE_IMAGE_FILE_AGGRESSIVE_WS_TRIM 0x0010
/* The program can use addresses above 2 GiB. */
#define GOBLIN_PE_IMAGE_FILE_LARGE_ADDRESS_AWARE 0x0020
/* The bytes of a word are stored little-endian. Obsolete. */
#define GOBLIN_PE_IMAGE_FILE_BYTES_REVERSED_LO 0x0080
/* The machine has words of 32 bits. */
#define GOBLIN_PE_IMAGE_FILE_32BIT_MACHINE 0x0100
/* The debug data was removed from the image. */
#define GOBLIN_PE_IMAGE_FILE_DEBUG_STRIPPED 0x0200
/* If the image is on removable media, it is loaded whole and copied to the swap file. */
#define GOBLIN_PE_IMAGE_FILE_REMOVABLE_RUN_FROM_SWAP 0x0400
/* If the image is on a network, it is loaded whole and copied to the swap file. */
#define GOBLIN_PE_IMAGE_FILE_NET_RUN_FROM_SWAP 0x0800
/* The image is a system file, not a user program. */
#define GOBLIN_PE_IMAGE_FILE_SYSTEM 0x1000
/* The image is a dynamic-link library. */
#define GOBLIN_PE_IMAGE_FILE_DLL 0x2000
/* The image may run only on machines with one processor. */
#define GOBLIN_PE_IMAGE_FILE_UP_SYSTEM_ONLY 0x4000
/* The bytes of a word are stored big-endian. Obsolete. */
#define GOBLIN_PE_IMAGE_FILE_BYTES_REVERSED_HI 0x8000

/* The magic numbers of optional headers. */
/* The magic of an optional header for 32 bits. */
#define GOBLIN_PE_MAGIC_32 0x10B
/* The magic of an optional header for 64 bits. */
#define GOBLIN_PE_MAGIC_64 0x20B
/* The magic of an optional header for 32 bits, by its name in the Windows headers. */
#define GOBLIN_PE_IMAGE_NT_OPTIONAL_HDR32_MAGIC 0x10B
/* The magic of an optional header for 64 bits, by its name in the Windows headers. */
#define GOBLIN_PE_IMAGE_NT_OPTIONAL_HDR64_MAGIC 0x20B
/* The magic of a ROM image. No reader accepts it. */
#define GOBLIN_PE_IMAGE_ROM_OPTIONAL_HDR_MAGIC 0x107

/* The subsystems that run images.

   Source: PE Format, "Windows Subsystem". */
/* The subsystem: unknown. */
#define GOBLIN_PE_IMAGE_SUBSYSTEM_UNKNOWN 0
/* The subsystem: none is needed, as for device drivers and native Windows processes. */
#define GOBLIN_PE_IMAGE_SUBSYSTEM_NATIVE 1
/* The subsystem: the graphical user interface of Windows. */
#define GOBLIN_PE_IMAGE_SUBSYSTEM_WINDOWS_GUI 2
/* The subsystem: the console of Windows. */
#define GOBLIN_PE_IMAGE_SUBSYSTEM_WINDOWS_CUI 3
/* The subsystem: the console of OS/2. */
#define GOBLIN_PE_IMAGE_SUBSYSTEM_OS2_CUI 5
/* The subsystem: the console of POSIX. */
#define GOBLIN_PE_IMAGE_SUBSYSTEM_POSIX_CUI 7
/* The subsystem: a native driver of Windows 9x. */
#define GOBLIN_PE_IMAGE_SUBSYSTEM_NATIVE_WINDOWS 8
/* The subsystem: Windows CE. */
#define GOBLIN_PE_IMAGE_SUBSYSTEM_WINDOWS_CE_GUI 9
/* The subsystem: an application of the Extensible Firmware Interface. */
#define GOBLIN_PE_IMAGE_SUBSYSTEM_EFI_APPLICATION 10
/* The subsystem: a driver of the Extensible Firmware Interface, with boot services. */
#define GOBLIN_PE_IMAGE_SUBSYSTEM_EFI_BOOT_SERVICE_DRIVER 11
/* The subsystem: a driver of the Extensible Firmware Interface, with run-time services. */
#define GOBLIN_PE_IMAGE_SUBSYSTEM_EFI_RUNTIME_DRIVER 12
/* The subsystem: a ROM image of the Extensible Firmware Interface. */
#define GOBLIN_PE_IMAGE_SUBSYSTEM_EFI_ROM 13
/* The subsystem: Xbox. */
#define GOBLIN_PE_IMAGE_SUBSYSTEM_XBOX 14
/* The subsystem: a boot application of Windows. */
#define GOBLIN_PE_IMAGE_SUBSYSTEM_WINDOWS_BOOT_APPLICATION 16

/* What an image allows and requires of the loader, as bits of its optional header.

   Source: PE Format, "DLL Characteristics". */
/* The image can be moved within the whole address space of 64 bits. */
#define GOBLIN_PE_IMAGE_DLLCHARACTERISTICS_HIGH_ENTROPY_VA 0x0020
/* The image can be moved when it is loaded. */
#define GOBLIN_PE_IMAGE_DLLCHARACTERISTICS_DYNAMIC_BASE 0x0040
/* The loader has to check the image's signature. */
#define GOBLIN_PE_IMAGE_DLLCHARACTERISTICS_FORCE_INTEGRITY 0x0080
/* The image can run where data can't be executed. */
#define GOBLIN_PE_IMAGE_DLLCHARACTERISTICS_NX_COMPAT 0x0100
/* The image is aware of isolation, but must not be isolated. */
#define GOBLIN_PE_IMAGE_DLLCHARACTERISTICS_NO_ISOLATION 0x0200
/* The image has no structured exception handlers. */
#define GOBLIN_PE_IMAGE_DLLCHARACTERISTICS_NO_SEH 0x0400
/* The image must not be bound. */
#define GOBLIN_PE_IMAGE_DLLCHARACTERISTICS_NO_BIND 0x0800
/* The image has to run in an AppContainer. */
#define GOBLIN_PE_IMAGE_DLLCHARACTERISTICS_APPCONTAINER 0x1000
/* The image is a driver of the Windows Driver Model. */
#define GOBLIN_PE_IMAGE_DLLCHARACTERISTICS_WDM_DRIVER 0x2000
/* The image supports Control Flow Guard. */
#define GOBLIN_PE_IMAGE_DLLCHARACTERISTICS_GUARD_CF 0x4000
/* The image is aware of terminal servers. */
#define GOBLIN_PE_IMAGE_DLLCHARACTERISTICS_TERMINAL_SERVER_AWARE 0x8000

/* The characteristics of sections, as bits.

   Source: PE Format, "Section Flags". */
/* The section is not padded to the next boundary. Obsolete; use `IMAGE_SCN_ALIGN_1BYTES`. */
#define GOBLIN_PE_IMAGE_SCN_TYPE_NO_PAD 0x00000008u
/* The section has executable code. */
#define GOBLIN_PE_IMAGE_SCN_CNT_CODE 0x00000020u
/* The section has initialized data. */
#define GOBLIN_PE_IMAGE_SCN_CNT_INITIALIZED_DATA 0x00000040u
/* The section has uninitialized data. */
#define GOBLIN_PE_IMAGE_SCN_CNT_UNINITIALIZED_DATA 0x00000080u
/* Reserved. */
#define GOBLIN_PE_IMAGE_SCN_LNK_OTHER 0x00000100u
/* The section has comments or other information. For object files only. */
#define GOBLIN_PE_IMAGE_SCN_LNK_INFO 0x00000200u
/* The section is not part of the image. For object files only. */
#define GOBLIN_PE_IMAGE_SCN_LNK_REMOVE 0x00000800u
/* The section has COMDAT data. For object files only. */
#define GOBLIN_PE_IMAGE_SCN_LNK_COMDAT 0x00001000u
/* The section has data that is referred to through the global pointer. */
#define GOBLIN_PE_IMAGE_SCN_GPREL 0x00008000u
/* Reserved. */
#define GOBLIN_PE_IMAGE_SCN_MEM_PURGEABLE 0x00020000u
/* Reserved. */
#define GOBLIN_PE_IMAGE_SCN_MEM_16BIT 0x00020000u
/* Reserved. */
#define GOBLIN_PE_IMAGE_SCN_MEM_LOCKED 0x00040000u
/* Reserved. */
#define GOBLIN_PE_IMAGE_SCN_MEM_PRELOAD 0x00080000u
/* The data is aligned to 1 byte. For object files only, as are the alignments below. */
#define GOBLIN_PE_IMAGE_SCN_ALIGN_1BYTES 0x00100000u
/* The data is aligned to 2 bytes. */
#define GOBLIN_PE_IMAGE_SCN_ALIGN_2BYTES 0x00200000u
/* The data is aligned to 4 bytes. */
#define GOBLIN_PE_IMAGE_SCN_ALIGN_4BYTES 0x00300000u
/* The data is aligned to 8 bytes. */
#define GOBLIN_PE_IMAGE_SCN_ALIGN_8BYTES 0x00400000u
/* The data is aligned to 16 bytes. */
#define GOBLIN_PE_IMAGE_SCN_ALIGN_16BYTES 0x00500000u
/* The data is aligned to 32 bytes. */
#define GOBLIN_PE_IMAGE_SCN_ALIGN_32BYTES 0x00600000u
/* The data is aligned to 64 bytes. */
#define GOBLIN_PE_IMAGE_SCN_ALIGN_64BYTES 0x00700000u
/* The data is aligned to 128 bytes. */
#define GOBLIN_PE_IMAGE_SCN_ALIGN_128BYTES 0x00800000u
/* The data is aligned to 256 bytes. */
#define GOBLIN_PE_IMAGE_SCN_ALIGN_256BYTES 0x00900000u
/* The data is aligned to 512 bytes. */
#define GOBLIN_PE_IMAGE_SCN_ALIGN_512BYTES 0x00A00000u
/* The data is aligned to 1,024 bytes. */
#define GOBLIN_PE_IMAGE_SCN_ALIGN_1024BYTES 0x00B00000u
/* The data is aligned to 2,048 bytes. */
#define GOBLIN_PE_IMAGE_SCN_ALIGN_2048BYTES 0x00C00000u
/* The data is aligned to 4,096 bytes. */
#define GOBLIN_PE_IMAGE_SCN_ALIGN_4096BYTES 0x00D00000u
/* The data is aligned to 8,192 bytes. */
#define GOBLIN_PE_IMAGE_SCN_ALIGN_8192BYTES 0x00E00000u
/* The bits that give the alignment. */
#define GOBLIN_PE_IMAGE_SCN_ALIGN_MASK 0x00F00000u
/* The section has more relocations than its section header can count. The address in the first one
   is the number of relocations. */
#define GOBLIN_PE_IMAGE_SCN_LNK_NRELOC_OVFL 0x01000000u
/* The section can be discarded once the image is loaded. */
#define GOBLIN_PE_IMAGE_SCN_MEM_DISCARDABLE 0x02000000u
/* The section can't be cached. */
#define GOBLIN_PE_IMAGE_SCN_MEM_NOT_CACHED 0x04000000u
/* The section can't be paged out. */
#define GOBLIN_PE_IMAGE_SCN_MEM_NOT_PAGED 0x08000000u
/* The section can be shared in memory. */
#define GOBLIN_PE_IMAGE_SCN_MEM_SHARED 0x10000000u
/* The section can be executed. */
#define GOBLIN_PE_IMAGE_SCN_MEM_EXECUTE 0x20000000u
/* The section can be read. */
#define GOBLIN_PE_IMAGE_SCN_MEM_READ 0x40000000u
/* The section can be written. */
#define GOBLIN_PE_IMAGE_SCN_MEM_WRITE 0x80000000u

/* The values of the fields of symbols and of their auxiliary records.

   Source: PE Format, "Section Number Values", "Type Representation", "Storage Class", "Auxiliary
   Format 3: Weak Externals" and "COMDAT Sections (Object Only)". */
/* A symbol's section: none. The symbol is defined elsewhere, or is common if its value is not 0. */
#define GOBLIN_PE_IMAGE_SYM_UNDEFINED 0
/* A symbol's section: none; the value is not an address. */
#define GOBLIN_PE_IMAGE_SYM_ABSOLUTE (-1)
/* A symbol's section: none; the symbol is for debuggers. */
#define GOBLIN_PE_IMAGE_SYM_DEBUG (-2)
/* A symbol's base type: none, or unknown. */
#define GOBLIN_PE_IMAGE_SYM_TYPE_NULL 0
/* A symbol's base type: no valid type, as for a function that returns nothing. */
#define GOBLIN_PE_IMAGE_SYM_TYPE_VOID 1
/* A symbol's base type: a character, a signed byte. */
#define GOBLIN_PE_IMAGE_SYM_TYPE_CHAR 2
/* A symbol's base type: a signed number of 2 bytes. */
#define GOBLIN_PE_IMAGE_SYM_TYPE_SHORT 3
/* A symbol's base type: a number of the machine's natural size. */
#define GOBLIN_PE_IMAGE_SYM_TYPE_INT 4
/* A symbol's base type: a signed number of 4 bytes. */
#define GOBLIN_PE_IMAGE_SYM_TYPE_LONG 5
/* A symbol's base type: a floating-point number of 4 bytes. */
#define GOBLIN_PE_IMAGE_SYM_TYPE_FLOAT 6
/* A symbol's base type: a floating-point number of 8 bytes. */
#define GOBLIN_PE_IMAGE_SYM_TYPE_DOUBLE 7
/* A symbol's base type: a structure. */
#define GOBLIN_PE_IMAGE_SYM_TYPE_STRUCT 8
/* A symbol's base type: a union. */
#define GOBLIN_PE_IMAGE_SYM_TYPE_UNION 9
/* A symbol's base type: an enumeration. */
#define GOBLIN_PE_IMAGE_SYM_TYPE_ENUM 10
/* A symbol's base type: a member of an enumeration. */
#define GOBLIN_PE_IMAGE_SYM_TYPE_MOE 11
/* A symbol's base type: an unsigned byte. */
#define GOBLIN_PE_IMAGE_SYM_TYPE_BYTE 12
/* A symbol's base type: an unsigned number of 2 bytes. */
#define GOBLIN_PE_IMAGE_SYM_TYPE_WORD 13
/* A symbol's base type: an unsigned number of the machine's natural size. */
#define GOBLIN_PE_IMAGE_SYM_TYPE_UINT 14
/* A symbol's base type: an unsigned number of 4 bytes. */
#define GOBLIN_PE_IMAGE_SYM_TYPE_DWORD 15
/* The bits of a symbol's type that are its base type. */
#define GOBLIN_PE_IMAGE_SYM_TYPE_MASK 15
/* How many bits of a symbol's type are below its derived type. */
#define GOBLIN_PE_IMAGE_SYM_DTYPE_SHIFT 4
/* A symbol's derived type: none. */
#define GOBLIN_PE_IMAGE_SYM_DTYPE_NULL 0
/* A symbol's derived type: a pointer to the base type. */
#define GOBLIN_PE_IMAGE_SYM_DTYPE_POINTER 1
/* A symbol's derived type: a function that returns the base type. */
#define GOBLIN_PE_IMAGE_SYM_DTYPE_FUNCTION 2
/* A symbol's derived type: an array of the base type. */
#define GOBLIN_PE_IMAGE_SYM_DTYPE_ARRAY 3
/* A symbol's class: none. */
#define GOBLIN_PE_IMAGE_SYM_CLASS_NULL 0
/* A symbol's class: a variable on the stack. */
#define GOBLIN_PE_IMAGE_SYM_CLASS_AUTOMATIC 1
/* A symbol's class: visible to other files. */
#define GOBLIN_PE_IMAGE_SYM_CLASS_EXTERNAL 2
/* A symbol's class: visible only in its own file; with the value 0 it may represent a section. */
#define GOBLIN_PE_IMAGE_SYM_CLASS_STATIC 3
/* A symbol's class: a variable in a register. */
#define GOBLIN_PE_IMAGE_SYM_CLASS_REGISTER 4
/* A symbol's class: defined elsewhere. */
#define GOBLIN_PE_IMAGE_SYM_CLASS_EXTERNAL_DEF 5
/* A symbol's class: a label. */
#define GOBLIN_PE_IMAGE_SYM_CLASS_LABEL 6
/* A symbol's class: a label that is not defined. */
#define GOBLIN_PE_IMAGE_SYM_CLASS_UNDEFINED_LABEL 7
/* A symbol's class: a member of a structure. */
#define GOBLIN_PE_IMAGE_SYM_CLASS_MEMBER_OF_STRUCT 8
/* A symbol's class: a function's argument. */
#define GOBLIN_PE_IMAGE_SYM_CLASS_ARGUMENT 9
/* A symbol's class: a structure's name. */
#define GOBLIN_PE_IMAGE_SYM_CLASS_STRUCT_TAG 10
/* A symbol's class: a member of a union. */
#define GOBLIN_PE_IMAGE_SYM_CLASS_MEMBER_OF_UNION 11
/* A symbol's class: a union's name. */
#define GOBLIN_PE_IMAGE_SYM_CLASS_UNION_TAG 12
/* A symbol's class: a type's name. */
#define GOBLIN_PE_IMAGE_SYM_CLASS_TYPE_DEFINITION 13
/* A symbol's class: static data that is not defined. */
#define GOBLIN_PE_IMAGE_SYM_CLASS_UNDEFINED_STATIC 14
/* A symbol's class: an enumeration's name. */
#define GOBLIN_PE_IMAGE_SYM_CLASS_ENUM_TAG 15
/* A symbol's class: a member of an enumeration. */
#define GOBLIN_PE_IMAGE_SYM_CLASS_MEMBER_OF_ENUM 16
/* A symbol's class: an argument in a register. */
#define GOBLIN_PE_IMAGE_SYM_CLASS_REGISTER_PARAM 17
/* A symbol's class: a bit field. */
#define GOBLIN_PE_IMAGE_SYM_CLASS_BIT_FIELD 18
/* A symbol's class: the start or the end of a block. */
#define GOBLIN_PE_IMAGE_SYM_CLASS_BLOCK 100
/* A symbol's class: the start or the end of a function, or its number of lines. */
#define GOBLIN_PE_IMAGE_SYM_CLASS_FUNCTION 101
/* A symbol's class: the end of a structure. */
#define GOBLIN_PE_IMAGE_SYM_CLASS_END_OF_STRUCT 102
/* A symbol's class: a source file, whose name is in the records that follow it. */
#define GOBLIN_PE_IMAGE_SYM_CLASS_FILE 103
/* A symbol's class: a section. */
#define GOBLIN_PE_IMAGE_SYM_CLASS_SECTION 104
/* A symbol's class: defined elsewhere; if it is not found, another symbol replaces it. */
#define GOBLIN_PE_IMAGE_SYM_CLASS_WEAK_EXTERNAL 105
/* A symbol's class: a token of the common language runtime. */
#define GOBLIN_PE_IMAGE_SYM_CLASS_CLR_TOKEN 107
/* A symbol's class: the end of a function. */
#define GOBLIN_PE_IMAGE_SYM_CLASS_END_OF_FUNCTION 255
/* Where a weak symbol is looked for: not in libraries. */
#define GOBLIN_PE_IMAGE_WEAK_EXTERN_SEARCH_NOLIBRARY 1u
/* Where a weak symbol is looked for: in libraries too. */
#define GOBLIN_PE_IMAGE_WEAK_EXTERN_SEARCH_LIBRARY 2u
/* Where a weak symbol is looked for: nowhere; it is an alias of the other symbol. */
#define GOBLIN_PE_IMAGE_WEAK_EXTERN_SEARCH_ALIAS 3u
/* Which of several COMDAT sections is kept: only one may exist. */
#define GOBLIN_PE_IMAGE_COMDAT_SELECT_NODUPLICATES 1
/* Which of several COMDAT sections is kept: any. */
#define GOBLIN_PE_IMAGE_COMDAT_SELECT_ANY 2
/* Which of several COMDAT sections is kept: any, and all must have one size. */
#define GOBLIN_PE_IMAGE_COMDAT_SELECT_SAME_SIZE 3
/* Which of several COMDAT sections is kept: any, and all must be equal. */
#define GOBLIN_PE_IMAGE_COMDAT_SELECT_EXACT_MATCH 4
/* Which of several COMDAT sections is kept: this one if the section that it is associated with is
   kept. */
#define GOBLIN_PE_IMAGE_COMDAT_SELECT_ASSOCIATIVE 5
/* Which of several COMDAT sections is kept: the largest. */
#define GOBLIN_PE_IMAGE_COMDAT_SELECT_LARGEST 6

/* The types of relocations, by the machine, and those of base relocations.

   Source: PE Format, "Type Indicators" and "Base Relocation Types". */
/* x86: nothing is changed. */
#define GOBLIN_PE_IMAGE_REL_I386_ABSOLUTE 0x00
/* x86: the target's address, 16 bits; not supported. */
#define GOBLIN_PE_IMAGE_REL_I386_DIR16 0x01
/* x86: the distance to the target, 16 bits; not supported. */
#define GOBLIN_PE_IMAGE_REL_I386_REL16 0x02
/* x86: the target's address, 32 bits. */
#define GOBLIN_PE_IMAGE_REL_I386_DIR32 0x06
/* x86: the target's address relative to the image's base, 32 bits. */
#define GOBLIN_PE_IMAGE_REL_I386_DIR32NB 0x07
/* x86: a segment's selector; not supported. */
#define GOBLIN_PE_IMAGE_REL_I386_SEG12 0x09
/* x86: the index of the target's section, 16 bits. */
#define GOBLIN_PE_IMAGE_REL_I386_SECTION 0x0A
/* x86: the target's offset from its section's start, 32 bits. */
#define GOBLIN_PE_IMAGE_REL_I386_SECREL 0x0B
/* x86: a token of the common language runtime. */
#define GOBLIN_PE_IMAGE_REL_I386_TOKEN 0x0C
/* x86: the target's offset from its section's start, 7 bits. */
#define GOBLIN_PE_IMAGE_REL_I386_SECREL7 0x0D
/* x86: the distance to the target, 32 bits. */
#define GOBLIN_PE_IMAGE_REL_I386_REL32 0x14
/* x86-64: nothing is changed. */
#define GOBLIN_PE_IMAGE_REL_AMD64_ABSOLUTE 0x00
/* x86-64: the target's address, 64 bits. */
#define GOBLIN_PE_IMAGE_REL_AMD64_ADDR64 0x01
/* x86-64: the target's address, 32 bits. */
#define GOBLIN_PE_IMAGE_REL_AMD64_ADDR32 0x02
/* x86-64: the target's address relative to the image's base, 32 bits. */
#define GOBLIN_PE_IMAGE_REL_AMD64_ADDR32NB 0x03
/* x86-64: the distance to the target from the byte after the field, 32 bits. */
#define GOBLIN_PE_IMAGE_REL_AMD64_REL32 0x04
/* x86-64: as `IMAGE_REL_AMD64_REL32`, from 1 byte further on. */
#define GOBLIN_PE_IMAGE_REL_AMD64_REL32_1 0x05
/* x86-64: as `IMAGE_REL_AMD64_REL32`, from 2 bytes further on. */
#define GOBLIN_PE_IMAGE_REL_AMD64_REL32_2 0x06
/* x86-64: as `IMAGE_REL_AMD64_REL32`, from 3 bytes further on. */
#define GOBLIN_PE_IMAGE_REL_AMD64_REL32_3 0x07
/* x86-64: as `IMAGE_REL_AMD64_REL32`, from 4 bytes further on. */
#define GOBLIN_PE_IMAGE_REL_AMD64_REL32_4 0x08
/* x86-64: as `IMAGE_REL_AMD64_REL32`, from 5 bytes further on. */
#define GOBLIN_PE_IMAGE_REL_AMD64_REL32_5 0x09
/* x86-64: the index of the target's section, 16 bits. */
#define GOBLIN_PE_IMAGE_REL_AMD64_SECTION 0x0A
/* x86-64: the target's offset from its section's start, 32 bits. */
#define GOBLIN_PE_IMAGE_REL_AMD64_SECREL 0x0B
/* x86-64: the target's offset from its section's start, 7 bits. */
#define GOBLIN_PE_IMAGE_REL_AMD64_SECREL7 0x0C
/* x86-64: a token of the common language runtime. */
#define GOBLIN_PE_IMAGE_REL_AMD64_TOKEN 0x0D
/* x86-64: a signed value that depends on a span, 32 bits. */
#define GOBLIN_PE_IMAGE_REL_AMD64_SREL32 0x0E
/* x86-64: the second half of a value that depends on a span, right after it. */
#define GOBLIN_PE_IMAGE_REL_AMD64_PAIR 0x0F
/* x86-64: a signed value that depends on a span and is applied by the linker, 32 bits. */
#define GOBLIN_PE_IMAGE_REL_AMD64_SSPAN32 0x10
/* ARM: nothing is changed. */
#define GOBLIN_PE_IMAGE_REL_ARM_ABSOLUTE 0x00
/* ARM: the target's address, 32 bits. */
#define GOBLIN_PE_IMAGE_REL_ARM_ADDR 0x01
/* ARM: the target's address relative to the image's base, 32 bits. */
#define GOBLIN_PE_IMAGE_REL_ARM_ADDR32NB 0x02
/* ARM: the distance of a branch, 24 bits. */
#define GOBLIN_PE_IMAGE_REL_ARM_BRANCH24 0x03
/* ARM: the distance of a branch in two instructions, 11 bits each. */
#define GOBLIN_PE_IMAGE_REL_ARM_BRANCH11 0x04
/* ARM: a token of the common language runtime. */
#define GOBLIN_PE_IMAGE_REL_ARM_TOKEN 0x05
/* ARM: an offset from the global pointer, 12 bits. */
#define GOBLIN_PE_IMAGE_REL_ARM_GPREL12 0x06
/* ARM: an offset from the global pointer, 7 bits. */
#define GOBLIN_PE_IMAGE_REL_ARM_GPREL7 0x07
/* ARM: the distance of a branch that may switch to Thumb, 24 bits. */
#define GOBLIN_PE_IMAGE_REL_ARM_BLX24 0x08
/* ARM: the distance of a branch that may switch from Thumb, 11 bits. */
#define GOBLIN_PE_IMAGE_REL_ARM_BLX11 0x09
/* ARM: the distance to the target from the byte after the field, 32 bits. */
#define GOBLIN_PE_IMAGE_REL_ARM_REL32 0x0A
/* ARM: the index of the target's section, 16 bits. */
#define GOBLIN_PE_IMAGE_REL_ARM_SECTION 0x0E
/* ARM: the target's offset from its section's start, 32 bits. */
#define GOBLIN_PE_IMAGE_REL_ARM_SECREL 0x0F
/* ARM: the target's address in two moves of 16 bits. */
#define GOBLIN_PE_IMAGE_REL_ARM_MOV32A 0x10
/* ARM: the target's address in two Thumb moves of 16 bits. */
#define GOBLIN_PE_IMAGE_REL_ARM_MOV32T 0x11
/* ARM: the distance of a conditional Thumb branch, 20 bits. */
#define GOBLIN_PE_IMAGE_REL_ARM_BRANCH20T 0x12
/* ARM: the distance of a Thumb branch, 24 bits. */
#define GOBLIN_PE_IMAGE_REL_ARM_BRANCH24T 0x14
/* ARM: the distance of a Thumb call, 23 bits. */
#define GOBLIN_PE_IMAGE_REL_ARM_BLX23T 0x15
/* ARM: the second half of a pair of relocations, whose symbol index is a displacement. */
#define GOBLIN_PE_IMAGE_REL_ARM_PAIR 0x16
/* ARM64: nothing is changed. */
#define GOBLIN_PE_IMAGE_REL_ARM64_ABSOLUTE 0x00
/* ARM64: the target's address, 32 bits. */
#define GOBLIN_PE_IMAGE_REL_ARM64_ADDR32 0x01
/* ARM64: the target's address relative to the image's base, 32 bits. */
#define GOBLIN_PE_IMAGE_REL_ARM64_ADDR32NB 0x02
/* ARM64: the distance of a branch, 26 bits. */
#define GOBLIN_PE_IMAGE_REL_ARM64_BRANCH26 0x03
/* ARM64: the distance to the target's page, 21 bits. */
#define GOBLIN_PE_IMAGE_REL_ARM64_PAGEBASE_REL21 0x04
/* ARM64: the distance to the target, 21 bits. */
#define GOBLIN_PE_IMAGE_REL_ARM64_REL21 0x05
/* ARM64: the target's offset in its page, 12 bits of an addition. */
#define GOBLIN_PE_IMAGE_REL_ARM64_PAGEOFFSET_12A 0x06
/* ARM64: the target's offset in its page, 12 bits of a load or a store. */
#define GOBLIN_PE_IMAGE_REL_ARM64_PAGEOFFSET_12L 0x07
/* ARM64: the target's offset from its section's start, 32 bits. */
#define GOBLIN_PE_IMAGE_REL_ARM64_SECREL 0x08
/* ARM64: the low 12 bits of the target's offset from its section's start, of an addition. */
#define GOBLIN_PE_IMAGE_REL_ARM64_SECREL_LOW12A 0x09
/* ARM64: bits 12 to 23 of the target's offset from its section's start, of an addition. */
#define GOBLIN_PE_IMAGE_REL_ARM64_SECREL_HIGH12A 0x0A
/* ARM64: the low 12 bits of the target's offset from its section's start, of a load or a store. */
#define GOBLIN_PE_IMAGE_REL_ARM64_SECREL_LOW12L 0x0B
/* ARM64: a token of the common language runtime. */
#define GOBLIN_PE_IMAGE_REL_ARM64_TOKEN 0x0C
/* ARM64: the index of the target's section, 16 bits. */
#define GOBLIN_PE_IMAGE_REL_ARM64_SECTION 0x0D
/* ARM64: the target's address, 64 bits. */
#define GOBLIN_PE_IMAGE_REL_ARM64_ADDR64 0x0E
/* ARM64: the distance of a conditional branch, 19 bits. */
#define GOBLIN_PE_IMAGE_REL_ARM64_BRANCH19 0x0F
/* ARM64: the distance of a branch that tests a bit, 14 bits. */
#define GOBLIN_PE_IMAGE_REL_ARM64_BRANCH14 0x10
/* ARM64: the distance to the target from the byte after the field, 32 bits. */
#define GOBLIN_PE_IMAGE_REL_ARM64_REL32 0x11
/* Itanium: nothing is changed. */
#define GOBLIN_PE_IMAGE_REL_IA64_ABSOLUTE 0x00
/* Itanium: an immediate of 14 bits. */
#define GOBLIN_PE_IMAGE_REL_IA64_IMM14 0x01
/* Itanium: an immediate of 22 bits. */
#define GOBLIN_PE_IMAGE_REL_IA64_IMM22 0x02
/* Itanium: an immediate of 64 bits. */
#define GOBLIN_PE_IMAGE_REL_IA64_IMM64 0x03
/* Itanium: the target's address, 32 bits. */
#define GOBLIN_PE_IMAGE_REL_IA64_DIR 0x04
/* Itanium: the target's address, 64 bits. */
#define GOBLIN_PE_IMAGE_REL_IA64_DIR64 0x05
/* Itanium: the distance of a branch in a bundle, 21 bits. */
#define GOBLIN_PE_IMAGE_REL_IA64_PCREL21B 0x06
/* Itanium: the distance of a branch in a memory instruction, 21 bits. */
#define GOBLIN_PE_IMAGE_REL_IA64_PCREL21M 0x07
/* Itanium: the distance of a branch in a floating-point instruction, 21 bits. */
#define GOBLIN_PE_IMAGE_REL_IA64_PCREL21F 0x08
/* Itanium: an offset from the global pointer, 22 bits. */
#define GOBLIN_PE_IMAGE_REL_IA64_GPREL22 0x09
/* Itanium: the offset of the target's linkage table entry from the global pointer, 22 bits. */
#define GOBLIN_PE_IMAGE_REL_IA64_LTOFF22 0x0A
/* Itanium: the index of the target's section, 16 bits. */
#define GOBLIN_PE_IMAGE_REL_IA64_SECTION 0x0B
/* Itanium: the target's offset from its section's start, 22 bits. */
#define GOBLIN_PE_IMAGE_REL_IA64_SECREL22 0x0C
/* Itanium: the target's offset from its section's start, an immediate of 64 bits. */
#define GOBLIN_PE_IMAGE_REL_IA64_SECREL64I 0x0D
/* Itanium: the target's offset from its section's start, 32 bits. */
#define GOBLIN_PE_IMAGE_REL_IA64_SECREL 0x0E
/* Itanium: the offset of the target's linkage table entry from the global pointer, 64 bits. */
#define GOBLIN_PE_IMAGE_REL_IA64_LTOFF64 0x0F
/* Itanium: the target's address relative to the image's base, 32 bits. */
#define GOBLIN_PE_IMAGE_REL_IA64_DIR32NB 0x10
/* Itanium: a signed immediate of 14 bits, the difference of two targets. */
#define GOBLIN_PE_IMAGE_REL_IA64_SREL14 0x11
/* Itanium: a signed immediate of 22 bits, the difference of two targets. */
#define GOBLIN_PE_IMAGE_REL_IA64_SREL22 0x12
/* Itanium: a signed value of 32 bits, the difference of two targets. */
#define GOBLIN_PE_IMAGE_REL_IA64_SREL32 0x13
/* Itanium: an unsigned value of 32 bits, the difference of two targets. */
#define GOBLIN_PE_IMAGE_REL_IA64_UREL32 0x14
/* Itanium: the distance of a branch, 60 bits; the branch stays a long one. */
#define GOBLIN_PE_IMAGE_REL_IA64_PCREL60X 0x15
/* Itanium: the distance of a branch, 60 bits; if 25 bits suffice, its bundle becomes an MBB one. */
#define GOBLIN_PE_IMAGE_REL_IA64_PCREL60B 0x16
/* Itanium: the distance of a branch, 60 bits; if 25 bits suffice, its bundle becomes an MFB one. */
#define GOBLIN_PE_IMAGE_REL_IA64_PCREL60F 0x17
/* Itanium: the distance of a branch, 60 bits; if 25 bits suffice, its bundle becomes an MIB one. */
#define GOBLIN_PE_IMAGE_REL_IA64_PCREL60I 0x18
/* Itanium: the distance of a branch, 60 bits; if 25 bits suffice, its bundle becomes an MMB one. */
#define GOBLIN_PE_IMAGE_REL_IA64_PCREL60M 0x19
/* Itanium: an offset from the global pointer, an immediate of 64 bits. */
#define GOBLIN_PE_IMAGE_REL_IA64_IMMGPREL64 0x1A
/* Itanium: a token of the common language runtime. */
#define GOBLIN_PE_IMAGE_REL_IA64_TOKEN 0x1B
/* Itanium: an offset from the global pointer, 32 bits. */
#define GOBLIN_PE_IMAGE_REL_IA64_GPREL32 0x1C
/* Itanium: a number to be added to the relocation before it. */
#define GOBLIN_PE_IMAGE_REL_IA64_ADDEND 0x1F
/* Base relocation: nothing is changed; it fills a block up to a multiple of four bytes. */
#define GOBLIN_PE_IMAGE_REL_BASED_ABSOLUTE 0x00
/* Base relocation: the high half of a 32-bit address. */
#define GOBLIN_PE_IMAGE_REL_BASED_HIGH 0x01
/* Base relocation: the low half of a 32-bit address. */
#define GOBLIN_PE_IMAGE_REL_BASED_LOW 0x02
/* Base relocation: a 32-bit address. */
#define GOBLIN_PE_IMAGE_REL_BASED_HIGHLOW 0x03
/* Base relocation: the high half of a 32-bit address whose low half is in the next word. */
#define GOBLIN_PE_IMAGE_REL_BASED_HIGHADJ 0x04
/* Base relocation: a MIPS jump. */
#define GOBLIN_PE_IMAGE_REL_BASED_MIPS_JMPADDR 0x05
/* Base relocation: a 32-bit address in two ARM moves. */
#define GOBLIN_PE_IMAGE_REL_BASED_ARM_MOV32A 0x05
/* Base relocation: a 32-bit address in two ARM moves. */
#define GOBLIN_PE_IMAGE_REL_BASED_ARM_MOV32 0x05
/* Base relocation: the index of a section; reserved. */
#define GOBLIN_PE_IMAGE_REL_BASED_SECTION 0x06
/* Base relocation: a relative address; reserved. */
#define GOBLIN_PE_IMAGE_REL_BASED_REL 0x07
/* Base relocation: a 32-bit address in two Thumb moves. */
#define GOBLIN_PE_IMAGE_REL_BASED_ARM_MOV32T 0x07
/* Base relocation: a 32-bit address in two Thumb moves. */
#define GOBLIN_PE_IMAGE_REL_BASED_THUMB_MOV32 0x07
/* Base relocation: a MIPS16 jump. */
#define GOBLIN_PE_IMAGE_REL_BASED_MIPS_JMPADDR16 0x09
/* Base relocation: a 64-bit immediate of Itanium. */
#define GOBLIN_PE_IMAGE_REL_BASED_IA64_IMM64 0x09
/* Base relocation: a 64-bit address. */
#define GOBLIN_PE_IMAGE_REL_BASED_DIR64 0x0A
/* Base relocation: the top 16 bits of a 48-bit address. */
#define GOBLIN_PE_IMAGE_REL_BASED_HIGH3ADJ 0x0B

/* The sizes of records, in bytes, and offsets in them. */
/* The size of a COFF header, in bytes. */
#define GOBLIN_PE_SIZEOF_COFF_HEADER 20
/* The size of the standard fields for 32 bits, in bytes. */
#define GOBLIN_PE_SIZEOF_STANDARD_FIELDS_32 28
/* The size of the standard fields for 64 bits, in bytes. */
#define GOBLIN_PE_SIZEOF_STANDARD_FIELDS_64 24
/* The size of the Windows fields for 32 bits, in bytes. */
#define GOBLIN_PE_SIZEOF_WINDOWS_FIELDS_32 68
/* The size of the Windows fields for 64 bits, in bytes. */
#define GOBLIN_PE_SIZEOF_WINDOWS_FIELDS_64 88
/* The offset of the checksum in the Windows fields for 32 bits, in bytes from their front. */
#define GOBLIN_PE_OFFSET_WINDOWS_FIELDS_32_CHECKSUM 36
/* The offset of the checksum in the Windows fields for 64 bits, in bytes from their front. */
#define GOBLIN_PE_OFFSET_WINDOWS_FIELDS_64_CHECKSUM 40
/* The size of the signature of a PE header, in bytes. */
#define GOBLIN_PE_SIZEOF_PE_MAGIC 4
/* The offset, in the DOS header, of the field with the file offset of the PE signature. */
#define GOBLIN_PE_PE_POINTER_OFFSET 0x3Cu
/* The file offset at which the DOS stub begins, just past the DOS header. */
#define GOBLIN_PE_DOS_STUB_OFFSET 0x40u
/* The size of a data directory's record, in bytes. */
#define GOBLIN_PE_SIZEOF_DATA_DIRECTORY 8
/* How many entries the table of data directories has. */
#define GOBLIN_PE_NUM_DATA_DIRECTORIES 16
/* The size of a section header, in bytes. */
#define GOBLIN_PE_SIZEOF_SECTION_TABLE 40
/* The size of a record of the symbol table, in bytes. */
#define GOBLIN_PE_COFF_SYMBOL_SIZE 18
/* The size of a relocation of a COFF object, in bytes. */
#define GOBLIN_PE_COFF_RELOCATION_SIZE 10
/* The size of an import descriptor, in bytes. */
#define GOBLIN_PE_SIZEOF_IMPORT_DIRECTORY_ENTRY 20
/* The size of an export directory's record, in bytes. */
#define GOBLIN_PE_SIZEOF_EXPORT_DIRECTORY_TABLE 40
/* The size of an entry of the export address table, in bytes. */
#define GOBLIN_PE_SIZEOF_EXPORT_ADDRESS_TABLE_ENTRY 4
/* The size of the header of a base relocation block, in bytes. */
#define GOBLIN_PE_RELOCATION_BLOCK_SIZE 8

#endif
