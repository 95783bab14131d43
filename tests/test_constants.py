"""The constants of goblin: their names, types, numbers and modules, in the crates and in the packages."""
import re
import unittest

from tests.bindings import BINDINGS
from tests.programs import CRATES

# Each row has the module that exports the constants, their type, the base of their numbers, the beginning of their names, and
# the rest of each name with its number.
CONSTANTS = [
    ("data_directories", "usize", 10, "SIZEOF_", "DATA_DIRECTORY 8"),
    ("export", "usize", 10, "SIZEOF_EXPORT_", "DIRECTORY_TABLE 40 ADDRESS_TABLE_ENTRY 4"),
    ("header", "usize", 10, "", """SIZEOF_COFF_HEADER 20 SIZEOF_PE_MAGIC 4 DANS_MARKER_SIZE 4
        RICH_MARKER_SIZE 4"""),
    ("import", "usize", 10, "SIZEOF_", "IMPORT_DIRECTORY_ENTRY 20"),
    ("optional_header", "usize", 10, "SIZEOF_STANDARD_FIELDS_", "32 28 64 24"),
    ("optional_header", "usize", 10, "SIZEOF_WINDOWS_FIELDS_", "32 68 64 88"),
    ("optional_header", "usize", 10, "OFFSET_WINDOWS_FIELDS_", "32_CHECKSUM 36 64_CHECKSUM 40"),
    ("relocation", "usize", 10, "", "COFF_RELOCATION_SIZE 10 RELOCATION_BLOCK_SIZE 8"),
    ("section_table", "usize", 10, "SIZEOF_", "SECTION_TABLE 40"),
    ("symbol", "usize", 10, "", "COFF_SYMBOL_SIZE 18 IMAGE_SYM_DTYPE_SHIFT 4"),
    ("header", "u16", 16, "", "DOS_MAGIC 5A4D TE_MAGIC 5A56"),
    ("header", "u32", 16, "", "PE_POINTER_OFFSET 3C DOS_STUB_OFFSET 40 PE_MAGIC 4550"),
    ("header", "u32", 16, "", "DANS_MARKER 536E6144 RICH_MARKER 68636952"),
    ("optional_header", "u16", 16, "", "MAGIC_32 10B MAGIC_64 20B"),
    ("optional_header", "u16", 16, "IMAGE_", """NT_OPTIONAL_HDR32_MAGIC 10B NT_OPTIONAL_HDR64_MAGIC 20B
        ROM_OPTIONAL_HDR_MAGIC 107"""),
    ("import", "u32", 16, "IMPORT_", "BY_ORDINAL_32 80000000 RVA_MASK_32 7FFFFFFF"),
    ("import", "u64", 16, "IMPORT_", "BY_ORDINAL_64 8000000000000000 RVA_MASK_64 7FFFFFFF"),
    ("header", "u16", 16, "COFF_MACHINE_", """UNKNOWN 0 ALPHA 184 ALPHA64 284 AM33 1D3 X86_64 8664 ARM 1C0
        ARM64 AA64 ARMNT 1C4 EBC EBC X86 14C IA64 200 LOONGARCH32 6232 LOONGARCH64 6264 M32R 9041 MIPS16 266
        MIPSFPU 366 MIPSFPU16 466 POWERPC 1F0 POWERPCFP 1F1 R4000 166 RISCV32 5032 RISCV64 5064 RISCV128 5128
        SH3 1A2 SH3DSP 1A3 SH4 1A6 SH5 1A8 THUMB 1C2 WCEMIPSV2 169"""),
    ("relocation", "u16", 16, "IMAGE_REL_I386_", """ABSOLUTE 0 DIR16 1 REL16 2 DIR32 6 DIR32NB 7 SEG12 9
        SECTION A SECREL B TOKEN C SECREL7 D REL32 14"""),
    ("relocation", "u16", 16, "IMAGE_REL_AMD64_", """ABSOLUTE 0 ADDR64 1 ADDR32 2 ADDR32NB 3 REL32 4 REL32_1 5
        REL32_2 6 REL32_3 7 REL32_4 8 REL32_5 9 SECTION A SECREL B SECREL7 C TOKEN D SREL32 E PAIR F
        SSPAN32 10"""),
    ("relocation", "u16", 16, "IMAGE_REL_ARM_", """ABSOLUTE 0 ADDR 1 ADDR32NB 2 BRANCH24 3 BRANCH11 4 TOKEN 5
        GPREL12 6 GPREL7 7 BLX24 8 BLX11 9 SECTION E SECREL F MOV32A 10 MOV32T 11 BRANCH20T 12 BRANCH24T 14
        BLX23T 15"""),
    ("relocation", "u16", 16, "IMAGE_REL_ARM64_", """ABSOLUTE 0 ADDR32 1 ADDR32NB 2 BRANCH26 3
        PAGEBASE_REL21 4 REL21 5 PAGEOFFSET_12A 6 PAGEOFFSET_12L 7 SECREL 8 SECREL_LOW12A 9 SECREL_HIGH12A A
        SECREL_LOW12L B TOKEN C SECTION D ADDR64 E BRANCH19 F"""),
    ("relocation", "u16", 16, "IMAGE_REL_", "ARM_REL32 A ARM_PAIR 16 ARM64_BRANCH14 10 ARM64_REL32 11"),  # not in goblin
    ("relocation", "u16", 16, "IMAGE_REL_IA64_", """ABSOLUTE 0 IMM14 1 IMM22 2 IMM64 3 DIR 4 DIR64 5
        PCREL21B 6 PCREL21M 7 PCREL21F 8 GPREL22 9 LTOFF22 A SECTION B SECREL22 C SECREL64I D SECREL E
        LTOFF64 F DIR32NB 10 SREL14 11 SREL22 12 SREL32 13 UREL32 14 PCREL60X 15 PCREL60B 16 PCREL60F 17
        PCREL60I 18 PCREL60M 19 IMMGPREL64 1A TOKEN 1B GPREL32 1C ADDEND 1F"""),
    ("relocation", "u16", 16, "IMAGE_REL_BASED_", """ABSOLUTE 0 HIGH 1 LOW 2 HIGHLOW 3 HIGHADJ 4
        MIPS_JMPADDR 5 ARM_MOV32A 5 ARM_MOV32 5 SECTION 6 REL 7 ARM_MOV32T 7 THUMB_MOV32 7 MIPS_JMPADDR16 9
        IA64_IMM64 9 DIR64 A HIGH3ADJ B"""),
    ("section_table", "u32", 16, "IMAGE_SCN_", """TYPE_NO_PAD 8 CNT_CODE 20 CNT_INITIALIZED_DATA 40
        CNT_UNINITIALIZED_DATA 80 LNK_OTHER 100 LNK_INFO 200 LNK_REMOVE 800 LNK_COMDAT 1000 GPREL 8000
        MEM_PURGEABLE 20000 MEM_16BIT 20000 MEM_LOCKED 40000 MEM_PRELOAD 80000 ALIGN_1BYTES 100000
        ALIGN_2BYTES 200000 ALIGN_4BYTES 300000 ALIGN_8BYTES 400000 ALIGN_16BYTES 500000 ALIGN_32BYTES 600000
        ALIGN_64BYTES 700000 ALIGN_128BYTES 800000 ALIGN_256BYTES 900000 ALIGN_512BYTES A00000
        ALIGN_1024BYTES B00000 ALIGN_2048BYTES C00000 ALIGN_4096BYTES D00000 ALIGN_8192BYTES E00000
        ALIGN_MASK F00000 LNK_NRELOC_OVFL 1000000 MEM_DISCARDABLE 2000000 MEM_NOT_CACHED 4000000
        MEM_NOT_PAGED 8000000 MEM_SHARED 10000000 MEM_EXECUTE 20000000 MEM_READ 40000000 MEM_WRITE 80000000"""),
    ("symbol", "i16", 10, "IMAGE_SYM_", "UNDEFINED 0 ABSOLUTE -1 DEBUG -2"),
    ("symbol", "u16", 10, "IMAGE_SYM_TYPE_", """NULL 0 VOID 1 CHAR 2 SHORT 3 INT 4 LONG 5 FLOAT 6 DOUBLE 7
        STRUCT 8 UNION 9 ENUM 10 MOE 11 BYTE 12 WORD 13 UINT 14 DWORD 15 MASK 15"""),
    ("symbol", "u16", 10, "IMAGE_SYM_DTYPE_", "NULL 0 POINTER 1 FUNCTION 2 ARRAY 3"),
    ("symbol", "u8", 10, "IMAGE_SYM_CLASS_", """NULL 0 AUTOMATIC 1 EXTERNAL 2 STATIC 3 REGISTER 4
        EXTERNAL_DEF 5 LABEL 6 UNDEFINED_LABEL 7 MEMBER_OF_STRUCT 8 ARGUMENT 9 STRUCT_TAG 10
        MEMBER_OF_UNION 11 UNION_TAG 12 TYPE_DEFINITION 13 UNDEFINED_STATIC 14 ENUM_TAG 15 MEMBER_OF_ENUM 16
        REGISTER_PARAM 17 BIT_FIELD 18 BLOCK 100 FUNCTION 101 END_OF_STRUCT 102 FILE 103 SECTION 104
        WEAK_EXTERNAL 105 CLR_TOKEN 107 END_OF_FUNCTION 255"""),
    ("symbol", "u32", 10, "IMAGE_WEAK_EXTERN_SEARCH_", "NOLIBRARY 1 LIBRARY 2 ALIAS 3"),
    ("symbol", "u8", 10, "IMAGE_COMDAT_SELECT_", """NODUPLICATES 1 ANY 2 SAME_SIZE 3 EXACT_MATCH 4
        ASSOCIATIVE 5 LARGEST 6"""),
]
# The packages for C, Rust and Python leave these out: signatures and masks that only the readers need.
IN_RATTLE_ALONE = {"DANS_MARKER_SIZE", "RICH_MARKER_SIZE", "DOS_MAGIC", "TE_MAGIC", "PE_MAGIC", "DANS_MARKER", "RICH_MARKER",
                   "IMPORT_BY_ORDINAL_32", "IMPORT_RVA_MASK_32", "IMPORT_BY_ORDINAL_64", "IMPORT_RVA_MASK_64"}
# The form of a constant in each package.
PACKAGES = {"c/goblin_pe_constants.h": r"#define GOBLIN_PE_(\w+) \(?(-?\w+?)u?\)?$",
            "rust/src/constants.rs": r"pub const (\w+): \w+ = (-?\w+);$",
            "python/goblin_pe/constants.py": r"(\w+) = (-?\w+)$"}


def listed():
    """The name, type, number and module of each constant of the table."""
    for module, kind, base, beginning, rows in CONSTANTS:
        words = rows.split()
        for name, number in zip(words[::2], words[1::2]):
            yield beginning + name, kind, int(number, base), module


def exported(module):
    """The names that a module of goblin_pe declares or brings in by `pub use`; a crate below has the module."""
    crates = re.findall(r"(?s)pub use (\w+)::([^;]*);", (CRATES / "goblin_pe/src/lib.rt").read_text("utf-8"))
    crate, = [crate for crate, names in crates if module in re.findall(r"\w+", names)]
    text = (CRATES / f"{crate}/src/{module}.rt").read_text("utf-8")
    return set(re.findall(r"\w+", " ".join(re.findall(r"(?s)^pub (?:use .*?;|const \w+)", text, re.M))))


class Constants(unittest.TestCase):
    def test_as_many_as_goblin_has_and_four_of_the_standard(self):
        self.assertEqual((271, 271), (len(list(listed())), len({name for name, *_ in listed()})))

    def test_declared_once_and_in_the_module(self):
        declared = {}
        for path in CRATES.glob("goblin_*/src/**/*.rt"):
            for name, kind, number in re.findall(r"^pub const (\w+): (\w+) =\s+(-?\w+);", path.read_text("utf-8"), re.M):
                declared.setdefault(name, []).append((kind, int(number.replace("_", ""), 0)))
        modules = {module: exported(module) for module, *_ in CONSTANTS}
        for name, kind, number, module in listed():
            with self.subTest(name):
                self.assertEqual(declared.get(name), [(kind, number)])
                self.assertIn(name, modules[module])

    def test_in_each_package(self):
        for place, form in PACKAGES.items():
            rows = re.findall(form, (BINDINGS / place).read_text("utf-8"), re.M)
            numbers = {name: int(number.replace("_", ""), 0) for name, number in rows}
            wanted = {name: number for name, _, number, _ in listed() if name not in IN_RATTLE_ALONE}
            with self.subTest(place):
                self.assertEqual([name for name in wanted if numbers.get(name) != wanted[name]], [])
                self.assertFalse(IN_RATTLE_ALONE & set(numbers))
