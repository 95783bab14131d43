"""Headers, data directories, sections and Terse Executables: how the package for Python reads, refuses and writes files whose every
byte is known."""
import ctypes
import mmap
import struct
import tempfile
import unittest
import uuid

from tests import hostile
from tests.bindings import Walk, calls, error_of, image_of, options, package, records, refusal, test
from tests.images import DEFAULT_STUB, sample, with_parts
from tests.programs import BY_NAME, CC, IMAGES, SAMPLES, need


# The modes for which a row holds.
STRICT, PERMISSIVE = ("strict",), ("permissive",)
BOTH = STRICT + PERMISSIVE

# A small image for 32 bits.
SAMPLE = sample()

# The begin and the end of its section table.
TABLE, TABLE_END = 0x138, 0x160

# The sample with a section whose name is elsewhere in the file: at the name of the library.
NAMED_ELSEWHERE = with_parts(SAMPLE, (TABLE, b"/640\0\0\0\0"))


def short_file(*parts):
    """A file of 64 bytes with these parts."""
    return with_parts(bytes(64), (0, b"MZ"), *parts)


# A file whose PE signature is at 4, in the DOS header.
SIGNATURE_AT_4 = short_file((4, b"PE"), (0x3C, b"\x04"))

# The fields that the headers of the programs in samples/ share, as another tool shows them.
PROGRAM_STUB = b"\x0E\x1F\xBA\x0E\x00\xB4\x09\xCD\x21\xB8\x01\x4C\xCD\x21This program cannot be run in DOS mode.$\0\0"
PROGRAM_DOS = dict(signature=0x5A4D, bytes_on_last_page=120, pages_in_file=1, size_of_header_in_paragraphs=4,
                   file_address_of_relocation_table=64, pe_pointer=120)
PROGRAM_STANDARD = dict(major_linker_version=14, size_of_code=512, size_of_initialized_data=1536, address_of_entry_point=0x1020,
                        base_of_code=0x1000)
PROGRAM_WINDOWS = dict(section_alignment=4096, file_alignment=512, major_operating_system_version=6, major_subsystem_version=6,
                       size_of_image=20480, size_of_headers=1024, subsystem=3, size_of_stack_reserve=1_048_576, size_of_stack_commit=4096,
                       size_of_heap_reserve=1_048_576, size_of_heap_commit=4096, number_of_rva_and_sizes=16)

# Files, the modes, and the parts of their headers: the fields that are not zero, and the address and the size of each data
# directory, by its index.
HEADERS = (
    ("a small image for 32 bits", SAMPLE, BOTH, dict(
        dos_header=dict(signature=0x5A4D, pe_pointer=0x40), stub=b"", rich_header=None,
        coff_header=dict(machine=0x14C, number_of_sections=1, size_of_optional_header=0xE0, characteristics=0x102),
        standard_fields=dict(magic=0x10B), windows_fields=dict(file_alignment=0x200, number_of_rva_and_sizes=16),
        directories={0: (0x10A0, 0x60), 1: (0x1000, 0x28)})),
    ("a signature in the DOS header, before any stub", SIGNATURE_AT_4, PERMISSIVE, dict(
        dos_header=dict(signature=0x5A4D, pages_in_file=0x4550, pe_pointer=4), stub=DEFAULT_STUB, rich_header=None, coff_header={},
        standard_fields=None, windows_fields=None, directories={})),
    ("a program for 32 bits", (SAMPLES / "program_x86.exe").read_bytes(), STRICT, dict(
        dos_header=PROGRAM_DOS, stub=PROGRAM_STUB, rich_header=None,
        coff_header=dict(machine=0x14C, number_of_sections=4, size_of_optional_header=224, characteristics=0x102),
        standard_fields=PROGRAM_STANDARD | dict(magic=0x10B),
        windows_fields=PROGRAM_WINDOWS | dict(image_base=0x40_0000, dll_characteristics=0x8540),
        directories={0: (0x2004, 0x4D), 5: (0x4000, 0x20)})),
    ("a program for 64 bits", (SAMPLES / "program_x64.exe").read_bytes(), STRICT, dict(
        dos_header=PROGRAM_DOS, stub=PROGRAM_STUB, rich_header=None,
        coff_header=dict(machine=0x8664, number_of_sections=4, size_of_optional_header=240, characteristics=0x22),
        standard_fields=PROGRAM_STANDARD | dict(magic=0x20B),
        windows_fields=PROGRAM_WINDOWS | dict(image_base=0x1_4000_0000, dll_characteristics=0x8160),
        directories={0: (0x2004, 0x4D), 5: (0x4000, 0x10)})),
)

# Files that are refused, the modes, and why.
REFUSED = (
    ("the magic of a ROM image", with_parts(SAMPLE, (0x58, b"\x07\x01")), BOTH, ("BAD_MAGIC", None, 0x107, 0)),
    ("seventeen data directories", with_parts(SAMPLE, (0xB4, b"\x11")), BOTH, ("MALFORMED", "DIRECTORY_COUNT", 17, 0)),
    ("more sections than the file has room for", with_parts(SAMPLE, (0x46, b"\x14")), BOTH, ("TOO_SHORT", None, 20, 0)),
    ("sections past the end", with_parts(SAMPLE, (0x46, b"\x13")), BOTH, ("TOO_BIG", None, 0, 0)),
    ("a signature past the end", short_file((0x3C, b"\x3C\xFF")), BOTH, ("MALFORMED", "NO_PE_SIGNATURE", 0xFF3C, 0)),
    ("a signature in the DOS header", SIGNATURE_AT_4, STRICT, ("MALFORMED", "STUB_BEFORE_START", 4, 0)),
)

# Optional headers: the widths of the standard and of the Windows fields, and their values. The bytes of each kind go up from 1,
# beginning at the highest byte of a field, except for the magic and the number of directories.
FIELDS = (
    ("for 32 bits", (2, 1, 1, *[4] * 6), (*[4] * 3, *[2] * 6, *[4] * 4, 2, 2, *[4] * 6), dict(
        magic=0x10B, major_linker_version=0x03, minor_linker_version=0x04, size_of_code=0x0506_0708,
        size_of_initialized_data=0x090A_0B0C, size_of_uninitialized_data=0x0D0E_0F10, address_of_entry_point=0x1112_1314,
        base_of_code=0x1516_1718, base_of_data=0x191A_1B1C), dict(
        image_base=0x0102_0304, section_alignment=0x0506_0708, file_alignment=0x090A_0B0C, major_operating_system_version=0x0D0E,
        minor_operating_system_version=0x0F10, major_image_version=0x1112, minor_image_version=0x1314, major_subsystem_version=0x1516,
        minor_subsystem_version=0x1718, win32_version_value=0x191A_1B1C, size_of_image=0x1D1E_1F20, size_of_headers=0x2122_2324,
        check_sum=0x2526_2728, subsystem=0x292A, dll_characteristics=0x2B2C, size_of_stack_reserve=0x2D2E_2F30,
        size_of_stack_commit=0x3132_3334, size_of_heap_reserve=0x3536_3738, size_of_heap_commit=0x393A_3B3C, loader_flags=0x3D3E_3F40,
        number_of_rva_and_sizes=16)),
    ("for 64 bits", (2, 1, 1, *[4] * 5), (8, 4, 4, *[2] * 6, *[4] * 4, 2, 2, *[8] * 4, 4, 4), dict(
        magic=0x20B, major_linker_version=0x03, minor_linker_version=0x04, size_of_code=0x0506_0708,
        size_of_initialized_data=0x090A_0B0C, size_of_uninitialized_data=0x0D0E_0F10, address_of_entry_point=0x1112_1314,
        base_of_code=0x1516_1718, base_of_data=0), dict(
        image_base=0x0102_0304_0506_0708, section_alignment=0x090A_0B0C, file_alignment=0x0D0E_0F10,
        major_operating_system_version=0x1112, minor_operating_system_version=0x1314, major_image_version=0x1516,
        minor_image_version=0x1718, major_subsystem_version=0x191A, minor_subsystem_version=0x1B1C, win32_version_value=0x1D1E_1F20,
        size_of_image=0x2122_2324, size_of_headers=0x2526_2728, check_sum=0x292A_2B2C, subsystem=0x2D2E, dll_characteristics=0x2F30,
        size_of_stack_reserve=0x3132_3334_3536_3738, size_of_stack_commit=0x393A_3B3C_3D3E_3F40,
        size_of_heap_reserve=0x4142_4344_4546_4748, size_of_heap_commit=0x494A_4B4C_4D4E_4F50, loader_flags=0x5152_5354,
        number_of_rva_and_sizes=16)),
)


def rising(widths):
    """Fields of these widths. Their bytes go up from 1, beginning at the highest byte of each field, which is last in the file."""
    fields, first = b"", 1
    for width in widths:
        fields += bytes(range(first, first + width))[::-1]
        first += width
    return fields


def image(magic, fields, directories):
    """An image of headers alone, whose optional header has these fields and directories, but this magic, and sixteen as the number
    of directories."""
    fields = with_parts(fields, (0, struct.pack("<H", magic)), (len(fields) - 4, struct.pack("<I", 16)))
    size = struct.pack("<H", len(fields + directories))
    return with_parts(bytes(0x58), (0, b"MZ"), (0x3C, b"\x40"), (0x40, b"PE"), (0x54, size)) + fields + directories


# The data directories of a small program, images of both widths that have them, and an image with the reserved directory alone.
DIRECTORIES = with_parts(bytes(128), *((8 * index, struct.pack("<II", address, size)) for index, address, size in (
    (1, 14584, 160), (2, 24576, 18192), (3, 20480, 264), (5, 45056, 60), (6, 13160, 112), (10, 12304, 320), (12, 12624, 328))))
NARROW, WIDE = image(0x10B, bytes(96), DIRECTORIES), image(0x20B, bytes(112), DIRECTORIES)
RESERVED = image(0x20B, bytes(112), bytes(127) + b"\x01")

# Images, and the directories that are there, as in the table of headers.
ENTRIES = (
    ("for 32 bits", NARROW, {1: (14584, 160), 2: (24576, 18192), 3: (20480, 264), 5: (45056, 60),
                             6: (13160, 112), 10: (12304, 320), 12: (12624, 328)}),
    ("for 64 bits", WIDE, {1: (14584, 160), 2: (24576, 18192), 3: (20480, 264), 5: (45056, 60),
                           6: (13160, 112), 10: (12304, 320), 12: (12624, 328)}),
    ("the reserved one", RESERVED, {15: (0, 0x0100_0000)}),
)

# The sample with two data directories, and a byte after them that belongs to none.
TWO_DIRECTORIES = with_parts(SAMPLE, (0xB4, b"\x02"), (0xC8, b"\xFF"))

# Files, the mode in which they are read, and their headers when they are written.
WRITTEN = (
    ("as it was read", SAMPLE, STRICT, SAMPLE[:TABLE]),
    ("zeros for the directories past their count", TWO_DIRECTORIES, STRICT, TWO_DIRECTORIES[:0xC8].ljust(TABLE, b"\0")),
    ("directories for 32 bits", NARROW, PERMISSIVE, NARROW),
    ("directories for 64 bits", WIDE, PERMISSIVE, WIDE),
)

# Magics and image bases for the header of the sample, how much room there is, and why the header is not written.
UNWRITTEN = (
    ("a byte of room is missing", 0x10B, 0, TABLE - 1, ("TOO_BIG", None, 0, 0)),
    ("a field for 32 bits is too wide", 0x10B, 1 << 32, TABLE, ("MALFORMED", "FIELD_TOO_WIDE", 0, 0)),
    ("width is tested before room", 0x10B, 1 << 32, 1, ("MALFORMED", "FIELD_TOO_WIDE", 0, 0)),
    ("magic is tested before both", 0x107, 1 << 32, 1, ("BAD_MAGIC", None, 0x107, 0)),
    ("both are tested if there is no room at all", 0x107, 1 << 32, 0, ("BAD_MAGIC", None, 0x107, 0)),
)

# Names in section headers, and the names that they lead to in both modes, with b"MZ" at 0 and b"twelve" at 12; or why they are
# refused.
NAMES = (
    (b".rdata\0\0", b".rdata"),
    (b"/+12\0\0\0\0", b"twelve"),
    (b"/12\0\xFF\xFF\xFF\xFF", b"twelve"),
    (b"//\0\0\0\0\0\0", b"MZ"),
)
REFUSED_NAMES = (
    (b"/\0\0\0\0\0\0\0", "NAME_DECIMAL"),
    (b"/+\0\0\0\0\0\0", "NAME_DECIMAL"),
    (b"/\xC3\xA9\0\0\0\0\0", "NAME_DECIMAL"),
    (b"//-\0\0\0\0\0", "NAME_BASE64"),
)

# Offsets in a string table, and the names that lead to them.
OFFSETS = (
    (0, b"/0\0\0\0\0\0\0"),
    (9_999_999, b"/9999999"),
    (10_000_000, b"//AAmJaA"),
    (68_719_476_735, b"////////"),
)

# Sections by their size in memory, and their size and offset in the file; the file; and their data: the bytes in the file, and
# how many zeros follow them.
ZEROS, NINE_AT_7 = bytes(16), with_parts(bytes(16), (7, b"\x09"))
SECTION_DATA = (
    ("as much as in memory", (4, 4, 4), ZEROS, (bytes(4), 0)),
    ("none, at the end of the file", (0, 0, 16), ZEROS, (b"", 0)),
    ("zeros, and more of them in memory", (6, 4, 4), ZEROS, (bytes(4), 2)),
    ("more in memory", (6, 4, 4), NINE_AT_7, (b"\0\0\0\x09", 2)),
)


def terse(stripped_size):
    """A Terse Executable from which a number of bytes was stripped. Its entry point is at 0x1010. Its section is at 0x1000, with
    data from 0x200 on."""
    return with_parts(bytes(80), (0, b"VZ"), (4, b"\x01"), (6, struct.pack("<H", stripped_size)), (8, b"\x10\x10"), (0x35, b"\x10"),
                      (0x3D, b"\x02"))


# Files, and the table for which strict mode refuses each, and permissive mode, which passes over tables and odd names.
NO_IMPORTS, NO_EXPORTS, NO_RELOCATIONS = ((at, struct.pack("<2I", 0x9000, 0x28)) for at in (0xC0, 0xB8, 0xE0))
REFUSED_TABLES = (
    ("none", SAMPLE, None, None),
    ("the front of a header alone", SAMPLE[:0x80], "HEADER", "HEADER"),
    ("more sections than the file has room for", with_parts(SAMPLE, (0x46, b"\xFF\xFF")), "HEADER", "HEADER"),
    ("the name of a section", with_parts(SAMPLE, (TABLE, b"/\xFF\0\0\0\0\0\0")), "HEADER", None),
    ("the imports", with_parts(SAMPLE, NO_IMPORTS), "IMPORTS", None),
    ("the exports", with_parts(SAMPLE, NO_EXPORTS), "EXPORTS", None),
    ("the base relocations", with_parts(SAMPLE, NO_RELOCATIONS), "RELOCATIONS", None),
    ("all tables, the imports first", with_parts(SAMPLE, NO_RELOCATIONS, NO_EXPORTS, NO_IMPORTS), "IMPORTS", None),
    ("exports and base relocations", with_parts(SAMPLE, NO_RELOCATIONS, NO_EXPORTS), "EXPORTS", None),
)

# Files; why both modes refuse them; the parts of their headers that are refused, and why; and what the partial image has: the
# machine, the magic, the indexes of the data directories, the names of the sections and how many are missing, and how many imports
# and export addresses the walks of permissive mode give.
ALL_PARTS = ("dos_header", "coff_header", "standard_fields", "windows_fields", "directories")
CUT, PAST_END, ROM = ("TOO_BIG", None, 0, 0), ("BAD_OFFSET", None, 0, 0), ("BAD_MAGIC", None, 0x107, 0)
NO_IMAGE, NO_NUMBER = ("MALFORMED", "DOS_MAGIC", 0x6F6E, 0), ("MALFORMED", "NAME_DECIMAL", 0, 0)
SEVENTEEN, MOST = (("MALFORMED", "DIRECTORY_COUNT", count, 0) for count in (17, 0xFFFFFFFF))
OF_SECTIONS = ("section_table", "section_names")
PARTS = (
    ("a sound file", SAMPLE, None, {}, (0x14C, 0x10B, [0, 1], [b".rdata"], 0, 2, 2)),
    ("seventeen data directories", with_parts(SAMPLE, (0xB4, b"\x11")), SEVENTEEN, {"directories": SEVENTEEN},
     (0x14C, 0x10B, [0, 1], [b".rdata"], 0, 2, 2)),
    ("as many as a number can say", with_parts(SAMPLE, (0xB4, b"\xFF" * 4)), MOST, {"directories": MOST},
     (0x14C, 0x10B, [0, 1], [b".rdata"], 0, 2, 2)),
    ("the magic of a ROM image", with_parts(SAMPLE, (0x58, b"\x07\x01")), ROM, dict.fromkeys(ALL_PARTS[2:], ROM),
     (0x14C, None, [], [b".rdata"], 0, 0, 0)),
    ("a section whose name is a slash and no number", with_parts(SAMPLE, (TABLE, b"/abc\0\0")), NO_NUMBER, {"section_names": NO_NUMBER},
     (0x14C, 0x10B, [0, 1], [b"/abc"], 0, 2, 2)),
    # (Eleven headers fit between the table's place and the end of the file. The later ones are no sections.)
    ("nineteen sections, eleven of them in the file", with_parts(SAMPLE, (0x46, b"\x13")), CUT, {"section_table": CUT},
     (0x14C, 0x10B, [0, 1], [b".rdata", *[None] * 10], 8, 2, 2)),
    ("a cut section table", SAMPLE[:TABLE_END - 1], CUT, {"section_table": CUT}, (0x14C, 0x10B, [0, 1], [], 1, 0, 0)),
    ("a header that is cut in its data directories", SAMPLE[:TABLE - 1], CUT, {"directories": CUT, "section_table": PAST_END},
     (0x14C, 0x10B, [], [], 1, 0, 0)),
    ("one that is cut in its Windows fields", SAMPLE[:0xB7], CUT, {**dict.fromkeys(ALL_PARTS[3:], CUT), "section_table": PAST_END},
     (0x14C, None, [], [], 1, 0, 0)),
    ("one that is cut in its standard fields", SAMPLE[:0x73], CUT,
     {"standard_fields": CUT, **dict.fromkeys(ALL_PARTS[3:], PAST_END), "section_table": PAST_END}, (0x14C, None, [], [], 1, 0, 0)),
    ("one that is cut in its COFF header", SAMPLE[:0x57], CUT, dict.fromkeys((*ALL_PARTS[1:], *OF_SECTIONS), CUT),
     (0, None, [], [], 0, 0, 0)),
    ("no image", b"no image", NO_IMAGE, dict.fromkeys((*ALL_PARTS, *OF_SECTIONS, "dos_stub", "rich_header"), NO_IMAGE),
     (0, None, [], [], 0, 0, 0)),
)

# The call that reads a file, the file, and the error text, which is goblin's, so that logs can be searched for it.
SENTENCES = [
    ("Image", with_parts(bytes(64), (0, b"MZ"), (0x3C, b"\x3C\xFF")), "cannot parse PE header signature (offset 0xff3c)"),
    ("te", terse(0x17), "Stripped size (0x17) is smaller than TE header size (0x28)"),
    ("object", struct.pack("<HHIIIHHI", 0x8664, 0, 0, 20, 0, 0, 0, 1),
     "COFF length field size (0x4) is larger than the parsed length value"),
]


def setUpModule():
    need(CC)  # (for the shared library)
    package()


def how(mode):
    """The options of a mode."""
    return package().Options(permissive=mode == "permissive")


def read(file, mode):
    """The image in a file, by one of the modes."""
    return package().Image(file, how(mode))


def opened(file, mode="strict"):
    """The record of an image."""
    image, fault = image_of(file, records().Options(is_permissive=mode == "permissive"))
    test(fault)
    return image


def entries(image):
    """The data directories that are there, as in the table of headers."""
    return {index: tuple(it) for index, it in enumerate(image.directories) if any(it)}


def nonzero(record):
    """The fields that are not zero, by their names."""
    return {name: it for name, it in record._asdict().items() if (any(it) if isinstance(it, (tuple, bytes)) else it)}


def header(file, mode):
    """The parts of a header, as in the table of headers."""
    image = read(file, mode)
    standard, windows = image.optional_header or (None, None)
    return dict(dos_header=nonzero(image.dos_header), stub=image.dos_stub, rich_header=image.rich_header,
                coff_header=nonzero(image.coff_header), standard_fields=standard and nonzero(standard),
                windows_fields=windows and nonzero(windows), directories=entries(image))


def written(image, room):
    """Writes the header of an image into a buffer of 0xAA bytes. Returns why that is refused, how many bytes are written, and the
    buffer."""
    out, size = ctypes.create_string_buffer(b"\xAA" * room, room + 1), ctypes.c_size_t(7)
    refused = refusal(lambda: test(calls().goblin_pe_write_header(ctypes.byref(image), out, room, ctypes.byref(size))))
    return refused, size.value, out.raw[:room]


# The class identifiers of big objects, and of objects that are compiled when they are linked, as they are stored.
BIG_OBJECT, LATE_OBJECT = (uuid.UUID(it).bytes_le for it in ("D1BAA1C7-BAEE-4BA9-AF20-FAF66AA4DCB8", "0CB3FE38-D9A5-4DAB-AC9B-D6B6222653C2"))


def anonymous(version, identifier=b""):
    """The bytes with which import objects and big objects begin."""
    return struct.pack("<3H", 0, 0xFFFF, version) + bytes(6) + identifier


# First bytes, and the kind of a file that begins with them.
KINDS = (
    (b"", "UNKNOWN"), (b"M", "UNKNOWN"), (b"MZ", "IMAGE"), (b"VZ", "TE"), (b"ZM", "UNKNOWN"), (b"\x64\x86", "OBJECT"),
    (b"\x86\x64", "UNKNOWN"), (b"\0\0", "UNKNOWN"), (b"\x7FELF", "UNKNOWN"),
    (b"!<arch>\n", "ARCHIVE"), (b"!<arch>", "UNKNOWN"), (b"!<thin>\n", "UNKNOWN"),
    (anonymous(0), "IMPORT_OBJECT"), (anonymous(0)[:6], "IMPORT_OBJECT"), (anonymous(0)[:5], "UNKNOWN"), (bytes(6), "UNKNOWN"),
    (b"\xFF" * 4 + bytes(16), "UNKNOWN"),
    (anonymous(2, BIG_OBJECT), "BIG_OBJECT"), (anonymous(3, BIG_OBJECT), "BIG_OBJECT"), (anonymous(1, BIG_OBJECT), "UNKNOWN"),
    (anonymous(2, BIG_OBJECT)[:-1], "UNKNOWN"), (anonymous(2, LATE_OBJECT), "UNKNOWN"), (anonymous(2, BIG_OBJECT[:8] + bytes(8)), "UNKNOWN"),
    (anonymous(2, bytes(8) + BIG_OBJECT[8:]), "UNKNOWN"), (anonymous(1), "UNKNOWN"))


class Kinds(unittest.TestCase):
    def test_a_kind_is_known_by_the_first_bytes(self):
        for data, wanted in KINDS:
            for rest in (b"",) if wanted == "UNKNOWN" else (b"", bytes(100)):
                with self.subTest(data=data, rest=len(rest)):
                    self.assertEqual(package().Kind.of(data + rest).name, wanted)


class Headers(unittest.TestCase):
    def test_the_parts_of_a_header_are_read(self):
        for name, file, modes, wanted in HEADERS:
            for mode in modes:
                with self.subTest(name, mode=mode):
                    self.assertEqual(header(file, mode), wanted)

    def test_files_are_refused_for_their_headers(self):
        for name, file, modes, wanted in REFUSED:
            for mode in modes:
                with self.subTest(name, mode=mode):
                    self.assertEqual(refusal(read, file, mode), wanted)

    def test_some_refusals_have_the_texts_of_goblin(self):
        for reader, file, sentence in SENTENCES:
            with self.subTest(reader), self.assertRaises(package().PeError) as caught:
                {"te": package().Image.te, "object": lambda it: next(package().Image.object(it).symbols())}.get(reader, package().Image)(file)
            self.assertEqual(caught.exception.args[0], sentence)

    def test_the_fields_of_an_optional_header_are_in_their_order(self):
        for name, standard_widths, windows_widths, standard, windows in FIELDS:
            with self.subTest(name):
                file = image(standard["magic"], rising(standard_widths) + rising(windows_widths), bytes(128))
                self.assertEqual([it._asdict() for it in read(file, "strict").optional_header], [standard, windows])

    def test_data_directories_are_read(self):
        for name, file, wanted in ENTRIES:
            with self.subTest(name):
                self.assertEqual(entries(read(file, "permissive")), wanted)


class RefusedTables(unittest.TestCase):
    def test_a_file_is_refused_for_its_first_table(self):
        for name, file, *wanted in REFUSED_TABLES:
            for mode, table in zip(BOTH, wanted):
                with self.subTest(name, mode=mode):
                    if table is None:
                        package().Pe(file, how(mode))
                        continue
                    with self.assertRaises(package().PeError) as caught:
                        package().Pe(file, how(mode))
                    self.assertEqual(caught.exception.table.name, table)


def fields(record):
    """The fields of a record. (What lies between them has no meaning.)"""
    if isinstance(record, (ctypes.Structure, ctypes.Array)):
        return [fields(it) for it in (record if isinstance(record, ctypes.Array) else (getattr(record, it[0]) for it in record._fields_))]
    return record


class Partial(unittest.TestCase):
    def test_each_part_is_given_or_refused_by_itself(self):
        for name, file, refused, faults, wanted in PARTS:
            for mode in BOTH:
                with self.subTest(name, mode=mode):
                    found = package().Image.partial(file, how(mode))
                    self.assertEqual(error_of(found.refusal), refused)
                    self.assertEqual({part: error_of(why) for part, why in found.header_faults.items()}, faults)
                    magic = found.optional_header and found.optional_header.standard_fields.magic
                    names = [s.name for s in found.sections]
                    missing = found.coff_header.number_of_sections - len(names)
                    self.assertEqual((found.coff_header.machine, magic, list(entries(found)), len(names), missing),
                                     (*wanted[:3], len(wanted[3]), wanted[4]))
                    self.assertEqual([it for it, own in zip(names, wanted[3]) if own], [own for own in wanted[3] if own])

    def test_with_unknown_options_no_part_is_read(self):
        unknown, image, faults = options(mapping=4), records().Image(kind=77), records().HeaderFaults()
        for given, kind in (None, 77), (ctypes.byref(faults), 1):
            fault = calls().goblin_pe_read_image(bytes(SAMPLE), len(SAMPLE), ctypes.byref(unknown), ctypes.byref(image), given)
            self.assertEqual((fault.status, fault.first, image.kind, image.section_count), (6, 4, kind, 0))
        self.assertEqual({(part.status, part.first) for part in (getattr(faults, it) for it, _ in faults._fields_)}, {(6, 4)})

    def test_the_tables_of_a_refused_file_are_walked(self):
        for name, file, _, _, wanted in PARTS:
            with self.subTest(name):
                found = package().Image.partial(file, package().Options(permissive=True))
                self.assertEqual((len(list(found.imports())), len(list(found.export_addresses()))), wanted[5:])

    def test_a_sound_header_is_the_same_image(self):
        for sample_of in IMAGES:
            file = sample_of.read_bytes()
            with self.subTest(sample_of.name):
                self.assert_same(package().Image.partial(file), package().Image(file))

    def test_a_partial_read_of_a_damaged_file_answers_as_a_read(self):
        """If an image is read, the partial image is the same. If it is refused, the partial read has that refusal."""
        refused = 0
        for index, file in enumerate(hostile.files()):
            for mode in BOTH:
                with self.subTest(index, mode=mode):
                    found = package().Image.partial(file, how(mode))
                    self.assertEqual(error_of(found.refusal), refusal(package().Image, file, how(mode)))
                    refused += bool(found.refusal)
                    if found.refusal is None:
                        self.assert_same(found, package().Image(file, how(mode)))
        self.assertGreater(refused, 100)

    def assert_same(self, one, two):
        for part in ("dos_header", "dos_stub", "rich_header", "coff_header", "optional_header", "directories", "sections"):
            self.assertEqual(getattr(one, part), getattr(two, part))
        self.assertEqual((dict(one.header_faults), fields(one._record)[1:]), ({}, fields(two._record)[1:]))


class Written(unittest.TestCase):
    def test_a_header_is_written_and_nothing_after_it(self):
        for name, file, (mode,), wanted in WRITTEN:
            with self.subTest(name):
                self.assertEqual(written(opened(file, mode), 0), (None, len(wanted), b""))
                for more in (0, 8):
                    self.assertEqual(written(opened(file, mode), len(wanted) + more), (None, len(wanted), wanted + b"\xAA" * more))

    def test_a_header_that_is_refused_leaves_the_buffer(self):
        for name, magic, image_base, room, wanted in UNWRITTEN:
            with self.subTest(name):
                found = opened(SAMPLE)
                found.optional_header.standard_fields.magic = magic
                found.optional_header.windows_fields.image_base = image_base
                self.assertEqual(written(found, room), (wanted, 7, b"\xAA" * room))

    def test_wide_standard_fields_keep_their_low_halves(self):
        image = read(SAMPLE, "strict")
        wide = image.optional_header.standard_fields._replace(size_of_code=0x1_0000_0005)
        again = read(image.patched(optional_header=image.optional_header._replace(standard_fields=wide)), "strict")
        self.assertEqual(again.optional_header.standard_fields.size_of_code, 5)


class Sections(unittest.TestCase):
    def test_a_name_leads_to_its_text_in_both_modes(self):
        for name, wanted in NAMES:
            for mode in BOTH:
                with self.subTest(name=name, mode=mode):
                    section, = read(with_parts(SAMPLE, (12, b"twelve"), (TABLE, name)), mode).sections
                    self.assertEqual((section.name, section.stored_name), (wanted, name))

    def test_a_name_without_a_number_is_refused_in_both_modes(self):
        for name, cause in REFUSED_NAMES:
            for mode in BOTH:
                with self.subTest(name=name, mode=mode):
                    self.assertEqual(refusal(read, with_parts(SAMPLE, (TABLE, name)), mode), ("MALFORMED", cause, 0, 0))

    def test_a_name_that_is_no_text_is_refused_in_strict_mode_alone(self):
        file = with_parts(SAMPLE, (TABLE, b"/\xFF\0\0\0\0\0\0"))
        self.assertEqual(refusal(read, file, "strict"), ("MALFORMED", "NAME_TEXT", 0, 0))
        self.assertEqual(read(file, "permissive").sections[0].name, b"/\xFF")

    def test_a_name_leads_to_its_offset(self):
        for offset, name in OFFSETS:
            with self.subTest(offset=offset), tempfile.TemporaryFile() as file:
                file.write(with_parts(SAMPLE, (TABLE, name)))
                file.seek(offset)  # (The file is sparse between them.)
                file.write(b"MZ, or far away")
                file.flush()
                with mmap.mmap(file.fileno(), 0, access=mmap.ACCESS_READ) as data:
                    self.assertEqual([read(data, mode).sections[0].name for mode in BOTH], [b"MZ, or far away"] * 2)

    def test_a_section_is_written_as_it_was(self):
        section, = read(NAMED_ELSEWHERE, "strict").sections
        self.assertEqual((section.name, section.to_bytes()), (b"a.dll", NAMED_ELSEWHERE[TABLE:TABLE_END]))

    def test_data_goes_on_with_zeros_up_to_the_size_in_memory(self):
        section, = read(SAMPLE, "strict").sections
        for name, (memory, size, pointer), file, wanted in SECTION_DATA:
            with self.subTest(name):
                of_row = section._replace(virtual_size=memory, size_of_raw_data=size, pointer_to_raw_data=pointer)
                data = of_row.data(package().Image.partial(file))
                self.assertEqual((bytes(data.data), data.zeros, data.missing), (*wanted, 0))


class TerseExecutables(unittest.TestCase):
    def test_addresses_are_adjusted_by_what_was_stripped(self):
        te = package().Image.te(terse(0x128))
        self.assertEqual((te.te_header.entry_point, te.te_header.reloc_dir), (0xF10, (0xFFFF_FF00, 0)))
        self.assertEqual([{name: it for name, it in nonzero(s).items() if name != "stored_name"} for s in te.sections], [dict(virtual_address=0xF00, pointer_to_raw_data=0x100)])

    def test_a_header_with_too_little_stripped_is_refused(self):
        for stripped_size in 0x17, 0x27:
            with self.subTest(stripped_size=stripped_size):
                self.assertEqual(refusal(package().Image.te, terse(stripped_size)), ("MALFORMED", "STRIPPED_SIZE", stripped_size, 0))


class Places(unittest.TestCase):
    """Each field of the samples' headers is the number at the place that the specification names."""

    def assert_holds(self, record, form, data, place):
        """The fields of a record are those at a place in the format. Those of an array follow one another."""
        flat = [it for field in record for it in (field if isinstance(field, tuple) else (field,))]
        self.assertEqual(flat, list(struct.unpack_from(form, data, place)))

    def test_the_fields_of_the_samples(self):
        for sample_file in IMAGES:
            with self.subTest(sample_file.name):
                data = sample_file.read_bytes()
                found, signature = package().Image(data), int.from_bytes(data[60:64], "little")
                self.assert_holds(found.dos_header, "<30HI", data, 0)
                self.assert_holds(found.coff_header, "<HHIIIHH", data, signature + 4)
                standard, windows = found.optional_header
                place, is_wide = signature + 24, standard.magic == 0x20B
                self.assert_holds(standard[:8] if is_wide else standard, "<HBBIIIII" + "I" * (not is_wide), data, place)
                place += 24 if is_wide else 28
                form = "<QIIHHHHHHIIIIHHQQQQII" if is_wide else "<IIIHHHHHHIIIIHHIIIIII"
                self.assert_holds(windows, form, data, place)
                place += struct.calcsize(form)
                wanted = struct.iter_unpack("<II", data[place:place + 8 * windows.number_of_rva_and_sizes])
                self.assertEqual([tuple(it) for it in found.directories][:windows.number_of_rva_and_sizes], list(wanted))
                table = signature + 24 + found.coff_header.size_of_optional_header
                for section in found.sections:
                    wanted = struct.unpack_from("<8sIIIIIIHHI", data, table + 40 * section.index)
                    self.assertEqual((section.stored_name, *section[3:-1]), wanted)

    def test_a_rich_header(self):
        data, key = bytearray(BY_NAME.read_bytes()), 0x1234ABCD
        wanted = [(30159, 261, 7), (0, 1, 0x80000001)]
        words = [0x536E6144, 0, 0, 0] + [it for build, product, count in wanted for it in (product << 16 | build, count)]
        struct.pack_into("<%dI" % len(words), data, 64, *[word ^ key for word in words])
        struct.pack_into("<II", data, 64 + 4 * len(words), 0x68636952, key)
        found = package().Image(data)
        self.assertEqual(found.rich_header[1:], (key, 64, 64 + 4 * len(words), 12))
        self.assertEqual(list(map(tuple, found.rich_entries())), wanted)
