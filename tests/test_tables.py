"""Rich headers, symbols, relocations, and where addresses lie in a file: worked values, which the package over one image reads."""
import ctypes
import itertools
import struct
import unittest

from tests import images
from tests.bindings import Walk, calls, error_of, image_of, options, package, records, refusal, test, value
from tests.programs import BY_NAME, CC, OBJECTS, TERSE, need

UNMAPPED = 22  # The cause of a call for an address without a file offset.

# The parts of a small file with a Rich header, by their offsets: one entry under the key 1, before a signature.
SMALL = [(0, b"MZ"), (0x3C, b"\x60"), (0x40, b"\x45\x61\x6E\x53\x01\0\0\0\x01\0\0\0\x01\0\0\0"),
         (0x50, b"\x03\0\x03\0\x05\0\0\0Rich\x01\0\0\0"), (0x60, b"PE\0\0")]
# The change that puts its first marker after the second.
TURNED = [(0x40, b"\x44"), (0x3C, b"\x64"), (0x60, b"\x45\x61\x6E\x53PE\0\0")]
# A larger one after the usual stub: its key, and its entries by build, product and use count.
KEY = 0xE2352D37
ENTRIES = [(25203, 260, 10), (25203, 259, 5), (25203, 261, 127), (25305, 259, 9), (25305, 261, 35), (25305, 260, 18), (25203, 257, 11),
           (0, 1, 152), (0, 0, 20), (25547, 258, 1)]
LARGE = [(0, b"MZ"), (0x3C, b"\xF8"), (0x40, images.DEFAULT_STUB), (0x80, b"\x73\x4C\x5B\xB1" + struct.pack("<3I", KEY, KEY, KEY)),
         (0x90, b"".join(struct.pack("<II", (product << 16 | build) ^ KEY, count ^ KEY) for build, product, count in ENTRIES)),
         (0xE0, b"Rich" + struct.pack("<I", KEY)), (0xF8, b"PE\0\0")]
# The parts of a file; the key, the size of the padding and the offsets of the markers of its Rich header; its entries; and the errors for the rest.
RICH = [
    ("one entry", SMALL, (1, 12, 0x40, 0x58), [(2, 3, 4)], []),
    ("ten entries", LARGE, (KEY, 12, 0x80, 0xE0), ENTRIES, []),
    ("no second marker", [(0, b"MZ"), (0x3C, b"\x43"), (0x43, b"PE\0\0")], None, [], []),
    ("a rest that is no whole entry",
     [(0, b"MZ"), (0x3C, b"\x5C"), (0x40, b"DanS\0\0\0\0\x02\0\x03\0\x04\0\0\0\x09\x09\x09\x09Rich\0\0\0\0"), (0x5C, b"PE\0\0")],
     (0, 4, 0x40, 0x54), [(2, 3, 4)], [("TOO_BIG", None, 0, 0)]),
]
RICH_REFUSED = [
    ("the small one without its first marker", [*SMALL, (0x40, b"\x44")], ("MALFORMED", "NO_DANS", 0, 0)),
    ("the large one without its first marker", [*LARGE, (0x80, b"\x12")], ("MALFORMED", "NO_DANS", 0, 0)),
    ("the first marker after the second", [*SMALL, *TURNED], ("MALFORMED", "RICH_BOUNDS", 0x24, 0x18)),
]

# Records of the symbol table of a small object that a compiler made, and its string table.
SYMBOL_RECORDS = (
    b".text\0\0\0\0\0\0\0\x01\0\0\0\x03\x01"
    b"Z\0\0\0\x06\0\0\0xB\xC3.\x01\0\0\0\0\0"
    b"\0\0\0\0G\0\0\0\0\0\0\0\x04\0\0\0\x02\0"
    b".drectve\0\0\0\0\x06\0\0\0\x03\x01"
    b")\0\0\0\0\0\0\0F\xE7x\x91\x06\0\0\0\0\0"
    b"odd\0\0\0\0\x000\0\0\0\x01\0 \0\x02\0"
    b"\0\0\0\0\x04\0\0\0\0\0\0\0\0\0\0\0\x02\0"
    b".file\0\0\0\0\0\0\0\xFE\xFF\0\0g\x01"
    b"free.c\0\0\0\0\0\0\0\0\0\0\0\0")
STRINGS = b"_\0\0\0__imp_GetTickCount\0.llvm_addrsig\0__imp_Odd\0??_C@_01OJONOECF@b?$AA@\0??_C@_01MCMALHOG@a?$AA@\0"
# Its symbols as another tool shows them: index, value, section, class, number of auxiliary records, and name.
SYMBOLS = [
    (0, 0, 1, 3, 1, b".text"),
    (2, 0, 4, 2, 0, b"??_C@_01MCMALHOG@a?$AA@"),
    (3, 0, 6, 3, 1, b".drectve"),
    (5, 48, 1, 2, 0, b"odd"),
    (6, 0, 0, 2, 0, b"__imp_GetTickCount"),
    (7, 0, -2, 103, 1, b".file"),
]
# The eight bytes of a symbol's name, its string table, and its name. A stored offset counts the four bytes of the table's
# length.
NAMES = [
    ("a number below four", b"\0\0\0\0\x03\0\0\0", b"\x0C\0\0\0abc\0def\0", None),
    ("the first text", b"\0\0\0\0\x04\0\0\0", b"\x0C\0\0\0abc\0def\0", b"abc"),
    ("a text at 4, with other bytes before the number", b"\0ABC\x08\0\0\0", b"\x0C\0\0\0abc\0def\0", b"def"),
    ("the first text of a table that has no bytes", b"\0\0\0\0\x04\0\0\0", b"\x04\0\0\0", None),
]
# The bytes of a string table that was not tested, an offset in it, and the name there.
UNTESTED = [
    ("a text before bytes that are no text", b"abc\0\xFF", 0, b"abc"),
    ("bytes that are no text", b"abc\0\xFF", 4, None),
    ("the middle of a character", b"\xC3\xA9\0", 1, None),
    ("a NUL", b"ab\0\0", 3, b""),
    ("the end, after a text without a NUL", b"ab", 2, b""),
    ("the end, after a NUL", b"ab\0", 3, None),
]
# How many auxiliary records the first symbol claims, how many records there are, and the indexes of the symbols.
INDEXES = [(1, 3, [0, 2]), (0xFF, 1, [0])]

# The relocations of a section of a small object that a compiler made: as stored, and their addresses and the indexes of their
# symbols, as another tool shows them.
RELOCATION_RECORDS = (
    b"\x03\0\0\0\x12\0\0\0\x04\0\x0F\0\0\0\x13\0\0\0\x04\0\x26\0\0\0\x15\0\0\0\x04\0"
    b"\x36\0\0\0\x17\0\0\0\x04\0\x43\0\0\0\x12\0\0\0\x04\0\x4F\0\0\0\x13\0\0\0\x04\0")
RELOCATIONS = [(0x3, 18), (0xF, 19), (0x26, 21), (0x36, 23), (0x43, 18), (0x4F, 19)]

# The base relocations of a small library that a linker made: as stored, and their types and addresses, block by block, as another
# tool shows them.
LIBRARY = b"\0\x10\0\0\x14\0\0\0\x01\x30\x0B\x30\x22\x30\x31\x30\x3B\x30\0\0\0\x30\0\0\x10\0\0\0\0\x30\x04\x30\x08\x30\0\0"
BASE_RELOCATIONS = [[(3, 0x1001), (3, 0x100B), (3, 0x1022), (3, 0x1031), (3, 0x103B), (0, 0x1000)],
                    [(3, 0x3000), (3, 0x3004), (3, 0x3008), (0, 0x3000)]]
# The bytes of a directory; its blocks, by address, size and words; and why the rest is refused.
BLOCKS = [
    ("no words and no byte after them", b"\0\x10\0\0\x08\0\0\0", [], ("MALFORMED", "BLOCK_RANGE", 8, 0)),
    ("no words before another block", b"\0\x10\0\0\x08\0\0\0\0\x20\0\0\x0C\0\0\0\x03\x30\0\0",
     [(0x1000, 8, ()), (0x2000, 12, (0x3003, 0))], None),
    ("two words", b"\0\x20\0\0\x0C\0\0\0\x03\x30\0\0", [(0x2000, 12, (0x3003, 0))], None),
    ("a word, and a byte that is no word", b"\0\0\0\0\x0B\0\0\0\x01\0\x02", [(0, 11, (1,))], None),
]

# Sections by their address, their size in memory, and the size and the offset of their data in the file. The window of the wide
# one contains that of the narrow one; two have the same window.
NARROW = (0x1200, 0x200, 0x200, 0x400)
WIDE = (0x1000, 0x800, 0x800, 0x800)
LOW = (0x1000, 0x200, 0x200, 0x400)
HIGH = (0x1000, 0x200, 0x200, 0x800)
LESS_DATA_THAN_MEMORY = (0x1000, 0x600, 0x400, 0x200)
AT_NO_MULTIPLE = (0x1000, 0x100, 0x100, 0x210)
WITHOUT_DATA = (0x1FB000, 0x28590, 0, 0)
STORED, BY_ALIGNMENT, AS_LOADED, IDENTITY = "AS_STORED", "BY_FILE_ALIGNMENT", "AS_LOADED", "IDENTITY"
# Sections, the file alignment, the mapping, an address, and its offset in the file.
OFFSETS = [
    ([LESS_DATA_THAN_MEMORY], 0x200, STORED, 0x1123, 0x323),
    ([LESS_DATA_THAN_MEMORY], 0x200, STORED, 0x13FF, 0x5FF),
    ([LESS_DATA_THAN_MEMORY], 0x200, STORED, 0x1400, None),
    ([WITHOUT_DATA], 0x200, STORED, 0x1FB000, None),
    ([WITHOUT_DATA], 0x200, STORED, 0x215580, None),
    ([AT_NO_MULTIPLE], 0, STORED, 0x1000, None),
    ([AT_NO_MULTIPLE], 0x300, STORED, 0x1000, None),
    ([AT_NO_MULTIPLE], 0x200, STORED, 0x1000, 0x210),
    ([AT_NO_MULTIPLE], 0x200, STORED, 0x11FF, 0x40F),
    ([AT_NO_MULTIPLE], 0x200, STORED, 0x1200, None),
    ([AT_NO_MULTIPLE], 0x200, BY_ALIGNMENT, 0x1000, 0x200),
    ([AT_NO_MULTIPLE], 0x200, BY_ALIGNMENT, 0x11FF, 0x3FF),
    ([AT_NO_MULTIPLE], 0x200, BY_ALIGNMENT, 0x1200, None),
    ([AT_NO_MULTIPLE], 0x100, BY_ALIGNMENT, 0x1000, 0x210),
    ([AT_NO_MULTIPLE], 0x200, AS_LOADED, 0x1000, 0x200),
    ([AT_NO_MULTIPLE], 0x1000, AS_LOADED, 0x1001, 0x201),
    ([AT_NO_MULTIPLE], 0x100, AS_LOADED, 0x1000, 0x210),
    ([AT_NO_MULTIPLE], 0, AS_LOADED, 0x1000, None),
    ([WIDE], 0, IDENTITY, 0x1100, 0x1100),
    ([NARROW, WIDE], 0x200, STORED, 0, None),
    ([NARROW, WIDE], 0x200, STORED, 0xFFF, None),
    ([NARROW, WIDE], 0x200, STORED, 0x1100, 0x900),
    ([NARROW, WIDE], 0x200, STORED, 0x1250, 0x450),
    ([NARROW, WIDE], 0x200, STORED, 0x1500, 0xD00),
    ([NARROW, WIDE], 0x200, STORED, 0x1800, None),
    ([NARROW, WIDE], 0x200, STORED, 2**64 - 1, None),
    ([WIDE, NARROW], 0x200, STORED, 0x1250, 0xA50),
    ([LOW, HIGH], 0x200, STORED, 0x1010, 0x410),
    ([HIGH, LOW], 0x200, STORED, 0x1010, 0x810),
    ([], 0x200, STORED, 0, None),
]
# Sections, the mapping, an offset, its address, and the index of the section in which the address lies.
ADDRESSES = [
    ([LESS_DATA_THAN_MEMORY], STORED, 0x1FF, None, None),
    ([LESS_DATA_THAN_MEMORY], STORED, 0x200, 0x1000, 0),
    ([LESS_DATA_THAN_MEMORY], STORED, 0x5FF, 0x13FF, 0),
    ([LESS_DATA_THAN_MEMORY], STORED, 0x600, None, None),
    ([AT_NO_MULTIPLE], STORED, 0x20F, None, None),
    ([AT_NO_MULTIPLE], BY_ALIGNMENT, 0x200, 0x1000, 0),
    ([WITHOUT_DATA], STORED, 0, None, None),
    ([NARROW, WIDE], STORED, 0x450, 0x1250, 0),
    ([NARROW, WIDE], STORED, 0xA50, None, None),
    ([NARROW, WIDE], STORED, 0xD00, 0x1500, 1),
    ([WIDE, NARROW], STORED, 0x450, None, None),
    ([LOW, HIGH], STORED, 0x810, None, None),
    ([WIDE], IDENTITY, 0x1100, 0x1100, None),
    ([WIDE], IDENTITY, 0x5000, 0x5000, None),
]
# Sections whose data begins six bytes before the end of the file: one with zeros after them, one with more data than memory, one
# without a virtual size, one without data, and one whose data is missing. An address, a size, and what a loader sees: bytes of the
# file and a number of zeros.
IN_MEMORY = [(0x1000, 16, 6, 0x210), (0x2000, 4, 6, 0x210), (0x3000, 0, 6, 0x210), (0x4000, 8, 0, 0), (0x5000, 8, 8, 0x210)]
SEEN = [
    (0x1000, 16, (b"stored", 10)), (0x1002, 3, (b"ore", 0)), (0x1004, 4, (b"ed", 2)), (0x1006, 10, (b"", 10)), (0x100F, 1, (b"", 1)),
    (0x1000, 0, (b"", 0)), (0x1000, 0x200, (b"stored", 0x1FA)), (0x1000, 0x201, None), (0x1200, 0, None), (0xFFF, 1, None),
    (0x2000, 4, (b"stor", 0)), (0x2004, 3, (b"ed", 1)), (0x3000, 6, (b"stored", 0)), (0x3000, 7, (b"stored", 1)),
    (0x4000, 8, (b"", 8)), (0x4000, 9, None), (0x5000, 6, (b"stored", 0)), (0x5000, 7, None), (0x5000, 8, None),
]
# The first bytes that are seen there. There may be fewer, because the memory of the section or the file ends.
AVAILABLE = [
    (0x1000, 3, (b"sto", 0)), (0x1000, 99, (b"stored", 93)), (0x1004, 0x1FC, (b"ed", 0x1FA)), (0x1006, 4, (b"", 4)),
    (0x11FF, 2, (b"", 1)), (0x1000, 0, (b"", 0)), (0x1200, 1, None), (0xFFF, 2, None), (0x2000, 4, (b"stor", 0)),
    (0x3000, 2 ** 64 - 1, (b"stored", 0x1FA)), (0x4000, 99, (b"", 8)), (0x5000, 8, (b"stored", 0)), (0x5007, 1, (b"", 0)),
]
# The regions and sections of addresses in such sections and in 0x200 bytes of headers. Windows that the file lacks count as zeros.
# No region is after a section's memory.
REGIONS = [
    (0, "HEADERS", None), (0x1FF, "HEADERS", None), (0x200, "HEADERS", None), (0xFFF, "HEADERS", None), (0x1000, "RAW_DATA", 0),
    (0x1005, "RAW_DATA", 0), (0x1006, "ZEROS", 0), (0x100F, "ZEROS", 0), (0x11FF, "ZEROS", 0), (0x1200, "UNMAPPED", None),
    (0x3005, "RAW_DATA", 2), (0x3006, "ZEROS", 2), (0x4000, "ZEROS", 3), (0x5007, "RAW_DATA", 4), (2 ** 64 - 1, "UNMAPPED", None),
]
# The virtual size, the raw size, the raw pointer and the flags of a section; and its data in a file of 0x300 bytes: the offset and
# the number of its bytes, how many zeros follow, and how many bytes the file lacks.
DATA = [
    ("uninitialized data of an object", (0, 400000, 0, 0xC0000080), (0, 0, 400000, 0)),
    ("uninitialized data of an image", (0x80, 0, 0, 0xC0000080), (0, 0, 0x80, 0)),
    ("such data with both sizes", (0x80, 0x200, 0, 0xC0000080), (0, 0, 0x80, 0)),
    ("other data at the front", (0x80, 0x40, 0, 0xC0000040), (0, 0x40, 0x40, 0)),
    ("uninitialized data with a raw pointer", (0x80, 0x40, 0x200, 0xC0000080), (0x200, 0x40, 0x40, 0)),
    ("data that is not cut at the virtual size", (0x10, 0x40, 0x200, 0), (0x200, 0x40, 0, 0)),
    ("data to the end", (0x180, 0x100, 0x200, 0), (0x200, 0x100, 0x80, 0)),
    ("data that ends too late", (0x180, 0x101, 0x200, 0), (0x200, 0x100, 0, 1)),
    ("data that begins too late", (0x180, 0x10, 0x400, 0), (0x300, 0, 0, 0x10)),
    ("no data that begins too late", (0x80, 0, 0x400, 0), (0x300, 0, 0x80, 0)),
]
# Bytes at the end of a file, at the address 0x1000 of a section of 16 bytes; an address; a size; and the text and the bytes there.
CONTENTS = [
    (b"one\0two", 0x1000, 3, b"one", b"one"),
    (b"one\0two", 0x1004, 3, b"two", b"two"),
    (b"one\0two", 0x1003, 0, b"", b""),
    (b"one\0two", 0x1003, 5, b"", None),
    (b"one\0two", 0x1007, 0, None, b""),
    (b"one\0two", 0xFFF, 1, None, None),
    (b"\xFFone", 0x1000, 1, b"\xFFone", b"\xFF"),
    (bytes(16) + b"more", 0x100F, 3, b"", b"\0mo"),
]


def setUpModule():
    need(CC)
    package()


def how(mapping):
    return package().Options(mapping=package().Mapping[mapping])


def image(data, mapping="AS_STORED"):
    return package().Image(data, how(mapping))


def signed(parts):
    """An image of these parts. It ends with a COFF header of zeros after its signature, so it has no sections."""
    return images.with_parts(b"", *parts) + bytes(20)


def object_of(records, strings):
    """An object without sections, with these symbol records and this string table."""
    return struct.pack("<HHIIIHH", 0x8664, 0, 0, 20, len(records) // 18, 0, 0) + records + strings


def symbols_of(records, strings):
    """The symbols of an object with these records and this string table."""
    return list(package().Image.object(object_of(records, strings)).symbols())


def symbol_record(name=bytes(8), auxiliary=0):
    """The record of a symbol."""
    return struct.pack("<8sIhHBB", name, 0, 0, 0, 0, auxiliary)


def relocated(records):
    """An object of one section, with these relocations."""
    headers = struct.pack("<HHIIIHH8sIIIIIIHHI", 0x8664, 1, 0, 0, 0, 0, 0, b".text", 0, 0, 0, 0, 60, 0, len(records) // 10, 0, 0)
    return headers + records


def with_sections(sections, alignment=0x200):
    """The headers of an image with these sections and this file alignment."""
    headers = images.image_headers(0x148 + 40 * len(sections), len(sections), 0x10000, ())
    struct.pack_into("<I", headers, 0x7C, alignment)
    for index, (address, size, raw_size, pointer) in enumerate(sections):
        struct.pack_into("<4I", headers, 0x148 + 40 * index + 8, size, address, raw_size, pointer)
    return headers


def with_blocks(directory):
    """An image without sections. It ends with these base relocations, whose address is their offset."""
    return images.image_headers(0x148, 0, 0x1000, ((5, 0x148, len(directory)),)) + directory


def available(memory):
    """The first bytes that a loader sees, and how many zeros follow. None if it maps nothing there."""
    return None if memory.region == package().Region.UNMAPPED else (memory.data, memory.zeros)


def found_at(data, rva, mapping=0, read="read_image"):
    """The look-ups that find something at an address, or at an offset of the same number."""
    it, number, memory = image_of(data, options(mapping=mapping), read)[0], ctypes.c_size_t(), records().Memory()
    calls().goblin_pe_memory_at(ctypes.byref(it), rva, 8, ctypes.byref(memory))
    found = {"memory_at": memory.region or memory.missing < 8}
    for call, result in ("find_offset", number), ("find_rva", number), ("forwarder_at", records().Forwarder()):
        answer = getattr(calls(), f"goblin_pe_{call}")(ctypes.byref(it), rva, ctypes.byref(result))
        found[call] = answer if isinstance(answer, bool) else answer.cause != UNMAPPED
    return [call for call in found if found[call]]


def seen(memory):
    """As available, but None also if something that was asked for is missing."""
    return None if memory.missing else available(memory)


class Tables(unittest.TestCase):
    def test_a_rich_header_has_its_place_and_its_entries(self):
        for name, parts, header, entries, rest in RICH:
            with self.subTest(name):
                pe = package().Pe(signed(parts))
                found = pe.image.rich_header
                self.assertEqual(found and (found.key, found.padding_size, found.start_offset, found.end_offset), header)
                self.assertEqual((list(pe.rich_entries), [error_of(it) for it in pe.errors]), (entries, rest))

    def test_a_rich_header_needs_both_markers_in_order(self):
        for name, parts, wanted in RICH_REFUSED:
            with self.subTest(name):
                self.assertEqual(refusal(package().Image, signed(parts)), wanted)

    def test_the_symbols_of_an_object_are_those_that_another_tool_shows(self):
        found = [(it.index, it.value, it.section_number, it.storage_class, it.number_of_aux_symbols, it.name)
                 for it in symbols_of(SYMBOL_RECORDS, STRINGS)]
        self.assertEqual(found, SYMBOLS)

    def test_auxiliary_records_are_read(self):
        found = package().Image.object(object_of(SYMBOL_RECORDS, STRINGS))
        by_name = {it.name: it.auxiliary(found) for it in found.symbols()}
        kinds, it = package().AuxiliaryKind, by_name[b".text"]
        self.assertEqual((it.kind, it.length, it.number_of_relocations, it.number_of_line_numbers, it.checksum, it.number, it.selection),
                         (kinds.SECTION_DEFINITION, 90, 6, 0, 0x2EC34278, 1, 0))
        self.assertEqual((by_name[b".file"].kind, by_name[b".file"].file, by_name[b"odd"]), (kinds.FILE, b"free.c", None))

    def test_auxiliary_records_are_no_symbols(self):
        for auxiliary, count, wanted in INDEXES:
            with self.subTest(auxiliary=auxiliary):
                found = symbols_of(symbol_record(auxiliary=auxiliary) + bytes(18 * (count - 1)), b"\x04\0\0\0")
                self.assertEqual([it.index for it in found], wanted)

    def test_a_stored_number_is_an_offset_from_the_length_field(self):
        for name, stored, strings, wanted in NAMES:
            with self.subTest(name):
                self.assertEqual([it.name for it in symbols_of(symbol_record(stored), strings)], [wanted])

    def test_a_name_is_tested_where_it_lies(self):
        """An absent name is at the front of the file. An empty name has its own place."""
        for name, strings, offset, wanted in UNTESTED:
            with self.subTest(name):
                table = struct.pack("<I", 4 + len(strings)) + strings
                file = object_of(symbol_record(struct.pack("<II", 0, offset + 4)), table)
                found, _ = image_of(file, None, "read_object")
                cursor, symbol, batch = records().SymbolCursor(), records().Symbol(), records().Batch()
                test(calls().goblin_pe_next_symbols(*map(ctypes.byref, (found, cursor, symbol)), 1, ctypes.byref(batch)))
                self.assertEqual((symbol.has_name, value(symbol.name)), (wanted is not None, wanted or b""))
                place = symbol.name.bytes - found.bytes.bytes
                self.assertEqual(place, 0 if wanted is None else len(file) - len(strings) + offset)
                found = package().Image.object(file)
                self.assertEqual((found.string_at(offset + 4), found.string_at(3)), (wanted, None))
        self.assertEqual(package().Image.object(bytes(20)).string_at(4), None)

    def test_symbols_are_read_if_a_name_is_no_text(self):
        symbols = symbol_record(struct.pack("<II", 0, 4)) + symbol_record(struct.pack("<II", 0, 9)) + symbol_record(b"short")
        file = object_of(symbols, b"\x0E\0\0\0d\xE9j\xE0\0last\0")
        self.assertEqual([(it.index, it.name) for it in package().Image.object(file).symbols()], [(0, None), (1, b"last"), (2, b"short")])
        for cut, wanted in ((1, ("MALFORMED", "STRING_TABLE", 20 + 54 + 4, 10)), (14, ("BAD_OFFSET", None, 0, 0))):
            self.assertEqual(refusal(list, package().Image.object(file[:-cut]).symbols()), wanted)

    def test_an_image_has_symbols_and_texts_as_an_object_has(self):
        """They have them even if a name is no text."""
        data, strings = BY_NAME.read_bytes(), b"\x0E\0\0\0d\xE9j\xE0\0last\0"
        symbols = symbol_record(struct.pack("<II", 0, 4)) + symbol_record(struct.pack("<II", 0, 9))
        file = images.with_parts(data + symbols + strings, (data.index(b"PE\0\0") + 12, struct.pack("<II", len(data), 2)))
        for found in package().Image(file), package().Image.partial(file), package().Pe(file).image:
            self.assertEqual([it.name for it in found.symbols()], [None, b"last"])
            self.assertEqual((found.symbol_at(1).name, found.string_at(9), found.string_at(4)), (b"last", b"last", None))

    def test_a_table_that_is_not_in_the_file_has_no_symbols(self):
        most = 2 ** 32 - 1
        for status, pointer, count, length in ((0, 0, most, most), (0, 1, 2, 4), (4, 41, 0, 4), (4, 1, most, 0), (1, 1, 2, 5), (1, 1, 2, most)):
            with self.subTest(pointer=pointer, count=count, length=length):
                found, _ = image_of(bytes(37) + struct.pack("<I", length), None, "read_object")
                found.coff_header.pointer_to_symbol_table, found.coff_header.number_of_symbol_table = pointer, count
                for room in 0, 1:
                    walk = Walk(found, "symbols")
                    self.assertEqual(walk.call(room).status, status)
                    self.assertEqual((len(walk.rows), walk.cursor.index), (room, room) if (pointer, length) == (1, 4) else (0, 0))

    def test_a_string_table_is_as_long_as_its_length_field_at_least(self):
        self.assertEqual(symbols_of(b"", b"\x04\0\0\0"), [])
        self.assertEqual(refusal(symbols_of, b"", b"\x01\0\0\0"), ("MALFORMED", "COFF_LENGTH", 0, 0))

    def test_the_relocations_of_a_section_are_those_that_another_tool_shows(self):
        found = package().Image.object(relocated(RELOCATION_RECORDS))
        self.assertEqual(list(found.sections[0].relocations(found)), [(address, symbol, 4) for address, symbol in RELOCATIONS])

    def test_a_walk_gives_all_relocations_if_the_first_record_has_their_number(self):
        flag = 0x01000000  # (IMAGE_SCN_LNK_NRELOC_OVFL)
        row = struct.Struct("<IIH")
        for count in (0x10000, 0x10001, 0x20000):
            file = relocated(b"") + row.pack(count, 0, 0) + b"".join(row.pack(i, 7, 4) for i in range(count - 1))
            whole, cut = map(package().Image.object, (file, file[:-1]))
            full = whole.sections[0]._replace(number_of_relocations=0xFFFF, characteristics=flag)
            with self.subTest(count=count):
                self.assertEqual(list(full.relocations(whole)), [(i, 7, 4) for i in range(count - 1)])
                self.assertEqual(refusal(list, full.relocations(cut)), ("TOO_BIG", None, 0, 0))
            for other in (full._replace(number_of_relocations=2), full._replace(characteristics=0, number_of_relocations=2)):
                self.assertEqual(list(other.relocations(whole)), [(count, 0, 0), (0, 7, 4)])

    def test_no_relocations_are_read_of_any_file_and_one_is_refused_at_its_end(self):
        section = package().Image.object(relocated(b"")).sections[0]._replace(pointer_to_relocations=0)
        for data, wanted in (b"a", "TOO_BIG"), (b"", "BAD_OFFSET"):
            found = package().Image.partial(data)
            self.assertEqual(list(section.relocations(found)), [])
            self.assertEqual(refusal(list, section._replace(number_of_relocations=1).relocations(found)), (wanted, None, 0, 0))

    def test_the_base_relocations_of_a_library_are_those_that_another_tool_shows(self):
        """They are those of the package, and of the calls for C."""
        headers = images.image_headers(0x200, 1, 0x5000, ((5, 0x4000, len(LIBRARY)),))
        images.put_section(headers, 0x148, b".reloc", LIBRARY, 0x4000, 0x200)
        pe = package().Pe(headers + LIBRARY, how("AS_STORED"))
        self.assertEqual([[(it.typ, it.rva) for it in block.relocations()] for block in pe.relocation_blocks], BASE_RELOCATIONS)
        self.assertEqual(pe.errors, ())
        found, _ = image_of(headers + LIBRARY)
        for block, wanted in zip(Walk(found, "relocation_blocks").walk(2)[0], BASE_RELOCATIONS):
            (cursor,) = (it for it in block if isinstance(it, tuple))
            at, rows, batch = records().BaseRelocationCursor(*cursor), (records().BaseRelocation * 7)(), records().Batch()
            test(calls().goblin_pe_next_base_relocations(*map(ctypes.byref, (found, at)), rows, 7, ctypes.byref(batch)))
            self.assertEqual(([(it.typ, it.rva) for it in rows[:batch.count]], batch.is_done), (wanted, True))

    def test_a_block_needs_a_byte_after_its_head_and_has_whole_words(self):
        for name, directory, wanted, rest in BLOCKS:
            with self.subTest(name):
                found = image(with_blocks(directory), "IDENTITY")
                self.assertEqual([error_of(it) for it in package().Pe.of(found).errors], [rest] if rest else [])
                walk = found.relocation_blocks()
                blocks = [(it.rva, it.size, tuple(x.typ << 12 | x.rva - it.rva for x in it.relocations()))
                          for it in itertools.islice(walk, len(wanted))]
                self.assertEqual((blocks, refusal(next, walk, None)), (wanted, rest))

    def test_an_address_belongs_to_the_first_section_whose_window_holds_it(self):
        for sections, alignment, mapping, rva, wanted in OFFSETS:
            with self.subTest(sections=sections, alignment=alignment, rva=hex(rva), mapping=mapping):
                found = image(with_sections(sections, alignment), mapping)
                self.assertEqual(found.find_offset(rva), wanted)
                if wanted is not None:
                    self.assertEqual(found.find_offset(found.find_rva(wanted)), wanted)

    def test_the_address_of_an_offset_and_the_section_of_an_address(self):
        for sections, mapping, offset, rva, section in ADDRESSES:
            with self.subTest(sections=sections, offset=hex(offset), mapping=mapping):
                found = image(with_sections(sections, 0x200), mapping)
                self.assertEqual(found.find_rva(offset), rva)
                if rva is not None:
                    self.assertEqual(found.memory_at(rva, 0).section, section)

    def test_what_a_loader_sees_at_an_address(self):
        found = image(with_sections(IN_MEMORY) + b"stored")
        for look, rows in (seen, SEEN), (available, AVAILABLE):
            for rva, size, wanted in rows:
                with self.subTest(look.__name__, rva=hex(rva), size=size):
                    self.assertEqual(look(found.memory_at(rva, size)), wanted)
        dump = found.with_options(how("IDENTITY"))
        self.assertEqual(available(dump.memory_at(0x210, 99)), (b"stored", 0))
        self.assertEqual(available(dump.memory_at(len(dump.data), 1)), None)

    def test_nothing_is_found_where_nothing_is_mapped(self):
        """In objects and Terse Executables; and, if sections map addresses, in images whose file alignment is no power of two."""
        data = BY_NAME.read_bytes()
        uneven = images.with_parts(data, (struct.unpack_from("<I", data, 60)[0] + 60, struct.pack("<I", 0xC2000200)))
        for mapping, rva in itertools.product(range(4), (0, 8, 0x280, 0xEA8, 0x1000, 0x1030)):
            with self.subTest(mapping=mapping, rva=hex(rva)):
                self.assertEqual(found_at(OBJECTS[0].read_bytes(), rva, mapping, "read_object"), [])
                self.assertEqual(found_at(TERSE[0].read_bytes(), rva, mapping, "read_te"), [])
                self.assertEqual(found_at(uneven, rva, mapping) != [], mapping == 3)
        self.assertEqual([len(found_at(data, 0x1030, mapping)) for mapping in range(4)], [3] * 4)

    def test_addresses_end_at_4_gib(self):
        last = with_sections([(0xFFFFF000, 0x2000, 0x2000, 0x200)]) + bytes(0x3000)
        self.assertEqual([found_at(last, rva) != [] for rva in (0xFFFFFFF8, 1 << 32, (1 << 32) + 8)], [True, False, False])
        memory = package().Image(last).memory_at(0xFFFFFFF8, 24)
        self.assertEqual((memory.data, memory.zeros, memory.missing), (bytes(8), 0, 16))

    def test_a_flat_image_has_no_pages(self):
        """If sections are not aligned to pages, the file's next bytes follow a section in memory, and no zeros."""
        data = with_sections([(0x200, 0x200, 0x200, 0x200), (0x400, 0x200, 0x200, 0x400)]).ljust(0x200, b"\0") + b"A" * 0x200 + b"B" * 0x200
        for alignment, zeros in (0x200, 0), (0x1000, 0x200):
            struct.pack_into("<I", data, 0x78, alignment)
            memory = image(data, "AS_LOADED").memory_at(0x200, 0x400)
            self.assertEqual((bytes(memory.data), memory.zeros, memory.missing), (b"A" * 0x200, zeros, 0x200 - zeros))

    def test_where_an_address_lies(self):
        headers = with_sections(IN_MEMORY)
        struct.pack_into("<I", headers, 0x94, 0x200)  # (size_of_headers)
        for rva, region, section in REGIONS:
            with self.subTest(rva=hex(rva)):
                memory = image(headers + b"stored", "AS_LOADED" if rva < 0x1000 else "AS_STORED").memory_at(rva, 0)
                self.assertEqual((memory.region.name, memory.section), (region, section))

    def test_the_data_of_sections(self):
        file = package().Image.partial(bytes(range(256)) * 3)
        for name, (size, raw_size, pointer, flags), (begin, length, *wanted) in DATA:
            with self.subTest(name):
                memory = package().Section(b"", bytes(8), 0, size, 0, raw_size, pointer, 0, 0, 0, 0, flags, False).data(file)
                self.assertEqual((memory.data, memory.zeros, memory.missing), (file.data[begin:][:length], *wanted))

    def test_uninitialized_data_is_zeros_in_memory(self):
        file = with_sections([(0x1000, 16, 8, 0), (0x2000, 16, 8, 0x198)])
        for index in range(2):
            struct.pack_into("<I", file, 0x148 + 40 * index + 36, 0x80)
        found = image(file + b"stored" + bytes(2))
        self.assertEqual(found.memory_at(0x1000, 16), (b"", 16, 0, 0, package().Region.ZEROS))
        self.assertEqual(found.memory_at(0x2000, 16)[:3], (b"stored\0\0", 8, 0))

    def test_an_address_shows_the_bytes_at_its_offset(self):
        """So it is up to the end of data whose raw pointer, 0x10, is rounded down, as packers make it. A loader sees the headers, too."""
        file = with_sections([(0x1000, 0x1000, 0x3F0, 0x10)])
        struct.pack_into("<I", file, 0x94, 0x200)  # (size_of_headers)
        file += bytes(range(1, 101)) * 7
        file = file[:0x3FC] + b"last"
        for mapping in "AS_STORED", "BY_FILE_ALIGNMENT", "AS_LOADED":
            found = image(file, mapping)
            for rva in (0, 0x1FF, 0x200, 0xFFF, 0x1000, 0x100F, *range(0x13E0, 0x1420), 0x1FFF, 0x2000):
                offset, memory = found.find_offset(rva), found.memory_at(rva, 1)
                with self.subTest(rva=hex(rva), mapping=mapping):
                    if rva < 0x200:
                        front = (rva, "HEADERS") if mapping == "AS_LOADED" else (None, "UNMAPPED")
                        self.assertEqual((offset, memory.region.name, memory.section), (*front, None))
                    if offset is not None and offset < len(file):
                        self.assertEqual(memory.whole(), file[offset:][:1])
                        if rva >= 0x1000:
                            self.assertEqual(memory.region, package().Region.RAW_DATA)
            if mapping != "AS_STORED":
                self.assertEqual(found.memory_at(0x13FC, 8)[:3], (b"last", 4, 0))
                self.assertEqual(found.sections[0].data(found)[:3], (file, 0x1000 - len(file), 0))

    def test_the_text_and_the_bytes_at_an_address(self):
        for data, rva, size, text, wanted in CONTENTS:
            with self.subTest(data=data, rva=hex(rva), size=size):
                found = image(with_sections([(0x1000, 16, 16, 0x170)]) + data)
                self.assertEqual(found.text_at(rva), text)
                self.assertEqual(found.memory_at(rva, size).whole(), wanted)
