"""Imports and exports: what both modes list and what permissive mode skips, names up to a limit, and sections that overlap.

Each table has files whose every byte is known, and what is read of them."""
import ctypes
import operator
import pickle
import random
import struct
import sys
import unittest
from unittest import mock

from tests import images
from tests.bindings import COUNTED, WALKS, Walk, calls, error_of, image_of, options, package, records, refusal
from tests.images import sample, with_parts
from tests.programs import BY_NAME, CC, need
from tests.test_walks import STEPS


def wide_sample():
    """The same section in an image for 64 bits."""
    headers = images.image_headers(0x200, 1, 0x2000, ((0, 0x10A0, 0x60), (1, 0x1000, 0x28)))
    return with_parts(bytes(0x300), (0, headers), (0x148, sample()[0x138:0x160]), (0x200, sample()[0x200:]))


def moved_headers():
    """The image with its PE signature, and the headers after it, at 0x10. So there is no room for a stub."""
    return sample((0x10, sample()[0x40:0x200]), (0x3C, b"\x10"))


def packed_sample(length):
    """The first bytes of the image, with the address table and the library's name before the lookup table at 0x240. It has no
    exports."""
    record = struct.pack("<5I", 0x1040, 0, 0, 0x1034, 0x1028)
    return sample((0xB8, bytes(8)), (0x200, record), (0x228, b"\x90\x10\0\0\x07\0\0\x80\0\0\0\0a.dll"))[:length]


# Its imports: the DLL, the name, the hint, the ordinal, the RVAs of the slot in the import address table and of the name, and the
# indexes of the library and of the entry.
GO = (b"a.dll", b"Go", 5, None, 0x1060, 0x1090, 0, 0)
SEVEN = (b"a.dll", None, None, 7, 0x1064, 0, 0, 1)
# Its exports: the name, the ordinal, the hint, the address, that of the name, its file offset, and the forwarder.
TO_12 = (b"b", None, 12)
UNFORWARDED = (b"f", 1, 0, 0x1010, 0x10F0, 0x210, None)
FORWARDED = (b"a.dll", 2, 1, 0x10E0, 0x1080, 0x2E0, TO_12)

# Files, and their imports in both modes.
IMPORTED = [
    ("the sample", sample(), [GO, SEVEN]),
    ("no text after the NUL of the library's name", sample((0x28A, b"\xFF")), [GO, SEVEN]),
    ("no lookup table, so the address table is read instead", sample((0x200, b"\0\0")), [GO, SEVEN]),
    ("a lookup table at the directory, whose entry leads to its own bytes", sample((0x200, b"\0\x10")),
     [(b"a.dll", b"", 4096, None, 0x1060, 0x1000, 0, 0)]),
    ("a hint that no section maps", sample((0x240, b"\0\x90")), [SEVEN]),
    ("a name that reaches the end", sample((0xB8, bytes(8)))[:0x292] + b"A" * 366,
     [(b"a.dll", b"A" * 366, 5, None, 0x1060, 0x1090, 0, 0), SEVEN]),
    ("entries of eight bytes", wide_sample(), [(b"a.dll", None, None, 4240, 0x1060, 0, 0, 0)]),
]
# An import descriptor whose address table no section maps, from its end on, and the sample's own descriptor.
TWO_RECORDS = struct.pack("<6I", 0x9000, 0x1040, 0, 0, 0x1080, 0x1060)
# Files, why strict mode refuses their imports, and the imports in permissive mode.
REFUSED_IMPORTS = [
    ("a hint without a name", sample((0x240, b"\xFE\x10")), ("BAD_OFFSET", None, 0, 0), [(b"a.dll", b"", 0, None, 0x1060, 0x10FE, 0, 0), SEVEN]),
    ("a hint that is not whole", sample((0x240, b"\xFF\x10")), ("MALFORMED", "HINT_ENTRY", 0x2FF, 0), [SEVEN]),
    ("an address table that no section maps", sample((0x210, TWO_RECORDS)), ("MALFORMED", "UNMAPPED", 0x9000, 0),
     [(*GO[:6], 1, 0), (*SEVEN[:6], 1, 1)]),
    ("the end after two entries, before the names", packed_sample(0x248), ("MALFORMED", "HINT_ENTRY", 0x290, 0),
     [(b"a.dll", None, None, 7, 0x102C, 0, 0, 1)]),
    ("the end within the second entry", packed_sample(0x247), ("MALFORMED", "HINT_ENTRY", 0x290, 0), []),
]

# Files, and their exports.
EXPORTED = [
    ("the sample", sample(), [UNFORWARDED, FORWARDED]),
    ("another ordinal base", sample((0x2B0, b"\0\x01")),
     [(b"f", 256, *UNFORWARDED[2:]), (b"a.dll", 257, *FORWARDED[2:])]),
    ("a name that no section maps", sample((0x2D0, b"\0\x90")), [(None, 1, 0, 0x1010, 0x9000, 0x210, None), FORWARDED]),
    ("a name that is not UTF-8", sample((0x2F0, b"\xFF")), [(None, *UNFORWARDED[1:]), FORWARDED]),
    ("two names of one address", sample((0x2D8, b"\x01")), [(b"f", 2, 0, 0x10E0, 0x10F0, 0x2E0, TO_12), FORWARDED]),
    ("an ordinal without an address", sample((0x2D8, b"\x02")), [FORWARDED]),
    ("a forwarder without a dot", sample((0x2E1, b"-")), [UNFORWARDED]),
]
# Files in which a table reaches the end, the hints of their exports, and how many addresses there are. Three of the twelve name
# pointers have ordinals without an address.
CUT_EXPORTS = [
    ("768 name pointers", sample((0x2B8, b"\0\x03")), [0, 1, 2, 3, 7, 8, 9, 10, 11], 2),
    ("768 ordinals, four of them in the file", sample((0x2B8, b"\0\x03"), (0x2C4, b"\xF8\x10")), [0, 1, 2, 3], 2),
    ("768 addresses", sample((0x2B4, b"\0\x03")), [0, 1], 14),
]
# Files that are shorter than their export tables, and why they are refused.
SHORT_EXPORTS = [
    ("name pointers", sample((0x2B4, b"\x01\x03"), (0x2B8, b"\x01\x03")), ("TOO_SHORT", None, 769, 0)),
    ("address table entries", sample((0x2B4, b"\x01\x03")), ("TOO_SHORT", None, 769, 0)),
]
# Texts, and the DLL, the name and the ordinal that they forward to. Then texts that are no forwarders.
FORWARDERS = [
    (b"KERNEL32.HeapAlloc", (b"KERNEL32", b"HeapAlloc", None)), (b".x", (b"", b"x", None)), (b"a.b.#1", (b"a", b"b.#1", None)),
    (b"a.#12", (b"a", None, 12)), (b"a.#+7", (b"a", None, 7)),
]
NO_FORWARDERS = [b"a.", b"a", b"", b"a.#4294967296", b"a.#"]

# Texts, and their fronts of at most eight bytes. If the next character is not UTF-8, the text has no front.
UP_TO_8 = [
    (b"12345678", b"12345678"), (b"123456789", b"12345678"), (b"123456789A", b"12345678"), (b"1" * 5000, b"1" * 8),
    ("123456\u00E9".encode(), "123456\u00E9".encode()), ("1234567\u00E9".encode(), b"1234567"), ("123456\u00E99".encode(), "123456\u00E9".encode()),
    ("12345678\u00E99".encode(), b"12345678"), ("1234567\u20AC9".encode(), b"1234567"), ("12345\u20AC9".encode(), "12345\u20AC".encode()),
    ("12345\U0001D11E9".encode(), b"12345"), ("12345678\U0001D11E9".encode(), b"12345678"),
    (b"123456789\xFF", b"12345678"), (b"123456789\x80", None), (b"12345678\xFF", None), (b"1234\xFF", None),
]
# Texts of forwarders, their values with a limit of eight bytes, and whether they are cut. In a longer one, a name follows the first dot.
FORWARDERS_UP_TO_8 = [
    (b"KERNEL.a", (b"KERNEL", b"a", None, False)), (b"KERNEL.ab", (b"KERNEL", b"a", None, True)),
    (b"KERNEL.abc", (b"KERNEL", b"a", None, True)), ("KERNEL.\u00E9".encode(), (b"KERNEL", b"", None, True)),
    (b"KERNELL.a", (b"KERNELL", b"", None, True)), (b"a.#00012", (b"a", None, 12, False)), (b"a.#0000012", (b"a", b"#00000", None, True)),
    (b"KERNEL32.HeapAlloc", (b"KERNEL32", b"", None, True)), (b"KERNEL64a.HeapAlloc", (b"KERNEL64", b"", None, True)),
    (b"KERNEL64and", (b"KERNEL64", b"", None, True)), ("KERNEL6\u00E9".encode(), (b"KERNEL6", b"", None, True)),
]

# Files, and the offsets and lengths of the texts of their section (the name), their imports (the DLL and the name) and their
# exports (the name, and the DLL and the name that it forwards to). An absent text has the offset 0.
ABSENT = (0, 0)
PLACES = [
    ("a forwarder by ordinal", sample(), [(0x138, 6)], [(0x280, 5), (0x292, 2), (0x280, 5), ABSENT],
     [(0x2F0, 1), ABSENT, ABSENT, (0x280, 5), (0x2E0, 1), ABSENT]),
    ("a forwarder by name", sample((0x2E0, b"b.gh\0")), [(0x138, 6)], [(0x280, 5), (0x292, 2), (0x280, 5), ABSENT],
     [(0x2F0, 1), ABSENT, ABSENT, (0x280, 5), (0x2E0, 1), (0x2E2, 2)]),
    ("empty texts",
     sample((0x138, b"/50\0\0\0"), (0x280, b"\0"), (0x292, b"\0"), (0x2E0, b".x\0\0\0"), (0x2F0, b"\0")), [(50, 0)],
     [(0x280, 0), (0x292, 0), (0x280, 0), ABSENT], [(0x2F0, 0), ABSENT, ABSENT, (0x280, 0), (0x2E0, 0), (0x2E1, 1)]),
]
MODES = (False, True)  # (whether permissive)
TEXTS = {"sections": ["name"], "imports": ["dll", "name"], "exports": ["name", "forwarder.dll", "forwarder.name"]}
# The export addresses of the sample.
ADDRESSES = [(1, 0x1010, False), (2, 0x10E0, True)]

# A hint that is cut by the end of the file. Three descriptors of one library; no section maps the address table of the second.
CUT_HINT = (0x240, b"\xFF\x10")
RECORD = struct.pack("<5I", 0x1040, 0, 0, 0x1080, 0x1060)
THREE_RECORDS = [(0x214, RECORD), (0x224, b"\0\x90"), (0x228, RECORD)]
# An import directory at file offset 0.
FRONT = images.directory_in_front()
# Files, and how many libraries permissive mode skips, how many tables and imports, and how many imports lead nowhere.
SKIPPED = [
    ("an address table that no section maps", sample((0x210, b"\0\x90")), (1, 0, 0)),
    ("a hint that is not whole", sample(CUT_HINT), (0, 1, 0)),
    ("a hint without a name, which is kept", sample((0x240, b"\xFE\x10")), (0, 0, 0)),
    ("a hint that no section maps", sample((0x240, b"\0\x90")), (0, 0, 1)),
    ("a hint that no section maps, of a library whose address table cannot be read", sample((0x240, b"\0\x90"), (0x210, b"\0\x90")), (1, 0, 0)),
    ("the entries of two libraries, and a third library", sample(CUT_HINT, *THREE_RECORDS), (1, 2, 0)),
    ("a directory at file offset 0", FRONT, (0, 1, 0)),
    ("an address that no section maps", sample((0xC0, struct.pack("<I", 0x9000))), (0, 1, 0)),
]
# Files with one damaged part, why strict mode refuses it, and what permissive mode skips.
DAMAGED = [
    ("a section's name that is no text", sample((0x138, b"/\xFF\0\0\0\0\0\0")), ("MALFORMED", "NAME_TEXT", 0, 0), {}),
    ("an address table that no section maps", sample((0x211, b"\x90")), ("MALFORMED", "UNMAPPED", 0x9060, 0), {"imports": 1}),
    ("a hint that would pass the file", sample(CUT_HINT), ("MALFORMED", "HINT_ENTRY", 0x2FF, 0), {"imports": 1}),
    ("16 of the 40 bytes of an export directory's record", sample((0xB8, b"\xF0")), ("MALFORMED", "EXPORT_TABLE", 0x2F0, 0),
     {"exports": 1, "export_addresses": 1}),
    ("base relocations that pass the file", sample((0xE0, b"\xF8\x10\0\0\x09")), ("MALFORMED", "RELOC_RANGE", 0x2F8, 9),
     {"relocation_blocks": 1}),
    ("a stub that would begin after its end", moved_headers(), ("MALFORMED", "STUB_BEFORE_START", 0x10, 0), {}),
]

# Two sections that overlap, each with a library, an import and an export of its own. The import descriptor at 0x1000 and the
# export directory at 0x1100 lead to addresses in both.
IN_BOTH = [
    (0x800, b"\x10\x12"), (0x80C, b"\x40\x12\0\0\x20\x12"), (0x90C, b"\x40\x12"), (0x914, b"\x01\0\0\0\x01"),
    (0x91C, b"\x80\x12\0\0\x84\x12\0\0\x88\x12"),
    (0x410, b"\x50\x12"), (0x420, b"\x0B"), (0x440, b"narrow"), (0x450, b"\x05\0f"), (0x480, b"\x90\x12\0\0\x40\x12"),
    (0xA10, b"\x50\x12"), (0xA20, b"\x16"), (0xA40, b"wide"), (0xA50, b"\x06\0g"), (0xA80, b"\xA0\x12\0\0\x40\x12"),
]
# The sections, by their address, their size, their raw pointer, and whether that lies past the data if raw pointers are rounded:
# the inner one, the outer one, one apart from both, and others above them.
NARROW = (0x1200, 0x200, 0x400, True)
WIDE = (0x1000, 0x800, 0x800, True)
APART = (0x1C00, 0x200, 0x200, False)
ABOVE = [(0x2000 + 0x1000 * index, 0x200, 0x200, False) for index in range(98)]
# The values in each: the file offset of its part of the overlap, the library's name, its first address, the import's hint and
# name, and the export's address.
IN_NARROW = (0x400, b"narrow", 0x0B, 5, b"f", 0x1290)
IN_WIDE = (0xA00, b"wide", 0x16, 6, b"g", 0x12A0)
# The two sections in an order, and the values that are found.
ORDERS = [
    ("the narrow one first", [NARROW, WIDE], IN_NARROW), ("the wide one first", [WIDE, NARROW], IN_WIDE),
    ("one apart after it", [WIDE, APART], IN_WIDE), ("one apart before it", [APART, WIDE], IN_WIDE),
]
# The sections before these two, and after them: none, or as many as need an index.
OTHERS = [("none", [], []), ("after", [], ABOVE), ("before", ABOVE[::-1], [])]


def setUpModule():
    need(CC)  # (for the shared library)
    package()


def overlapping(sections, past):
    """The file with these sections, whose headers come after their data. The raw pointers that may be rounded lie `past` bytes
    after the data."""
    records = b"".join(struct.pack("<8s4I16x", b"", size, address, size, pointer + past * may_be_rounded)
                       for address, size, pointer, may_be_rounded in sections)
    directories = struct.pack("<4I", 0x1100, 40, 0x1000, 40)
    changes = [(0x46, struct.pack("<H", len(sections))), (0x54, struct.pack("<H", 0x1000 - 0x58)), (0xB8, directories)]
    return with_parts(bytes(0x1000), *images.HEADERS, *changes, *IN_BOTH) + records


def how(mapping="AS_STORED", **more):
    """Options, with the mapping by its name."""
    return package().Options(mapping=package().Mapping[mapping], **more)


def read(data, **more):
    return package().Pe(data, how(**more))


def image(data, **more):
    return package().Image(data, how(**more))


def inner(module):
    """A module of the package."""
    return sys.modules[f"{package().__name__}.{module}"]


def whole_imports(rows):
    """Rows of imports in which no name is cut."""
    return [(*it, False, False) for it in rows]


def whole_exports(rows):
    """Rows of exports in which no name and no forwarder is cut."""
    return [(*it, forwarder and (*forwarder, False), False) for *it, forwarder in rows]


class Read(unittest.TestCase):
    def assert_refused(self, data, wanted):
        """Strict mode refuses a file for this cause."""
        self.assertEqual(refusal(read, data), wanted)

    def counts(self, walk):
        """What a walk counts to its end."""
        list(walk)
        return walk.skipped, walk.unmapped

    def assert_table(self, make, wanted, skipped):
        """A walk gives these rows, also with a call for each row. If a number is given, it skips as many."""
        for room in (256, 1):
            with mock.patch.multiple(inner("_walk"), _FIRST=room, _ROOM=room):
                walk = make()
                self.assertEqual(list(walk), wanted)
                self.assertIn(skipped, (None, walk.skipped))

    def assert_imports(self, found, wanted, skipped=None):
        self.assert_table(found.imports, whole_imports(wanted), skipped)

    def assert_exports(self, found, wanted, skipped=None):
        self.assert_table(found.exports, whole_exports(wanted), skipped)


class Imports(Read):
    def test_imports_that_both_modes_list_are_the_same(self):
        for name, data, wanted in IMPORTED:
            for permissive in MODES:
                with self.subTest(name, permissive=permissive):
                    self.assert_imports(image(data, permissive=permissive), wanted)
                    self.assertEqual(list(read(data, permissive=permissive).imports), whole_imports(wanted))

    def test_imports_that_strict_mode_refuses_are_listed_in_permissive_mode(self):
        for name, data, refused, wanted in REFUSED_IMPORTS:
            with self.subTest(name):
                self.assert_refused(data, refused)
                self.assert_imports(image(data, permissive=True), wanted)


class Exports(Read):
    def test_both_modes_list_the_same(self):
        for name, data, wanted in EXPORTED:
            for permissive in MODES:
                with self.subTest(name, permissive=permissive):
                    self.assert_exports(image(data, permissive=permissive), wanted)
                    self.assertEqual(list(read(data, permissive=permissive).exports), whole_exports(wanted))

    def test_tables_are_cut_at_the_end_of_the_file(self):
        for name, data, hints, addresses in CUT_EXPORTS:
            for permissive in MODES:
                with self.subTest(name, permissive=permissive):
                    pe = read(data, permissive=permissive)
                    self.assertEqual(([it.hint for it in pe.exports], len(pe.export_addresses)), (hints, addresses))

    def test_counts_above_the_length_of_the_file_are_refused(self):
        for name, data, refused in SHORT_EXPORTS:
            with self.subTest(name):
                self.assert_refused(data, refused)
                with self.assertRaisesRegex(package().PeError, f"769 {name}$"):
                    next(image(data).exports())
                found = image(data, permissive=True)
                self.assert_exports(found, [], 1)

    def test_forwarders_name_a_dll_and_a_name_or_an_ordinal(self):
        for text, wanted in FORWARDERS:
            with self.subTest(text):
                pe = read(images.library(b"a.dll", [(b"f", text)]))
                self.assertEqual([it.forwarder for it in pe.exports], [(*wanted, False)])
                self.assertEqual([pe.image.forwarder_at(it.rva) for it in pe.export_addresses], [(*wanted, False)])

    def test_texts_that_are_no_forwarders_are_no_exports(self):
        for text in NO_FORWARDERS:
            with self.subTest(text):
                pe = read(images.library(b"a.dll", [(b"f", text)]))
                self.assertEqual((pe.exports, [it.is_forwarder for it in pe.export_addresses]), ((), [True]))
                self.assertEqual((pe.skipped["exports"], pe.unmapped["exports"]), (0, 1))
                self.assertRaises(package().PeError, pe.image.forwarder_at, pe.export_addresses[0].rva)


class LongNames(Read):
    """Names with a limit, which is eight bytes here."""

    def images(self, file):
        return (image(file, permissive=it, longest_name=8) for it in MODES)

    def test_the_names_of_imports_and_libraries(self):
        for text, wanted in UP_TO_8:
            with self.subTest(text):
                strict, permissive = self.images(images.importer([(text, [b"f"]), (b"a.dll", [text])]))
                is_cut = wanted not in (None, text)
                names = [(wanted or b"", is_cut, b"f", False), (b"a.dll", False, wanted or b"", is_cut)]
                libraries = [(wanted, is_cut), (b"a.dll", False)]
                if wanted is None:
                    self.assertRaises(package().PeError, list, strict.imports())
                for found in (permissive,) if wanted is None else (strict, permissive):
                    self.assertEqual([(it.dll, it.is_library_cut, it.name, it.is_name_cut) for it in found.imports()], names)
                    self.assertEqual([(it.name, it.is_name_cut) for it in found.libraries()], libraries)

    def test_the_names_of_exports(self):
        for text, wanted in UP_TO_8:
            for found in self.images(images.library(text, [(text, 0x9000), (b"g", 0x9000)])):
                with self.subTest(text):
                    of_text = wanted, wanted not in (None, text)
                    self.assertEqual([(it.name, it.is_name_cut) for it in found.exports()], [of_text, (b"g", False)])
                    self.assertEqual((found.export_directory().name, found.export_directory().is_name_cut), of_text)

    def test_forwarders(self):
        for text, wanted in FORWARDERS_UP_TO_8:
            for found in self.images(images.library(b"a.dll", [(b"f", text)])):
                with self.subTest(text):
                    self.assertEqual([it.forwarder for it in found.exports()], [wanted])
                    self.assertEqual([found.forwarder_at(it.rva) for it in found.export_addresses()], [wanted])

    def named(self, text, section=b"/4", symbol=struct.pack("<II", 0, 4)):
        """An object and an image with one section and one symbol of these names, and with this text in the string table."""
        tables = struct.pack("<8s10xI", symbol, len(text) + 5) + text + b"\0"
        file = sample((0x138, struct.pack("8s", section)))
        yield struct.pack("<HHIIIHH8s32x", 0x8664, 1, 0, 60, 1, 0, 0, section) + tables
        yield images.with_parts(file + tables, (file.index(b"PE\0\0") + 12, struct.pack("<II", len(file), 1)))

    def both(self, files, **more):
        """An object and an image, read with these options."""
        of_object, of_image = files
        return package().Image.object(of_object, how(**more)), image(of_image, **more)

    def test_the_names_of_sections_and_symbols(self):
        for text, wanted in UP_TO_8:
            for permissive in MODES:
                for it in self.both(self.named(text), permissive=permissive, longest_name=8):
                    for found in it, pickle.loads(pickle.dumps(it)):
                        with self.subTest(text, permissive=permissive, kind=found.kind):
                            of_text = wanted, wanted not in (None, text)
                            self.assertEqual([(s.name, s.is_name_cut) for s in found.sections], [(b"/4", False) if wanted is None else of_text])
                            self.assertEqual([(s.name, s.is_name_cut) for s in (*found.symbols(), found.symbol_at(0))], [of_text] * 2)

    def test_a_name_in_a_record_is_cut_too(self):
        for longest, section, symbol in (4, b".lon", b"long"), (7, b".longse", b"longnam"), (8, b".longsec", b"longname"):
            for it in self.both(self.named(b"", b".longsec", b"longname"), longest_name=longest):
                self.assertEqual([(s.name, s.is_name_cut) for s in it.sections], [(section, longest < 8)])
                self.assertEqual([(s.name, s.is_name_cut) for s in it.symbols()], [(symbol, longest < 8)])

    def test_a_name_that_is_not_utf_8_is_cut_before_a_byte_that_may_begin_a_character(self):
        for longest, wanted in (1, b"a"), (2, b"a"), (3, b"a"), (4, b"a\xE2\x82\x82"), (7, b"a\xE2\x82\x82\xFF\xFE\xFD"):
            for it in self.both(self.named(b"", b"a\xE2\x82\x82\xFF\xFE\xFD\xFC"), longest_name=longest):
                self.assertEqual([(s.name, s.is_name_cut) for s in it.sections], [(wanted, True)])

    def test_the_name_of_a_source_file_is_cut_too(self):
        name = b"a_long_name_of_a_file.c"
        for longest, wanted in (1, b"a"), (len(name) - 1, name[:-1]), (len(name), name), (None, name):
            symbol = struct.pack("<8sIhHBB", b".file", 0, -2, 0, 103, 2) + name.ljust(36, b"\0")
            file = struct.pack("<HHIIIHH", 0x8664, 0, 0, 20, 3, 0, 0) + symbol + struct.pack("<I", 4)
            found = package().Image.object(file, how(longest_name=longest))
            found = next(found.symbols()).auxiliary(found)
            self.assertEqual((found.file, found.is_file_cut), (wanted, wanted != name))

    def test_a_section_is_found_by_its_whole_name(self):
        for it in self.both(self.named(b"123456789A")):
            self.assertIsNotNone(it.section_by_name("123456789A"))

    def test_a_section_is_found_by_no_name_that_is_cut(self):
        for it in (*self.both(self.named(b"123456789A"), longest_name=8), self.both(self.named(b"123456789A"), permissive=True, longest_name=8)[1]):
            self.assertEqual([it.section_by_name(name) for name in ("12345678", "123456789", "123456789A")], [None, None, None])
        self.assertIsNone(self.both(self.named(b"/4x"), longest_name=1)[0].section_by_name("/4"))

    def test_an_export_is_found_by_no_name_that_is_cut(self):
        for found in self.images(images.library(b"a.dll", [(b"123456789A", 0x9000), (b"12345678", 0x9000)])):
            self.assertEqual([found.find_export(it) for it in (b"123456789", b"123456789A")], [None, None])
            self.assertEqual(found.find_export(b"12345678").name, b"12345678")

    def test_imports_are_hashed_with_whole_names_alone(self):
        file = images.importer([(b"a_long_name.dll", [b"a_long_name", b"f"])])
        wanted = image(file).imphash()
        self.assertIsNotNone(wanted)
        self.assertEqual([it.imphash() for it in (*self.images(file), image(file, longest_name=15))], [None, None, wanted])

    def test_limits_at_the_ends(self):
        file = images.importer([(b"a.dll", [b"\xC3\xA9t\xC3\xA9"])])
        whole = b"\xC3\xA9t\xC3\xA9"
        for longest, wanted in (1, b""), (2, whole[:2]), (3, whole[:3]), (4, whole[:3]), (5, whole), ((1 << 32) - 1, whole), (None, whole):
            self.assertEqual([(it.name, it.is_name_cut) for it in image(file, longest_name=longest).imports()], [(wanted, wanted != whole)])
        cut = packed_sample(0x29B)[:0x292] + b"123456789"  # (which ends with the file)
        for longest in 7, 8, 9:
            it = next(image(cut, permissive=True, longest_name=longest).imports())
            self.assertEqual((it.name, it.is_name_cut), (b"123456789"[:longest], longest < 9))

    def test_a_limit_is_a_number_of_bytes(self):
        self.assertEqual(package().Options().longest_name, 4096)
        for wrong in 0, -1, 1 << 32:
            self.assertRaises(ValueError, package().Options, longest_name=wrong)
        self.assertRaises(TypeError, package().Options, longest_name="8")

    def test_a_limit_is_no_bool_and_no_fraction(self):
        for wrong in True, 8.0:
            self.assertRaises(TypeError, package().Options, longest_name=wrong)


class Forged(unittest.TestCase):
    """Cursors that no walk gave: random numbers."""

    def setUp(self):
        self.random = random.Random(88)
        self.files = [bytes(it) for it in (sample(), wide_sample(), images.own_tables(30), images.shared_image(5, 20), images.hostile_image(1 << 12))]

    def number(self, size, bits=64):
        most = (1 << bits) - 1
        of = self.random.randrange
        return self.random.choice((of(size + 2), self.random.getrandbits(bits), most - of(40), max(size - of(64), 0), 0x1000 + of(0x3000), of(8)))

    def forged(self, kind, size):
        made = kind()
        for name, field in kind._fields_:
            if name != "reserved":
                setattr(made, name, self.random.random() < 0.6 if field is ctypes.c_bool else self.number(size, 8 * ctypes.sizeof(field)))
        made.is_begun = self.random.random() < 0.9
        return made

    def walked(self, image, word, begin, rooms):
        """The first rows, and how the walk ended. Each call has its own room and steps."""
        walk = Walk(image, word, type(begin).from_buffer_copy(begin))
        for room, steps in rooms:
            before = bytes(walk.cursor), len(walk.rows)
            fault = walk.call(room, steps and ctypes.c_size_t(steps))
            self.assertLessEqual(len(walk.rows) - before[1], min(room, steps or room) if word in COUNTED else room)
            if fault.status:
                self.assertEqual((bytes(walk.cursor), len(walk.rows)), before)
            if len(walk.rows) >= 100 or walk.batch.is_done and fault.status != STEPS:
                return walk.rows[:100], fault.status
        return walk.rows, None

    def test_a_walk_is_the_same_by_any_room_and_steps(self):
        for _ in range(3000):
            data, permissive = self.random.choice(self.files), self.random.random() < 0.5
            found, _ = image_of(data, options(permissive, 0, package().Mapping.AS_STORED))
            word = self.random.choice(list(WALKS))
            begin = self.forged(getattr(records(), WALKS[word][1]), len(data))
            whole = self.walked(found, word, begin, [(40, None)] * 4)
            parts = self.walked(found, word, begin,
                                [(self.random.randrange(1, 40), self.random.choice((None, None, 7, 300))) for _ in range(300)])
            if parts[1] is None:  # (The number of calls was too small.)
                parts, whole = parts[0], whole[0][:len(parts[0])]
            self.assertEqual(parts, whole, (word, bytes(begin).hex(), len(data), permissive))

    def given(self, found, kind, begin, steps):
        """The first rows of a walk from a cursor on, and why it ended. The walk goes on whenever its budget is used up."""
        budget, rows = package().Budget(), []
        walk = package().Walk(found, kind, type(begin).from_buffer_copy(begin), budget)
        for _ in range(100):
            budget.left = steps
            try:
                for row in walk:
                    rows.append(row)
                    if len(rows) == 100:
                        return rows, True
                return rows, True
            except package().OutOfSteps:
                pass
            except package().PeError as error:
                return rows, error_of(error)
        return rows, None

    def test_walks_of_an_image_from_anywhere(self):
        """In the package, a walk that is interrupted after every few steps gives the same rows."""
        kinds = [getattr(inner("_rows"), it) for it in ("IMPORTS", "LIBRARIES", "EXPORTS", "EXPORT_ADDRESSES", "BLOCKS")]
        for _ in range(1000):
            data, permissive = self.random.choice(self.files), self.random.random() < 0.5
            found, kind = image(data, permissive=permissive), self.random.choice(kinds)
            begin = self.forged(kind.cursor, len(data))
            whole, parts = (self.given(found, kind, begin, it) for it in (1 << 20, self.random.randrange(1, 60)))
            if parts[1] is None:  # (It was continued too few times.)
                parts, whole = parts[0], whole[0][:len(parts[0])]
            self.assertEqual(parts, whole, (kind.table, bytes(begin).hex(), len(data), permissive))


class Skipped(Read):
    def test_imports_and_libraries_that_are_skipped_are_counted(self):
        for name, data, (libraries, others, unmapped) in SKIPPED:
            with self.subTest(name):
                found = image(data, permissive=True)
                self.assertEqual(self.counts(found.imports()), (libraries + others, unmapped))
                self.assertEqual(sum(it.is_skipped for it in found.libraries()), libraries)

    def test_a_walk_in_strict_mode_marks_each_library_that_is_skipped(self):
        for name, data, wanted in SKIPPED[:-1]:
            with self.subTest(name):
                walk = image(data).libraries()
                self.assertEqual(sum(it.is_skipped for it in walk), wanted[0])
                self.assertEqual((walk.skipped, walk.unmapped), (0, 0))

    def test_a_directory_at_file_offset_0_is_listed_in_strict_mode_alone(self):
        strict, permissive = (image(FRONT, permissive=it) for it in MODES)
        self.assert_imports(strict, [(b"evil.dll", b"WinExec", 0, None, 0x1260, 0x1290, 0, 0)])
        self.assert_imports(permissive, [], 1)

    def test_an_import_that_leads_nowhere_is_counted_in_both_modes(self):
        for permissive in MODES:
            with self.subTest(permissive=permissive):
                found = image(images.import_from_nowhere(BY_NAME.read_bytes()), permissive=permissive)
                self.assert_imports(found, [])
                self.assertEqual(self.counts(found.imports()), (0, 1))

    def test_nothing_of_a_whole_file_is_skipped(self):
        for permissive in MODES:
            pe = read(sample(), permissive=permissive)
            self.assertEqual({*pe.skipped.values(), *pe.unmapped.values()}, {0})

    def test_what_strict_mode_refuses_is_counted(self):
        for name, data, refused, skipped in DAMAGED:
            with self.subTest(name):
                self.assert_refused(data, refused)
                pe = read(data, permissive=True)
                self.assertEqual({it: count for it, count in pe.skipped.items() if count}, skipped)
                self.assertEqual({*pe.unmapped.values()}, {0})


class WholeFiles(Read):
    def places(self, data, word):
        """The places of the texts of all rows of a table."""
        found, _ = image_of(data, options(mapping=package().Mapping.AS_STORED))
        walk, rows, steps = Walk(found, word), (getattr(records(), WALKS[word][0]) * 4)(), [None] if word in COUNTED else []
        fault = getattr(calls(), f"goblin_pe_next_{word}")(
            ctypes.byref(found), ctypes.byref(walk.cursor), rows, 4, *steps, ctypes.byref(walk.batch))
        self.assertEqual((fault.status, walk.batch.is_done), (0, True))
        texts = [operator.attrgetter(*TEXTS[word])(it) for it in rows[:walk.batch.count]]
        return [(it.bytes - found.bytes.bytes, it.length) for row in texts for it in (row if isinstance(row, tuple) else [row])]

    def test_where_texts_lie(self):
        for name, data, *wanted in PLACES:
            with self.subTest(name):
                self.assertEqual([self.places(data, word) for word in TEXTS], wanted)

    def test_the_directories_and_sections_of_a_file_are_read_in_both_modes(self):
        for permissive in MODES:
            with self.subTest(permissive=permissive):
                pe = read(sample(), permissive=permissive)
                self.assertEqual({i: it for i, it in enumerate(pe.image.directories) if any(it)}, {0: (0x10A0, 0x60), 1: (0x1000, 0x28)})
                self.assertEqual(list(pe.sections), [(b".rdata", b".rdata\0\0", 0, 0x100, 0x1000, 0x100, 0x200, 0, 0, 0, 0, 0, False)])
                self.assertEqual(pe.relocation_blocks, ())

    def test_what_the_export_directory_leads_to(self):
        pe = read(sample())
        self.assertEqual(pe.export_directory, (b"a.dll", 0, 0, 0, 0, 0x1080, 1, 2, 2, 0x10C8, 0x10D0, 0x10D8, False))
        self.assertEqual(list(pe.export_addresses), ADDRESSES)
        self.assertEqual(pe.image.forwarder_at(0x10E0), (*TO_12, False))

    def test_addresses_are_read_without_the_names(self):
        """The directory counts more name pointers than the file has bytes: the exports are refused, but an ordinal is found."""
        data = sample((0x2B8, b"\x01\x03"))
        for permissive in MODES:
            found = image(data, permissive=permissive)
            with self.subTest(permissive=permissive):
                self.assertEqual(list(found.export_addresses()), ADDRESSES)
                self.assertEqual((found.export_directory().name, found.export_directory().number_of_name_pointers), (b"a.dll", 769))
                self.assertEqual(found.find_export_by_ordinal(1), ADDRESSES[0])
        self.assert_refused(data, ("TOO_SHORT", None, 769, 0))
        pe = read(data, permissive=True)
        self.assert_exports(pe.image, [], 1)
        self.assertEqual((pe.exports, list(pe.export_addresses)), ((), ADDRESSES))
        more = image(sample((0x2B4, b"\x01\x03"), (0x2B8, b"\x01\x03")))
        with self.assertRaisesRegex(package().PeError, "769 address table entries$"):
            next(more.export_addresses())

    def test_an_export_directory_that_passes_the_window_of_its_section(self):
        """It begins 8 bytes before the end of the window, and the next window is elsewhere in the file. So only the first RVA of
        the record leads to the record. Its ordinal base is 100."""
        headers = bytearray(images.image_headers(0x200, 2, 0x10000, ((0, 0x1000, 40),)))
        struct.pack_into("<II", headers, 0x78, 1, 1)  # (the alignments)
        for index, section in enumerate(((8, 0x1000, 8, 0x200), (0x100, 0x1008, 0x80, 0x280))):
            struct.pack_into("<4I", headers, 0x150 + 40 * index, *section)
        record = struct.pack("<2I2H7I", 0, 0, 0, 0, 0x1050, 100, 2, 0, 0x1040, 0, 0)
        data = images.with_parts(headers + bytes(0x100), (0x200, record), (0x2B8, struct.pack("<2I", 0x1100, 0x1104)), (0x2C8, b"own"))
        pe = read(data)
        self.assertEqual([it[:2] for it in pe.export_addresses], [(100, 0x1100), (101, 0x1104)])
        self.assertEqual((pe.name, pe.export_directory.ordinal_base), (b"own", 100))

    def test_an_export_directory_that_is_not_read(self):
        """A directory of zeros is read. One that no section maps is refused; permissive mode passes over it."""
        for exports, is_read in ((struct.pack("<2I", 0x1010, 40), True), (struct.pack("<2I", 0x9000, 40), False), (bytes(8), False)):
            found = image(sample((0xB8, exports), (0x210, bytes(0xF0))), permissive=True).export_directory()
            with self.subTest(exports):
                self.assertEqual((found is not None, found and found.name), (is_read, None))
        strict = image(sample((0xB8, struct.pack("<2I", 0x9000, 40))))
        for ask in strict.export_directory, lambda: next(strict.export_addresses()):
            self.assertEqual(refusal(ask), ("MALFORMED", "UNMAPPED", 0x9000, 0))

    def test_a_raw_pointer_that_is_no_multiple_of_512_is_rounded_if_that_is_asked_for(self):
        data = sample((0x14C, b"\x10"))
        for permissive in MODES:
            for mapping in "BY_FILE_ALIGNMENT", "AS_LOADED":
                found = image(data, permissive=permissive, mapping=mapping)
                self.assert_imports(found, [GO, SEVEN])
                self.assert_exports(found, [UNFORWARDED, FORWARDED])
        found = image(data, permissive=True)
        self.assert_imports(found, [])
        self.assert_exports(found, [], 1)


class InTheHeaders(Read):
    """Names and tables in the headers, which the Windows loader maps and goblin does not: what strict mode refuses and both modes
    list in goblin's view and in the loader's."""

    def views(self, *changes):
        """The sample whose headers have 0x200 bytes, with these changes, in permissive mode in both views."""
        data = sample((0x94, struct.pack("<I", 0x200)), *changes)
        return data, image(data, permissive=True), image(data, permissive=True, mapping="AS_LOADED")

    def test_the_name_of_an_import(self):
        data, goblin, loader = self.views((0x240, b"\xA0\x01\0\0"), (0x1A0, b"\0\0VirtualAlloc\0"))
        hidden = (b"a.dll", b"VirtualAlloc", 0, None, 0x1060, 0x1A0, 0, 0)
        self.assert_imports(goblin, [SEVEN])
        self.assert_imports(loader, [hidden, SEVEN])
        self.assertEqual([self.counts(it.imports()) for it in (goblin, loader)], [(0, 1), (0, 0)])
        self.assert_imports(image(data, mapping="AS_LOADED"), [hidden, SEVEN])
        self.assertEqual((loader.find_offset(0x1A0), loader.find_rva(0x1A0), goblin.find_offset(0x1A0)), (0x1A0, 0x1A0, None))
        memory = loader.memory_at(0x1A2, 12)
        self.assertEqual((loader.text_at(0x1A2), memory.whole(), memory.section), (b"VirtualAlloc", b"VirtualAlloc", None))
        self.assertEqual((loader.find_offset(0x1FF), loader.find_offset(0x200)), (0x1FF, None))

    def test_an_import_directory(self):
        data, goblin, loader = self.views((0xC0, struct.pack("<2I", 0x170, 40)), (0x170, RECORD))
        self.assert_imports(goblin, [], 1)
        self.assert_imports(loader, [GO, SEVEN])
        self.assertEqual(refusal(read, data), ("MALFORMED", "UNMAPPED", 0x170, 0))
        self.assert_imports(image(data, mapping="AS_LOADED"), [GO, SEVEN])

    def test_a_library_without_a_lookup_table(self):
        """Its descriptor has 0 as the RVA of the table: no table is there, though the headers are mapped there. The result is the
        same for more than 96 sections."""
        data, _, loader = self.views((0x200, b"\0\0"))
        self.assert_imports(loader, [GO, SEVEN])
        self.assert_imports(image(data, mapping="AS_LOADED"), [GO, SEVEN])
        many = images.hostile_image(0x4000)
        (start,) = struct.unpack_from("<I", many, 0x148 + 20)
        found = image(with_parts(many, (0x94, struct.pack("<I", start)), (start, bytes(4))), mapping="AS_LOADED")
        self.assertGreater(len(found.sections), 96)
        self.assertEqual([x.name for x in found.imports()], [b"%05d" % i for i in range(len(found.sections))])

    def test_the_names_of_a_library_and_of_an_export(self):
        _, goblin, loader = self.views((0x20C, b"\xB0\x01\0\0"), (0x2D0, b"\xB8\x01\0\0"), (0x1B0, b"b.dll\0\0\0g\0"))
        self.assertEqual([x.dll for x in loader.imports()], [b"b.dll", b"b.dll"])
        self.assertNotIn(b"b.dll", [x.dll for x in goblin.imports()])
        self.assertEqual([x.name for x in loader.exports()], [b"g", b"a.dll"])
        self.assertEqual([x.name for x in goblin.exports()], [None, b"a.dll"])


class OverlappingSections(Read):
    """Each reader reads at the place that find_offset gives: in the first section that has the RVA."""

    def test_sections_in_many_orders(self):
        for mapping in "AS_STORED", "BY_FILE_ALIGNMENT", "AS_LOADED":
            for where, before, after in OTHERS:
                for name, two, held in ORDERS:
                    with self.subTest(name, others=where, mapping=mapping):
                        data = overlapping([*before, *two, *after], 0 if mapping == "AS_STORED" else 0x10)
                        self.assert_found(image(data, mapping=mapping), *held)

    def assert_found(self, found, begin, name, address, hint, imported, exported):
        for rva in (0x1210, 0x1220, 0x1240, 0x1250, 0x1280):
            self.assertEqual(found.find_offset(rva), begin + rva - 0x1200)
        self.assert_imports(found, [(name, imported, hint, None, 0x1220, 0x1250, 0, 0)])
        self.assertEqual(found.memory_at(0x1220, 4).whole(), struct.pack("<I", address))
        self.assert_exports(found, [(name, 0, 0, exported, 0x1240, begin + exported - 0x1200, None)])
        self.assertEqual(found.export_directory().name, name)
