"""The library's calls, made by the test program pe_replay: headers that are written back, footprints, files that agree on them,
addresses among many sections, walks, and each growth of memory refused."""
import ast
import struct

from tests import images
from tests.programs import IMAGES, PE_REPLAY, Case, beside, build_pe_replay, run, with_memory

# The forms of a call: without options, or by those of a mode.
MODES = ("strict", "permissive")
EACH = ("default", *MODES)
DEFAULT = ("default",)

# Calls that take memory, and their answers. A reader that always returns Memory meets its contract, but fails here, because the
# answer has to come if no growth is refused. A law has two answers: if one is refused memory, the other one is still given.
TAKE_MEMORY = [
    (EACH, "section", "5"),
    (DEFAULT, "clone", "5"),
    (DEFAULT, "data", "6"),
    (DEFAULT, "data_of_32_mib", "33554432"),
    (EACH, "sections", "5"),
    (DEFAULT, "te_sections", "5"),
    (DEFAULT, "te_sections_moved", "5"),
    (MODES, "index", "5"),
    (EACH, "lookup", "2"),
    (MODES, "slots", "2"),
    (MODES, "no_slots", "0"),
    (EACH, "library", "2"),
    (EACH, "import_data", "1"),
    (DEFAULT, "imports", "11"),
    (EACH, "export_data", "2"),
    (EACH, "exports", "6"),
    (MODES, "footprint_imports", "6"),
    (MODES, "layout_of_many", "97"),
    (MODES, "whole", "22"),
    (MODES, "twin_lookup", "2 1"),
    (("strict",), "twin_imports", "1 refused"),
    (("permissive",), "twin_imports", "1 0"),
    (MODES, "twin_exports", "6 1"),
    (MODES, "twin_whole", "22 6"),
    (MODES, "twin_parts", "8 8"),
    (DEFAULT, "mode_whole", "22 22"),
    (DEFAULT, "mode_tables", "9 9"),
    (MODES, "reorder_whole_tables", "9 9"),
]
TAKE_NONE = [
    (EACH, "section_with_empty_name", "0"),
    (DEFAULT, "clone_with_empty_name", "0"),
    (DEFAULT, "clone_with_short_name", "6"),
    (DEFAULT, "data_without_zeros", "4"),
    (DEFAULT, "data_past_the_file", "0"),
    (DEFAULT, "string_table", "3"),
    (DEFAULT, "strings", "3"),
    (DEFAULT, "no_strings", "0"),
    (EACH, "no_sections", "0"),
    (DEFAULT, "no_te_sections", "0"),
    (MODES, "index_of_no_alignment", "0"),
    (MODES, "index_of_offsets", "0"),
    (MODES, "layout", "1"),
    (DEFAULT, "no_imports", "0"),
    (EACH, "exports_of_no_bytes", "0"),
]

# The length of the sample file, where its section table begins, and where its bytes can be read as a Terse Executable's header.
SAMPLE_LEN = 0x300
SECTIONS, TERSE = 0x138, 0x52
# The footprint of each read of the sample file: the ranges on which it depends.
OF_EXPORTS = [(0x280, 0x286), (0x2A0, 0x2DC), (0x2E0, 0x2E6), (0x2F0, 0x2F2)]
OF_IMPORTS = [(0x200, 0x228), (0x240, 0x24C), (0x260, 0x26C), (0x280, 0x286), (0x290, 0x295)]
FOOTPRINTS = {
    "lookup": [(0x240, 0x24C), (0x290, 0x295)],
    "imports": OF_IMPORTS,
    "exports": OF_EXPORTS,
    "header": [(0, 0x138)],
    "whole": [(0, 0x160), *OF_IMPORTS, *OF_EXPORTS],
    "header without DOS header": [(0, 0x18)],
    "symbols": [(0x1FF, 0x211)],
    "strings": [(0x211, 0x221)],
    "relocations": [(0x280, 0x285)],
    "value": [(0x200, 0x300)],
    # (the answer of the call that lists that of imports)
    "footprint of imports": OF_IMPORTS,
}
FOOTPRINTS_AT = {
    SECTIONS: {**FOOTPRINTS, "sections": [(0x138, 0x160)]},
    TERSE: {**FOOTPRINTS, "sections": [(0x52, 0x7A)], "terse": [(0x52, 0xCA)]},
}


def setUpModule():
    build_pe_replay()


class Growths(Case):
    def growths(self, call, form, answer):
        """The output of a call with each of its growths refused in turn."""
        return self.each_growth([PE_REPLAY, call, form], f"{answer}\n".encode())

    def test_calls_that_take_memory(self):
        own = len(self.growths("nothing", "default", "0"))
        for forms, call, answer in TAKE_MEMORY:
            first, _, second = answer.partition(" ")
            refused = {f"{first} memory\n".encode(), f"memory {second}\n".encode()} if second else {b"memory\n"}
            for form in forms:
                with self.subTest(call=call, form=form):
                    written = self.growths(call, form, answer)
                    self.assertGreater(len(written), own)
                    self.assertEqual(set(written) - {b""}, refused)

    def test_calls_that_take_none(self):
        """Only the growths of the program for its own words are refused."""
        own = len(self.growths("nothing", "default", "0"))
        for forms, call, answer in TAKE_NONE:
            for form in forms:
                with self.subTest(call=call, form=form):
                    self.assertEqual(self.growths(call, form, answer), [b""] * own)


class Answers(Case):
    def assert_shows(self, stdin, wanted, *words):
        self.assert_runs([PE_REPLAY, *words], (0, wanted, b""), stdin)

    def test_a_header_is_written_as_it_was_read(self):
        """It is written as the bytes of the file up to the section table."""
        for sample in IMAGES:
            with self.subTest(sample=sample.name):
                data = sample.read_bytes()
                pe = struct.unpack_from("<I", data, 60)[0]
                self.assert_shows(sample, data[:pe + 24 + struct.unpack_from("<H", data, pe + 20)[0]], "header")

    def test_addresses_among_many_sections(self):
        """With both rules for raw pointers, each is found at the place that the format says."""
        made = images.many_sections(count=5000, size=0xD000, past=0x10)
        places = [i * 0x9E3779B1 % (1 << 28) for i in range(5000)]
        found = [place for place in places if place < 5000 * 0xD000]
        for way in ("walk", "index"):
            for rule, wanted in (("stored", sum(found) + 0x10 * len(found)), ("rounded", sum(found))):
                with self.subTest(way=way, rule=rule):
                    self.assert_shows(made, b"%#x\n" % wanted, way, "5000", rule)


class Agreement(Case):
    """Two files that agree on the footprint of a read have the same value: the sample file, and a changed one."""

    def answers(self, offset, changes):
        """Four answers of each read for each change: for the sample file, for the file with other bytes at some places, and for
        these two in the other order."""
        masks = (bytes(0xFF * (place in places) for place in range(SAMPLE_LEN)) for places in changes)
        status, out, errors = run([PE_REPLAY, "twins", str(offset)], b"".join(masks))
        self.assertEqual((status, errors), (0, b""))
        read = {}
        for line in out.splitlines():
            word, _, answer = line.partition(b": ")
            read.setdefault(word.decode(), []).append(answer)
        return {word: list(zip(*[iter(rows)] * 4)) for word, rows in read.items()}

    def test_reads_depend_on_their_footprints_alone(self):
        """Every byte outside is changed, one at a time and all at once. In each range some byte makes a difference."""
        for offset, footprints in FOOTPRINTS_AT.items():
            within = {word: {place for it in ranges for place in range(*it)} for word, ranges in footprints.items()}
            changes = [{place} for place in range(SAMPLE_LEN)] + [set(range(SAMPLE_LEN)) - it for it in within.values()]
            read = self.answers(offset, [set(), *changes])
            for word, ranges in footprints.items():
                (own, *same), *answers = read[word]
                with self.subTest(read=word, offset=offset):
                    self.assertEqual((same, own[:3]), ([own] * 3, b"Ok("))
                    if word.startswith("footprint"):
                        listed = ast.literal_eval(own[3:-1].decode())
                        self.assertEqual({place for it in listed for place in range(*it)}, within[word])
                    for places, (first, changed, again, last) in zip(changes, answers):
                        self.assertEqual((first, again, last), (own, changed, own))
                        self.assertTrue(changed == own or places & within[word], sorted(places)[:3])
                    for begin, end in ranges:
                        self.assertNotEqual([changed for _, changed, *_ in answers[begin:end]], [own] * (end - begin))


class Walks(Case):
    def assert_shows(self, stdin, wanted, *words):
        self.assert_runs([PE_REPLAY, *words], (0, wanted, b""), stdin)

    def test_as_many_as_are_listed(self):
        for sample in IMAGES:
            rows = [line.split(b" ", 1)[0] for line in beside(sample, "listing").splitlines()]
            for word in ("imports", "exports"):
                with self.subTest(sample=sample.name, word=word):
                    self.assert_shows(sample, b"%d\n" % rows.count(word[:-1].encode()), word)

    def test_all_imports_of_a_hostile_image(self):
        """Its libraries share one table. The walk takes no memory, and there is none for a list."""
        libraries, functions = 6500, 16000
        image = images.shared_image(libraries, functions)
        self.assertLess(len(image), 256 << 10)
        walk = with_memory((len(image) + 100_000_000) >> 10, [PE_REPLAY, "imports"])
        self.assert_runs(walk, (0, b"%d\n" % (libraries * functions), b""), image)

    def test_what_ends_a_walk(self):
        """The name of the third of four libraries is at an address that no section maps."""
        image = images.shared_image(libraries=4, functions=3)
        struct.pack_into("<I", image, 0x200 + 20 * 2 + 12, 0x9000)
        self.assert_shows(image, b"6\nthe address 0x9000 has no offset in the file\n", "imports")

    def test_an_import_directory_at_an_address_that_no_section_maps(self):
        image = images.shared_image(libraries=4, functions=3)
        struct.pack_into("<I", image, 0xC8 + 8, 0x9000)
        self.assert_shows(image, b"0\nthe address 0x9000 has no offset in the file\n", "imports")
