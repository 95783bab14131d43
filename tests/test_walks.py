"""Walks over one image give the same rows, count the same, and take the same steps, whatever room and steps their calls have."""
import ctypes as c
import itertools
import os
import pathlib
import random
import unittest

from tests import hostile, images
from tests.bindings import COUNTED, OF_ROWS, WALKS, Walk, calls, image_of, library, options, records
from tests.programs import BY_NAME, CC, IMAGES, OBJECTS, TERSE, need

STEPS = 7  # The status of a walk without steps.
READS = ("read_image", "read_with_faults", "read_object", "read_te")


def setUpModule():
    need(CC)
    library()


def files():
    """Files of all kinds. Most are damaged."""
    return [*(it.read_bytes() for it in IMAGES), *hostile.files(2)]


def real_files(most=200):
    """Images of at most two megabytes that the machine has, each once: those of its Pythons, Wine, Mono and the like."""
    found = set()
    for top in (pathlib.Path.home(), "/usr/lib", "/usr/share", "/boot", "/opt"):
        for at, folders, names in os.walk(top):
            folders[:] = [it for it in folders if it not in ("samples", "target", "node_modules")]
            for name in names:
                path = os.path.join(at, name)
                if name.lower().endswith((".exe", ".dll", ".sys", ".efi")) and os.path.isfile(path) and os.path.getsize(path) < 1 << 21:
                    found.add(pathlib.Path(path).read_bytes())
                    if len(found) == most:
                        return found
    return found


def opened(data):
    """The image of a file in each mode that reads it."""
    for permissive in (False, True):
        image, fault = image_of(data, options(permissive))
        if not fault.status:
            yield permissive, image


def price(image):
    """How many steps a look takes."""
    return max(1, -(-image.section_count // 96))


def objects():
    return [image_of(it.read_bytes(), None, "read_object")[0] for it in OBJECTS]


def walks_of_rows(image):
    """The walks over the base relocations of each block and over the relocations of each section: the words and the cursors."""
    for word, of in ("base_relocations", "relocation_blocks"), ("coff_relocations", "sections"):
        index = [name for name, _ in getattr(records(), WALKS[of][0])._fields_].index("relocations")
        for row in Walk(image, of).walk(64)[0]:
            yield word, getattr(records(), OF_ROWS[word][1])(*row[index])


class Walks(unittest.TestCase):
    def test_rows_and_steps_by_any_room_are_those_of_one_call(self):
        for index, data in enumerate(files()):
            for permissive, image in opened(data):
                for word in WALKS:
                    wanted = self.walked(image, word, 1 << 12)
                    for room in (1, 2, 3, 7):
                        with self.subTest(file=index, permissive=permissive, word=word, room=room):
                            self.assertEqual(self.walked(image, word, room), wanted)

    def walked(self, image, word, room):
        """A walk without a limit: its rows, what it counts, why it ends, and how many steps it took."""
        walk, steps, taken = Walk(image, word), c.c_size_t(1 << 40), 0
        for _ in range(1 << 20):
            before = steps.value
            fault = walk.call(room, steps)
            if word in COUNTED and not fault.status:
                taken += before - steps.value
            if walk.batch.is_done:
                return walk.rows, walk.counts, (fault.status, fault.cause), taken
        raise AssertionError(f"{word} have no end")

    def test_relocations_by_any_room_are_those_of_one_call(self):
        """Those of each block of an image, and those of each section of an object."""
        most = {}
        for image in (*(image for it in IMAGES for _, image in opened(it.read_bytes())), *objects()):
            for word, cursor in walks_of_rows(image):
                rows, *others = (Walk(image, word, type(cursor).from_buffer_copy(cursor)).walk(room) for room in (1 << 12, 1, 2, 3, 7))
                self.assertEqual(others, [rows] * 4)
                most[word] = max(most.get(word, 0), len(rows[0]))
        self.assertTrue(all(most[word] > 1 for word in OF_ROWS), most)

    def test_rows_and_steps_by_any_limit_are_those_of_one_call(self):
        """The steps add up to the same."""
        for index, data in enumerate(files()):
            for permissive, image in opened(data):
                for word, each in itertools.product(COUNTED, (1, 2, 3, 10, 1000)):
                    with self.subTest(file=index, permissive=permissive, word=word, steps=each):
                        self.assertEqual(self.cut(image, word, each), self.cut(image, word, 1 << 40))

    def cut(self, image, word, each):
        """A walk by calls with a limit of looks: its rows, what it counts, why it ends, and how many steps it took."""
        walk, steps, taken = Walk(image, word), c.c_size_t(0), 0
        for _ in range(1 << 20):
            before = bytes(walk.cursor), len(walk.rows)
            steps.value = given = each * price(image)
            fault = walk.call(5, steps)
            self.assertLessEqual(steps.value, given)
            taken += given - steps.value
            if fault.status == STEPS:
                self.assertEqual((bytes(walk.cursor), len(walk.rows)), before)
            elif walk.batch.is_done:
                return walk.rows, walk.counts, (fault.status, fault.cause), taken
        raise AssertionError(f"{word} have no end")

    def test_a_limit_is_not_passed(self):
        """A call without a limit that gives the same rows takes no more steps than that, or one look."""
        for index, data in enumerate(files()):
            for permissive, image in opened(data):
                for word, limit in itertools.product(COUNTED, (1, 2, 5, 20, 100)):
                    walk, left = Walk(image, word), c.c_size_t(limit)
                    walk.call(1 << 10, left)
                    again, more = Walk(image, word), c.c_size_t(1 << 40)
                    again.call(len(walk.rows), more)
                    with self.subTest(file=index, permissive=permissive, word=word, steps=limit):
                        self.assertEqual(again.rows, walk.rows)
                        self.assertLessEqual((1 << 40) - more.value, max(limit, price(image)))

    def test_64_entries_of_an_address_table_are_a_step(self):
        """A table of 32,768 imports: its last piece, in which it ends, is the step of its library. In strict mode the imports come
        first."""
        for permissive, word, libraries, rows in (
                (True, "imports", 1, 1000 - 513), (False, "imports", 1, 999), (True, "libraries", 30, 1), (False, "libraries", 30, 1)):
            with self.subTest(permissive=permissive, word=word):
                image, _ = image_of(images.shared_image(libraries, 32768), options(permissive))
                walk, steps = Walk(image, word), c.c_size_t(1000)
                self.assertEqual((walk.call(2000, steps).status, len(walk.rows), steps.value, walk.batch.is_done), (0, rows, 0, False))
                self.assertEqual(walk.call(2000, steps).status, STEPS)

    def test_a_look_takes_a_step_for_each_96_sections(self):
        """Or for part of 96. A call with steps makes one look at least, and its last look takes the steps that are left."""
        for file in IMAGES:
            image, _ = image_of(file.read_bytes() + bytes(1 << 14))
            own = image.section_count
            for word, (sections, each) in itertools.product(COUNTED, ((96, 1), (97, 2), (192, 2), (193, 3))):
                for given in (1, 2, 3, 4, 5, 7, 100, 1 << 40):
                    image.section_count, plain, looks = own, Walk(image, word), c.c_size_t(max(1, given // each))
                    made = looks.value
                    plain.call(64, looks)
                    image.section_count, walk, steps = sections, Walk(image, word), c.c_size_t(given)
                    walk.call(64, steps)
                    with self.subTest(file=file.name, word=word, sections=sections, steps=given):
                        self.assertEqual((walk.rows, bytes(walk.cursor)), (plain.rows, bytes(plain.cursor)))
                        self.assertEqual(steps.value, max(0, given - each * (made - looks.value)))

    def test_without_steps_a_call_is_a_fault_and_changes_nothing(self):
        image, _ = image_of(BY_NAME.read_bytes())
        for word in COUNTED:
            walk, steps = Walk(image, word), c.c_size_t(0)
            self.assertEqual((walk.call(1, steps).status, walk.rows, walk.batch.is_done), (STEPS, [], True))
            self.assertFalse(any(bytes(walk.cursor)))
            self.assertEqual((walk.call(0, steps).status, walk.batch.is_done), (0, False))

    def test_a_call_without_room_gives_nothing_and_goes_on(self):
        for data in files()[:40]:
            for _, image in opened(data):
                for word in WALKS:
                    walk = Walk(image, word)
                    fault = walk.call(0)
                    with self.subTest(word=word):
                        self.assertEqual((walk.rows, walk.batch.is_done, any(bytes(walk.cursor))), ([], bool(fault.status), False))

    def test_a_fault_ends_the_loop_and_leaves_the_cursor(self):
        image, _ = image_of(images.own_tables(30))
        for word in WALKS:
            walk = Walk(image, word)
            for _ in range(1 << 12):
                before = bytes(walk.cursor)
                fault = walk.call(3)
                if fault.status:
                    self.assertEqual((walk.batch.count, walk.batch.is_done, bytes(walk.cursor)), (0, True, before))
                if walk.batch.is_done:
                    break

    def test_libraries_and_their_imports_give_each_import_once(self):
        """And count what it passes over once. Real files are walked, too, if the machine has any."""
        at = [name for name, _ in records().Library._fields_].index("imports")
        for index, data in enumerate((*files(), *real_files())):
            for permissive, image in opened(data):
                whole, libraries = Walk(image, "imports"), Walk(image, "libraries")
                rows, why = whole.walk(1 << 12)
                with self.subTest(file=index, permissive=permissive):
                    found = []
                    walks = [Walk(image, "imports", records().ImportCursor(*row[at])) for row in libraries.walk(4)[0]]
                    for walk in walks:
                        found += walk.walk(3)[0]
                    if not why[0]:
                        self.assertEqual(found, rows)
                        self.assertEqual(tuple(map(sum, zip(*(it.counts for it in (libraries, *walks))))), whole.counts)

    def test_a_cursor_of_zeros_is_the_beginning_and_others_harm_nothing(self):
        digits, image = random.Random(1), image_of(BY_NAME.read_bytes())[0]
        for word, (_, kind) in {**WALKS, **OF_ROWS}.items():
            for _ in range(300):
                forged = getattr(records(), kind).from_buffer_copy(bytes(
                    digits.choice([0, 0, 1, digits.randrange(256)]) for _ in range(c.sizeof(getattr(records(), kind)))))
                for name, field in forged._fields_:
                    if field is c.c_bool:
                        setattr(forged, name, digits.random() < 0.5)
                walk = Walk(image, word, forged)
                for _ in range(3):
                    walk.call(3)

    def test_a_cursor_of_another_image_harms_nothing(self):
        """It gives rows or a fault, whatever the room."""
        opened_files = [image for data in files()[:30] for _, image in opened(data)]
        for (one, other), word in itertools.product(itertools.permutations(opened_files[::4], 2), WALKS):
            walk = Walk(one, word)
            for _ in range(2):
                walk.call(1)
            elsewhere = Walk(other, word, walk.cursor)
            for room in (0, 1, 3):
                elsewhere.call(room)
        every = (*opened_files[::4], *objects())
        for one, other in itertools.product(every, every):
            for word, cursor in itertools.islice(walks_of_rows(one), 20):
                elsewhere = Walk(other, word, cursor)
                for room in (0, 1, 3):
                    elsewhere.call(room)

    def test_forged_images_harm_nothing(self):
        digits = random.Random(2)
        for data in (BY_NAME.read_bytes(), OBJECTS[0].read_bytes(), images.own_tables(30)):
            for _ in range(200):
                image, _ = image_of(data, None, "read_with_faults")
                forged = bytearray(image)
                for _ in range(6):
                    at = digits.randrange(16, len(forged))
                    forged[at] = digits.choice([0, 0x7F, 0xFF, digits.randrange(256)])
                made = records().Image.from_buffer_copy(forged)
                made.options, made.kept = image.options, image.kept
                for name in ("has_optional_header", "is_dos_stub_replaced"):
                    setattr(made, name, digits.random() < 0.7)
                made.rich_header.is_present = digits.random() < 0.5
                for word in WALKS:
                    Walk(made, word).call(3)
                self.look_up(made, digits)
                self.call_others(made)

    def look_up(self, image, digits):
        """Looks up some addresses."""
        found, memory = c.c_size_t(), records().Memory()
        for rva in (0, 0x1000, 0x2000, digits.randrange(1 << 33), (1 << 64) - 1):
            calls().goblin_pe_find_offset(c.byref(image), rva, c.byref(found))
            calls().goblin_pe_find_rva(c.byref(image), rva, c.byref(found))
            calls().goblin_pe_memory_at(c.byref(image), rva, 16, c.byref(memory))
            self.assertLessEqual(memory.bytes.length + memory.zeros + memory.missing, 16)

    def test_each_call_takes_an_image_of_any_kind(self):
        """The image may be partial. Each call answers, and some refuse an image of another kind."""
        for data in [*(it.read_bytes() for it in (*OBJECTS, *TERSE, BY_NAME)), b"", b"MZ", bytes(64)]:
            for read in READS:
                image, _ = image_of(data, options(True), read)
                for word in WALKS:
                    Walk(image, word).call(3)
                self.look_up(image, random.Random(3))
                self.call_others(image)

    def call_others(self, image):
        """Makes the other calls: those that neither walk nor look up."""
        r, lib, at = records(), calls(), c.byref(image)
        out, written, section, number = (c.c_uint8 * (1 << 12))(), c.c_size_t(), r.Section(), c.c_uint32()
        lib.goblin_pe_write_header(at, out, len(out), c.byref(written))
        lib.goblin_pe_checksum(at, c.byref(number))
        lib.goblin_pe_read_export_directory(at, c.byref(r.ExportDirectory()))
        lib.goblin_pe_forwarder_at(at, 0x1000, c.byref(r.Forwarder()))
        lib.goblin_pe_string_at(at, 4, c.byref(r.Slice()))
        Walk(image, "sections").call(1)
        cursor, batch = r.SectionCursor(), r.Batch()
        lib.goblin_pe_next_sections(at, c.byref(cursor), c.byref(section), 1, c.byref(batch))
        if batch.count:
            lib.goblin_pe_section_data(at, c.byref(section), c.byref(r.Memory()))
            lib.goblin_pe_next_coff_relocations(at, c.byref(section.relocations), (r.CoffRelocation * 3)(), 3, c.byref(batch))
        lib.goblin_pe_next_base_relocations(at, c.byref(r.BaseRelocationCursor()), (r.BaseRelocation * 3)(), 3, c.byref(batch))


if __name__ == "__main__":
    unittest.main()
