"""Tries the package beyond its listings: python3 -X dev -m unittest test_goblin_pe."""
import array
import base64
import collections
import concurrent.futures
import contextlib
import copy
import dataclasses
import gc
import hashlib
import io
import itertools
import json
import mmap
import multiprocessing
import os
import pathlib
import pickle
import pydoc
import struct
import tempfile
import time
import tracemalloc
import unittest
import unittest.mock
import zlib

import goblin_pe
from goblin_pe import (AuxiliaryKind, Budget, Cause, CoffRelocation, DataDirectory, DirectoryType, ErrorKind, Image, Import, Kind, Mapping,
                       Options, OutOfSteps, Pe, PeError, Region, RichHeader, Section, Table, names_of, printable)
from goblin_pe import _library, _records, _rows

HERE = pathlib.Path(__file__).resolve().parent
SAMPLES = pathlib.Path(os.environ.get("GOBLIN_PE_SAMPLES", HERE / "../../samples"))
PATH = SAMPLES / "imports_by_name_x64.dll"
IMAGES = sorted(it.name for it in SAMPLES.iterdir() if it.suffix in (".dll", ".exe", ".efi"))
PERMISSIVE = Options(permissive=True)
# Where the addresses of a file that is made here are offsets.
IDENTITY = Options(mapping=Mapping.IDENTITY)
TABLES = ("sections", "rich_entries", "imports", "exports", "export_addresses", "relocation_blocks")


def sample(name):
    return (SAMPLES / name).read_bytes()


DATA = sample("imports_by_name_x64.dll")
FORWARDERS = sample("forwarders_x64.dll")
OBJECT = sample("object_x64.obj")
SIGNATURE = DATA.index(b"PE\0\0")
# A DLL for 64 bits whose sections lie at multiples of 64 in memory, and at multiples of 16 in the file. It was linked by lld-link
# (/align:64 /filealign:16) from a function `answer`, the text `words`, the numbers 1, 2 and 3, and `place`, their address.
SMALL_ALIGNMENTS = zlib.decompress(base64.b85decode(
    b"c-pN}Jxc>Y5Pf$S1wRO}QxLKdD~m(?1wph^3}|JQ&E0AO_Yw9kCU&W;{SU!T#KIz21*`<qSxbI`_zRr9y^E0pwQyi~GtArBc{_V}+Jgb0fbUkt@75zPmLH3F"
    b"SQuA^#=*F9(riVnEyHukedh2W2xHa|Om+g+3fSJ!G4n%L*qcCYA8@Y<xO=|X$@;xxgDsgwlqjCe&SECeH`2LOeLk&aII;kyc`#8oGz(M6=Q_NlGnaqR+Nb`@"
    b"gxADh$N!lfi(Z`SP&(C2nU2gDP`9PaV-DP?S*U(bxNYWkR<$(^t17pWvzX+0BU=hDbhIX=EqN9z$J-rlQSkIKHGUQg$>OG94sBBNvK^Lw(D|CqFqi(dH_AWA"
    b"O}aDkx#!ug=S{b*Ca+mq=_26@`5Jkd+@Sqh)Po06S4adMzaeCVw#OZTZYbSo_Fg0T4`0%#bMlX7O}#;FpyN-f(^Bd"))


def signature_of(data):
    return int.from_bytes(data[0x3C:0x40], "little")


def with_words(data, *places):
    """The bytes with numbers of 32 bits in them: each place a pair (offset, number)."""
    made = bytearray(data)
    for offset, number in places:
        struct.pack_into("<I", made, offset, number)
    return bytes(made)


def with_directory(data, which, rva, size=40):
    place = signature_of(data) + 24 + 112 + 8 * which
    return with_words(data, (place, rva), (place + 4, size))


def tables_of(pe):
    return [getattr(pe, it) for it in TABLES]


def walks_of(image):
    return [tuple(image.sections) if it == "sections" else tuple(getattr(image, it)()) for it in TABLES]


def imports_in(data):
    """What a worker does in a process of its own."""
    return len(Pe(data).imports)


def most_memory(call):
    """How much memory of Python's a call takes, in bytes."""
    tracemalloc.start()
    call()
    most = tracemalloc.get_traced_memory()[1]
    tracemalloc.stop()
    return most


def with_names(count, length):
    """An image, whose addresses are offsets, with so many exports: their names begin at each byte of one long text."""
    begin = len(FORWARDERS)
    address, names = begin + 40, begin + 44
    ordinals, text = names + 4 * count, names + 6 * count
    data = with_directory(FORWARDERS, DirectoryType.EXPORT_TABLE, begin)
    data += struct.pack("<IIHHIIIIIIII", 0, 0, 0, 0, text, 1, 1, count, address, names, ordinals, 0x1000)
    return data + struct.pack("<%dI" % count, *range(text, text + count)) + bytes(2 * count) + b"x" * length + bytes(1)


def with_section_names(count, length):
    """An image of so many sections, whose names begin at each second byte of one long text; the last has an address."""
    data = bytearray(DATA[:SIGNATURE + 24 + int.from_bytes(DATA[SIGNATURE + 20: SIGNATURE + 22], "little")])
    for i in range(count):
        place = (0x1000, 0x1000, 0x200, 0x200) if i == count - 1 else (0, 0, 0, 0)
        data += struct.pack("<8s8I", b"/%d" % (4 + 2 * i), *place, 0, 0, 0, 0)
    struct.pack_into("<H", data, SIGNATURE + 6, count)
    struct.pack_into("<II", data, SIGNATURE + 12, len(data), 0)
    return bytes(data + struct.pack("<I", length + 5) + b"n" * length + bytes(1))


def with_libraries(data, names, counts):
    """An image, whose addresses are offsets, with such libraries at its end: of each so many imports by the ordinal 7."""
    begin = len(data)
    data = with_directory(data, DirectoryType.IMPORT_TABLE, begin, 20 * (len(names) + 1))
    name = begin + 20 * (len(names) + 1)
    table = name + sum(len(it) + 1 for it in names)
    for i, (it, count) in enumerate(zip(names, counts)):
        data += struct.pack("<5I", table, i, 0, name, table)
        name, table = name + len(it) + 1, table + 8 * (count + 1)
    data += bytes(20) + b"".join(it + b"\0" for it in names)
    return data + b"".join(struct.pack("<Q", 1 << 63 | 7) * it + bytes(8) for it in counts)


def with_rich_header(*words):
    """The program with a Rich header of these words, and its key."""
    data, key = bytearray(sample("program_x64.exe")), 0x1234ABCD
    stored = struct.pack("<%dI" % (4 + len(words)), *(it ^ key for it in (0x536E6144, 0, 0, 0, *words))) + struct.pack("<II", 0x68636952, key)
    data[64: 64 + len(stored)] = stored
    return bytes(data), key


class Errors(unittest.TestCase):
    FILES = [DATA, FORWARDERS, b"no image"]

    def assert_no_image(self, error):
        self.assertEqual((error.kind, error.cause, error.numbers, error.table), (ErrorKind.MALFORMED, Cause.DOS_MAGIC, (0x6F6E, 0), Table.HEADER))
        self.assertEqual(str(error), "header: the file begins with 0x6f6e in place of the DOS signature")
        self.assertEqual(error.args, ("the file begins with 0x6f6e in place of the DOS signature",))

    def raised(self):
        with self.assertRaises(PeError) as caught:
            Image(b"no image")
        return caught.exception

    def test_an_error_is_copied_and_pickled(self):
        raised = self.raised()
        raised.path = "a.dll"
        for made in (copy.copy, copy.deepcopy, lambda it: pickle.loads(pickle.dumps(it))):
            error = made(raised)
            self.assert_no_image(error)
            self.assertEqual(error.path, "a.dll")
        budget = Budget(0)
        with self.assertRaises(OutOfSteps) as caught:
            next(Image(DATA).imports(budget))
        self.assertIsInstance(pickle.loads(pickle.dumps(caught.exception)), OutOfSteps)

    def test_errors_of_the_same_numbers_are_equal(self):
        made = PeError("", ErrorKind.MALFORMED, Cause.DOS_MAGIC, (0x6F6E, 0))
        self.assertEqual(self.raised(), made)
        self.assertEqual(len({made, self.raised()}), 1)
        for other in (PeError("", made.kind, made.cause, (0x6F6D, 0)), PeError("", made.kind, Cause.NO_PE_POINTER, (0x6F6E, 0)),
                      PeError("", ErrorKind.TOO_BIG, None, (0x6F6E, 0)), str(made), None):
            self.assertNotEqual(made, other)

    def test_a_pool_hands_on_the_error_of_one_file(self):
        with multiprocessing.Pool(2) as pool:
            self.assertEqual(pool.map_async(imports_in, self.FILES[:2]).get(timeout=60), [1, 0])
            with self.assertRaises(PeError) as caught:
                pool.map_async(imports_in, self.FILES).get(timeout=60)
        self.assert_no_image(caught.exception)

    def test_an_executor_hands_on_the_error_of_one_file(self):
        with concurrent.futures.ProcessPoolExecutor(2) as executor:
            tasks = [executor.submit(imports_in, data) for data in self.FILES]
            self.assert_no_image(tasks[2].exception(timeout=60))
            self.assertEqual([task.result(timeout=60) for task in tasks[:2]], [1, 0])

    def test_what_was_read_comes_from_a_pool(self):
        with multiprocessing.Pool(2) as pool:
            read = pool.map_async(Pe, self.FILES[:2]).get(timeout=60)
        for pe, data in zip(read, self.FILES):
            wanted = Pe(data)
            self.assertEqual(tables_of(pe), tables_of(wanted))
            for what in ("dos_header", "coff_header", "optional_header", "directories", "sections"):
                self.assertEqual(getattr(pe.image, what), getattr(wanted.image, what))
            rva = pe.sections[0].virtual_address
            self.assertEqual(pe.image.find_offset(rva), wanted.image.find_offset(rva))

    def test_of_two_refused_tables_the_first_is_raised(self):
        """The imports, whose directory has an address that no section maps, before the exports."""
        both = with_directory(with_directory(DATA, 0, 0x9000), 1, 0xA000)
        with self.assertRaises(PeError) as caught:
            Pe(both)
        self.assertEqual((caught.exception.table, caught.exception.cause, caught.exception.numbers[0]), (Table.IMPORTS, Cause.UNMAPPED, 0xA000))
        pe = Pe(both, PERMISSIVE)
        self.assertEqual((pe.imports, pe.exports, pe.skipped["imports"], pe.skipped["exports"]), ((), (), 1, 1))

    def test_what_is_no_file_no_options_and_no_budget_is_refused(self):
        for read in Image, Pe, Image.object, Image.te, Image.partial, Kind.of:
            for path in "some.dll", pathlib.Path("some.dll"):
                self.assertRaises(TypeError, read, path)
        self.assertRaisesRegex(TypeError, "Image.open", Image, "some.dll")
        self.assertRaises(BufferError, Image, memoryview(DATA)[::2])
        for wrong in (b"\0\0\0\0", {}, True, Mapping.IDENTITY):
            for read in Image, Pe, Image.partial, Image(DATA).with_options:
                self.assertRaises(TypeError, read, *(() if read.__name__ == "with_options" else (DATA,)), wrong)
        for wrong in 100, "100", True:
            self.assertRaises(TypeError, Image(DATA).imports, wrong)
        for wrong in 0, -1, 1 << 32:
            self.assertRaises(ValueError, Options, longest_name=wrong)
        for wrong in True, False, 1.5, "512":
            self.assertRaises(TypeError, Options, longest_name=wrong)
        self.assertRaises(ValueError, Options, mapping=7)
        self.assertRaises(TypeError, Options, PERMISSIVE)


class Kept(unittest.TestCase):
    """What an error, and what rows are handed out, leave of a file."""

    def setUp(self):
        gc.disable()
        self.addCleanup(gc.enable)

    def refusals(self, data):
        """Calls that are refused, of these bytes and of an image whose imports are damaged."""
        damaged = with_directory(DATA, DirectoryType.IMPORT_TABLE, 0x9000)
        return (lambda: Image(data), lambda: Pe(data), lambda: next(Image.object(data).symbols()), lambda: Pe(damaged), lambda: next(Image(damaged).imports()),
                lambda: Image(damaged).forwarder_at(0x9000), lambda: next(Image(DATA).imports(Budget(0))),
                lambda: Pe(with_directory(DATA, DirectoryType.BASE_RELOCATION_TABLE, 0x9000)))

    def assert_refused(self, call):
        # (and not by assertRaises, which clears the frames of what it catches)
        try:
            call()
        except PeError:
            return
        self.fail("not refused")

    def test_an_error_that_was_caught_keeps_no_file(self):
        with tempfile.TemporaryFile() as file:
            file.write(b"\xff" * 4096)
            file.flush()
            for view in lambda it: it, memoryview:
                mapped = mmap.mmap(file.fileno(), 0, access=mmap.ACCESS_READ)
                for call in (*self.refusals(view(mapped)), lambda: Image.te(view(mapped))):
                    self.assert_refused(call)
                del call
                mapped.close()  # (BufferError is raised where a view of it is kept)

    def test_many_files_that_are_refused_take_the_memory_of_a_few(self):
        many = bytearray(b"\xff" * (1 << 24))
        self.assertLess(most_memory(lambda: [self.assert_refused(call) for _ in range(20) for call in self.refusals(many)]), 4 * len(many))

    def test_what_is_handed_out_is_nobodys_to_change(self):
        """Lists of rows are tuples, and each row can be a key. No header, field or view can be assigned."""
        pe, image, te = Pe(DATA), Image.object(OBJECT), Image.te(sample("firmware_x64.te"))
        for rows in (*tables_of(pe), pe.libraries, image.sections, te.sections, pe.image.directories):
            self.assertIsInstance(rows, tuple)
            self.assertEqual(len({*rows}), len(set(map(repr, rows))))
        self.assertTrue(pe.relocation_blocks and te.sections and len({*image.symbols()}))
        for name in ("dos_header", "coff_header", "optional_header", "directories", "sections", "te_header", "data", "options", "header_faults"):
            self.assertRaises(AttributeError, setattr, te, name, None)
        for header in (pe.image.dos_header, pe.image.coff_header, pe.image.optional_header, pe.image.directories[1], te.te_header):
            self.assertRaises(AttributeError, setattr, header, header._fields[-1], 3)
        self.assertRaises(AttributeError, setattr, Options(), "permissive", True)
        with self.assertRaises(TypeError):
            Image.partial(b"").header_faults["dos_header"] = None


class Buffers(unittest.TestCase):
    def test_each_buffer_is_read(self):
        wanted = Pe(DATA)
        with open(PATH, "rb") as file, mmap.mmap(file.fileno(), 0, access=mmap.ACCESS_READ) as mapped:
            for buffer in (bytearray(DATA), memoryview(DATA), array.array("B", DATA), memoryview(DATA).cast("H"), mapped,
                           memoryview(b"." + DATA)[1:], io.BytesIO(DATA).getbuffer()):
                with Pe(buffer) as pe:
                    self.assertEqual(tables_of(pe), tables_of(wanted))
                    self.assertEqual(pe.image.data, DATA)
        self.assertEqual((pe.imports, pe.sections), (wanted.imports, wanted.sections))
        self.assertEqual([*Image.object(bytearray(OBJECT)).symbols()], [*Image.object(OBJECT).symbols()])
        data = sample("firmware_x64.te")
        self.assertEqual(Image.te(bytearray(data)).sections, Image.te(data).sections)

    def test_threads_read_at_once(self):
        files = [make(sample(name)) for name in IMAGES for make in (bytes, bytearray)] * 20
        with concurrent.futures.ThreadPoolExecutor(8) as threads:
            read = list(threads.map(Pe, files))
        for pe, data in zip(read, files):
            self.assertEqual(tables_of(pe), tables_of(Pe(data)))

    def test_only_a_buffer_that_could_be_written_is_copied(self):
        data = DATA + bytes(1 << 26)
        with mmap.mmap(-1, len(data), access=mmap.ACCESS_READ) as mapped:
            for buffer, copies in ((data, 0), (memoryview(data), 0), (memoryview(memoryview(data)).cast("H"), 0), (mapped, 0),
                                   (bytearray(data), 1), (memoryview(bytearray(data)).toreadonly(), 1)):
                # (the mapped file has no bytes but zeros)
                call = (lambda: self.assertRaises(PeError, Image, buffer)) if buffer is mapped else lambda: Image(buffer).checksum()
                self.assertLess(most_memory(call), copies * len(data) + (1 << 20))
        data = bytearray(data)
        image = Image(data)
        data.append(0)  # the buffer is not held
        self.assertEqual(next(image.imports()).dll, b"KERNEL32.dll")

    def test_a_buffer_that_changes_is_read_as_it_was(self):
        """It changes as soon as the library has read it."""
        call = _library.LIB.goblin_pe_read_image
        for buffer in (bytearray(DATA), array.array("B", DATA), mmap.mmap(-1, len(DATA))):
            with self.subTest(type(buffer)), memoryview(buffer) as whole:
                whole[:] = DATA

                def changes(*arguments):
                    fault = call(*arguments)
                    whole[:] = bytes(~it & 0xFF for it in DATA)
                    return fault

                with unittest.mock.patch.object(_library.LIB, "goblin_pe_read_image", changes):
                    image = Image(buffer)
                self.assertEqual((walks_of(image), image.data), (walks_of(Image(DATA)), DATA))
                self.assertRaises(PeError, Image, buffer)

    def test_views_that_are_released_are_not_those_of_the_image(self):
        image = Image(memoryview(DATA))
        for view in (image.data, image.overlay(), image.memory_at(0x1020, 4).data, image.sections[0].data(image).data):
            with view:
                pass
        self.assertEqual((image.data, image.data.obj is DATA), (DATA, True))
        self.assertEqual([bytes(s.data(image)) for s in image.sections], [bytes(s.data(Image(DATA))) for s in image.sections])

    def test_with_ends_and_what_was_read_stays(self):
        with Image(sample("program_x64.exe")) as whole:
            pass
        self.assertEqual((whole.optional_header, whole.entry), (Image(sample("program_x64.exe")).optional_header, whole.entry))
        with Pe(with_rich_header(1, 2)[0]) as pe:
            image = pe.image
        image.close()  # (again)
        for closed in (lambda: image.data, lambda: next(image.exports()), image.patched, image.checksum,
                       image.overlay, lambda: image.find_offset(0x1020), lambda: image.sections[0].data(image), image.export_directory,
                       lambda: pickle.dumps(image), lambda: image.dos_stub, lambda: image.rich_header, lambda: whole.sections):
            self.assertRaisesRegex(ValueError, "the image is closed", closed)
        wanted = Pe(with_rich_header(1, 2)[0])
        self.assertEqual(tables_of(pe), tables_of(wanted))
        for what in ("dos_header", "coff_header", "optional_header", "directories", "sections", "entry"):
            self.assertEqual(getattr(image, what), getattr(wanted.image, what))
        self.assertEqual(repr(image), "<image of %d sections>" % len(pe.sections))
        with open(PATH, "rb") as file, mmap.mmap(file.fileno(), 0, access=mmap.ACCESS_READ) as mapped, Image(mapped):
            mapped.close()

    def test_walks_that_have_begun_end_alike_after_close(self):
        """With the rows that were read before, and then ValueError; also where the next row is a forwarder."""
        data = with_names(1000, 2000)
        for file, options in (data, IDENTITY), (FORWARDERS, Options()), (DATA, Options()):
            for name in ("imports", "exports", "export_addresses", "relocation_blocks")[:4 if options != IDENTITY else 3]:
                wanted = [*getattr(Image(file, options), name)()]
                for some in range(1, min(len(wanted), 3)):
                    image = Image(file, options)
                    walk = getattr(image, name)()
                    found = [*itertools.islice(walk, some)]
                    image.close()
                    with contextlib.suppress(ValueError):
                        found.extend(walk)
                    self.assertEqual(found, wanted[:len(found)])
                    self.assertTrue(len(found) in (32, len(wanted)))

    def test_threads_ask_for_rows_while_another_closes(self):
        wanted = Pe(FORWARDERS).exports

        def asked(image):
            try:
                return tuple(image.exports())
            except ValueError:
                return "closed"

        with concurrent.futures.ThreadPoolExecutor(8) as threads:
            for _ in range(300):
                image = Image(FORWARDERS)
                tasks = [threads.submit(call, image) for call in (asked, asked, Image.close, asked)]
                for it in (tasks[0], tasks[1], tasks[3]):
                    self.assertIn(it.result(), (wanted, "closed"))

    def test_threads_share_one_walk(self):
        """Each row is one of the walk's, whoever asks for it."""
        wanted = {*Image(with_names(3000, 3000), IDENTITY).exports()}
        walk = Image(with_names(3000, 3000), IDENTITY).exports()
        with concurrent.futures.ThreadPoolExecutor(8) as threads:
            found = [it.result() for it in [threads.submit(list, walk) for _ in range(8)]]
        self.assertEqual({*itertools.chain(*found)}, wanted)

    def test_copies_go_to_files_and_processes(self):
        made = (Image(DATA), Image.object(OBJECT), Image.te(sample("firmware_x64.te")), Image.partial(DATA[:SIGNATURE + 100]),
                Image(memoryview(DATA), PERMISSIVE))
        for image in made:
            for again in (pickle.loads(pickle.dumps(image)), copy.copy(image), copy.deepcopy(image)):
                self.assertEqual((again.sections, repr(again), again.options), (image.sections, repr(image), image.options))
                self.assertEqual((again.data, again.te_header, again.find_offset(0x1020)), (image.data, image.te_header, image.find_offset(0x1020)))
                self.assertEqual((again.refusal, dict(again.header_faults)), (image.refusal, dict(image.header_faults)))
                self.assertEqual([*again.symbols()], [*image.symbols()])
        with unittest.mock.patch.object(_records, "INTERFACE", 1):
            stored = pickle.dumps(image)
        self.assertRaisesRegex(ValueError, "another interface", pickle.loads, stored)
        pe = Pe(DATA)
        rows = [pe.imports, pe.image.optional_header, pe.relocation_blocks, [*pe.image.libraries()]]
        self.assertEqual(pickle.loads(pickle.dumps(rows)), rows)


class Memory(unittest.TestCase):
    """Of files that list much: 256 KiB whose names have 1.6 GB."""

    def test_walks_keep_no_row(self):
        data = with_names(count=18000, length=150000)
        self.assertLess(len(data), 1 << 18)
        image = Image(data, Options(permissive=True, mapping=Mapping.IDENTITY, longest_name=None))
        self.assertEqual(sum(len(it.name) for it in itertools.islice(image.exports(), 100)), sum(range(150000, 150000 - 100, -1)))
        self.assertLess(most_memory(lambda: [None for _ in itertools.islice(image.exports(), 2000)]), 256 * 150000 + (1 << 20))
        short = image.with_options(dataclasses.replace(image.options, longest_name=512))
        self.assertLess(most_memory(lambda: [None for _ in itertools.islice(short.exports(), 2000)]), 1 << 19)
        self.assertLess(most_memory(lambda: (repr(image), image.find_offset(0), image.imphash())), 1 << 20)

    def test_names_of_sections_are_made_when_they_are_asked_for(self):
        """Of an image of 320 KB whose names have 400 MB."""
        count, length = 4000, 110000
        data = with_section_names(count, length)
        image = Image(data, Options(permissive=True, longest_name=None))
        self.assertLess(most_memory(lambda: (repr(image), image.find_offset(0x1010), image.find_rva(0x210), image.memory_at(0x1010, 4))), 1 << 19)
        self.assertEqual((image.memory_at(0x1010, 4).section, image.memory_at(0x5000, 4).section), (count - 1, None))
        self.assertLess(most_memory(image.close), 1 << 19)
        short = Image(data, Options(permissive=True, longest_name=64))
        self.assertLess(most_memory(lambda: short.sections), 4 << 20)
        with Image(with_section_names(3, 10), PERMISSIVE) as image:
            again = pickle.loads(pickle.dumps(image))
        self.assertEqual([s.name for s in again.sections], [b"n" * it for it in (10, 8, 6)])

    def test_a_name_of_many_rows_is_one_object(self):
        """In each batch: that of a DLL, from which 4,000 ordinals are imported."""
        data = with_libraries(FORWARDERS, [b"x" * 200000], [4000])
        options = dataclasses.replace(IDENTITY, permissive=True, longest_name=None)
        self.assertLess(most_memory(lambda: Pe(data, options)), 20 * 200000 + (1 << 22))

    def test_symbols_are_walked_and_looked_up_alone(self):
        """Those of an object of 140 KB, whose names have 180 MB."""
        count, length = 2000, 100000
        header = struct.pack("<HHIIIHH", 0x8664, 0, 0, 20, count, 0, 0)
        data = header + b"".join(struct.pack("<IIIhHBB", 0, 4 + i, i, 1, 0, 2, 0) for i in range(count))
        image = Image.object(data + struct.pack("<I", length + 5) + b"n" * length + bytes(1), Options(longest_name=None))
        self.assertLess(most_memory(lambda: image.symbol_at(1)), 1 << 20)
        self.assertEqual([len(s.name) for s in image.symbols()], [length - i for i in range(count)])
        self.assertEqual((len(image.symbol_at(7).name), image.symbol_at(7).value, image.string_at(4)), (length - 7, 7, b"n" * length))

    def test_more_memory_goes_on_with_a_walk(self):
        """A batch that Python has no memory for comes again, whole."""
        image, budget = Image(with_names(1000, 2000), IDENTITY), Budget(10000)
        wanted, walk = [*image.exports()], image.exports(budget)
        found = [next(walk)]
        with unittest.mock.patch.object(walk, "_kind", walk._kind._replace(row=unittest.mock.Mock(side_effect=MemoryError))):
            self.assertRaises(MemoryError, found.extend, walk)
        self.assertEqual(budget.left, 10000 - len(found))
        self.assertEqual([*found, *walk], wanted)


class Walks(unittest.TestCase):
    def walks(self):
        """Walks over each kind of table."""
        forwarders, image = Image(FORWARDERS), Image.object(OBJECT)
        section = max(image.sections, key=lambda it: it.number_of_relocations)
        data = with_libraries(with_section_names(3, 200), [b"a.dll", b"b.dll", b"c.dll"], [3, 0, 2])
        strict, permissive = (Image(data, dataclasses.replace(IDENTITY, permissive=it)) for it in (False, True))
        first = next(strict.libraries())
        return (strict.imports, permissive.imports, strict.libraries, lambda it=None: first.imports(strict, it), forwarders.exports,
                forwarders.export_addresses, Image(sample("program_x64.exe")).relocation_blocks, image.symbols, forwarders.symbols,
                lambda it=None: section.relocations(image, it), strict.section_headers, Image(with_rich_header(1, 2, 3, 4)[0]).rich_entries)

    def test_a_walk_goes_on_with_more_steps(self):
        for walk in self.walks():
            wanted = list(walk())
            for steps in range(1, len(wanted) + 2):
                budget, found, stops = Budget(steps), [], 0
                rows = walk(budget)
                while True:
                    try:
                        for row in rows:
                            found.append(row)
                        break
                    except OutOfSteps as error:
                        self.assertEqual((str(error), error.kind, budget.left), (error.table.value + ": no steps are left", ErrorKind.STEPS, 0))
                        budget.left, stops = steps, stops + 1
                with self.subTest(walk=walk, steps=steps):
                    self.assertEqual(found, wanted)
                    self.assertTrue(stops or steps >= len(wanted))
                    self.assertRaises(StopIteration, next, rows)

    def test_a_walk_ends_after_so_many_steps(self):
        """A record, the slot of its one import, and the end are a step each. Permissive mode tests the address table with the record,
        strict mode after the slot."""
        for options, wanted in (Options(), [0, 0, 1, 1, 1]), (PERMISSIVE, [0, 0, 1, 1]):
            for steps, count in enumerate(wanted):
                found, budget = [], Budget(steps)
                with self.subTest(steps=steps), contextlib.nullcontext() if steps == len(wanted) - 1 else self.assertRaises(OutOfSteps):
                    for row in Image(DATA, options).imports(budget):
                        found.append(row)
                self.assertEqual((len(found), budget.left <= 1), (count, True))

    def test_a_name_pointer_without_an_export_is_a_step(self):
        """Without addresses none gives an export."""
        image = Image(FORWARDERS)
        record = image.find_offset(image.directories[DirectoryType.EXPORT_TABLE].virtual_address)
        image = Image(with_words(FORWARDERS, (record + 0x14, 0)))
        pointers = image.export_directory().number_of_name_pointers
        for steps in range(pointers + 1):
            with self.subTest(steps=steps), contextlib.nullcontext() if steps == pointers else self.assertRaises(OutOfSteps):
                self.assertEqual(list(image.exports(Budget(steps))), [])

    def test_a_call_without_a_budget_has_a_million_steps(self):
        """Of so many name pointers, none gives an export."""
        data = bytearray(with_names(1000000, 1))
        directory = Image(data).directories[DirectoryType.EXPORT_TABLE].virtual_address
        struct.pack_into("<II", data, directory + 20, 0, 1000000)
        longer = bytearray(data)
        struct.pack_into("<I", longer, directory + 24, 1000001)
        for call in lambda it, *budget: [*it.exports(*budget)], lambda it, *budget: it.find_export("a", *budget):
            self.assertFalse(call(Image(data, IDENTITY)))
            self.assertRaises(OutOfSteps, call, Image(longer, IDENTITY))
            self.assertFalse(call(Image(longer, IDENTITY), Budget()))
        walks = self.walks()
        with unittest.mock.patch("goblin_pe._walk._STEPS", 0):
            for walk in walks:
                self.assertRaises(OutOfSteps, next, walk())

    def test_each_row_of_another_table_is_a_step(self):
        for walk in self.walks()[5:]:
            rows = list(walk())
            for steps in range(len(rows) + 1):
                found, budget = [], Budget(steps)
                with contextlib.suppress(OutOfSteps):
                    for row in walk(budget):
                        found.append(row)
                self.assertEqual((found, budget.left), (rows[:steps], 0))

    def test_one_budget_limits_the_sum_of_calls(self):
        image = Image(with_libraries(FORWARDERS, [b"a.dll"], [1000]), IDENTITY)
        budget = Budget(1500)
        self.assertEqual(sum(1 for _ in image.imports(budget)), 1000)
        self.assertLess(budget.left, 500)
        for call in image.imphash, lambda it: [*image.imports(it)]:
            self.assertRaises(OutOfSteps, call, budget)
        self.assertRaises(OutOfSteps, Pe, image.data, IDENTITY, Budget(900))
        with unittest.mock.patch("goblin_pe._pe._STEPS", 900):
            self.assertRaises(OutOfSteps, Pe, image.data, IDENTITY)
            permissive = Options(permissive=True, mapping=Mapping.IDENTITY)
            self.assertEqual(len(Pe(image.data, permissive, Budget()).imports), 1000)
        data, _ = with_rich_header(1, 2, 3, 4)
        for steps, table in enumerate([Table.HEADER] * (len(Image(data).sections) + 1) + [Table.RICH_HEADER] * 2):  # (the end is a step)
            with self.assertRaises(OutOfSteps) as caught:
                Pe(data, Options(), Budget(steps))
            self.assertEqual(caught.exception.table, table)
        self.assertEqual((Budget().left, repr(Budget(7)), repr(Budget())), (None, "Budget(7)", "Budget()"))
        self.assertEqual((pickle.loads(pickle.dumps(budget)).left, copy.copy(Budget(7)).left), (budget.left, 7))
        self.assertEqual([sum(1 for _ in image.imports(Budget(it))) for it in (None, 2**64 - 1)], [1000] * 2)

    def test_what_is_no_number_of_steps(self):
        """It never becomes a budget without a limit."""
        for wrong, error in (-1, ValueError), (1 << 64, ValueError), (1.5, TypeError), ("7", TypeError):
            self.assertRaises(error, Budget, wrong)
            budget = Budget(10)
            self.assertRaises(error, setattr, budget, "left", wrong)
            self.assertEqual(budget.left, 10)

    def test_threads_share_one_budget(self):
        image, budget = Image(with_names(3000, 3000), IDENTITY), Budget(5000)

        def names(walk):
            found = []
            with contextlib.suppress(OutOfSteps):
                found.extend(it.name_rva for it in walk)
            return found

        with concurrent.futures.ThreadPoolExecutor(8) as threads:
            found = [it.result() for it in [threads.submit(names, image.exports(budget)) for _ in range(8)]]
        self.assertEqual((sum(map(len, found)), budget.left), (5000, 0))

    def test_a_walk_ends_with_the_error_of_a_read(self):
        image = Image(DATA)
        record = image.find_offset(image.directories[DirectoryType.IMPORT_TABLE].virtual_address)
        data = with_words(DATA, (record + 12, 0x9000))
        walk = Image(data).imports()
        with self.assertRaises(PeError) as caught:
            next(walk)
        self.assertEqual((caught.exception.cause, caught.exception.numbers[0]), (Cause.UNMAPPED, 0x9000))
        self.assertRaises(StopIteration, next, walk)
        walk = Image(data, PERMISSIVE).imports()
        self.assertEqual(([it.dll for it in walk], walk.skipped, walk.unmapped), ([b""], 0, 0))

    def test_what_permissive_mode_reads(self):
        """Imports as far as they can be read; of other tables that are refused nothing."""
        for which, walk in ((DirectoryType.EXPORT_TABLE, "exports"), (DirectoryType.IMPORT_TABLE, "imports"),
                            (DirectoryType.BASE_RELOCATION_TABLE, "relocation_blocks")):
            damaged = with_directory(DATA, which, 0x9000)
            self.assertRaises(PeError, Pe, damaged)
            pe = Pe(damaged, PERMISSIVE)
            self.assertEqual((getattr(pe, walk), pe.skipped[walk], pe.errors), ((), 1, ()))
            for data in DATA, with_directory(DATA, which, 0, 0):
                self.assertEqual(Pe(data, PERMISSIVE).skipped[walk], 0)

    def test_what_is_counted_adds_up(self):
        """Whatever the steps. Of 1,300 imports, the hint of every other one lies past the end of the file."""
        one = struct.pack("<Q", 1 << 63 | 7)
        data = with_libraries(FORWARDERS, [b"a.dll"], [1300]).replace(one * 2, one + struct.pack("<Q", 0x70000000))
        image = Image(data, Options(permissive=True, mapping=Mapping.IDENTITY))
        for steps in None, 1400:
            budget = Budget(steps)
            walk, count = image.imports(budget), 0
            self.assertEqual((walk.skipped, walk.unmapped), (0, 0))
            for _ in range(20):
                with contextlib.suppress(OutOfSteps):
                    count += sum(1 for _ in itertools.islice(walk, 50))
                budget.left = steps
            self.assertEqual((count, walk.skipped, walk.unmapped), (650, 650, 0))
        pe = Pe.of(image)
        self.assertEqual((pe.skipped["imports"], {*pe.unmapped.values()}, json.loads(pe.to_json())["skipped"]), (650, {0}, pe.skipped))

    def test_a_pe_has_what_the_walks_give(self):
        for name in IMAGES:
            pe = Pe(sample(name))
            self.assertEqual(tables_of(pe), walks_of(Image(sample(name))), name)
            self.assertEqual((pe.export_directory, pe.errors), (pe.image.export_directory(), ()))
        for name, wanted in (("imports_by_name_x64.dll", (True, True, b"imports_by_name_x64.dll", (b"KERNEL32.dll",))),
                             ("imports_by_ordinal_x86.dll", (False, True, b"imports_by_ordinal_x86.dll", (b"KERNEL32.dll",))),
                             ("program_x86.exe", (False, False, b"program_x86.exe", ()))):
            data = sample(name)
            with Pe.open(SAMPLES / name) as pe:
                optional = signature_of(data) + 24
                self.assertEqual((pe.image.is_64, pe.image.is_lib, pe.name, pe.libraries), wanted)
            form, place = ("<Q", 24) if pe.image.is_64 else ("<I", 28)
            wanted = struct.unpack_from("<I", data, optional + 16) + struct.unpack_from(form, data, optional + place)
            self.assertEqual((pe.image.entry, pe.image.image_base), wanted)


class Libraries(unittest.TestCase):
    def test_libraries_have_records(self):
        image = Image(DATA)
        record = image.find_offset(image.directories[DirectoryType.IMPORT_TABLE].virtual_address)
        image = Image(with_words(DATA, (record + 4, 1), (record + 8, 2)))
        library, = image.libraries()
        self.assertEqual((library[:4], library.time_date_stamp, library.forwarder_chain, library.is_skipped),
                         ((b"KERNEL32.dll", None, 0, record), 1, 2, False))
        self.assertEqual(image.text_at(library.name_rva), library.name)
        self.assertEqual(list(Image(FORWARDERS).libraries()), [])

    def test_a_library_whose_name_can_not_be_read(self):
        """Where its name is said to be the file ends. Strict mode refuses all imports, and not its own."""
        data = with_libraries(FORWARDERS, [b"a.dll", b"b.dll"], [1, 1])
        data = with_words(data, (len(FORWARDERS) + 12, len(data)))
        for is_permissive in False, True:
            image = Image(data, dataclasses.replace(IDENTITY, permissive=is_permissive))
            first, second = image.libraries()
            self.assertEqual((first.name, second.name, second.name_error), (None, b"b.dll", None))
            self.assertEqual((first.name_error.cause, first.name_error.numbers[0], first.name_error.table), (Cause.NAME_READ, len(data), Table.IMPORTS))
            self.assertEqual([x.dll for x in first.imports(image)], [b""])
            if is_permissive:
                self.assertEqual([x.dll for x in image.imports()], [b"", b"b.dll"])
            else:
                with self.assertRaises(PeError) as caught:
                    next(image.imports())
                self.assertEqual(caught.exception, first.name_error)
            self.assertEqual([x.dll for x in second.imports(image)], [b"b.dll"])
            self.assertEqual(sorted([second, first]), [first, second])

    def test_libraries_up_to_the_end_of_the_file(self):
        """No record ends the directory, which strict mode refuses after the libraries."""
        data = with_directory(FORWARDERS, 1, len(FORWARDERS), 20) + struct.pack("<5I", 0, 0, 0, 0x40, 0x40)
        walk = Image(data, IDENTITY).libraries()
        self.assertEqual(next(walk).offset, len(FORWARDERS))
        with self.assertRaises(PeError) as caught:
            next(walk)
        self.assertEqual((caught.exception.cause, caught.exception.numbers[0]), (Cause.IMPORT_RECORD_END, len(data)))
        self.assertEqual(len(list(Image(data, dataclasses.replace(IDENTITY, permissive=True)).libraries())), 1)

    def test_libraries_without_imports(self):
        """The second of three."""
        image = Image(with_libraries(FORWARDERS, [b"a.dll", b"b.dll", b"c.dll"], [1, 0, 1]), IDENTITY)
        begin = len(FORWARDERS)
        libraries = [(x.name, x.offset, image.text_at(x.name_rva), x.index, len([*x.imports(image)])) for x in image.libraries()]
        self.assertEqual(libraries, [(b"a.dll", begin, b"a.dll", 0, 1), (b"b.dll", begin + 20, b"b.dll", 1, 0), (b"c.dll", begin + 40, b"c.dll", 2, 1)])
        imports = [(x.dll, x.name, x.ordinal, x.library) for x in image.imports()]
        self.assertEqual(imports, [(b"a.dll", None, 7, 0), (b"c.dll", None, 7, 2)])

    def test_libraries_that_are_skipped_count(self):
        """The address table of the second of three can't be read."""
        data = with_libraries(FORWARDERS, [b"a.dll", b"b.dll", b"c.dll"], [2, 1, 1])
        image = Image(with_words(data, (len(FORWARDERS) + 20 + 16, len(data))), dataclasses.replace(IDENTITY, permissive=True))
        self.assertEqual([(x.dll, x.library) for x in image.imports()], [(b"a.dll", 0), (b"a.dll", 0), (b"c.dll", 2)])
        self.assertEqual([(x.name, x.index, x.is_skipped) for x in image.libraries()], [(b"a.dll", 0, False), (b"b.dll", 1, True), (b"c.dll", 2, False)])

    def test_libraries_of_a_file_of_many_sections(self):
        """Each has its own imports; a cursor that was made up harms nothing."""
        names, counts = [b"%d.dll" % i for i in range(6)], [3, 5000, 0, 2, 5000, 1]
        image = Image(with_libraries(with_section_names(97, 200), names, counts), IDENTITY)
        libraries = list(image.libraries())
        self.assertEqual([(x.name, x.index) for x in libraries], [(names[i], i) for i in range(6)])
        self.assertEqual([sum(1 for _ in x.imports(image)) for x in libraries], counts)
        for made in (0,) * len(libraries[0].cursor), (2**64 - 1,) * len(libraries[0].cursor), libraries[0].cursor:
            with contextlib.suppress(PeError):
                self.assertLess(sum(1 for _ in libraries[0]._replace(cursor=made).imports(Image(DATA), Budget(100000))), 100000)
        for wrong in (), 0, 1, None, ("a",), (1,) * 100:
            self.assertRaises(TypeError, libraries[0]._replace(cursor=wrong).imports, image)


class Headers(unittest.TestCase):
    def test_headers_are_shown_and_compared_by_their_fields(self):
        header, other = (Image(DATA).dos_header for _ in range(2))
        self.assertEqual(header, other)
        self.assertIn("reserved=(0, 0, 0, 0), oem_id=0", repr(header))
        self.assertNotEqual(header, other._replace(oem_id=1))
        self.assertEqual(Image(DATA).optional_header.windows_fields._replace(file_alignment=3).file_alignment, 3)

    def test_a_rest_of_the_rich_header_is_an_error_after_the_entries(self):
        data = sample("program_x64.exe")
        self.assertEqual((Image(data).rich_header, Pe(data).rich_entries), (None, ()))
        for rest, wanted in (([], []), ([5], [(ErrorKind.TOO_BIG, Table.RICH_HEADER)])):
            data, key = with_rich_header(261 << 16 | 30159, 7, *rest)
            pe = Pe(data)
            self.assertEqual(([(it.build, it.product, it.use_count) for it in pe.rich_entries]), [(30159, 261, 7)])
            self.assertEqual([(it.kind, it.table) for it in pe.errors], wanted)
            rich = pe.image.rich_header
            self.assertEqual((rich.key, rich.stored[:4]), (key, data[64:68]))
            self.assertRegex(rich.hash(), "^[0-9a-f]{32}$")

    def test_the_hash_of_a_large_rich_header_ends_soon(self):
        """That of 24 MB. Its words and its key are alike, so the bytes that are hashed are zeros."""
        begun = time.process_time()
        wanted = hashlib.md5(bytes(24 << 20) + b"\2").hexdigest()
        self.assertEqual(RichHeader(b"DanS" * (6 << 20) + b"F", int.from_bytes(b"DanS", "little"), 0, 0, 0).hash(), wanted)
        self.assertLess(time.process_time() - begun, 1)

    def test_what_neither_mode_passes_over(self):
        optional = SIGNATURE + 24
        table = optional + 240
        for place, changed, cause in ((optional + 108, b"\x11", Cause.DIRECTORY_COUNT), (optional, b"\x0C", ErrorKind.BAD_MAGIC),
                                      (table, b"/abc".ljust(8, b"\0"), Cause.NAME_DECIMAL), (64, b"Rich", Cause.NO_DANS)):
            file = DATA[:place] + changed + DATA[place + len(changed):]
            for options in Options(), PERMISSIVE:
                with self.assertRaises(PeError) as caught:
                    Image(file, options)
                self.assertIn(cause, (caught.exception.cause, caught.exception.kind))
        for end in table + 100, optional + 100:
            for options in Options(), PERMISSIVE:
                self.assertRaises(PeError, Image, DATA[:end], options)

    def test_parts_of_a_refused_header(self):
        """Of an image for 64 bits: seventeen data directories, a section named /abc, the magic of a ROM image, a header that is cut in
        its data directories, and a section table that is cut in its third record."""
        whole = Image(DATA)
        header = SIGNATURE + 24
        table = header + whole.coff_header.size_of_optional_header
        for changed, faults, missing in ((DATA[:header + 108] + b"\x11" + DATA[header + 109:], {"directories"}, 0),
                                         (DATA[:table] + b"/abc\0" + DATA[table + 5:], {"section_names"}, 0),
                                         (DATA[:header] + b"\x07\x01" + DATA[header + 2:], {"standard_fields", "windows_fields", "directories"}, 0),
                                         (DATA[:header + 120], {"directories", "section_table"}, 4), (DATA[:table + 100], {"section_table"}, 2)):
            for options in (Options(), PERMISSIVE):
                with self.subTest(faults=faults, missing=missing, options=options), self.assertRaises(PeError) as caught:
                    Image(changed, options)
                image = Image.partial(changed, options)
                self.assertEqual(image.refusal, caught.exception)
                self.assertEqual(({*image.header_faults}, len(image.sections)), (faults, 4 - missing))
                self.assertEqual([s.virtual_address for s in image.sections], [s.virtual_address for s in whole.sections[:4 - missing]])
                if len(faults) < 2 and not missing:
                    self.assertEqual((walks_of(image)[1:], image.imphash()), (walks_of(whole)[1:], whole.imphash()))
                    self.assertEqual(image.find_offset(0x2000), whole.find_offset(0x2000))

    def test_a_header_inside_the_dos_header(self):
        data = bytearray(DATA)
        data[0x10: 0x10 + 0x200] = data[SIGNATURE: SIGNATURE + 0x200]
        struct.pack_into("<I", data, 0x3C, 0x10)
        with self.assertRaises(PeError) as caught:
            Image(data)
        image = Image(data, PERMISSIVE)
        self.assertEqual(caught.exception.cause, Cause.STUB_BEFORE_START)
        with self.assertRaises(PeError) as caught:
            image.patched()
        self.assertEqual(caught.exception.kind, ErrorKind.PLACE)

    def test_a_file_without_directories(self):
        data = DATA[:SIGNATURE + 20] + bytes(2) + DATA[SIGNATURE + 22:]
        pe = Pe(data)
        self.assertEqual((pe.image.optional_header, set(pe.image.directories), pe.export_directory, pe.export_addresses, pe.image.find_offset(0x1020)),
                         (None, {DataDirectory(0, 0)}, None, (), None))
        self.assertEqual((pe.image.entry, pe.image.image_base, pe.image.is_64), (0, 0, False))

    def test_kinds(self):
        names = ("firmware_x64.efi", "object_x86.obj", "firmware_x64.te")
        self.assertEqual([Kind.of(sample(it)) for it in names], [Kind.IMAGE, Kind.OBJECT, Kind.TE])
        self.assertEqual([Kind.of(b""), Kind.of(bytearray(b"\0\0"))], [Kind.UNKNOWN] * 2)
        self.assertEqual([it.kind for it in (Image(DATA), Image.object(OBJECT), Image.te(sample(names[2])))], [Kind.IMAGE, Kind.OBJECT, Kind.TE])

    def test_programs_libraries_and_drivers(self):
        """By the characteristics and the subsystem, as the specification names them."""
        for characteristics, subsystem, wanted in ((0x22, 3, "is_exe"), (0x22, 2, "is_exe"), (0x2022, 3, "is_dll"), (0x22, 1, "is_driver"),
                                                   (0x2022, 1, "is_dll is_driver"), (0x2020, 3, "is_dll"), (0x20, 1, ""), (0x20, 3, "")):
            data = bytearray(DATA)
            struct.pack_into("<H", data, SIGNATURE + 22, characteristics)
            struct.pack_into("<H", data, SIGNATURE + 24 + 68, subsystem)
            image = Image(data)
            self.assertEqual([it for it in ("is_exe", "is_dll", "is_driver") if getattr(image, it)], wanted.split())
            self.assertEqual(image.is_lib, image.is_dll)
        self.assertEqual([getattr(Image.object(OBJECT), it) for it in ("is_exe", "is_dll", "is_driver")], [False] * 3)

    def test_a_file_is_opened_by_its_path(self):
        for path in PATH, str(PATH):
            self.assertEqual(tables_of(Pe.open(path, Options())), tables_of(Pe(DATA)))
        self.assertEqual(Image.open(PATH, options=PERMISSIVE).options, PERMISSIVE)
        self.assertRaises(OSError, Pe.open, str(PATH) + ".not")
        self.assertRaises(PeError, Image.open, SAMPLES / "object_x64.obj")


class Places(unittest.TestCase):
    def test_what_is_at_an_address(self):
        image = Image(DATA)
        found = next(image.imports())
        self.assertEqual(image.text_at(found.hint_name_rva + 2), b"GetTickCount")
        self.assertEqual(image.memory_at(0x1020, 4), (DATA[0x420:0x424], 0, 0, 0, Region.RAW_DATA))
        self.assertEqual((image.memory_at(0x1020, 4).whole(), bytes(image.memory_at(0x1020, len(DATA))[0])), (DATA[0x420:0x424], DATA[0x420:0x600]))
        self.assertIsNone(image.text_at(0x9000))
        self.assertRaises(PeError, image.forwarder_at, 0x9000)
        for options in (Options(), Options(permissive=True, mapping=Mapping.IDENTITY)):
            image = Image(DATA, options)
            for rva in (2**64 + 0x1020, 2**64, -1):
                for call in (image.find_offset, image.find_rva, image.text_at, image.forwarder_at, image.symbol_at, image.string_at,
                             lambda it: image.memory_at(it, 1), lambda it: image.memory_at(0, it)):
                    self.assertRaises(OverflowError, call, rva)
        self.assertEqual([image.find_offset(it) for it in (2**32 - 1, 2**32, 2**64 - 1)], [2**32 - 1, None, None])
        self.assertEqual(_rows._import(_records.Import(iat_rva=2**32), _rows.text).iat_rva, 2**32)  # (it does not begin again at 0)
        for image, rva in (Image(DATA), 2**32 + 0x1020), (image, 2**32 + 0x20), (image, 2**32):
            self.assertEqual((image.find_offset(rva), image.memory_at(rva, 4)), (None, (b"", 0, 4, None, Region.UNMAPPED)))
            self.assertIsNone(image.text_at(rva))
            self.assertRaises(PeError, image.forwarder_at, rva)

    def test_a_look_up_in_many_sections_ends_soon(self):
        """In 2.6 MB of section headers: find_rva looks at each twice, for offsets that are near, far and nowhere."""
        count = 65000
        data = bytearray(DATA[:SIGNATURE + 24 + 240])
        for i in range(count):
            data += struct.pack("<8s8I", b".data", 0x1000, 0x1000 * (i + 1), 0x200, 0x200 * (i + 6000), 0, 0, 0, 0)
        struct.pack_into("<H", data, SIGNATURE + 6, count)
        image, begun = Image.partial(data), time.process_time()
        for index in 0, count // 2, count - 1:
            self.assertEqual(image.find_rva(0x200 * (index + 6000) + 5), 0x1000 * (index + 1) + 5)
        self.assertIsNone(image.find_rva(1 << 62))
        self.assertLess(time.process_time() - begun, 0.2)

    def test_the_data_of_sections(self):
        data = sample("align16_x64.dll")
        image = Image(data)
        self.assertEqual((Image(DATA).overlay(), Image(DATA + b"more").overlay()), (b"", b"more"))
        for s in image.sections:
            found = s.data(image)
            self.assertEqual(found.data, data[s.pointer_to_raw_data:][:s.size_of_raw_data])
            self.assertEqual((len(found.data) + found.zeros, found.data.obj is data), (max(s.virtual_size, s.size_of_raw_data), True))
        table = signature_of(sample("program_x64.exe")) + 24 + Image(sample("program_x64.exe")).coff_header.size_of_optional_header
        unaligned = bytearray(sample("program_x64.exe"))
        unaligned[table + 20] |= 0x10  # (the raw pointer of the first)
        image = Image(unaligned)
        first = image.sections[0]
        self.assertEqual(first.data(image).data[:16], image.memory_at(first.virtual_address, 16).data)
        self.assertNotEqual(first.pointer_to_raw_data, image.find_offset(first.virtual_address))
        self.assertEqual(image.with_options(Options(mapping=Mapping.AS_STORED)).find_offset(first.virtual_address), first.pointer_to_raw_data)
        s = next(it for it in Image(data).sections if it.size_of_raw_data)
        cut = Image(data[:s.pointer_to_raw_data + s.size_of_raw_data - 1])
        self.assertEqual((len(s.data(cut).data), s.data(cut).missing > 0, s.data(cut).whole()), (s.size_of_raw_data - 1, True, None))

    def test_small_alignments(self):
        """The offsets and blocks are those of pefile 2023.2.7 and llvm-readobj 14."""
        image = Image(SMALL_ALIGNMENTS)
        wanted = {b"answer": 0x220, b"numbers": 0x2E0, b"place": 0x2F0, b"words": 0x230}
        for mapping in Mapping.AS_LOADED, Mapping.BY_FILE_ALIGNMENT:
            view = image.with_options(Options(mapping=mapping))
            self.assertEqual({it.name: it.offset for it in view.exports()}, wanted)
            self.assertEqual([(it.rva, it.entries) for it in view.relocation_blocks()], [(0, b"\x50\xA3\0\0")])
            for rva, offset in (0x240, 0x220), (0x280, 0x230), (0x340, 0x2E0), (0x380, 0x300):
                self.assertEqual((view.find_offset(rva), view.find_rva(offset)), (offset, rva))
        self.assertEqual(image.memory_at(0x340, 12).data, struct.pack("<3I", 1, 2, 3))
        self.assertEqual(image.text_at(0x280), b"after the code")

    def test_what_a_cut_file_lacks_is_not_zeros(self):
        """The last section has 0x10 bytes in memory, and 0x200 in a file block. The cut file has 0x150 of these."""
        whole, cut = (Image(it) for it in (DATA, DATA[:0xB50]))
        self.assertEqual(whole.memory_at(0x4180, 16)[:3], (DATA[0xB80:0xB90], 0, 0))
        self.assertEqual([cut.memory_at(rva, 0x200)[:2] for rva in (0x4000, 0x4180)], [(DATA[0xA00:0xB50], 0), (b"", 0)])
        self.assertEqual([cut.memory_at(0x4000, 0x200).missing, cut.memory_at(0x4180, 16).missing], [0xB0, 16])
        self.assertEqual([it.memory_at(0x4180, 1).region for it in (whole, cut)], [Region.RAW_DATA] * 2)

    def test_the_memory_of_sections_holds_what_follows_their_data(self):
        place = DATA.index(Image(DATA).sections[1].stored_name)
        image = Image(with_words(DATA, (place + 8, 0x3000), (place + 12, 0x10000)), PERMISSIVE)  # (a virtual size and an address of its own)
        for distance, region, section in ((0, Region.RAW_DATA, 1), (0x2FFF, Region.ZEROS, 1), (0x3000, Region.UNMAPPED, None)):
            found = image.memory_at(0x10000 + distance, 1)
            self.assertEqual((found.region, found.section, found.missing), (region, section, section is None))
        self.assertEqual((image.memory_at(0, 1).section, image.memory_at(0, 1).region), (None, Region.HEADERS))
        for name in IMAGES:
            image = Image(sample(name))
            for rva in range(0, 0x6000, 0x10):
                found = image.memory_at(rva, 1)
                self.assertEqual(found.region is Region.UNMAPPED, found.section is None and found.region is not Region.HEADERS, (name, rva))

    def test_sections_are_found_by_their_names_and_numbers(self):
        image = Image.object(OBJECT)
        for read in Image(DATA), image, Image.te(sample("firmware_x64.te")):
            for number, s in enumerate(read.sections, 1):
                self.assertEqual((read.section_by_number(number), read.section_by_name(s.name.decode()).name), (s, s.name))
            self.assertEqual([read.section_by_number(it) for it in (0, -1, -2, number + 1)], [None] * 4)
            self.assertIsNone(read.section_by_name(b"nothing"))
        many = struct.pack("<HHIIIHH", 0x8664, 40000, 0, 0, 0, 0, 0) + b"".join(struct.pack("<8s8I", b"%d" % i, *[0] * 8) for i in range(1, 40001))
        self.assertEqual([Image.object(many).section_by_number(it).name for it in (32767, -32768, 32768)], [b"32767", b"32768", b"32768"])
        self.assertIsNone(Image.object(many).section_by_number(40001 - 0x10000))

    def test_exports_are_found_by_name_and_ordinal(self):
        image = Image(FORWARDERS)
        exports, addresses = list(image.exports()), {it.ordinal: it for it in image.export_addresses()}
        self.assertEqual([image.find_export(x.name) for x in exports], exports)
        self.assertEqual((image.find_export("answer").name, image.find_export("nothing"), image.find_export("")), (b"answer", None, None))
        # (a name that the options cut is not found, nor is what they leave of it)
        short = image.with_options(Options(longest_name=4))
        self.assertEqual([short.find_export(it) for it in (b"answer", b"answe", b"fwd")], [None, None, [*short.exports()][2]])
        for wrong in 1, None, ["answer"]:
            for call in image.find_export, image.section_by_name:
                self.assertRaises(TypeError, call, wrong)
        self.assertEqual(min(addresses), image.export_directory().ordinal_base)
        for ordinal, it in addresses.items():
            self.assertEqual(image.find_export_by_ordinal(ordinal), it if it.rva else None)
        self.assertEqual([image.find_export_by_ordinal(it) for it in (0, -1, ordinal + 1, 2**63)], [None] * 4)
        for x in exports:
            self.assertEqual((x.rva, x.forwarder is not None), addresses[x.ordinal][1:])
            self.assertEqual((exports[x.hint], image.text_at(x.name_rva)), (x, x.name))
            self.assertEqual(x.forwarder, image.forwarder_at(x.rva) if addresses[x.ordinal].is_forwarder else None)
        without = Image(with_directory(FORWARDERS, DirectoryType.EXPORT_TABLE, 0, 0))
        self.assertEqual([without.find_export_by_ordinal(1), without.find_export("answer")], [None] * 2)

    def test_an_export_whose_forwarder_can_not_be_read_is_passed_over(self):
        """A walk gives no such export, so none is found. Another one of the same name is."""
        image, broken = Image(FORWARDERS), FORWARDERS.replace(b"WS2_32.#3", b"WS2_32_#3")
        _, first, second = image.exports()
        names = image.find_offset(image.export_directory().name_pointer_rva)
        both = with_words(broken, (names + 4 * second.hint, first.name_rva))
        for options in Options(), PERMISSIVE:
            self.assertIsNone(Image(broken, options).find_export(first.name))
            self.assertEqual(Image(both, options).find_export(first.name), second._replace(name=first.name, name_rva=first.name_rva))

    def test_the_relocations_of_a_block(self):
        data = sample("program_x64.exe")
        block = next(Image(data).relocation_blocks())
        self.assertIn(struct.pack("<II", block.rva, block.size) + block.entries, data)
        words = struct.unpack("<%dH" % (len(block.entries) // 2), block.entries)
        self.assertEqual([*block.relocations()], [(block.rva + (it & 0xFFF), it >> 12) for it in words])
        cut = block._replace(rva=0xFFFFFFFF, entries=b"\x01\xa0\0")
        self.assertEqual([*cut.relocations()], [(2**32, 10)])
        self.assertEqual(sorted([block, cut, block._replace(entries=b"")]), [block._replace(entries=b""), block, cut])


class Objects(unittest.TestCase):
    def test_symbols_and_relocations(self):
        for name in ("object_x64.obj", "object_x86.obj"):
            data = sample(name)
            with Image.object(data) as image:
                symbols = list(image.symbols())
                for s in image.sections:
                    wanted = [struct.unpack_from("<IIH", data, s.pointer_to_relocations + 10 * i) for i in range(s.number_of_relocations)]
                    self.assertEqual([*s.relocations(image)], [CoffRelocation(*it) for it in wanted])
                for s in symbols:
                    self.assertEqual(len(s.aux_bytes), 18 * s.number_of_aux_symbols)
                    if s.storage_class == 3 and s.number_of_aux_symbols == 1:
                        self.assertEqual(s.auxiliary(image).kind, AuxiliaryKind.SECTION_DEFINITION)
                        self.assertEqual(s.auxiliary(image).length, image.section_by_number(s.section_number).size_of_raw_data)
                        self.assertEqual(image.section_by_number(s.section_number).name, s.name)
                    elif not s.aux_bytes:
                        self.assertIsNone(s.auxiliary(image))
                self.assertEqual([image.symbol_at(s.index) for s in symbols], symbols)
                count = image.coff_header.number_of_symbol_table
                for index in range(count):  # (auxiliary records, too)
                    stored = struct.unpack_from("<IhHBB", data, image.coff_header.pointer_to_symbol_table + 18 * index + 8)
                    self.assertEqual((image.symbol_at(index).index, image.symbol_at(index)[3:-2]), (index, stored))
                self.assertIsNone(image.symbol_at(count))
            for closed in lambda: next(image.symbols()), lambda: image.symbol_at(0), lambda: next(image.sections[0].relocations(image)):
                self.assertRaises(ValueError, closed)
        self.assertEqual(([*Image(DATA).symbols()], Image(DATA).symbol_at(0), Image(DATA).string_at(4)), ([], None, None))

    def test_a_symbol_has_auxiliary_records_of_its_kind_alone(self):
        record = struct.pack("<IHHIHBBH", 1, 2, 3, 4, 5, 6, 0, 0)
        kinds = AuxiliaryKind
        fields = {
            kinds.FUNCTION_DEFINITION: {"tag_index": 1, "total_size": 0x30002, "pointer_to_line_number": 4, "pointer_to_next_function": 0x60005},
            kinds.BEGIN_AND_END_FUNCTION: {"line_number": 2, "pointer_to_next_function": 0x60005},
            kinds.WEAK_EXTERNAL: {"tag_index": 1, "characteristics": 0x30002}, kinds.FILE: {"file": b"\1"},
            kinds.SECTION_DEFINITION: {"length": 1, "number_of_relocations": 2, "number_of_line_numbers": 3, "checksum": 4, "number": 5, "selection": 6}}
        # (the storage class, the type, the section and the value)
        for row, wanted in (((2, 0x20, 1, 0x10), kinds.FUNCTION_DEFINITION), ((2, 0, 1, 0x10), None), ((101, 0, 1, 5), kinds.BEGIN_AND_END_FUNCTION),
                            ((105, 0, 0, 0), kinds.WEAK_EXTERNAL), ((2, 0, 0, 0), kinds.WEAK_EXTERNAL), ((2, 0, 0, 8), None),
                            ((3, 0, 1, 0), kinds.SECTION_DEFINITION), ((103, 0, -2, 0), kinds.FILE)):
            with self.subTest(row):
                storage_class, typ, section, value = row
                records = struct.pack("<8sIhHBB", b"name", value, section, typ, storage_class, 1) + record
                header = struct.pack("<HHIIIHH", 0x8664, 0, 0, 20, 2, 0, 0)
                image = Image.object(header + records + struct.pack("<I", 4))
                symbol, = image.symbols()
                found = symbol.auxiliary(image)
                self.assertEqual(found and {name: it for name, it in found._asdict().items() if it}, wanted and {"kind": wanted, **fields[wanted]})
                self.assertIsNone(symbol._replace(aux_bytes=b"").auxiliary(image))

    def test_more_relocations_than_a_counter_says(self):
        """Those of 70,000, and one that passes the end."""
        count = 70000
        records = struct.pack("<IIH", count, 0, 0) + b"".join(struct.pack("<IIH", i, 0, 6) for i in range(1, count))
        header = struct.pack("<HHIIIHH", 0x8664, 1, 0, 0, 0, 0, 0)
        data = header + struct.pack("<8sIIIIIIHHI", b".text", 0, 0, 0, 0, 60, 0, 0xFFFF, 0, 0x01000020) + records
        image = Image.object(data)
        self.assertEqual(sum(it.virtual_address for it in image.sections[0].relocations(image)), sum(range(1, count)))
        image = Image.object(data[:-1])
        with self.assertRaises(PeError) as caught:
            collections.deque(image.sections[0].relocations(image), 0)
        self.assertEqual((caught.exception.kind, caught.exception.table), (ErrorKind.TOO_BIG, Table.SYMBOLS))

    def test_terse_executables(self):
        """Sections are moved by the stripped size less the 40 bytes of the header, while the records in the file say what was before."""
        data = sample("firmware_x64.te")
        with Image.te(data) as te:
            moved = te.te_header.stripped_size - 40
            for index, s in enumerate(te.sections):
                stored = struct.unpack_from("<8sIIIIIIHHI", data, 40 + 40 * index)
                self.assertEqual((s.stored_name, s.virtual_size, s.virtual_address + moved, s.size_of_raw_data, s.pointer_to_raw_data + moved), stored[:5])
                self.assertEqual(s.data(te).data, data[s.pointer_to_raw_data:][:s.size_of_raw_data])
                self.assertEqual([*s.relocations(te)], [])
            two = te.sections[0]._replace(pointer_to_relocations=40, number_of_relocations=2)
            self.assertEqual([*two.relocations(te)], [CoffRelocation(*it) for it in struct.iter_unpack("<IIH", data[40:60])])
        self.assertRaises(ValueError, lambda: next(two.relocations(te)))
        self.assertEqual((te.te_header.signature, repr(te), Image(DATA).te_header), (0x5A56, "<te of %d sections>" % len(te.sections), None))


class Patched(unittest.TestCase):
    def test_headers_and_sections_are_written(self):
        for name in IMAGES:
            data = sample(name)
            image = Image(data)
            self.assertEqual((image.patched(), image.dos_stub), (data, data[64: data.index(b"PE\0\0")]), name)
            optional = image.optional_header
            optional = optional._replace(windows_fields=optional.windows_fields._replace(check_sum=7))
            made = Image(image.patched(coff_header=image.coff_header._replace(time_date_stamp=5), optional_header=optional,
                                       sections=[image.sections[0]._replace(stored_name=b".code\0\0\0")]))
            self.assertEqual((made.coff_header.time_date_stamp, made.optional_header, made.sections[0].name, made.sections[1:]),
                             (5, optional, b".code", image.sections[1:]))
            sealed = Image(image.patched(checksum=True))
            self.assertEqual((sealed.optional_header.windows_fields.check_sum, len(sealed.data)), (sealed.checksum(), len(data)))

    def test_what_is_written_is_what_the_arguments_say(self):
        image, header = Image(DATA), SIGNATURE
        directories = [*image.directories]
        directories[DirectoryType.DEBUG_TABLE] = DataDirectory(7, 0)
        for place, width, made in (
                (0x1C, 2, image.patched(dos_header=image.dos_header._replace(reserved=(7, 0, 0, 0)))),
                (header + 8, 4, image.patched(coff_header=image.coff_header._replace(time_date_stamp=7))),
                (header + 24 + 64, 4, image.patched(optional_header=image.optional_header._replace(
                    windows_fields=image.optional_header.windows_fields._replace(check_sum=7)))),
                (header + 24 + 112 + 8 * DirectoryType.DEBUG_TABLE, 4, image.patched(directories=directories))):
            wanted = bytearray(DATA)
            wanted[place: place + width] = (7).to_bytes(width, "little")
            self.assertEqual(made, wanted)
        none = [DataDirectory(0, 0)] * 16
        self.assertEqual(Image(image.patched(directories=none), PERMISSIVE).directories, tuple(none))
        for wrong in none + none[:1], none[:15], ():
            self.assertRaises(ValueError, image.patched, directories=wrong)
        self.assertRaises(PeError, image.patched, dos_header=image.dos_header._replace(pe_pointer=header + 8))
        coff = image.coff_header._replace(size_of_optional_header=image.coff_header.size_of_optional_header + 8)
        self.assertRaisesRegex(PeError, "another size", image.patched, coff_header=coff)

    def test_what_does_not_fit_a_field_is_not_written(self):
        image = Image(DATA)
        fields, section = image.optional_header.windows_fields, image.sections[0]
        for wrong in (2**32, -1):
            self.assertRaises(OverflowError, image.patched, coff_header=image.coff_header._replace(time_date_stamp=wrong))
            optional = image.optional_header._replace(windows_fields=fields._replace(check_sum=wrong))
            self.assertRaises(OverflowError, image.patched, optional_header=optional)
            self.assertRaises(OverflowError, image.patched, sections=[section._replace(virtual_size=wrong)])
            self.assertRaises(OverflowError, section._replace(pointer_to_raw_data=wrong).data, image)
        for wrong in b"ninebytes", b".text":
            self.assertRaises(ValueError, image.patched, sections=[section._replace(stored_name=wrong)])
        bare = Image(DATA[:SIGNATURE + 20] + bytes(2) + DATA[SIGNATURE + 22:])
        self.assertRaises(PeError, bare.patched, optional_header=image.optional_header)
        self.assertRaises(PeError, bare.patched, checksum=True)

    def test_a_class_of_a_user_is_patched(self):
        class Named(Image):
            def __init__(self, name, data):
                super().__init__(data)
                self.name = name

        self.assertEqual(Named("a", DATA).patched(checksum=True), Image(DATA).patched(checksum=True))

    def with_small_header(self, size, directories=16):
        """The sample whose section table begins so many bytes after its optional header, with so many directories."""
        table = SIGNATURE + 24 + int.from_bytes(DATA[SIGNATURE + 20: SIGNATURE + 22], "little")
        made = bytearray(DATA)
        made[SIGNATURE + 20: SIGNATURE + 22] = size.to_bytes(2, "little")
        made[SIGNATURE + 24 + 108: SIGNATURE + 24 + 112] = directories.to_bytes(4, "little")
        made[SIGNATURE + 24 + size: SIGNATURE + 24 + size + 160] = DATA[table: table + 160]
        return bytes(made), SIGNATURE + 24 + size

    def with_directories(self, image, which, *more):
        directories = [*image.directories]
        directories[which] = DataDirectory(*more)
        return directories

    def test_what_a_small_optional_header_has_no_place_for_is_not_written(self):
        """Of 216 bytes, so that the section table stands where the last three directories are."""
        data, table = self.with_small_header(216)
        image = Image(data, PERMISSIVE)
        self.assertEqual((len(image.sections), image.patched()), (4, data))
        moved = self.with_directories(image, DirectoryType.CLR_RUNTIME_HEADER, 1, 2)
        self.assertRaisesRegex(PeError, "section table", image.patched, directories=moved)
        kept = self.with_directories(image, DirectoryType.DEBUG_TABLE, 7, 0)
        self.assertEqual(Image(image.patched(directories=kept), PERMISSIVE).directories, tuple(kept))
        # (and of 104 bytes, so that the last two numbers of the header are the name of the first section)
        data, table = self.with_small_header(104)
        data = data[:table] + b".tx\0".ljust(8, b"\0") + data[table + 8:]
        image = Image(data, PERMISSIVE)
        fields = image.optional_header.windows_fields
        self.assertEqual((image.patched(), fields.number_of_rva_and_sizes), (data, 0))
        header = image.optional_header._replace(windows_fields=fields._replace(check_sum=7))
        self.assertEqual(Image(image.patched(optional_header=header), PERMISSIVE).optional_header, header)
        header = image.optional_header._replace(windows_fields=fields._replace(loader_flags=7))
        self.assertRaises(PeError, image.patched, optional_header=header)

    def test_directories_that_have_no_place_in_the_optional_header_are_not_counted(self):
        """Of 192 bytes, in which ten have a place, and of 112 bytes, in which none has, though zeros follow, and no sections."""
        data, _ = self.with_small_header(192, 2)
        bare = bytearray(data)
        for place, width, number in ((6, 2, 0), (20, 2, 112), (24 + 108, 4, 0), (24 + 112, 128, 0)):
            bare[SIGNATURE + place: SIGNATURE + place + width] = number.to_bytes(width, "little")
        for file, most in (data, 10), (bytes(bare), 0):
            image = Image(file, PERMISSIVE)
            fields = image.optional_header.windows_fields
            header = lambda count: image.optional_header._replace(windows_fields=fields._replace(number_of_rva_and_sizes=count))
            for count in range(most + 1):
                again = Image(image.patched(optional_header=header(count)), PERMISSIVE)
                self.assertEqual((again.optional_header, again.sections), (header(count), image.sections))
            for count in most + 1, 16, 17, 2**32 - 1:
                self.assertRaisesRegex(PeError, "data directories", image.patched, optional_header=header(count))
        image = Image(data, PERMISSIVE)
        header = image.optional_header._replace(windows_fields=image.optional_header.windows_fields._replace(number_of_rva_and_sizes=10))
        more = self.with_directories(image, 9, 7, 8)
        self.assertEqual(Image(image.patched(optional_header=header, directories=more), PERMISSIVE).directories[9], DataDirectory(7, 8))
        self.assertRaises(PeError, image.patched, optional_header=header, directories=self.with_directories(image, 10, 7, 8))
        self.assertRaises(PeError, image.patched, directories=more)

    def test_sections_and_the_header_may_not_say_two_things(self):
        """Of 104 bytes, so that the last two numbers of the optional header are the name of the first section."""
        data, table = self.with_small_header(104, 0)
        data = data[:table] + b".tx\0".ljust(8, b"\0") + data[table + 8:]
        image = Image(data, PERMISSIVE)
        for name in b".tx\0\1\0\0\0", b".ty\0\0\0\0\0":
            self.assertRaises(PeError, image.patched, sections=[image.sections[0]._replace(stored_name=name)])
        fields = image.optional_header.windows_fields._replace(loader_flags=int.from_bytes(b".ty\0", "little"))
        made = Image(image.patched(optional_header=image.optional_header._replace(windows_fields=fields),
                                   sections=[image.sections[0]._replace(stored_name=b".ty\0\0\0\0\0")]), PERMISSIVE)
        self.assertEqual((made.sections[0].name, made.optional_header.windows_fields), (b".ty", fields))

    def test_a_partial_image_is_mended(self):
        seventeen, _ = self.with_small_header(240, 17)
        image = Image.partial(seventeen)
        self.assertEqual((image.patched(), {*image.header_faults}), (seventeen, {"directories"}))
        fields = image.optional_header.windows_fields._replace(number_of_rva_and_sizes=16)
        self.assertEqual(image.patched(optional_header=image.optional_header._replace(windows_fields=fields)), DATA)

    def test_sections_are_written_where_there_is_room(self):
        image = Image(DATA)
        table = SIGNATURE + 24 + image.coff_header.size_of_optional_header
        room = (min(s.pointer_to_raw_data for s in image.sections) - table) // 40
        more = image.sections + image.sections[:1] * (room - len(image.sections))
        coff = image.coff_header._replace(number_of_sections=room)
        written = image.patched(coff_header=coff, sections=more)
        indexed = tuple(it._replace(index=i) for i, it in enumerate(more))
        self.assertEqual((written[table + 40 * room:], Image(written, PERMISSIVE).sections), (DATA[table + 40 * room:], indexed))
        self.assertRaisesRegex(PeError, "no room", image.patched, sections=more + more[:1])
        # (also where the header counts more than are given, which are zeros then)
        counted = Image(image.patched(coff_header=coff), PERMISSIVE).sections
        self.assertEqual((counted[:len(image.sections)], len(counted)), (image.sections, room))
        for count, sections in (room + 1, ()), (0xFFFF, image.sections):
            self.assertRaisesRegex(PeError, "no room", image.patched, coff_header=coff._replace(number_of_sections=count), sections=sections)
        unstored = image.sections[:-1] + (image.sections[-1]._replace(size_of_raw_data=0x200, pointer_to_raw_data=0),)
        beside = Image(image.patched(sections=unstored), PERMISSIVE)
        self.assertEqual(Image(beside.patched(coff_header=coff, sections=more), PERMISSIVE).sections, indexed)
        bound = bytearray(DATA)
        bound[table + 40 * len(image.sections)] = 1  # (as bound imports stand there)
        self.assertRaisesRegex(PeError, "no room", Image(bound).patched, sections=more)
        self.assertEqual(Image(bound).patched(sections=image.sections), bound)


class Names(unittest.TestCase):
    def test_the_text_of_a_number_is_its_name(self):
        named = (Kind.IMAGE, Cause.DOS_MAGIC, Mapping.IDENTITY, DirectoryType.IMPORT_TABLE)
        wanted = "Kind.IMAGE Cause.DOS_MAGIC Mapping.IDENTITY DirectoryType.IMPORT_TABLE"
        self.assertEqual(" ".join(map(str, named)), wanted)
        self.assertEqual(" ".join("{}".format(it) for it in named), wanted)
        self.assertEqual("%d %#x {:#x} {:>15}".format(Cause.DOS_MAGIC, Region.ZEROS) % (Cause.DOS_MAGIC, Cause.DOS_MAGIC),
                         "3 0x3 0x3    Region.ZEROS")

    def test_names_of_numbers_and_flags(self):
        for number, kind, wanted in ((0x8664, "machine", ["COFF_MACHINE_X86_64"]), (1, "machine", ["0x1"]),
                                     (3, "subsystem", ["IMAGE_SUBSYSTEM_WINDOWS_CUI"]), (0, "file", []),
                                     (0x2002, "file", ["IMAGE_FILE_EXECUTABLE_IMAGE", "IMAGE_FILE_DLL"]),
                                     (0x41, "dll", ["IMAGE_DLLCHARACTERISTICS_DYNAMIC_BASE", "0x1"]),
                                     (0x60500024, "section", ["IMAGE_SCN_CNT_CODE", "IMAGE_SCN_ALIGN_16BYTES", "IMAGE_SCN_MEM_EXECUTE",
                                                              "IMAGE_SCN_MEM_READ", "0x4"]),
                                     (103, "storage_class", ["IMAGE_SYM_CLASS_FILE"]), (5, "comdat", ["IMAGE_COMDAT_SELECT_ASSOCIATIVE"]),
                                     (9, "comdat", ["0x9"]), (3, "weak_external", ["IMAGE_WEAK_EXTERN_SEARCH_ALIAS"]),
                                     (10, "base_relocation", ["IMAGE_REL_BASED_DIR64"]),
                                     (9, "base_relocation", ["IMAGE_REL_BASED_MIPS_JMPADDR16", "IMAGE_REL_BASED_IA64_IMM64"])):
            self.assertEqual(names_of(number, kind), wanted)
        self.assertRaises(KeyError, names_of, 1, "symbol")
        for machine, typ, wanted in ((0x8664, 4, "IMAGE_REL_AMD64_REL32"), (0x14C, 0x14, "IMAGE_REL_I386_REL32"), (0xAA64, 3, "IMAGE_REL_ARM64_BRANCH26"),
                                     (0x1C4, 0x10, "IMAGE_REL_ARM_MOV32A"), (0x8664, 0x99, "0x99"), (1, 4, "0x4")):
            self.assertEqual(goblin_pe.relocation_name(machine, typ), wanted)

    def test_names_of_ordinals(self):
        """By the spelling of the libraries' own exports, as pefile 2023.2.7 tells them."""
        for dll, ordinal, wanted in ((b"WS2_32.dll", 115, b"WSAStartup"), (b"wsock32.DLL", 3, b"closesocket"), (b"OLEAUT32.dll", 2, b"SysAllocString"),
                                     ("ws2_32.DLL", 115, b"WSAStartup"), (b"oleaut32.dll", 999, None), (b"kernel32.dll", 1, None), (b"OLEAUT32", 2, None)):
            self.assertEqual(goblin_pe.ordinal_name(dll, ordinal), wanted)

    def test_the_hash_of_imports_is_that_of_other_tools(self):
        # (told by pefile 2023.2.7)
        self.assertEqual(Image(sample("imports_by_name_x86.dll")).imphash(), "5fd9bbcd68e633c2417c6dd0c112ae23")
        self.assertEqual(Image(DATA).imphash(Budget(100)), "27abfd9cfda7519d5efb3f08a2a4f3ce")
        # (pefile has an empty text if there are no imports; None is that the options cut a name)
        self.assertEqual((Image(FORWARDERS).imphash(), Image(DATA, Options(longest_name=4)).imphash()), ("", None))
        one = with_libraries(FORWARDERS, [b"x"], [1])  # (ord7 is no name of the file)
        self.assertEqual(Image(one, dataclasses.replace(IDENTITY, longest_name=1)).imphash(), hashlib.md5(b"x.ord7").hexdigest())
        self.assertRaises(OutOfSteps, Image(DATA).imphash, Budget(2))
        for dll, ordinal, wanted in [
            (b"KERNEL32.dll", 901, "149d2e96f294661822cac53bee31923e"),
            (b"WS2_32.dll", 115, "b37125ceef051f12e08e29efb577946e"),
            (b"wsock32.DLL", 1142, "2abbd9ade07297967661cfa09c911406"),
            (b"OLEAUT32.dll", 6, "34cc24834ac54238d20258721638305d"),
            (b"oleaut32.dll", 999, "ac4335c367c483416ad8947728b70e5d"),
            (b"OLEAUT32.sys", 6, "0b95961135d7de048291c05a30a259f5"),
            (b"a.b.OCX", 7, "f97b2ce4f275cbebbfc8005f20b35541"),
            (b"WINSPOOL.DRV", 7, "c527aa300d7842640afcc4bcdda0752e"),
            (b"x", 65535, "715966133c5213185739d6c03fd6a968"),
            (b"a.dll", 0, ""),
            (b"", 5, ""),
        ]:
            with self.subTest(dll=dll, ordinal=ordinal):
                data = sample("imports_by_ordinal_x64.dll").replace(b"KERNEL32.dll", dll.ljust(12, b"\0"))
                data = data.replace(struct.pack("<Q", 1 << 63 | 901), struct.pack("<Q", 1 << 63 | ordinal))
                self.assertEqual(Image(data).imphash(), wanted)

    def test_json_tells_all_names_apart(self):
        names = [b"a\xff", rb"a\xff", "\u00e9".encode(), b"\\", b"\\\\", b"\0", b"", b"\x7f", b"a b\n"]
        self.assertEqual(len({*map(printable, names)}), len(names))
        self.assertRegex("".join(map(printable, names)), r"\A[ -~]*\Z")
        for name in "a\u00e9".encode(), rb"a\xc3\xa9":
            read = json.loads(Pe(DATA.replace(b"GetTickCount", name.ljust(12, b"\0"))).to_json())
            self.assertEqual(read["imports"][0]["name"], {3: r"a\xc3\xa9", 9: r"a\x5cxc3\x5cxa9"}[len(name)])
        for data in DATA, with_directory(DATA, 1, 0x9000), DATA[:SIGNATURE + 100], b"":
            pe = Pe.of(Image.partial(data, PERMISSIVE))
            read = json.loads(pe.to_json())
            self.assertEqual((len(read["sections"]), read["coff_header"]["machine"]), (len(pe.sections), pe.image.coff_header.machine))

    def test_what_is_offered_is_for_users(self):
        """By a console, which completes a name, and where all is imported."""
        found = {}
        exec("from goblin_pe import *", found)
        self.assertEqual({*found} - {"__builtins__"}, {*goblin_pe.__all__})
        self.assertEqual(sorted(goblin_pe.__all__), [*goblin_pe.__all__])
        self.assertEqual({it for it in dir(goblin_pe) if not it.startswith("_")}, {*goblin_pe.__all__})
        for name in {*goblin_pe.__all__} - {"constants", "Data"}:
            self.assertEqual(getattr(goblin_pe, name).__module__, "goblin_pe", name)

    def test_the_version_is_that_of_the_package(self):
        self.assertIn('version = "%s"\n' % goblin_pe.__version__, (HERE / "pyproject.toml").read_text("utf-8"))

    def test_help_names_what_is_for_users(self):
        text = pydoc.plain(pydoc.render_doc(goblin_pe))
        for name in ("class Image", "class Pe", "class Budget", "class PeError", "class Options", "imports(", "symbols(", "patched("):
            self.assertIn(name, text)
        self.assertNotIn("ctypes", text)
        self.assertNotIn("ForwardRef", text)
        self.assertIn("name_error: 'PeError | None'", pydoc.plain(pydoc.render_doc(goblin_pe.Library)))
        self.assertRegex(Budget.__doc__, r"\bleft\b")
        for it in ErrorKind, Mapping, Region, Table, Options, PeError, Pe, goblin_pe.Walk:
            for name in getattr(it, "__members__", None) or it.__annotations__:
                self.assertRegex(it.__doc__, r"\b%s\b" % name)


class Idioms(unittest.TestCase):
    """What a newcomer writes, as short as it comes to mind."""

    def test_rows_are_sliced_sorted_and_searched(self):
        pe = Pe(DATA)
        self.assertEqual((len(pe.sections), pe.sections[0].name, pe.sections[-1].name), (4, b".text", b".reloc"))
        self.assertEqual(max(pe.exports, key=lambda x: x.ordinal), pe.exports[-1])
        by_name = {x.name: x for x in pe.exports}
        self.assertEqual(next((x for x in pe.exports if x.name == b"nothing"), None), by_name.get(b"nothing"))
        self.assertIn(pe.sections[2], reversed(pe.sections))

    def test_rows_of_imports_by_name_and_by_ordinal_are_sorted(self):
        name, number = Import(b"a.dll", b"b", 3, None, 8, 9, 0, 1, False, False), Import(b"a.dll", None, None, 7, 8, 0, 0, 0, False, False)
        other = name._replace(dll=b"b.dll")
        self.assertEqual(sorted([other, name, number]), [number, name, other])
        self.assertEqual((number < name, number <= name, number > name, number >= name, name <= name, name < name), (True, True, False, False, True, False))
        self.assertEqual((max(name, number), min(name, number), name == tuple(name), len({name, number, name})), (name, number, True, 2))
        for name in IMAGES:
            pe = Pe(sample(name))
            for rows in (*tables_of(pe), tuple(pe.image.libraries())):
                self.assertEqual(sorted(rows), sorted(reversed(rows)))
        forwarders = Pe(FORWARDERS).exports
        self.assertEqual(sorted(x._replace(name=None) for x in forwarders), sorted(x._replace(name=None) for x in reversed(forwarders)))
        self.assertEqual(sorted(Image.object(OBJECT).symbols(), key=lambda x: x._replace(index=0)),
                         sorted([*Image.object(OBJECT).symbols()], key=lambda x: x._replace(index=0)))

    def test_rows_are_unpacked_changed_and_shown(self):
        (dll, name, *_), = Pe(DATA).imports
        self.assertEqual((dll, name), (b"KERNEL32.dll", b"GetTickCount"))
        section, found = Pe(DATA).sections[0], next(Image(DATA).imports())
        self.assertEqual((section._replace(name=b".code").name, section._asdict()["virtual_address"], Section._fields[0]), (b".code", 0x1000, "name"))
        self.assertEqual((eval(repr(found)), type(found)), (found, Import))
        self.assertEqual(f"{Image(DATA).coff_header.machine:#06x} {Options()!r:.8}", "0x8664 Options(")
        self.assertEqual(json.loads(json.dumps(found._asdict(), default=bytes.decode))["dll"], "KERNEL32.dll")

    def test_rows_are_counted_by_library(self):
        self.assertEqual(collections.Counter(x.dll.lower() for x in Image(DATA).imports()).most_common(1), [(b"kernel32.dll", 1)])
        grouped = {dll: [x.name for x in rows] for dll, rows in itertools.groupby(Image(DATA).imports(), key=lambda x: x.dll)}
        self.assertEqual((grouped, any(x.forwarder for x in Image(DATA).exports())), ({b"KERNEL32.dll": [b"GetTickCount"]}, False))

    def test_options_are_compared_and_keys(self):
        self.assertEqual(dataclasses.replace(Options(), permissive=True), PERMISSIVE)
        self.assertEqual({Options(): 1}[Options(permissive=False)], 1)
        self.assertNotEqual(Options(), Options(mapping=Mapping.AS_STORED))
        self.assertEqual(Image(DATA).directories[DirectoryType.IMPORT_TABLE], Image(DATA).directories[1])

    def test_files_are_looked_at_by_threads(self):
        paths = [it for it in sorted(SAMPLES.iterdir()) if Kind.of(it.read_bytes()) is Kind.IMAGE]
        with concurrent.futures.ThreadPoolExecutor() as threads:
            found = list(threads.map(lambda it: len(Pe.open(it).imports), paths))
        self.assertEqual(found, [sum(1 for _ in Image.open(it).imports(Budget(100))) for it in paths])


if __name__ == "__main__":
    unittest.main()
