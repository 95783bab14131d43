"""What is mapped ends where memory ends: texts, numbers and tables at the end of the raw data of a section. In memory zeros follow
there, to the end of the page, and in the file the raw data of the next section. The rows were worked out by hand from the sizes of
the section. Import tables alone are read on in the file: `READ_ON` has what is skipped or leads nowhere there."""
import struct
import unittest

from tests import images
from tests.bindings import Walk, image_of, library, options, package, records
from tests.programs import BY_NAME, CC, need

RVA, RAW = 0x1000, 0x400
GO = (b"a.dll", b"Go", 5)
KERNEL = (b"KERNEL32.dll", b"Go", 5)
RUN = (b"Run", 1, 0x3000)


def setUpModule():
    need(CC)
    library()


def with_imports(descriptors=0x1000, table=0x1040, name=0x10A0, hint=0x1080, called=b"a.dll\0", text=b"\x05\0Go\0\0", slots=None):
    """The parts of a section of one library, with one import, and its directory."""
    return {1: (descriptors, 40)}, (
        (descriptors, struct.pack("<5I", table, 0, 0, name, 0x1060)), (table, struct.pack("<2Q", hint, 0) if slots is None else slots),
        (0x1060, struct.pack("<2Q", hint, 0)), (hint, text), (name, called))


def with_exports(addresses=0x1140, name=0x1180, text=b"Run\0", target=0x3000, count=1, stored=None, size=0x90):
    """The parts of a section of one export, and its directory."""
    return {0: (0x1100, size)}, (
        (0x1100, struct.pack("<2I2H7I", 0, 0, 0, 0, 0x1170, 1, count, 1, addresses, 0x1150, 0x1160)),
        (addresses, struct.pack("<I", target) if stored is None else stored), (0x1150, struct.pack("<I", name)), (0x1170, b"lib.dll\0"),
        (name, text))


def image(parts, raw=0x200, size=0x400, following=0x3000):
    """An image for 64 bits of two sections: the first has the parts, and `UVWX..` follows in the file."""
    directories, parts = parts
    head = BY_NAME.read_bytes()
    pe, = struct.unpack_from("<I", head, 0x3C)
    fields, table = pe + 24, pe + 24 + struct.unpack_from("<H", head, pe + 20)[0]
    rows = ((b".rdata", size, RVA, raw, RAW), (b".next", 0x200, following, 0x200, RAW + raw))
    data = images.with_parts(bytes(raw), *((rva - RVA, it) for rva, it in parts))
    assert len(data) == raw
    return images.with_parts(
        head[:table] + bytes(RAW - table), (pe + 6, b"\2\0"), (pe + 22, b"\x22\x20"), (fields + 16, bytes(4)),
        (fields + 32, struct.pack("<2I", 0x1000, 0x200)), (fields + 56, struct.pack("<2I", following + 0x1000, RAW)), (fields + 64, bytes(4)),
        (fields + 112, b"".join(struct.pack("<2I", *directories.get(it, (0, 0))) for it in range(16))),
        *((table + 40 * it, struct.pack("<8s4I12xI", *row, 0x40000040)) for it, row in enumerate(rows)),
        (RAW, data), (RAW + raw, (b"UVWXYZ" * 43)[:0x100])) + bytes(0x100)


# What lies at the end, the image, its imports, and its exports with their addresses.
IMAGES = (
    ("a library's name", image(with_imports(name=0x11F4, called=b"KERNEL32.dll")), [KERNEL]),
    ("an import's name", image(with_imports(hint=0x11F6, text=b"\x05\0GoNowAll")), [(b"a.dll", b"GoNowAll", 5)]),
    ("a hint: the name begins in the zeros", image(with_imports(hint=0x11FE, text=b"\x05\0")), [(b"a.dll", b"", 5)]),
    ("half of a hint", image(with_imports(hint=0x11FF, text=b"\x05")), [(b"a.dll", b"", 5)]),
    ("a lookup table without its empty slot", image(with_imports(table=0x11F8, slots=struct.pack("<Q", 0x1080))), [GO]),
    ("half of a slot", image(with_imports(table=0x11FC, slots=struct.pack("<I", 0x1080))), [GO]),
    ("an import descriptor without the empty one", image(with_imports(descriptors=0x11EC)), [GO]),
    ("an export's name", image(with_exports(name=0x11FA, text=b"RunNow", size=0x100)), [], [(b"RunNow", 1, 0x3000)], [0x3000]),
    ("three of four export addresses", image(with_exports(
        addresses=0x11F4, count=4, stored=struct.pack("<3I", 0x3000, 0x3010, 0x3020), size=0x60)), [], [RUN], [0x3000, 0x3010, 0x3020, 0]),
    ("a forwarder", image(with_exports(target=0x11F6, stored=struct.pack("<I", 0x11F6) + bytes(0x11F6 - 0x1144) + b"other.Name", size=0x100)),
     [], [(b"Run", 1, b"other.Name")], [0x11F6]),
    # (In memory the next section follows at once. The text ends with its section.)
    ("a library's name, in a full page", image(with_imports(name=0x1FF4, called=b"KERNEL32.dll"), 0x1000, 0x1000, 0x2000), [KERNEL]),
    ("a library's name, before the rest of a page", image(with_imports(name=0x11F4, called=b"KERNEL32.dll"), size=0x200), [KERNEL]))

# 256 bytes `UVWX..` are 32 entries for 64 bits, or 12 descriptors and the last one, which ends the directory; none leads anywhere.
READ_ON = {"a lookup table without its empty slot": (0, 32), "half of a slot": (0, 32), "an import descriptor without the empty one": (12, 0)}
UNMAPPED = (1, 22)


def shown(export):
    to = export.forwarder
    return export.name, export.ordinal, export.rva if to is None else to.dll + b"." + to.name


class Ends(unittest.TestCase):
    def test_the_package_reads_what_memory_has(self):
        for what, data, imports, *exports in IMAGES:
            for permissive in (False, True):
                with self.subTest(what, permissive=permissive):
                    found = package().Image(data, package().Options(permissive=permissive or READ_ON.get(what, (0,))[0] > 0))
                    self.assertEqual([(it.dll, it.name, it.hint) for it in found.imports()], imports)
                    rows, addresses = exports or ([], [])
                    self.assertEqual([shown(it) for it in found.exports()], rows)
                    self.assertEqual([it.rva for it in found.export_addresses()], addresses)

    def test_calls_of_c_read_what_memory_has(self):
        for what, data, imports, *_ in IMAGES:
            for permissive in (False, True):
                with self.subTest(what, permissive=permissive):
                    found, fault = image_of(data, options(permissive))
                    self.assertEqual(fault.status, 0)
                    names = [name for name, _ in records().Import._fields_]
                    walk = Walk(found, "imports")
                    rows, why = walk.walk(3)
                    skipped, unmapped = READ_ON.get(what, (0, 0))
                    self.assertEqual([tuple(row[names.index(it)] for it in ("dll", "name", "hint_or_ordinal")) for row in rows], imports)
                    self.assertEqual((why, walk.counts), ((0, 0), (skipped, unmapped)) if permissive or not skipped else (UNMAPPED, (0, 0)))

    def test_memory_at_knows_the_same_end(self):
        """Twenty bytes: the last twelve of the raw data, and eight more."""
        for index, zeros in (0, 8), (10, 0), (11, 8):
            what, data, *_ = IMAGES[index]
            with self.subTest(what):
                found = package().Image(data)
                end = 0x1FF4 if index == 10 else 0x11F4
                memory = found.memory_at(end, 20)
                self.assertEqual((bytes(memory.data), memory.zeros, memory.missing), (b"KERNEL32.dll", zeros, 8 - zeros))
