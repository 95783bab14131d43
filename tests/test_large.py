"""A file of more than 4 GiB, whose import table lies past them."""
import mmap
import struct
import unittest

from tests.bindings import package
from tests.images import image_headers, put_section
from tests.programs import CC, Case, need

# The raw pointer of the section: the last multiple of 512 that fits the field. Its tables lie past 4 GiB.
POINTER, ADDRESS, TABLE = 0xFFFFFE00, 0x1000, 0x2000
SIZE = (9 << 29) + 0x200


def setUpModule():
    need(CC)  # (for the shared library)


class Large(Case):
    def setUp(self):
        """Makes a sparse file: what is not written takes no blocks."""
        super().setUp()
        entry = TABLE + 0x40
        tables = struct.pack("<5I", entry, 0, 0, entry + 0x40, entry) + bytes(20)
        tables = tables.ljust(0x40, b"\0") + struct.pack("<QQ", entry + 0x20, 0)
        tables = tables.ljust(0x60, b"\0") + struct.pack("<H", 7) + b"Apple\0"
        tables = tables.ljust(0x80, b"\0") + b"fruits.dll\0"
        headers = image_headers(0x200, 1, 0x10000, ((1, TABLE, 40),))
        put_section(headers, 0x148, b".idata", bytes(0x4000), ADDRESS, POINTER)
        try:
            self.file = open(self.folder / "large.dll", "w+b")
            self.addCleanup(self.file.close)
            self.file.write(headers)
            self.file.truncate(SIZE)
            self.file.seek(POINTER + TABLE - ADDRESS)
            self.file.write(tables)
            self.file.flush()
            self.data = mmap.mmap(self.file.fileno(), 0, access=mmap.ACCESS_READ)
        except (OSError, ValueError, MemoryError) as error:
            raise unittest.SkipTest(f"no room for a sparse file of {SIZE} bytes: {error}")
        self.addCleanup(self.data.close)

    def test_it_is_read(self):
        with package().Pe(self.data, package().Options(mapping=package().Mapping.AS_STORED)) as pe:
            self.assertEqual([(it.dll, it.name) for it in pe.imports], [(b"fruits.dll", b"Apple")])
            self.assertEqual(pe.image.find_offset(TABLE), POINTER + TABLE - ADDRESS)
            self.assertEqual(pe.image.find_rva(POINTER + TABLE - ADDRESS), TABLE)
            self.assertEqual(pe.image.text_at(TABLE + 0x80), b"fruits.dll")
            self.assertEqual(({*pe.skipped.values()}, {*pe.unmapped.values()}), ({0}, {0}))
