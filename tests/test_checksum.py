"""The checksum of an image: computed by hand, and stored by the linker in the launchers that come with pip."""
import ctypes
import importlib.util
import pathlib
import unittest

from tests.bindings import calls, image_of, package
from tests.programs import CC, need

# Bytes, the offset of the checksum field, and the checksum: the sum of the words, with its carry, and the length.
SUMS = [
    (b"", 0, 0),
    (b"\x01", 9, 1 + 1),
    (b"\x01\x02", 9, 0x201 + 2),
    (b"\x01\x02\x03", 9, 0x201 + 3 + 3),
    (b"\xFF\xFF\x01\x00", 9, 1 + 4),
    (b"\xFF\xFF\xFF\xFF\x01\x00", 9, 1 + 6),
    (b"\x01\x02abcd\x03\x04", 2, 0x201 + 0x403 + 8),
    (b"\x01abcd\x02\x03\x04", 1, 1 + 0x200 + 0x403 + 8),
    (b"\x01\x02\x03\x04", 3, 0x201 + 3 + 4),
    (b"\x01\x02\x03\x04", 4, 0x201 + 0x403 + 4),
    (b"\x01\x02\x03\x04", 2**32 - 1, 0x201 + 0x403 + 4),
]


def launchers():
    """The Windows launchers that come with pip, if the machine has it."""
    distlib = importlib.util.find_spec("pip._vendor.distlib")
    places = distlib.submodule_search_locations if distlib else []
    return [file for place in places for file in sorted(pathlib.Path(place).glob("*.exe"))]


class Checksums(unittest.TestCase):
    @classmethod
    def setUpClass(cls):
        need(CC)  # (for the shared library)

    def test_words_are_added_with_their_carry_and_without_the_field(self):
        """The words come after as many zeros as lie between the PE signature and the field."""
        for data, field, wanted in SUMS:
            with self.subTest(data=data, field=field):
                (found, _), total = image_of(bytes(88) + data, None, "read_with_faults"), ctypes.c_uint32()
                found.has_optional_header, found.dos_header.pe_pointer = True, field
                self.assertTrue(calls().goblin_pe_checksum(ctypes.byref(found), ctypes.byref(total)))
                self.assertEqual(total.value, wanted + 88)

    def test_it_is_what_a_linker_stored(self):
        for file in launchers():
            image = package().Image(file.read_bytes())
            stored = image.optional_header.windows_fields.check_sum
            if stored:
                with self.subTest(file.name):
                    self.assertEqual(image.checksum(), stored)
