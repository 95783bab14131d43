"""Files that no reader may trust. The examples are run on them."""
import random

from tests import images, test_limits
from tests.programs import BY_NAME, IMAGES, OBJECTS, TERSE


def large():
    """Files that make readers slow, or have them write much."""
    yield from (images.shared_image(3000, 50000), images.own_tables(1609), images.hostile_image(1 << 22), images.large_image())
    yield from (make() for _, make, *_ in test_limits.ROWS.values())


def files(changed=40):
    """Damaged and misleading files, files of other kinds, and a number of changed copies of each sample."""
    data, signature = BY_NAME.read_bytes(), int.from_bytes(BY_NAME.read_bytes()[0x3C:0x40], "little")
    highest = images.with_parts(data, (signature + 24 + 16, b"\xff" * 4), (signature + 24 + 24, b"\xff" * 8))
    yield from (b"", b"MZ", b"no image", data, highest, data[:-16], data + b"overlay", *(it.read_bytes() for it in (*OBJECTS, *TERSE)))
    yield from (images.own_tables(30), bytes(images.shared_image(30, 100)), bytes(images.one_long_name(100, 1000)), images.directory_in_front(),
                bytes(images.pointers_to_nowhere(1000)), images.pointers_to_one_name(1000), images.import_from_nowhere(data),
                bytes(images.with_small_header(data, 104)), images.with_parts(data, (signature + 20, bytes(2))), bytes(images.hostile_image(1 << 14)))
    # (names that a terminal obeys)
    yield data.replace(b"GetTickCount", b"Get\x1b[2J\\\xc3\xa9nt").replace(b"KERNEL32.dll", b"KER\x1b[2J\n\r.dl").replace(b".text\0\0", b".\x1b[2J\n\0")
    yield bytes(images.library(b"some\x1b[2J.dll", [(b"Ap\x1bple", 0x3010), (None, 0x3020), (b"Che\x1brry", b"ot\x1bher.Pe\x1bar")]))
    # (an image of the DOS header and the COFF header alone)
    bare = images.with_parts(data[:signature + 24], (signature + 6, bytes(2)), (signature + 20, bytes(2)))
    yield from (bare, bare[:-1])
    for sample in (*IMAGES, *OBJECTS, *TERSE):
        stored, digits = sample.read_bytes(), random.Random(sample.name)
        for _ in range(changed):
            copy = bytearray(stored[:digits.choice([len(stored), digits.randrange(len(stored))])])
            for _ in range(8 if copy else 0):
                copy[digits.randrange(min(len(copy), 0x700))] = digits.choice([0, 0x7F, 0xFF, digits.randrange(256)])
            yield bytes(copy)
