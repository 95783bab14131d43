"""What walks skip and what leads nowhere, beside a plain count of the bytes, which knows only the format and how addresses are mapped."""
import functools
import re
import struct
import unittest

from tests import hostile, images
from tests.bindings import Walk, image_of, library, options
from tests.images import sample, with_parts
from tests.programs import BY_NAME, CC, IMAGES, need

LOADED, STORED = 0, 2  # (how addresses are mapped: as Windows and as goblin do)
CUT_HINT = (0x240, b"\xFF\x10")
RECORD = struct.pack("<5I", 0x1040, 0, 0, 0x1080, 0x1060)
FRONT = images.directory_in_front()


def changed():
    """Files with one damaged part or a few."""
    yield from (FRONT, with_parts(FRONT, (0x0C, bytes(4))), sample(CUT_HINT), sample((0x240, b"\xFE\x10")), sample((0x240, b"\0\x90")))
    yield from (sample((0x210, b"\0\x90")), sample(CUT_HINT, (0x214, RECORD), (0x224, b"\0\x90"), (0x228, RECORD)))
    yield from (sample((at, struct.pack("<I", 0x9000))) for at in (0xB8, 0xC0, 0x2C0, 0x2C4, 0x2D0))  # (directories and tables)
    yield from (sample((0xC0, struct.pack("<I", 0x10F0))), sample((0xB8, b"\xF0")))  # (directories that the file cuts)
    yield from (sample((0x200, b"\xFC"), (0x2FC, b"\1\0\0\x80")), sample((0x210, b"\xFC"), (0x2FC, b"\1\0\0\x80")))  # (lookup and address tables)
    yield from (sample((0x2B4, b"\0\x03")), sample((0x2B8, b"\0\x03")), sample((0x2B8, b"\0\x03"), (0x2C4, b"\xF8\x10")))
    yield from (sample((0x2B4, b"\x01\x03")), sample((0x2B8, b"\x01\x03")), sample((0x2D8, b"\x02")), sample((0x2E1, b"-")), sample((0x2E0, b"\xFF")))
    texts = (b"a.b", b".x", b"a.", b"a", b"", b"a.#12", b"a.#+7", b"a.#", b"a.#4294967296", b"a.b.#1")
    yield from (images.library(b"a.dll", [(b"f", text)]) for text in texts)
    yield from (BY_NAME.read_bytes()[:size] for size in range(0x400, 0xA00, 0x38))
    yield from (images.rounded_to_dead_entries(1000), bytes(images.import_from_nowhere(BY_NAME.read_bytes())))


class Plain:
    """An image, and the counts (skipped, unmapped) of its tables in permissive mode."""

    def __init__(self, data, mapping):
        self.data, self.is_loaded = data, mapping == LOADED
        (begin,) = self.read("<I", 0x3C)
        count, size = self.read("<H12xH", begin + 6)
        self.sections = [self.read("<4I", begin + 24 + size + 40 * it + 8) for it in range(count)]
        self.slot, self.alignment, self.headers, at = "<I", 0, 0, begin + 24 + 92
        self.directories = [(0, 0), (0, 0)]
        if size:
            (magic, self.alignment, self.headers), at = self.read("<H34xI20xI", begin + 24), at
            if magic == 0x20B:
                self.slot, at = "<Q", at + 16
            (there,) = self.read("<I", at)
            self.directories = [self.read("<2I", at + 4 + 8 * it) if it < there else (0, 0) for it in range(2)]

    def read(self, form, at, data=None):
        """The numbers at an offset; None if the bytes end before."""
        data = self.data if data is None else data
        return struct.unpack_from(form, data, at) if at is not None and at + struct.calcsize(form) <= len(data) else None

    def up(self, size, alignment):
        return -(-size // alignment) * alignment

    @functools.cache
    def place(self, rva):
        """Where an address leads to, and the bytes that are seen there: into the raw data of the first section that has it, or into the
        headers. A loader maps that data alone, and zeros to the end of the last page."""
        block = self.alignment
        if not block or block & block - 1 or self.is_loaded and not rva:
            return None, b""
        for virtual, begin, raw, pointer in self.sections + [(self.headers, 0, self.headers, 0)] * self.is_loaded:
            down = pointer & ~0x1FF
            blocks = self.up(raw, block) if self.is_loaded and block < 512 else self.up(pointer + raw, block) - down
            size = min(blocks, self.up(raw, 4096), self.up(virtual, 4096) or blocks) if raw else 0
            if begin <= rva < begin + size:
                first = down if self.is_loaded and block >= 512 else pointer
                zeros = min(self.up(virtual or raw, 4096) - size, 4 * len(self.data))
                is_cut = self.is_loaded and block >= 512 and first + size <= len(self.data)
                return rva - begin + first, self.data[:first + size] + bytes(zeros) if is_cut else self.data
        return None, b""

    def offset(self, rva):
        return self.place(rva)[0]

    def read_at(self, form, rva):
        return self.read(form, *self.place(rva))

    @functools.cache
    def entries(self, at):
        """The entries of a lookup table: whether it has an end in the file, how many hints it cuts, and how many lead nowhere."""
        cut = nowhere = 0
        while (found := self.read(self.slot, at)) and found[0]:
            at += struct.calcsize(self.slot)
            if not found[0] >> (8 * struct.calcsize(self.slot) - 1):
                rva = found[0] & 0x7FFFFFFF
                nowhere += self.offset(rva) is None
                cut += self.offset(rva) is not None and self.read_at("<H", rva) is None
        return bool(found), cut, nowhere

    def imports(self):
        """The counts of imports, and those of libraries."""
        at, skipped, cut, unmapped = self.offset(self.directories[1][0]), 0, 0, 0
        if not any(self.directories[1]):
            return (0, 0), (0, 0)
        while at and (record := self.read("<5I", at)) and record[3] and record[4]:
            at, (lookup, _, _, _, addresses) = at + 20, record
            if self.offset(addresses) is None or not self.entries(self.offset(addresses))[0]:
                skipped += 1
                continue
            of_addresses, of_lookup = self.offset(addresses), self.offset(lookup)
            is_whole, hints, nowhere = self.entries(of_addresses if of_lookup is None else of_lookup)
            cut, unmapped = cut + hints + (not is_whole), unmapped + nowhere
        skipped += not at or record is None
        return (skipped + cut, unmapped), (skipped, 0)

    def exports(self):
        rva, size = self.directories[0]
        if not rva and not size:
            return 0, 0
        record = self.read_at("<20x5I", rva)
        if not record or max(record[:2]) > len(self.data):
            return 1, 0
        addresses, pointers, *tables = record
        counts = zip((addresses, pointers, pointers), tables, (4, 4, 2))
        addresses, pointers, ordinals = (
            min(count, max(0, len(seen) - at) // width) if at is not None else 0 for count, (at, seen), width in
            ((count, self.place(table), width) for count, table, width in counts))
        unmapped = max(0, pointers - ordinals)
        for index in range(min(pointers, ordinals)):
            (ordinal,) = self.read_at(f"<{2 * index}xH", tables[2])
            if ordinal >= addresses:
                unmapped += 1
                continue
            (to,) = self.read_at(f"<{4 * ordinal}xI", tables[0])
            unmapped += rva <= to < rva + size and not self.is_forwarder(*self.place(to))
        return 0, unmapped

    def is_forwarder(self, at, seen):
        """Whether a DLL, a dot, and a name or the number of an ordinal lie at an offset."""
        if at is None or at >= len(seen):
            return False
        text = seen[at:].partition(b"\0")[0]
        number = re.fullmatch(rb"[^.]*\.#(\+?[0-9]+)", text)
        is_utf8 = text.decode("utf-8", "ignore").encode() == text
        return is_utf8 and (int(number[1]) < 1 << 32 if number else bool(re.fullmatch(rb"(?s)[^.]*\.[^#].*", text)))


class Counts(unittest.TestCase):
    def setUp(self):
        need(CC)
        library()

    def test_walks_count_what_the_bytes_say(self):
        seen = set()
        for index, data in enumerate([*(it.read_bytes() for it in IMAGES), *changed(), *hostile.files(20)]):
            for mapping in LOADED, STORED:
                image, fault = image_of(data, options(True, 0, mapping))
                if fault.status:
                    continue
                plain = Plain(bytes(data), mapping)
                wanted = dict(zip(("imports", "libraries", "exports"), (*plain.imports(), plain.exports())))
                for word, counts in wanted.items():
                    walk = Walk(image, word)
                    with self.subTest(file=index, mapping=mapping, word=word):
                        self.assertEqual(walk.walk(1 << 12)[1], (0, 0))
                        self.assertEqual(walk.counts, counts)
                    seen |= {(word, number) for number in range(2) if counts[number]}
        self.assertEqual(seen, {("imports", 0), ("imports", 1), ("libraries", 0), ("exports", 0), ("exports", 1)})


if __name__ == "__main__":
    unittest.main()
