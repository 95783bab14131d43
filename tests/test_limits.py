"""What a hostile file may cost: calls answer in a bounded time, and with little memory if they take none. These are the calls for
C, so no rows are made in Python."""
import ctypes as c
import os
import struct
import sys
import time
import unittest

from tests import images
from tests.bindings import COUNTED, WALKS, Walk, calls, image_of, library, options, records
from tests.programs import TOP, need, run, with_memory

# The address space in KiB. Python and the file need most of it.
ROOM = 400 << 10
MIB = 1 << 20
STEPS = 100000
NO_LIMIT = (1 << 64) - 1
IMPORTS, EXPORTS = (0, 0, 0x1000, 40), (0x1000, 40, 0, 0)


def sections(count, name=b"/4"):
    """The headers of `count` sections of one name."""
    return struct.pack("<8s8I", name, *[0] * 8) * count


def object_of_one_name(size):
    """An object: one half is section headers, the other half is the one long name that they all have."""
    count = min(size // 80, 65535)
    place = 20 + 40 * count
    header = struct.pack("<HHIIIHH", 0x8664, count, 0, place, 0, 0, 0)
    return header + sections(count) + struct.pack("<I", size - place) + b"n" * (size - place - 5) + b"\0"


def image_of_one_name(size):
    """As object_of_one_name, but an image."""
    count = min(size // 80, 65535)
    headers = images.image_headers(0x148 + 40 * count, count, 0x1000, ())
    headers[0x148:] = sections(count)
    struct.pack_into("<II", headers, 0x40 + 12, len(headers), 0)
    return bytes(headers) + struct.pack("<I", size - len(headers)) + b"n" * (size - len(headers) - 5) + b"\0"


def te_of_one_name(size):
    """A Terse Executable of 255 sections that have one long name. (Its string table is the front of the file.)"""
    front = struct.pack("<HHBBHIIQ4I", 0x5A56, 0x8664, 255, 0, 40, 0, 0, 0, 0, 0, 0, 0)
    return front + sections(255, b"/10240") + b"n" * (size - 40 - 40 * 255)


def object_with_symbols(count):
    """An object with `count` symbols. Each has a long name of its own."""
    names = [b"a_name_that_stands_in_the_string_table_%020d\0" % i for i in range(count)]
    symbols = b"".join(struct.pack("<IIIhHBB", 0, 4 + len(names[0]) * i, 0, 1, 0, 2, 0) for i in range(count))
    strings = b"".join(names)
    header = struct.pack("<HHIIIHH", 0x8664, 0, 0, 20, count, 0, 0)
    return header + symbols + struct.pack("<I", len(strings) + 4) + strings


def symbols_of_one_name(size):
    """An object: one half is symbols, the other half is the one long name that they all have."""
    count = size // 36
    strings = size - 20 - 18 * count
    symbols = struct.pack("<II10x", 0, 4) * count
    return struct.pack("<HHIIIHH", 0x8664, 0, 0, 20, count, 0, 0) + symbols + struct.pack("<I", strings) + b"n" * (strings - 4)


def in_one_section(directories, make, size):
    """The small image with this size, these directories and one section, which `make` makes for an address and a size."""
    base, begin = 0x1000, 0x200
    data = make(base, size - begin)
    section = struct.pack("<4I", len(data), base, len(data), begin)
    return images.sample((0xB8, struct.pack("<4I", *directories)), (0x140, section), (begin, data))


def imports_in_one_text(base, size):
    """A library whose imports have names that begin two bytes apart in one text of two-byte characters."""
    count = (size - 72) // 6
    table, text = base + 56, base + 56 + 4 * (count + 1)
    record = struct.pack("<5I", table, 0, 0, base + 40, table).ljust(40, b"\0") + b"a.dll".ljust(16, b"\0")
    entries = struct.pack("<%dI" % (count + 1), *range(text, text + 2 * count, 2), 0)
    return record + entries + "\u00E9".encode() * (count + 2) + b"\0"


def imports_of_one_library(base, size):
    """A library with as many imports as fit."""
    table = base + 56
    record = struct.pack("<5I", table, 0, 0, base + 40, table).ljust(40, b"\0") + b"a.dll".ljust(16, b"\0")
    return record + struct.pack("<I", 1 << 31) * ((size - 60) // 4) + bytes(4)


def libraries_of_left_out_entries(base, size):
    """Libraries that share one lookup table. No entry in it leads to a name."""
    libraries, entries = size // 40, size // 8
    table, name = base + 20 * libraries, base + size - 8
    record = struct.pack("<5I", table, 0, 0, name, table)
    directory = record * (libraries - 1) + bytes(20)
    return (directory + struct.pack("<I", 0x70000000) * (entries - 4) + bytes(4)).ljust(size - 8, b"\0") + b"a.dll".ljust(8, b"\0")


def libraries_of_no_address_table(base, size):
    """Libraries that are left out, because the address table that they share reaches the end of the file."""
    libraries = size // 40
    table = base + 20 * libraries
    record = struct.pack("<5I", table, 0, 0, base, table)
    return (record * (libraries - 1) + bytes(20)).ljust(size, b"\1")


def left_out_entries_of_one_long_name(base, size):
    """A library with a long name. No entry of its lookup table leads to a name."""
    count = size // 2 // 4 - 11
    name = base + size // 2
    record = struct.pack("<5I", base + 40, 0, 0, name, base + 40).ljust(40, b"\0")
    return record + struct.pack("<I", 0x70000000) * count + bytes(4) + "\u00E9".encode() * (size // 4 - 1) + b"\0\0"


def exports_in_one_text(base, size, address=0x9000):
    """Exports of one address, whose names begin two bytes apart in one text of two-byte characters."""
    count = (size - 56) // 8
    pointers, ordinals, text = base + 48, base + 48 + 4 * count, base + 48 + 6 * count
    record = struct.pack("<IIHHIIIIIII", 0, 0, 0, 0, text, 1, 1, count, base + 40, pointers, ordinals) + struct.pack("<II", address or text, 0)
    return record + struct.pack("<%dI" % count, *range(text, text + 2 * count, 2)) + bytes(2 * count) + "\u00E9".encode() * count + b"\0"


def dead_name_pointers(base, size):
    """Name pointers whose ordinals lie past the address table, which is empty."""
    count = (size - 40) // 6
    pointers, ordinals = base + 40, base + 40 + 4 * count
    return struct.pack("<IIHHIIIIIII", 0, 0, 0, 0, 0, 1, 0, count, 0, pointers, ordinals) + bytes(6 * count)


def walked(word, most=1 << 20, longest=0, read="read_image", permissive=False, steps=None, room=256):
    """A walk whose calls share one limit of steps, up to a number of rows: the last status, and the number of rows."""
    def walk(data):
        image, fault = image_of(data, options(permissive, longest), read)
        row, cursor = (getattr(records(), it) for it in WALKS[word])
        cursor, rows, batch, count = cursor(), (row * room)(), records().Batch(), 0
        counted = [c.byref(c.c_size_t(steps)) if steps else None] if word in COUNTED else []
        while not fault.status and not batch.is_done and count < most:
            fault = getattr(calls(), f"goblin_pe_next_{word}")(c.byref(image), c.byref(cursor), rows, room, *counted, c.byref(batch))
            count += batch.count
        return fault.status, count
    return walk


# The status of a walk without steps.
OUT = 7
# A call, its file, how many milliseconds of processor time it may take (ten times as many as measured), its status, and the number
# of rows.
ROWS = {
    "sections of an object, all of one long name": (
        walked("sections", read="read_object"), lambda: object_of_one_name(MIB), 500, 0, 13107),
    "sections of an object, all of one long name, without a limit": (
        walked("sections", read="read_object", longest=NO_LIMIT), lambda: object_of_one_name(MIB), 4500, 0, 13107),
    "sections of an object, of names that are cut": (
        walked("sections", read="read_object", longest=200), lambda: object_of_one_name(MIB), 100, 0, 13107),
    "sections of a Terse Executable, all of one long name": (
        walked("sections", read="read_te", longest=NO_LIMIT), lambda: te_of_one_name(16 * MIB), 5000, 0, 255),
    "sections of an image, all of one long name": (walked("sections"), lambda: image_of_one_name(MIB), 500, 0, 13107),
    "sections of an image, of names that are cut": (walked("sections", longest=200), lambda: image_of_one_name(MIB), 100, 0, 13107),
    "symbols of one long name that is cut": (
        walked("symbols", read="read_object", longest=200), lambda: symbols_of_one_name(MIB), 100, 0, 29127),
    "many symbols": (walked("symbols", read="read_object"), lambda: object_with_symbols(320000), 500, 0, 320000),
    "imports that are all left out": (
        walked("imports", permissive=True, steps=STEPS), lambda: in_one_section(IMPORTS, libraries_of_left_out_entries, MIB), 50, OUT, 0),
    "libraries that are all left out": (
        walked("imports", permissive=True, steps=STEPS), lambda: in_one_section(IMPORTS, libraries_of_no_address_table, MIB), 50, OUT, 0),
    "libraries of left out entries": (
        walked("libraries", permissive=True, steps=STEPS), lambda: in_one_section(IMPORTS, libraries_of_left_out_entries, MIB), 500, OUT, 48),
    "name pointers without an export": (
        walked("exports", steps=STEPS), lambda: in_one_section(EXPORTS, dead_name_pointers, MIB), 50, OUT, 0),
    "imports in one text, of names that are cut": (
        walked("imports", longest=200, steps=STEPS), lambda: in_one_section(IMPORTS, imports_in_one_text, MIB), 500, OUT, 99999),
    "exports in one text, of names that are cut": (
        walked("exports", longest=200, steps=STEPS), lambda: in_one_section(EXPORTS, exports_in_one_text, MIB), 500, OUT, 100000),
    "forwarders in one text, of names that are cut": (
        walked("exports", longest=200, steps=STEPS),
        lambda: in_one_section((0x1000, MIB, 0, 0), lambda *of: exports_in_one_text(*of, address=0), MIB), 1000, OUT, 100000),
    "imports of one long name, all left out": (
        walked("imports", permissive=True, steps=STEPS), lambda: in_one_section(IMPORTS, left_out_entries_of_one_long_name, MIB), 100, OUT, 0),
    "many batches of one library": (
        walked("imports", permissive=True), lambda: in_one_section(IMPORTS, imports_of_one_library, 4 * MIB), 1000, 0, 1048433),
    "a batch of many sections": (
        walked("imports", 256), lambda: bytes(images.hostile_image(64 * (65535 + 16))), 250, 0, 256),
}


class Limits(unittest.TestCase):
    def test_each_call_answers_in_little_memory_and_time(self):
        need("sh")
        env = {**os.environ, "GOBLIN_PE_LIB": str(library()), "PYTHONPATH": str(TOP)}
        for name, (_, _, most, *wanted) in ROWS.items():
            with self.subTest(name):
                status, out, errors = run(with_memory(ROOM, [sys.executable, "-m", "tests.test_limits", name]), env=env)
                self.assertEqual(status, 0, errors.decode(errors="replace"))
                milliseconds, *found = map(int, out.split())
                self.assertEqual(found, wanted)
                self.assertLessEqual(milliseconds, most)


def named(word, name):
    """A file for a walk, in which a text of a row is this name; the call that reads it."""
    if word == "sections":
        return struct.pack("<HHIIIHH", 0x8664, 1, 0, 60, 0, 0, 0) + sections(1) + struct.pack("<I", len(name) + 5) + name + b"\0", "read_object"
    if word == "symbols":
        symbol = struct.pack("<IIIhHBB", 0, 4, 0, 1, 0, 2, 0)
        return struct.pack("<HHIIIHH", 0x8664, 0, 0, 20, 1, 0, 0) + symbol + struct.pack("<I", len(name) + 5) + name + b"\0", "read_object"
    if word == "exports":
        return images.library(name, [(name, b"a." + name[2:])]), "read_image"
    return images.importer([(name, [name])]), "read_image"


class Names(unittest.TestCase):
    def rows(self, word, name, longest):
        """The first row of a walk, by the names of its fields."""
        file, read = named(word, name)
        found, fault = image_of(file, options(longest=longest, mapping=2), read)
        rows, why = Walk(found, word).walk(3)
        self.assertEqual((fault.status, why), (0, (0, 0)))
        self.directory = records().ExportDirectory()
        test = calls().goblin_pe_read_export_directory(c.byref(found), c.byref(self.directory))
        self.assertEqual(test.status, 0)
        return dict(zip((field for field, _ in getattr(records(), WALKS[word][0])._fields_), rows[0]))

    def test_names_of_at_most_the_limit_are_whole(self):
        """Also by the default, which is 4,096 bytes. Without a limit, all are."""
        limits = (0, 4096), (4095, 4095), (1, 1), ((1 << 32) - 1, 1 << 32), (1 << 32, 1 << 32), (NO_LIMIT, 1 << 32)
        for word in "sections", "symbols", "imports", "libraries", "exports":
            for longest, most in limits:
                for size in 4095, 4096, 4097, 9000:
                    with self.subTest(word, longest=longest, size=size):
                        name = b"n" * size
                        row, wanted = self.rows(word, name, longest), (name[:most], size > most)
                        self.assertEqual((row["name"], row["is_name_cut"]), wanted)
                        if word == "imports":
                            self.assertEqual((row["dll"], row["is_library_cut"]), wanted)
                        if word == "exports":
                            dll, other, _, kind, is_cut, _ = row["forwarder"]
                            self.assertEqual((dll, other, kind, is_cut), (b"a", name[2:max(most, 2)], 1, size > most))
                            self.assertEqual((self.directory.name.length, self.directory.is_name_cut), (min(size, most), size > most))

    def test_a_character_at_the_limit_is_left_out(self):
        for character in "\u00E9", "\u20AC", "\U0001D11E":
            for before in range(4096 - len(character.encode()) - 1, 4098):
                with self.subTest(character, before=before):
                    name = b"n" * before + character.encode() + b"n"
                    row = self.rows("symbols", name, 0)
                    whole = before + len(character.encode())
                    self.assertEqual((row["name"], row["is_name_cut"]), (name[:4096 if whole <= 4096 else min(before, 4096)], whole >= 4096))


if __name__ == "__main__":
    call, make, *_ = ROWS[sys.argv[1]]
    made = make()
    records()  # (read before)
    begin = time.process_time()
    ended, answer = call(made)
    print(round(1000 * (time.process_time() - begin)), ended, answer)
