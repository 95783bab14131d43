"""The code by hand for Rust and Python: what one says of a file, the other says, too."""
import pathlib
import re
import struct
import unittest

from tests import dump, hostile, images, test_mapped, test_rust
from tests.bindings import BINDINGS, package
from tests.programs import succeed

# The causes that no call returns.
NEVER = {"MESSAGE", "DIRECTORY_INDEX", "SYMBOL_NAME", "SLOT_COUNT"}
# The kinds of symbols with auxiliary records: storage class, type, section.
AUXILIARY = ((2, 0x20, 1), (2, 0x20, 0), (101, 0, 1), (105, 0, 0), (3, 0, 1), (103, 0, -2), (103, 0, -2))


def setUpModule():
    test_rust.setUpModule()


def numbered():
    """The small image. Each field of its first import descriptor and of its export directory has another number. The second import
    descriptor has no address table. The image has the subsystem of a driver, without the flag of an executable image."""
    exports = struct.pack("<2I2H", 0x11121314, 0x21222324, 0x3132, 0x4142)
    imports = struct.pack("<2I", 0x51525354, 0x61626364), struct.pack("<5I", 0x1040, 0, 0, 0x1080, 0x70000000)
    return images.sample((0x204, imports[0]), (0x214, imports[1]), (0x2A0, exports), (0x56, b"\0\x21"), (0x9C, b"\1"))


def past_32_bits():
    """The small image, whose section ends at 2^32, and whose address table and base relocations pass that."""
    section, block = struct.pack("<4I", 0x100, 0xFFFFFF00, 0x100, 0x200), struct.pack("<2I2H", 0xFFFFFFFF, 12, 0x3000, 0x3001)
    library, entries = struct.pack("<5I", 0xFFFFFF40, 0, 0, 0xFFFFFF80, 0xFFFFFFF8), struct.pack("<3I", *(1 << 31 | it for it in range(3)))
    return images.sample((0x140, section), (0x200, library), (0xB8, struct.pack("<4I", 0, 0, 0xFFFFFF00, 40)),
                         (0xE0, struct.pack("<2I", 0xFFFFFFE0, 12)), (0x2E0, block), (0x240, entries))


def with_auxiliary_records():
    """An object of a symbol for each kind of auxiliary record, whose bytes all differ. The last has the name of a file in the string
    table."""
    records = [struct.pack("<8sIhHBB", b"symbol", 0, section, typ, kind, 1) + bytes(range(0x41, 0x53)) for kind, typ, section in AUXILIARY]
    records[-1] = records[-1][:18] + struct.pack("<2I10x", 0, 4)
    file = images.many_sections(1)
    struct.pack_into("<2I", file, 8, len(file), 2 * len(records))
    return bytes(file) + b"".join(records) + b"\x0d\0\0\0source.c\0"


class Layers(test_rust.Crate):
    def test_rust_and_python_say_the_same(self):
        """Of all fields of all rows of samples, of changed copies of them and of other files."""
        rich = images.with_rich_header(images.library(b"rich.dll", [(b"Apple", 0x3010)]), 0x12345678, [(0x1047809, 3), (0x930001, 7)])
        broken = images.library(b"a.dll", [(b"f", b"BROKEN"), (b"f", 0x5010)])
        files = [numbered(), past_32_bits(), bytes(broken), with_auxiliary_records(), bytes(rich), *(it[1] for it in test_mapped.IMAGES), *hostile.files(8)]
        paths = [self.written(f"{index}.bin", data) for index, data in enumerate(files)]
        program = self.user("dump", pathlib.Path(__file__).with_name("dump.rs").read_text("utf-8"))
        listed = self.written("files", "\n".join(map(str, paths)).encode())
        rust, python = succeed([program, listed]).splitlines(), dump.lines(paths)
        file = ""
        for one, other in zip(rust, python):
            file = one if one.startswith("/") else file
            self.assertTrue(one == other, f"{file}\nRust:   {one[:1000]}\nPython: {other[:1000]}")
        self.assertEqual(len(rust), len(python))

    def test_causes_are_those_of_the_header(self):
        header = (BINDINGS / "c/goblin_pe.h").read_text("utf-8")
        wanted = dict(re.findall(r"GOBLIN_PE_CAUSE_(\w+) = (\d+)", header))
        rust = (BINDINGS / "rust/src/error.rs").read_text("utf-8")
        variants = re.findall(r"(?m)^    (\w+) = (\d+),", rust)
        of_rust = {re.sub(r"(?<!^)(?=[A-Z])", "_", name).upper(): number for name, number in variants}
        self.assertEqual({name: str(int(it)) for name, it in package().Cause.__members__.items()}, wanted)
        self.assertEqual(of_rust, {name: it for name, it in wanted.items() if name not in NEVER})
        self.assertEqual(re.findall(r"(?m)^    Cause::(\w+),", rust), [name for name, _ in variants])


if __name__ == "__main__":
    unittest.main()
