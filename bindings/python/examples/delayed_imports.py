"""Lists the delay-load imports of images: delayed_imports.py FILE.. The library does not read these, so this program reads them by
memory_at. Libraries may share a table, so the number of look-ups in a file is limited."""
import itertools
import struct
import sys
from typing import Iterator, NamedTuple, Optional

from goblin_pe import DirectoryType, Image, Options, PeError, printable

LOOK_UPS, LONGEST = 3_000, 200


class Delayed(NamedTuple):
    """A delayed import: its DLL, its name (None if it is by ordinal), its ordinal or hint, and the address of its entry in the import
    address table."""

    dll: bytes
    name: Optional[bytes]
    ordinal: int
    iat_rva: int


def number_at(image: Image, rva: int, size: int) -> int:
    """The number at an address; 0 if it is not there."""
    return int.from_bytes(image.memory_at(rva, size).whole() or b"", "little") if 0 <= rva < 1 << 32 else 0


def text_at(image: Image, rva: int) -> bytes:
    """The text at an address, up to a limit; empty if it is not there."""
    return bytes(image.memory_at(rva, LONGEST).data).partition(b"\0")[0] if 0 <= rva < 1 << 32 else b""


def entries(image: Image, dll: bytes, names: int, slots: int, base: int) -> Iterator[Delayed]:
    """The imports of a library, from the addresses of its lookup table and its import address table."""
    size = 8 if image.is_64 else 4
    for index in itertools.count():
        number = number_at(image, names + size * index, size)
        if not number:
            return
        is_by_name, rva = not number >> (8 * size - 1), number - base
        ordinal = number_at(image, rva, 2) if is_by_name else number & 0xFFFF
        yield Delayed(dll, text_at(image, rva + 2) if is_by_name else None, ordinal, slots + size * index)


def delayed(image: Image) -> Iterator[Delayed]:
    """The delayed imports of an image, library by library. In old images for 32 bits, addresses include the image base."""
    directory = image.directories[DirectoryType.DELAY_IMPORT_DESCRIPTOR]
    # (the time of a look-up grows with the number of sections)
    most = LOOK_UPS * 96 // max(96, len(image.sections))
    table = bytes(image.memory_at(directory.virtual_address, 32 * most if any(directory) else 0).data)
    for (record,) in struct.iter_unpack("<32s", table[: len(table) // 32 * 32]):
        attributes, dll, _, slots, names = struct.unpack_from("<5I", record)
        if not any(record):
            return
        base = 0 if attributes & 1 or image.is_64 else image.image_base
        for it in entries(image, text_at(image, dll - base), names - base, slots - base, base):
            yield it
            most -= 1
            if most <= 0:
                return
        most -= 1


def main(*paths: str) -> None:
    """Lists the delayed imports of each file."""
    for path in paths:
        try:
            with Image.open(path, Options(permissive=True, longest_name=512)) as image:
                for it in delayed(image):
                    name = "#%d" % it.ordinal if it.name is None else printable(it.name)
                    print("%s: %s %s %#x" % (path, printable(it.dll), name, it.iat_rva))
        except (OSError, PeError) as error:
            print("%s: %s" % (path, error))


if __name__ == "__main__":
    main(*sys.argv[1:])
