"""Lists the resources of images: resources.py FILE.. Each line has the type, the name, the language, the address and the size. The
library does not read resources, so this program does. A hostile tree may lead in a circle, or share its branches. So the program goes
three levels down, as loaders do, and limits the number of entries that it reads."""
import struct
import sys
from typing import Iterator, NamedTuple, Tuple, Union

from goblin_pe import DirectoryType, Image, Options, PeError, printable

# How many entries are read, and how many characters of a name. A number with the high bit leads to a directory or a name.
MOST, LONGEST, HIGH = 5_000, 48, 1 << 31

# The name of a directory or a resource.
Name = Union[int, str]


class Resource(NamedTuple):
    """A resource: its path (mostly type, name and language), its address, and its size in bytes."""

    path: Tuple[Name, ...]
    rva: int
    size: int


def part(tree: memoryview, offset: int, size: int) -> bytes:
    """Bytes of the tree; zeros if they are not there."""
    return bytes(tree[offset: offset + size]).ljust(size, b"\0")


def name_of(tree: memoryview, number: int) -> Name:
    """The name for a number: the number itself, or a text in the tree."""
    if not number & HIGH:
        return number
    length, = struct.unpack("<H", part(tree, number & ~HIGH, 2))
    return part(tree, (number & ~HIGH) + 2, 2 * min(length, LONGEST)).decode("utf-16-le", "replace")


def below(tree: memoryview, offset: int, path: Tuple[Name, ...], left: Iterator[int]) -> Iterator[Resource]:
    """The resources below the directory at this offset of the tree, as long as `left` has items."""
    named, numbered = struct.unpack_from("<2H", part(tree, offset, 16), 12)
    entries = tree[offset + 16: offset + 16 + 8 * (named + numbered)]
    for (name, to), _ in zip(struct.iter_unpack("<2I", entries[: len(entries) // 8 * 8]), left):
        way = (*path, name_of(tree, name))
        if to & HIGH and len(way) < 3:
            yield from below(tree, to & ~HIGH, way, left)
        elif not to & HIGH and to + 16 <= len(tree):
            yield Resource(way, *struct.unpack_from("<2I", tree, to))


def resources(image: Image) -> Iterator[Resource]:
    """The resources of an image, in the order of their tree. Image.memory_at(it.rva, it.size) has the data."""
    rva = image.directories[DirectoryType.RESOURCE_TABLE].virtual_address
    # (the whole section: sizes of directories are often wrong)
    tree = image.memory_at(rva, (1 << 32) - 1).data if rva else memoryview(b"")
    return below(tree, 0, (), iter(range(MOST)))


def main(*paths: str) -> None:
    """Lists the resources of each file."""
    for path in paths:
        try:
            with Image.open(path, Options(permissive=True, longest_name=512)) as image:
                for it in resources(image):
                    names = "/".join(str(x) if isinstance(x, int) else printable(x.encode("utf-8", "replace")) for x in it.path)
                    print("%s: %s %#x %d" % (path, names, it.rva, it.size))
        except (OSError, PeError) as error:
            print("%s: %s" % (path, error))


if __name__ == "__main__":
    main(*sys.argv[1:])
