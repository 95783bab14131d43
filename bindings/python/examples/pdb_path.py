"""Lists the PDBs that images name: pdb_path.py FILE.. Each line has the path that the linker wrote, and the key that symbol servers
use. The library does not read debug data, so this program does. Many entries may lead to one long text, so both are limited."""
import struct
import sys
import uuid
from typing import Iterator, NamedTuple

from goblin_pe import DirectoryType, Image, Options, PeError, printable

# The type of a debug directory entry that names a PDB, and the size of an entry.
CODEVIEW, ENTRY = 2, 28
# How many entries are read, and how many bytes of the data of each.
MOST, LONGEST = 100, 4096


class Pdb(NamedTuple):
    """A PDB: its path and its key. The key is the identifier that the image and the PDB share, and the age."""

    path: bytes
    key: str


def named(data: bytes) -> Iterator[Pdb]:
    """The PDB that CodeView data name. Data from before 2002 begin with NB10, later data with RSDS."""
    if data[:4] == b"RSDS" and len(data) > 24:
        age, = struct.unpack_from("<I", data, 20)
        yield Pdb(data[24:].partition(b"\0")[0], "%s%X" % (uuid.UUID(bytes_le=data[4:20]).hex.upper(), age))
    elif data[:4] == b"NB10" and len(data) > 16:
        stamp, age = struct.unpack_from("<2I", data, 8)
        yield Pdb(data[16:].partition(b"\0")[0], "%08X%X" % (stamp, age))


def pdbs(image: Image) -> Iterator[Pdb]:
    """The PDBs that the debug directory names, mostly one. Their data need not be mapped, so entries have file offsets."""
    directory = image.directories[DirectoryType.DEBUG_TABLE]
    table = image.memory_at(directory.virtual_address, min(directory.size, MOST * ENTRY)).data
    for begin in range(0, len(table) - ENTRY + 1, ENTRY):
        typ, size, _, pointer = struct.unpack_from("<4I", table, begin + 12)
        if typ == CODEVIEW:
            yield from named(bytes(image.data[pointer: pointer + min(size, LONGEST)]))


def main(*paths: str) -> None:
    """Lists the PDBs of each file."""
    for path in paths:
        try:
            with Image.open(path, Options(permissive=True, longest_name=512)) as image:
                for pdb in pdbs(image):
                    print("%s: %s %s" % (path, printable(pdb.path), pdb.key))
        except (OSError, PeError) as error:
            print("%s: %s" % (path, error))


if __name__ == "__main__":
    main(*sys.argv[1:])
