#!/usr/bin/env python3
"""Reads changed base relocations with the module goblin_pe and with objdump, and compares the blocks that both see, word by word:
beside_objdump.py COUNT FILE..

beside_goblin does not compare these, because goblin 0.2.1 has no reader of base relocations. Each file is a sample whose section
.reloc was filled with other blocks, some of whose bytes were changed. objdump lists that section, and the directory is the same
bytes. objdump continues where the library says that the rest is no block, so the comparison of a file ends there, by a rule with a
name (ENDS). The last line counts the files by these names. The status is 1 if anything else differs, and the differences are
shown."""
import collections
import os
import random
import re
import struct
import subprocess
import sys
import tempfile
from typing import Iterator, List, NamedTuple, Optional, Tuple

from goblin_pe import Cause, DirectoryType, ErrorKind, Pe, Table

# The kinds of words that images have, by the names of objdump. It has its own names for the others.
KINDS = {0: "ABSOLUTE", 3: "HIGHLOW", 4: "HIGHADJ", 10: "DIR64"}
HIGHADJ = 4
HEAD = 8  # the size of a block's head

# The rules by which the comparison of a file ends before its last byte, and the cause that the library then gives for the rest.
ENDS = {
    "smaller than its head": (ErrorKind.MALFORMED, Cause.BLOCK_SIZE),
    "past the end": (ErrorKind.MALFORMED, Cause.BLOCK_RANGE),
    "no words at the end": (ErrorKind.MALFORMED, Cause.BLOCK_RANGE),
    "bytes left": (ErrorKind.TOO_BIG, None),
    # objdump begins the next block at the byte that is no word, the library after it.
    "odd size": None,
}


class Block(NamedTuple):
    """A block: its words as pairs (name of the kind, offset in the page), or (None, what belongs to the word before)."""

    rva: int
    size: int
    words: List[Tuple[Optional[str], int]]


def changed(numbers: random.Random, room: int) -> bytes:
    """Blocks of base relocations. In most cases some of their bytes are changed."""
    data, sizes = bytearray(), []
    for _ in range(numbers.randrange(1, 7)):
        sizes.append(len(data) + 4)
        words = [numbers.choice([0x0000, 0x3000, 0xA000, numbers.randrange(16) << 12]) | numbers.randrange(4096)
                 for _ in range(2 * numbers.randrange(8) + numbers.randrange(2))]
        data += struct.pack("<II%dH" % len(words), numbers.randrange(1 << 20) << 12, HEAD + 2 * len(words), *words)
    del data[room:]
    for _ in range(numbers.randrange(4)):
        at = numbers.choice([numbers.randrange(len(data)), min(numbers.choice(sizes), len(data) - 1)])
        data[at] = numbers.choice([numbers.randrange(256), data[at] ^ 1 << numbers.randrange(8), (data[at] + 1) % 256, numbers.randrange(9)])
    del data[numbers.choice([len(data), len(data), numbers.randrange(HEAD, len(data) + 1)]):]
    return bytes(data)


def filled(image: bytes, blocks: bytes) -> bytes:
    """The image with these bytes as its section .reloc and its directory of base relocations."""
    data = bytearray(image)
    header = struct.unpack_from("<I", data, 0x3C)[0]
    optional, size = header + 24, struct.unpack_from("<H", data, header + 20)[0]
    index, section = next((i, s) for i, s in enumerate(Pe(image).sections) if s.name == b".reloc")
    directories = optional + (112 if struct.unpack_from("<H", data, optional)[0] == 0x20B else 96)
    struct.pack_into("<II", data, directories + 8 * DirectoryType.BASE_RELOCATION_TABLE, section.virtual_address, len(blocks))
    struct.pack_into("<I", data, optional + size + 40 * index + 8, len(blocks))
    data[section.pointer_to_raw_data:section.pointer_to_raw_data + len(blocks)] = blocks
    return bytes(data)


def room(image: bytes) -> int:
    """How many bytes the section .reloc has in the file; 0 without such a section."""
    return next((s.size_of_raw_data for s in Pe(image).sections if s.name == b".reloc"), 0)


def listed(names: List[str], folder: str) -> Iterator[List[Block]]:
    """The blocks that objdump lists, for each file."""
    answer = subprocess.run(["objdump", "-p", *names], cwd=folder, env={**os.environ, "LC_ALL": "C"}, stdout=subprocess.PIPE, check=False)
    files = re.split(r"^\S+: +file format \S+$", answer.stdout.decode("ascii", "replace"), flags=re.M)[1:]
    if len(files) != len(names):
        raise ValueError("objdump reads %d of %d files" % (len(files), len(names)))
    for text in files:
        blocks: List[Block] = []
        for rva, size, offset, kind, more in re.findall(
                r"^Virtual Address: (\w+) Chunk size \S+ \(0x(\w+)\)|^\treloc +\d+ offset +(\w+) \[ *\w+\] (\w+)(?: \( *(\w+)\))?", text, re.M):
            if rva:
                blocks.append(Block(int(rva, 16), int(size, 16), []))
            else:
                blocks[-1].words.append((kind, int(offset, 16)))
                blocks[-1].words.extend([(None, int(more, 16))] if more else [])
        yield blocks


def seen(entries: bytes, theirs: List[Tuple[Optional[str], int]]) -> bool:
    """Whether objdump shows these words. Neither shows a byte at the end that is no word."""
    words = [word for word, in struct.iter_unpack("<H", entries[: len(entries) & ~1])]
    if len(words) != len(theirs):
        return False
    is_more = False
    for word, (kind, number) in zip(words, theirs):
        if is_more != (kind is None) or number != (word if is_more else word & 0xFFF):
            return False
        if not is_more and (KINDS.get(word >> 12, kind) != kind or (word >> 12 not in KINDS and kind in KINDS.values())):
            return False
        is_more = not is_more and word >> 12 == HIGHADJ
    return True


def end_of(theirs: List[Block], length: int) -> Tuple[int, Optional[str]]:
    """How many of objdump's blocks the library has to see, and the rule by which the comparison ends there, if there is one."""
    at = 0
    for index, block in enumerate(theirs):
        if block.size < HEAD:
            return index, "smaller than its head"
        if at + block.size > length:
            return index, "past the end"
        if block.size == HEAD and at + HEAD == length:
            return index, "no words at the end"
        if block.size % 2:
            return index + 1, "odd size"
        at += block.size
    # objdump ends silently at a size of zero.
    return len(theirs), "smaller than its head" if length - at >= HEAD else "bytes left" if at < length else None


def difference(data: bytes, length: int, theirs: List[Block]) -> Tuple[Optional[str], Optional[str]]:
    """The rule by which the comparison ends, or None; and the difference, or None."""
    pe = Pe(data)
    count, end = end_of(theirs, length)
    ours = pe.relocation_blocks[:count] if end == "odd size" else pe.relocation_blocks
    if len(ours) != count:
        return end, "%d blocks and not %d" % (len(ours), count)
    for index, (mine, other) in enumerate(zip(ours, theirs)):
        if (mine.rva, mine.size) != (other.rva, other.size) or not seen(mine.entries, other.words):
            return end, "block %d: %s and not %s" % (index, mine, other)
    rests, wanted = [it for it in pe.errors if it.table is Table.RELOCATIONS], ENDS[end] if end else None
    if end != "odd size" and [(it.kind, it.cause) for it in rests] != ([wanted] if wanted else []):
        return end, "the rest is %r" % rests
    return end, None


def main(count: int, paths: List[str]) -> int:
    """Compares a number of changed samples. Returns the status of the program."""
    images = []
    for path in paths:
        with open(path, "rb") as file:
            images.append(file.read())
    images = [it for it in images if room(it)]
    numbers = random.Random(0x5EED)
    ends: "collections.Counter[str]" = collections.Counter()
    differ = 0
    with tempfile.TemporaryDirectory() as folder:
        names, files = [], []
        for turn in range(count):
            image = images[turn % len(images)]
            blocks = changed(numbers, room(image))
            names.append("%d.dll" % turn)
            files.append((filled(image, blocks), len(blocks)))
            with open(os.path.join(folder, names[-1]), "wb") as file:
                file.write(files[-1][0])
        for name, (data, length), theirs in zip(names, files, listed(names, folder)):
            end, what = difference(data, length, theirs)
            ends[end or "whole"] += 1
            if what:
                differ += 1
                if differ <= 5:
                    print("%s: %s" % (name, what))
    print("changed blocks by this library and by objdump: %s; differ %d" %
          (", ".join("%s %d" % it for it in sorted(ends.items())), differ))
    return 1 if differ or not count else 0


if __name__ == "__main__":
    sys.exit(main(int(sys.argv[1]), sys.argv[2:]))
