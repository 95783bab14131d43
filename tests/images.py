"""Images and objects that the tests and tools/benchmark make, as bytes."""
import struct

# The bytes of a small image for 32 bits that are not zero, by their offsets. Its headers: the DOS header, the PE signature and
# the COFF header; of the optional header the magic, the file alignment and the number of directories, exports and imports.
HEADERS = (
    (0x00, b"MZ"), (0x3C, b"\x40"), (0x40, b"PE"), (0x44, b"\x4C\x01\x01"), (0x54, b"\xE0\0\x02\x01"),
    (0x58, b"\x0B\x01"), (0x7C, b"\0\x02"), (0xB4, b"\x10"), (0xB8, struct.pack("<4I", 0x10A0, 0x60, 0x1000, 0x28)))
# Its one section, at the address 0x1000.
SECTION = ((0x138, b".rdata"), (0x140, struct.pack("<4I", 0x100, 0x1000, 0x100, 0x200)))
# The contents of that section: the import directory, its two tables, and their names; the export directory, its three tables,
# and their names.
IMPORTS = (
    (0x200, b"\x40\x10"), (0x20C, b"\x80\x10\0\0\x60\x10"), (0x240, b"\x90\x10\0\0\x07\0\0\x80"),
    (0x260, b"\x90\x10\0\0\x07\0\0\x80"), (0x280, b"a.dll"), (0x290, b"\x05\0Go"))
EXPORTS = (
    (0x2AC, struct.pack("<4I", 0x1080, 1, 2, 2)), (0x2BC, struct.pack("<3I", 0x10C8, 0x10D0, 0x10D8)),
    (0x2C8, struct.pack("<4I", 0x1010, 0x10E0, 0x10F0, 0x1080)), (0x2DA, b"\x01"), (0x2E0, b"b.#12"), (0x2F0, b"f"))
# The program of 64 bytes that prints its message and ends.
DEFAULT_STUB = (b"\x0E\x1F\xBA\x0E\x00\xB4\x09\xCD\x21\xB8\x01\x4C\xCD\x21This program cannot be run in DOS mode.\x0D\x0D\x0A\x24"
                b"\0\0\0\0\0\0\0")


def with_parts(file, *parts):
    """The file with other bytes in it: each part is a pair (offset, bytes). If the file has to grow, the gap is zeros."""
    file = bytearray(file)
    for offset, data in parts:
        file.extend(bytes(max(0, offset - len(file))))
        file[offset:offset + len(data)] = data
    return bytes(file)


def sample(*changes):
    """The small image, which has two imports and two exports, with other bytes at these offsets."""
    return with_parts(bytes(0x300), *HEADERS, *SECTION, *IMPORTS, *EXPORTS, *changes)


def directory_in_front():
    """The small image whose section has the raw pointer 0, so its import directory is at file offset 0, in the DOS header. Strict
    mode lists an import there, and permissive mode none."""
    directory, addresses = struct.pack("<2I", 0x1280, 0x1260), struct.pack("<2I", 0x1290, 0)
    return sample((0xB8, bytes(8)), (0x0C, directory), (0x140, struct.pack("<4I", 0x300, 0x1000, 0x300, 0)),
                  (0x260, addresses), (0x280, b"evil.dll\0"), (0x290, b"\0\0WinExec\0"))


def rounded_to_dead_entries(count):
    """The small image with one import, a.dll #5. If the raw pointer is rounded down, a library comes before it that has this
    many entries, which all lead nowhere."""
    size = 0x90 + 4 * count + 4
    words = ((0x200, 0x10A0, 0, 0, 0x1060, 0x1040, 0x1040, 0, 0x1060, 0x1080, 0x1040), (0x228, *[0] * 6, 0x80000005, 0, 0, 0, 0x80000005, 0),
             (0x290, 0x80000005, 0, 0, 0, *[0x70000000] * count, 0))
    return sample((0xB8, struct.pack("<4I", 0, 0, 0x1000, 40)), (0x140, struct.pack("<4I", size, 0x1000, size, 0x210)),
                  *((at, struct.pack("<%dI" % len(row), *row)) for at, *row in words), *((at, b"a.dll\0") for at in (0x260, 0x270, 0x280)))


def import_from_nowhere(image):
    """The sample that imports by name, with the name at an address that no section maps. Both modes list nothing."""
    return with_parts(image, (0x698, struct.pack("<Q", 0x7FFFFFF0)))


def without_a_place(image):
    """The sample that imports by name, whose last section has the raw pointer 0 and a megabyte of data. So its data is an overlay."""
    return with_parts(image, (0x208, struct.pack("<2I", 1 << 20, 0)))


def large_image(libraries=64, functions=1500, exports=60000, blocks=20000, size=16 << 20):
    """An image for 64 bits with many imports, exports and base relocations, and data after them."""
    base = 0x1000
    raw = bytearray()

    def put(data, alignment=1):
        while len(raw) % alignment:
            raw.append(0)
        place = base + len(raw)
        raw.extend(data)
        return place

    code = put(bytes(0x1000))
    directory = []
    for i in range(libraries):
        name = put(b"library%03d.dll\0" % i)
        hints = [put(struct.pack("<H", j) + b"function_%05d_of_%03d\0" % (j, i), 2) for j in range(functions)]
        table = struct.pack("<%dQ" % (functions + 1), *hints, 0)
        directory.append(struct.pack("<5I", put(table, 8), 0, 0, name, put(table, 8)))
    imports = put(b"".join(directory) + bytes(20), 4)
    record = put(bytes(40), 4)
    own = put(b"large.dll\0")
    names = [put(b"export_%06d\0" % i) for i in range(exports)]
    addresses = put(struct.pack("<%dI" % exports, *[code + i % 0x1000 for i in range(exports)]), 4)
    pointers = put(struct.pack("<%dI" % exports, *names), 4)
    ordinals = put(struct.pack("<%dH" % exports, *range(exports)), 2)
    struct.pack_into("<IIHHIIIIIII", raw, record - base, 0, 0, 0, 0, own, 1, exports, exports, addresses, pointers, ordinals)
    exports_size = base + len(raw) - record
    raw.extend(bytes(max(0, size - len(raw))))
    raw.extend(bytes(-len(raw) % 0x1000))
    words = struct.pack("<HH", 0xA000, 0xA008)
    relocations = b"".join(struct.pack("<II", base + 4096 * i, 8 + len(words)) + words for i in range(blocks))
    end = base + len(raw)
    tables = [(0, record, exports_size), (1, imports, 20 * (libraries + 1)), (5, end, len(relocations))]
    tables = tables if blocks else tables[:2]
    headers = image_headers(0x200, len(tables) - 1, end + (len(relocations) + 0xFFF) // 0x1000 * 0x1000, tables)
    put_section(headers, 0x148, b".rdata", raw, base, 0x200)
    if blocks:
        put_section(headers, 0x170, b".reloc", relocations, end, 0x200 + len(raw))
    return headers + raw + relocations + bytes(-len(relocations) % 0x200)


def hostile_image(size):
    """An image with a section and an import for each 64 bytes. All names are in the last section."""
    count = size // 64 - 16
    start = (0x148 + 40 * count + 0x1FF) // 0x200 * 0x200
    base = 0x1000
    names = base + 0x100 + 16 * (count + 1)
    hints = struct.pack("<%dQ" % (count + 1), *[names + 8 * i for i in range(count)], 0)
    tables = base + 0x100
    data = struct.pack("<5I", tables, 0, 0, base + 0x80, tables + len(hints)) + bytes(20)
    data = data.ljust(0x80, b"\0") + b"library.dll\0"
    data = data.ljust(0x100, b"\0") + hints + hints + b"".join(struct.pack("<H5sB", 0, b"%05d" % i, 0) for i in range(count))
    data = data.ljust(size - start, b"\0")
    headers = image_headers(start, count, 0x7FFFF000, ((1, base, 40),))
    for i in range(count - 1):
        put_section(headers, 0x148 + 40 * i, b".empty", b"x", 0x10000000 + 0x1000 * i, start)
    put_section(headers, 0x148 + 40 * (count - 1), b".idata", data, base, start)
    return headers + data


def shared_image(libraries, functions):
    """An image of many libraries that share one table of imports by the ordinal 1. With 20,000 libraries of 50,000 imports it
    is smaller than a megabyte, and a list of them needs more memory than a machine has."""
    base = 0x1000
    tables = base + 20 * (libraries + 1)
    name = tables + 8 * (functions + 1)
    data = struct.pack("<5I", tables, 0, 0, name, tables) * libraries + bytes(20)
    data += struct.pack("<Q", 1 << 63 | 1) * functions + bytes(8) + b"a.dll\0"
    headers = image_headers(0x200, 1, 0x7FFFF000, ((1, base, 20 * (libraries + 1)),))
    put_section(headers, 0x148, b".idata", data, base, 0x200)
    return headers + data + bytes(-len(data) % 0x200)


def one_long_name(sections, length):
    """An image of sections that all have one name, of this length, which ends the file."""
    name = 0x148 + 40 * sections + 8
    headers = image_headers(name, sections, 0x7FFFF000, ())
    for i in range(sections):
        put_section(headers, 0x148 + 40 * i, b"/%d" % name, b"", 0x1000 * (i + 1), 0)
    return headers + b"n" * length


def own_tables(libraries):
    """The small image with other libraries. The lookup table of each is the records of all of them: each record is five entries,
    two of them ordinals."""
    name = 0x1000 + 20 * libraries + 20
    data = struct.pack("<5I", 0x1000, 1 << 31 | 1, 1 << 31 | 1, name, 0x1000) * libraries + bytes(20) + b"a.dll\0"
    return sample((0xB8, bytes(8)), (0x140, struct.pack("<4I", len(data), 0x1000, len(data), 0x200)), (0x200, data))


def library(name, exports, base=1):
    """A library for 64 bits that exports these, by the ordinals from a base on. Each is a pair (name or None, address or text of
    a forwarder). The names have to be sorted."""
    place = 0x1000
    named = [(index, it) for index, (it, _) in enumerate(exports) if it]
    tables = place + 40
    pointers = tables + 4 * len(exports)
    ordinals = pointers + 4 * len(named)
    texts = ordinals + 2 * len(named)
    data = bytearray()

    def text(it):
        data.extend(it + b"\0")
        return texts + len(data) - len(it) - 1

    own = text(name)
    addresses = [text(it) if isinstance(it, bytes) else it for _, it in exports]
    names = [text(it) for _, it in named]
    record = struct.pack("<IIHHIIIIIII", 0, 0, 0, 0, own, base, len(exports), len(named), tables, pointers, ordinals)
    record += struct.pack("<%dI%dI%dH" % (len(exports), len(named), len(named)), *addresses, *names, *(index for index, _ in named))
    data = record + data
    headers = image_headers(0x200, 1, 0x10000, ((0, place, len(data)),))
    put_section(headers, 0x148, b".edata", data, place, 0x200)
    return headers + data + bytes(-len(data) % 0x200)


def importer(imports, relocated=0):
    """An image for 64 bits that imports from libraries: each is a pair (library, list of names and ordinals). Its first section
    has `relocated` addresses of its own bytes, which base relocations name, and then zeros in memory."""
    place = 0x2000
    data = bytearray(20 * (len(imports) + 1))
    for index, (name, entries) in enumerate(imports):
        words = []
        for it in entries:
            words.append(1 << 63 | it if isinstance(it, int) else place + len(data))
            data.extend(b"" if isinstance(it, int) else b"\0\0" + it + b"\0")
        library = place + len(data)
        data.extend(name + b"\0" + bytes(-(len(data) + len(name) + 1) % 8))
        table = struct.pack("<%dQ" % (len(words) + 1), *words, 0)
        struct.pack_into("<5I", data, 20 * index, place + len(data), 0, 0, library, place + len(data) + len(table))
        data.extend(table * 2)
    own = struct.pack("<%dQ" % relocated, *(0x180001000 + it for it in range(relocated)))
    words = struct.pack("<%dH" % relocated, *(10 << 12 | 8 * it for it in range(relocated)))
    blocks = struct.pack("<II", 0x1000, 8 + len(words)) + words
    directories = ((1, place, 20 * (len(imports) + 1)), (5, 0x3000, len(blocks)))
    headers = image_headers(0x200, 3, 0x10000, directories)
    pointer, raw = 0x200, bytearray()
    for index, (name, content) in enumerate(((b".data", own), (b".idata", data), (b".reloc", blocks))):
        put_section(headers, 0x148 + 40 * index, name, content, 0x1000 * (index + 1), pointer + len(raw))
        raw += content + bytes(-len(content) % 0x200)
    struct.pack_into("<I", headers, 0x148 + 8, 0x800)
    return headers + raw


def with_others(is_wide=True):
    """An image with tables that the library leaves to others: delayed imports from two libraries, debug data that names a PDB, and
    three resources. test_examples.py has their contents."""
    place, width = 0x1000, 8 if is_wide else 4
    base, data, form = 0x180000000 if is_wide else 0x400000, bytearray(0x200), "<%dQ" if is_wide else "<%dI"

    def put(content, alignment=8):
        data.extend(bytes(-len(data) % alignment) + content)
        return place + len(data) - len(content)

    def library(name, entries):
        texts = [1 << (8 * width - 1) | it if isinstance(it, int) else put(struct.pack("<H", 7) + it + b"\0", 2) for it in entries]
        names, slots = (put(struct.pack(form % (len(texts) + 1), *texts, 0)) for _ in range(2))
        return struct.pack("<8I", 1, put(name + b"\0", 1), 0, slots, names, 0, 0, 0)

    records = library(b"late.dll", [b"Later", 12]) + library(b"never.dll", [b"Never"])
    path = b"RSDS" + bytes(range(16)) + struct.pack("<I", 3) + b"c:\\work\\some.pdb\0"
    pdb = put(path)
    debug = struct.pack("<2I2H4I", 0, 0, 0, 0, 2, len(path), pdb, pdb - place + 0x200)
    texts = {it: put(struct.pack("<H", len(it)) + it.encode("utf-16-le"), 2) for it in ("TEXT", "README")}
    content = put(b"content")
    # (The offsets of resources count from their directory, which is at the front of the section.)
    high, at = 1 << 31, {name: it - place for name, it in texts.items()}
    tree = [(1, 1, ((high | at["TEXT"], high | 0x80), (16, high | 0xA0))), (1, 0, ((high | at["README"], high | 0xC0),)),
            (0, 1, ((1, high | 0xD8),)), (0, 1, ((0, 0x100),)), (0, 2, ((0x407, 0x110), (0x409, 0x110)))]
    for offset, (named, numbered, rows) in zip((0, 0x80, 0xA0, 0xC0, 0xD8), tree):
        struct.pack_into("<2I4H", data, offset, 0, 0, 0, 0, named, numbered)
        for index, row in enumerate(rows):
            struct.pack_into("<2I", data, offset + 16 + 8 * index, *row)
    struct.pack_into("<8I", data, 0x100, content, 7, 0, 0, content + 1, 6, 0, 0)
    data[0x140: 0x140 + len(records)], data[0x1C0: 0x1C0 + 28] = records, debug
    directories = ((2, place, 0x1C0), (6, place + 0x1C0, 28), (13, place + 0x140, 96))
    headers = image_headers(0x200, 1, 0x10000, directories) if is_wide else narrow_headers(base, directories)
    put_section(headers, 0x148 if is_wide else 0x138, b".others", data, place, 0x200)
    return bytes(headers + data + bytes(-len(data) % 0x200))


def long_names(count):
    """An image for 64 bits that has so many libraries, delayed imports and resources, whose names are long and have no character that
    can be printed. The names of libraries differ: each begins at another character of one long text."""
    place, tree = 0x1000, 24 * 3 + 8 * count
    text = struct.pack("<H", 0x7FFF) + "\xff".encode() * (count + 300) + b"\0\0"
    data = bytearray(tree + 16)
    # (resources: a directory in a directory in a directory; all names are one text behind them, all leaves one entry)
    high, name = 1 << 31, place + len(data)
    for level in range(3):
        entries = count if level == 2 else 1
        struct.pack_into("<2I4H", data, 24 * level, 0, 0, 0, 0, min(entries, 0xFFFF), 0)
        row = struct.pack("<2I", high | len(data), high | 24 * (level + 1) if level < 2 else tree)
        data[24 * level + 16: 24 * level + 16 + 8 * entries] = row * entries
    data += text
    table = place + len(data)
    data += struct.pack("<2Q", name, 0)
    records = place + len(data)
    data += b"".join(struct.pack("<5I", table, 0, 0, name + 2 + 2 * i, table) for i in range(count)) + bytes(20)
    delayed = place + len(data)
    data += struct.pack("<8I", 1, name + 2, 0, delayed + 64, delayed + 64, 0, 0, 0) + bytes(32) + struct.pack("<Q", name) * count + bytes(8)
    headers = image_headers(0x200, 1, 0x7FFFF000, ((1, records, 20 * (count + 1)), (2, place, len(data)), (13, delayed, 64)))
    put_section(headers, 0x148, b".names", data, place, 0x200)
    return bytes(headers + data + bytes(-len(data) % 0x200))


def narrow_headers(base, directories):
    """The headers of an image for 32 bits, with room for the records of a few sections."""
    headers = bytearray(0x200)
    headers[0:2] = b"MZ"
    struct.pack_into("<I", headers, 0x3C, 0x40)
    struct.pack_into("<4sHHIIIHH", headers, 0x40, b"PE\0\0", 0x14C, 1, 0, 0, 0, 224, 0x2102)
    struct.pack_into("<HBBIIIIII", headers, 0x58, 0x10B, 14, 0, 0, 0, 0, 0x1000, 0x1000, 0)
    struct.pack_into("<IIIHHHHHHIIIIHH", headers, 0x74, base, 0x1000, 0x200, 6, 0, 0, 0, 6, 0, 0, 0x10000, 0x200, 0, 3, 0)
    struct.pack_into("<I", headers, 0xB4, 16)
    for index, address, size in directories:
        struct.pack_into("<II", headers, 0xB8 + 8 * index, address, size)
    return headers


def with_data_behind(image, size):
    """The image with a number of zeros between its headers, which have 512 bytes, and the data of its sections."""
    image, (signature,) = bytearray(image), struct.unpack_from("<I", image, 0x3C)
    count, optional = struct.unpack_from("<H12xH", image, signature + 6)
    for place in range(signature + 24 + optional, signature + 24 + optional + 40 * count, 40):
        pointer, = struct.unpack_from("<I", image, place + 20)
        struct.pack_into("<I", image, place + 20, pointer + size)
    return bytes(image[:0x200] + bytes(size) + image[0x200:])


def with_small_header(image, size):
    """The sample whose section table begins at this offset in its optional header, and overlaps the rest of it."""
    image, (signature,) = bytearray(image), struct.unpack_from("<I", image, 0x3C)
    count, optional = struct.unpack_from("<H12xH", image, signature + 6)
    table = signature + 24 + optional
    struct.pack_into("<H", image, signature + 20, size)
    image[signature + 24 + size: signature + 24 + size + 40 * count] = image[table: table + 40 * count]
    return image


def with_directory(image, index, address, size):
    """The image for 64 bits, one of whose data directories has another address and size."""
    image = bytearray(image)
    signature, = struct.unpack_from("<I", image, 0x3C)
    struct.pack_into("<II", image, signature + 0x88 + 8 * index, address, size)
    return image


def with_rich_header(image, key, entries):
    """The image for 64 bits, whose headers have room left, with a Rich header before its PE signature. Each entry is a pair
    (tool and its build, count)."""
    words = [0x536E6144, 0, 0, 0, *(word for entry in entries for word in entry)]
    rich = struct.pack("<%dI4sI" % len(words), *(word ^ key for word in words), b"Rich", key)
    signature, = struct.unpack_from("<I", image, 0x3C)
    size, = struct.unpack_from("<I", image, signature + 0x54)
    assert not any(image[size - len(rich):size]), "no room in the headers"
    image = bytearray(image[:signature] + rich + image[signature:size - len(rich)] + image[size:])
    struct.pack_into("<I", image, 0x3C, signature + len(rich))
    return image


def pointers_to_nowhere(count):
    """An image whose export directory has this many name pointers. Only the first leads to an address."""
    base = 0x1000
    ordinals = base + 4 * count
    data = struct.pack("<IIHHIIIIIII", 0, 0, 0, 0, base + 40, 1, 1, count, base + 52, base, ordinals) + b"nowhere.dll\0"
    data = (data + struct.pack("<I", base + 56)).ljust(4 * count, b"\0") + b"\0\0".ljust(2 * count, b"\xff")
    headers = image_headers(0x200, 1, 0x7FFFF000, ((0, base, 40),))
    put_section(headers, 0x148, b".edata", data, base, 0x200)
    return headers + data + bytes(-len(data) % 0x200)


def pointers_to_one_name(count):
    """As pointers_to_nowhere, but each pointer leads to an address, and those after the first 16 lead to one name."""
    image = pointers_to_nowhere(count)
    return with_parts(image, (0x240, struct.pack("<I", 0x1028) * (count - 16)), (0x200 + 4 * count, bytes(2 * count)))


def image_headers(length, sections, image_size, directories):
    """The headers of an image for 64 bits, with room for the records of its sections up to this length."""
    headers = bytearray(length)
    headers[0:2] = b"MZ"
    struct.pack_into("<I", headers, 0x3C, 0x40)
    struct.pack_into("<4sHHIIIHH", headers, 0x40, b"PE\0\0", 0x8664, sections, 0, 0, 0, 240, 0x2022)
    struct.pack_into("<HBBIIIII", headers, 0x58, 0x20B, 14, 0, 0, 0, 0, 0x1000, 0x1000)
    struct.pack_into("<QIIHHHHHHIIIIHH", headers, 0x70, 0x180000000, 0x1000, 0x200, 6, 0, 0, 0, 6, 0, 0, image_size, length, 0, 3, 0)
    struct.pack_into("<QQQQII", headers, 0xA0, 0x100000, 0x1000, 0x100000, 0x1000, 0, 16)
    for index, address, size in directories:
        struct.pack_into("<II", headers, 0xC8 + 8 * index, address, size)
    return headers


def put_section(headers, place, name, data, address, pointer):
    """Writes a section header: the data is at an address in memory, and at a pointer in the file."""
    raw_size = (len(data) + 0x1FF) // 0x200 * 0x200
    struct.pack_into("<8sIIIIIIHHI", headers, place, name, len(data), address, raw_size, pointer, 0, 0, 0, 0, 0x40000040)


def many_sections(count, size=0x1000, past=0):
    """An object of many sections of one size. Their windows lie side by side, and so does their data, from the file offset `past`
    on."""
    headers = bytearray(20 + 40 * count)
    struct.pack_into("<HHIIIHH", headers, 0, 0x8664, count, 0, 0, 0, 0, 0)
    for i in range(count):
        struct.pack_into("<8sIIIIIIHHI", headers, 20 + 40 * i, b".data", size, size * i, size, size * i + past, 0, 0, 0, 0, 0)
    return headers
