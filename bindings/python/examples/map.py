"""Draws an image as a picture, and writes it as SVG: map.py FILE. A band shows the bytes of the file from front to end: headers,
sections, tables and the overlay. A band below shows the memory that a loader makes of the file. Sizes are to scale, but each part has
a least width. Only the first sections are drawn."""
import bisect
import html
import itertools
import os
import struct
import sys
from typing import Callable, Iterator, List, NamedTuple, Tuple, Union

from goblin_pe import DirectoryType, Image, Kind, Options, PeError, Section, constants, printable

OPTIONS = Options(permissive=True, longest_name=64)
# How many sections are drawn, from how many on the others are not even read, and how long a name may be.
SECTIONS, MANY, LONGEST = 24, 2_000, 14
# The width of a band, where it begins, the least width of a part, the height of a row, and the width of a letter.
WIDTH, LEFT, LEAST, HEIGHT, LETTER = 1100, 80, 14, 92, 6.6
MIDDLE = ' text-anchor="middle"'

# The fill of each kind of part. Printed in grey, executable sections are the darkest, and other sections the lightest.
FILLS = {"headers": "#d0d0d0", "executable section": "#e59866", "writable section": "#aed6f1", "other section": "#eafaf1",
         "table": "#ffffff", "overlay": "url(#lines)", "zeros": "url(#dots)", "missing bytes": "url(#cross)"}
PATTERNS = (("lines", "M0 6L6 0"), ("dots", "M1 1h1M4 4h1"), ("cross", "M0 0L6 6M0 6L6 0"))
TABLES = {
    DirectoryType.EXPORT_TABLE: "exports", DirectoryType.IMPORT_TABLE: "imports", DirectoryType.RESOURCE_TABLE: "resources",
    DirectoryType.EXCEPTION_TABLE: "exceptions", DirectoryType.CERTIFICATE_TABLE: "certificates",
    DirectoryType.BASE_RELOCATION_TABLE: "relocations", DirectoryType.DEBUG_TABLE: "debug", DirectoryType.TLS_TABLE: "TLS",
    DirectoryType.LOAD_CONFIG_TABLE: "load config", DirectoryType.BOUND_IMPORT_TABLE: "bound imports",
    DirectoryType.IMPORT_ADDRESS_TABLE: "addresses", DirectoryType.DELAY_IMPORT_DESCRIPTOR: "delay imports",
    DirectoryType.CLR_RUNTIME_HEADER: "CLR header"}


class Part(NamedTuple):
    """A part of the file or of memory: where it begins and ends, its name, and what it is."""

    begin: int
    end: int
    name: str
    what: str


def kind_of(section: Section) -> str:
    """What a section is."""
    for flag, what in ((constants.IMAGE_SCN_MEM_EXECUTE, "executable section"), (constants.IMAGE_SCN_MEM_WRITE, "writable section")):
        if section.characteristics & flag:
            return what
    return "other section"


def place_of(image: Image, s: Section) -> Tuple[int, int]:
    """The file offset of the data that the loader reads into a section, and their size."""
    is_shown = image.memory_at(s.virtual_address, 0).section == s.index  # (if not, another section hides it)
    begin = image.find_offset(s.virtual_address) if is_shown else None
    return s.pointer_to_raw_data if begin is None else begin, len(s.data(image).data)


def parts_of_file(image: Image, sections: List[Section], count: int) -> Iterator[Part]:
    """The headers, the raw data of sections, and the overlay."""
    rich, optional = image.rich_header, image.dos_header.pe_pointer
    table = optional + constants.SIZEOF_PE_MAGIC + constants.SIZEOF_COFF_HEADER + image.coff_header.size_of_optional_header
    yield Part(0, 64, "DOS header", "headers")
    yield Part(64, rich.start_offset if rich else optional, "DOS stub", "headers")
    if rich:
        yield Part(rich.start_offset, rich.end_offset + 8, "Rich header", "headers")
    yield Part(optional, table, "PE header", "headers")
    yield Part(table, table + constants.SIZEOF_SECTION_TABLE * count, "section table", "headers")
    for s in sections:
        begin, size = place_of(image, s)
        yield Part(begin, begin + size, printable(s.name), kind_of(s))
    if count <= MANY:
        yield Part(len(image.data) - len(image.overlay()), len(image.data), "overlay", "overlay")


def tables_of(image: Image) -> Iterator[Part]:
    """The tables that data directories lead to."""
    for index, name in TABLES.items():
        directory = image.directories[index]
        is_offset = index is DirectoryType.CERTIFICATE_TABLE
        begin = directory.virtual_address if is_offset else image.find_offset(directory.virtual_address)
        if begin and directory.size:
            yield Part(begin, begin + directory.size, name, "table")


def parts_of_memory(image: Image, sections: List[Section]) -> Iterator[Part]:
    """The headers, and the data of each section, the zeros after them, and the bytes that a cut file lacks."""
    optional = image.optional_header
    yield Part(0, optional.windows_fields.size_of_headers if optional else 0, "headers", "headers")
    for s in sections:
        data, name, at = s.data(image), printable(s.name), s.virtual_address
        for size, what in ((len(data.data), kind_of(s)), (data.zeros, "zeros"), (data.missing, "missing bytes")):
            yield Part(at, at + size, name, what)
            at += size


def cut(parts: Iterator[Part], end: int) -> List[Part]:
    """The parts that have bytes before an end, in order."""
    return sorted(it._replace(end=min(it.end, end)) for it in parts if it.begin < min(it.end, end))


def widths(sizes: List[int], total: float) -> List[float]:
    """The widths of parts of these sizes: to scale, but not below the least width."""
    least, left, size, found = min(LEAST, total / max(len(sizes), 1)), total, sum(sizes), [0.0] * len(sizes)
    for index in sorted(range(len(sizes)), key=sizes.__getitem__):
        found[index] = max(least, sizes[index] * left / size)
        left, size = left - found[index], size - sizes[index]
    return found


class Scale:
    """The place of each offset on a band. Gaps between parts in memory may be shortened."""

    def __init__(self, parts: List[Part], end: int, shortens: bool) -> None:
        self.ends = sorted({0, end, *(it.begin for it in parts), *(it.end for it in parts)})
        sizes = [two - one for one, two in zip(self.ends, self.ends[1:])]
        is_gap = [shortens and not any(it.begin <= one < it.end for it in parts) for one in self.ends[:-1]]
        most = sum(size for size, gap in zip(sizes, is_gap) if not gap) // 12
        shown = [min(it, most) or 1 if gap else it for it, gap in zip(sizes, is_gap)]
        self.places = list(itertools.accumulate(widths(shown, WIDTH), initial=LEFT))
        self.short = [index for index, gap in enumerate(is_gap) if gap and sizes[index] > most]

    def __call__(self, offset: int) -> float:
        index = min(max(bisect.bisect_right(self.ends, offset) - 1, 0), len(self.ends) - 2)
        one, two = self.ends[index:index + 2]
        return self.places[index] + (self.places[index + 1] - self.places[index]) * (min(offset, two) - one) / (two - one)


def text(x: float, y: float, content: str, more: str = "") -> str:
    """A text in the picture."""
    return '<text x="%.1f" y="%.1f"%s>%s</text>' % (x, y, more, html.escape(content))


def drawn(part: Part, scale: Callable[[int], float], y: float) -> Iterator[str]:
    """A part, with its name as it fits. A title says all about it, if you point at it or have it read aloud."""
    x, width, fill = scale(part.begin), scale(part.end) - scale(part.begin), FILLS[part.what]
    name = part.name if len(part.name) <= LONGEST else part.name[:LONGEST - 2] + ".."
    more = ' class="clear"' if fill.startswith("url") else ""
    yield '<g><title>%s</title><rect x="%.1f" y="%.1f" width="%.1f" height="%d" fill="%s"/>' % (html.escape(in_words(part)), x, y, width, HEIGHT, fill)
    if width > LETTER * len(name) + 4:
        yield text(x + width / 2, y + HEIGHT / 2 + 4, name, MIDDLE + more)
    elif width > 11:
        yield text(0, 4, name, MIDDLE + more + ' transform="translate(%.1f %.1f) rotate(-90)"' % (x + width / 2, y + HEIGHT / 2))
    yield "</g>"


def in_words(part: Part) -> str:
    """A part in words."""
    return "%s (%s) at %#x, %d bytes" % (part.name, part.what, part.begin, part.end - part.begin)


def lanes(parts: List[Part], most: int) -> Iterator[Tuple[int, Part]]:
    """Each part and its row, so that no part hides another. A part is left out if no row has room for it."""
    ends: List[int] = []
    for it in parts:
        lane = next((index for index, end in enumerate(ends) if end <= it.begin), len(ends))
        if lane < most:
            ends[lane:lane + 1] = [it.end]
            yield lane, it


def band(name: str, parts: List[Part], scale: Scale, y: float) -> Tuple[List[str], float]:
    """The drawing of a band of parts in at most three rows, with its name at the left, and the height at which it ends."""
    placed, at = list(lanes(parts, 3)), ' text-anchor="end"'
    drawing = [text(LEFT - 8, y + HEIGHT / 2 + 4, name, at)]
    if len(placed) < len(parts):
        drawing.append(text(LEFT - 8, y + HEIGHT / 2 + 18, "(%d left out)" % (len(parts) - len(placed)), at + ' class="small"'))
    for lane, part in placed:
        drawing += drawn(part, scale, y + HEIGHT * lane)
    return drawing, y + HEIGHT * (max((lane for lane, _ in placed), default=0) + 1)


def ruler(scale: Scale, y: float) -> Iterator[str]:
    """The offsets at the ends of parts, if there is room for them."""
    last = -100.0
    for offset, x in zip(scale.ends, scale.places):
        number = "%#x" % offset
        if x - last > LETTER * len(number) + 8:
            yield '<path d="M%.1f %.1fv5"/>' % (x, y) + text(x, y + 15, number, ' class="small"')
            last = x


def legend(y: float) -> Iterator[str]:
    """What each kind of part looks like."""
    others = ("a gap that is drawn shorter", "none"), ("entry point", "")
    for index, (what, fill) in enumerate([*FILLS.items(), *others]):
        x, row = LEFT + 240 * (index % 5), y + 22 * (index // 5)
        sign = '<rect x="%.1f" y="%.1f" width="24" height="14" fill="%s"/>' % (x, row, fill)
        yield (sign if fill else '<path d="M%.1f %.1fl-5 -10h10z"/>' % (x + 12, row + 12)) + text(x + 30, row + 11, what)
        if fill == "none":
            yield text(x + 12, row + 9, "...", MIDDLE)


def picture(image: Image, name: str, count: int) -> Iterator[str]:
    """The lines of the SVG. The header counts `count` sections."""
    sections, length = list(image.sections[:SECTIONS]), len(image.data)
    parts, tables = cut(parts_of_file(image, sections, count), length), cut(tables_of(image), length)
    memory = cut(parts_of_memory(image, sections), 1 << 33)
    in_file = Scale([*parts, *tables], max(length, 1), False)
    in_memory = Scale(memory, max((it.end for it in memory), default=1), True)
    lines, y = band("tables", tables, in_file, 50)
    drawing, y = band("file", parts, in_file, y + 8)
    lines += [*drawing, *ruler(in_file, y)]
    below, top = y + 20, y + 90
    for s in sections:
        (begin, size), rva = place_of(image, s), s.virtual_address
        if size:
            places = in_file(begin), below, in_file(begin + size), in_memory(rva + size), top, in_memory(rva)
            lines.append('<path class="way" d="M%.1f %.1fH%.1fL%.1f %.1fH%.1fZ"/>' % places)
    drawing, y = band("memory", memory, in_memory, top)
    lines += [*drawing, *ruler(in_memory, y), *legend(y + 34)]
    lines += [text((in_memory.places[it] + in_memory.places[it + 1]) / 2, top + HEIGHT / 2, "...", MIDDLE) for it in in_memory.short]
    if image.entry:
        lines.append('<g><title>entry point at %#x</title><path d="M%.1f %.1fl-5 -10h10z"/></g>' % (image.entry, in_memory(image.entry), top))
    title = "%s: %d bytes, sections: %d" % (name, length, count) + (" (%d are drawn)" % len(sections) if len(sections) < count else "")
    height = y + 110
    yield '<svg xmlns="http://www.w3.org/2000/svg" role="img" aria-labelledby="title desc" viewBox="0 0 %d %d" width="%d" height="%d">' % (
        WIDTH + LEFT + 60, height, WIDTH + LEFT + 60, height)
    yield '<title id="title">%s</title>' % html.escape(title)
    yield '<desc id="desc">In the file: %s. In memory: %s.</desc>' % (
        html.escape("; ".join(map(in_words, [*parts, *tables]))), html.escape("; ".join(map(in_words, memory))))
    yield ('<style>text{font:11px sans-serif;fill:#000}.small{font-size:9px}.clear{stroke:#fff;stroke-width:4;paint-order:stroke}'
           'rect,path{stroke:#444;stroke-width:.6}.way{fill:#e8e8e8;stroke:#fff;stroke-width:1.5}</style><defs>')
    for pattern, path in PATTERNS:
        yield '<pattern id="%s" width="6" height="6" patternUnits="userSpaceOnUse">' % pattern + (
            '<rect width="6" height="6" fill="#fff" style="stroke:none"/><path d="%s"/></pattern>' % path)
    yield '</defs><rect width="100%" height="100%" fill="#fff" style="stroke:none"/>'
    yield text(LEFT, 30, title, ' style="font-size:15px"')
    yield from lines
    yield "</svg>"


def main(path: str) -> None:
    """Draws a file."""
    try:
        with open(path, "rb") as file:
            data: Union[bytes, bytearray] = file.read()
        if Kind.of(data) is not Kind.IMAGE:
            raise SystemExit("%s: no image" % path)
        image = Image.partial(data, OPTIONS)
        count = image.coff_header.number_of_sections
        if count > MANY:  # (the rows of 65,535 sections take half a second, and no honest image has them)
            data = bytearray(data)
            struct.pack_into("<H", data, image.dos_header.pe_pointer + 6, SECTIONS)
            image = Image.partial(data, OPTIONS)
        print("\n".join(picture(image, printable(os.fsencode(os.path.basename(path))), count)))
    except (OSError, MemoryError, PeError) as error:
        raise SystemExit("%s: %s" % (path, error)) from None


if __name__ == "__main__":
    main(*sys.argv[1:])
