"""Lists PE images, COFF objects and Terse Executables: python -m goblin_pe FILE.."""
import argparse
import json
import os
import signal
import sys
from collections.abc import Iterable, Iterator
from typing import Any, Dict, List, Tuple

from . import Budget, DirectoryType, Image, Kind, Mapping, Options, Pe, PeError, Table, Walk, jsonable, printable

# What is written about each file before its tables.
HEADERS = ("refusal", "header_faults", "dos_header", "coff_header", "optional_header", "directories", "te_header", "rich_header")
MAPPINGS = {it.name.lower().replace("_", "-"): it for it in Mapping}


def heading(pe: Pe, table: Table, directory: DirectoryType, rows: str) -> str:
    """The line above the rows of a table: whether the image has it, and how many rows. Of refused imports, pe_list says that there are 0."""
    if not any(pe.image.directories[directory]):
        return table.value + " absent"
    is_refused = pe.skipped[rows] and table is not Table.IMPORTS
    return "%s %s" % (table.value, "refused" if is_refused else len(getattr(pe, rows)))


def image_lines(pe: Pe) -> Iterator[str]:
    """The lines of an image, as pe_list writes them."""
    image, optional = pe.image, pe.image.optional_header
    fields = optional and optional.standard_fields
    yield "header machine=%#x sections=%d" % (image.coff_header.machine, len(image.sections)) + (
        " magic=%#x entry=%#x" % (fields.magic, fields.address_of_entry_point) if fields else "")
    for s in pe.sections:
        yield "section va=%#x vsize=%#x raw=%#x ptr=%#x name=%s" % (
            s.virtual_address, s.virtual_size, s.size_of_raw_data, s.pointer_to_raw_data, printable(s.name))
    yield heading(pe, Table.IMPORTS, DirectoryType.IMPORT_TABLE, "imports")
    for it in pe.imports:
        number = it.hint if it.ordinal is None else it.ordinal
        yield "import offset=%#x ordinal=%d rva=%#x size=%d slot=%d dll=%s name=%s" % (
            it.iat_rva, number or 0, it.hint_name_rva, 8 if image.is_64 else 4, it.thunk_index, printable(it.dll),
            "ORDINAL %s" % it.ordinal if it.name is None else printable(it.name))
    yield heading(pe, Table.EXPORTS, DirectoryType.EXPORT_TABLE, "exports")
    for export in pe.exports:
        to = export.forwarder
        yield "".join((
            "export rva=%#x" % export.rva, "" if export.offset is None else " offset=%#x" % export.offset,
            " forward=%s.%s" % (printable(to.dll), "#%s" % to.ordinal if to.name is None else printable(to.name)) if to else "",
            "" if export.name is None else " name=" + printable(export.name)))
    yield heading(pe, Table.RELOCATIONS, DirectoryType.BASE_RELOCATION_TABLE, "relocation_blocks")
    for block in pe.relocation_blocks:
        yield "block rva=%#x size=%#x words=%d" % (block.rva, block.size, len(block.entries) // 2)
    if any(it.table is Table.RELOCATIONS for it in pe.errors):
        yield "block refused"


def object_lines(image: Image, budget: Budget) -> Iterator[str]:
    """The lines of an object."""
    for it in image.symbols(budget):
        yield "symbol %d value=%d section=%d class=%d aux=%d name=%s" % (
            it.index, it.value, it.section_number, it.storage_class, it.number_of_aux_symbols, printable(it.name or b""))
    for s in image.section_headers(budget):
        if s.number_of_relocations:
            yield "relocations %s %d" % (printable(s.name), s.number_of_relocations)


def te_lines(image: Image) -> Iterator[str]:
    """The lines of a Terse Executable."""
    header = image.te_header
    for field in header._fields[:8] if header else ():
        yield "%s %#x" % (field, getattr(header, field))
    for field in header._fields[8:] if header else ():
        yield "%s %#x %d" % (field, *getattr(header, field))
    for s in image.sections:
        yield "section %s va=%#x vsize=%#x raw=%#x ptr=%#x characteristics=%#x" % (
            printable(s.name), s.virtual_address, s.virtual_size, s.size_of_raw_data, s.pointer_to_raw_data, s.characteristics)


def lines_of(data: bytes, asked: argparse.Namespace) -> Iterator[str]:
    """The lines of a file."""
    budget = Budget(asked.steps)
    kind = Kind.of(data)
    if kind is Kind.OBJECT:
        return object_lines(Image.object(data, asked.options), budget)
    if kind is Kind.TE:
        return te_lines(Image.te(data, asked.options))
    return image_lines(Pe(data, asked.options, budget))


def tables(image: Image, budget: Budget) -> Iterator[Tuple[str, Iterable[Any]]]:
    """The tables of a file, with a walk over each."""
    yield "sections", image.section_headers(budget)
    if image.kind is Kind.IMAGE:
        yield "libraries", image.libraries(budget)
        yield "export_directory", filter(None, map(Image.export_directory, [image]))
        for name in ("rich_entries", "imports", "exports", "export_addresses", "relocation_blocks"):
            yield name, getattr(image, name)(budget)
    yield "symbols", image.symbols(budget)
    yield "relocations", ({"section": s.index, **it._asdict()} for s in image.section_headers(budget) for it in s.relocations(image, budget))


def opened(path: str, options: Options) -> Image:
    """The image, the object or the Terse Executable in a file. An image is read as far as possible."""
    with open(path, "rb") as file:
        data = file.read()
    return {Kind.OBJECT: Image.object, Kind.TE: Image.te}.get(Kind.of(data), Image.partial)(data, options)


def write_json(path: str, asked: argparse.Namespace) -> int:
    """Writes a line of JSON with everything in a file. `ended_early` says which tables are not whole, and why; `skipped` and
    `unmapped` have the numbers of each walk. Each row is written as
    soon as it is read. Returns 1 if the file or a table can't be read to its end."""
    write, budget = sys.stdout.write, Budget(asked.steps)
    found: Dict[str, Any] = {"file": path}
    early: Dict[str, str] = {}
    numbers: Dict[str, Dict[str, int]] = {"skipped": {}, "unmapped": {}}
    try:
        image = opened(path, asked.options)
        found.update(kind=Kind.of(image.data), **{name: getattr(image, name) for name in HEADERS})
    except (OSError, PeError, MemoryError) as error:
        write(json.dumps({"file": path, "refusal": {"text": str(error) or "out of memory"}}) + "\n")
        return 1
    write(json.dumps(jsonable(found))[:-1])
    for name, rows in tables(image, budget):
        write(', "%s": [' % name)
        comma = ""
        try:
            for row in rows:
                write(comma + json.dumps(jsonable(row)))
                comma = ", "
        except (PeError, MemoryError) as error:
            early[name] = str(error) or "out of memory"
        write("]")
        if isinstance(rows, Walk):
            for number, of in numbers.items():
                of[name] = getattr(rows, number)
    write(", " + json.dumps({**numbers, "ended_early": early})[1:] + "\n")
    return int(bool(early or image.refusal))


def asked_of(words: List[str]) -> argparse.Namespace:
    """The files and options that the words ask for."""
    parser = argparse.ArgumentParser(
        prog="python -m goblin_pe", formatter_class=argparse.RawDescriptionHelpFormatter,
        description="Lists PE images, COFF objects and Terse Executables.",
        epilog="MAPPING is one of:\n  as-loaded          as Windows maps (the default)\n  by-file-alignment  nearly as pefile maps: as-loaded without the "
               "headers\n  as-stored          as goblin and pe_list map: raw pointers as stored, without the headers\n"
               "  identity           an address is a file offset: for a dump of an image in memory")
    parser.add_argument("--json", action="store_true", help="write a line of JSON for each file")
    parser.add_argument("--permissive", action="store_true", help="skip damaged parts; without it, they are refused")
    parser.add_argument("--mapping", choices=sorted(MAPPINGS), default="as-loaded", metavar="MAPPING",
                        help="how addresses are mapped to file offsets (see below)")
    parser.add_argument("--steps", type=int, default=1_000_000, help="how many steps a file may take (default: %(default)s)")
    parser.add_argument("--longest-name", type=int, default=4096, metavar="BYTES",
                        help="how many bytes of a name are read; longer names are cut (default: %(default)s)")
    parser.add_argument("files", metavar="FILE", nargs="+")
    asked = parser.parse_args(words)
    try:
        Budget(asked.steps)
        asked.options = Options(permissive=asked.permissive, mapping=MAPPINGS[asked.mapping], longest_name=asked.longest_name)
    except ValueError as error:
        parser.error(str(error))
    return asked


def list_lines(path: str, asked: argparse.Namespace) -> int:
    """Writes the lines of a file, below its name if there are several."""
    if len(asked.files) > 1:
        print("file " + printable(os.fsencode(path)))
    try:
        with open(path, "rb") as file:
            data = file.read()
    except (OSError, MemoryError) as error:
        return complain("read failed", error)
    try:
        sys.stdout.writelines(line + "\n" for line in lines_of(data, asked))
    except (PeError, MemoryError) as error:
        return complain("refused", error)
    return 0


def list_all(asked: argparse.Namespace) -> int:
    """Lists each file. The progress is shown if standard error is a terminal and the output is not."""
    shows = len(asked.files) > 1 and sys.stderr is not None and sys.stderr.isatty() and not sys.stdout.isatty()
    status = 0
    for number, path in enumerate(asked.files, 1):
        status |= (write_json if asked.json else list_lines)(path, asked)
        if shows:
            done = 40 * number // len(asked.files)
            print("\r[%s%s] %d of %d files" % ("#" * done, "." * (40 - done), number, len(asked.files)), end="", file=sys.stderr, flush=True)
    if shows:
        print(file=sys.stderr)
    return status


def complain(what: str, error: Exception) -> int:
    """Writes a line on standard error, and returns the status of the program."""
    if sys.stderr is not None:
        print("%s: %s" % (what, str(error) or "out of memory"), file=sys.stderr)
    return 1


def main(words: List[str]) -> int:
    """Lists the files, and returns the status of the program."""
    if sys.stdout is None:
        return complain("write failed", OSError("standard output is closed"))
    asked = asked_of(words)
    try:
        status = list_all(asked)
        sys.stdout.flush()
    except OSError as error:
        os.dup2(os.open(os.devnull, os.O_WRONLY), sys.stdout.fileno())  # (Python writes what is left as it ends)
        return complain("write failed", error)
    return status


if __name__ == "__main__":
    signal.signal(signal.SIGINT, signal.SIG_DFL)  # (a call of the library can take long)
    sys.exit(main(sys.argv[1:]))
