"""What the package for Python says of files, in the words of dump.rs, which prints the same by the crate for Rust."""
import enum

from tests.bindings import package, records

ADDRESSES = (0, 1, 0x1000, 0x1010, 0x2004, 0x30FF, 0x4000, 0x5000)
OFFSETS = (0, 0x1FF, 0x400, 0x600, 0x9FF)
# The fields that Rust has as an Option, and those that it has as a list of bytes.
OPTIONAL = {("Export", "name"), ("Export", "offset"), ("Export", "forwarder"), ("ExportDirectory", "name"), ("Symbol", "name"),
            ("Memory", "section")}
BYTES = ("stored_name", "aux_bytes", "entries", "stored", "bytes")
# The fields of each kind of auxiliary record.
AUXILIARY = {"FunctionDefinition": "tag_index total_size pointer_to_line_number pointer_to_next_function",
             "BeginAndEndFunction": "line_number pointer_to_next_function", "WeakExternal": "tag_index characteristics",
             "SectionDefinition": "length number_of_relocations number_of_line_numbers checksum number selection"}


class Out(list):
    """The lines."""

    def put(self, *words):
        self.append(" ".join(map(str, words)))

    def rows(self, name, walk):
        """The rows of a walk, the error at which they end, and what it counts."""
        rows = []
        try:
            for row in walk:
                self.put(shown(row))
                rows.append(row)
        except package().PeError as error:
            self.put(kind_of(error), shown(error))
        self.put(f"{name} skipped={walk.skipped} unmapped={walk.unmapped}")
        return rows


def words_of(name):
    """A name in capitals, as Rust writes it."""
    return "".join(it.capitalize() for it in name.split("_"))


def kind_of(error):
    return f"Malformed({words_of(error.cause.name)})" if error.cause else words_of(error.kind.name)


def text(name):
    return '"' + package().printable(bytes(name)).replace('"', r"\x22") + '"'


def some(it, name=""):
    return "None" if it is None else f"Some({shown(it, name)})"


def struct(name, fields):
    return f"{name} {{ {', '.join(f'{field}: {value}' for field, value in fields)} }}"


def shown(it, name=""):
    """A value as Rust prints it to debug. `name` is that of the field."""
    if it is None or isinstance(it, (bool, str)):
        return {None: "None", True: "true", False: "false"}.get(it, it)
    if isinstance(it, enum.Enum):
        return words_of(it.name)
    if isinstance(it, (bytes, memoryview)):
        return str(list(it)) if name in BYTES else text(it)
    if isinstance(it, package().PeError):
        return f"Error({it})"
    if hasattr(it, "_fields"):
        return ROWS.get(type(it).__name__, row)(it)
    return "[" + ", ".join(map(shown, it)) + "]" if isinstance(it, (tuple, list)) else str(int(it))


def row(it, **more):
    """A row of fields. Some have another text."""
    kind = type(it).__name__
    return struct(kind, ((name, more.get(name) or (some if (kind, name) in OPTIONAL else shown)(value, name))
                         for name, value in zip(it._fields, it)))


def an_import(it):
    name = struct("Name", [("name", text(it.name)), ("hint", it.hint)]) if it.name is not None else f"Ordinal({it.ordinal})"
    fields = [("dll", text(it.dll)), ("name", name), *((name, shown(getattr(it, name))) for name in it._fields[4:])]
    return struct("Import", fields)


def library(it):
    name = f"Err({shown(it.name_error)})" if it.name_error else f"Ok({text(it.name)})"
    fields = [(field, shown(kind(value).value)) for (field, kind), value in zip(records().ImportCursor._fields_, it.cursor)]
    cursor = struct("ImportCursor", [*fields, ("reserved", [0] * 7)])
    return struct("Library", [("name", name), *((name, shown(getattr(it, name))) for name in it._fields[2:-1]), ("imports", cursor)])


def forwarder(it):
    if it.name is None:
        return struct("Ordinal", [("dll", text(it.dll)), ("ordinal", it.ordinal)])
    return struct("Name", [("dll", text(it.dll)), ("name", text(it.name)), ("is_cut", shown(it.is_cut))])


def auxiliary(it):
    kind = words_of(it.kind.name)
    if kind == "File":
        if it.file is None:
            return f"FileAt({it.string_offset})"
        return struct("File", [("name", text(it.file)), ("is_name_cut", shown(it.is_file_cut))])
    return struct(kind, ((name, getattr(it, name)) for name in AUXILIARY[kind].split()))


def memory(it):
    return row(it).replace(f"data: {text(it.data)}", f"bytes: {list(it.data)}")


ROWS = {"Import": an_import, "Library": library, "Forwarder": forwarder, "Auxiliary": auxiliary, "Memory": memory}


def result(call, *arguments, to=shown):
    """What a call returns or raises, as a Result of Rust."""
    try:
        return f"Ok({to(call(*arguments))})"
    except package().PeError as error:
        return f"Err({shown(error)})"


def headers(out, image):
    out.put(shown(image.kind), image.entry, hex(image.image_base))
    out.put(shown([image.is_64, image.is_dll, image.is_lib, image.is_driver, image.is_exe]))
    out.put(struct("Header", [("dos_header", shown(image.dos_header)), ("dos_stub", list(image.dos_stub)), ("coff_header", shown(image.coff_header)),
                              ("optional_header", some(image.optional_header)), ("directories", shown(image.directories))]))
    out.put(some(image.rich_header))
    out.put(some(image.checksum()), len(image.overlay()))


def tables(out, image):
    budget = package().Budget
    for section in image.sections:
        out.put(shown(section), list(section.to_bytes()))
        out.put(shown(section.data(image)))
        out.rows("relocations", section.relocations(image, budget(100)))
        out.put(some(image.section_by_name(section.name)))
    out.rows("rich_entries", image.rich_entries(budget(100)))
    out.rows("imports", image.imports(budget(300)))
    for it in out.rows("libraries", image.libraries(budget(300))):
        out.rows("imports", it.imports(image, budget(100)))
    out.put(result(image.export_directory, to=some))
    for export in out.rows("exports", image.exports(budget(300)))[:20]:
        out.put(result(image.find_export_by_ordinal, export.ordinal, to=some))
        out.put(result(image.find_export, export.name or b"", budget(300), to=some))
    for address in out.rows("export_addresses", image.export_addresses(budget(300))):
        out.put(some(result(image.forwarder_at, address.rva) if address.is_forwarder else None))
    for block in out.rows("relocation_blocks", image.relocation_blocks(budget(20))):
        out.put(shown(list(block.relocations())))
    for symbol in out.rows("symbols", image.symbols(budget(300))):
        out.put(some(symbol.auxiliary(image)), result(image.symbol_at, symbol.index, to=some))
        out.put(some(image.section_by_number(symbol.section_number)))


def facts(out, image):
    for rva in ADDRESSES:
        out.put(some(image.find_offset(rva)), shown(image.memory_at(rva, 20)))
        out.put(some(image.text_at(rva)), result(image.forwarder_at, rva))
    out.put("[" + ", ".join(some(image.find_rva(it)) for it in OFFSETS) + "]")
    out.put("[" + ", ".join(some(image.string_at(it)) for it in OFFSETS) + "]")
    try:
        out.put(f"Ok({shown(image.patched(sections=image.sections) == image.data)})")
    except package().PeError as error:
        out.put(f"Err({kind_of(error)})")


def all_names(out):
    """The names of all numbers, and of all pairs of flags."""
    names_of, relocation_name = package().names_of, package().relocation_name

    def number(it, kind):
        return " or ".join(names_of(it, kind))

    def flags(it, kind):
        return " | ".join(names_of(it, kind)) or "0x0"

    for it in range(1 << 16):
        out.put(number(it, "machine"), number(it, "subsystem"))
    for it in range(256):
        out.put(number(it, "storage_class"), number(it, "comdat"))
        out.put(number(it, "weak_external"), number(it, "base_relocation"))
        for machine in 0x14C, 0x8664, 0x1C0, 0x1C2, 0x1C4, 0xAA64, 0x200, 0:
            out.put(relocation_name(machine, it))
    for it in [*(1 << it // 32 | 1 << it % 32 for it in range(1024)), *(it << 20 for it in range(16))]:
        out.put(flags(it & 0xFFFF, "file"), flags(it & 0xFFFF, "dll"))
        out.put(flags(it, "section"))
    for it in range(600):
        dlls = [package().ordinal_name(dll, it) for dll in ("WS2_32.dll", "wsock32.dll", "OLEAUT32.DLL", "other.dll")]
        out.put("[" + ", ".join(map(some, dlls)) + "]")


def lines(paths):
    """The lines for these files."""
    it, out = package(), Out()
    all_names(out)
    for path in paths:
        data = path.read_bytes()
        for permissive, mapping in (False, "AS_LOADED"), (True, "AS_LOADED"), (True, "AS_STORED"), (True, "IDENTITY"), (False, "BY_FILE_ALIGNMENT"):
            options = it.Options(permissive=permissive, mapping=it.Mapping[mapping], longest_name=9)
            kind = it.Kind.of(data)
            out.put(path, shown(permissive), words_of(mapping), shown(kind))
            try:
                read = {it.Kind.OBJECT: it.Image.object, it.Kind.TE: it.Image.te}.get(kind, it.Image.partial)
                image = read(data, options)
            except it.PeError as error:
                out.put(kind_of(error), shown(error))
                continue
            if kind is it.Kind.TE:
                out.put(shown(image.te_header))
            elif kind is not it.Kind.OBJECT:
                out.put(some(image.refusal and f"({kind_of(image.refusal)}, {shown(image.refusal)})"))
                faults = (f'("{name}", {kind_of(error)}, Error({error.args[0]}))' for name, error in image.header_faults.items())
                out.put("[" + ", ".join(faults) + "]")
            out.put(f"Image {{ kind: {shown(image.kind)}, machine: {image.coff_header.machine}, sections: {len(image.sections)}, .. }}")
            headers(out, image)
            tables(out, image)
            facts(out, image)
    return out
