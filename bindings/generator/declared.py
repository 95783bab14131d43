"""Reads what the crates declare of the library's interface: calls, records, enums of numbers, and constants.

It reads declarations by their form, and refuses a form that it does not know."""
import pathlib
import re
import textwrap
from typing import Callable, Dict, Iterable, Iterator, List, NamedTuple, Tuple

HERE = pathlib.Path(__file__).resolve().parent.parent
CRATES = HERE.parent / "crates"
LIBRARY = "goblin_pe_capi"
# The version of the packages, and that of the interface, which is raised when a call, a record or its meaning changes.
VERSION = "0.5.0"
INTERFACE = 5
# The enums of numbers, and the types that have another name here than in Rattle. The Pe before a record is always left out.
ENUMS = ("PeMapping", "Status", "CauseNumber", "Counted", "ReadRefusal", "Kind", "DataDirectoryType", "Region", "ForwarderKind",
         "AuxiliaryKind")
NAMES = {"CauseNumber": "Cause", "ReadRefusal": "ReadFault", "DataDirectoryType": "DirectoryType", "WindowsFields64": "WindowsFields",
         "RichMetadata": "RichEntry", "Relocation": "CoffRelocation", "SyntheticImportDirectoryEntry": "ImportDirectoryEntry",
         "ImportDirectoryEntry": "ImportDirectoryEntry", "Symbol": "SymbolRecord", "PeSymbol": "Symbol"}
CONSTANTS = ("goblin_pe_head/src/header/machine", "goblin_pe_head/src/characteristic", "goblin_pe_head/src/optional_header/magic",
             "goblin_pe_head/src/subsystem", "goblin_pe_head/src/dll_characteristic", "goblin_pe_sect/src/section_table/constants",
             "goblin_pe_symbol/src/symbol/constants", "goblin_pe_sect/src/relocation/constants")
# The sizes of records and the offsets in them that are handed on.
SIZES = ("SIZEOF_COFF_HEADER", "SIZEOF_STANDARD_FIELDS_32", "SIZEOF_STANDARD_FIELDS_64", "SIZEOF_WINDOWS_FIELDS_32",
         "SIZEOF_WINDOWS_FIELDS_64", "OFFSET_WINDOWS_FIELDS_32_CHECKSUM", "OFFSET_WINDOWS_FIELDS_64_CHECKSUM", "SIZEOF_PE_MAGIC",
         "PE_POINTER_OFFSET", "DOS_STUB_OFFSET", "SIZEOF_DATA_DIRECTORY", "NUM_DATA_DIRECTORIES", "SIZEOF_SECTION_TABLE",
         "COFF_SYMBOL_SIZE", "COFF_RELOCATION_SIZE", "SIZEOF_IMPORT_DIRECTORY_ENTRY", "SIZEOF_EXPORT_DIRECTORY_TABLE",
         "SIZEOF_EXPORT_ADDRESS_TABLE_ENTRY", "RELOCATION_BLOCK_SIZE")
# The numbers: the size of each, its type in C, and that in ctypes.
NUMBERS = {"bool": (1, "bool", "c_bool"), "usize": (8, "size_t", "c_size_t"), "i16": (2, "int16_t", "c_int16"),
           **{"u%d" % bits: (bits // 8, "uint%d_t" % bits, "c_uint%d" % bits) for bits in (8, 16, 32, 64)}}
MADE = "bindings/generate.py makes this file of what the proved crates declare."


class Refused(Exception):
    """A form that the reader does not know."""


class Type(NamedTuple):
    """The type of a field or a parameter: a "number" or a "record" of this name; an "array" of `length` numbers or records; a "slice"
    of bytes; a "table", which is a slice of records; or a "pointer" to bytes."""

    form: str
    name: str = ""
    length: int = 0
    is_reference: bool = False
    is_written: bool = False
    lives: bool = False  # (it names the lifetime of the file's bytes)


class Item(NamedTuple):
    """A field, a parameter, a variant, or a constant; of the last two the number."""

    name: str
    type: Type
    doc: str
    number: str = ""


class Declared(NamedTuple):
    """A record, an enum, a file of constants, or a call with its answer."""

    name: str
    doc: str
    items: List[Item]
    answer: Type = Type("")


def named(name: str) -> str:
    """A type as callers name it."""
    return NAMES.get(name, re.sub("^Pe(?=[A-Z])", "", name))


def snake(name: str) -> str:
    """The words of a type's name."""
    return re.sub("(?<!^)(?=[A-Z])", "_", name).lower()


def read(form: str, text: str) -> Tuple[str, ...]:
    """The groups of a form that the text begins with, or is if the form ends in $."""
    found = re.match(form, text, re.S)
    if not found:
        raise Refused(text)
    return found.groups()


def crates_of(crate: str) -> List[str]:
    """A crate, and those that it is made of."""
    uses = dict(re.findall(r"^(\w+)(?: staticlib)?: *(.*)$", (CRATES.parent / "crates.txt").read_text("utf-8"), re.M))
    return sorted({crate, *(it for used in uses.get(crate, "").split() for it in crates_of(used))})


def declarations(source: str) -> Iterator[Tuple[str, str, str]]:
    """What a file declares: of each item the doc comment, the attributes, and the text through the line at the margin that
    ends it."""
    doc: List[str] = []
    marks: List[str] = []
    text: List[str] = []
    for line in source.splitlines():
        if not text and line.startswith("///"):
            doc.append(line[4:].rstrip())
        elif not text and line.startswith("#["):
            marks.append(line)
        elif text or line and line[0] not in "/ ":
            text.append(line)
            if line and line[0] != " " and line[-1] in ";}":
                yield "\n".join(doc), "\n".join(marks), "\n".join(text)
                doc, marks, text = [], [], []


def rows_of(text: str, form: str) -> Iterator[Tuple[str, ...]]:
    """The rows of a body, each with its doc comment at the end. A line of another form is refused."""
    doc: List[str] = []
    for line in text.splitlines()[1:-1]:
        found = re.fullmatch(" +" + form, line)
        if found:
            yield (*found.groups(), "\n".join(doc))
            doc = []
        elif line.strip().startswith("///"):
            doc.append(line.strip()[4:].rstrip())
        else:
            raise Refused("%s has the line %s" % (text.splitlines()[0], line))


def type_of(text: str) -> Type:
    """A type."""
    star, bracket, name, lives, length = read(r"(&(?:'a )?(?:mut )?)?(\[)?(\w+)(<'a>)?(?:; (\d+))?\]?$", text)
    form = "number" if name in NUMBERS else "record"
    if bracket:
        form = "array" if length else "slice" if name == "u8" else "table"
    is_known = name in NUMBERS if form in ("number", "slice") else name[0].isupper() or form == "array" and name in NUMBERS
    if not is_known or form in ("slice", "table") and not star or bool(length) != (form == "array"):
        raise Refused("the type " + text)
    return Type(form, "Slice" if form == "slice" else named(name), int(length or 0), bool(star), "mut" in (star or ""), bool(lives))


def record_of(doc: str, text: str) -> Declared:
    """A record. One that has bytes alone is a pointer and a length."""
    (name,) = read(r"pub struct (\w+)(?:<'a>)? \{\n", text)
    items = [Item(field, type_of(it), comment) for field, it, comment in rows_of(text, r"pub (\w+): (.+),")]
    if any(it.type.is_written or it.type.is_reference and it.type.form != "slice" for it in items):
        raise Refused("a reference in the record " + name)
    if len(items) == 1 and items[0].type.is_reference:
        items = [items[0]._replace(type=Type("pointer")), Item("length", Type("number", "usize"), "")]
    return Declared(named(name), doc, items)


def enum_of(doc: str, text: str) -> Declared:
    """An enum of numbers. A variant without a number has the one after that before it."""
    (name,) = read(r"(?:pub(?:\(crate\))? )?enum (\w+) \{\n", text)
    items: List[Item] = []
    for variant, number, comment in rows_of(text, r"(\w+)(?: = (\d+))?,"):
        items.append(Item(variant, Type("number", "u32"), comment, number or str(int(items[-1].number) + 1 if items else 0)))
    return Declared(named(name), doc, items)


def call_of(doc: str, text: str) -> Declared:
    """A call, by the name that it has in the header."""
    name, taken, answer = read(r'pub extern "C" fn (\w+)(?:<\'a>)?\((.*?),?\s*\) -> (\w+)\n', text)
    pairs = [it.split(": ") for it in re.split(r",\s+", taken.strip()) if it]
    return Declared(name.replace("goblin_pe_raw_", "goblin_pe_"), doc,
                    [Item(it, type_of(kind), "") for it, kind in pairs], type_of(answer))


def about(source: str) -> str:
    """What a file says of itself."""
    return "\n".join(re.findall("^//! ?(.*)$", source, re.M))


def constants_of(path: str) -> Declared:
    """The constants of a file, which declares nothing else but facts of them."""
    source = (CRATES / (path + ".rt")).read_text("utf-8")
    items: List[Item] = []
    for doc, _, text in declarations(source):
        found = re.fullmatch(r"pub const (\w+): (\w+) = (-?\w+);", text)
        if found:
            items.append(Item(found[1], type_of(found[2]), doc, found[3]))
        elif not text.startswith("const _: () = prove!("):
            raise Refused("%s declares %s" % (path, text))
    return Declared(path, about(source), items)


def sizes_of(crates: List[str]) -> Declared:
    """The sizes of records and the like, in the order of their names above."""
    items: Dict[str, Item] = {}
    for path in [it for crate in crates for it in sorted((CRATES / crate).glob("src/**/*.rt"))]:
        for doc, _, text in declarations(path.read_text("utf-8")):
            found = re.fullmatch(r"pub const (\w+): (\w+) = (\w+);", text)
            if found and found[1] in SIZES:
                if found[1] in items:
                    raise Refused("%s has %s" % (path, text))
                items[found[1]] = Item(found[1], type_of(found[2]), doc, found[3])
    if sorted(items) != sorted(SIZES):
        raise Refused("the sizes %s" % sorted(set(SIZES) - set(items)))
    return Declared("sizes", "The sizes of records, in bytes, and offsets in them.", [items[name] for name in SIZES])


class Interface:
    """What the crates declare: calls, records, enums and constants."""

    def __init__(self, sources: Iterable[str] = ()) -> None:
        """Those of the library's crates, or of these sources."""
        self.calls: Dict[str, Declared] = {}
        self.enums: Dict[str, Declared] = {}
        self.records: Dict[str, Declared] = {}
        self._declared: Dict[str, Declared] = {}
        paths = [it for crate in crates_of(LIBRARY) for it in sorted((CRATES / crate).glob("src/**/*.rt"))]
        for source in sources or (it.read_text("utf-8") for it in paths):
            for doc, marks, text in declarations(source):
                self._take(doc, marks, text)
        for item in [it for call in self.calls.values() for it in [*call.items, Item("", call.answer, "")]]:
            self._reach(item.type)
        self.constants = [*map(constants_of, CONSTANTS), sizes_of(crates_of(LIBRARY))]
        self.enums = {named(name): self.enums[named(name)] for name in ENUMS}
        self.about = {it.stem: about(it.read_text("utf-8")) for it in (CRATES / LIBRARY / "src").glob("*.rt")}

        # a call of the header may be two of the library's: one for a null pointer in place of `faults`
        for name in [it for it in self.calls if it.endswith("_with_faults")]:
            plain = name[: -len("_with_faults")]
            self.calls[plain] = self.calls[plain]._replace(items=self.calls.pop(name).items)

    def _take(self, doc: str, marks: str, text: str) -> None:
        # takes a declaration up, if it is one of the interface
        enum = re.match(r"(?:pub(?:\(crate\))? )?enum (\w+) \{", text)
        if "#[repr(C)]" in marks:
            read(r"#\[repr\(C\)\](\n#\[derive\([\w, ]+\)\])?$", marks)
            record = record_of(doc, text)
            self._declared[read(r"pub struct (\w+)", text)[0]] = record
        elif enum and enum[1] in ENUMS:
            if named(enum[1]) in self.enums:
                raise Refused("a second enum " + enum[1])
            self.enums[named(enum[1])] = enum_of(doc, text)
        elif 'extern "C" fn goblin_pe_' in text and "fn goblin_pe_interface" not in text:
            call = call_of(doc, text)
            self.calls[call.name] = call

    def _reach(self, it: Type) -> None:
        # takes a record up, after those that lie in it
        if it.form in ("slice", "record", "table", "array") and it.name not in {*self.records, *NUMBERS}:
            found = [record for record in self._declared.values() if record.name == it.name]
            if len(found) != 1:
                raise Refused("%d records %s" % (len(found), it.name))
            for item in found[0].items:
                self._reach(item.type)
            self.records[it.name] = found[0]

    def holds(self, name: str, *forms: str) -> bool:
        """Whether a record has a field of one of these forms, or one that lies in it has."""
        return any(it.type.form in forms or it.type.name in self.records and self.holds(it.type.name, *forms)
                   for it in self.records[name].items)

    def layout(self, name: str) -> Tuple[int, int, Dict[str, int]]:
        """The size of a record, its alignment, and the offset of each field, as C has them."""
        end, most, offsets = 0, 1, {}
        for it in self.records[name].items:
            size, alignment = (8, 8) if it.type.form == "pointer" else (16, 8)
            if it.type.form in ("number", "record", "array"):
                of = it.type.name
                size, alignment = NUMBERS[of][:1] * 2 if of in NUMBERS else self.layout(of)[:2]
                size *= it.type.length or 1
            offsets[it.name] = end + -end % alignment
            end, most = offsets[it.name] + size, max(most, alignment)
        return end + -end % most, most, offsets

    def comment(self, doc: str, name_of: Callable[[str], str], first: str, following: str = "", end: str = "\n") -> str:
        """A doc comment: without links, with types by the names that they have for a caller, in lines of at most 100 characters.
        The first line begins in a way of its own. What is indented by four spaces is a program, and stays as it is."""
        following = following or first
        lines: List[str] = []
        known = {*self.records, *self.enums}
        last = end.rstrip("\n")
        for paragraph in re.split("\n{2,}", doc + last.replace(" ", "\0")):  # (what ends it stays on the line of its last word)
            lines += [following.rstrip()] * bool(lines)
            begin = following if lines else first
            if paragraph.startswith("    "):
                lines += [begin.rstrip() + " " * (len(begin) - len(begin.rstrip())) + line for line in paragraph.split("\n")]
                continue
            paragraph = re.sub(r"\[(`[^`]+`)\](\([^)]*\))?", r"\1", paragraph)
            paragraph = re.sub(r"`([A-Z]\w+)((?:::\w+)?)`", lambda it: "`%s`" % name_of(named(it[1]) + it[2]) if named(it[1]) in known else it[0], paragraph)
            items = re.split(r"\n(?=- )", paragraph)
            for item in items:
                hang = "  " if item.startswith("- ") else ""
                lines += textwrap.wrap(" ".join(item.split()), 100, initial_indent=following if lines else first,
                                       subsequent_indent=following + hang, break_on_hyphens=False, break_long_words=False)
        return "\n".join(lines).replace("\0", " ") + end[len(last):]
