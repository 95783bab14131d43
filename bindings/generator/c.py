"""Makes the headers for C, which are its manual, and the calls that they declare."""
import hashlib
import re
import textwrap
from typing import Dict, List

from .declared import HERE, INTERFACE, MADE, NUMBERS, VERSION, Declared, Interface, Item, Refused, Type, snake

# The header's parts, in its order, by the names of types and calls. Each record and call belongs to one of them.
PARTS = (
    ("Basic records", "Slice Batch"),
    ("Options", "Mapping limits Options"),
    ("Faults", "Status Cause Counted ReadFault Fault fault_string"),
    ("The image", "Kind DosHeader CoffHeader StandardFields WindowsFields OptionalHeader DataDirectory DirectoryType RichHeader Image"
     " HeaderFaults kind_of read_image read_object TeHeader read_te"),
    ("Sections", "SectionCursor CoffRelocationCursor Section next_sections Region Memory section_data write_section"),
    ("Addresses", "find_offset find_rva memory_at"),
    ("Rich header", "RichEntry RichCursor next_rich_entries"),
    ("Imports", "ImportCursor Import next_imports ImportDirectoryEntry Library next_libraries"),
    ("Exports", "ForwarderKind Forwarder ExportCursor Export next_exports ExportDirectoryTable ExportDirectory read_export_directory"
     " ExportAddressCursor ExportAddress next_export_addresses forwarder_at"),
    ("Base relocations of an image", "RelocationBlockCursor BaseRelocationCursor RelocationBlock next_relocation_blocks BaseRelocation"
     " next_base_relocations"),
    ("Symbols and relocations of COFF", "SymbolCursor SymbolRecord Symbol next_symbols string_at AuxiliaryKind Auxiliary read_auxiliary"
     " CoffRelocation next_coff_relocations"),
    ("Checksum", "checksum"),
    ("Writing a header", "write_header"),
)
# The files of calls that say something of all calls of a part.
ABOUT = {"Addresses": "look_up"}
# The call by hand, with that of the library below it.
BY_HAND = {"fault_string": "fault_text", "limits": ""}


def c_name(name: str) -> str:
    """The name in C of a type, or of a value of an enum."""
    of, _, value = name.partition("::")
    return ("goblin_pe_%s_%s" % (snake(of), snake(value))).upper() if value else "goblin_pe_" + snake(of)


def comment(it: Interface, doc: str, indent: str = "") -> str:
    return it.comment(doc, c_name, indent + "/* ", indent + "   ", " */\n") if doc else ""


def kind(of: Type) -> str:
    if of.form == "pointer":
        return "const uint8_t *"
    return NUMBERS[of.name][1] if of.name in NUMBERS else "struct " + c_name(of.name)


def field(f: Item) -> str:
    many = "[%d]" % f.type.length if f.type.length else ""
    return kind(f.type) + " " * (f.type.form != "pointer") + f.name + many + ";"


def enum(it: Interface, e: Declared) -> str:
    rows = (comment(it, v.doc, "    ") + "    %s_%s = %s" % (c_name(e.name).upper(), snake(v.name).upper(), v.number) for v in e.items)
    return comment(it, e.doc) + "enum %s {\n%s\n};\n" % (c_name(e.name), ",\n".join(rows))


def record(it: Interface, r: Declared) -> str:
    fields = "".join(comment(it, f.doc, "    ") + "    %s\n" % field(f) for f in r.items)
    return comment(it, r.doc) + "struct %s {\n%s};\n" % (c_name(r.name), fields)


def taken(p: Item) -> List[str]:
    """The parameters that one of Rattle is in C."""
    if p.type.form in ("slice", "table"):
        to = ("" if p.type.is_written else "const ") + ("uint8_t" if p.type.form == "slice" else kind(p.type)) + " *" + p.name
        return [to, "size_t " + ("room" if p.type.is_written else "length")]
    if p.type.is_reference:
        return [("" if p.type.is_written else "const ") + kind(p.type) + " *" + p.name]
    return [kind(p.type) + " " + p.name]


def prototype(c: Declared, name: str, end: str, before: str = "") -> str:
    """The declaration of a call by this name, after an attribute."""
    rows = ", ".join(row for p in c.items for row in taken(p)) or "void"
    head = "%s%s %s(" % (before, kind(c.answer), name)
    if len(head + rows + end) <= 99:
        return head + rows + ")" + end
    whole = re.sub("(?<!,) ", "\0", rows)  # (a parameter stays on its line)
    return head + "\n" + textwrap.fill(whole + ")" + end, 100, initial_indent="    ", subsequent_indent="    ").replace("\0", " ")


def call(it: Interface, c: Declared) -> str:
    must_use = "GOBLIN_PE_MUST_USE " * (c.answer.name == "Fault")
    return comment(it, c.doc) + prototype(c, c.name, ";", must_use) + "\n"


def parts(it: Interface) -> str:
    """All that the header declares."""
    calls = {name[len("goblin_pe_"):]: c for name, c in it.calls.items() if name[len("goblin_pe_"):] not in BY_HAND.values()}
    left = {*it.enums, *it.records, *calls, *BY_HAND}
    made = ""
    for title, names in PARTS:
        made += "/* ---- %s %s */\n\n" % (title, "-" * (86 - len(title)))
        if title in ABOUT:
            made += comment(it, it.about[ABOUT[title]]) + "\n"
        for name in names.split():
            if name not in left:
                raise Refused("no declaration of %s" % name)
            left.remove(name)
            if name in BY_HAND:
                made += BY_HAND_DECLARED[name]
            else:
                made += enum(it, it.enums[name]) if name in it.enums else record(it, it.records[name]) if name in it.records else call(
                    it, calls[name])
            made += "\n"
    if left:
        raise Refused("no part of the header has %s" % sorted(left))
    return made


def sum_of(it: Interface) -> str:
    """The sum of the interface: of what the header declares, without comments, and its version. No doc comment changes it."""
    facts = "".join("%s %s" % (name, it.layout(name)) for name in it.records)
    declared = re.sub(r"(?s)/\*.*?\*/", " ", parts(it) + facts)
    return hashlib.sha256(" ".join([*declared.split(), str(INTERFACE)]).encode()).hexdigest()[:8]


def slices(it: Interface, name: str, path: str) -> List[str]:
    """The slices in a record."""
    found: List[str] = []
    for f in it.records[name].items:
        if f.type.form == "slice":
            found.append(path + f.name)
        elif f.type.form == "record" and f.type.name in it.records:
            found += slices(it, f.type.name, path + f.name + ".")
    return found


def sound(it: Interface, name: str) -> str:
    """A function that gives a record without null pointers."""
    paths = slices(it, name, "")
    tests = "".join("    if (!it->%s.length)\n        sound->%s.bytes = &nowhere;\n" % (path, path) for path in paths)
    return """static const struct %(type)s *sound_%(name)s(const struct %(type)s *it, struct %(type)s *sound)
{
    if (%(have)s)
        return it;
    *sound = *it;
%(tests)s    return sound;
}
""" % {"type": c_name(name), "name": snake(name), "have": " && ".join("it->%s.bytes" % path for path in paths), "tests": tests}


def shim(it: Interface, c: Declared) -> str:
    """A call of the header: it gives the library's own call no null pointer."""
    before, arguments = "", []
    for p in c.items:
        if p.type.form in ("slice", "table"):
            place = "&nowhere" if p.type.form == "slice" and not p.type.is_written else "(void *)&nowhere"
            length = "room" if p.type.is_written else "length"
            arguments += ["%s ? %s : %s" % (length, p.name, place), length]
        elif p.name == "options":
            arguments.append("options ? options : &defaults")
        elif p.name == "steps":
            before += "    size_t no_limit = SIZE_MAX;\n"
            arguments.append("steps ? steps : &no_limit")
        elif is_tested(it, p) and p.type.is_written:
            before += "    sound_%s(%s, %s);\n" % (snake(p.type.name), p.name, p.name)
            arguments.append(p.name)
        elif is_tested(it, p):
            before += "    struct %s its_%s;\n" % (c_name(p.type.name), p.name)
            arguments.append("sound_%s(%s, &its_%s)" % (snake(p.type.name), p.name, p.name))
        else:
            arguments.append(p.name)
    raw, declared = c.name.replace("goblin_pe_", "goblin_pe_raw_", 1), ""
    if c.items[-1].name == "faults":
        declared = prototype(c._replace(items=c.items[:-1]), raw, ";") + "\n"
        before += "    if (!faults)\n" + textwrap.indent(returned(raw, arguments[:-1]), "    ")
        raw += "_with_faults"
    return declared + prototype(c, raw, ";") + "\n" + prototype(c, c.name, "") + "\n{\n" + before + returned(raw, arguments) + "}\n"


def returned(raw: str, arguments: List[str]) -> str:
    """The line that returns what a call answers."""
    row = "    return %s(" % raw + ", ".join(arguments) + ");\n"
    if len(row) > 101:
        row = "    return %s(\n" % raw + textwrap.fill(", ".join(it.replace(" ", "\0") for it in arguments) + ");", 100, initial_indent="        ",
                                                       subsequent_indent="        ").replace("\0", " ") + "\n"
    return row


def is_tested(it: Interface, p: Item) -> bool:
    """Whether a parameter is a record that is read, with slices. One that a call fills can hold slices of the file."""
    is_read = p.type.is_reference and not (p.type.is_written and p.type.lives)
    return is_read and p.type.name in it.records and bool(slices(it, p.type.name, ""))


def c_files(it: Interface) -> Dict[str, str]:
    """The headers, and the calls that they declare."""
    total = sum_of(it)

    def constant(c: Item) -> str:
        number = c.number.replace("_", "") + "u" * (c.type.name == "u32")
        return comment(it, c.doc) + "#define GOBLIN_PE_%s %s\n" % (c.name, "(%s)" % number if number[0] == "-" else number)

    def facts(name: str) -> str:
        size, alignment, offsets = it.layout(name)
        return "HAS_SIZE(%s, %d, %d);\n" % (snake(name), size, alignment) + "".join(
            "IS_AT(%s, %s, %d);\n" % (snake(name), *at) for at in offsets.items())

    numbers = [int(part) for part in VERSION.split(".")]
    header = (HERE / "c/preface.txt").read_text("utf-8") + HEADER.replace("NUMBER_OF", str(
        10000 * numbers[0] + 100 * numbers[1] + numbers[2])).replace("VERSION_OF", VERSION).replace("SUM_OF", total).replace(
            "INTERFACE_OF", str(INTERFACE)).replace("PARTS_OF", parts(it).rstrip())
    calls = [c for name, c in it.calls.items() if name[len("goblin_pe_"):] not in BY_HAND.values()]
    tested = dict.fromkeys(p.type.name for c in calls for p in c.items if is_tested(it, p))
    shims = "\n".join([*(sound(it, name) for name in tested), *(shim(it, c) for c in calls)])
    return {
        "c/goblin_pe.h": header,
        "c/goblin_pe_calls.c": CALLS.replace("SUM_OF", total) % (MADE, "\n".join(map(facts, it.records)), shims),
        "c/goblin_pe_constants.h": C_CONSTANTS % (
            MADE, "\n".join(comment(it, file.doc) + "".join(map(constant, file.items)) for file in it.constants))}


BY_HAND_DECLARED = {
    "limits": """/* Lifts the limit of names, or of steps. */
#define GOBLIN_PE_NO_LIMIT SIZE_MAX
/* The limit of names if you set none, in bytes. */
#define GOBLIN_PE_LONGEST_NAME 4096
""",
    "fault_string": """/* The size of a buffer that holds any fault's text. */
#define GOBLIN_PE_FAULT_ROOM 256

/* Writes the text of a fault, with a NUL, and returns `text`. The text of status 0 is empty. */
const char *goblin_pe_fault_string(
    const struct goblin_pe_fault *fault, char text[GOBLIN_PE_FAULT_ROOM]);
"""}

HEADER = """#ifndef GOBLIN_PE_H
#define GOBLIN_PE_H

#include <stdbool.h>
#include <stddef.h>
#include <stdint.h>

#include "goblin_pe_constants.h"

#ifdef __cplusplus
extern "C" {
#endif

/* ---- Version ------------------------------------------------------------------------------- */

#define GOBLIN_PE_VERSION "VERSION_OF"
/* The same for #if: 10000 * major + 100 * minor + patch. */
#define GOBLIN_PE_VERSION_NUMBER NUMBER_OF

/* The number of this interface. A program and a library that declare different records or calls
   have different numbers. A program linked in C gets the matching library, or does not link.
   One that loads the library at run time defines GOBLIN_PE_LOADED_AT_RUN_TIME before it includes
   this header, and compares the two numbers first. */
#define GOBLIN_PE_INTERFACE 0xSUM_OFu
uint32_t goblin_pe_interface(void);

/* What follows .so. in the name of the shared library. */
#define GOBLIN_PE_SONAME "INTERFACE_OF.SUM_OF"

/* Only a library of this interface has this call. */
uint32_t goblin_pe_interface_SUM_OF(void);
#if defined(__GNUC__) && !defined(GOBLIN_PE_LOADED_AT_RUN_TIME)
__attribute__((used)) static uint32_t (*const goblin_pe_needs_interface)(void) =
    goblin_pe_interface_SUM_OF;
#endif

/* Calls that return a fault are marked, so that a compiler warns if you drop it. */
#if defined(__GNUC__)
#define GOBLIN_PE_MUST_USE __attribute__((warn_unused_result))
#else
#define GOBLIN_PE_MUST_USE
#endif

PARTS_OF

#ifdef __cplusplus
}
#endif

#endif
"""

CALLS = """/* The calls of goblin_pe.h, over the library's own, which take no null pointers and are proved.
   %s */
#include "goblin_pe.h"

/* How the records lie in memory. */
#define HAS_SIZE(record, size, alignment) \\
    _Static_assert(sizeof(struct goblin_pe_##record) == (size) && _Alignof(struct goblin_pe_##record) == (alignment), #record)
#define IS_AT(record, field, offset) _Static_assert(offsetof(struct goblin_pe_##record, field) == (offset), #record "." #field)

%s
/* What is passed in place of a null pointer: no bytes and no records are read or written there. */
static _Alignas(8) uint8_t nowhere;
static const struct goblin_pe_options defaults;

%s
/* Frees a block of memory, where a proved call drops an index of sections. None makes such an index, but the compiler does
   not see that. */
void rattle_dealloc(void *block);
void rattle_dealloc(void *block)
{
    (void)block;
}

size_t goblin_pe_raw_fault_text(const struct goblin_pe_fault *fault, uint8_t *text, size_t room);

const char *goblin_pe_fault_string(const struct goblin_pe_fault *fault, char text[GOBLIN_PE_FAULT_ROOM])
{
    size_t length = goblin_pe_raw_fault_text(fault, (uint8_t *)text, GOBLIN_PE_FAULT_ROOM - 1);
    text[length < GOBLIN_PE_FAULT_ROOM ? length : GOBLIN_PE_FAULT_ROOM - 1] = 0;
    return text;
}
"""

C_CONSTANTS = """/* The numbers of the PE and COFF formats, by goblin's names after GOBLIN_PE_. Most names are the
   formats' own. The libraries declare them as constants.
   %s */
#ifndef GOBLIN_PE_CONSTANTS_H
#define GOBLIN_PE_CONSTANTS_H

%s
#endif
"""
