"""Makes the records, the calls and the constants of the crate for Rust."""
from typing import Dict, List

from .c import snake, sum_of, taken
from .declared import MADE, Declared, Interface, Item, Type

# The records that users see; they are written by hand, in the module headers, and tested to lie in memory as these.
PUBLIC = ("DosHeader", "CoffHeader", "StandardFields", "WindowsFields", "OptionalHeader", "DataDirectory", "TeHeader")
# Constants whose names are shown, by their beginning: those of numbers, and of flags.
SHOWN = {"machines": "COFF_MACHINE_", "subsystems": "IMAGE_SUBSYSTEM_", "file_flags": "IMAGE_FILE_",
         "dll_flags": "IMAGE_DLLCHARACTERISTICS_", "section_flags": "IMAGE_SCN_", "storage_classes": "IMAGE_SYM_CLASS_",
         "comdat_selections": "IMAGE_COMDAT_SELECT_", "weak_external_searches": "IMAGE_WEAK_EXTERN_SEARCH_",
         "base_relocations": "IMAGE_REL_BASED_",
         **{"%s_relocations" % it: "IMAGE_REL_%s_" % it.upper() for it in ("i386", "amd64", "arm", "arm64", "ia64")}}


def rust_files(it: Interface, ordinals: Dict[str, str]) -> Dict[str, str]:
    """The crate's records, constants and names."""

    def lives(name: str) -> bool:
        return it.holds(name, "slice", "pointer")

    def kind(of: Type) -> str:
        if of.form == "array":
            return "[%s; %d]" % (of.name, of.length)
        return of.name + "<'a>" * (of.name in it.records and lives(of.name))

    def record(r: Declared) -> str:
        if r.name in (*PUBLIC, "Slice"):
            return ""
        head = r.name + "<'a>" * lives(r.name)
        derived = "Clone, Copy, Default" + (
            ", Debug, PartialEq, Eq, Hash" if not lives(r.name) and not any(f.type.name in PUBLIC for f in r.items) else "")
        return "#[repr(C)]\n#[derive(%s)]\npub struct %s {\n%s}\n" % (
            derived, head, "".join("    pub %s: %s,\n" % (f.name, kind(f.type)) for f in r.items))

    def facts(name: str) -> str:
        size, alignment, offsets = it.layout(name)
        return "    assert!(size_of::<%s>() == %d && align_of::<%s>() == %d);\n" % (name, size, name, alignment) + "".join(
            "    assert!(offset_of!(%s, %s) == %d);\n" % (name, f.name, offsets[f.name]) for f in it.records[name].items)

    def parameter(p: Item) -> List[str]:
        what = "u8" if p.type.form == "slice" else kind(p.type)
        if p.type.form in ("slice", "table"):
            how = ("mut", "room") if p.type.is_written else ("const", "length")
            return ["%s: *%s %s" % (p.name, how[0], what), "%s: usize" % how[1]]
        may_be_null = "Option<%s>" if p.name == "faults" else "%s"
        return ["%s: %s" % (p.name, may_be_null % (("&mut " if p.type.is_written else "&" * p.type.is_reference) + what))]

    def call(c: Declared) -> str:
        rows = [row for p in c.items for row in parameter(p)]
        generic, safe = "<'a>" * ("'a" in "".join(rows)), "safe " * ("*" not in "".join(rows))
        return "    pub %sfn %s%s(%s) -> %s;\n" % (safe, c.name, generic, ", ".join(rows), kind(c.answer))

    def constant(c: Item) -> str:
        return it.comment(c.doc, str, "/// ") + "pub const %s: %s = %s;\n" % (c.name, c.type.name, c.number)

    def shown(name: str, beginning: str) -> str:
        rows = [c for file in it.constants for c in file.items if c.name.startswith(beginning) and not c.name.endswith("_MASK")]
        return "pub const %s: &[(&str, u32)] = &[\n%s];\n" % (name.upper(), "".join('    ("%s", %s),\n' % (c.name, c.number) for c in rows))

    def named(name: str) -> str:
        words = ordinals[name].split()
        return "pub const %s: &[(u16, &str)] = &[\n%s];\n" % (name, "".join('    (%s, "%s"),\n' % row for row in zip(words[::2], words[1::2])))

    calls = [c for name, c in it.calls.items() if name != "goblin_pe_fault_text"]
    total = sum_of(it)
    records = [r for r in it.records.values() if record(r)]
    return {
        "rust/src/ffi.rs": FFI % (
            MADE, ", ".join(sorted(PUBLIC)), total[:4], total[4:], total, "\n".join(map(record, records)),
            "".join(facts(r.name) for r in it.records.values()), total, "".join(map(call, calls))),
        "rust/src/tables.rs": "//! The names of numbers and flags, and those of ordinals by which imports are hashed.\n//! %s\n\n"
        "%s" % (MADE, "\n".join([*(shown(*row) for row in SHOWN.items()), *map(named, ordinals)])),
        "rust/src/constants.rs": "//! The numbers of the PE and COFF formats, by goblin's names, which are mostly the formats' own.\n// %s\n\n%s" % (
            MADE, "\n".join(it.comment(file.doc, str, "// ") + "\n" + "".join(map(constant, file.items)) for file in it.constants))}


FFI = """//! The records and the calls of the library, as `goblin_pe.h` declares them.
//! %s
#![allow(dead_code, missing_docs, unreachable_pub, clippy::missing_safety_doc)]

use std::marker::PhantomData;
use std::mem::offset_of;

use crate::headers::{
    %s,
};

/// The number of this interface.
pub const INTERFACE: u32 = 0x%s_%s;

// Programs link only with a library of this interface, as no other one has this call.
#[used]
static NEEDS_INTERFACE: extern "C" fn() -> u32 = goblin_pe_interface_%s;

/// Bytes of the file.
#[repr(C)]
#[derive(Clone, Copy)]
pub struct Slice<'a> {
    bytes: *const u8,
    length: usize,
    of: PhantomData<&'a [u8]>,
}

// SAFETY: it is a `&[u8]`.
unsafe impl Send for Slice<'_> {}
// SAFETY: it is a `&[u8]`.
unsafe impl Sync for Slice<'_> {}

impl<'a> Slice<'a> {
    pub const fn of(bytes: &'a [u8]) -> Slice<'a> {
        Slice {
            bytes: bytes.as_ptr(),
            length: bytes.len(),
            of: PhantomData,
        }
    }

    pub const fn get(self) -> &'a [u8] {
        // SAFETY: it was made of a slice, or the library filled it in, which stores slices of bytes that live for `'a`.
        unsafe { std::slice::from_raw_parts(self.bytes, self.length) }
    }
}

impl Default for Slice<'_> {
    fn default() -> Self {
        Slice::of(&[])
    }
}

%s
// How the records lie in memory.
const _: () = {
%s};

#[rustfmt::skip]
unsafe extern "C" {
    pub safe fn goblin_pe_interface() -> u32;
    safe fn goblin_pe_interface_%s() -> u32;
    pub safe fn goblin_pe_fault_string(fault: &Fault, text: &mut [u8; 256]) -> *const u8;
%s}
"""
