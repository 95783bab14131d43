//! The names of numbers and flags, as [`constants`](crate::constants) has them.
//!
//! ```no_run
//! use goblin_pe::names;
//!
//! assert_eq!(names::machine(0x8664).to_string(), "COFF_MACHINE_X86_64");
//! assert_eq!(names::file_flags(0x2002).to_string(), "IMAGE_FILE_EXECUTABLE_IMAGE | IMAGE_FILE_DLL");
//! assert_eq!(names::machine(1).to_string(), "0x1");
//! ```

use std::fmt::{self, Write};

use crate::constants::{
    COFF_MACHINE_ARM, COFF_MACHINE_ARM64, COFF_MACHINE_ARMNT, COFF_MACHINE_IA64,
    COFF_MACHINE_THUMB, COFF_MACHINE_X86, COFF_MACHINE_X86_64, IMAGE_SCN_ALIGN_MASK,
};
use crate::tables::{
    AMD64_RELOCATIONS, ARM_RELOCATIONS, ARM64_RELOCATIONS, AUTOMATION, BASE_RELOCATIONS,
    COMDAT_SELECTIONS, DLL_FLAGS, FILE_FLAGS, I386_RELOCATIONS, IA64_RELOCATIONS, MACHINES,
    SECTION_FLAGS, SOCKETS, STORAGE_CLASSES, SUBSYSTEMS, WEAK_EXTERNAL_SEARCHES,
};

/// The names of a number: an iterator over them, each with its bits. `{}` prints the names, and the
/// bits without a name in hexadecimal. A width pads the text.
#[derive(Clone)]
pub struct Names {
    known: &'static [(&'static str, u32)],
    left: u32,
    // The bits that belong together, so that a name has all or none of them. `None` for a number, which
    // has one name for all its bits.
    field: Option<u32>,
}

impl Iterator for Names {
    type Item = (&'static str, u32);

    fn next(&mut self) -> Option<(&'static str, u32)> {
        while let Some((&(name, bits), rest)) = self.known.split_first() {
            self.known = rest;
            let Some(field) = self.field else {
                if bits == self.left {
                    return Some((name, bits));
                }
                continue;
            };
            let mask = if bits & field == 0 { bits } else { field };
            if bits != 0 && self.left & mask == bits {
                self.left &= !mask;
                return Some((name, bits));
            }
        }
        None
    }
}

impl fmt::Display for Names {
    fn fmt(&self, f: &mut fmt::Formatter<'_>) -> fmt::Result {
        let mut text = String::new();
        let mut left = self.left;
        let between = if self.field.is_some() { " | " } else { " or " };
        for (name, bits) in self.clone() {
            text += if text.is_empty() { "" } else { between };
            text += name;
            left &= !bits;
        }
        let is_all = !text.is_empty() && (left == 0 || self.field.is_none());
        if !is_all {
            text += if text.is_empty() { "" } else { between };
            write!(text, "{left:#x}")?;
        }
        f.pad(&text)
    }
}

impl fmt::Debug for Names {
    fn fmt(&self, f: &mut fmt::Formatter<'_>) -> fmt::Result {
        write!(f, "Names({self})")
    }
}

// The names of a number that has one name for all its bits.
fn number(names: &'static [(&'static str, u32)], number: impl Into<u32>) -> Names {
    Names {
        known: names,
        left: number.into(),
        field: None,
    }
}

// The names of flags. The bits of `field` are one number.
fn flags(names: &'static [(&'static str, u32)], field: u32, flags: impl Into<u32>) -> Names {
    Names {
        known: names,
        left: flags.into(),
        field: Some(field),
    }
}

/// The name of a machine, as a COFF header has it.
#[must_use]
pub fn machine(machine: u16) -> Names {
    number(MACHINES, machine)
}

/// The name of a subsystem, as an optional header has it.
#[must_use]
pub fn subsystem(subsystem: u16) -> Names {
    number(SUBSYSTEMS, subsystem)
}

/// The names of the characteristics of a file.
#[must_use]
pub fn file_flags(characteristics: u16) -> Names {
    flags(FILE_FLAGS, 0, characteristics)
}

/// The names of the DLL characteristics of an optional header.
#[must_use]
pub fn dll_flags(dll_characteristics: u16) -> Names {
    flags(DLL_FLAGS, 0, dll_characteristics)
}

/// The names of the characteristics of a section.
#[must_use]
pub fn section_flags(characteristics: u32) -> Names {
    flags(SECTION_FLAGS, IMAGE_SCN_ALIGN_MASK, characteristics)
}

/// The name of the storage class of a symbol.
#[must_use]
pub fn storage_class(class: u8) -> Names {
    number(STORAGE_CLASSES, class)
}

/// The name of the selection of a section definition.
#[must_use]
pub fn comdat_selection(selection: u8) -> Names {
    number(COMDAT_SELECTIONS, selection)
}

/// The name of the characteristics of a weak external.
#[must_use]
pub fn weak_search(characteristics: u32) -> Names {
    number(WEAK_EXTERNAL_SEARCHES, characteristics)
}

/// The names of the type of a base relocation: several where machines differ.
#[must_use]
pub fn base_relocation(typ: u8) -> Names {
    number(BASE_RELOCATIONS, typ)
}

/// The name of the type of a relocation of an object for this machine.
#[must_use]
pub fn relocation(machine: u16, typ: u16) -> Names {
    let names = match machine {
        COFF_MACHINE_X86 => I386_RELOCATIONS,
        COFF_MACHINE_X86_64 => AMD64_RELOCATIONS,
        COFF_MACHINE_ARM | COFF_MACHINE_THUMB | COFF_MACHINE_ARMNT => ARM_RELOCATIONS,
        COFF_MACHINE_ARM64 => ARM64_RELOCATIONS,
        COFF_MACHINE_IA64 => IA64_RELOCATIONS,
        _ => &[],
    };
    number(names, typ)
}

/// The name that an ordinal has in a DLL that programs import by ordinal everywhere: `WS2_32.dll`,
/// `WSOCK32.dll` and `OLEAUT32.dll`, in any case. `None` for other DLLs and ordinals.
#[must_use]
pub fn ordinal(dll: impl AsRef<[u8]>, ordinal: u16) -> Option<&'static str> {
    let names = [
        ("ws2_32.dll", SOCKETS),
        ("wsock32.dll", SOCKETS),
        ("oleaut32.dll", AUTOMATION),
    ];
    let is_it = |name: &str| dll.as_ref().eq_ignore_ascii_case(name.as_bytes());
    let (_, names) = names.into_iter().find(|(name, _)| is_it(name))?;
    let found = names.iter().find(|(number, _)| *number == ordinal)?;
    Some(found.1)
}
