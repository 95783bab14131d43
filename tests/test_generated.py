"""The files that bindings/generate.py makes are up to date, and it refuses a declaration of a form that it does not know."""
import functools
import importlib
import re
import sys
import unittest

from tests.bindings import BINDINGS
from tests.programs import CRATES

# Declarations that the reader does not know.
RECORD = "#[repr(C)]\npub struct PeSome {\n    /// A field.\n    %s\n}\n"
CALL = 'pub extern "C" fn goblin_pe_raw_some(%s) -> bool\n{\n}\n'
UNKNOWN = [
    ("a private field", RECORD % "number: u32,"),
    ("a field of a crate", RECORD % "pub(crate) number: u32,"),
    ("a pointer", RECORD % "pub more: *const u8,"),
    ("a reference", RECORD % "pub fault: &'a PeFault,"),
    ("a slice that is written", RECORD % "pub room: &'a mut [u8],"),
    ("a number that C has not", RECORD % "pub number: u128,"),
    ("an array of numbers that C has not", RECORD % "pub numbers: [u128; 2],"),
    ("an array of slices", RECORD % "pub texts: [&'a [u8]; 2],"),
    ("an option", RECORD % "pub number: Option<u32>,"),
    ("a type in parentheses", RECORD % "pub pair: (u32, u32),"),
    ("an attribute", RECORD % "#[doc(hidden)]\n    pub number: u32,"),
    ("an alignment of its own", "#[repr(align(16))]\n" + RECORD % "pub number: u32,"),
    ("two records of one name", RECORD % "pub number: u32," + (RECORD % "pub number: u32,").replace("PeSome", "Some") + CALL % "some: &PeSome"),
    ("a record of one line", "#[repr(C)]\npub struct PeSome(u32);\n"),
    ("a variant with a value", "pub enum Kind {\n    /// A kind.\n    Image(u32),\n}\n"),
    ("a call with a closure", CALL % "call: fn(u32) -> u32"),
    ("a call with a record that is nowhere", CALL % "some: &PeSome"),
]


@functools.cache
def generate():
    """The generator as a module."""
    sys.path.insert(0, str(BINDINGS))
    return importlib.import_module("generate")


class Made(unittest.TestCase):
    def test_what_is_made_is_up_to_date(self):
        for place, text in generate().files(generate().Interface()).items():
            with self.subTest(place):
                self.assertEqual((BINDINGS / place).read_text("utf-8"), text, "run bindings/generate.py")

    def test_no_call_for_c_requires_anything(self):
        """Nothing checks a caller in C, and a call that requires what never holds is proved of every body."""
        for file in sorted((CRATES / "goblin_pe_capi/src").rglob("*.rt")):
            with self.subTest(file.name):
                self.assertNotRegex(re.sub(r"//.*", "", file.read_text("utf-8")), r"\brequires\b")

    def test_what_the_reader_does_not_know_is_refused(self):
        generate()
        declared = importlib.import_module("generator.declared")
        for name, source in UNKNOWN:
            with self.subTest(name), self.assertRaises(declared.Refused):
                declared.Interface([source])


if __name__ == "__main__":
    unittest.main()
