"""A header, a crate, a package and a library run together only if they have one interface. One field more makes another one."""
import os
import re
import shutil
import sys

from tests.bindings import BINDINGS, library
from tests.programs import BY_NAME, CC, CRATES, FLAGS, TOP, Case, environment, need, run, succeed

# What generate.py reads in bindings/, besides the sources of the crates.
READ = ("generate.py", "generator", "python/goblin_pe", "python/pyproject.toml", "rust/Cargo.toml", "rust/Cargo.lock", "rust/src", "c")
HEADER = "c/goblin_pe.h"
PROGRAM = b"""#include "goblin_pe.h"
int main(void) { return goblin_pe_kind_of(NULL, 0) != GOBLIN_PE_KIND_UNKNOWN; }
"""


def setUpModule():
    need(CC)
    library()


def sum_in(bindings):
    """The checksum in a header, and the end of the shared library's name."""
    text = (bindings / HEADER).read_text("utf-8")
    return re.search(r"#define GOBLIN_PE_INTERFACE 0x(\w+)u\n", text)[1], re.search(r'#define GOBLIN_PE_SONAME "(.*)"\n', text)[1]


class Changed(Case):
    """What the generator makes of a copy of the crates in which a record has one field more."""

    def changed(self, old, new, is_made_again=True):
        """The folder bindings/ of a copy in which one source is changed, with what the generator makes of it."""
        top = self.folder / "copy"
        for crate in CRATES.iterdir():
            shutil.copytree(crate / "src", top / "crates" / crate.name / "src", dirs_exist_ok=True)
        shutil.copy(TOP / "crates.txt", top)
        for it in READ:
            (top / "bindings" / it).parent.mkdir(parents=True, exist_ok=True)
            copy = shutil.copytree if (BINDINGS / it).is_dir() else shutil.copy
            copy(BINDINGS / it, top / "bindings" / it, **({"dirs_exist_ok": True} if (BINDINGS / it).is_dir() else {}))
        found = [it for it in (top / "crates").glob("*/src/**/*.rt") if re.search(old, it.read_text("utf-8"))]
        self.assertEqual(len(found), 1, found)
        found[0].write_text(re.sub(old, new, found[0].read_text("utf-8"), count=1), "utf-8")
        if is_made_again:
            succeed([sys.executable, top / "bindings/generate.py"])
        return top / "bindings"

    def with_a_field(self):
        return self.changed(r"(pub struct PeBatch \{\n(?s:.*?)\n)\}\n", r"\1    /// One more.\n    pub added: u64,\n}\n")

    def program(self, bindings, *linked):
        """Compiles a program over a header. Returns the status and the messages of the compiler."""
        source = self.written("program.c", PROGRAM)
        status, _, errors = run([*CC, "-std=c99", *FLAGS, "-I", bindings / "c", "-o", self.folder / "program", source, *linked])
        return status, errors.decode()

    def stub(self, name, interface):
        """Makes a shared library of this name, and an archive, with the calls of our header and this interface."""
        text = (BINDINGS / HEADER).read_text("utf-8")
        names = set(re.findall(r"\b(goblin_pe_(?!interface)\w+)\(", text)) | {"goblin_pe_interface_" + interface}
        calls = "".join("int %s(void) { return 0; }\n" % it for it in names) + "unsigned goblin_pe_interface(void) { return 0x%su; }\n" % interface
        (self.folder / "other").mkdir(exist_ok=True)
        succeed([*CC, "-c", "-fPIC", "-o", self.folder / "stub.o", self.written("stub.c", calls.encode())])
        succeed([*CC, "-shared", "-o", self.folder / "other" / name, self.folder / "stub.o"])
        succeed(["ar", "rc", self.folder / "other/libgoblin_pe.a", self.folder / "stub.o"])
        return self.folder / "other" / name

    def test_a_layout_that_the_headers_do_not_have_is_not_built(self):
        """Two fields are exchanged in the crate, and the number of the interface stays."""
        bindings = self.changed(r"(pub struct PeBatch \{\n)((?:    ///.*\n)+    pub .*\n)((?:    ///.*\n)+    pub .*\n)", r"\1\3\2", False)
        shutil.copy(BINDINGS / "build", bindings)
        (self.folder / "bin").mkdir()
        self.written("bin/rt", b"#!/bin/sh\necho /\n").chmod(0o755)
        status, _, errors = run([bindings / "build", self.folder / "lib"], env=environment(PATH=f"{self.folder}/bin:{os.environ['PATH']}"))
        self.assertEqual((status, (self.folder / "lib").exists()), (1, False))
        self.assertIn(b"run bindings/generate.py", errors)

    def test_a_comment_on_a_field_is_no_part_of_the_interface(self):
        bindings = self.changed(r"(pub struct PeBatch \{\n)    /// ", r"\1    /// Otherwise: ")
        self.assertEqual(sum_in(bindings), sum_in(BINDINGS))
        self.assertNotEqual((bindings / HEADER).read_bytes(), (BINDINGS / HEADER).read_bytes())

    def test_each_source_has_the_sum(self):
        number, soname = sum_in(BINDINGS)
        self.assertTrue(soname.endswith("." + number), soname)
        for name in ("rust/src/ffi.rs", "python/goblin_pe/_records.py"):
            self.assertRegex((BINDINGS / name).read_text("utf-8"), rf"(?m)^(pub const )?INTERFACE(: u32)? = 0x{number[:4]}_?{number[4:]};?$")
        source = (CRATES / "goblin_pe_capi/src/interface.rt").read_text("utf-8")
        self.assertEqual(set(re.findall(r"result ≡ (\d+) ", source)), {str(int(number, 16))})

    def test_a_program_in_c(self):
        bindings, other = self.with_a_field(), self.folder / "other"
        ours, theirs = sum_in(BINDINGS), sum_in(bindings)
        self.assertNotEqual(theirs, ours)
        # A program over the other header can't be linked with our libraries.
        for linked in ([library() / "libgoblin_pe.a"], ["-L", library(), "-lgoblin_pe"]):
            status, errors = self.program(bindings, *linked)
            self.assertNotEqual(status, 0)
            self.assertIn("goblin_pe_interface_" + theirs[0], errors)
        # A program over ours does not find the other library, and refuses it under our name.
        status, errors = self.program(BINDINGS, "-L", library(), "-lgoblin_pe")
        self.assertEqual((status, errors), (0, ""))
        self.assertEqual(run([self.folder / "program"], env=environment(LD_LIBRARY_PATH=str(library())))[0], 0)
        self.stub("libgoblin_pe.so." + theirs[1], theirs[0])
        for reason in (f"libgoblin_pe.so.{ours[1]}: cannot open", f"undefined symbol: goblin_pe_interface_{ours[0]}"):
            status, _, errors = run([self.folder / "program"], env=environment(LD_LIBRARY_PATH=str(other)))
            self.assertNotEqual(status, 0)
            self.assertIn(reason, errors.decode())
            shutil.copy(other / ("libgoblin_pe.so." + theirs[1]), other / ("libgoblin_pe.so." + ours[1]))

    def test_the_crate(self):
        need("cargo")
        bindings = self.with_a_field()
        shutil.copy(BINDINGS / "rust/build.rs", bindings / "rust")
        program = self.written("main.rs", b"fn main() { println!(\"{:?}\", goblin_pe::Kind::of(b\"\")); }\n")
        (bindings / "rust/examples").mkdir()
        shutil.copy(program, bindings / "rust/examples/list.rs")
        ours, theirs = sum_in(BINDINGS)[0], sum_in(bindings)[0]
        for crate, its, number in ((bindings / "rust", library(), theirs), (None, self.stub("libgoblin_pe.so", theirs).parent, ours)):
            if crate is None:  # ours, over the other library
                crate = bindings.parent / "ours"
                shutil.copytree(BINDINGS / "rust", crate, ignore=shutil.ignore_patterns("target", "tests", "examples"))
                shutil.copytree(bindings / "rust/examples", crate / "examples")
            with self.subTest(crate=crate.name):
                env = environment(GOBLIN_PE_LIB=str(its), LD_LIBRARY_PATH=str(its), CARGO_TARGET_DIR=str(self.folder / "target" / crate.name))
                status, _, errors = run(["cargo", "-q", "--offline", "run", "--example", "list", "--manifest-path", crate / "Cargo.toml"], env=env)
                self.assertNotEqual(status, 0)
                self.assertIn(b"goblin_pe_interface_" + number.encode(), errors)

    def test_the_package_for_python(self):
        bindings = self.with_a_field()
        other = self.stub("libgoblin_pe.so", sum_in(bindings)[0])
        for package, its in ((bindings, library() / "libgoblin_pe.so"), (BINDINGS, other)):
            with self.subTest(package=package.parent.name):
                env = environment(PYTHONPATH=str(package / "python"), GOBLIN_PE_SO=str(its))
                status, _, errors = run([sys.executable, "-B", "-m", "goblin_pe", BY_NAME], env=env, cwd=self.folder)
                self.assertNotEqual(status, 0)
                self.assertRegex(errors, rb"ImportError: .*another interface")
