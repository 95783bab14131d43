"""The crate for Rust."""
import hashlib
import json
import os
import pathlib
import re
import shutil
import subprocess
import unittest

from tests import hostile, images
from tests.bindings import BINDINGS, library
from tests.programs import BY_NAME, SAMPLES, Case, environment, folder, need, run, succeed
from tests.test_python import triaged_images

# A program that runs all examples of the crate's documentation on files, and names those that panic.
HOSTILE = """#![allow(warnings)]
static FILE: std::sync::Mutex<Vec<u8>> = std::sync::Mutex::new(Vec::new());

fn read() -> std::io::Result<Vec<u8>> {
    Ok(FILE.lock().unwrap().clone())
}

%s
fn main() {
    let examples: &[(&str, fn() -> Result<(), Box<dyn std::error::Error>>)] = &[%s];
    for path in std::env::args().skip(1) {
        *FILE.lock().unwrap() = std::fs::read(&path).unwrap();
        for (name, example) in examples {
            if std::panic::catch_unwind(example).is_err() {
                eprintln!("{name} panics on {path}");
            }
        }
    }
}
"""

# A program that prints a line of JSON for each file: what pefile says, too.
COMPARED = """use goblin_pe::{Budget, Image, Options};

fn hex(bytes: &[u8]) -> String {
    bytes.iter().map(|it| format!("{it:02x}")).collect()
}

fn main() -> Result<(), Box<dyn std::error::Error>> {
    for path in std::env::args().skip(1) {
        let bytes = std::fs::read(&path)?;
        let image = Image::read(&bytes, Options::permissive())?;
        let overlay = bytes.len() - image.overlay().len();
        let rich = image.rich_header().map_or(String::new(), |it| hex(&it.cleared()));
        let imports = image.imphash_text(&Budget::default())?.unwrap_or_default();
        let kinds = [image.is_exe(), image.is_dll(), image.is_driver(), image.is_lib(), image.is_64()];
        println!("[{overlay}, {rich:?}, {imports:?}, {kinds:?}]");
    }
    Ok(())
}
"""


def setUpModule():
    need("cargo")
    library()


def documented_examples():
    """The examples of the crate's documentation, by their places, each as the body of a function."""
    found = {}
    for path in sorted((BINDINGS / "rust/src").glob("*.rs")):
        lines = [re.sub(r"^ *//[/!] ?", "", it) if re.match(" *//[/!]", it) else "" for it in path.read_text("utf-8").splitlines()]
        for body in re.finditer(r"(?ms)^```no_run\n(.*?)^```$", "\n".join(lines)):
            text = re.sub(r"(?m)^Ok::<\(\), .*$", "", re.sub(r"(?m)^# ?", "", body[1]))
            text = re.sub(r'std::fs::read\("[^"]*"\)', "crate::read()", text)
            text = re.sub(r"(let (?:mut )?bytes) = (?:\[\]|vec!\[\w+\]);", r"\1 = crate::read()?;", text)
            found["%s:%d" % (path.name, "\n".join(lines)[:body.start()].count("\n") + 1)] = text
    return found


class Crate(Case):
    """A case that builds with the crate."""

    def cargo(self, *words):
        need("cargo")
        succeed(["cargo", words[0], "--offline", "--quiet", *words[1:]], cwd=BINDINGS / "rust", env=environment(
            GOBLIN_PE_LIB=str(library()), GOBLIN_PE_SAMPLES=str(SAMPLES), CARGO_TARGET_DIR=str(folder() / "rust")))

    def user(self, name, source):
        """A program of a user of the crate."""
        need("cargo")
        user, env = self.folder / name, environment(GOBLIN_PE_LIB=str(library()), CARGO_TARGET_DIR=str(folder() / "rust"))
        succeed(["cargo", "new", "-q", "--vcs", "none", user])
        succeed(["cargo", "add", "-q", "--offline", "--manifest-path", user / "Cargo.toml", "--path", BINDINGS / "rust"], env=env)
        (user / "src/main.rs").write_text(source, "utf-8")
        succeed(["cargo", "build", "-q", "--offline", "--manifest-path", user / "Cargo.toml"], env=env)
        return folder() / "rust/debug" / name


class Rust(Crate):
    def test_the_crate(self):
        """Its own tests and the programs of its documents pass."""
        self.cargo("test")

    def test_clippy_warns_of_nothing(self):
        if run(["cargo", "clippy", "--version"])[0]:
            self.skipTest("no clippy")
        self.cargo("clippy", "--all-targets", "--", "-D", "warnings")
        self.cargo("clippy", "--lib", "--", "-D", "warnings", "-W", "clippy::pedantic")

    def test_its_documentation(self):
        self.cargo("rustdoc", "--", "-D", "warnings")

    def test_ten_idioms_of_a_newcomer(self):
        """They are in the crate of a user, in the edition before the crate's own."""
        need("cargo")
        user, env = self.folder / "user", environment(
            GOBLIN_PE_LIB=str(library()), GOBLIN_PE_SAMPLES=str(SAMPLES), CARGO_TARGET_DIR=str(folder() / "rust"))
        succeed(["cargo", "new", "-q", "--lib", "--vcs", "none", "--edition", "2021", user])
        succeed(["cargo", "add", "-q", "--offline", "--manifest-path", user / "Cargo.toml", "--path", BINDINGS / "rust"], env=env)
        (user / "tests").mkdir()
        shutil.copy(BINDINGS / "rust/tests/newcomer.rs", user / "tests")
        printed = succeed(["cargo", "test", "-q", "--offline", "--manifest-path", user / "Cargo.toml", "--test", "newcomer"], env=env)
        self.assertIn("test result: ok. 10 passed", printed)

    def test_the_programs_of_the_page(self):
        """They print what the page shows below them."""
        text = (BINDINGS / "rust/README.md").read_text("utf-8")
        programs, wanted = (re.findall(r"(?s)```%s\n(.*?)```" % it, text) for it in ("rust", "text"))
        bodies = [re.sub(r"(?m)^# ?.*\n", "", it) for it in programs]
        functions = "".join("fn program_%d() -> Result<(), Box<dyn std::error::Error>> {\n%s\nOk(())\n}\n" % row for row in enumerate(bodies))
        calls = "".join("program_%d()?;\n" % index for index in range(len(bodies)))
        main = "#![allow(unused)]\n%sfn main() -> Result<(), Box<dyn std::error::Error>> {\n%sOk(())\n}\n" % (functions, calls)
        self.assertEqual(succeed([self.user("page", main)], cwd=SAMPLES), "".join(wanted))

    def test_overlays_hashes_and_kinds_as_by_pefile(self):
        """Beside what pefile 2023.2.7 says of the same images. It knows a driver by its imports; so those of a native subsystem are
        compared with what `file` calls them."""
        wanted = json.loads(pathlib.Path(__file__).with_name("pefile_answers.json").read_text("utf-8"))
        files = triaged_images()
        optional = int.from_bytes(BY_NAME.read_bytes()[0x3C:0x40], "little") + 24
        natives = {f"native{flags:x}": images.with_parts(BY_NAME.read_bytes(), (optional + 68, b"\1\0"), (optional - 2, flags.to_bytes(2, "little")))
                   for flags in (0x2022, 0x22, 0x20)}
        paths = [self.written(name, data) for name, data in [*files.items(), *natives.items()]]
        lines = list(map(json.loads, succeed([self.user("compared", COMPARED), *paths]).splitlines()))
        for (name, data), (overlay, rich, imports, kinds) in zip(files.items(), lines):
            with self.subTest(name):
                rich, imports = (text and hashlib.md5(text).hexdigest() for text in (bytes.fromhex(rich), imports.encode()))
                it = wanted[name]
                self.assertEqual((overlay, rich or None, imports or ""), (it["overlay"] or len(data), it["rich_hash"], it["imphash"]))
                self.assertEqual(kinds, [not it["is_lib"], it["is_lib"], False, it["is_lib"], it["is_64"]])
        self.assertEqual([it[3][:3] for it in lines[len(files):]], [[False, True, True], [False, False, True], [False, False, False]])
        need("file")
        for path in paths[len(files):]:
            self.assertIn("(native)", succeed(["file", path]))

    def test_each_type_that_borrows_has_a_test_that_it_does(self):
        """A program that drops the bytes before the last use must not compile."""
        texts = [it.read_text("utf-8") for it in (BINDINGS / "rust/src").glob("*.rs") if it.name not in ("ffi.rs", "borrowed.rs")]
        borrowing = {name for text in texts for name in re.findall(r"(?m)^pub (?:struct|enum) (\w+)<'a", text)}
        tested = set(re.findall(r"(?m)^    (\w+): \"", (BINDINGS / "rust/src/borrowed.rs").read_text("utf-8")))
        self.assertEqual(borrowing, tested)

    def test_no_documented_example_panics_on_a_hostile_file(self):
        """In a build that tests sums for overflows."""
        examples = documented_examples()
        self.assertGreater(len(examples), 15)
        functions = "".join("fn example_%d() -> Result<(), Box<dyn std::error::Error>> {\n%s\nOk(())\n}\n" % row for row in enumerate(examples.values()))
        table = "".join("(%s, example_%d)," % (json.dumps(name), index) for index, name in enumerate(examples))
        files = [self.written(f"{index}.bin", data) for index, data in enumerate(hostile.files(3))]
        ran = subprocess.run([self.user("hostile", HOSTILE % (functions, table)), *files], stdout=subprocess.DEVNULL, stderr=subprocess.PIPE, check=False)
        self.assertEqual((ran.returncode, re.findall(rb"(?m)^.* panics on .*$", ran.stderr)), (0, []), ran.stderr[-2000:])

    def example(self, name, *words):
        self.cargo("build", "--release", "--examples")
        return succeed([folder() / f"rust/release/examples/{name}", *words])

    def test_an_export_is_followed_within_the_folder(self):
        """Names are bytes of any kind, and a DLL names no file outside of the folder."""
        inside = self.folder / "inside"
        inside.mkdir()
        names = [("größe".encode(), 0x3010)]
        self.written("inside/a.dll", images.library(b"a.dll", [(b"f", str(self.folder).encode() + b"/other.gr\xc3\xb6\xc3\x9fe")]))
        self.written("other.dll", images.library(b"other.dll", names, base=7))
        with self.assertRaisesRegex(AssertionError, "No such file"):
            self.example("export", inside, "a.dll", "f")
        self.written("inside/other.dll", images.library(b"other.dll", names))
        found = self.example("export", inside, "a.dll", "f").splitlines()[-1]
        self.assertEqual(found, r"other.dll gr\xc3\xb6\xc3\x9fe is at 0x3010, offset None")

    def test_the_entropy_of_bytes_that_are_all_alike_is_zero(self):
        printed = self.example("triage", self.written("a.dll", images.importer([(b"a.dll", [1])])))
        self.assertIn("section .data    0.000 ", printed)

    def test_examples_end_on_each_hostile_file_in_a_second(self):
        """And write less than ten megabytes."""
        self.cargo("build", "--release", "--examples")
        for index, data in enumerate([*hostile.large(), *hostile.files(1)]):
            file = self.written("some.dll", data)
            for name, *words in (("imports", file), ("scan", file, file), ("triage", file), ("object", file),
                                 ("export", self.folder, "some.dll", "Apple"), ("export", self.folder, "some.dll", "#1")):
                with self.subTest(example=name, index=index):
                    began = os.times()
                    status, out, errors = run([folder() / f"rust/release/examples/{name}", *words])
                    ended = os.times()
                    self.assertIn(status, (0, 1), errors)
                    self.assertTrue((out + errors).decode().replace("\n", "").isprintable(), out[:1000] + errors)
                    self.assertLess(len(out), 10 << 20)
                    self.assertLess(ended.children_user - began.children_user + ended.children_system - began.children_system, 1)


if __name__ == "__main__":
    unittest.main()
