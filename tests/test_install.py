"""The library as users install it: through pkg-config, as a crate in Rust, and as a package in Python. test_c has programs in C
over the installed library."""
import functools
import pathlib
import platform
import re
import shutil
import sys
import unittest
import zipfile

from tests.bindings import BINDINGS, library
from tests.programs import BY_NAME, CC, FLAGS, TOP, Case, beside, environment, need, run, succeed

CARGO = ["cargo", "-q", "--offline", "--locked"]
# What the package for Python lists of a sample, and what the crate's example `imports` does.
LISTED = (0, beside(BY_NAME, "listing"), b"")
IMPORTS = (0, b"%s      0 0x000020a8 KERNEL32.dll GetTickCount\n%s: 0 skipped, 0 lead nowhere\n" % ((str(BY_NAME).encode(),) * 2), b"")


def setUpModule():
    library()


def install(prefix, **more):
    need(CC, "pkg-config")
    succeed([BINDINGS / "install", prefix], env=environment(GOBLIN_PE_LIB=str(library()), **more))


class Library(Case):
    """The library for programs in C, through pkg-config."""

    def test_a_program_over_the_shared_library(self):
        """It asks for the library by a name with the interface in it."""
        install(self.folder)
        words = succeed(["pkg-config", "--cflags", "--libs", "goblin_pe"], env=environment(PKG_CONFIG_PATH=f"{self.folder}/lib/pkgconfig"))
        succeed([*CC, "-std=c99", *FLAGS, "-o", self.folder / "imports", self.folder / "share/doc/goblin-pe/examples/imports.c", *words.split()])
        (self.folder / "lib/libgoblin_pe.so").unlink()
        self.assert_runs([self.folder / "imports"], (0, b"KERNEL32.dll 0 GetTickCount\n", b""), BY_NAME,
                         env=environment(LD_LIBRARY_PATH=f"{self.folder}/lib"))

    def test_pkg_config_names_what_a_static_program_needs(self):
        install(self.folder)
        env = environment(PKG_CONFIG_PATH=f"{self.folder}/lib/pkgconfig")
        words = [succeed(["pkg-config", *static, "--libs-only-l", "goblin_pe"], env=env).split() for static in ([], ["--static"])]
        self.assertEqual(words, [["-lgoblin_pe"], ["-lgoblin_pe", "-lc"]])

    def test_folders_of_the_libraries(self):
        """They are below the prefix, and move with it, or anywhere else."""
        for libdir, wanted in (("", "${prefix}/lib"), ("/usr/lib64", "${prefix}/lib64"), ("/else where/lib", "/else where/lib")):
            with self.subTest(libdir):
                install("/usr", DESTDIR=str(self.folder), LIBDIR=libdir)
                libraries = self.folder / (libdir or "/usr/lib")[1:]
                self.assertIn(f"prefix=/usr\nlibdir={wanted}\n", (libraries / "pkgconfig/goblin_pe.pc").read_text("ascii"))
                self.assertEqual((libraries / "libgoblin_pe.so").read_bytes(), (library() / "libgoblin_pe.so").read_bytes())

    def test_all_packages_have_one_version(self):
        install(self.folder)
        found = {it: re.findall(r'(?m)^(?:version|__version__|VERSION) = "(.*)"$', (BINDINGS / it).read_text("utf-8"))[0] for it in
                 ("generator/declared.py", "rust/Cargo.toml", "rust/Cargo.lock", "python/pyproject.toml", "python/goblin_pe/__init__.py")}
        found["CHANGELOG.md"] = re.search(r"(?m)^## \[(.*)\]", (TOP / "CHANGELOG.md").read_text("utf-8"))[1]
        found["pkg-config"] = succeed(["pkg-config", "--modversion", "goblin_pe"], env=environment(PKG_CONFIG_PATH=f"{self.folder}/lib/pkgconfig")).strip()
        self.assertEqual(len(set(found.values())), 1, found)

    def test_the_page_names_all_examples(self):
        """They are installed, with a license."""
        install(self.folder)
        doc = self.folder / "share/doc/goblin-pe"
        self.assertEqual((doc / "LICENSE").read_bytes(), (TOP / "LICENSE").read_bytes())
        named = re.findall(r"(?m)^\| `(\w+\.c)` \|", (doc / "README.md").read_text("utf-8"))
        self.assertEqual(sorted(named), sorted(it.name for it in (doc / "examples").iterdir()))


class Crate(Case):
    """What cargo packs, with the library that pkg-config finds, with another one, or with none."""

    def setUp(self):
        need("cargo")
        super().setUp()
        succeed([*CARGO, "package", "--no-verify", "--allow-dirty", "--manifest-path", BINDINGS / "rust/Cargo.toml", "--target-dir", self.folder])
        packed, = self.folder.glob("package/*.crate")
        shutil.unpack_archive(packed, self.folder, "gztar")
        self.manifest = self.folder / packed.stem / "Cargo.toml"
        self.other = self.folder / "other"
        self.other.mkdir()

    def build(self, **more):
        """Builds the example. Returns the answer of cargo."""
        return run([*CARGO, "build", "--example", "imports", "--manifest-path", self.manifest, "--target-dir", self.folder], env=environment(**more))

    def assert_lists_by(self, **more):
        status, _, errors = self.build(**more)
        self.assertEqual(status, 0, errors)
        self.assert_runs([self.folder / "debug/examples/imports", BY_NAME], IMPORTS)

    def test_by_pkg_config(self):
        install(self.folder / "prefix")
        self.assert_lists_by(PKG_CONFIG_PATH=str(self.folder / "prefix/lib/pkgconfig"))

    def test_by_the_folder_lib_beside_it(self):
        (self.folder / "lib").mkdir()
        shutil.copy(library() / "libgoblin_pe.a", self.folder / "lib")
        self.assert_lists_by(PKG_CONFIG_LIBDIR=str(self.other))

    def test_without_a_library(self):
        """cargo can check and document it. A build says what is missing."""
        env = environment(PKG_CONFIG_LIBDIR=str(self.other), CARGO_TARGET_DIR=str(self.folder))
        for words in (["check", "--all-targets"], ["doc", "--no-deps"]):
            succeed([*CARGO, *words, "--manifest-path", self.manifest], env=env)
        status, _, errors = run(["cargo", *CARGO[2:], "build", "--manifest-path", self.manifest], env=env)
        self.assertNotEqual(status, 0)
        self.assertIn(b"run bindings/build", errors)
        # (It is built as soon as there is one.)
        (self.folder / "lib").mkdir()
        shutil.copy(library() / "libgoblin_pe.a", self.folder / "lib")
        self.assert_lists_by(PKG_CONFIG_LIBDIR=str(self.other))

    def test_for_another_target(self):
        """The library beside the crate is for this machine, so it is not used. One that GOBLIN_PE_LIB names is."""
        succeed(["rustc", "--edition", "2024", "-o", self.folder / "build", self.manifest.with_name("build.rs")])
        (self.manifest.parent / "lib").mkdir()
        (self.manifest.parent / "lib/libgoblin_pe.a").touch()
        here = {"CARGO_MANIFEST_DIR": str(self.manifest.parent), "HOST": "x86_64-unknown-linux-gnu"}
        lib = str(self.manifest.parent / "lib")
        for target, named, is_found in (("x86_64-unknown-linux-gnu", {}, True), ("x86_64-unknown-linux-musl", {}, True),
                                        ("aarch64-unknown-linux-gnu", {}, False), ("x86_64-pc-windows-msvc", {}, False),
                                        ("aarch64-unknown-linux-gnu", {"GOBLIN_PE_LIB": lib}, True)):
            with self.subTest(target=target, named=named):
                printed = succeed([self.folder / "build"], env=environment(TARGET=target, **here, **named))
                self.assertEqual((f"link-search=native={lib}" in printed, f"libgoblin_pe for {target} is not there" in printed), (is_found, not is_found))

    def test_in_a_workspace_of_its_user(self):
        shutil.copytree(self.manifest.parent, self.folder / "user/goblin_pe")
        (self.folder / "user/src").mkdir()
        self.written("user/src/main.rs", b"fn main() { assert!(goblin_pe::Pe::parse(b\"\").is_err()) }\n")
        self.written("user/Cargo.toml", b'[package]\nname = "user"\nedition = "2024"\n[dependencies]\ngoblin_pe.path = "goblin_pe"\n'
                     b'[workspace]\nmembers = ["goblin_pe"]\n')
        succeed(["cargo", "-q", "--offline", "run", "--manifest-path", self.folder / "user/Cargo.toml"],
                env=environment(GOBLIN_PE_LIB=str(library()), CARGO_TARGET_DIR=str(self.folder)))

    def test_what_is_packed(self):
        packed = {str(it.relative_to(self.manifest.parent)) for it in self.manifest.parent.rglob("*")}
        self.assertEqual((self.manifest.parent / "LICENSE").read_bytes(), (TOP / "LICENSE").read_bytes())
        self.assertLessEqual({"LICENSE", "README.md", "build.rs", "src/lib.rs", "examples/imports.rs"}, packed)

    def test_over_another_interface(self):
        """It is not linked."""
        need(CC, "ar")
        names = re.findall(r"\bfn (goblin_pe_[a-z_]*)[<(]", (BINDINGS / "rust/src/ffi.rs").read_text("utf-8"))
        source = self.written("other.c", b"".join(b"int %s(void) { return -1; }\n" % name.encode() for name in names))
        succeed([*CC, "-c", "-o", self.folder / "other.o", source])
        succeed(["ar", "r", self.other / "libgoblin_pe.a", self.folder / "other.o"])
        status, _, errors = self.build(GOBLIN_PE_LIB=str(self.other))
        self.assertNotEqual(status, 0)
        self.assertRegex(errors, b"undefined (reference|symbol).*goblin_pe_interface_")


@functools.cache
def python():
    """A Python that makes environments with pip."""
    need(CC)  # (for the shared library)
    for it in (sys.executable, "/usr/bin/python3"):
        if shutil.which(it) and not run([it, "-c", "import pip, venv, ensurepip"])[0]:
            return it
    raise unittest.SkipTest("no Python with pip and venv")


class Package(Case):
    """The package in an environment of its own, without variables of ours and without an index of packages."""

    def setUp(self):
        python()
        super().setUp()
        self.package = self.folder / "python"
        shutil.copytree(BINDINGS / "python", self.package, ignore=shutil.ignore_patterns("__pycache__"))
        (self.folder / "lib").mkdir()
        shutil.copy(library() / "libgoblin_pe.so", self.folder / "lib")

    def wheel(self, folder, **more):
        """A wheel of the package, in a folder of its own."""
        succeed([python(), "-m", "pip", "wheel", "-q", "--no-index", "-w", self.folder / folder, self.package], env=environment(**more))
        made, = (self.folder / folder).iterdir()
        return made

    def installed(self, *what):
        """The Python of a new environment in which the package is installed. It must list a sample."""
        made = self.folder / "environment"
        succeed([python(), "-m", "venv", made])
        succeed([made / "bin/pip", "install", "-q", "--no-index", *what], cwd="/", env={})
        self.assert_runs([made / "bin/python", "-m", "goblin_pe", BY_NAME], LISTED, cwd="/", env={})
        return made / "bin/python"

    def assert_is_from(self, it, folder):
        module = pathlib.Path(succeed([it, "-c", "import goblin_pe; print(goblin_pe.__file__)"], cwd="/", env={}).strip())
        self.assertTrue(module.is_relative_to(folder), module)
        self.assertTrue(module.with_name("py.typed").exists(), "the type hints are not there")

    def test_a_wheel(self):
        wheel = self.wheel("wheels")
        self.assertRegex(wheel.name, f"^goblin_pe-.*-cp39-abi3-manylinux_2_\\d+_{platform.machine()}\\.whl$")
        it = self.installed(wheel)
        names = ("Requires-Python", "Author", "Summary", "License-Expression")
        printed = succeed([it, "-c", f"import importlib.metadata as m; [print(m.metadata('goblin_pe')[it]) for it in {names}]"], cwd="/", env={})
        self.assertEqual(printed, ">=3.9\nThe Gundiwootz developers\nReads PE images, COFF objects and TE files that can't be trusted\nMIT\n")
        with zipfile.ZipFile(wheel) as file:
            text, = (file.read(it) for it in file.namelist() if it.endswith(".dist-info/licenses/LICENSE"))
        self.assertEqual(text, (TOP / "LICENSE").read_bytes())
        self.assertEqual(succeed([it, "-m", "pip", "check"], cwd="/", env={}), "No broken requirements found.\n")

    def test_a_wheel_is_built_again_to_the_byte(self):
        first, second = (self.wheel(folder, SOURCE_DATE_EPOCH="1700000000") for folder in ("first", "second"))
        self.assertEqual(first.read_bytes(), second.read_bytes())

    def test_the_folder_of_the_package(self):
        self.assert_is_from(self.installed(self.package), self.folder / "environment")

    def test_the_folder_of_the_package_as_it_is(self):
        self.assert_is_from(self.installed("-e", self.package), self.package)

    def test_without_a_library(self):
        (self.folder / "lib/libgoblin_pe.so").unlink()
        status, _, errors = run([python(), "-m", "pip", "wheel", "-q", "--no-index", "-w", self.folder, self.package], env=environment())
        self.assertNotEqual(status, 0)
        self.assertIn(b"run bindings/build first", errors)
