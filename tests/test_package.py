"""The packages for machines without the prover: each is installed and used without access to the repository. And bindings/package,
which makes them of a commit alone; here a stand-in replaces the gate."""
import functools
import hashlib
import os
import pathlib
import platform
import re
import runpy
import shutil
import sys
import unittest.mock
import zipfile

from tests.bindings import BINDINGS, library
from tests.programs import BY_NAME, CC, FLAGS, TOP, Case, environment, folder, need, run, succeed
from tests.test_install import CARGO, LISTED, python

# The words before a command that make it find an empty folder in place of the repository.
AWAY = ["unshare", "-rm", "sh", "-c", 'mount -t tmpfs none "$0" && cd / && exec "$@"', str(TOP)]


def setUpModule():
    need(CC)  # (for the shared library)


@functools.cache
def packed(name, bindings=BINDINGS, by=sys.executable):
    """The folder with the packages made of the sources in a folder, over the library. It is made once for each name."""
    made = folder() / name
    succeed([by, bindings / "packer.py", made, library(), "1700000000"], stdin=b"A text.\n", env=environment())
    return made


def without_what_is_made(at, names):
    """The files of a folder of the repository that are not copied."""
    return {it for it in names if it in ("out", "target", "__pycache__") or pathlib.Path(at, it) == BINDINGS / "lib"}


def package(ending):
    made, = packed("packages").glob("*" + ending)
    return made


@functools.cache
def away():
    """AWAY, or no words if the machine does not let us hide a folder."""
    return AWAY if shutil.which("unshare") and not run([*AWAY, "true"])[0] else []


def status_of(package):
    """What dpkg keeps about an installed package of this machine."""
    words = "Package: ${Package}\\nStatus: install ok installed\\nArchitecture: ${Architecture}\\nVersion: ${Version}\\n"
    return succeed(["dpkg-query", "-W", "-f", words + "Maintainer: nobody\\nDescription: here\\n\\n", package])


class Packages(Case):
    def setUp(self):
        super().setUp()
        self.sample = self.written("some.dll", BY_NAME.read_bytes())

    def assert_is_listed_by(self, *command, **how):
        self.assert_runs([*away(), *command, self.sample], LISTED, cwd="/", **how)

    def assert_lists_imports(self, program, **how):
        """The example `imports` in C lists the imports."""
        self.assert_runs([*away(), program], (0, b"KERNEL32.dll 0 GetTickCount\n", b""), self.sample, cwd="/", **how)

    def unpacked(self):
        """Unpacks the tar in the folder of the test."""
        shutil.unpack_archive(package(".tar.gz"), self.folder)
        made, = self.folder.glob("goblin_pe-*")
        return made

    def assert_links(self, **where):
        """The example, built with the flags of pkg-config, lists over the shared library and over the archive."""
        example, = self.folder.rglob("examples/imports.c")
        shared, = (it.parent for it in self.folder.rglob("libgoblin_pe.so.*"))
        for flags, static, env in ([], [], {"LD_LIBRARY_PATH": str(shared)}), (["-static"], ["--static"], {}):
            words = succeed([*away(), "pkg-config", "--cflags", "--libs", *static, "goblin_pe"], env=environment(**where)).split()
            succeed([*away(), *CC, "-std=c99", *FLAGS, *flags, "-o", self.folder / "imports", example, *words])
            self.assert_lists_imports(self.folder / "imports", env=env)

    def test_the_repository_is_out_of_reach(self):
        if not away():
            self.skipTest("no unshare that hides a folder: the packages were used with the repository in reach")
        self.assertEqual(succeed([*away(), "ls", "-A", TOP]), "")

    def test_they_are_packed_again_to_the_byte(self):
        """They are packed in this folder, by another Python, and in a copy of the repository."""
        shutil.copytree(TOP, self.folder / "another", symlinks=True, ignore=without_what_is_made)
        folders = packed("packages"), packed("again", by=shutil.which("python3", path="/usr/bin") or sys.executable), packed("another", self.folder / "another/bindings")
        first, *others = ({it.name: it.read_bytes() for it in made.iterdir()} for made in folders)
        self.assertEqual(len(first), 3)
        for other in others:
            self.assertEqual(sorted(other), sorted(first))
            self.assertEqual([name for name in first if other[name] != first[name]], [])

    def test_each_file_has_a_checksum(self):
        """PROVED has the right checksum of every file except itself and what lists it."""
        need("dpkg-deb")
        unpacked, wheel, root = self.unpacked(), self.folder / "wheel", self.folder / "root"
        shutil.unpack_archive(package(".whl"), wheel, "zip")
        succeed(["dpkg-deb", "-x", package(".deb"), root])
        for at, place in ((unpacked, "PROVED"), (wheel, "goblin_pe/PROVED"), (root, "usr/share/doc/goblin-pe/PROVED")):
            with self.subTest(place):
                text = (at / place).read_text("utf-8")
                command, = re.findall("(?m)^sed -n .*$", text)
                checked = succeed(["sh", "-c", command], cwd=at).splitlines()
                files = {str(it.relative_to(at)) for it in at.rglob("*") if it.is_file() and not it.is_symlink()}
                self.assertEqual({it.removesuffix(": OK") for it in checked}, {it for it in files if it != place and not it.endswith("/RECORD")})

    def test_each_has_a_text_and_examples(self):
        unpacked = self.unpacked()
        files = {str(it.relative_to(unpacked)) for it in unpacked.rglob("*")}
        self.assertLessEqual({"LICENSE", "PROVED", "SECURITY.md", "CHANGELOG.md", "rust/README.md", "rust/LICENSE", "rust/examples/scan.rs", "share/doc/goblin-pe/README.md",
                              "share/doc/goblin-pe/examples/libraries.c"}, files)
        wheel = zipfile.ZipFile(package(".whl"))
        metadata, = (it for it in wheel.namelist() if it.endswith("/METADATA"))
        self.assertIn((BINDINGS / "python/README.md").read_text("utf-8"), wheel.read(metadata).decode())
        need("dpkg-deb")
        succeed(["dpkg-deb", "-x", package(".deb"), self.folder / "root"])
        doc = self.folder / "root/usr/share/doc/goblin-pe"
        self.assertEqual(sorted(it.name for it in doc.iterdir()),
                         ["CHANGELOG.md", "PROVED", "README.md", "README.python.md", "README.rust.md", "SECURITY.md", "changelog.gz", "copyright",
                          "examples"])
        self.assertLessEqual({it.name for it in (BINDINGS / "python/examples").glob("*.py")}, {it.name for it in (doc / "examples").iterdir()})

    def test_the_wheel(self):
        made = self.folder / "environment"
        succeed([python(), "-m", "venv", made])
        succeed([*away(), made / "bin/pip", "install", "-q", "--no-index", package(".whl")], cwd="/", env={})
        self.assert_is_listed_by(made / "bin/python", "-m", "goblin_pe", env={})

    def test_the_library_of_the_tar(self):
        need("pkg-config")
        self.assert_links(PKG_CONFIG_LIBDIR=str(self.unpacked() / "lib/pkgconfig"))

    def test_the_crate_of_the_tar(self):
        need("cargo")
        crate, user = self.unpacked() / "rust", self.folder / "user"
        shutil.rmtree(crate.parent / "lib")  # (It contains the archive.)
        succeed(["cargo", "new", "-q", "--vcs", "none", user])
        shutil.copy(crate / "examples/imports.rs", user / "src/main.rs")
        manifest, env = ["--manifest-path", user / "Cargo.toml"], environment(PKG_CONFIG_LIBDIR="/", CARGO_TARGET_DIR=str(self.folder / "target"))
        succeed([*away(), "cargo", "add", "-q", "--offline", *manifest, "--path", crate], env=env)
        succeed([*away(), *CARGO[:-1], "build", *manifest], env=env)
        printed = b"%s      0 0x000020a8 KERNEL32.dll GetTickCount\n%s: 0 skipped, 0 lead nowhere\n" % ((str(self.sample).encode(),) * 2)
        self.assert_runs([*away(), self.folder / "target/debug/user", self.sample], (0, printed, b""), cwd="/")

    def test_the_package_for_debian(self):
        """dpkg installs it into a root that has, for dpkg, only the C library of this machine."""
        need("dpkg", "dpkg-deb", "pkg-config")
        if not away():
            self.skipTest("no unshare that hides a folder, and lets dpkg install")
        root, made = self.folder / "root", package(".deb")
        (root / "var/lib/dpkg").mkdir(parents=True)
        (root / "var/lib/dpkg/status").write_text(status_of("libc6") + "\n", "utf-8")
        env = environment(PATH=os.environ["PATH"] + ":/usr/sbin:/sbin")
        succeed([*away(), "dpkg", "--root", root, "--log=/dev/null", "-i", made], env=env)
        self.assertEqual(succeed(["dpkg-query", "--admindir", root / "var/lib/dpkg", "-W", "-f", "${Status}", "goblin-pe"]), "install ok installed")
        self.assertEqual(succeed(["dpkg", "--root", root, "--verify", "goblin-pe"]), "")
        libraries = root / f"usr/lib/{platform.machine()}-linux-gnu"
        self.assert_links(PKG_CONFIG_LIBDIR=str(libraries / "pkgconfig"), PKG_CONFIG_SYSROOT_DIR=str(root))
        modules = root / "usr/lib/python3/dist-packages"
        printed = succeed([python(), "-c", "import importlib.metadata as m; print(m.metadata('goblin_pe')['License-Expression'])"],
                          env={"PYTHONPATH": str(modules)})
        self.assertEqual(printed, "MIT\n")
        self.assert_is_listed_by(python(), "-B", "-m", "goblin_pe", env={"PYTHONPATH": str(modules)})
        if platform.machine() == "x86_64":
            self.assertEqual(succeed(["dpkg-deb", "-f", made, "Architecture"]), "amd64\n")
        # (what Python keeps goes with it)
        succeed([python(), "-c", "import goblin_pe"], env={"PYTHONPATH": str(modules)})
        self.assertTrue((modules / "goblin_pe/__pycache__").exists())
        succeed([*away(), "dpkg", "--root", root, "--log=/dev/null", "--force-script-chrootless", "-r", "goblin-pe"], env=env)
        self.assertEqual([it for it in root.rglob("*") if "goblin" in it.name and "var" not in it.parts], [])

    def test_the_package_for_debian_keeps_its_rules(self):
        """Programs that link with the library depend on this package, and ldconfig runs after its installation."""
        need("dpkg-deb")
        succeed(["dpkg-deb", "-e", package(".deb"), self.folder / "control"])
        shared, = (library().glob("libgoblin_pe.so.*"))
        version = succeed(["dpkg-deb", "-f", package(".deb"), "Version"]).strip()
        self.assertEqual((self.folder / "control/shlibs").read_text("ascii"),
                         f"libgoblin_pe {shared.name.partition('.so.')[2]} goblin-pe (= {version})\n")
        self.assertEqual((self.folder / "control/triggers").read_text("ascii"), "activate-noawait ldconfig\n")
        need("lintian")
        status, out, errors = run(["lintian", "--allow-root", "--fail-on", "error,warning", package(".deb")], env=environment(LC_ALL="C"))
        self.assertEqual((status, out), (0, b""), errors)


RT = """#!/bin/sh
echo "$(dirname "$(dirname "$(readlink -f "$0")")")/START-HERE.md"
"""
# The messages of a gate that kept nothing from earlier runs.
GATE = ["rt: goblin_base proved", "rt: goblin_base: its tests are proved", "rt: goblin_pe proved",
        "rt: ok; handles allowed: none; must-fail edits: 2 refused; every proof and must-fail edit was done in this run", "9 passed, 0 failed"]


class Releases(Case):
    """bindings/package in a small repository of its own. A short gate and a short build replace the real ones."""

    def setUp(self):
        need("git", "cargo")
        super().setUp()
        self.top, self.kit, self.out, self.made = self.folder / "a copy", self.folder / "kit", self.folder / "out", library()
        shutil.copytree(BINDINGS, self.top / "bindings", ignore=shutil.ignore_patterns("lib", "target", "__pycache__"))
        for it in ("LICENSE", "SECURITY.md", "CHANGELOG.md", ".gitignore"):
            shutil.copy(TOP / it, self.top)
        for it in "one", "two":
            (self.top / "crates" / it / "must-fail").mkdir(parents=True)
            (self.top / "crates" / it / "must-fail/wrong.edit").write_text("file: src/lib.rt\n", "ascii")
        self.git("init", "-q")
        self.commit()
        (self.kit / "bin").mkdir(parents=True)
        self.written("kit/bin/rt", RT.encode()).chmod(0o755)
        self.written("kit/KIT-ID", b"a kit for this test\n")
        path = unittest.mock.patch.dict(os.environ, {"PATH": f"{self.kit}/bin:{os.environ['PATH']}"})
        path.start()
        self.addCleanup(path.stop)

    def git(self, *words):
        return succeed(["git", "-C", self.top, "-c", "user.name=a", "-c", "user.email=a", *words]).strip()

    def commit(self):
        self.git("add", "-A")
        self.git("commit", "-q", "-m", "a commit")
        return self.git("rev-parse", "HEAD")

    def package(self, *words, gate=lambda clone, env: (GATE, 0), **how):
        """The packed files by their names. On one day they are the same whenever they are made."""
        shutil.rmtree(self.out, ignore_errors=True)
        package = runpy.run_path(str(BINDINGS / "package"))
        build = lambda clone, env: pathlib.Path(shutil.copytree(self.made, clone / "bindings/lib"))
        try:
            package["release"](self.out, *words, gate=gate, build=build, **{"top": self.top, **how})
        except package["Refused"] as reason:
            self.assertFalse(self.out.exists())
            return str(reason)
        return {it.name: it.read_bytes() for it in self.out.iterdir()}

    def proved(self):
        archive, = (it for it in self.out.glob("*.tar.gz") if "source" not in it.name)
        shutil.unpack_archive(archive, self.folder / "unpacked")
        text, = (self.folder / "unpacked").glob("*/PROVED")
        return text.read_text("utf-8")

    def spoil(self):
        """Changes every tracked file, adds files that would be packed, and hides all of this from git."""
        for it in filter(None, self.git("ls-files", "-z").split("\0")):
            with (self.top / it).open("ab") as file:
                file.write(b"\n# other\n")
        for it in ("python/goblin_pe/more.py", "rust/src/more.rs", "c/examples/more.c", "lib/libgoblin_pe.a"):
            (self.top / "bindings" / it).parent.mkdir(exist_ok=True)
            (self.top / "bindings" / it).write_bytes(b"other")
        (self.top / ".git/info/exclude").write_text("more.*\n", "ascii")
        self.git("config", "status.showUntrackedFiles", "no")
        self.git("update-index", "--assume-unchanged", "SECURITY.md", "bindings/c/goblin_pe.h")
        self.git("add", "bindings/python")
        (self.top / ".git/index").write_bytes(b"no index")

    def test_nothing_of_the_working_tree_is_packed(self):
        wanted = self.package()
        self.assertEqual(len(wanted), 4)
        self.spoil()
        self.assertEqual(self.package(), wanted)

    def test_the_sources_are_those_of_the_commit(self):
        """All of them, as git has them."""
        self.package()
        self.spoil()
        shutil.unpack_archive(next(self.out.glob("*-source.tar.gz")), self.folder / "unpacked")
        made, = (self.folder / "unpacked").iterdir()
        files = {str(it.relative_to(made)): (it.read_bytes(), it.stat().st_mode & 0o100) for it in made.rglob("*") if it.is_file()}
        rows = (it.split() for it in self.git("ls-tree", "-r", "HEAD").splitlines())
        sums = {place: (name, int(mode, 8) & 0o100) for mode, _, name, place in rows}
        blob = lambda data: hashlib.sha1(b"blob %d\0" % len(data) + data).hexdigest()
        self.assertEqual({place: (blob(data), mode) for place, (data, mode) in files.items()}, sums)

    def test_a_branch_that_changes_meanwhile(self):
        first = self.git("rev-parse", "HEAD")
        (self.top / "LICENSE").write_text("other\n", "ascii")
        self.commit()
        wanted = self.package(first)

        def gate(clone, env):
            self.git("reset", "-q", "--hard", "HEAD~0")
            self.git("update-ref", "refs/heads/another", first)
            self.spoil()
            return GATE, 0

        self.assertEqual(self.package(first, gate=gate), wanted)
        self.assertIn(f"commit          {first}\n", self.proved())

    def test_the_gate_runs_where_nothing_was_built(self):
        (self.top / "crates/some/out/rlib").mkdir(parents=True)
        (self.folder / "rattle-kept").mkdir()
        seen = []

        def gate(clone, env):
            kit = pathlib.Path(shutil.which("rt", path=env["PATH"])).resolve().parent.parent
            seen.append((list(clone.rglob("out")), (kit.parent / "rattle-kept").exists(), kit == self.kit, clone == self.top,
                         [it for it in env if it.startswith(("GOBLIN_PE_", "RT_", "GIT_DIR", "CPATH"))]))
            return GATE, 0

        with unittest.mock.patch.dict(os.environ, GOBLIN_PE_LIB="/else", RT_BACKEND="rattle", GIT_DIR="/else", CPATH="/else"):
            self.package(gate=gate)
        self.assertEqual(seen, [([], False, False, False, [])])

    def test_a_gate_that_did_not_pass_or_kept_something(self):
        for lines, status in ((GATE, 1), ([*GATE[:-1], "9 passed, 1 failed"], 1), ([*GATE[:-1], "0 passed, 0 failed"], 0), ([], 0),
                              ([*GATE[:-1], "quick: 9 passed, 0 failed"], 0), (GATE[3:], 0), ([*GATE[:3], GATE[-1]], 0),
                              ([it.replace("2 refused", "1 refused, 1 bad") for it in GATE], 0),
                              (["rt: goblin_base is kept: an earlier run on this machine proved the same files", *GATE[2:]], 0)):
            with self.subTest(lines=lines, status=status):
                self.assertIn("the gate", self.package(gate=lambda clone, env: (lines, status)))

    def test_the_text_says_what_was_seen(self):
        self.package(gate=lambda clone, env: (["skipped: a test: no tool", *GATE], 0))
        text = self.proved()
        for it in (self.git("rev-parse", "HEAD"), *GATE[3:], "3 of crates and of their tests, and 2 wrong bodies", "tests skipped   1\n", " ".join(CC) + ": ", "a kit for this test",
                   *(f"{hashlib.sha256(it.read_bytes()).hexdigest()}  {it.name}\n" for it in library().iterdir())):
            self.assertIn(it, text)

    def test_what_leads_out_of_the_commit(self):
        self.assertIn("is not the top of a git repository", self.package(top=self.top / "bindings"))
        (self.top / "bindings/c/goblin_pe_calls.c").unlink()
        (self.top / "bindings/c/goblin_pe_calls.c").symlink_to("/dev/null")
        self.commit()
        self.assertEqual(self.package(), "the commit leads to files outside of it: bindings/c/goblin_pe_calls.c")

    def test_a_kit_or_a_clone_that_changes_meanwhile(self):
        for change in (lambda clone: self.written("kit/KIT-ID", b"another\n"), lambda clone: (clone / "LICENSE").write_bytes(b""),
                       lambda clone: (clone / "bindings/rust/src/more.rs").write_bytes(b"")):
            self.assertEqual(self.package(gate=lambda clone, env: (change(clone), (GATE, 0))[1]), "the kit or the clone has changed meanwhile")

    def test_without_a_kit(self):
        tools = self.folder / "tools"
        tools.mkdir()
        for it in ("sh", "env", "git", "dirname", "mktemp", "cat", "rm"):
            (tools / it).symlink_to(shutil.which(it))
        (tools / "python3").symlink_to(sys.executable)
        for it in ("package", "build"):
            status, _, errors = run([BINDINGS / it, self.out], env=environment(PATH=str(tools)))
            self.assertEqual((status, self.out.exists()), (1, False))
            self.assertIn("%s: there is no rt on the path: README.md says what is needed, under 'Get it'" % it, errors.decode().splitlines())
