"""The library for C, Rust and Python is built over the proved libraries, and is the same wherever it is built."""
import os
import shutil

from tests.bindings import library
from tests.programs import CC, CRATES, TOP, Case, environment, is_kept, need, succeed


class Built(Case):
    """The library that bindings/build makes over the proved libraries."""

    def copied(self, below):
        """A copy of its sources in a folder whose path has a space. The libraries below it stay in place."""
        top = self.folder / "another one"
        sources = [f"crates/{crate}/{part}" for crate in (*below, "goblin_pe_capi") for part in ("src", "specs", "proofs")]
        kept = "crates/goblin_pe_capi/out/incremental"  # (proofs; nothing of it is compiled)
        for it in ("tools", "bindings", *sources, kept):
            if (TOP / it).exists():
                shutil.copytree(TOP / it, top / it, ignore=shutil.ignore_patterns("lib", "target", "__pycache__"))
        for it in ("crates.txt", "HANDLES"):
            shutil.copy2(TOP / it, top / it)
        for it in below:
            (top / "crates" / it / "out").mkdir()
            (top / "crates" / it / "out/rlib").symlink_to(CRATES / it / "out/rlib")
        return top

    def test_another_folder_makes_the_same_library(self):
        """The bytes are the same, and no library below is proved again."""
        if "GOBLIN_PE_LIB" in os.environ:
            self.skipTest("GOBLIN_PE_LIB names a library that need not be built of these sources")
        need(CC)  # (for the shared library)
        library()
        below = succeed([TOP / "tools/over_libraries", "below", "goblin_pe_capi"]).split()
        if not all(is_kept(it) for it in below):
            self.skipTest("the libraries below goblin_pe_capi are not kept in crates/*/out")
        self.written("rt", b'#!/bin/sh\n[ "$1" = doc ] && exec "%s" doc\nexit 1\n' % shutil.which("rt").encode()).chmod(0o755)
        succeed([self.copied(below) / "bindings/build", self.folder / "lib"], env=environment(PATH=f"{self.folder}:{os.environ['PATH']}"))
        made, again = ({it.name: it.read_bytes() for it in folder.iterdir()} for folder in (library(), self.folder / "lib"))
        self.assertEqual(sorted(again), sorted(made))
        self.assertEqual([name for name in made if again[name] != made[name]], [])
