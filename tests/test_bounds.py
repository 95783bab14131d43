"""One call reads where a piece of the address space begins, and counts its probes. A body that reads it elsewhere does not compile,
so it can't be among the wrong bodies."""
import shutil

from tests.programs import CRATES, TOP, Case, is_kept, need, run

BELOW = ("goblin_base", "readings")


class Bounds(Case):
    """The crate of the index with one line changed, over the proved libraries below it."""

    def setUp(self):
        super().setUp()
        need("rt")
        if not all(is_kept(it) for it in BELOW):
            self.skipTest("the libraries below goblin_pe_sect are not kept in crates/*/out")

    def said_of(self, old, new):
        """The messages of the prover for the crate with this text as its index."""
        top = self.folder / "copy"
        for part in ("src", "specs", "proofs"):
            shutil.copytree(CRATES / "goblin_pe_sect" / part, top / "crates/goblin_pe_sect" / part)
        for it in BELOW:
            for part in filter(lambda part: (CRATES / it / part).exists(), ("src", "specs", "proofs")):
                shutil.copytree(CRATES / it / part, top / "crates" / it / part)
            (top / "crates" / it / "out").mkdir(parents=True)
            (top / "crates" / it / "out/rlib").symlink_to(CRATES / it / "out/rlib")
        shutil.copytree(TOP / "tools", top / "tools")
        for it in ("crates.txt", "HANDLES"):
            shutil.copy2(TOP / it, top)
        index = top / "crates/goblin_pe_sect/src/windows.rt"
        source = index.read_text("utf-8")
        self.assertEqual(source.count(old), 1)
        index.write_text(source.replace(old, new), "utf-8")
        build = [top / "tools/over_libraries", "build", "goblin_pe_sect", "--jobs", "1", "-o", self.folder / "made"]
        _, _, errors = run(build, cwd=index.parent.parent)
        shutil.rmtree(top)
        return errors.decode()

    def test_no_other_module_reads_where_a_piece_begins(self):
        for old, new, reason in (
                ("self.pieces.len()\n", "self.pieces[0].begin\n", "field `begin` of struct `Piece` is private"),
                ("let mut high = bounds.len();", "let mut high = bounds.pieces.len();", "field `pieces` of struct `Bounds` is private")):
            with self.subTest(new):
                self.assertRegex(self.said_of(old, new), rf"src/windows\.rt:\d+:\d+: error\[private-field\]: {reason}")
