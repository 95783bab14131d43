"""The page for users in Rattle, whose code is that of goblin_pe_examples."""
import re

from tests.programs import CRATES, TOP, Case

PAGE = TOP / "docs/CALLERS.md"


class Page(Case):
    def test_its_code_is_that_of_the_crate(self):
        sources = "\n".join(it.read_text("utf-8") for it in sorted((CRATES / "goblin_pe_examples").glob("[sp]*/**/*")) if it.suffix in (".rt", ".antt"))
        for language, code in re.findall(r"(?ms)^```(\w+)\n(.*?)^```", PAGE.read_text("utf-8")):
            if language in ("rust", "antt"):
                for piece in re.split(r"(?m)^ *\.\.\n", code):
                    with self.subTest(piece=piece.splitlines()[0]):
                        self.assertIn(piece, sources)

    def test_each_word_is_in_its_file(self):
        """The file is one of goblin_pe, or one of a crate below, under the name that goblin_pe has for it."""
        specs = CRATES / "goblin_pe/specs"
        below = {name: CRATES / crate / "specs"
                 for crate, name in re.findall(r"(?m)^pub use Rattle\.(\w+)\.specs as (\w+)$", (specs / "Lib.antt").read_text("utf-8"))}
        table, = re.findall(r"(?ms)^Word \| File\n\S+\n(.*?)\n\n", PAGE.read_text("utf-8"))
        for row in table.splitlines():
            words, names = (cell.split("; ") for cell in row.strip("| ").split(" | "))
            for group, name in zip(words, names, strict=True):
                first, _, rest = name.strip("`").partition("/")
                file = below[first] / rest if first in below else specs / name.strip("`")
                for word in re.findall("`(.*?)`", group):
                    with self.subTest(word=word):
                        self.assertRegex(file.with_suffix(".antt").read_text("utf-8"), rf"(?m)^[\w ]*\bpub (\w+ )?◌?{re.escape(word)}◌? ")
