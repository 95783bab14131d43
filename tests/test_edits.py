"""The wrong bodies. The gate passes even if an edit can't be applied, so this is tested here."""
import unittest

from tests.programs import CRATES, TOP


class Edits(unittest.TestCase):
    def test_each_text_to_be_replaced_occurs_once(self):
        edits = sorted(CRATES.glob("*/must-fail/*.edit"))
        self.assertIn(f"refuse {len(edits)} wrong bodies", (TOP / "README.md").read_text("utf-8"))
        for edit in edits:
            file, *changes = edit.read_text("utf-8").splitlines()
            source = (edit.parent.parent / file.removeprefix("file: ")).read_text("utf-8")
            old = [line.removeprefix("old: ") for line in changes if line.startswith("old: ")]
            with self.subTest(edit.name):
                self.assertEqual([source.count(text) for text in old], [1] * (len(changes) // 2))
