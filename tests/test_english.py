"""Documents, the header for C and doc comments have none of the phrases that make sentences hard to read."""
import ast
import re
import unittest

from tests.bindings import BINDINGS
from tests.programs import CRATES, TOP

# No sentence begins like this one: 'Refused is a file that ..'
OPENING = r"(?:^|(?<=[.:;!?|*-] ))(?:Refused (?:is|are)|Of an?|Of which|By which|Who)\b"
# ('stands in' and 'stands for' are allowed)
PHRASES = re.compile(OPENING + r"|(?i:\b(?:(?:is|are) told|tells of|stands?(?! (?:in|for)\b|-in\b)|go(?:es)? by|but for|of which"
                               r"|as of|none of it|so many)\b)")
MARK = r"(?m)^ *(?://[/!]|/\*|\*(?!\*)) ?"


def docstrings(text):
    return (ast.get_docstring(it) for it in ast.walk(ast.parse(text)) if isinstance(it, (ast.Module, ast.ClassDef, ast.FunctionDef)))


def texts():
    """Each file with the text of it that users read."""
    for it in [*TOP.glob("*.md"), *TOP.glob("docs/*.md"), *BINDINGS.glob("*/README.md"), BINDINGS / "c/goblin_pe.h"]:
        yield it, re.sub(MARK, "", it.read_text("utf-8"))
    for it in [*CRATES.glob("*/src/**/*.rt"), *BINDINGS.glob("rust/src/**/*.rs")]:
        yield it, re.sub(MARK, "", re.sub(r"(?m)^(?! *//[/!]).*$", "", it.read_text("utf-8")))
    for it in BINDINGS.glob("python/goblin_pe/*.py"):
        yield it, "\n\n".join(filter(None, docstrings(it.read_text("utf-8"))))


class English(unittest.TestCase):
    def test_no_phrase_is_used(self):
        for path, text in texts():
            paragraphs = (" ".join(it.split()) for it in re.split(r"\n\s*\n|\n(?= *(?:[-#|]|\d+\.) ?)", text))
            with self.subTest(path=str(path.relative_to(TOP))):
                self.assertEqual([it[max(0, found.start() - 40):found.end() + 40] for it in paragraphs for found in PHRASES.finditer(it)], [])


if __name__ == "__main__":
    unittest.main()
