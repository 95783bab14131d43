"""What goblin has does not depend on what is added to it: no file outside the folders `added` names one of them, calls a method in
one, or quotes what one declares in a comment. ARCHITECTURE.md says how many lines both have."""
import re
import unittest

from tests.programs import CRATES, TOP

GOBLIN = ("goblin_base", "readings", "goblin_pe_sect", "goblin_pe_symbol", "goblin_pe_head", "goblin_pe_import", "goblin_pe_export",
          "goblin_pe")
FOR_C = ("goblin_pe_c_headers", "goblin_pe_c_tables", "goblin_pe_capi")
NAMED = re.compile(r"\b(?:specs|proofs|declared|crate|super|self|readings|base|sect|symbol|head|import|export|goblin_\w+)(?:::|\.)added\b|\badded::|[{,]\s*added\s*[,}:.]")


def files(part, crates, added):
    """The files of one part of the crates, outside the folders `added` or inside."""
    return [it for crate in crates for it in sorted((CRATES / crate / part).glob("**/*.*t"))
            if ("added" in it.with_suffix("").parts) == added and it.suffix in (".rt", ".antt")]


def code(file):
    return re.sub(r"(?m)(//|--).*$", "", file.read_text("utf-8"))


def methods(text):
    """The type and the name of each method in these sources."""
    for kind, body in re.findall(r"(?ms)^impl(?:<[^>]*>)? (\w+)(?:<[^{]*>)? \{\n(.*?)^\}", text):
        yield from ((kind, name) for name in re.findall(r"\bfn (\w+)", body))


class Added(unittest.TestCase):
    def setUp(self):
        self.added, self.others = ("\n".join(map(code, files("src", GOBLIN, added))) for added in (True, False))
        self.rest = [it for part in ("src", "specs", "proofs") for it in files(part, (*GOBLIN, "pe_listing", "pe_list"), False)]

    def test_what_goblin_has_names_nothing_that_is_added(self):
        for file in self.rest:
            with self.subTest(file.relative_to(CRATES)):
                self.assertNotRegex(code(file), NAMED)

    def test_what_goblin_has_calls_no_method_that_is_added(self):
        for kind, name in methods(self.added):
            if re.search(rf"\b(?:struct|enum) {kind}\b", self.others):
                with self.subTest(f"{kind}::{name}"):
                    self.assertNotRegex(self.others, rf"(?:{kind}::|Self::|\.){name}\b[(:]")

    def test_what_goblin_has_quotes_nothing_that_is_added(self):
        items = set(re.findall(r"(?m)^pub(?:\(\w+\))? (?:fn|struct|enum|const|trait|type) (\w+)", self.added))
        items |= {"::".join(it) for it in methods(self.added)}
        for file in self.rest:
            comments = " ".join(re.findall(r"(?://|--).*", file.read_text("utf-8")))
            quoted = {name for it in re.findall(r"`([\w:]+)", comments) for name in (*it.split("::"), "::".join(it.split("::")[-2:]))}
            with self.subTest(file.relative_to(CRATES)):
                self.assertFalse(items & quoted)

    def test_the_lines_are_counted(self):
        text = (TOP / "docs/ARCHITECTURE.md").read_text("utf-8")
        for name, added in (("What goblin has", False), ("What is added", True)):
            written = re.search(rf"\| {name} \| ([\d,]+) \| ([\d,]+) \| ([\d,]+) \|", text).groups()
            for part, number in zip(("src", "specs", "proofs"), written):
                counted = sum(it.read_text("utf-8").count("\n") for it in files(part, GOBLIN, added) + added * files(part, FOR_C, False))
                with self.subTest(f"{name}, {part}: {counted}"):
                    self.assertLessEqual(abs(int(number.replace(",", "")) - counted), counted / 50)


if __name__ == "__main__":
    unittest.main()
