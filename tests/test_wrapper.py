"""The scripts ./pe_list and ./test that users call, with a toolchain whose answers are set by the tests."""
import os
import shutil
import sys

from tests.programs import CRATES, PE_LIST, SAMPLES, TOP, Case, beside, build_pe_list, run

SAMPLE = SAMPLES / "program_x64.exe"
LISTING = beside(SAMPLE, "listing")
RT = b"""#!/bin/sh
echo "$*" >> "$HERE/called"
case $1 in
help) echo "ci [--anew]" ;;
try) cat > /dev/null; cat "$HERE/tried"; printf '%s' "$RT_LINE" >&2; echo "run=ended status=${RT_STATUS:-0} runners=1 proved=no" >&2 ;;
run) mkdir -p out && cp "$PROGRAM" out/pe_list ;;
ci) ls crates/*/out >> "$HERE/called"; echo "rt: ok; must-fail edits: ${RT_REFUSED:-2} refused; all"; echo "${RT_COUNTS:-3 passed, 0 failed}" ;;
esac
"""
NOT_PROVED = "pe_list: not proved: ./pe_list --prove proves and builds the program\n"


class Copy(Case):
    """A copy of the repository in which nothing is built, and a toolchain that records its calls."""

    def setUp(self):
        super().setUp()
        for it in ("samples", "bin", "temporary", *(f"crates/{crate.name}/src" for crate in CRATES.iterdir())):
            (self.folder / it).mkdir(parents=True)
        for it in ("pe_list", "test", "crates.txt", "HANDLES", "tools", "samples/program_x64.exe"):
            (shutil.copytree if (TOP / it).is_dir() else shutil.copy)(TOP / it, self.folder / it)
        self.written("bin/rt", RT).chmod(0o755)
        self.written("tried", LISTING)
        self.env = {**os.environ, "PATH": f"{self.folder}/bin:{os.environ['PATH']}", "TMPDIR": f"{self.folder}/temporary",
                    "HERE": str(self.folder), "PROGRAM": str(PE_LIST)}

    def called(self):
        """The calls of the toolchain since the last question."""
        file = self.folder / "called"
        calls = file.read_text("utf-8").splitlines() if file.exists() else []
        file.unlink(missing_ok=True)
        return calls


class Lists(Copy):
    @classmethod
    def setUpClass(cls):
        build_pe_list()

    def assert_calls(self, status, out, errors, *words, stdin=SAMPLE, **more):
        """The script ends with this status, output and standard error, and leaves no temporary file."""
        self.assert_runs([self.folder / "pe_list", *words], (status, out, errors.encode()), stdin, env={**self.env, **more})
        self.assertEqual(os.listdir(self.folder / "temporary"), [])

    def test_the_built_program(self):
        self.assert_runs([TOP / "pe_list"], (0, LISTING, b""), SAMPLE)

    def test_it_lists_unproved_and_says_so(self):
        self.assert_calls(0, LISTING, NOT_PROVED)
        self.assertEqual(self.called(), ["try --"])

    def test_it_proves_where_that_is_asked_for(self):
        for words, wanted in ((["--prove"], ["run"]), (["--prove"], [])):
            self.assert_calls(0, b"", "", *words)
            self.assertEqual(self.called(), wanted)
        self.assert_calls(0, LISTING, "")
        self.assertEqual(self.called(), [])

    def test_a_source_that_is_newer(self):
        self.assert_calls(0, b"", "", "--prove")
        os.utime(self.written("crates/goblin_base/src/lib.rt", b""), (2 ** 32, 2 ** 32))
        self.assert_calls(0, LISTING, NOT_PROVED)

    def test_what_the_program_says(self):
        self.written("tried", b"")
        self.assert_calls(1, b"", "refused\n" + NOT_PROVED, stdin=TOP / "LICENSE", RT_STATUS="1", RT_LINE="refused\n")
        self.assert_calls(2, b"", "usage: x\n" + NOT_PROVED, "x", RT_STATUS="2", RT_LINE="usage: x\n")

    def test_no_answer(self):
        self.written("tried", b"")
        self.assert_calls(1, b"", "pe_list: the unproved program gave no answer: run=ended status=none runners=1 proved=no. "
                          "./pe_list --prove proves and builds it\n", RT_STATUS="none")

    def test_a_proof_that_fails(self):
        self.written("bin/rt", b"#!/bin/sh\nexit 1\n")
        self.assert_calls(1, b"", "pe_list: the program is not proved\n", "--prove")

    def test_without_a_toolchain(self):
        (self.folder / "bin/rt").unlink()
        for it in ("sh", "env", "dirname"):
            (self.folder / "bin" / it).symlink_to(shutil.which(it))
        (self.folder / "bin/python3").symlink_to(sys.executable)
        errors = "pe_list: there is no rt on the path: README.md says what is needed, under 'Get it'\n"
        self.assert_calls(1, b"", errors, PATH=f"{self.folder}/bin")


class Gate(Copy):
    """./test with a Python that runs no tests."""

    def setUp(self):
        super().setUp()
        self.written("bin/python3", b'#!/bin/sh\necho "$*" >> "$HERE/called"\necho "2 passed, 0 failed"\n').chmod(0o755)
        self.written("bin/cargo", b"").chmod(0o755)
        for crate in "goblin_base", "pe_list":
            (self.folder / "crates" / crate / "must-fail").mkdir()
            self.written(f"crates/{crate}/must-fail/wrong.edit", b"")
        for it in ("rlib/stamp", "incremental/proof", "pe_list"):
            (self.folder / "crates/pe_list/out" / it).parent.mkdir(parents=True, exist_ok=True)
            self.written("crates/pe_list/out/" + it, b"forged")

    def gate(self, *words, **more):
        status, out, errors = run([self.folder / "test", *words], env={**self.env, **more})
        return status, (out + errors).decode().splitlines()[-1], self.called()

    def test_what_was_built_before_is_removed(self):
        """Kept proofs stay, because the gate sets them aside."""
        self.assertEqual(self.gate(), (0, "7 passed, 0 failed", ["-m tests.unproved", "ci", "incremental", "-m tests"]))
        self.assertEqual(self.gate("--anew")[2], ["-m tests.unproved", "help", "ci --anew", "incremental", "-m tests"])

    def test_a_folder_that_is_a_link(self):
        """The link is removed, and its target stays."""
        shutil.move(self.folder / "crates/pe_list/out", self.folder / "other")
        (self.folder / "crates/pe_list/out").symlink_to(self.folder / "other")
        self.gate()
        self.assertEqual((self.folder / "crates/pe_list/out").exists(), False)
        self.assertTrue((self.folder / "other/rlib/stamp").exists())

    def test_a_gate_that_fails(self):
        self.assertEqual(self.gate(RT_COUNTS="3 passed, 1 failed")[:2], (1, "7 passed, 1 failed"))

    def test_a_wrong_body_that_was_not_tried(self):
        """The toolchain passes an edit that does not compile."""
        self.assertEqual(self.gate(RT_REFUSED="1")[:2], (1, "7 passed, 1 failed"))

    def test_the_quick_part_is_not_the_gate(self):
        self.assertEqual(self.gate("--quick"), (0, "quick: 2 passed, 0 failed", ["-m tests.unproved"]))
        self.assertTrue((self.folder / "crates/pe_list/out/rlib/stamp").exists())

    def test_a_part_that_would_be_skipped(self):
        lacking = {"CC": "no-such-compiler"}
        self.assertEqual(self.gate(**lacking), (1, "test: there is no no-such-compiler on the path: README.md says what is needed, under 'Get it'", []))
        self.assertEqual(self.gate("--allow-missing", **lacking)[2][-1], "-m tests --allow-missing")
        self.assertEqual(self.gate("--quick", **lacking)[0], 0)

    def test_a_wrong_use(self):
        self.assertEqual(self.gate("--fast"), (2, "usage: test [--quick] [--anew] [--allow-missing]", []))
