"""The package for Python, and its program."""
import contextlib
import importlib
import io
import json
import os
import pathlib
import pty
import re
import shutil
import signal
import subprocess
import sys
import unittest

from tests import hostile, images
from tests.bindings import BINDINGS, library, package
from tests.programs import (BY_NAME, CC, IMAGES, OBJECTS, SAMPLES, TERSE, Case, beside, environment, modes,
                            need, run, succeed, with_memory)

# A program in Python without a wrong type.
TYPED = b"""from typing import List, Optional
from goblin_pe import Budget, ErrorKind, Image, Options, Pe, PeError

def names(data: bytes) -> Optional[List[bytes]]:
    pe = Pe(data, Options(permissive=True), Budget(1000))
    if pe.skipped["exports"] or pe.image.optional_header is None:
        return None
    return [x.dll + b"." + (x.name or b"%d" % (x.ordinal or 0)) for x in pe.imports]

def is_out_of_steps(error: PeError) -> bool:
    return error.kind == ErrorKind.STEPS

"""


def setUpModule():
    need(CC)
    library()


def triaged_images():
    """The samples, and one with an overlay and a Rich header at the place where pefile looks for it."""
    data, size = BY_NAME.read_bytes(), 0x400
    signature = data.index(b"PE\0\0")
    moved = bytearray(data[:signature] + bytes(0x80 - signature) + data[signature: size - (0x80 - signature)] + data[size:])
    moved[0x3C] = 0x80
    rich = images.with_rich_header(moved, 0x12345678, [(0x1047809, 3), (0x930001, 7)])
    return {**{it.name: it.read_bytes() for it in IMAGES}, "rich.dll": bytes(rich) + b"an overlay"}


class Python(Case):
    def setUp(self):
        super().setUp()
        self.env = environment(GOBLIN_PE_SO=str(library() / "libgoblin_pe.so"), GOBLIN_PE_SAMPLES=str(SAMPLES),
                               PYTHONPATH=str(BINDINGS / "python"), PYTHONDONTWRITEBYTECODE="1")

    def lists(self, *words):
        return run([sys.executable, "-m", "goblin_pe", *words], env=self.env)

    def test_its_own_tests(self):
        succeed([sys.executable, "-X", "dev", "-m", "unittest", "-q", "test_goblin_pe"], env=self.env)

    def test_the_programs_of_its_readme(self):
        """They print the output that is below them in the text. On hostile files they end, too."""
        text = (BINDINGS / "python/README.md").read_text("utf-8")
        program, wanted = ("".join(re.findall(r"(?s)```%s\n(.*?)```" % it, text)) for it in ("python", "text"))
        files = [(data, data) for data in hostile.files(1)]
        for index, data in enumerate([(BY_NAME.read_bytes(), (SAMPLES / "object_x64.obj").read_bytes()), *files]):
            self.written("some.dll", data[0])
            self.written("some.obj", data[1])
            status, out, errors = run([sys.executable, "-c", program], env=self.env, cwd=self.folder)
            with self.subTest(index=index):
                self.assertEqual((status, errors), (0, b""))
                if not index:
                    self.assertEqual(out.decode(), wanted)


    def test_the_samples_are_listed(self):
        for sample in IMAGES:
            for words, wanted in modes(sample):
                with self.subTest(sample=sample.name, words=words):
                    self.assertEqual(self.lists("--mapping", "as-stored", *words, sample), (0, wanted, b""))
        for samples, kind in (OBJECTS, "symbols"), (TERSE, "listing"):
            for sample in samples:
                with self.subTest(sample=sample.name):
                    self.assertEqual(self.lists(sample), (0, beside(sample, kind), b""))

    def test_json_is_a_line_for_each_file(self):
        for index, data in enumerate(hostile.files(1)):
            status, out, errors = self.lists("--json", "--permissive", "--steps", "10000", "--longest-name", "512", self.written("some.dll", data))
            with self.subTest(index=index):
                self.assertEqual((status in (0, 1), out.count(b"\n"), errors), (True, 1, b""))
                self.assertEqual({*json.loads(out)} >= {"file", "refusal"}, True)

    def test_json_has_all_that_the_walks_give(self):
        package_, names = package(), ("imports", "libraries", "exports", "export_addresses", "relocation_blocks", "rich_entries", "symbols")
        for sample in IMAGES:
            found, image = json.loads(self.lists("--json", sample)[1]), package_.Image(sample.read_bytes())
            self.assertEqual((found["kind"], found["refusal"], found["ended_early"]), ("IMAGE", None, {}))
            for name in names:
                self.assertEqual(found[name], package_.jsonable([*getattr(image, name)()]), name)
            self.assertEqual(found["sections"], package_.jsonable(image.sections))
            self.assertEqual((found["skipped"], found["unmapped"]), (dict.fromkeys((*found["skipped"],), 0), found["skipped"]))
            self.assertEqual(found["export_directory"], package_.jsonable([*filter(None, [image.export_directory()])]))
        for samples, read in (OBJECTS, package_.Image.object), (TERSE, package_.Image.te):
            for sample in samples:
                found, image = json.loads(self.lists("--json", sample)[1]), read(sample.read_bytes())
                self.assertEqual(found["symbols"], package_.jsonable([*image.symbols()]))
                wanted = [{"section": s.index, **it._asdict()} for s in image.sections for it in s.relocations(image)]
                self.assertEqual((found["kind"], found["relocations"]), (package_.Kind.of(image.data).name, wanted))
                self.assertEqual((found["sections"], found["te_header"]), (package_.jsonable(image.sections), package_.jsonable(image.te_header)))

    def test_json_says_where_it_stopped(self):
        many = self.written("many.dll", bytes(images.shared_image(30, 100)))
        status, out, errors = self.lists("--json", "--steps", "500", many, BY_NAME)
        first, second = map(json.loads, out.splitlines())
        self.assertEqual((status, errors, second["ended_early"]), (1, b"", {}))
        self.assertEqual(first["ended_early"]["imports"], "imports: no steps are left")
        self.assertTrue(0 < len(first["imports"]) <= 500)
        # (sections and entries of the Rich header are steps, too)
        rich = self.written("rich.dll", triaged_images()["rich.dll"])
        for steps, wanted in (3, "header: no steps are left"), (5, "Rich header: no steps are left"):
            found = json.loads(self.lists("--json", "--steps", str(steps), rich)[1])
            self.assertIn(wanted, found["ended_early"].values())
        self.assertIn(b"a budget has from 0", self.lists("--steps", "-1", BY_NAME)[2])
        # (a file that is no image has no kind)
        self.assertEqual(json.loads(self.lists("--json", __file__)[1])["kind"], "UNKNOWN")
        # (a table that is refused ends no other)
        status, out, _ = self.lists("--json", self.written("damaged.dll", bytes(images.with_directory(BY_NAME.read_bytes(), 1, 0x9000, 40))))
        found = json.loads(out)
        wanted = dict.fromkeys(("imports", "libraries"), "imports: the address 0x9000 has no offset in the file")
        self.assertEqual((status, found["ended_early"]), (1, wanted))
        self.assertEqual(len(found["exports"]), 2)
        # (names are limited)
        long = self.written("long.dll", bytes(images.one_long_name(3, 10000)))
        self.assertEqual([len(it["name"]) for it in json.loads(self.lists("--json", long)[1])["sections"]], [4096] * 3)

    def test_several_files_are_listed_below_their_names(self):
        status, out, errors = self.lists(BY_NAME, self.folder / "none.dll", BY_NAME)
        listing = self.lists(BY_NAME)[1]
        name = f"file {BY_NAME}\n".encode()
        self.assertEqual((status, out), (1, name + listing + f"file {self.folder}/none.dll\n".encode() + name + listing))
        self.assertRegex(errors, rb"\Aread failed: .*none.dll'\n\Z")

    def test_the_program_is_written_by_what_the_package_offers(self):
        program = (BINDINGS / "python/goblin_pe/__main__.py").read_text("utf-8")
        imported = re.findall(r"(?m)^from (\..*) import (.*)$", program)
        self.assertEqual([it for it, _ in imported], ["."])
        self.assertLessEqual({*imported[0][1].split(", ")}, {*package().__all__})

    def test_its_help_tells_all_mappings_apart(self):
        status, out, _ = self.lists("--help")
        lines = [re.search(rf"(?m)^  {it.name.lower().replace('_', '-')} +(.*)$", out.decode()) for it in package().Mapping]
        self.assertEqual((status, len({it and it[1] for it in lines} - {None})), (0, len(package().Mapping)))

    def test_hostile_files_are_listed_or_refused_in_printable_characters(self):
        package()
        program = importlib.import_module("goblin_pe_of_bindings.__main__")
        for index, data in enumerate(hostile.files(10)):
            file = str(self.written("some.dll", data))
            for words in [], ["--permissive"], ["--permissive", "--mapping", "as-stored", "--longest-name", "200"]:
                with contextlib.redirect_stdout(io.StringIO()) as out, contextlib.redirect_stderr(out):
                    status = program.main([*words, "--steps", "100000", file])
                with self.subTest(index=index, words=words):
                    self.assertIn(status, (0, 1))
                    self.assertRegex(out.getvalue(), r"\A[ -~\n]*\Z")

    def test_output_that_can_not_be_written(self):
        for to, reason in (">&-", b"standard output is closed"), ("> /dev/full", b"[Errno 28] No space left on device"):
            for words in [], ["--json"]:
                command = ["sh", "-c", f'exec "$@" {to}', "sh", sys.executable, "-m", "goblin_pe", *words, BY_NAME]
                self.assertEqual(run(command, env=self.env), (1, b"", b"write failed: %s\n" % reason))

    def test_what_is_refused_memory_has_a_line(self):
        """The file has more bytes than there is memory."""
        with open(self.folder / "large.dll", "wb") as file:
            file.truncate(1 << 32)
        words = with_memory(1000000, [sys.executable, "-m", "goblin_pe"])
        self.assertEqual(run([*words, self.folder / "large.dll"], env=self.env), (1, b"", b"read failed: out of memory\n"))
        status, out, errors = run([*words, "--json", self.folder / "large.dll", BY_NAME], env=self.env)
        first, second = map(json.loads, out.splitlines())
        self.assertEqual((status, errors, first), (1, b"", {"file": str(self.folder / "large.dll"), "refusal": {"text": "out of memory"}}))
        self.assertEqual((second["file"], len(second["imports"])), (str(BY_NAME), 1))

    def test_a_terminal_shows_how_far_it_is(self):
        terminal, end = pty.openpty()
        with os.fdopen(terminal, "rb", buffering=0) as printed, os.fdopen(end, "wb") as end:
            command = [sys.executable, "-m", "goblin_pe", "--json", BY_NAME, BY_NAME]
            subprocess.run(command, stdout=subprocess.DEVNULL, stderr=end, env=self.env, check=True)
            self.assertEqual(printed.read(1000), b"\r[%s%s] 1 of 2 files\r[%s] 2 of 2 files\r\n" % (b"#" * 20, b"." * 20, b"#" * 40))

    def test_an_interrupt_ends_it_at_once(self):
        """The reads that it ends would take much longer."""
        image = self.written("hostile.dll", images.shared_image(libraries=60000, functions=50000))
        words = [sys.executable, "-m", "goblin_pe", "--json", "--steps", "1000000000", image]
        with open(self.folder / "out", "wb") as out, subprocess.Popen(
                with_memory(8000000, words), stdout=out, stderr=subprocess.PIPE, env=self.env) as it:
            while not os.fstat(out.fileno()).st_size:
                self.assertRaises(subprocess.TimeoutExpired, it.wait, 0.1)
            it.send_signal(signal.SIGINT)
            self.assertEqual((it.wait(1), it.communicate()[1]), (-signal.SIGINT, b""))

    def triaged(self, files):
        """The answers of the example, by the names of the files."""
        for name, data in files.items():
            self.written(name, data)
        lines = succeed([sys.executable, BINDINGS / "python/examples/triage.py", self.folder], env=self.env).splitlines()
        return {it["file"]: it for it in map(json.loads, lines)}

    def test_what_packers_hide_is_triaged(self):
        """It finds an import whose name is in the headers, reports that steps ran out, and finds the overlay after a section
        without a place. It finds none if the file cuts a section."""
        data, in_headers = BY_NAME.read_bytes(), images.sample((0x94, b"\0\2\0\0"), (0x240, b"\xA0\1\0\0"), (0x1A0, b"\0\0VirtualAlloc\0"))
        printed = self.triaged({"headers": in_headers, "many": images.rounded_to_dead_entries(1100000),
                                "behind": images.without_a_place(data), "cut": data[:-16]})
        self.assertEqual((printed["headers"]["in_headers"], printed["many"]["cut_off"]), (["a.dll VirtualAlloc"], True))
        self.assertEqual((printed["behind"]["overlay"], printed["cut"]["overlay"]), (len(data) - 0x200, None))

    def test_images_are_triaged_as_by_pefile(self):
        """The answers of the example are those of pefile 2023.2.7 on the same images."""
        printed = self.triaged(triaged_images())
        for name, wanted in json.loads(pathlib.Path(__file__).with_name("pefile_answers.json").read_text("utf-8")).items():
            with self.subTest(name):
                found = {**printed[name], "sections": [{key: it[key] for key in ("name", "entropy", "md5")} for it in printed[name]["sections"]]}
                del wanted["image_base"]
                self.assertEqual({key: found[key] for key in wanted}, wanted)

    def test_its_own_tests_by_other_pythons(self):
        """The Pythons are the oldest that the package supports, one in the middle, and the newest of the machine."""
        oldest = int(re.search(r'requires-python = ">=3\.(\d+)"', (BINDINGS / "python/pyproject.toml").read_text("utf-8"))[1])
        found = {}
        for python in (*pathlib.Path.home().glob(".pyenv/versions/*/bin/python3"), *map(shutil.which, map("python3.{}".format, range(9, 20)))):
            status, version, _ = run([python, "-c", "import ctypes, sys; print(sys.version_info[1])"]) if python else (1, b"", b"")
            if not status and int(version) >= oldest and int(version) != sys.version_info[1]:
                found[int(version)] = python
        for version in sorted({*sorted(found)[:1], *sorted(found)[len(found) // 2:][:1], *sorted(found)[-1:]}):
            with self.subTest(f"3.{version}"):
                succeed([found[version], "-X", "dev", "-m", "unittest", "-q", "test_goblin_pe"], env=self.env)

    def test_type_hints(self):
        need("mypy")
        check, env = ["mypy", "--strict", "--cache-dir=/dev/null"], {**self.env, "MYPYPATH": str(BINDINGS / "python")}
        succeed([*check, BINDINGS / "python/goblin_pe", BINDINGS / "python/examples"], env=env)
        succeed([*check, self.written("right.py", TYPED)], env=env)
        for line, wrong in ((b"Options(permissive=1)", b"arg-type"), (b"Image(b'').coff_header.machine = 1", b"misc"),
                            (b"Pe(b'').imports[0].name.lower()", b"union-attr")):
            with self.subTest(line=line):
                status, out, _ = run([*check, self.written("wrong.py", TYPED + line + b"\n")], env=env)
                self.assertEqual((status, re.findall(rb"error: .*\[(.*)\]", out)), (1, [wrong]), out)


if __name__ == "__main__":
    unittest.main()
