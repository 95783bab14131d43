"""The examples that load, change, draw and look further into a file: their answers on known images, and that they end on any file."""
import concurrent.futures
import contextlib
import importlib.util
import io
import json
import os
import pathlib
import pty
import re
import shutil
import struct
import subprocess
import sys
import time
import unittest
import unittest.mock
import xml.etree.ElementTree

from tests import hostile, images
from tests.bindings import BINDINGS, library, package
from tests.programs import BY_NAME, CC, FLAGS, IMAGES, OBJECTS, SAMPLES, TERSE, TOP, Case, environment, folder, need, run, succeed

IN_PYTHON = ("delayed_imports", "pdb_path", "resources", "recipes", "map", "corpus")


def setUpModule():
    need(CC)
    library()


# The names in an SVG begin so.
SVG = "{http://www.w3.org/2000/svg}"


def built(name):
    """An example in C."""
    made = folder() / name
    if not made.exists():
        succeed([*CC, "-std=c99", *FLAGS, "-I", library(), "-o", made, BINDINGS / f"c/examples/{name}.c", library() / "libgoblin_pe.a"])
    return made


def hard_files():
    """Files that take long if a program sets no limits, and hostile ones."""
    wide = images.with_others()
    yield wide
    yield images.with_parts(wide, (0x200 + 12, struct.pack("<2H4I", 0, 2, 1, 1 << 31, 2, 1 << 31)))  # (a tree that leads in a circle)
    yield images.with_parts(wide, (0x200 + 12, struct.pack("<2H", 0xFFFF, 0xFFFF)), (0x210, struct.pack("<2I", 1, 1 << 31) * 20000))
    entries = struct.pack("<2I2H4I", 0, 0, 0, 0, 2, 0xFFFFFFFF, 0, 0x10000) * 2000  # (that lead to one long path)
    shared = images.with_parts(wide, (0x150, struct.pack("<4I", 0x20000, 0x1000, 0x20000, 0x200)), (0x400, entries), (0x10000, b"RSDS" + b"x" * 0x20000))
    yield images.with_directory(shared, 6, 0x1200, len(entries))
    yield from (images.shared_image(3000, 50000), images.own_tables(1609), images.hostile_image(1 << 22), images.large_image())
    yield from (images.one_long_name(3000, 200000), images.long_names(8000))
    yield from hostile.files(1)


class Loader(Case):
    """An image that imports from a library by name and by ordinal."""

    def setUp(self):
        super().setUp()
        exports = [(b"Apple", 0x3010), (None, 0x3020), (b"Cherry", b"other.Pear"), (None, b"other.#7"), (b"Elder", 0x3050)]
        self.library = self.written("Fruit.dll", images.library(b"fruit.dll", exports, base=10))

    def assert_resolves(self, imports, status, wanted, *others):
        image = self.written("image.exe", images.importer(imports, relocated=3))
        found, out, errors = run([built("loader"), image, self.library, *others])
        printed = out.decode().splitlines()
        self.assertEqual((found, errors, printed[printed.index("3 base relocations") + 1:]), (status, b"", wanted))

    def test_imports_by_name_and_by_ordinal(self):
        self.assert_resolves([(b"FRUIT.DLL", [b"Elder", 10, 11]), (b"fruit", [b"Apple"])], 0, [
            "FRUIT.DLL Elder: 0x180013050", "FRUIT.DLL #10: 0x180013010", "FRUIT.DLL #11: 0x180013020", "fruit Apple: 0x180013010"])

    def test_what_is_not_there_is_reported(self):
        self.assert_resolves([(b"fruit.dll", [9, 15, b"Banana"]), (b"nuts.dll", [1])], 1, [
            "fruit.dll #9: not exported", "fruit.dll #15: not exported", "fruit.dll Banana: not exported", "nuts.dll #1: no such library"])

    def test_forwarders_lead_to_other_libraries(self):
        other = self.written("other.dll", images.library(b"other.dll", [(b"Pear", b"THIRD.#2"), (None, b"third.Quince")], base=6))
        third = self.written("Third.DLL", images.library(b"third.dll", [(b"Quince", 0x4010), (b"Rowan", 0x4020)]))
        self.assert_resolves([(b"fruit.dll", [b"Cherry", 13])], 0, [
            "fruit.dll Cherry -> other Pear -> THIRD #2: 0x180014020", "fruit.dll #13 -> other #7 -> third Quince: 0x180014010"], other, third)
        other.write_bytes(images.library(b"other.dll", [(b"Pear", b"fruit.Cherry")]))
        self.assert_resolves([(b"fruit.dll", [b"Cherry"])], 1, ["fruit.dll Cherry" + " -> other Pear -> fruit Cherry" * 4 + " -> too many forwarders"], other)

    def test_imports_of_samples(self):
        """For 64 and for 32 bits."""
        exports = [(b"GetTickCount", 0x3010), (b"GetTickCount@0", 0x3020)]
        kernel = self.written("Kernel32.dll", images.library(b"KERNEL32.dll", exports, base=901))
        for name, wanted in (("imports_by_name_x64.dll", "GetTickCount: 0x180013010"), ("imports_by_ordinal_x64.dll", "#901: 0x180013010"),
                             ("imports_by_name_x86.dll", "GetTickCount@0: 0x80013020"), ("imports_by_ordinal_x86.dll", "#901: 0x80013010")):
            with self.subTest(name):
                self.assertEqual(succeed([built("loader"), SAMPLES / name, kernel]).splitlines()[-1], f"KERNEL32.dll {wanted}")


class Changes(Case):
    def test_a_header_and_a_section(self):
        to = self.folder / "patched.dll"
        for sample in IMAGES:
            with self.subTest(sample=sample.name):
                before, first = package().Image(sample.read_bytes()), package().Image(sample.read_bytes()).sections[0]
                self.assertEqual(run([built("patch"), sample, "0x12345678", first.name, ".code", to]), (0, b"0x12345678\n", b""))
                after = package().Image(to.read_bytes())
                self.assertEqual(after.coff_header, before.coff_header._replace(time_date_stamp=0x12345678))
                self.assertEqual([it.name for it in after.sections], [b".code", *(it.name for it in before.sections[1:])])
                self.assertEqual(after.optional_header.windows_fields.check_sum, after.checksum())
                # (the stamp, the name and the checksum)
                self.assertLessEqual(sum(a != b for a, b in zip(before.data, after.data)), 16)

    def test_what_can_not_be_changed(self):
        self.assertEqual(run([built("patch"), BY_NAME, "7", ".none", ".code", self.folder / "to"]), (1, b"", b"no section .none\n"))
        self.assertEqual(run([built("patch"), BY_NAME, "7", ".text", "ninebytes", self.folder / "to"])[0], 2)
        self.assertEqual(run([built("patch"), TERSE[0], "7", ".text", ".code", self.folder / "to"])[0], 1)

    def test_an_object(self):
        printed = succeed([built("object"), SAMPLES / "object_x64.obj"])
        self.assertIn(".text 0x3 of type 0x4: keep_it\n", printed)
        self.assertRegex(printed, r"(?m)^symbol \d+ in section 1 at 0x0: .text \(\d+ bytes\)$")

    def test_many_imports_are_counted(self):
        """More than 65,536, and no more than the steps allow."""
        printed = succeed([built("damage"), self.written("many.dll", images.large_image(libraries=70, functions=1024, exports=0, blocks=0))])
        counts = "71680, 0 skipped, 0 lead nowhere"
        self.assertEqual(printed, f"imports as Windows maps: {counts}\nexports: 0, 0 skipped, 0 lead nowhere\nimports as goblin maps: {counts}\n")
        printed = succeed([built("damage"), self.written("more.dll", images.large_image(libraries=256, functions=2048, exports=0, blocks=0))])
        self.assertEqual(printed.count("maps: not known, because it needs more than 500000 steps\n"), 2)

    def test_damage_is_reported(self):
        sound = [f"{table}, 0 skipped, 0 lead nowhere" for table in ("imports as Windows maps: 1", "exports: 2", "imports as goblin maps: 1")]
        self.assertEqual(succeed([built("damage"), BY_NAME]).splitlines(), sound)
        printed = run([built("damage"), self.written("cut.dll", BY_NAME.read_bytes()[:0x1E0])])[1].decode().splitlines()
        self.assertEqual(printed[0], "refused: there are not enough bytes, or not enough room")
        self.assertTrue(printed[1].startswith("section table: "), printed)
        self.assertIn("exports: 0, 1 skipped, 0 lead nowhere", printed)
        for size in range(0, BY_NAME.stat().st_size, 16):
            status, printed, _ = run([built("damage"), self.written("cut.dll", BY_NAME.read_bytes()[:size])])
            self.assertFalse(status and printed.decode().splitlines() == sound)


class WithExamples(Case):
    """The examples in Python, as modules."""

    def setUp(self):
        super().setUp()
        sys.modules["goblin_pe"] = package()
        self.addCleanup(sys.modules.pop, "goblin_pe")
        self.examples = {}
        for name in IN_PYTHON:
            spec = importlib.util.spec_from_file_location(name, BINDINGS / f"python/examples/{name}.py")
            self.examples[name] = importlib.util.module_from_spec(spec)
            spec.loader.exec_module(self.examples[name])


class InPython(WithExamples):
    """The examples that read what the library leaves to others."""

    def test_what_an_image_has(self):
        for is_wide in True, False:
            image = package().Image(images.with_others(is_wide))
            imports = list(self.examples["delayed_imports"].delayed(image))
            self.assertEqual([it[:3] for it in imports], [(b"late.dll", b"Later", 7), (b"late.dll", None, 12), (b"never.dll", b"Never", 7)])
            self.assertEqual(list(self.examples["pdb_path"].pdbs(image)), [(b"c:\\work\\some.pdb", "030201000504070608090A0B0C0D0E0F3")])
            found = list(self.examples["resources"].resources(image))
            self.assertEqual([(it.path, it.size) for it in found], [(("TEXT", "README", 0), 7), ((16, 1, 0x407), 6), ((16, 1, 0x409), 6)])
            self.assertEqual([image.memory_at(it.rva, it.size).whole() for it in found], [b"content", b"ontent", b"ontent"])


class Recipes(WithExamples):
    """What users of pefile look for."""

    BESIDE = """if True:
        import hashlib, sys, pefile, recipes
        from goblin_pe import Image, Options
        version = "VS_VERSION_INFO".encode("utf-16-le")
        for path in sys.argv[1:]:
            data = open(path, "rb").read()
            image, pe = Image(data, Options(permissive=True)), pefile.PE(data=data)
            overlay, rich, rva = image.overlay(), image.rich_header, image.find_rva(data.find(version)) if version in data else None
            ours = (len(data) - len(overlay) if overlay else None, bytes(overlay), rich.hash() if rich else "", image.imphash(),
                    recipes.export_hash(image), image.is_exe, image.is_dll, image.is_driver, [it for _, it in recipes.entropies(image)],
                    rva and recipes.utf16_at(image, rva))
            theirs = (pe.get_overlay_data_start_offset(), pe.get_overlay() or b"", pe.get_rich_header_hash(), pe.get_imphash(),
                      pe.get_exphash(), pe.is_exe(), pe.is_dll(), pe.is_driver(), [round(s.get_entropy(), 3) for s in pe.sections],
                      rva and pe.get_string_u_at_rva(rva).decode())
            assert ours == theirs, (path, ours, theirs)
            print(bool(overlay), bool(rich), bool(image.imphash()), bool(recipes.export_hash(image)), bool(rva))
        """

    def test_what_an_image_has(self):
        recipes, image = self.examples["recipes"], package().Image(BY_NAME.read_bytes())
        # (by pefile 2023.2.7)
        self.assertEqual(recipes.export_hash(image), "da31b1be24dd5ba29073d1ba8f7f5ab8edf868a6d216ab4154fdc16df85c38fa")
        self.assertEqual([recipes.entropy(memoryview(it)) for it in (bytes(8), bytes(range(256)), b"ab")], [0, 8, 1])
        self.assertIsNone(recipes.export_hash(image.with_options(package().Options(longest_name=3))))
        self.assertEqual(recipes.export_hash(package().Image((SAMPLES / "program_x64.exe").read_bytes())), "0db52f4076c082518412afd3dd3576e2cb0c63703fd7fed5e23ade60efef31d9")
        others = package().Image(images.with_others())
        place = others.find_rva(bytes(others.data).find("README".encode("utf-16-le")))
        self.assertEqual((recipes.utf16_at(others, place, 6), recipes.utf16_at(others, place, 4)), ("README", "READ"))
        self.assertEqual(recipes.utf16_at(others, 0x7FFFFFFF), "")

    def test_real_files_beside_pefile(self):
        """The launchers that installations of Python come with, and the samples, by a Python that has pefile."""
        python = next((it for it in (sys.executable, "/usr/bin/python3") if not run([it, "-c", "import pefile"])[0]), None)
        if not python:
            self.skipTest("no pefile")
        homes = pathlib.Path(sys.base_prefix), *pathlib.Path.home().glob(".pyenv/versions/*"), pathlib.Path("/usr/lib/python3")
        found = {it.read_bytes(): it for home in homes for it in home.glob("**/*.exe")}
        real = {data: it for data, it in found.items() if data.startswith(b"MZ")}  # (other packages have empty ones for their tests)
        for data in [*real][:1]:
            real[data + b"an overlay"] = self.written("overlay.exe", data + b"an overlay")
        env = environment(GOBLIN_PE_SO=str(library() / "libgoblin_pe.so"), PYTHONDONTWRITEBYTECODE="1",
                          PYTHONPATH=os.pathsep.join(map(str, (BINDINGS / "python", BINDINGS / "python/examples"))))
        lines = succeed([python, "-c", self.BESIDE, *real.values(), *IMAGES], env=env).splitlines()
        self.assertEqual(len(lines), len(real) + len(IMAGES))
        print("%d real files beside pefile: %s" % (len(real), ", ".join(
            "%s %d" % (what, sum(it.split()[index] == "True" for it in lines[:len(real)]))
            for index, what in enumerate(("overlays", "Rich headers", "imphashes", "hashes of exports", "UTF-16 texts")))))


class Map(WithExamples):
    """The picture of an image."""

    def drawn(self, name, data):
        """The tree of the picture of a file."""
        file = str(self.written(name, data))
        with contextlib.redirect_stdout(io.StringIO()) as out:
            self.examples["map"].main(file)
        self.assertRegex(out.getvalue(), r"\A[ -~\n]*\Z")
        return xml.etree.ElementTree.fromstring(out.getvalue())

    def parts(self, tree):
        """What each part is called, and its place and width."""
        return [(it.find(SVG + "title").text, float(it.find(SVG + "rect").get("x")), float(it.find(SVG + "rect").get("width")))
                for it in tree.iter(SVG + "g") if it.find(SVG + "rect") is not None]

    def test_all_parts_of_samples_are_drawn(self):
        least, width, left = (getattr(self.examples["map"], it) for it in ("LEAST", "WIDTH", "LEFT"))
        for sample in IMAGES:
            with self.subTest(sample.name):
                image = package().Image(sample.read_bytes())
                tree = self.drawn(sample.name, sample.read_bytes())
                parts, words = self.parts(tree), tree.find(SVG + "desc").text
                for s in image.sections:
                    self.assertTrue(any(it.startswith(f"{s.name.decode()} (") for it, _, _ in parts))
                    self.assertIn(f"at {s.virtual_address:#x}, {s.size_of_raw_data} bytes", words)
                self.assertTrue(all(one >= least - 0.1 and left <= x <= left + width - one + 0.1 for _, x, one in parts), parts)
                self.assertEqual((tree.get("role"), tree.get("aria-labelledby")), ("img", "title desc"))
                self.assertIn(sample.name, tree.find(SVG + "title").text)

    def test_sizes_are_to_scale_with_a_least_width(self):
        widths = self.examples["map"].widths
        found = widths([1, 1000, 3000, 2], 1100)
        self.assertEqual((found[0], found[3], round(sum(found), 6), round(found[2] / found[1], 6)), (14, 14, 1100, 3))
        self.assertEqual((widths([5, 5], 100), widths([1] * 1100, 1100), widths([], 7)), ([50, 50], [1] * 1100, []))

    def test_tables_and_what_is_behind_the_sections(self):
        data = images.with_directory(BY_NAME.read_bytes() + b"overlay", 4, len(BY_NAME.read_bytes()), 7)
        words = [it for it, _, _ in self.parts(self.drawn("signed.dll", bytes(data)))]
        for wanted in ("imports (table) at 0x669, 40 bytes", "overlay (overlay) at 0xc00, 7 bytes", "certificates (table) at 0xc00, 7 bytes"):
            self.assertIn(wanted, words)
        cut = [it for it, _, _ in self.parts(self.drawn("cut.dll", BY_NAME.read_bytes()[:-0x116]))]
        self.assertIn(".reloc (missing bytes) at 0x40ea, 278 bytes", cut)

    def test_hostile_names_are_escaped(self):
        data = BY_NAME.read_bytes().replace(b".text\0\0", b"<&\">\x1b\n\0").replace(b".rdata\0", b"</svg>\0")
        words = [it for it, _, _ in self.parts(self.drawn("some & <other>.dll", data))]
        for wanted in r'<&">\x1b\x0a', "</svg>":
            self.assertEqual(sum(it.startswith(wanted + " (") for it in words), 2)

    def test_no_image(self):
        self.assertRaisesRegex(SystemExit, "no image", self.drawn, "some.obj", OBJECTS[0].read_bytes())


class Corpus(WithExamples):
    """A row for each file."""

    FACTS = {"kind": "image", "machine": "COFF_MACHINE_X86_64", "time_date_stamp": 0, "sections": 4, "overlay": 0, "rich_hash": None,
             "imphash": "27abfd9cfda7519d5efb3f08a2a4f3ce", "imports": 1, "exports": 2, "skipped": 0, "state": "read"}

    def folder_of_files(self):
        """Paths, and the state of each."""
        (self.folder / "below").mkdir()
        many = images.shared_image(3000, 50000)
        made = {"a.dll": (BY_NAME.read_bytes(), "read"), "b.txt": (b"no image", "refused"), "below/c.dll": (bytes(many), "cut off"),
                "below/d.dll": (bytes(100), "refused"), "e.dll": (b"MZ" + bytes((64 << 20) - 1), "too large")}
        for name, (data, _) in made.items():
            self.written(name, data)
        os.mkfifo(self.folder / "f")
        return {str(self.folder / name): state for name, (_, state) in made.items()}

    def test_a_file_is_a_row_whatever_it_holds(self):
        row, wanted = self.examples["corpus"].row, self.folder_of_files()
        self.assertEqual({it: row(it)["state"] for it in wanted}, wanted)
        self.assertEqual(row(str(BY_NAME)), {"file": str(BY_NAME), **self.FACTS})
        self.assertEqual([row(str(self.folder / it))["state"] for it in ("gone.dll", "below")], ["not read"] * 2)
        with unittest.mock.patch.object(self.examples["corpus"], "Image", side_effect=MemoryError):
            self.assertEqual(row(str(BY_NAME))["why"], "out of memory")

    def test_a_row_ends_within_a_second(self):
        """Of the processor, on each hostile file."""
        for index, data in enumerate(hard_files()):
            path = str(self.written("some.dll", data))
            before = time.process_time()
            found = self.examples["corpus"].row(path)
            with self.subTest(index=index):
                self.assertLess(time.process_time() - before, 1)
                self.assertLess(len(json.dumps(found)), 10000)
                self.assertIn(found["state"], ("read", "refused", "cut off"))

    def lines(self, python, *words, **how):
        """What the program says of each file of the folder, by another Python, too."""
        env = environment(GOBLIN_PE_SO=str(library() / "libgoblin_pe.so"), PYTHONPATH=str(BINDINGS / "python"), PYTHONDONTWRITEBYTECODE="1")
        out = succeed([python, BINDINGS / "python/examples/corpus.py", *words, self.folder], env=env, **how)
        return {it["file"]: it["state"] for it in map(json.loads, out.splitlines())}

    def test_processes_read_a_folder(self):
        wanted = self.folder_of_files()
        for number in "1", "3":
            self.assertEqual(self.lines(sys.executable, "--processes", number), wanted)

    def test_a_cluster_reads_a_folder(self):
        need("/usr/bin/python3")
        if run(["/usr/bin/python3", "-c", "import distributed"])[0]:
            self.skipTest("no distributed")
        wanted = self.folder_of_files()
        self.assertEqual(self.lines("/usr/bin/python3", "--dask", "local", "--processes", "1"), wanted)

    def test_a_terminal_shows_how_far_it_is(self):
        need("/usr/bin/python3")
        if run(["/usr/bin/python3", "-c", "import tqdm"])[0]:
            self.skipTest("no tqdm")
        wanted = self.folder_of_files()
        terminal, end = pty.openpty()
        with os.fdopen(terminal, "rb", buffering=0) as shown, os.fdopen(end, "wb") as end:
            env = environment(GOBLIN_PE_SO=str(library() / "libgoblin_pe.so"), PYTHONPATH=str(BINDINGS / "python"), PYTHONDONTWRITEBYTECODE="1")
            it = subprocess.run(["/usr/bin/python3", BINDINGS / "python/examples/corpus.py", self.folder], stdout=subprocess.PIPE, stderr=end, env=env, check=True)
            self.assertRegex(shown.read(10000), rb"100%.* 5/5 ")
        self.assertEqual(it.stdout.count(b"\n"), len(wanted))


class Readme(Case):
    """The programs of README.md, each inside a program that reads some.dll."""

    C = """#include "goblin_pe.h"
#include <stdio.h>
static void use(const struct goblin_pe_import *it) { printf("%%.*s\\n", (int)it->name.length, (const char *)it->name.bytes); }
int main(void)
{
    static uint8_t bytes[1 << 24];
    size_t length = fread(bytes, 1, sizeof bytes, stdin);
%s    return (int)fault.status;
}
"""
    RUST = "fn main() -> Result<(), Box<dyn std::error::Error>> {\nlet bytes = std::fs::read(\"some.dll\")?;\n%sOk(())\n}\n"

    def program(self, language):
        return re.search(rf"(?s)```{language}\n(.*?)```", (TOP / "README.md").read_text("utf-8"))[1]

    def test_in_python(self):
        env = environment(GOBLIN_PE_SO=str(library() / "libgoblin_pe.so"), PYTHONPATH=str(BINDINGS / "python"), PYTHONDONTWRITEBYTECODE="1")
        for index, data in enumerate([BY_NAME.read_bytes(), *hostile.files(1)]):
            self.written("some.dll", data)
            status, out, errors = run([sys.executable, "-c", self.program("python")], env=env, cwd=self.folder)
            with self.subTest(index=index):
                self.assertEqual((status, errors), (0, b""))
                if not index:
                    self.assertEqual(out, b"KERNEL32.dll GetTickCount\nskipped: 0\n")

    def test_in_c(self):
        text = (self.C % self.program("c")).encode()
        source, in_cpp = self.written("readme.c", text), self.written("readme.cc", text.replace(b"{ 0 }", b"{}"))
        for compiler in filter(shutil.which, ("g++", "clang++")):
            succeed([compiler, "-std=c++11", *FLAGS, "-I", library(), "-fsyntax-only", in_cpp])
        succeed([*CC, "-std=c11", *FLAGS, "-I", library(), "-o", self.folder / "readme", source, library() / "libgoblin_pe.a"])
        self.assert_runs([self.folder / "readme"], (0, b"GetTickCount\n", b""), BY_NAME)
        for data in hostile.files(1):
            self.assertIn(run([self.folder / "readme"], data)[0], range(9))

    def test_in_rust(self):
        need("cargo")
        self.written("some.dll", BY_NAME.read_bytes())
        (self.folder / "src").mkdir()
        self.written("src/main.rs", (self.RUST % self.program("rust")).encode())
        self.written("Cargo.toml", b'[package]\nname = "readme"\nedition = "2024"\n[dependencies]\ngoblin_pe.path = "%s"\n[workspace]\n' % str(BINDINGS / "rust").encode())
        printed = succeed(["cargo", "-q", "--offline", "run"], cwd=self.folder, env=environment(GOBLIN_PE_LIB=str(library()), CARGO_TARGET_DIR=str(folder() / "rust")))
        self.assertEqual(printed, "GetTickCount from KERNEL32.dll\nskipped: 0\n")


class Ends(Case):
    """Each example ends within a second of processor time and ten megabytes of output, on each hostile file."""

    def test_each_example_in_c(self):
        file = self.folder / "some.dll"
        commands = [*([built(it), file] for it in ("damage", "libraries", "object")), [built("walk"), "1000", file], [built("loader"), file, file],
                    [built("patch"), file, "7", ".text", ".code", self.folder / "to.dll"], [built("imports")]]
        self.assert_end(commands, (*hard_files(), *hostile.large()))

    def test_each_example_in_python(self):
        file = self.folder / "some.dll"
        commands = [[sys.executable, BINDINGS / f"python/examples/{it}.py", *words] for it, *words in (
            *((it, file) for it in (*IN_PYTHON, "imports") if it != "corpus"), ("triage", self.folder),
            ("export", self.folder, "some.dll", "answer"), ("export", self.folder, "some.dll", "#1"))]
        self.assert_end(commands, hard_files())

    def assert_end(self, commands, files):
        """The commands run side by side. What takes too long on a busy machine is tried again."""
        env = environment(GOBLIN_PE_SO=str(library() / "libgoblin_pe.so"), PYTHONPATH=str(BINDINGS / "python"), PYTHONDONTWRITEBYTECODE="1")
        file = self.folder / "some.dll"

        def ended(command):
            for _ in range(4):
                status, out, errors = run(["sh", "-c", '"$@"; it=$?; times >&2; exit $it', "sh", *command], file, env=env)
                *errors, _, times = errors.splitlines()
                seconds = sum(60 * int(minutes) + float(rest) for minutes, rest in re.findall(rb"(\d+)m([\d.]+)s", times))
                if seconds < 1:
                    break
            return status, out, b"".join(errors), seconds

        with concurrent.futures.ThreadPoolExecutor(os.cpu_count()) as pool:
            for index, data in enumerate(files):
                file.write_bytes(data)
                for command, (status, out, errors, seconds) in zip(commands, pool.map(ended, commands)):
                    with self.subTest(index=index, command=os.path.basename(command[1] if command[0] == sys.executable else command[0])):
                        self.assertIn(status, (0, 1, 2), errors)
                        self.assertNotIn(b"Traceback", errors)
                        self.assertRegex(out, rb"\A[ -~\n]*\Z")
                        self.assertLess(len(out), 10 << 20)
                        self.assertLess(seconds, 1)


if __name__ == "__main__":
    unittest.main()
