"""The programs of bench/ that compare answers with goblin, pefile and objdump, if the machine has these."""
import importlib.util
import os
import pathlib
import shutil
import sys

from tests.bindings import BINDINGS, library
from tests.programs import IMAGES, SAMPLES, TOP, Case, environment, need, run, succeed
from tests.test_python import triaged_images

REGISTRY = pathlib.Path("/usr/share/cargo/registry")


class Beside(Case):
    def python(self, name, *words, path=""):
        env = environment(GOBLIN_PE_SO=str(library() / "libgoblin_pe.so"), PYTHONPATH=f"{BINDINGS / 'python'}:{path}", PYTHONDONTWRITEBYTECODE="1")
        return succeed([sys.executable, TOP / f"bench/{name}.py", *words], env=env)

    def test_changed_samples_beside_goblin(self):
        if not (REGISTRY / "goblin-0.2.1").exists():
            self.skipTest(f"no goblin 0.2.1 in {REGISTRY}")
        for name in ("bindings/rust", "bench/beside_goblin"):
            shutil.copytree(TOP / name, self.folder / name, ignore=shutil.ignore_patterns("target"))
        succeed(["cargo", "build", "-q", "--release", "--offline", "--bin", "differ",
                 "--manifest-path", self.folder / "bench/beside_goblin/Cargo.toml",
                 "--config", 'source.crates-io.replace-with="here"', "--config", f'source.here.directory="{REGISTRY}"'],
                env=environment(GOBLIN_PE_LIB=str(library()), CARGO_TARGET_DIR=str(self.folder)))
        print(succeed([self.folder / "release/differ", "100000", *IMAGES]).splitlines()[-1])

    def test_changed_blocks_beside_objdump(self):
        need("objdump")
        if b"pei-x86-64" not in run(["objdump", "-i"])[1]:
            self.skipTest("no objdump that reads images")
        print(self.python("beside_objdump", "1000", *IMAGES).splitlines()[-1])

    def test_images_beside_pefile(self):
        found = importlib.util.find_spec("pefile")
        if not found:
            self.skipTest("no pefile")
        by_ordinal = (SAMPLES / "imports_by_ordinal_x64.dll").read_bytes().replace(b"KERNEL32.dll", b"WS2_32.dll\0\0")
        named = by_ordinal.replace((1 << 63 | 901).to_bytes(8, "little"), (1 << 63 | 115).to_bytes(8, "little"))
        files = [self.written(name, data) for name, data in {**triaged_images(), "named.dll": named}.items()]
        printed = self.python("beside_pefile", *files, path=os.path.dirname(found.origin))
        self.assertEqual(printed, f"{len(files)} of {len(files)} files are alike\n")
        (self.folder / "no_image.txt").write_bytes(b"MZ, and no image")
        lines = self.python("corpus_beside_pefile", self.folder, "1", path=os.path.dirname(found.origin)).splitlines()
        self.assertEqual((len(lines), lines[-1]), (3, f"{len(files) + 1} of {len(files) + 1} rows are alike"))
