"""The library for C, and its installed files."""
import itertools
import os
import re
import shutil
import signal
import unittest

from tests import hostile, images
from tests.bindings import BINDINGS, library
from tests.programs import BY_NAME, CC, FLAGS, IMAGES, OBJECTS, SAMPLES, TERSE, Case, environment, need, run, succeed

STRICT = ["-pedantic", "-Wcast-qual", "-Wshadow"]
SANITIZED = ("-std=c11", "-g", "-fsanitize=address,undefined", "-fno-sanitize-recover=all")
# Eight threads read this object and this Terse Executable, and an image.
OTHERS = (SAMPLES / "object_x64.obj", SAMPLES / "firmware_x64.te")
# The program at the top of the header.
PROGRAM = re.compile(r"(?s)       (#include \"goblin_pe\.h\".*?)\n\n       \$ cc")


def setUpModule():
    need(CC)
    library()


class C(Case):
    def built(self, source, *flags):
        made = self.folder / "program"
        succeed([*CC, *(flags or ["-std=c99"]), *FLAGS, *STRICT, "-I", library(), "-o", made, source, library() / "libgoblin_pe.a"])
        return made

    def of_the_manual(self):
        """The program of the manual."""
        text = (BINDINGS / "c/goblin_pe.h").read_text("utf-8")
        return self.written("imports.c", re.sub("(?m)^       ", "", PROGRAM.search(text)[1]).encode())

    def of_the_page(self):
        """The program of the page: all its pieces."""
        page = (BINDINGS / "c/README.md").read_text("utf-8")
        return self.written("page.c", "\n".join(re.findall("(?s)```c\n(.*?)```", page)).encode())

    def test_the_program_of_the_manual_ends_on_each_file_in_a_tenth_of_a_second(self):
        made = self.built(self.of_the_manual())
        self.assertEqual(run([made], BY_NAME)[:2], (0, b"KERNEL32.dll 0 GetTickCount\n"))
        # (imports at the end of 17 MiB)
        large = images.with_data_behind(images.importer([(b"fruit.dll", [b"Apple"])]), 17 << 20)
        self.assertEqual(run([made], large)[:2], (0, b"fruit.dll 0 Apple\n"))
        # (One of the large files takes 0.07 seconds on a machine with nothing else to do.)
        files = [(it.read_bytes(), 0.1) for it in IMAGES] + [(it, 0.1) for it in hostile.files(3)] + [(it, 0.3) for it in hostile.large()]
        for index, (data, most) in enumerate(files):
            with self.subTest(index=index):
                spent = []
                while not spent or spent[-1] >= most and len(spent) < 3:  # (a machine that is busy is asked again)
                    before = os.times()
                    status, out, _ = run([made], data)
                    after = os.times()
                    spent.append(after.children_user - before.children_user + after.children_system - before.children_system)
                    self.assertIn(status, (0, 1))
                    self.assertRegex(out, rb"\A[ -~\n]*\Z")
                self.assertLess(min(spent), most)

    def test_examples_run_on_each_file_with_sanitizers(self):
        """The sanitizers report nothing, and the output is printable."""
        self.need_flags(*SANITIZED)
        file, env = self.folder / "some.dll", {**os.environ, "ASAN_OPTIONS": "exitcode=99", "UBSAN_OPTIONS": "exitcode=99"}
        for name, *words in (("imports", ), ("walk", "1000", file), ("libraries", file), ("damage", file), ("loader", file, file),
                             ("patch", file, "7", ".text", ".code", self.folder / "patched.dll")):
            made = self.built(BINDINGS / f"c/examples/{name}.c", *SANITIZED)
            for index, data in enumerate(hostile.files(1)):
                with self.subTest(example=name, index=index):
                    file.write_bytes(data)
                    status, out, errors = run([made, *words], os.devnull if words else file, env=env)
                    self.assertIn(status, (0, 1, 2), errors)
                    self.assertRegex(out + errors, rb"\A[ -~\n]*\Z")

    def test_no_program_works_on_the_first_part_of_a_large_file(self):
        """None reads one that fills its buffer."""
        image, a_object, to = self.folder / "large.dll", self.folder / "large.obj", self.folder / "to.dll"
        for sample, large in (BY_NAME, image), (OBJECTS[0], a_object):
            shutil.copy(sample, large)
            os.truncate(large, 1 << 26)
        commands = (["imports"], ["walk", "7", image], ["libraries", image], ["damage", image], ["object", a_object],
                    ["patch", image, "7", ".text", ".code", to])
        programs = [(BINDINGS / f"c/examples/{name}.c", words) for name, *words in commands]
        for source, words in ((self.of_the_manual(), []), (self.of_the_page(), []), *programs):
            with self.subTest(source.name):
                self.assertEqual(run([self.built(source), *words], os.devnull if words else image)[0], 2)
        self.assertFalse(to.exists())

    def test_a_program_that_loads_the_library_at_run_time(self):
        """It is linked without the library, and uses a constant."""
        source = b"""#define GOBLIN_PE_LOADED_AT_RUN_TIME
#include "goblin_pe.h"
#include <dlfcn.h>
#include <stdio.h>
int main(int argc, char **argv)
{
    uint32_t (*interface)(void);
    void *library = dlopen(argv[argc - 1], RTLD_NOW);
    *(void **)&interface = library ? dlsym(library, "goblin_pe_interface") : NULL;
    return printf("0x%x\\n", GOBLIN_PE_MAGIC_64) < 0 || !interface || interface() != GOBLIN_PE_INTERFACE;
}
"""
        program = self.folder / "program"
        succeed([*CC, "-std=c99", *FLAGS, "-I", library(), "-o", program, self.written("loads.c", source), "-ldl"])
        self.assertEqual(run([program, library() / "libgoblin_pe.so"]), (0, b"0x20b\n", b""))

    def test_a_null_pointer_where_there_is_room_is_written_to(self):
        """The call stops the program before it writes there."""
        source = b"""#include "goblin_pe.h"
int main(int argc, char **argv)
{
    struct goblin_pe_section section = { 0 };
    size_t written;
    (void)argv;
    return (int)goblin_pe_write_section(&section, NULL, argc > 1 ? 40 : 0, &written).status;
}
"""
        program = self.built(self.written("null.c", source))
        self.assertEqual((run([program])[0] > 0, run([program, "room"])[0]), (True, -signal.SIGSEGV))

    def need_flags(self, *flags):
        """Skips the test if the compiler can't build a program with these flags."""
        if run([*CC, *flags, "-x", "c", "-o", self.folder / "flags", "-"], b"int main(void) { return 0; }\n")[0]:
            self.skipTest(f"{CC[0]} has no {flags[-1]}")

    def calls(self):
        """Runs the program that makes each call, on the samples and on an image with a Rich header."""
        rich = images.with_rich_header(images.library(b"rich.dll", [(b"Apple", 0x3010)]), 0x12345678, [(0x1047809, 3), (0x930001, 7)])
        return [*IMAGES, *OBJECTS, *TERSE, self.written("rich.dll", rich)]

    def test_each_call_and_each_null_pointer_that_it_allows(self):
        source = BINDINGS / "c/tests/calls.c"
        succeed([self.built(source, "-std=c11"), *self.calls()])
        with self.subTest("sanitizers"):
            self.need_flags(*SANITIZED)
            succeed([self.built(source, *SANITIZED), *self.calls()])
        with self.subTest("valgrind"):
            need("valgrind")
            succeed(["valgrind", "-q", "--error-exitcode=9", "--leak-check=full", self.built(source, "-std=c11"), *self.calls()])

    def test_a_signal_handler_leaves_calls(self):
        """What calls answer after it is as before."""
        self.assertEqual(run([self.built(BINDINGS / "c/tests/left.c"), "100000"], BY_NAME)[:2], (0, b"100000 left\n"))

    def test_threads_with_stacks_of_16_kib(self):
        """A file with a thousand sections and imports needs no more stack."""
        source, hostile_image = BINDINGS / "c/tests/threads.c", self.written("hostile.dll", images.hostile_image(1 << 16))
        program = self.built(source, "-std=c11", "-pthread")
        succeed([program, "16", "1", BY_NAME, *OTHERS])
        succeed([program, "16", str((1 << 16) // 64 - 16), hostile_image, *OTHERS])
        with self.subTest("the sanitizer of races"):
            self.need_flags("-fsanitize=thread")
            succeed([self.built(source, "-std=c11", "-pthread", "-fsanitize=thread"), "256", "1", BY_NAME, *OTHERS])

    def test_the_library_takes_no_memory(self):
        """Neither the archive nor the shared library names a function that would give some."""
        for words in (["nm", "-u", library() / "libgoblin_pe.a"], ["nm", "-D", "-u", library() / "libgoblin_pe.so"]):
            named = {it.split()[-1].split("@")[0] for it in succeed(words).splitlines() if it.startswith(" ")}
            self.assertIn("memcpy", named)
            self.assertFalse(named & {"malloc", "calloc", "realloc", "free", "rattle_alloc", "rattle_realloc"})

    def test_the_program_of_the_page(self):
        """It prints what the page says that it prints."""
        page, made = (BINDINGS / "c/README.md").read_text("utf-8"), self.built(self.of_the_page())
        listing = re.search(r"(?s)```console\n\$ \./program < samples/(.*?)\n(.*?)```", page)
        self.assertEqual(run([made], SAMPLES / listing[1]), (0, listing[2].encode(), b""))
        self.assertEqual(run([made], images.library(b"some.dll", [(b"Ap\x1bple", 0x3010)])), (0, b"1 0x3010 Ap?ple\nimports: 0, skipped: 0\n", b""))
        self.assertIn(b"\n2 0x10 keep_it\n", run([made], OTHERS[0])[1])
        self.assertEqual(run([made], BY_NAME.read_bytes()[:0x600]), (0, b"imports: 0, skipped: 1\n", b""))
        self.assertEqual(run([made], b"MZ"), (1, b"", b"the file is too short for the DOS header\n"))

    def test_compilers_warn_of_nothing(self):
        source = self.written("header.c", b'#include "goblin_pe.h"\nint main(void);\nint main(void) { return 0; }\n')
        for compiler, standard in itertools.product(filter(shutil.which, ("gcc", "clang")), ("c99", "c11")):
            for file in (source, BINDINGS / "c/goblin_pe_calls.c", *(BINDINGS / "c/examples").glob("*.c")):
                if standard == "c11" or file.name != "goblin_pe_calls.c":
                    succeed([compiler, f"-std={standard}", *FLAGS, *STRICT, "-I", library(), "-c", "-o", self.folder / "it.o", file])
        used = self.written("header.cc", b'#include "goblin_pe.h"\nint main() { return goblin_pe_interface() != GOBLIN_PE_INTERFACE; }\n')
        for compiler in filter(shutil.which, ("g++", "clang++")):
            succeed([compiler, "-std=c++11", *FLAGS, "-I", library(), "-o", self.folder / "it", used, library() / "libgoblin_pe.a"])
            succeed([self.folder / "it"])

    def test_the_shared_library_exports_the_names_of_the_header(self):
        need("nm")
        listed = succeed(["nm", "-D", "--defined-only", library() / "libgoblin_pe.so"])
        declared = re.findall(r"\b(goblin_pe_[a-z0-9_]+)\(", (BINDINGS / "c/goblin_pe.h").read_text("utf-8"))
        self.assertEqual({it.split()[-1] for it in listed.splitlines()}, set(declared))


class Installed(Case):
    def install(self, prefix, umask="077", **more):
        command = ["sh", "-c", 'umask "$0" && exec "$@"', umask, BINDINGS / "install", prefix]
        return run(command, cwd=self.folder, env=environment(GOBLIN_PE_LIB=str(library()), **more))

    def test_programs_are_built_as_pkg_config_says(self):
        """They use the archive, or the shared library if there is one, also from another folder. Everybody can read the files."""
        need("pkg-config")
        for more, libraries in ({}, "usr/lib"), ({"LIBDIR": "/usr/lib64"}, "usr/lib64"):
            self.assertEqual(self.install("/usr", DESTDIR=str(self.folder), **more), (0, b"", b""))
            env = environment(PKG_CONFIG_PATH=f"{self.folder}/{libraries}/pkgconfig")
            words = succeed(["pkg-config", f"--define-variable=prefix={self.folder}/usr", "--static", "--cflags", "--libs", "goblin_pe"], env=env)
            example, program = self.folder / "usr/share/doc/goblin-pe/examples/imports.c", self.folder / "imports"
            for static in ["-static"], *([[]] if list((self.folder / libraries).glob("*.so.*")) else []):
                succeed([*CC, "-std=c99", *FLAGS, *static, "-o", program, example, *words.split()])
                printed = run([program], BY_NAME, env=environment(LD_LIBRARY_PATH=f"{self.folder}/{libraries}"))
                self.assertEqual(printed, (0, b"KERNEL32.dll 0 GetTickCount\n", b""))
        for it in (self.folder / "usr").rglob("*"):
            self.assertEqual(it.stat().st_mode & 0o777, 0o755 if it.is_dir() else 0o644, it)
        for prefix, libdir in (("usr", "/usr/lib"), ("/usr", "lib64")):
            self.assertEqual(self.install(prefix, LIBDIR=libdir)[0], 2)


if __name__ == "__main__":
    unittest.main()
