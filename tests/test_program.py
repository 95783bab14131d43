"""The built program pe_list: listings, refusals, wrong usage, refused memory, and input and output that fail."""
import collections
import itertools
import os
import random
import re
import struct
import tempfile

from tests import hostile, images
from tests.programs import (CRATES, IMAGES, OBJECTS, PE_LIST, SAMPLES, TERSE, TOP, Case, beside, build_pe_list, milliseconds, modes,
                            preloaded, run, with_memory)

BOTH_MODES = ([], ["--permissive"])
USAGE = b"usage: pe_list [--permissive]\n"
REFUSED = (1, b"", b"refused\n")
NO_MEMORY = (1, b"", b"out of memory\n")
SMALL = SAMPLES / "align16_x86.dll"
# How many growths of memory a listing may need, and how many bytes they may ask for, in strict and in permissive mode.
MOST_ASKED = {
    "align16_x64.dll": ((18, 3207), (19, 3463)),
    "align16_x86.dll": ((18, 3191), (19, 3447)),
    "firmware_x64.efi": ((16, 5327), (17, 5583)),
    "forwarders_x64.dll": ((17, 6523), (18, 6779)),
    "forwarders_x86.dll": ((17, 6523), (18, 6779)),
    "imports_by_name_x64.dll": ((22, 7197), (23, 7453)),
    "imports_by_name_x86.dll": ((22, 7197), (23, 7453)),
    "imports_by_ordinal_x64.dll": ((23, 7210), (24, 7466)),
    "imports_by_ordinal_x86.dll": ((23, 7210), (24, 7466)),
    "program_x64.exe": ((16, 5327), (17, 5583)),
    "program_x86.exe": ((16, 5327), (17, 5583)),
    "others": ((10478, 5894475), (11564, 6122377)),
}
STORED = CRATES / "pe_list/stdin"  # A small file whose every byte is known, and its listing.

# The parts of that listing, and how a change of the file (bytes by their offsets) changes them in strict and in permissive mode:
# other parts, or a refusal.
LISTING = STORED.with_name("stdout").read_bytes()
PARTS = dict(zip(("header", "section", "imports", "exports", "relocations"), re.split(rb"(?m)^(?=section|imports|exports|relocations)", LISTING)))
NOTHING = {"imports": b"imports absent\n", "exports": b"exports absent\n"}
BLOCK = b"relocations 1\nblock rva=0x1000 size=0xc words=2\n"
AT_FRONT = {"section": b"section va=0x1000 vsize=0x300 raw=0x300 ptr=0x0 name=.rdata\n", "exports": b"exports absent\n"}
HIDDEN = b"imports 1\nimport offset=0x1260 ordinal=0 rva=0x1290 size=4 slot=0 dll=evil.dll name=WinExec\n"
WORDS = {0xE0: b"\x28\x10\0\0\x0C", 0x228: b"\0\x10\0\0\x0C\0\0\0\x03\x30\0\0"}


def named(shown):
    return {"section": b"section va=0x1000 vsize=0x100 raw=0x100 ptr=0x200 name=%s\n" % shown}


CHANGES = [
    ("no change", {}, {}, {}),
    ("a backslash in a name", {0x138: b"\\"}, named(rb"\x5crdata"), named(rb"\x5crdata")),
    ("a name elsewhere", {0x138: b"/640\0\0"}, named(b"a.dll"), named(b"a.dll")),
    ("a name past the end", {0x138: b"/768\0\0"}, named(b"/768"), named(b"/768")),
    ("a name that is no text", {0x138: b"/\xff\0\0\0\0"}, None, named(rb"/\xff")),
    ("a name without a number", {0x138: b"/\0\0\0\0\0"}, None, None),
    ("imports that no section maps", {0xC0: b"\0\x90"}, None, {"imports": b"imports 0\n"}),
    ("imports at file offset 0", {0: images.directory_in_front()}, {**AT_FRONT, "imports": HIDDEN}, {**AT_FRONT, "imports": b"imports 0\n"}),
    ("exports that no section maps", {0xB8: b"\0\x90"}, None, {"exports": b"exports refused\n"}),
    ("a raw pointer of no multiple of 512", {0x14C: b"\x10"}, None, {
        "section": b"section va=0x1000 vsize=0x100 raw=0x100 ptr=0x210 name=.rdata\n", "imports": b"imports 0\n",
        "exports": b"exports refused\n"}),
    *((name, changes, parts, parts) for name, changes, parts in (
        ("two sections", {0x46: b"\2"}, {
            "header": b"header machine=0x14c sections=2 magic=0x10b entry=0x0\n",
            "section": PARTS["section"] + b"section va=0x0 vsize=0x0 raw=0x0 ptr=0x0 name=\n"}),
        ("no optional header", {0x54: b"\0"}, {
            **NOTHING, "header": b"header machine=0x14c sections=1\n",
            "section": b"section va=0x0 vsize=0x0 raw=0x0 ptr=0x0 name=\\x0b\\x01\n"}),
        ("no section either", {0x46: b"\0", 0x54: b"\0"}, {**NOTHING, "header": b"header machine=0x14c sections=0\n", "section": b""}),
        ("a block", WORDS, {"relocations": BLOCK}),
        ("a block and a rest", {**WORDS, 0xE4: b"\x14"}, {"relocations": BLOCK + b"block refused\n"}))),
]


def setUpModule():
    build_pe_list()


class Listings(Case):
    def test_each_sample_is_listed(self):
        for sample in IMAGES:
            for words, wanted in modes(sample):
                with self.subTest(sample=sample.name, words=words):
                    self.assert_runs([PE_LIST, *words], (0, wanted, b""), sample)

    def test_a_changed_file_is_listed_as_it_says(self):
        for name, changes, *wanted in CHANGES:
            data = bytearray(STORED.read_bytes())
            for offset, changed in changes.items():
                data[offset:offset + len(changed)] = changed
            for words, parts in zip(BOTH_MODES, wanted):
                with self.subTest(name, words=words):
                    listing = REFUSED if parts is None else (0, b"".join({**PARTS, **parts}.values()), b"")
                    self.assert_runs([PE_LIST, *words], listing, data)

    def test_blocks_and_words_are_counted(self):
        sizes = (0x234, 0x158, 0x1C, 0x28, 0xE8, 0x8C, 0xC)
        data = bytearray(STORED.read_bytes()) + b"".join(struct.pack("<II", 0, it) + bytes(it - 8) for it in sizes)
        struct.pack_into("<I", data, 0x148, 0x650)  # (The data of the section covers them.)
        struct.pack_into("<II", data, 0xE0, 0x1100, 1360)
        status, out, _ = run([PE_LIST], data)
        words = [int(it) for it in re.findall(rb"(?m)^block .*words=(\d+)$", out)]
        self.assertEqual((status, len(words), sum(words), b"block refused" in out), (0, 7, 652, False))

    def test_what_is_no_image_is_refused(self):
        for file in (os.devnull, TOP / "LICENSE", *OBJECTS, *TERSE):
            for words in BOTH_MODES:
                with self.subTest(file=os.path.basename(file), words=words):
                    self.assert_runs([PE_LIST, *words], REFUSED, file)

    def test_bytes_without_a_meaning_are_refused(self):
        for seed in range(1, 9):
            data = random.Random(seed).randbytes(1536)
            for signature, words in itertools.product((b"", b"MZ"), BOTH_MODES):
                with self.subTest(seed=seed, signature=signature, words=words):
                    self.assert_runs([PE_LIST, *words], REFUSED, signature + data)

    def test_a_sample_cut_at_each_length(self):
        """It is refused without its whole section table. If it is longer, permissive mode lists its header and its sections, even
        if its tables are cut, and strict mode refuses the file or lists the same."""
        whole = SMALL.read_bytes()
        pe = struct.unpack_from("<I", whole, 60)[0]
        sections, optional_header = struct.unpack_from("<H", whole, pe + 6)[0], struct.unpack_from("<H", whole, pe + 20)[0]
        end = pe + 24 + optional_header + 40 * sections
        front = beside(SMALL, "listing").splitlines()[:1 + sections]
        for length in range(len(whole)):
            for words in BOTH_MODES:
                with self.subTest(length=length, words=words):
                    status, out, errors = run([PE_LIST, *words], whole[:length])
                    if length < end or status == 1 and not words:
                        self.assertEqual((status, out, errors), REFUSED)
                    else:
                        self.assertEqual((status, out.splitlines()[:1 + sections], errors), (0, front, b""))

    def test_a_wrong_use_is_found_before_anything_is_read(self):
        for name, words in (("an unknown word", ["x"]),
                            ("an empty word", [""]),
                            ("a word that is not UTF-8", [b"\xff"]),
                            ("the mode twice", ["--permissive", "--permissive"]),
                            ("a word after the mode", ["--permissive", "x"])):
            with self.subTest(name):
                self.assert_runs([PE_LIST, *words], (2, b"", USAGE), TOP)  # (A read of a folder would fail.)


class Memory(Case):
    def assert_each_growth(self, words, wanted, stdin):
        """If a growth is refused, nothing is listed. If none is, everything is listed: a `run` that always reports refused memory
        meets its contract, and fails here."""
        self.assertEqual(set(self.each_growth([PE_LIST, *words], wanted, stdin)), {b""})

    def test_each_growth_is_refused(self):
        for words in BOTH_MODES:
            with self.subTest("the stored run", words=words):
                self.assert_each_growth(words, LISTING, STORED)
        for sample in IMAGES:
            for words, wanted in modes(sample):
                with self.subTest(sample=sample.name, words=words):
                    self.assert_each_growth(words, wanted, sample)

    def asked(self, words, file):
        """The number of a run's growths of memory, and of the bytes that they ask for."""
        with tempfile.TemporaryFile() as counted:
            preload = {"LD_PRELOAD": str(preloaded("refuse_growth")), "COUNTED": str(counted.fileno())}
            run([PE_LIST, *words], file, env={**os.environ, **preload}, pass_fds=[counted.fileno()])
            counted.seek(0)
            return tuple(map(int, counted.read().split()))

    def test_no_file_asks_for_more_memory(self):
        """MOST_ASKED is the limit, for each sample, and for some 400 damaged or misleading files together."""
        for sample in IMAGES:
            for words, most in zip(BOTH_MODES, MOST_ASKED[sample.name]):
                with self.subTest(sample=sample.name, words=words):
                    self.assert_at_most(self.asked(words, sample), most)
        files = [self.written(f"{i}.dll", bytes(it)) for i, it in enumerate(hostile.files(27))]
        self.assertGreater(len(files), 400)
        for words, most in zip(BOTH_MODES, MOST_ASKED["others"]):
            with self.subTest(words=words):
                self.assert_at_most(tuple(map(sum, zip(*(self.asked(words, it) for it in files)))), most)

    def assert_at_most(self, asked, most):
        self.assertTrue(asked[0] <= most[0] and asked[1] <= most[1], f"{asked}, and at most {most} are allowed")

    def test_a_large_image(self):
        """It is listed. It is refused if memory is short, for reading the image or for listing it."""
        image = images.large_image(blocks=100000)
        with self.subTest("ample memory"):
            self.assert_counts(image, {"import": 96000, "export": 60000, "block": 100000}, lines=256006)
        for kibibytes in (16000, 32000, 48000, 64000, 80000):
            with self.subTest(kibibytes=kibibytes):
                self.assert_runs(with_memory(kibibytes, [PE_LIST]), NO_MEMORY, image)

    def test_no_room_is_made_for_pointers_that_lead_nowhere(self):
        image = images.pointers_to_nowhere(4000000)
        status, out, errors = run(with_memory(200000, [PE_LIST]), image)
        self.assertEqual((status, errors), (0, b""))
        self.assertIn(b"exports 1\n", out)

    def test_many_imports(self):
        self.assert_counts(images.shared_image(libraries=1000, functions=1100), {"import": 1100000})

    def assert_counts(self, image, wanted, lines=None):
        status, out, errors = run([PE_LIST], image)
        listed = out.splitlines()
        found = collections.Counter(line.split(b" ", 1)[0].decode() for line in listed)
        self.assertEqual((status, errors, {word: found[word] for word in wanted}), (0, b"", wanted))
        self.assertIn(lines, (None, len(listed)))


class Time(Case):
    def test_addresses_are_looked_up_by_an_index(self):
        """Twice as many sections and addresses take at most three times as long. (A walk over the sections for each address would
        take four times as long.) A busy machine has three attempts."""
        one, two = (self.written(f"{size}.dll", images.hostile_image(size << 20)) for size in (1, 2))
        for _ in range(3):
            least = [min(milliseconds([PE_LIST], image) for _ in range(9)) for image in (one, two)]
            if least[1] <= 3 * least[0]:
                return
        self.fail(f"{least} ms")


class Faults(Case):
    def test_a_folder_as_input(self):
        for words in BOTH_MODES:
            with self.subTest(words=words):
                self.assert_runs([PE_LIST, *words], (1, b"", b"read failed\n"), TOP)

    def test_a_full_device_as_output(self):
        self.assert_runs(["sh", "-c", 'exec "$0" > /dev/full', PE_LIST], (1, b"", b"write failed\n"), SMALL)

    def assert_calls(self, calls, wanted, file, **how):
        """Lists the stored file by reads (file 0) or writes (file 1) of STEP bytes each. The call number FAILING fails, if it is
        given. No call follows it, and none follows the read that meets the end."""
        with tempfile.TemporaryFile() as count:
            preload = {"LD_PRELOAD": preloaded("fail_call"), "FILE": file, "COUNT": count.fileno(), **how}
            env = {**os.environ, **{name: str(it) for name, it in preload.items()}}
            self.assert_runs([PE_LIST], wanted, STORED, env=env, pass_fds=[count.fileno()])
            self.assertEqual(os.fstat(count.fileno()).st_size, calls)

    def test_no_read_follows_a_failed_one_or_the_end(self):
        """If one fails, nothing is listed."""
        for step, reads in (96, 9), (767, 3), (1 << 20, 2):
            for failing in range(reads + 1):
                with self.subTest(step=step, failing=failing):
                    wanted = (1, b"", b"read failed\n") if failing else (0, LISTING, b"")
                    self.assert_calls(failing or reads, wanted, 0, STEP=step, FAILING=failing)

    def test_no_write_follows_a_failed_one(self):
        """The front of the listing was written before. A write of no bytes counts as failed."""
        for step, writes in (50, 9), (1 << 20, 1):
            for failing, answer in itertools.product(range(writes + 1), (-1, 0)):
                with self.subTest(step=step, failing=failing, answer=answer):
                    wanted = (1, LISTING[:step * (failing - 1)], b"write failed\n") if failing else (0, LISTING, b"")
                    self.assert_calls(failing or writes, wanted, 1, STEP=step, FAILING=failing, ANSWER=answer)

    def test_what_went_out_is_the_front_of_the_listing(self):
        for taken, answer in itertools.product(range(1, len(LISTING)), (-1, 0)):
            with self.subTest(taken=taken, answer=answer):
                self.assert_calls(2, (1, LISTING[:taken], b"write failed\n"), 1, STEP=taken, FAILING=2, ANSWER=answer)

    def test_the_status_is_the_same_with_standard_error_closed(self):
        for name, words, stdin, status, out in (("a listing", [], SMALL, 0, beside(SMALL, "listing")),
                                                ("a refused file", [], TOP / "LICENSE", 1, b""),
                                                ("a folder as input", [], TOP, 1, b""),
                                                ("a wrong use", ["x"], SMALL, 2, b"")):
            with self.subTest(name):
                self.assert_runs(["sh", "-c", 'exec "$0" "$@" 2>&-', PE_LIST, *words], (status, out, b""), stdin)
