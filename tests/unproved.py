"""Runs the tests that need no proof: python3 -m tests.unproved

These are each crate's tests and the samples' listings, under the toolchain's checker of memory, and the modules of tests/ that need no
library. The last line says how many passed and failed."""
import concurrent.futures
import os
import pathlib
import re
import shutil
import subprocess
import sys
import tempfile

from tests.__main__ import tested
from tests.programs import CRATES, IMAGES, TOP, modes


def tried(crate, *words):
    """The output of `rt try` on the crate, and its status."""
    it = subprocess.run(["rt", "try", *words], cwd=crate, stdout=subprocess.PIPE, stderr=subprocess.STDOUT, check=False, text=True)
    return it.stdout, it.returncode


def tests_of(crate):
    """Runs a crate's tests. Returns how many passed and failed, and the messages if one failed."""
    output, status = tried(crate, "--test")
    found = re.search(r"(?m)^test result: \w+\. (\d+) passed; (\d+) failed;", output)
    passed, failed = map(int, found.groups()) if found else (0, 0)
    if not status and passed and not failed:
        return f"the tests of {crate.name}", passed, 0, ""
    return f"the tests of {crate.name}", passed, failed or 1, re.sub(r"(?m)^.* \.\.\. ok\n", "", output)


def listings():
    """Lists each image in both modes, and a text, which is refused. Returns how many passed and failed, and the messages."""
    cases = {"refused": (TOP / "LICENSE", [], b"", 1)}
    for image in IMAGES:
        for words, wanted in modes(image):
            cases[image.name + "".join(words)] = image, words, wanted, 0
    with tempfile.TemporaryDirectory() as folder:
        for name, (file, words, wanted, _) in cases.items():
            shutil.copyfile(file, f"{folder}/{name}")
            pathlib.Path(f"{folder}/{name}.args").write_text("\n".join(words), "ascii")
            pathlib.Path(f"{folder}/{name}.stdout").write_bytes(wanted)
        output, _ = tried(CRATES / "pe_list", "--cases", folder)
    passed = sum(f"case={name} run=ended status={status} " in line and "output=expected" in line
                 for name, (*_, status) in cases.items() for line in output.splitlines())
    failed = len(cases) - passed
    return "the listings", passed, failed, output if failed else ""


def main():
    with_tests = sorted({CRATES / it.relative_to(CRATES).parts[0] for it in CRATES.glob("*/src/**/*.rt") if "#[test]" in it.read_text("utf-8")})
    passed, failed = 0, int(not with_tests)
    for module in ("tests.test_added", "tests.test_constants", "tests.test_english", "tests.test_generated"):
        output, went_well, went_wrong, _ = tested(module)
        print(output, flush=True)
        passed, failed = passed + went_well, failed + went_wrong
    with concurrent.futures.ThreadPoolExecutor(len(os.sched_getaffinity(0))) as pool:
        for it in concurrent.futures.as_completed([pool.submit(listings), *[pool.submit(tests_of, crate) for crate in with_tests]]):
            name, went_well, went_wrong, output = it.result()
            print(f"{output}{name}: {went_well} passed, {went_wrong} failed", flush=True)
            passed, failed = passed + went_well, failed + went_wrong
    print(f"{passed} passed, {failed} failed")
    return 1 if failed else 0


if __name__ == "__main__":
    sys.exit(main())
