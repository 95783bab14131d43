"""Runs the tests of what is built, the modules side by side: python3 -m tests [--allow-missing] [MODULE..]

Each row of a table counts as a test. The output names what was skipped; its last line says how many tests passed and failed. A
module that is skipped as a whole counts as a failure, unless --allow-missing is given."""
import concurrent.futures
import contextlib
import io
import multiprocessing
import os
import pathlib
import sys
import time
import unittest

from tests.bindings import library
from tests.programs import build_pe_list, build_pe_replay, shared_folder


class Counts(unittest.TestResult):
    """Counts each row of a table, and each case that has no rows."""

    passed = rows = 0

    def startTest(self, test):
        super().startTest(test)
        self.rows = 0

    def addSubTest(self, test, subtest, err):
        super().addSubTest(test, subtest, err)
        self.rows += 1
        self.passed += err is None

    def addSuccess(self, test):
        super().addSuccess(test)
        self.passed += not self.rows


def build_for_all():
    """Builds what several modules use, once, before they start. A module fails if it needs what could not be built."""
    for build in (library, build_pe_list, build_pe_replay):
        with contextlib.suppress(AssertionError, OSError):
            build()


def tested(name):
    """Runs a module's tests. Returns their output, how many passed and failed, and what was skipped."""
    began, result = time.time(), Counts()
    with contextlib.redirect_stdout(io.StringIO()) as printed:
        unittest.defaultTestLoader.loadTestsFromName(name).run(result)
    broken = result.failures + result.errors
    output = printed.getvalue() + "".join(f"FAILED: {case}\n{trace}\n" for case, trace in broken)
    output += f"{name}: {result.passed} passed, {len(broken)} failed, {time.time() - began:.0f} seconds"
    return output, result.passed, len(broken), [f"skipped: {case}: {reason}" for case, reason in result.skipped]


def main(words):
    may_lack, names = "--allow-missing" in words, [it for it in words if it != "--allow-missing"]
    names = names or sorted(f"tests.{it.stem}" for it in pathlib.Path(__file__).parent.glob("test_*.py"))
    shared_folder()  # (It is made here because it is removed when the process that made it ends.)
    if len(names) > 1:
        build_for_all()
    passed = failed = 0
    skipped = []
    fork = multiprocessing.get_context("fork")
    with concurrent.futures.ProcessPoolExecutor(len(os.sched_getaffinity(0)), fork) as pool:
        for output, went_well, went_wrong, left in pool.map(tested, names):
            print(output, flush=True)
            passed, failed, skipped = passed + went_well, failed + went_wrong, skipped + left
    if not may_lack:
        failed += sum(it.startswith("skipped: setUpModule ") for it in skipped)
    print("\n".join([*skipped, f"{passed} passed, {failed} failed"]))
    return 1 if failed or not passed else 0


if __name__ == "__main__":
    sys.exit(main(sys.argv[1:]))
