"""The samples, the built programs, and how the tests run a command."""
import atexit
import functools
import os
import pathlib
import resource
import shutil
import subprocess
import tempfile
import unittest

TOP = pathlib.Path(__file__).resolve().parent.parent
CRATES = TOP / "crates"
SAMPLES = TOP / "samples"
PE_LIST = CRATES / "pe_list/out/pe_list"
PE_REPLAY = CRATES / "pe_replay/out/pe_replay"
IMAGES = sorted(it for it in SAMPLES.iterdir() if it.suffix in (".dll", ".exe", ".efi"))
OBJECTS = sorted(SAMPLES.glob("*.obj"))
TERSE = sorted(SAMPLES.glob("*.te"))
assert IMAGES and OBJECTS and TERSE, f"{SAMPLES} lacks images, objects or Terse Executables"
BY_NAME = SAMPLES / "imports_by_name_x64.dll"
# The C compiler, which may have words, as "gcc -m64" has.
CC = os.environ.get("CC", "cc").split()
FLAGS = ["-O2", "-Wall", "-Wextra", "-Werror"]


def beside(sample, kind):
    """The text of the file beside a sample: its `listing`, its listing in `permissive` mode, or its `symbols`."""
    return pathlib.Path(f"{sample}.{kind}").read_bytes()


def modes(sample):
    """The words for each mode of pe_list, and the listing of an image in that mode."""
    return ([], beside(sample, "listing")), (["--permissive"], beside(sample, "permissive"))


def run(command, stdin=os.devnull, **how):
    """Runs a command with a file or with bytes as its input. Returns its status, its output and its standard error."""
    if isinstance(stdin, (bytes, bytearray)):
        it = subprocess.run(command, input=stdin, capture_output=True, check=False, **how)
    else:
        file = os.open(stdin, os.O_RDONLY)
        try:
            it = subprocess.run(command, stdin=file, capture_output=True, check=False, **how)
        finally:
            os.close(file)
    return it.returncode, it.stdout, it.stderr


def succeed(command, **how):
    """Runs a command that must succeed. Returns its output."""
    status, out, errors = run(command, **how)
    if status:
        raise AssertionError(f"{command}: status {status}\n{(out + errors).decode(errors='replace')}")
    return out.decode()


def with_memory(kibibytes, command):
    """The command with a limit of its memory."""
    return ["sh", "-c", 'ulimit -v "$0" && exec "$@"', str(kibibytes), *command]


def milliseconds(command, path):
    """The processor time of one run of a command with the file on standard input."""
    before = resource.getrusage(resource.RUSAGE_CHILDREN)
    with open(path, "rb") as file:
        subprocess.run(command, stdin=file, stdout=subprocess.DEVNULL, stderr=subprocess.DEVNULL, check=True)
    after = resource.getrusage(resource.RUSAGE_CHILDREN)
    return 1000 * (after.ru_utime + after.ru_stime - before.ru_utime - before.ru_stime)


def need(*tools):
    """Skips the test, the class or the module if the machine lacks a tool. A tool may be a list: its name, and words for it."""
    for tool in tools:
        name = tool if isinstance(tool, str) else tool[0]
        if not shutil.which(name):
            raise unittest.SkipTest(f"no {name}")


@functools.cache
def built_pe_list():
    """Has ./pe_list prove and build the program, if it is missing or a source is newer. Returns the status."""
    return subprocess.run([TOP / "pe_list", "--prove"], stdin=subprocess.DEVNULL, stdout=subprocess.DEVNULL, check=False).returncode


def build_pe_list():
    if built_pe_list():
        raise AssertionError(f"./pe_list --prove: status {built_pe_list()}")


@functools.cache
def built(program):
    """Proves and builds a program of the tests, if it is missing or a source is newer. Returns the status and the messages."""
    folder = program.parent.parent
    if is_current(folder.name, program):
        return 0, b""
    status, _, errors = run(["rt", "run", "--", *(folder / "args").read_text().split()], folder / "stdin", cwd=folder)
    return status, errors


def build(program):
    status, errors = built(program)
    if status:
        raise AssertionError(f"{program.name}: {errors.decode()}")


def build_pe_replay():
    build(PE_REPLAY)


@functools.cache
def shared_folder():
    """A folder that is removed when the tests end."""
    made = tempfile.mkdtemp()
    atexit.register(shutil.rmtree, made)
    return pathlib.Path(made)


def folder():
    """A folder for what is built once for all tests of a process."""
    made = shared_folder() / str(os.getpid())
    made.mkdir(exist_ok=True)
    return made


@functools.cache
def preloaded(name):
    """A library of tests/ to be loaded before the C library, built by the toolchain's own compiler."""
    kit = pathlib.Path(succeed(["rt", "doc"])).parent / "toolchain/bin"
    made = folder() / f"{name}.so"
    succeed([kit / "clang", "-O2", "-shared", "-fPIC", "-nostdlib", f"--ld-path={kit / 'ld.lld'}", "-o", made, TOP / f"tests/{name}.c"])
    return made


def is_current(crate, file):
    """Whether the file that was built of a crate exists, and no source is newer."""
    return not run([TOP / "tools/over_libraries", "current", crate, file])[0]


def is_kept(crate):
    """Whether the library that the gate built is in the crate's folder out/, and no source is newer."""
    library = CRATES / crate / f"out/rlib/{crate}.rlib"
    return is_current(crate, library) and not library.with_name("stamp").exists()


def environment(**more):
    """The environment with more variables, and without those that lead to a library."""
    return {**{name: value for name, value in os.environ.items() if not name.startswith("GOBLIN_PE_")}, **more}


class Case(unittest.TestCase):
    """A case that runs commands, with a folder of its own."""

    def setUp(self):
        made = tempfile.TemporaryDirectory()
        self.addCleanup(made.cleanup)
        self.folder = pathlib.Path(made.name)

    def written(self, name, data):
        """A file in the folder."""
        (self.folder / name).write_bytes(data)
        return self.folder / name

    def assert_runs(self, command, wanted, stdin=os.devnull, **how):
        """`wanted` is a status, the output, and the lines on standard error."""
        self.assertEqual(run(command, stdin, **how), wanted)

    def each_growth(self, command, answer, stdin=os.devnull):
        """Runs a program with its first growth of memory refused, then its second, and so on, until no growth is refused. That
        run has to give the answer, and each run before it has to report that there is no memory. Returns the output of those."""
        written = []
        while True:
            with tempfile.TemporaryFile() as report:
                preload = {"LD_PRELOAD": str(preloaded("refuse_growth")), "REFUSED": str(len(written) + 1), "REPORT": str(report.fileno())}
                status, out, errors = run(command, stdin, env={**os.environ, **preload}, pass_fds=[report.fileno()])
                was_refused = os.fstat(report.fileno()).st_size
            if not was_refused:
                self.assertEqual((status, out, errors), (0, answer, b""), "no growth refused")
                self.assertTrue(written, "it takes no memory")
                return written
            written.append(out)
            self.assertEqual((status, errors), (1, b"out of memory\n"), f"growth {len(written)} refused")
