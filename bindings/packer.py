"""Packs the library of this folder's sources for machines without the prover. bindings/package calls it, in the clone in which
the gate has run. It puts into a folder

    goblin_pe-VERSION-cp39-abi3-PLATFORM.whl    the package for Python
    goblin_pe-VERSION-PLATFORM.tar.gz           library, header and pkg-config file, and the crate for Rust
    goblin-pe_VERSION_ARCHITECTURE.deb          all of these, for Debian

Each has the text PROVED, which bindings/package gives, with a list of the files. The same files make the same packages, to the
byte, by every Python: the owner of all files is root, and their date is that of the commit."""
import hashlib
import io
import os
import pathlib
import platform
import struct
import subprocess
import sys
import tarfile
import tempfile
import time
import zlib

HERE = pathlib.Path(__file__).resolve().parent
ARCHITECTURES = {"x86_64": "amd64", "aarch64": "arm64"}

LISTED = """
All files of the package, except this text and what lists it. To compare them, in its {root}:
sed -n 's/^  : //p' {place} | sha256sum -c

{files}
"""

CONTROL = """Package: goblin-pe
Version: {version}
Architecture: {architecture}
Maintainer: {maintainer}
Depends: libc6 (>= {glibc})
Suggests: python3 (>= 3.9), pkg-config, cargo
Section: libdevel
Priority: optional
Description: reader of PE files that can't be trusted, by a proved library
 Executables, libraries and objects of Windows and UEFI, read from C, Python and
 Rust. /usr/share/doc/goblin-pe/PROVED says what was proved, and from which
 sources.
 .
 It needs a processor of the level x86-64-v2, which most have had since 2011.
"""

# Debian has a package for a shared library alone, and one for its headers; this is all in one.
OVERRIDES = """goblin-pe: package-name-doesnt-match-sonames
goblin-pe: link-to-shared-library-in-wrong-package
"""

# Python keeps compiled modules there, if root runs the package.
PRERM = b"""#!/bin/sh
set -e
rm -rf "$DPKG_ROOT/usr/lib/python3/dist-packages/goblin_pe/__pycache__"
"""


def answer_of(*command):
    """What a command answers; nothing if there is no such command, or if it fails."""
    try:
        return subprocess.run(command, cwd=HERE, capture_output=True, check=True, text=True).stdout.strip()
    except (OSError, subprocess.CalledProcessError):
        return ""


def checksum(data):
    return hashlib.sha256(data).hexdigest()


def defined(library, name):
    """What the header of the library defines as a text."""
    lines = (library / "goblin_pe.h").read_text("utf-8").splitlines()
    return next(it.split('"')[1] for it in lines if it.startswith("#define GOBLIN_PE_%s " % name))


def shared_name(library):
    return "libgoblin_pe.so." + defined(library, "SONAME")


def with_proved(text, files, place, root):
    """The files of a package, and at its place the text PROVED, with a list of them."""
    rows = ["  : %s  %s" % (checksum(data), it) for it, data in sorted(files.items()) if isinstance(data, bytes)]
    return {**files, place: (text + LISTED.format(root=root, place=place, files="\n".join(rows))).encode()}


def platform_name():
    return "%s_%s" % (sys.platform, platform.machine())


def installed(prefix, library, libdir=""):
    """What bindings/install puts below a prefix: the bytes of each file by its place, or the target of a link."""
    with tempfile.TemporaryDirectory() as root:
        env = {**os.environ, "DESTDIR": root, "GOBLIN_PE_LIB": str(library), "LIBDIR": libdir}
        subprocess.run([HERE / "install", prefix], check=True, env=env)
        files = sorted(it for it in pathlib.Path(root).rglob("*") if it.is_symlink() or it.is_file())
        return {str(it.relative_to(root)): os.readlink(it) if it.is_symlink() else it.read_bytes() for it in files}


def crate():
    """The crate for Rust, as cargo packs it."""
    files = [HERE / "rust" / it for it in ("Cargo.toml", "Cargo.lock", "LICENSE", "build.rs", "README.md")]
    files += [it for part in ("src", "examples") for it in (HERE / "rust" / part).rglob("*.rs")]
    return {str(it.relative_to(HERE)): it.read_bytes() for it in files}


def below(folder, files):
    return {folder + "/" + place: data for place, data in files.items()}


def zipped(data, date):
    """Data as gzip packs it. (The module gzip of some Pythons writes another header.)"""
    packer = zlib.compressobj(9, zlib.DEFLATED, -15)
    packed = packer.compress(data) + packer.flush()
    return struct.pack("<BBBBLBB", 31, 139, 8, 0, date, 2, 255) + packed + struct.pack("<LL", zlib.crc32(data), len(data))


def tar(files, date):
    """A tar of files, packed: the folders that they need, then each by its place."""
    folders = sorted({str(it) for place in files for it in pathlib.PurePath(place).parents if str(it) != "."})
    made = io.BytesIO()
    with tarfile.open(fileobj=made, mode="w", format=tarfile.GNU_FORMAT) as file:
        for place, data in [*((it, None) for it in folders), *sorted(files.items())]:
            entry = tarfile.TarInfo(place)
            entry.mtime, entry.uname, entry.gname = date, "root", "root"
            if data is None:
                entry.type, entry.mode = tarfile.DIRTYPE, 0o755
            elif isinstance(data, str):
                entry.type, entry.linkname, entry.mode = tarfile.SYMTYPE, data, 0o777
            else:
                entry.size, entry.mode = len(data), 0o755 if place == "prerm" else 0o644
            file.addfile(entry, io.BytesIO(data) if isinstance(data, bytes) else None)
    return zipped(made.getvalue(), date)


def deb(version, glibc, soname, files, date):
    """A package for Debian, which is an ar of two tars."""
    control = CONTROL.format(version=version, architecture=architecture(), glibc=glibc, maintainer=maintainer())
    sums = ["%s  %s\n" % (hashlib.md5(data).hexdigest(), place) for place, data in sorted(files.items()) if isinstance(data, bytes)]
    control = tar({"control": control.encode(), "prerm": PRERM, "md5sums": "".join(sums).encode(), "triggers": b"activate-noawait ldconfig\n",
                   "shlibs": ("libgoblin_pe %s goblin-pe (= %s)\n" % (soname, version)).encode()}, date)
    made = b"!<arch>\n"
    for name, data in ("debian-binary", b"2.0\n"), ("control.tar.gz", control), ("data.tar.gz", tar(files, date)):
        made += b"%-16s%-12d0     0     100644  %-10d`\n" % (name.encode(), date, len(data)) + data + b"\n" * (len(data) % 2)
    return made


def maintainer():
    return answer_of("git", "log", "-1", "--format=%an <%ae>") or "nobody <nobody@localhost>"


def architecture():
    return ARCHITECTURES.get(platform.machine(), platform.machine())


def documents():
    """The texts of the repository that each package has."""
    return {it: (HERE.parent / it).read_bytes() for it in ("LICENSE", "SECURITY.md", "CHANGELOG.md")}


def tarred(library):
    """What is in the tar: all that a program in C or Rust needs."""
    files = {**installed("/", library), **crate(), **documents(), "rust/lib/libgoblin_pe.a": (library / "libgoblin_pe.a").read_bytes()}
    found = "lib/pkgconfig/goblin_pe.pc"
    return {**files, found: files[found].replace(b"prefix=\n", b"prefix=${pcfiledir}/../..\n")}


def for_debian(backend, library, version, date):
    """What is in the package for Debian, by its place below the root."""
    libraries = "usr/lib/%s-linux-gnu" % platform.machine()
    name = shared_name(library)
    module = {**backend.module(), "goblin_pe/libgoblin_pe.so": "../../../%s/%s" % (libraries.rpartition("/")[2], name)}
    metadata, = (it for it in backend.information() if it.endswith("/METADATA"))
    module.update({metadata: backend.metadata(), metadata.replace("METADATA", "INSTALLER"): b"dpkg\n"})
    dated = "goblin-pe (%s) unstable; urgency=medium\n\n  * See CHANGELOG.md.\n\n -- %s  %s\n" % (
        version, maintainer(), time.strftime("%a, %d %b %Y %H:%M:%S +0000", time.gmtime(date)))
    texts = documents()
    examples = {"examples/%s" % it.name: it.read_bytes() for it in sorted((HERE / "python/examples").glob("*.py"))}
    doc = {"copyright": texts.pop("LICENSE"), **texts, "README.python.md": backend.read("README.md"),
           "README.rust.md": (HERE / "rust/README.md").read_bytes(), **examples,
           "changelog.gz": zipped(dated.encode(), 0)}
    files = {**installed("/usr", library, "/" + libraries), **below("usr/lib/python3/dist-packages", module),
             **below("usr/share/goblin_pe", crate()), **below("usr/share/doc/goblin-pe", doc),
             "usr/share/lintian/overrides/goblin-pe": OVERRIDES.encode()}
    del files["usr/share/doc/goblin-pe/LICENSE"]  # (which is its copyright)
    return files


def pack(out, library, text, date):
    """Packs the library of a folder, with the text PROVED, into the folder out."""
    os.environ["SOURCE_DATE_EPOCH"], os.environ["GOBLIN_PE_SO"] = str(date), str(library / "libgoblin_pe.so")
    sys.path.insert(0, str(HERE / "python"))
    import backend  # (it asks for the library's place)
    version = backend.project()[0]["version"]
    glibc = "%d.%d" % backend.needed((library / shared_name(library)).read_bytes())
    out.mkdir(parents=True, exist_ok=True)
    module = {**backend.module(), **below("goblin_pe", {it: data for it, data in documents().items() if it != "LICENSE"})}
    information = backend.information(module["goblin_pe/libgoblin_pe.so"])
    listed = with_proved(text, {**module, **information}, "goblin_pe/PROVED", "folder site-packages")
    backend.written(out, listed)
    stem = "goblin_pe-" + version
    files = with_proved(text, tarred(library), "PROVED", "folder " + stem)
    (out / ("%s-%s.tar.gz" % (stem, platform_name()))).write_bytes(tar(below(stem, files), date))
    files = with_proved(text, for_debian(backend, library, version, date), "usr/share/doc/goblin-pe/PROVED", "root")
    packed = deb(version, glibc, defined(library, "SONAME"), files, date)
    (out / ("goblin-pe_%s_%s.deb" % (version, architecture()))).write_bytes(packed)


if __name__ == "__main__":
    sys.dont_write_bytecode = True
    pack(pathlib.Path(sys.argv[1]), pathlib.Path(sys.argv[2]), sys.stdin.read(), int(sys.argv[3]))
