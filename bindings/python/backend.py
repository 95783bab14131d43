"""Builds the wheel when pip asks for it (PEP 517, PEP 660), and needs only Python. The wheel has the package, and in it the shared
library that bindings/build made. It is for this processor, for a C library that is at least as new as the shared library needs, and
for CPython from 3.9 on. Its bytes depend only on these files, and on SOURCE_DATE_EPOCH if that is set."""
import base64
import hashlib
import os
import platform
import re
import sys
import time
import zipfile

HERE = os.path.dirname(os.path.abspath(__file__))
LIBRARY = os.environ.get("GOBLIN_PE_SO", os.path.join(HERE, "../lib/libgoblin_pe.so"))


class UnsupportedOperation(Exception):
    """The error by which pip learns that something can't be built."""


def read(*path):
    """The bytes of a file of this folder."""
    with open(os.path.join(HERE, *path), "rb") as file:
        return file.read()


def project():
    """The values of the project in pyproject.toml. Python has no reader for it before 3.11, so each value has a line of its own."""
    lines = read("pyproject.toml").decode().split("[project]")[1]
    return dict(re.findall(r'(?m)^([\w-]+) = "(.*)"$', lines)), re.findall(r'(?m)^ +"(.*)",$', lines)


def metadata():
    """The metadata, with the text of README.md."""
    values, classifiers = project()
    author, = re.findall(r'authors = \[\{ name = "(.*)" \}\]', read("pyproject.toml").decode())
    lines = ["Metadata-Version: 2.4", "Name: " + values["name"], "Version: " + values["version"], "Summary: " + values["description"],
             "Author: " + author, "License-Expression: " + values["license"], "License-File: LICENSE",
             "Requires-Python: " + values["requires-python"], *("Classifier: " + it for it in classifiers),
             "Description-Content-Type: text/markdown"]
    return "\n".join(lines).encode() + b"\n\n" + read("README.md")


def needed(library):
    """The version of the C library that a shared library needs, as two numbers. The lowest that manylinux knows is 2.5."""
    found = re.findall(rb"GLIBC_(\d+)\.(\d+)", library)
    return max([(2, 5), *((int(major), int(minor)) for major, minor in found)])


def tag(library):
    """The machines for which a wheel with this shared library is. A wheel that leads to a folder is for this machine, and names no C
    library."""
    system = "manylinux_%d_%d" % needed(library) if library and sys.platform == "linux" else sys.platform
    # (CPython has PyObject_GetBuffer since 3.9, in its stable interface only from 3.11 on; other Pythons lack it)
    return "cp39-abi3-%s_%s" % (system, platform.machine())


def information(library=b""):
    """The files that describe the package, by their places."""
    values, _ = project()
    wheel = "Wheel-Version: 1.0\nGenerator: goblin_pe\nRoot-Is-Purelib: false\nTag: %s\n" % tag(library)
    files = {"METADATA": metadata(), "WHEEL": wheel.encode(), "licenses/LICENSE": read("LICENSE")}
    return {"%s-%s.dist-info/%s" % (values["name"], values["version"], it): data for it, data in files.items()}


def module():
    """The files of the module by their places in the wheel, the library among them."""
    if not os.path.exists(LIBRARY):
        raise FileNotFoundError("there is no %s: run bindings/build first, or set the variable GOBLIN_PE_SO to its path" % LIBRARY)
    names = [it for it in os.listdir(os.path.join(HERE, "goblin_pe")) if it.endswith((".py", ".typed"))]
    return {**{"goblin_pe/" + it: read("goblin_pe", it) for it in names}, "goblin_pe/libgoblin_pe.so": read(os.path.abspath(LIBRARY))}


def written(folder, files):
    """Writes a wheel with these files, by their places, and returns its name."""
    values, _ = project()
    library = files.get("goblin_pe/libgoblin_pe.so", b"")
    stem = "%s-%s" % (values["name"], values["version"])
    files = {**files, **information(library)}
    record = stem + ".dist-info/RECORD"
    digest = lambda data: base64.urlsafe_b64encode(hashlib.sha256(data).digest()).rstrip(b"=").decode()
    rows = ["%s,sha256=%s,%d\n" % (place, digest(data), len(data)) for place, data in sorted(files.items())]
    date = time.gmtime(max(int(os.environ.get("SOURCE_DATE_EPOCH", 0)), 315532800))[:6]  # a zip begins with 1980
    with zipfile.ZipFile(os.path.join(folder, "%s-%s.whl" % (stem, tag(library))), "w", zipfile.ZIP_DEFLATED) as file:
        for place, data in [*sorted(files.items()), (record, "".join([*rows, record + ",,\n"]).encode())]:
            entry = zipfile.ZipInfo(place, date)
            entry.compress_type, entry.external_attr = zipfile.ZIP_DEFLATED, 0o100644 << 16
            file.writestr(entry, data)
    return os.path.basename(file.filename)


def build_wheel(wheel_directory, config_settings=None, metadata_directory=None):
    """The wheel."""
    return written(wheel_directory, module())


def build_editable(wheel_directory, config_settings=None, metadata_directory=None):
    """A wheel that leads to this folder, where the package loads the library of bindings/lib."""
    return written(wheel_directory, {"goblin_pe.pth": HERE.encode() + b"\n"})


def build_sdist(sdist_directory, config_settings=None):
    """The library has to be built in the repository, so there are no sources to hand on."""
    raise UnsupportedOperation("the sources are the repository's: build a wheel there")
