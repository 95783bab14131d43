"""Writes what analysts compare of each file of a folder, a line of JSON each: triage.py FOLDER. One
budget limits all work on a file, and the number and the bytes of its sections are limited, too.
`cut_off` says that a file was not read to its end. Windows rounds raw pointers and maps the headers,
so packers can hide imports from other readers: `never_loaded` has the imports that Windows does not
find and others do, and `in_headers` those that it finds in the headers. A damaged file has a line,
too."""
import concurrent.futures
import dataclasses
import hashlib
import itertools
import json
import os
import sys
from collections import Counter
from typing import Any, Dict, Iterator, List, Set, Tuple

from goblin_pe import Budget, Image, Kind, Mapping, Options, OutOfSteps, PeError, names_of, printable
from recipes import entropy

OPTIONS = Options(permissive=True, longest_name=256)
STEPS = 50_000
SECTIONS = 200
MEASURED = 1 << 20  # bytes whose entropy is computed
Key = Tuple[bytes, Any]


def sections(image: Image) -> Iterator[Dict[str, Any]]:
    """What each section is like. Sections may overlap, so no more bytes are hashed than the file has. The
    entropy is that of the first `measured` bytes."""
    left, rest = len(image.data), MEASURED
    for s in itertools.islice(image.sections, SECTIONS):
        data = s.data(image).data[:left]
        left, part = left - len(data), data[:rest]
        rest -= len(part)
        yield {
            "name": printable(s.name), "flags": names_of(s.characteristics, "section"), "hashed": len(data),
            "measured": len(part), "entropy": entropy(part), "md5": hashlib.md5(data, usedforsecurity=False).hexdigest()}


def keys(image: Image, mapping: Mapping, budget: Budget) -> Set[Key]:
    """The imports that a reader with this mapping finds."""
    view = image.with_options(dataclasses.replace(image.options, mapping=mapping))
    return {(it.dll.lower(), it.ordinal if it.name is None else it.name) for it in view.imports(budget)}


def first(found: Set[Key]) -> List[str]:
    """The first hundred of these imports, as texts."""
    return [f"{printable(dll)} {name if isinstance(name, int) else printable(name)}"
            for dll, name in itertools.islice(found, 100)]


def limited(image: Image, budget: Budget) -> Iterator[Tuple[str, Any]]:
    """What takes steps, as pairs (what, value), the most interesting first."""
    yield "imphash", image.imphash(budget)
    imports, exports = image.imports(budget), image.exports(budget)
    libraries = Counter(it.dll.lower() for it in imports)
    yield "libraries", {printable(dll): count for dll, count in sorted(libraries.most_common(100))}
    yield "exports", sum(1 for _ in exports)
    yield "skipped", {"imports": imports.skipped, "exports": exports.skipped}
    yield "unmapped", {"imports": imports.unmapped, "exports": exports.unmapped}
    loaded = keys(image, Mapping.AS_LOADED, budget)
    yield "never_loaded", first(keys(image, Mapping.AS_STORED, budget) - loaded)
    yield "in_headers", first(loaded - keys(image, Mapping.BY_FILE_ALIGNMENT, budget))


def facts(image: Image) -> Dict[str, Any]:
    """What a line says of an image, whether or not it is whole."""
    optional, rich, overlay = image.optional_header, image.rich_header, image.overlay()
    found: Dict[str, Any] = {
        "machine": names_of(image.coff_header.machine, "machine")[0],
        "time_date_stamp": image.coff_header.time_date_stamp, "is_64": image.is_64, "is_lib": image.is_lib,
        "entry": image.entry, "entry_region": image.memory_at(image.entry, 0).region.name,
        "subsystem": optional and names_of(optional.windows_fields.subsystem, "subsystem")[0],
        "rich_hash": rich and rich.hash(), "overlay": len(image.data) - len(overlay) if overlay else None,
        "header_faults": {part: str(error) for part, error in image.header_faults.items()}}
    if len(image.sections) > SECTIONS:
        found["cut_off"] = True
    try:
        for what, value in limited(image, Budget(STEPS)):
            found[what] = value
    except OutOfSteps:
        found["cut_off"] = True
    except PeError as error:
        found["refused"] = str(error)
    return {**found, "sections": list(sections(image))}


def triaged(path: str) -> Dict[str, Any]:
    """The line of a file."""
    found: Dict[str, Any] = {"file": os.path.basename(path)}
    try:
        with open(path, "rb") as file:
            data = file.read()
    except OSError as error:
        return {**found, "refused": str(error)}
    kind = Kind.of(data)
    if kind != Kind.IMAGE:
        return {**found, "kind": kind.name.lower()}
    with Image.partial(data, OPTIONS) as image:
        return {**found, "kind": "image", "refused": image.refusal and str(image.refusal), **facts(image)}


with concurrent.futures.ThreadPoolExecutor(4) as threads:
    for found in threads.map(triaged, sorted(it.path for it in os.scandir(sys.argv[1]) if it.is_file())):
        print(json.dumps(found))
