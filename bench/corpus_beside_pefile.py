#!/usr/bin/env python3
"""Measures how many files a second the example corpus.py reads, and how many pefile reads in its place: corpus_beside_pefile.py
FOLDER [PROCESSES..]. Both make the same rows, and the same function hands the files to processes. The files are read once before,
so that they are in memory. If the machine is busy, compare the times of the processor. The last line says how many rows are alike, without what is skipped, which pefile does not count."""
import hashlib
import os
import pathlib
import sys
import time
from typing import Any, Dict

import pefile

sys.path.insert(0, str(pathlib.Path(__file__).resolve().parent.parent / "bindings/python/examples"))
import corpus  # noqa: E402

# How many rows pefile reads before it gives up, if it is not told otherwise: 8,192.
MOST = pefile.MAX_IMPORT_SYMBOLS = 1 << 32
TABLES = [pefile.DIRECTORY_ENTRY["IMAGE_DIRECTORY_ENTRY_" + it] for it in ("EXPORT", "IMPORT")]


def by_pefile(path: str) -> Dict[str, Any]:
    """The row of one file, by pefile."""
    with open(path, "rb") as file:
        data = file.read(corpus.LARGEST + 1)
    try:
        pe = pefile.PE(data=data, fast_load=True, max_symbol_exports=MOST, max_repeated_symbol=MOST)
        pe.parse_data_directories(TABLES)
        rich, overlay = pe.parse_rich_header(), pe.get_overlay_data_start_offset()
        exports = pe.DIRECTORY_ENTRY_EXPORT.symbols if hasattr(pe, "DIRECTORY_ENTRY_EXPORT") else ()
        machine = pefile.MACHINE_TYPE.get(pe.FILE_HEADER.Machine, "")
        return {
            "file": path, "machine": machine.replace("IMAGE_FILE_", "COFF_").replace("_I386", "_X86").replace("_AMD64", "_X86_64"),
            "time_date_stamp": pe.FILE_HEADER.TimeDateStamp, "sections": len(pe.sections),
            "overlay": 0 if overlay is None else len(data) - overlay, "imphash": pe.get_imphash(),
            "rich_hash": hashlib.md5(rich["clear_data"], usedforsecurity=False).hexdigest() if rich else None,
            "imports": sum(len(it.imports) for it in getattr(pe, "DIRECTORY_ENTRY_IMPORT", ())),
            "exports": sum(1 for it in exports if it.name is not None)}
    except pefile.PEFormatError as error:
        return {"file": path, "why": str(error)}


def main(folder: str, *processes: str) -> None:
    """Measures both, by each number of processes."""
    paths = [it for it in corpus.files_in(folder) if pathlib.Path(it).read_bytes()[:2] == b"MZ"]
    rows = []
    for number in map(int, processes or ("1", "4")):
        for name, function in ("goblin_pe", corpus.row), ("pefile", by_pefile):
            begun, before = time.perf_counter(), os.times()
            rows.append(list(corpus.by_processes(function, paths, number)))
            seconds, used = time.perf_counter() - begun, sum(os.times()[:4]) - sum(before[:4])
            print("%s, %d processes: %.0f files a second, %.2f milliseconds of the processor for each" % (
                name, number, len(paths) / seconds, 1000 * used / len(paths)), flush=True)
    alike = 0
    for ours, theirs in zip(rows[0], rows[1]):
        different = ["whether it is refused"] if ("machine" in theirs) != ("machine" in ours) else [
            it for it in theirs if it != "why" and theirs[it] != ours[it]]
        alike += not different
        for it in different:
            print("%s: %s: %r and %r" % (ours["file"], it, ours.get(it), theirs.get(it)))
    print("%d of %d rows are alike" % (alike, len(paths)))


if __name__ == "__main__":
    main(*sys.argv[1:])
