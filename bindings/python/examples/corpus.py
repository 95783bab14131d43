"""Reads all files of a folder, and writes a row of JSON for each: corpus.py [--processes N | --dask ADDRESS] FOLDER. The work on a
file is limited, so no file holds up the run. A file that is refused, too large or gone has a row, too, and the run goes on.

With --dask, the workers of a Dask cluster read the files. They need this package, and the same files at the same paths."""
import argparse
import concurrent.futures
import contextlib
import importlib
import json
import os
import sys
from typing import Any, Callable, Dict, Iterable, Iterator, List

from goblin_pe import Budget, Image, Kind, Options, OutOfSteps, PeError, names_of

OPTIONS = Options(permissive=True, longest_name=512)
STEPS, LARGEST = 100_000, 64 << 20
# How many files a worker gets at once.
CHUNK = 16
Row = Dict[str, Any]


def facts(image: Image, budget: Budget) -> Iterator[Row]:
    """The facts of a row, in parts. If the budget is used up, the row has the parts before."""
    rich, overlay = image.rich_header, image.overlay()
    yield {"machine": names_of(image.coff_header.machine, "machine")[0], "time_date_stamp": image.coff_header.time_date_stamp,
           "sections": len(image.sections), "overlay": len(overlay), "rich_hash": rich and rich.hash()}
    yield {"imphash": image.imphash(budget)}
    imports, exports = image.imports(budget), image.exports(budget)
    yield {"imports": sum(1 for _ in imports)}
    yield {"exports": sum(1 for _ in exports), "skipped": imports.skipped + exports.skipped}


def row(path: str) -> Row:
    """The row of one file. Whatever the file holds, this raises no error, and ends soon."""
    found: Row = {"file": path}
    try:
        with open(path, "rb") as file:
            data = file.read(LARGEST + 1)
        if len(data) > LARGEST:
            return {**found, "state": "too large"}
        found["kind"] = Kind.of(data).name.lower()
        with Image(data, OPTIONS) as image:
            for it in facts(image, Budget(STEPS)):
                found.update(it)
        return {**found, "state": "read"}
    except OutOfSteps as error:
        return {**found, "state": "cut off", "why": str(error)}
    except PeError as error:
        return {**found, "state": "refused", "why": str(error)}
    except (OSError, MemoryError) as error:
        return {**found, "state": "not read", "why": str(error) or "out of memory"}


def chunk_of(function: Callable[[str], Row], paths: List[str]) -> List[Row]:
    """The rows of some files."""
    return [function(path) for path in paths]


def by_processes(function: Callable[[str], Row], paths: List[str], processes: int) -> Iterator[Row]:
    """The rows of files, made by processes of this machine."""
    with concurrent.futures.ProcessPoolExecutor(processes) as pool:
        yield from pool.map(function, paths, chunksize=CHUNK)


def by_dask(function: Callable[[str], Row], paths: List[str], address: str, processes: int) -> Iterator[Row]:
    """The rows of files, made by the workers of a cluster. The first rows that are done come first."""
    distributed = importlib.import_module("distributed")
    where: Row = {"n_workers": processes, "threads_per_worker": 1} if address == "local" else {"address": address}
    with distributed.Client(**where) as client:
        chunks = [paths[it: it + CHUNK] for it in range(0, len(paths), CHUNK)]
        tasks = client.map(chunk_of, [function] * len(chunks), chunks, pure=False, batch_size=1000)
        for _, rows in distributed.as_completed(tasks, with_results=True):
            yield from rows


def files_in(folder: str) -> Iterator[str]:
    """The paths of all files in a folder and in the folders below it."""
    for place, folders, names in os.walk(folder):
        folders.sort()
        yield from filter(os.path.isfile, (os.path.join(place, name) for name in sorted(names)))


def shown(rows: Iterable[Row], count: int) -> None:
    """Prints each row, with a bar of progress if there is tqdm and standard error is a terminal."""
    write: Callable[[str], Any] = print
    with contextlib.suppress(ImportError):
        tqdm = importlib.import_module("tqdm")
        rows, write = tqdm.tqdm(rows, total=count, unit="file", disable=None), tqdm.tqdm.write
    for it in rows:
        write(json.dumps(it))


def main(words: List[str]) -> None:
    """Reads the folder that the words name."""
    parser = argparse.ArgumentParser(description="Reads all files of a folder, a row of JSON for each.")
    parser.add_argument("--processes", type=int, default=os.cpu_count(), metavar="N", help="how many processes read (default: %(default)s)")
    parser.add_argument("--dask", metavar="ADDRESS", help="let the workers of this Dask cluster read; `local` starts one on this machine")
    parser.add_argument("folder", metavar="FOLDER")
    asked = parser.parse_args(words)
    paths = list(files_in(asked.folder))
    rows = by_dask(row, paths, asked.dask, asked.processes) if asked.dask else by_processes(row, paths, asked.processes)
    shown(rows, len(paths))


if __name__ == "__main__":
    main(sys.argv[1:])
