"""Finds an export by its name or its ordinal, and follows its forwarders through a folder of DLLs:
export.py FOLDER DLL NAME, or export.py FOLDER DLL #ORDINAL"""
import os
import sys
from typing import Optional, Tuple, Union

from goblin_pe import Budget, Forwarder, Image, Options, PeError

Wanted = Union[bytes, int]


def find(image: Image, wanted: Wanted) -> Tuple[int, Optional[Forwarder]]:
    """The address of an export, and its forwarder if it has one."""
    if isinstance(wanted, int):
        address = image.find_export_by_ordinal(wanted)
        if address:
            return address.rva, image.forwarder_at(address.rva) if address.is_forwarder else None
    else:
        export = image.find_export(wanted, Budget(100_000))
        if export:
            return export.rva, export.forwarder
    raise SystemExit(f"there is no {wanted!r}")


def follow(folder: str, dll: str, wanted: Wanted) -> None:
    """Follows an export to the DLL that has it."""
    for _ in range(8):  # (a hostile folder may lead in a circle)
        with Image.open(os.path.join(folder, dll), Options(permissive=True, longest_name=512)) as image:
            rva, forwarder = find(image, wanted)
            if forwarder is None:
                print(f"{dll} {wanted!r} is at {rva:#x}, offset {image.find_offset(rva)}")
                return
        print(f"{dll} {wanted!r} is forwarded to {forwarder}")
        if forwarder.is_cut:
            raise SystemExit("the forwarder is too long")
        dll = os.path.basename(os.fsdecode(forwarder.dll)) + ".dll"
        wanted = forwarder.name if forwarder.name is not None else forwarder.ordinal or 0
    raise SystemExit("forwarded too often")


folder, dll, wanted = sys.argv[1:]
try:
    follow(folder, dll, int(wanted[1:]) if wanted.startswith("#") else os.fsencode(wanted))
except (OSError, PeError) as error:
    raise SystemExit(str(error)) from None
