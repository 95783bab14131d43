"""The names of numbers and flags in headers, symbols and relocations."""
import functools
from typing import Dict, List, Literal, Tuple

from . import constants

# What the names of the constants of each kind begin with. The bits of a field are one number.
_BEGINNINGS = {"machine": "COFF_MACHINE_", "subsystem": "IMAGE_SUBSYSTEM_", "file": "IMAGE_FILE_", "dll": "IMAGE_DLLCHARACTERISTICS_",
               "section": "IMAGE_SCN_", "storage_class": "IMAGE_SYM_CLASS_", "comdat": "IMAGE_COMDAT_SELECT_",
               "weak_external": "IMAGE_WEAK_EXTERN_SEARCH_", "base_relocation": "IMAGE_REL_BASED_"}
_FIELDS = {"section": constants.IMAGE_SCN_ALIGN_MASK}
_FLAGS = ("file", "dll", "section")
# What the constants of relocations of a machine begin with.
_RELOCATIONS = {constants.COFF_MACHINE_X86: "I386", constants.COFF_MACHINE_X86_64: "AMD64", constants.COFF_MACHINE_ARM: "ARM",
                constants.COFF_MACHINE_THUMB: "ARM", constants.COFF_MACHINE_ARMNT: "ARM", constants.COFF_MACHINE_ARM64: "ARM64",
                constants.COFF_MACHINE_IA64: "IA64"}
Kind = Literal["machine", "subsystem", "file", "dll", "section", "storage_class", "comdat", "weak_external", "base_relocation"]


@functools.lru_cache(None)
def _constants(beginning: str) -> Dict[str, int]:
    # those whose names begin so, without masks
    return {name: number for name, number in vars(constants).items() if name.startswith(beginning) and not name.endswith("_MASK")}


_NAMES: Dict[str, Dict[str, int]] = {kind: _constants(beginning) for kind, beginning in _BEGINNINGS.items()}


def _flags(flags: int, kind: str) -> List[Tuple[str, int]]:
    # the flags that have names, each with its bits
    found, left, field = [], flags, _FIELDS.get(kind, 0)
    for name, number in _NAMES[kind].items():
        mask = field if number & field else number
        if number and left & mask == number:
            found.append((name, number))
            left &= ~mask
    return found


def names_of(number: int, kind: Kind) -> List[str]:
    """The names that a number or its flags have in goblin_pe.constants. What has no name is in
    hexadecimal."""
    if kind not in _FLAGS:
        return [name for name, named in _NAMES[kind].items() if named == number] or [hex(number)]
    found = _flags(number, kind)
    left = number & ~sum(bits for _, bits in found)
    return [name for name, _ in found] + [hex(left)] * bool(left)


def relocation_name(machine: int, typ: int) -> str:
    """The name of a type of relocations in an object for this machine. A type without a name is in
    hexadecimal."""
    names = _constants("IMAGE_REL_%s_" % _RELOCATIONS[machine]) if machine in _RELOCATIONS else {}
    return next((name for name, named in names.items() if named == typ), hex(typ))


# What is printed for each byte.
_PRINTABLE = [chr(it) if 32 <= it < 127 and it != 92 else "\\x%02x" % it for it in range(256)]


def printable(name: bytes) -> str:
    r"""A text that you can print safely. Each byte outside printable ASCII, and each backslash,
    becomes \x and two hexadecimal digits. So different names have different texts."""
    return "".join(map(_PRINTABLE.__getitem__, name))
