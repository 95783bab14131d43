"""What pefile computes and the package does not: the hash of exports, the entropy of sections, and UTF-16 texts at addresses:
recipes.py FILE [ADDRESS..]. The work on a file is limited: steps, the bytes of a name, sections, and bytes whose entropy is taken."""
import hashlib
import itertools
import math
import sys
from collections import Counter
from typing import Iterator, Optional, Tuple

from goblin_pe import Budget, Image, Options, PeError, printable

STEPS, LONGEST, SECTIONS, BYTES = 100_000, 512, 200, 1 << 20


def export_hash(image: Image, budget: Optional[Budget] = None) -> Optional[str]:
    """The SHA-256 of the names of all exports, as pefile's get_exphash. It is "" if no export has a name, and None if a name is cut,
    because the hash would be another one."""
    digest, separator = hashlib.sha256(), b""
    for it in image.exports(budget):
        if it.name is not None:
            if it.is_name_cut:
                return None
            digest.update(separator + it.name.lower())
            separator = b","
    return digest.hexdigest() if separator else ""


def entropy(data: memoryview) -> float:
    """How random bytes are, as pefile's get_entropy: from 0, if all are the same, to 8."""
    shares = [count / len(data) for count in Counter(data).values()]
    return round(sum(share * math.log2(1 / share) for share in shares), 3)


def entropies(image: Image) -> Iterator[Tuple[bytes, float]]:
    """The name and the entropy of each section. Sections may overlap, so the number of bytes is limited."""
    left = BYTES
    for s in itertools.islice(image.sections, SECTIONS):
        data = s.data(image).data[:left]
        left -= len(data)
        yield s.name, entropy(data)


def utf16_at(image: Image, rva: int, longest: int = LONGEST) -> str:
    """The UTF-16 text from an address up to a NUL, as pefile's get_string_u_at_rva. It has at most `longest` characters."""
    data = bytes(image.memory_at(rva, 2 * longest))
    end = next((it for it in range(0, len(data) - 1, 2) if data[it: it + 2] == b"\0\0"), len(data) & ~1)
    return data[:end].decode("utf-16-le", "replace")


def main(path: str, *addresses: str) -> None:
    """Prints what each recipe gives."""
    try:
        with Image.open(path, Options(permissive=True, longest_name=LONGEST)) as image:
            for name, found in entropies(image):
                print("entropy %s %.3f" % (printable(name), found))
            for it in addresses:
                print("text %s %s" % (printable(it.encode()), ascii(utf16_at(image, int(it, 0) & 0xFFFFFFFF))))
            print("exports", export_hash(image, Budget(STEPS)))
    except (OSError, PeError) as error:
        print("%s: %s" % (path, error))


if __name__ == "__main__":
    main(*sys.argv[1:])
