"""Lists the imports of untrusted files: imports.py FILE.."""
import sys

from goblin_pe import Budget, Image, Options, PeError, printable


def list_imports(path: str) -> None:
    """Lists the imports of a file, and how many were skipped."""
    budget = Budget(30_000)
    with Image.open(path, Options(permissive=True, longest_name=256)) as image:
        imports = image.imports(budget)
        for it in imports:
            name = f"#{it.ordinal}" if it.name is None else printable(it.name)
            print(f"{path} {it.library:6} {it.iat_rva:#010x} {printable(it.dll):.100} {name:.200}")
        if imports.skipped:
            print(f"{path} skipped {imports.skipped}")


for path in sys.argv[1:]:
    try:
        list_imports(path)
    except (OSError, PeError) as error:
        print(f"{path}: {error}")
