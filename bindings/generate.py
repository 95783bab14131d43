#!/usr/bin/env python3
"""Writes what C, Rust and Python repeat of the library's interface, below bindings/: records, calls, numbers and constants.

All of it is declared by the crates of the library. The doc comments there become the manual in C. A test compares the files
with what this makes, and so does bindings/build, by the word --check, which writes nothing."""
import re
import sys
from typing import Dict

sys.path.insert(0, __file__.rsplit("/", 1)[0] if "/" in __file__ else ".")
from generator.c import c_files, sum_of  # noqa: E402
from generator.declared import HERE, LIBRARY, VERSION, Interface  # noqa: E402
from generator.python import python_files  # noqa: E402
from generator.rust import rust_files  # noqa: E402

RATTLE_INTERFACE = """//! The number of this interface, which bindings/generate.py makes of what the crates declare: the
//! first four bytes of the SHA-256 of the records, the numbers in them, the calls and the version.

ghost use Rattle.std.specs.Prelude.{{◌≡◌}};

/// The number of this interface. A caller that declares another one has another number.
#[unsafe(no_mangle)]
pub extern "C" fn goblin_pe_interface() -> u32
    ensures {{ result ≡ {number} }}
{{
    {number:_}
}}

/// The same, by a name that no other interface has, with which programs in C are linked.
#[unsafe(no_mangle)]
pub extern "C" fn goblin_pe_interface_{number:08x}() -> u32
    ensures {{ result ≡ {number} }}
{{
    {number:_}
}}
"""


def ordinals() -> Dict[str, str]:
    """The tables of ordinals by which imports are hashed."""
    text = (HERE / "python/goblin_pe/_imphash.py").read_text("utf-8")
    return dict(re.findall(r'(?s)\n(SOCKETS|AUTOMATION) = """(.*?)"""', text))


def versions() -> Dict[str, str]:
    """The files by hand that have the version, with this one."""
    forms = {"rust/Cargo.toml": r'(?m)^(version = ").*?(")', "python/pyproject.toml": r'(?m)^(version = ").*?(")',
             "python/goblin_pe/__init__.py": r'(?m)^(__version__ = ").*?(")'}
    return {place: re.sub(form, r"\g<1>%s\g<2>" % VERSION, (HERE / place).read_text("utf-8"), count=1)
            for place, form in forms.items() if (HERE / place).exists()}


def files(it: Interface) -> Dict[str, str]:
    """What is made, by its place below bindings/."""
    library = {"../crates/%s/src/interface.rt" % LIBRARY: RATTLE_INTERFACE.format(number=int(sum_of(it), 16))}
    return {**c_files(it), **rust_files(it, ordinals()), **python_files(it), **library, **versions()}


if __name__ == "__main__":
    made = files(Interface())
    if sys.argv[1:] == ["--check"]:
        others = [it for it, text in made.items() if not (HERE / it).exists() or (HERE / it).read_text("utf-8") != text]
        sys.exit("these differ from what the crates declare: %s" % " ".join(others) if others else 0)
    for place, text in made.items():
        (HERE / place).parent.mkdir(parents=True, exist_ok=True)
        (HERE / place).write_text(text, "utf-8")
