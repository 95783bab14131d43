"""Makes the records, the calls and the constants of the package for Python."""
from typing import Dict, List

from .c import sum_of
from .declared import MADE, NUMBERS, Declared, Interface, Item, Type, snake


def python_files(it: Interface) -> Dict[str, str]:
    """The modules of the package."""

    def number(name: str) -> str:
        return "c." + NUMBERS[name][2]

    def kind(of: Type) -> str:
        if of.form == "pointer":
            return "c.c_void_p"
        single = number(of.name) if of.name in NUMBERS else of.name
        return "%s * %d" % (single, of.length) if of.form == "array" else single

    def record(r: Declared) -> str:
        rows = "".join('        ("%s", %s),\n' % (f.name, kind(f.type)) for f in r.items)
        return "class %s(c.Structure):\n    _fields_ = [\n%s    ]\n" % (r.name, rows)

    def taken(of: Type) -> List[str]:
        if of.form in ("slice", "table"):
            return ["c.c_void_p", "c.c_size_t"]
        single = number(of.name) if of.name in NUMBERS else of.name
        return ["c.POINTER(%s)" % single if of.is_reference else single]

    def call(d: Declared) -> str:
        arguments = ", ".join(word for p in d.items for word in taken(p.type))
        return '    "%s": (%s, [%s]),\n' % (d.name, taken(d.answer)[0], arguments)

    def causes(e: Declared) -> str:
        rows = "".join('    %s = %s\n    """%s"""\n' % (
            snake(v.name).upper(), v.number, it.comment(v.doc, str, "", "    ", "").strip()) for v in e.items)
        return 'class %s(Number):\n    """%s"""\n\n%s' % (e.name, it.comment(e.doc, str, "", "    ", "").strip(), rows)

    def constant(c: Item) -> str:
        return it.comment(c.doc, str, "# ") + "%s = %s\n" % (c.name, c.number)

    calls = [c for name, c in it.calls.items() if name != "goblin_pe_fault_text"]
    return {
        "python/goblin_pe/_records.py": RECORDS % (
            MADE, sum_of(it), "\n\n".join(map(record, it.records.values())), "".join(map(call, calls))),
        "python/goblin_pe/_causes.py": '"""What is wrong with a file. %s"""\nfrom ._number import Number\n\n\n%s' % (MADE, causes(it.enums["Cause"])),
        "python/goblin_pe/constants.py": '"""The numbers of the PE and COFF formats, by goblin\'s names, which are mostly the formats\' own."""\n# %s\n\n%s' % (
            MADE, "\n".join(it.comment(file.doc, str, "# ") + "\n" + "".join(map(constant, file.items)) for file in it.constants))}


RECORDS = '"""The records and the calls of the library, as goblin_pe.h declares them. %s"""' + """
import ctypes as c
from typing import Any, Dict, List, Tuple

# The number of this interface.
INTERFACE = 0x%s


%s

# The calls: what each returns and takes.
CALLS: Dict[str, Tuple[Any, List[Any]]] = {
    "goblin_pe_fault_string": (c.c_char_p, [c.POINTER(Fault), c.c_char_p]),
%s}
"""
