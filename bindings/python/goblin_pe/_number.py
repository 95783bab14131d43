"""Numbers with names."""
import enum


class Number(enum.IntEnum):
    """A number with a name. Its text is the name. Formats for numbers, such as %d and {:#x}, write the number."""

    __str__ = enum.Enum.__str__

    def __format__(self, form: str) -> str:
        return format(int(self) if form.endswith(("b", "c", "d", "n", "o", "x", "X")) else str(self), form)
