"""What is wrong with a file. bindings/generate.py makes this file of what the proved crates declare."""
from ._number import Number


class Cause(Number):
    """What is wrong with a file. `first` and `second` are the two numbers of the cause; offsets are file
    offsets in bytes. No call returns MESSAGE, DIRECTORY_INDEX, SYMBOL_NAME or SLOT_COUNT, which are
    errors in Rattle alone."""

    MESSAGE = 1
    """A message of a caller's own."""
    NO_DOS_SIGNATURE = 2
    """The file is too short for the DOS signature."""
    DOS_MAGIC = 3
    """The file begins with `first` in place of the DOS signature."""
    NO_PE_POINTER = 4
    """The file is too short for the DOS header."""
    NO_PE_SIGNATURE = 5
    """The file has no four bytes at offset `first`, where the PE signature is placed."""
    PE_MAGIC = 6
    """The four bytes at the place of the PE signature are `first`."""
    STUB_BEFORE_START = 7
    """The PE signature is placed at offset `first`, before 0x40, where the DOS stub begins."""
    STUB_PAST_END = 8
    """The DOS stub would pass the file's `first` bytes: it would end at offset `second`."""
    NO_DANS = 9
    """The DOS stub has the marker `Rich` with a key, but under that key no marker `DanS`."""
    RICH_BOUNDS = 10
    """The data of the Rich header would begin at `first` and end at `second`, not after it, in bytes
    counted from offset 0x40."""
    STRIPPED_SIZE = 11
    """The header of a Terse Executable says that `first` bytes were stripped, fewer than its own 40."""
    COFF_LENGTH = 12
    """The length of a string table is below 4, the size of the field that says it."""
    DIRECTORY_INDEX = 13
    """No kind of data directory has the index `first`."""
    DIRECTORY_COUNT = 14
    """There are `first` data directories, more than sixteen."""
    NAME_TEXT = 15
    """The bytes after the slash of a section's indirect name are not UTF-8."""
    NAME_BASE64 = 16
    """A section's indirect name has a character that is no digit of base 64."""
    NAME_DECIMAL = 17
    """A section's name has no decimal number after its slash."""
    NAME_OFFSET = 18
    """No section name can hold `first`, an offset in a string table."""
    SYMBOL_NAME = 19
    """A symbol has no name: there is no text at offset `first` of the string table, or the stored offset
    is `first`, below 4."""
    STRING_TABLE = 20
    """The texts of a string table, `second` bytes at offset `first`, would pass the file."""
    FIELD_TOO_WIDE = 21
    """A Windows field of 64 bits has a value that does not fit 32."""
    UNMAPPED = 22
    """The address `first` has no file offset."""
    NAME_READ = 23
    """There is no text at offset `first`, to which the address of a name is mapped."""
    HINT_ENTRY = 24
    """The two bytes of a hint would pass the file at offset `first`."""
    LOOKUP_END = 25
    """A lookup table of imports meets the file's end at offset `first`, before its last entry."""
    IMPORT_RECORD_END = 26
    """An import directory meets the file's end at offset `first`, before its last record."""
    EXPORT_TABLE = 27
    """An export directory's record would pass the file at offset `first`."""
    FORWARDER = 28
    """A forwarder's text has no dot, or nothing after its first dot."""
    FORWARDER_ORDINAL = 29
    """A forwarder's text has no decimal number below 2^32 after its `#`."""
    RELOC_RANGE = 30
    """A base relocation directory at offset `first`, of `second` bytes, would pass the file, or begins at
    or past its end."""
    BLOCK_SIZE = 31
    """A base relocation block says that it has `first` bytes, below the 8 of its own head."""
    BLOCK_RANGE = 32
    """The words of a base relocation block, `second` bytes at `first` from the directory's front, would
    pass the directory, or begin at its end."""
    OVERFLOW = 33
    """A sum or a product of offsets passes 64 bits."""
    SLOT_COUNT = 34
    """A library of imports made by hand has `first` entries, but `second` slots."""
