"""The shared library, its calls, and how they get the bytes of a file."""
import contextlib
import ctypes as c
import mmap
import os
import sys
from typing import Iterator, Tuple, Union

from ._records import CALLS, INTERFACE

# The bytes of a file.
if sys.version_info >= (3, 12):
    from collections.abc import Buffer as Data
else:
    Data = Union[bytes, bytearray, memoryview, mmap.mmap]


def _path() -> str:
    # the path in the variable; without it beside this module, or else in the folder of bindings/build
    here = os.path.dirname(os.path.abspath(__file__))
    name = "libgoblin_pe.so"
    named = os.environ.get("GOBLIN_PE_SO")
    places = [named] if named else [os.path.join(here, name), os.path.join(here, "../../lib", name)]
    for place in places:
        if os.path.exists(place):
            return place
    raise ImportError("there is no %s: run bindings/build, or name the library in the variable GOBLIN_PE_SO" % places[-1])


def _load() -> c.CDLL:
    library = c.CDLL(_path())
    library.goblin_pe_interface.restype = c.c_uint32
    if library.goblin_pe_interface() != INTERFACE:
        raise ImportError("%s has another interface than this module" % library._name)
    for name, (answer, arguments) in CALLS.items():
        call = getattr(library, name)
        call.restype, call.argtypes = answer, arguments
    return library


# The calls. Other threads run during each.
LIB = _load()


class _Buffer(c.Structure):
    # Python's own Py_buffer
    _fields_ = [("buf", c.c_void_p), ("obj", c.c_void_p), ("len", c.c_ssize_t), ("itemsize", c.c_ssize_t), ("readonly", c.c_int),
                ("ndim", c.c_int), ("format", c.c_void_p), ("shape", c.c_void_p), ("strides", c.c_void_p),
                ("suboffsets", c.c_void_p), ("internal", c.c_void_p)]


# (not those of c.pythonapi, because all users of that share the types of its functions)
_get_buffer = c.PYFUNCTYPE(c.c_int, c.py_object, c.POINTER(_Buffer), c.c_int)(("PyObject_GetBuffer", c.pythonapi))
_release_buffer = c.PYFUNCTYPE(None, c.POINTER(_Buffer))(("PyBuffer_Release", c.pythonapi))


def _is_writable(view: memoryview) -> bool:
    # Whether a thread could write into the bytes, also past this view of them. The owner of the bytes decides: only bytes and a
    # file that is mapped for reading can never be written. The view of another library may be read-only although its bytes
    # are not.
    owner = view.obj
    while isinstance(owner, memoryview):
        owner = owner.obj
    if isinstance(owner, mmap.mmap):
        with memoryview(owner) as whole:
            return not whole.readonly
    return not isinstance(owner, bytes)


# Bytes of a file that no thread of Python changes; a slice of them has single bytes.
Kept = Union[bytes, mmap.mmap, memoryview]


def _view(data: Data) -> memoryview:
    # a view of the bytes of a buffer, which lie in one piece
    if isinstance(data, (str, os.PathLike)):
        raise TypeError("the bytes of a file are wanted, not its path %r: Image.open(path) reads them" % (data,))
    view = memoryview(data)
    if not view.c_contiguous:
        raise BufferError("the bytes don't lie in one piece")
    return view


def kept(data: Data) -> Kept:
    """The bytes of a buffer, or a copy of them if a thread could write into them. BufferError is raised if they don't lie in one
    piece, and TypeError if it is no buffer."""
    with _view(data) as view:
        if _is_writable(view):
            return view.tobytes()
        return data if isinstance(data, (bytes, mmap.mmap)) else view.cast("B")


# An address for a slice without bytes.
_NOWHERE = c.create_string_buffer(8)
NOWHERE = c.addressof(_NOWHERE)


@contextlib.contextmanager
def held(data: Kept) -> Iterator[Tuple[int, int]]:
    """The address of the bytes and their length. The bytes stay there until the end of the `with`."""
    buffer = _Buffer()
    with memoryview(data) as view:
        _get_buffer(view, c.byref(buffer), 0)
        try:
            yield buffer.buf or NOWHERE, buffer.len
        finally:
            _release_buffer(c.byref(buffer))
