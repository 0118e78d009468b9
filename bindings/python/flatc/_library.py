"""The C library: its structs, its calls, and bytes on their way in and out. include/flatc.h describes them."""
from __future__ import annotations

import ctypes
import os
from functools import lru_cache
from pathlib import Path
from typing import Any, Optional, Tuple

from flatc._version import __version__

OK, REFUSED, NO_MEMORY = 0, 1, 2
_FAILURES = {3: "the schema is empty", 4: "bad options", 5: "not a fault of a call"}
MAX_DEPTH = 64
MAX_CELLS = 100_000_000


def _path() -> str:
    """The library in the wheel, the one that LIBFLATC names, or the one that the loader finds."""
    packed = Path(__file__).with_name("libflatc.so.0")
    return str(packed) if packed.exists() else os.environ.get("LIBFLATC") or "libflatc.so.0"


def _parts(number: int) -> Tuple[int, int, int]:
    return number >> 16, number >> 8 & 255, number & 255


def _load(path: str) -> ctypes.CDLL:
    """Loads the library, whose calls release the GIL. Before 1.0 a minor version may change it."""
    try:
        library = ctypes.CDLL(path)
        major, minor, patch = _parts(library.flatc_version())
    except (OSError, AttributeError) as problem:
        raise ImportError(f"flatc: {problem}; set LIBFLATC to the path of libflatc.so") from problem
    if not __version__.startswith(f"{major}.{minor}."):
        raise ImportError(f"flatc: {path} is version {major}.{minor}.{patch}, and this package needs {__version__}")
    return library


_library = _load(_path())


class SchemaHandle(ctypes.Structure):
    """A handle of a schema. It may be used in one call at a time."""

    _fields_ = [("held", ctypes.c_void_p), ("full", ctypes.c_bool)]
    # Also there while the interpreter ends and modules are emptied.
    _clear = _library.flatc_schema_clear

    def __del__(self) -> None:
        self._clear(self)


class OwnedBytes(ctypes.Structure):
    """Bytes that a call makes. The library owns them to the end of a `with`."""

    _fields_ = [
        ("data", ctypes.c_void_p),
        ("size", ctypes.c_size_t),
        ("held", ctypes.c_void_p),
        ("full", ctypes.c_bool),
    ]

    def __enter__(self) -> OwnedBytes:
        return self

    def __exit__(self, *_: object) -> None:
        _bytes_clear(self)

    def to_bytes(self) -> bytes:
        copied: bytes = _to_bytes(self.data, self.size)
        return copied

    def to_text(self) -> str:
        text: str = _to_text(self.data, self.size, None)
        return text


class FaultStruct(ctypes.Structure):
    """Why a call refused."""

    _fields_ = [
        ("offset", ctypes.c_uint64),
        ("type_id", ctypes.c_uint64),
        ("slot", ctypes.c_uint16),
        ("number", ctypes.c_uint8),
        ("has_offset", ctypes.c_bool),
        ("has_type", ctypes.c_bool),
        ("has_slot", ctypes.c_bool),
        ("reserved", ctypes.c_uint8 * 10),
        ("name", ctypes.c_char * 32),
    ]


class Options(ctypes.Structure):
    """How a message is converted. The library only reads it, so that threads may share one."""

    _fields_ = [
        ("size", ctypes.c_uint32),
        ("max_cells", ctypes.c_uint32),
        ("max_depth", ctypes.c_uint8),
        ("unknown_json", ctypes.c_bool),
        ("raw_binary", ctypes.c_bool),
        ("defaults_json", ctypes.c_bool),
        ("size_prefixed", ctypes.c_bool),
        ("compact", ctypes.c_bool),
        ("reserved", ctypes.c_uint8 * 2),
    ]


class _Name(ctypes.Structure):
    _fields_ = [("text", ctypes.c_char * 32)]


class _PyBuffer(ctypes.Structure):
    """Py_buffer, as the C interface of Python has it."""

    _fields_ = [
        ("buf", ctypes.c_void_p),
        ("obj", ctypes.c_void_p),
        ("len", ctypes.c_ssize_t),
        ("itemsize", ctypes.c_ssize_t),
        ("readonly", ctypes.c_int),
        ("ndim", ctypes.c_int),
        ("format", ctypes.c_char_p),
        ("shape", ctypes.c_void_p),
        ("strides", ctypes.c_void_p),
        ("suboffsets", ctypes.c_void_p),
        ("internal", ctypes.c_void_p),
    ]


def _call(name: str, *arguments: Any, result: Any = ctypes.c_uint32) -> Any:
    call = getattr(_library, f"flatc_{name}")
    call.argtypes, call.restype = arguments, result
    return call


def _python_call(name: str, result: Any, *arguments: Any) -> Any:
    """A call of Python's C interface, which raises what it raises there."""
    return ctypes.PYFUNCTYPE(result, *arguments)((name, ctypes.pythonapi))


_DATA, _SIZE = ctypes.c_void_p, ctypes.c_size_t
_SCHEMA, _OUT, _FAULT, _OPTIONS, _NAME, _VIEW = (
    ctypes.POINTER(it) for it in (SchemaHandle, OwnedBytes, FaultStruct, Options, _Name, _PyBuffer)
)

schema_parse = _call("schema_parse", _SCHEMA, _DATA, _SIZE, _FAULT)
schema_share = _call("schema_share", _SCHEMA, _SCHEMA)
encode = _call("encode", _SCHEMA, _DATA, _SIZE, _OPTIONS, _OUT, _FAULT)
decode = _call("decode", _SCHEMA, _DATA, _SIZE, _OPTIONS, _OUT, _FAULT)
verify = _call("verify", _SCHEMA, _DATA, _SIZE, _OPTIONS, _FAULT)
conform = _call("conform", _SCHEMA, _SCHEMA, _FAULT)
_bytes_clear = _call("bytes_clear", _OUT, result=None)
_fault_message = _call("fault_message", _FAULT, _OUT)
_explain = _call("explain", _FAULT, _DATA, _SIZE, _DATA, _SIZE, _OPTIONS, _OUT)
_fault_name = _call("fault_name", ctypes.c_uint8, _NAME, result=ctypes.c_bool)
_version = _call("version")
_call("schema_clear", _SCHEMA, result=None)

_get_buffer = _python_call("PyObject_GetBuffer", ctypes.c_int, ctypes.py_object, _VIEW, ctypes.c_int)
_release_buffer = _python_call("PyBuffer_Release", None, _VIEW)
_to_bytes = _python_call("PyBytes_FromStringAndSize", ctypes.py_object, _DATA, ctypes.c_ssize_t)
_to_text = _python_call("PyUnicode_DecodeUTF8", ctypes.py_object, _DATA, ctypes.c_ssize_t, ctypes.c_char_p)


def version() -> Tuple[int, int, int]:
    """The library's version: major, minor, patch."""
    return _parts(_version())


def fault_name(number: int) -> Optional[str]:
    """The name of the fault with this number, if a call reports such a fault."""
    name = _Name()
    return name.text.decode() if _fault_name(number, name) else None


@lru_cache(maxsize=256)
def options(
    *,
    max_depth: int = MAX_DEPTH,
    max_cells: int = MAX_CELLS,
    unknown_json: bool = False,
    raw_binary: bool = False,
    defaults_json: bool = False,
    size_prefixed: bool = False,
    compact: bool = False,
) -> Options:
    """The options of a call. ctypes would cut off numbers that don't fit."""
    if not 1 <= max_depth <= 127:
        raise ValueError(f"max_depth is 1 to 127, not {max_depth}")
    if not 0 <= max_cells < 1 << 32:
        raise ValueError(f"max_cells is 0 to {(1 << 32) - 1}, not {max_cells}")
    flags = unknown_json, raw_binary, defaults_json, size_prefixed, compact
    return Options(ctypes.sizeof(Options), max_cells, max_depth, *flags)


class Lent:
    """The address and the size of a bytes-like object during a call. Nothing is copied."""

    __slots__ = ("_data", "_view")

    def __init__(self, data: Any) -> None:
        self._data = data
        self._view: Optional[_PyBuffer] = None

    def __enter__(self) -> Tuple[Any, int]:
        if type(self._data) is bytes:
            return self._data, len(self._data)
        view = _PyBuffer()
        _get_buffer(self._data, view, 0)
        self._view = view
        return view.buf, view.len

    def __exit__(self, *_: object) -> None:
        if self._view is not None:
            _release_buffer(self._view)


def raise_failure(status: int) -> None:
    """Raises what isn't a refusal: memory ran out, or the arguments are wrong."""
    if status == NO_MEMORY:
        raise MemoryError("flatc: out of memory")
    if status != OK:
        raise ValueError(f"flatc: {_FAILURES.get(status, f'status {status}')}")


def fault_message(fault: FaultStruct) -> str:
    """The sentence of a fault."""
    with OwnedBytes() as made:
        raise_failure(_fault_message(fault, made))
        return made.to_text()


def explain(fault: FaultStruct, schema: Any, source: Any, settings: Options) -> str:
    """What is wrong and where, in human-readable lines."""
    with Lent(schema) as (text, text_size), Lent(source) as (data, data_size), OwnedBytes() as made:
        raise_failure(_explain(fault, text, text_size, data, data_size, settings, made))
        return made.to_text()
