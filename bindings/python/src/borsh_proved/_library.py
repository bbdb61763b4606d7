"""The calls of `borsh.h`: each returns what it gives, or raises why it gives nothing.

The library is libborsh.so.0 in the folder that the variable BORSH_LIB names, or else the one that was installed with the package.
"""

from __future__ import annotations

import ctypes
import os
from typing import NoReturn, Tuple, Union

from ._errors import Error, Kind, Short

Bytes = Union[bytes, bytearray, memoryview]


class _Buffer(ctypes.Structure):
    _fields_ = [
        ("data", ctypes.c_void_p),
        ("length", ctypes.c_size_t),
        ("path", ctypes.c_void_p),
        ("path_length", ctypes.c_size_t),
        ("offset", ctypes.c_size_t),
        ("has_offset", ctypes.c_bool),
        ("block", ctypes.c_void_p),
    ]


def _load() -> ctypes.CDLL:
    folder = os.environ.get("BORSH_LIB") or os.path.dirname(os.path.abspath(__file__))
    path = os.path.join(folder, "libborsh.so.0")
    try:
        return ctypes.CDLL(path)
    except OSError as error:
        raise ImportError(f"{error}: install the package with a built library, or name its folder by BORSH_LIB") from error


_library = _load()
_BYTES = [ctypes.c_char_p, ctypes.c_size_t]
_NUMBERS = [ctypes.POINTER(ctypes.c_size_t), ctypes.c_size_t]
_NUMBER = [ctypes.POINTER(ctypes.c_size_t)]
_OUT = [ctypes.POINTER(_Buffer)]
# tools/calls.py writes: arguments
_ARGUMENTS = {
    "valid": _BYTES + _OUT,
    "size": _BYTES + _NUMBER + _OUT,
    "names": _BYTES + _OUT,
    "member": _BYTES + _BYTES + _OUT,
    "to_json": _BYTES + _BYTES + [ctypes.c_bool] + [ctypes.c_bool] + _OUT,
    "from_json": _BYTES + _BYTES + _OUT,
    "records": _BYTES + _BYTES + _NUMBERS + _NUMBER + _OUT,
    "json_lines": _BYTES + _BYTES + _NUMBERS + [ctypes.c_bool] + _NUMBER + _OUT,
    "compile": _BYTES + _BYTES + _OUT,
    "compare": _BYTES + _BYTES + _OUT,
}
# tools/calls.py: end
for _name, _arguments in _ARGUMENTS.items():
    getattr(_library, "borsh_" + _name).argtypes = _arguments
    getattr(_library, "borsh_" + _name).restype = ctypes.c_uint32
_library.borsh_free.argtypes = _OUT
_library.borsh_free.restype = None

_KINDS = {1: Kind.NO, 2: Kind.MALFORMED, 5: Kind.UNDECIDED, 6: Kind.NO}


def _ask(name: str, *arguments: object) -> bytes:
    buffer = _Buffer()
    code = getattr(_library, "borsh_" + name)(*arguments, ctypes.byref(buffer))
    try:
        if code != 0:
            _fail(code, buffer)
        return ctypes.string_at(buffer.data, buffer.length)
    finally:
        _library.borsh_free(ctypes.byref(buffer))


def _fail(code: int, buffer: _Buffer) -> NoReturn:
    if code == 3:
        raise MemoryError
    text = _text(buffer.data, buffer.length)
    if code not in _KINDS:
        raise RuntimeError(f"another library: code {code}, {text}")
    path = None if buffer.path is None else _text(buffer.path, buffer.path_length)
    raise (Short if code == 6 else Error)(text, _KINDS[code], path, buffer.offset if buffer.has_offset else None)


def _text(data: int, length: int) -> str:
    return ctypes.string_at(data, length).decode("utf-8", "replace")


def bytes_of(value: Bytes) -> bytes:
    """A copy of the bytes of an object that has some, unless it is `bytes`; `TypeError` for any other."""
    return value if type(value) is bytes else memoryview(value).tobytes()


# Those of `borsh.h`, which says what they answer. `records` raises `Short` where the data ends within the first value.
# tools/calls.py writes: calls
def valid(schema: bytes) -> None:
    _ask("valid", schema, len(schema))


def size(schema: bytes) -> int:
    number = ctypes.c_size_t()
    _ask("size", schema, len(schema), ctypes.byref(number))
    return number.value


def names(schema: bytes) -> str:
    return _ask("names", schema, len(schema)).decode()


def member(schema: bytes, value: bytes) -> None:
    _ask("member", schema, len(schema), value, len(value))


def to_json(schema: bytes, value: bytes, is_compact: bool, has_quoted_numbers: bool) -> str:
    return _ask("to_json", schema, len(schema), value, len(value), is_compact, has_quoted_numbers).decode()


def from_json(schema: bytes, json: bytes) -> bytes:
    return _ask("from_json", schema, len(schema), json, len(json))


def records(schema: bytes, data: bytes, lengths: ctypes.Array[ctypes.c_size_t]) -> int:
    number = ctypes.c_size_t()
    _ask("records", schema, len(schema), data, len(data), lengths, len(lengths), ctypes.byref(number))
    return number.value


def json_lines(schema: bytes, values: bytes, lengths: ctypes.Array[ctypes.c_size_t], has_quoted_numbers: bool) -> Tuple[int, str]:
    number = ctypes.c_size_t()
    given = _ask("json_lines", schema, len(schema), values, len(values), lengths, len(lengths), has_quoted_numbers, ctypes.byref(number))
    return number.value, given.decode()


def compile(text: bytes, type_text: bytes) -> bytes:
    return _ask("compile", text, len(text), type_text, len(type_text))


def compare(old_schema: bytes, new_schema: bytes) -> str:
    return _ask("compare", old_schema, len(old_schema), new_schema, len(new_schema)).decode()
# tools/calls.py: end
