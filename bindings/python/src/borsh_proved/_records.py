"""Values one after another in a file."""

from __future__ import annotations

import ctypes
from typing import Callable, Iterator, List, Protocol, Tuple

from . import _library
from ._errors import Error, Kind, Short

# So many bytes are read at once, and so many values asked for. A value that is longer than _LONG is tried again once an eighth more
# has come, so that a long value isn't gone through again for each piece of it.
_PIECE = 2**18
_MOST_VALUES = 2**12
_LONG = 2**20


class Readable(Protocol):
    """A binary file, as far as it is used. One that also has `read1`, which reads what is there, is read by that."""

    def read(self, count: int, /) -> _library.Bytes:
        """At most so many bytes; none at the end alone."""


def batches(schema: bytes, file: Readable, max_length: int) -> Iterator[Tuple[int, bytes, List[int]]]:
    """Some values at a time: where they begin in the file, their bytes, and the length of each."""
    lengths = (ctypes.c_size_t * _MOST_VALUES)()
    read: Callable[[int], _library.Bytes] = getattr(file, "read1", file.read)
    start, data, wanted, is_all = 0, b"", 1, False
    while True:
        if len(data) < wanted and not is_all:
            piece = _library.bytes_of(read(max(_PIECE, wanted - len(data))))
            data += piece
            is_all = not piece
            continue
        if not data:
            return
        try:
            count = _library.records(schema, data, lengths)
        except Short as short:
            if len(data) >= max_length:
                raise longer(start) from None
            if is_all:
                raise placed(short, start, "cut short: ") from None
            wanted = len(data) + (len(data) // 8 if len(data) >= _LONG else 1)
            continue
        except Error as error:
            raise placed(error, start) from None
        found = lengths[:count]
        if max(found) > max_length:
            found = found[: next(at for at, length in enumerate(found) if length > max_length)]
        size = sum(found)
        if found:
            yield start, data[:size], found
        if len(found) < count:
            raise longer(start + size)
        start, data, wanted = start + size, data[size:], 1


def json_texts(schema: bytes, start: int, data: bytes, lengths: List[int]) -> Iterator[str]:
    """The JSON of the values of a batch, several at a time, as the elements of a JSON list."""
    while lengths:
        array = (ctypes.c_size_t * len(lengths))(*lengths)
        try:
            count, lines = _library.json_lines(schema, data, array, False)
        except Error as error:
            raise placed(error, start) from None
        # No text of JSON has a line end in it, which is written as its escape.
        yield "[" + lines[:-1].replace("\n", ",") + "]"
        size = sum(lengths[:count])
        start, data, lengths = start + size, data[size:], lengths[count:]


def placed(error: Error, start: int, how: str = "") -> Error:
    """An error of a part of the value that begins there; one that names no part is of the schema."""
    if error.path is None:
        return error
    return Error(f"value at byte {start}: {how}{error}", error.kind, error.path, error.offset, start)


def longer(start: int) -> Error:
    return Error(f"value at byte {start}: longer than the limit", Kind.NO, record=start)
