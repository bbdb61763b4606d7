"""The JSON of Python's values, of which the library makes bytes.

A value is taken as what its definition has for it, or refused. What JSON would change is refused here; what doesn't fit its definition
is written as some JSON that doesn't either, so that the library says what was expected, and where.
"""

from __future__ import annotations

import math
import re
import struct
from typing import Any, List, Mapping, NoReturn, Tuple, Union

from . import _library
from ._errors import Error, Kind
from ._forms import MOST_NESTED, Form, Forms

# More than any whole number may be, a number that isn't whole, and what is written of a number that is too large for a float.
_TOO_LARGE = 2**128
_NOT_WHOLE = 0.5
_NO_FLOAT: List[Any] = []

# By their sizes, as `struct` has them.
_FLOATS = {4: "<f", 8: "<d"}

_IDENTIFIER = re.compile("[A-Za-z_][A-Za-z0-9_]*")
_SURROGATE = re.compile("[\ud800-\udfff]")
_BYTES = (bytes, bytearray, memoryview)

# A step from a value to a part of it, or an entry of a map: all keys, and which of them it is.
_Step = Union[str, Tuple[List[Any], Any]]


class Writer:
    """A walk through one value. The steps to the part where it is are those up to the part's level, which is twice as many as lists and
    mappings are around it."""

    def __init__(self, forms: Forms, root: str) -> None:
        self._forms = forms
        self._root = root
        self._steps: List[_Step] = []

    def part(self, name: str, value: Any, level: int = 0) -> Any:
        """The JSON of a part, as `json.dumps` takes it."""
        if value is None or value is True or value is False:
            return value
        form = self._forms.of(name)
        self._steps[level:] = [form.steps]
        if isinstance(value, str):
            return self._text(value)
        if isinstance(value, (int, float)):
            return _number(form, value)
        if isinstance(value, _BYTES):
            return self._bytes(form, value)
        if isinstance(value, (list, tuple)):
            return self._list(form, value, level)
        if isinstance(value, Mapping):
            return self._mapping(form, value, level)
        raise TypeError(f"{self._path()}: {type(value).__name__} is no value")

    def _text(self, value: str) -> str:
        if not value.isascii() and _SURROGATE.search(value):
            self._refuse("a lone surrogate is no character")
        return value

    def _bytes(self, form: Form, value: _library.Bytes) -> Any:
        try:
            digits = _library.bytes_of(value).hex()
        except ValueError:  # of a memoryview that was released
            self._refuse("the bytes are gone")
        return [] if form.kind in ("text", "enum") else "0x" + digits

    def _list(self, form: Form, value: Any, level: int) -> List[Any]:
        is_list = form.kind == "list"
        if not is_list and (form.kind != "row" or len(value) != len(form.parts)):
            return []
        self._enter(level)
        written = []
        for index, item in enumerate(value):
            self._steps[level + 1 :] = [f"[{index}]" if is_list else f".{index}"]
            written.append(self.part(form.element if is_list else form.parts[index], item, level + 2))
        return written

    def _mapping(self, form: Form, value: Mapping[Any, Any], level: int) -> Any:
        if form.is_of_pairs:
            return self._list(form, list(value.items()), level)
        if form.kind not in ("map", "object", "enum"):
            return {}
        self._enter(level)
        entries = list(value.items())
        keys = [key for key, _ in entries]
        written = {}
        for key, item in entries:
            del self._steps[level + 1 :]
            name = self._key(form, key)
            if form.kind == "map":
                self._steps.append((keys, key))
                written[name] = self.part(form.element, item, level + 2)
            elif name in form.types:
                self._steps.append(("." if form.kind == "object" else "::") + _name_text(name))
                written[name] = self.part(form.types[name], item, level + 2)
            else:
                written[name] = None
        return written

    def _key(self, form: Form, key: Any) -> Any:
        if isinstance(key, str):
            return self._text(key)
        if not form.has_numbers:
            self._refuse("expected keys that are strings")
        is_whole = isinstance(key, int) and not isinstance(key, bool)
        return _near(key) if is_whole else str(_NOT_WHOLE)

    def _enter(self, level: int) -> None:
        if level >= 2 * MOST_NESTED:
            self._steps.clear()
            self._refuse(f"nests more than {MOST_NESTED} deep")

    def _refuse(self, reason: str) -> NoReturn:
        path = self._path()
        raise Error(f"{path}: {reason}", Kind.NO, path)

    def _path(self) -> str:
        return _name_text(self._root) + "".join(step if isinstance(step, str) else f"[{_rank(*step)}].1" for step in self._steps)


def _name_text(name: str) -> str:
    """A name as it stands in a path: an identifier as it is, any other in quotation marks."""
    return name if _IDENTIFIER.fullmatch(name) else '"' + re.sub(r'["\\]', r"\\\g<0>", name) + '"'


def _number(form: Form, value: Any) -> Any:
    if form.kind == "float":
        try:
            layout = _FLOATS[form.size]
            near = struct.unpack(layout, struct.pack(layout, value))[0]
        except (OverflowError, struct.error):
            return _NO_FLOAT
        return value if math.isfinite(near) else str(near)
    if form.kind != "number":
        return 0
    if isinstance(value, float):
        return _NOT_WHOLE
    return int.__repr__(_near(value)) if form.size == 16 else _near(value)


def _near(number: int) -> int:
    """The number, or one that is as much too large."""
    return number if -_TOO_LARGE < number < _TOO_LARGE else _TOO_LARGE


def _rank(keys: List[Any], key: Any) -> int:
    """How many keys come before one of them, in the order of numbers or of texts."""
    if isinstance(key, str):
        return sum(isinstance(other, str) and other < key for other in keys)
    return sum(isinstance(other, int) and other < key for other in keys)
