"""Values of Python in the place of JSON's, which the library wrote."""

from __future__ import annotations

from typing import Any, Callable, Dict

from ._forms import Form, Forms


class Values:
    """How the JSON of values is read, by the forms of their names."""

    def __init__(self, forms: Forms) -> None:
        self._forms = forms
        self._readers: Dict[str, Callable[[Any], Any]] = {}

    def of(self, name: str, json: Any) -> Any:
        """The value that this JSON says."""
        if json is None:
            return None
        read = self._readers.get(name)
        if read is None:
            # Parts are looked up when there is one, since a name may lead back to itself.
            read = self._readers[name] = self._reader(self._forms.of(name))
        return read(json)

    def _reader(self, form: Form) -> Callable[[Any], Any]:
        """How JSON that isn't null is read."""
        read, element, parts, types = self.of, form.element, form.parts, form.types
        if form.kind == "number":
            return int
        if form.kind == "float":
            return float
        if form.kind == "list":
            return lambda json: _bytes(json) if isinstance(json, str) else [read(element, part) for part in json]
        if form.kind == "map" and form.has_numbers:
            return lambda json: {int(key): read(element, part) for key, part in json.items()}
        if form.kind == "map":
            return lambda json: {key: read(element, part) for key, part in json.items()}
        if form.kind == "row":
            return lambda json: tuple(map(read, parts, json))
        if form.kind == "object":
            return lambda json: {name: read(types[name], part) for name, part in json.items()}
        if form.kind == "enum":
            return lambda json: json if isinstance(json, str) else {name: read(types[name], part) for name, part in json.items()}
        if form.kind == "bytes":
            return _bytes
        return lambda json: json


def _bytes(digits: str) -> bytes:
    return bytes.fromhex(digits[2:])
