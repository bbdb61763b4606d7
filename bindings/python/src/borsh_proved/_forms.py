"""What the values of a name are like in JSON, as the library says it."""

from __future__ import annotations

import json
from typing import Any, Dict, List, Mapping, NamedTuple, Optional, Tuple

from . import _library

MOST_NESTED = 128
"""How many lists and mappings may be in one another, as in the JSON that the library reads."""


class Form(NamedTuple):
    """How the values of a name that aren't None are written. Where it is told by what is in an `Option`, or in a struct with one field
    without a name, `steps` lead there."""

    kind: str
    """The last of the library's words: number, float, bool, bytes, text, list, map, row, object, enum, empty, refused."""

    steps: str = ""
    size: int = 0
    """Of a number or float."""

    element: str = ""
    """Of a list, or of the values of a map."""

    parts: List[str] = []
    types: Mapping[str, str] = {}
    has_numbers: bool = False
    """Of a map: whether its keys are numbers, and not texts."""

    is_of_pairs: bool = False
    """Of a list, that its elements are tuples of two."""


class Forms:
    """The forms of the names that the root leads to."""

    def __init__(self, encoding: bytes, definitions: Mapping[str, Any]) -> None:
        self._encoding = encoding
        self._definitions = definitions
        self._kinds: Dict[str, str] = {}
        self._forms: Dict[str, Form] = {}

    def of(self, name: str) -> Form:
        form = self._forms.get(name)
        if form is None:
            if not self._kinds:
                words: Dict[str, str] = json.loads(_library.names(self._encoding))
                self._kinds = {known: word.split()[-1] for known, word in words.items()}
            form = self._forms[name] = self._made(name)
        return form

    def _made(self, name: str) -> Form:
        steps = ""
        for _ in range(MOST_NESTED):
            if self._kinds[name] == "newtype":
                steps, name = steps + ".0", unnamed(self._definition(name)[1])[0]
            elif self._kinds[name] == "option":
                steps, name = steps + "::Some", self._definition(name)[1]["variants"][1][2]
            else:
                break
        return self._content(self._kinds[name], *self._definition(name))._replace(steps=steps)

    def _content(self, kind: str, definition: str, has: Any) -> Form:
        if kind in ("number", "float"):
            return Form(kind, size=has)
        if kind == "list":
            return Form(kind, element=has["elements"], is_of_pairs=len(self._parts(has["elements"])) == 2)
        if kind == "map":
            key, value = self._parts(has["elements"])
            return Form(kind, element=value, has_numbers=self._kinds[key] == "number")
        if kind == "row":
            return Form(kind, parts=has["elements"] if definition == "Tuple" else unnamed(has))
        if kind == "object":
            return Form(kind, types=dict(has["fields"]["NamedFields"]))
        if kind == "enum":
            return Form(kind, types={variant: part for _, variant, part in has["variants"]})
        return Form(kind)

    def _parts(self, name: str) -> List[str]:
        """The parts of a tuple; of no other definition."""
        definition, has = self._definition(name)
        parts: List[str] = has["elements"] if definition == "Tuple" else []
        return parts

    def _definition(self, name: str) -> Tuple[str, Any]:
        """The kind of a definition, and what it has; a name without one has none."""
        definition: Optional[Mapping[str, Any]] = self._definitions.get(name)
        return next(iter(definition.items())) if definition else ("", None)


def unnamed(struct: Mapping[str, Any]) -> List[str]:
    """The fields of a struct, if they have no names."""
    fields = struct["fields"]
    return fields.get("UnnamedFields", []) if isinstance(fields, dict) else []
