"""Two schemas compared."""

from __future__ import annotations

import enum
from typing import List, NamedTuple, Optional

from . import _library
from ._errors import Error, Kind
from ._schema import Schema


class Answer(enum.Enum):
    """Whether the values of an old schema are values of a new one."""

    SAME = "the same"
    """The two have the same values."""

    COMPATIBLE = "compatible"
    """Every value of the old schema is one of the new."""

    INCOMPATIBLE = "incompatible"
    """Some value of the old schema is none of the new."""

    NOT_KNOWN = "not known"
    """Neither was found."""


class Comparison(NamedTuple):
    """What `compare` says. Names that aren't identifiers are in quotation marks, and a line end in one is `\\x0a`."""

    answer: Answer
    """The answer."""

    changes: List[str]
    """What changed, a line each: all, or where the schemas aren't compatible what that was found by."""

    evidence: Optional[str]
    """Of incompatible schemas the digits of bytes, of many the first, that are a value of the old one and none of the new, and why."""

    text: str
    """All of it in lines, in the words of the tool's `borsh compare`."""

    @property
    def is_compatible(self) -> bool:
        """Whether old data is still read."""
        return self.answer in (Answer.SAME, Answer.COMPATIBLE)

    @property
    def has_same_json(self) -> bool:
        """Whether JSON that says a value by the old schema says it by the new one too; of `SAME` also the other way round."""
        return self.is_compatible and self.text.partition("\n")[0].endswith(", with the same JSON")

    def __str__(self) -> str:
        return self.text


def compare(old: Schema, new: Schema) -> Comparison:
    """Whether data of the old schema is still read by the new one: whether every value of it is one of the new.

    Only the definitions count, and not what a type refuses beyond them, nor what values mean.

    >>> from borsh_proved import Schema, compare
    >>> old = Schema.parse("struct A { count: u32, kind: Kind } enum Kind { Open }", "A")
    >>> new = Schema.parse("struct A { count: u32, kind: Kind } enum Kind { Open, Frozen }", "A")
    >>> compare(old, new).is_compatible, compare(old, new).changes
    (True, ['A.kind: variant Frozen is new'])
    >>> print(compare(new, old))
    incompatible: A.kind: variant Frozen is gone
      0000000001 is a value of the old schema and no value of the new one: A.kind (`Kind` at byte 4): no variant has this tag
    <BLANKLINE>
    """
    for schema in (old, new):
        if not isinstance(schema, Schema):
            raise TypeError(f"{type(schema).__name__} is no Schema")
    try:
        text = _library.compare(bytes(old), bytes(new))
        answer = Answer.SAME if text.startswith("the same") else Answer.COMPATIBLE
    except Error as error:
        text = str(error)
        answer = Answer.INCOMPATIBLE if error.kind is Kind.NO else Answer.NOT_KNOWN
    first, *lines, _ = text.split("\n")
    changes = [line[2:] for line in lines]
    evidence = changes.pop(0) if answer is Answer.INCOMPATIBLE else None
    if answer in (Answer.INCOMPATIBLE, Answer.NOT_KNOWN):
        changes.insert(0, first.partition(": ")[2])
    return Comparison(answer, changes, evidence, text)
