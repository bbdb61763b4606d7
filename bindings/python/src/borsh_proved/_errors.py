"""What is raised."""

from __future__ import annotations

import enum
from typing import Any, Tuple, Type, Optional


class Kind(enum.Enum):
    """What kind of error it is."""

    NO = "no"
    """The text is no type, the schema breaks a rule or has no size, the bytes are no value, or the JSON or the Python value says none."""

    MALFORMED = "malformed"
    """The bytes of the schema aren't the encoding of a schema."""

    UNDECIDED = "undecided"
    """The schema allows two values for the same bytes, or breaks a rule of widths, so there is no answer."""


class Error(ValueError):
    """Why there is no answer, or why it is no. Its text says where and why.

    Names in it are as they are in the schema: escape them before they go to a terminal. A failed allocation is a `MemoryError`.

    >>> from borsh_proved import Error, Schema
    >>> schema = Schema.of("(u8, bool)", {"(u8, bool)": {"Tuple": {"elements": ["u8", "bool"]}},
    ...                                   "bool": {"Primitive": 1}, "u8": {"Primitive": 1}})
    >>> try:
    ...     schema.check(b"\\x07")
    ... except Error as error:
    ...     print(error, error.kind, error.path, error.offset, sep=" | ")
    no member: "(u8, bool)".1 (`bool` at byte 1): too few bytes are left | Kind.NO | "(u8, bool)".1 | 1
    """

    kind: Kind
    """What kind of error it is."""

    path: Optional[str]
    """The part of a value that the error is about, as `A.y[3]`; `text` or `type`, of `Schema.parse`; else None."""

    offset: Optional[int]
    """The byte of the value at which that part begins, or near which the text stops being JSON or types; None where that isn't told."""

    record: Optional[int]
    """The byte of the file at which the value begins, of an error of `Schema.records` about a value; else None."""

    def __init__(
        self, text: str, kind: Kind, path: Optional[str] = None, offset: Optional[int] = None, record: Optional[int] = None
    ) -> None:
        super().__init__(text)
        self.kind, self.path, self.offset, self.record = kind, path, offset, record

    def __reduce__(self) -> Tuple[Type["Error"], Tuple[Any, ...]]:  # an exception is pickled by its arguments
        return (Error, (str(self), self.kind, self.path, self.offset, self.record))


class Short(Error):
    """What bytes raise that end within a value; of the kind `NO`. `Schema.records` reads on."""
