"""Schemas."""

from __future__ import annotations

import functools
import json
import pathlib
from typing import Any, Dict, Iterator, Mapping, Optional, Tuple, Type

from . import _library, _records
from ._encode import Writer
from ._errors import Error
from ._forms import Forms
from ._values import Values

# The schema of schemas: by it a schema is itself a value.
_SCHEMAS = pathlib.Path(__file__).with_name("schemas.borsh").read_bytes()


class Schema:
    """A schema: the name of a type, the root, and the definitions that it refers to.

    It is given by the text of a type, to `Schema.parse`; by its definitions, to `Schema.of`; or by its encoding, as
    `borsh::to_vec(&BorshSchemaContainer::for_type::<T>())` makes it in Rust, of the crate `borsh` with its feature `unstable__schema`.
    Raises an `Error` of kind `MALFORMED` for other bytes. A schema may break the rules of schemas: see `validate`.

    >>> from borsh_proved import Schema
    >>> schema = Schema(bytes.fromhex("020000007538 01000000 020000007538 00 01"))
    >>> schema.root, schema.definitions
    ('u8', {'u8': {'Primitive': 1}})
    >>> schema
    <Schema of u8>
    """

    __slots__ = ("_encoding", "_root", "_forms", "_values")

    def __init__(self, encoding: _library.Bytes) -> None:
        self._encoding = _library.bytes_of(encoding)
        described = self._described()
        self._root: str = described["declaration"]
        self._forms = Forms(self._encoding, described["definitions"])
        self._values = Values(self._forms)

    def _described(self) -> Dict[str, Any]:
        try:
            described: Dict[str, Any] = json.loads(_library.to_json(_SCHEMAS, self._encoding, True, False))
            return described
        except Error:
            _library.size(self._encoding)  # says why the bytes are no schema
            raise

    @classmethod
    def parse(cls, text: str, type: Optional[str] = None) -> "Schema":
        """The schema of a type by its text.

        The text has items that the type may name: Rust source; an Anchor IDL, whose accounts begin with their eight bytes of
        discriminator; or a schema object of borsh-js as JSON, whose own type is `Schema`. The type is any in Rust's words. Without one
        the text is itself a type, or a schema object.

        Raises an `Error` with line and column, if the text can't be read, or the type has no schema.

        >>> source = "pub enum State { Empty, Open(u64) } pub struct Vault { owner: [u8; 4], state: State }"
        >>> Schema.parse(source, "Vault").decode(bytes([1, 2, 3, 4, 0]))
        {'owner': b'\\x01\\x02\\x03\\x04', 'state': 'Empty'}
        >>> Schema.parse("HashMap<String, u64>").encode({"a": 255}).hex()
        '010000000100000061ff00000000000000'
        >>> Schema.parse("struct A { x u8 }", "A")
        Traceback (most recent call last):
            ...
        borsh_proved.Error: text: line 1, column 14: met `u8`, expected `:`
        """
        if type is None:
            text, type = (text, "Schema") if str.lstrip(text).startswith("{") else ("", text)
        return cls(_library.compile(_utf8(text), _utf8(type)))

    @classmethod
    def of(cls, root: str, definitions: Mapping[str, Any]) -> "Schema":
        """The schema with this root and these definitions, as JSON has them and as `definitions` gives them.

        Raises an `Error` for what are no definitions, with the path in a schema of schemas.

        >>> Schema.of("Pair", {"Pair": {"Struct": {"fields": {"UnnamedFields": ["u8", "u8"]}}},
        ...                    "u8": {"Primitive": 1}}).decode(bytes([1, 2]))
        (1, 2)
        """
        return cls(_schemas().encode({"declaration": root, "definitions": definitions}))

    def __bytes__(self) -> bytes:
        """The encoding."""
        return self._encoding

    def __eq__(self, other: object) -> bool:
        return isinstance(other, Schema) and self._encoding == other._encoding

    def __hash__(self) -> int:
        return hash(self._encoding)

    def __reduce__(self) -> Tuple[Type["Schema"], Tuple[bytes]]:
        return (Schema, (self._encoding,))

    def __repr__(self) -> str:
        return f"<Schema of {ascii(self._root)[1:-1]}>"

    @property
    def root(self) -> str:
        """The name of the type."""
        return self._root

    @property
    def definitions(self) -> Mapping[str, Any]:
        """The definitions by their names, as JSON has them."""
        definitions: Mapping[str, Any] = self._described()["definitions"]
        return definitions

    def validate(self) -> None:
        """Raises an `Error` that says `invalid`, a rule and a name, if the schema breaks a rule of schemas.

        >>> Schema.of("A", {}).validate()
        Traceback (most recent call last):
            ...
        borsh_proved.Error: invalid MissingDefinition A
        """
        _library.valid(self._encoding)

    def max_size(self) -> int:
        """The greatest size of a value in bytes: none is longer.

        Raises an `Error` if there is none: `overflow` (2^64 or more), `recursive`, or `missing` and a name without a definition.

        >>> Schema.of("u8", {"u8": {"Primitive": 1}}).max_size()
        1
        """
        return _library.size(self._encoding)

    def check(self, value: _library.Bytes) -> None:
        """Raises an `Error` if the bytes aren't a value, with the place where they stop being one.

        A schema doesn't say that keys ascend, that a `bool` is 0 or 1, or that a text is UTF-8, so that the type may refuse a value all
        the same; `decode` and `to_json` refuse such values as far as names tell.

        >>> Schema.of("u8", {"u8": {"Primitive": 1}}).check(bytes(2))
        Traceback (most recent call last):
            ...
        borsh_proved.Error: no member: u8 (`u8` at byte 1): the value ends, and bytes are left
        """
        _library.member(self._encoding, _library.bytes_of(value))

    def to_json(self, value: _library.Bytes, *, pretty: bool = False, quoted: bool = False) -> str:
        """The value that all of the bytes are, as JSON: in lines with `pretty`, and with numbers of 64 bits as strings with `quoted`.

        Raises an `Error` if the bytes are no value, or one that the type refuses as far as names tell.

        >>> Schema.of("u64", {"u64": {"Primitive": 8}}).to_json(bytes(8), quoted=True)
        '"0"'
        """
        return _library.to_json(self._encoding, _library.bytes_of(value), not pretty, quoted)

    def from_json(self, text: str) -> bytes:
        """The bytes of the value that the JSON says. Fields may come in any order, and numbers of 64 bits may be strings.

        Raises an `Error` if the text isn't JSON or says no value.

        >>> Schema.of("u16", {"u16": {"Primitive": 2}}).from_json("70000")
        Traceback (most recent call last):
            ...
        borsh_proved.Error: u16: expected a whole number of 16 bits, unsigned
        """
        return _library.from_json(self._encoding, _utf8(text))

    def decode(self, value: _library.Bytes) -> Any:
        """The value that all of the bytes are, as Python's.

        Whole numbers are `int`; `bool`, `f32` and `f64`, and texts are `bool`, `float` and `str`, where an `f32` is the number of its
        shortest decimal, 0.1 and not 0.10000000149011612; lists of `u8` and other primitives
        are `bytes`; lists are `list`; maps by texts or numbers are `dict`, and other maps lists of pairs; structs are `dict` by the
        names of their fields, or `tuple`, or what their only field is if it has no name; tuples are `tuple`; an `Option` is None or
        its value; a variant is its name, or `{name: value}`; a value without bytes is None. An `Option` whose value may be None is
        a variant, "None" or `{"Some": value}`.

        Raises an `Error` as `to_json` does.

        >>> floats = {"Option<f32>": {"Enum": {"tag_width": 1, "variants": [[0, "None", "()"], [1, "Some", "f32"]]}},
        ...           "()": {"Primitive": 0}, "f32": {"Primitive": 4}}
        >>> Schema.of("Option<f32>", floats).decode(bytes.fromhex("010000c03f"))
        1.5
        """
        return self._values.of(self._root, json.loads(self.to_json(value)))

    def encode(self, value: Any) -> bytes:
        """The bytes of a value, given as `decode` gives it; lists may be tuples, any map may be a mapping, a float may be a whole number,
        and an `f32` is rounded.

        Entries of a mapping may come in any order if its keys are texts or numbers. Raises an `Error` if the schema has no such
        value, a text has half of a surrogate pair, or the value contains itself, and `TypeError` for objects that are no values of
        Python's own; each names the part.

        >>> bits = {"(bool, u128)": {"Tuple": {"elements": ["bool", "u128"]}}, "bool": {"Primitive": 1}, "u128": {"Primitive": 16}}
        >>> Schema.of("(bool, u128)", bits).encode((True, 2**100)).hex()
        '0100000000000000000000000010000000'
        >>> Schema.of("(bool, u128)", bits).encode((True, "x"))
        Traceback (most recent call last):
            ...
        borsh_proved.Error: "(bool, u128)".1: expected a decimal string of 128 bits, unsigned
        """
        return self.from_json(json.dumps(Writer(self._forms, self._root).part(self._root, value)))

    def records(self, file: _records.Readable, *, max_length: int = 2**26) -> Iterator[Any]:
        """The values in a binary file, which follow one another to its end, each as `decode` gives it; in bounded memory.

        The file is read ahead of the values, by `read1` if it has that, and not closed. Raises an `Error` where the bytes at the
        place `record` of the file are no value, end within one, or are a value that is longer than `max_length` bytes, and ends;
        the values before it were given. A schema that has a value without bytes is refused, since there may be any number of them.

        >>> import io
        >>> numbers = Schema.of("u16", {"u16": {"Primitive": 2}})
        >>> list(numbers.records(io.BytesIO(bytes([1, 0, 2, 0]))))
        [1, 2]
        >>> list(numbers.records(io.BytesIO(bytes([1, 0, 2, 0, 3]))))
        Traceback (most recent call last):
            ...
        borsh_proved.Error: value at byte 4: cut short: u16 (`u16` at byte 0): too few bytes are left
        """
        for batch in _records.batches(self._encoding, file, max_length):
            for text in _records.json_texts(self._encoding, *batch):
                for value in json.loads(text):
                    yield self._values.of(self._root, value)

    def record_bytes(self, file: _records.Readable, *, max_length: int = 2**26) -> Iterator[bytes]:
        """The bytes of each of the values in a binary file, which follow one another to its end, as of `records`; in less time.

        What is checked is what `check` checks, so that `decode` may refuse such a value. Errors are as of `records`.

        >>> import io
        >>> texts = Schema.of("String", {"String": {"Sequence": {
        ...     "length_width": 4, "length_range": {"start": 0, "end": 4294967295}, "elements": "u8"}}, "u8": {"Primitive": 1}})
        >>> file = io.BytesIO(texts.encode("one") + texts.encode("two"))
        >>> [texts.decode(record) for record in texts.record_bytes(file)]
        ['one', 'two']
        """
        for _, data, lengths in _records.batches(self._encoding, file, max_length):
            at = 0
            for length in lengths:
                yield data[at : at + length]
                at += length


@functools.lru_cache(maxsize=None)
def _schemas() -> Schema:
    return Schema(_SCHEMAS)


def _utf8(text: str) -> bytes:
    """The bytes of a text; of one with half of a surrogate pair what isn't UTF-8."""
    return str.encode(text, "utf-8", "surrogatepass")
