"""What a program with type hints writes: checked by mypy, and then run. What a line with `type: ignore` says isn't so."""

import io
from typing import Any, Dict, Iterator, List, Mapping, Optional

from borsh_proved import Answer, Comparison, Error, Kind, Schema, compare

DEFINITIONS: Dict[str, Any] = {
    "(u8, f64)": {"Tuple": {"elements": ["u8", "f64"]}},
    "u8": {"Primitive": 1},
    "f64": {"Primitive": 8},
}


class Pieces:
    """A file of one's own."""

    def __init__(self, pieces: List[bytes]) -> None:
        self.pieces = pieces

    def read(self, count: int) -> bytes:
        return self.pieces.pop(0) if self.pieces else b""


schema: Schema = Schema.of("(u8, f64)", DEFINITIONS)
data: bytes = schema.encode((7, 1))
pair: Any = schema.decode(memoryview(data))
text: str = schema.to_json(bytearray(data), pretty=False, quoted=True)
again: bytes = schema.from_json(text)
assert (pair, again) == ((7, 1.0), data)

size: int = schema.max_size()
root: str = schema.root
definitions: Mapping[str, Any] = schema.definitions
encoding: bytes = bytes(schema)
assert (size, root, Schema.of(root, definitions), Schema(encoding)) == (9, "(u8, f64)", schema, schema)
assert len({schema, Schema(encoding)}) == 1 and schema.validate() is None  # type: ignore[func-returns-value]

written: Schema = Schema.parse("struct Pair(u8, f64);", type="Pair")
compared: Comparison = compare(schema, Schema.parse("(u8, f64)"))
answer: Answer = compared.answer
changes: List[str] = compared.changes
evidence: Optional[str] = compared.evidence
assert (answer, compared.is_compatible, changes, evidence) == (Answer.SAME, True, [], None)
assert compare(schema, written).text == str(compare(schema, written))

values: Iterator[Any] = schema.records(io.BytesIO(data + data), max_length=100)
records: Iterator[bytes] = schema.record_bytes(Pieces([data[:4], data[4:]]))
assert list(values) == [pair, pair] and list(records) == [data]

try:
    schema.check(data[:4])
except Error as error:
    kind: Kind = error.kind
    path: Optional[str] = error.path
    offset: Optional[int] = error.offset
    record: Optional[int] = error.record
    assert (kind, path, offset, record) == (Kind.NO, '"(u8, f64)".1', 1, None)

try:
    Schema.parse("struct A { x u8 }", "A")
except Error as error:
    assert error.kind is Kind.NO

for call, wrong in ((schema.check, "text"), (schema.decode, 7)):
    try:
        call(wrong)  # type: ignore[arg-type]
    except TypeError:
        continue
    raise AssertionError
try:
    compare(schema, data)  # type: ignore[arg-type]
except TypeError:
    pass
try:
    Schema.of(7, DEFINITIONS)  # type: ignore[arg-type]
except Error:
    pass
