"""What a Borsh schema says, and what bytes mean by it, without the type.

>>> import borsh_proved
>>> schema = borsh_proved.Schema.parse("struct A { x: u64, y: Vec<u8> }", "A")
>>> value = schema.encode({"x": 12, "y": b"abc"})
>>> value.hex()
'0c0000000000000003000000616263'
>>> schema.decode(value)
{'x': 12, 'y': b'abc'}
>>> schema.to_json(value)
'{"x":12,"y":"0x616263"}'
>>> schema.decode(value[:-1])
Traceback (most recent call last):
    ...
borsh_proved.Error: A.y (`Vec<u8>` at byte 8): too few bytes are left

The code behind this is proved, in a library that is called by `ctypes`; README.md says what isn't.
"""

from ._comparison import Answer, Comparison, compare
from ._errors import Error, Kind
from ._schema import Schema

__all__ = ["Answer", "Comparison", "Error", "Kind", "Schema", "compare"]

# Under these names they are shown and pickled.
for _public in (Answer, Comparison, Error, Kind, Schema, compare):
    _public.__module__ = __name__
