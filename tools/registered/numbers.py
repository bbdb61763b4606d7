"""Whole numbers, and those that aren't zero."""
from registered.layout import Part, key, ser_methods


class Number:
    """A whole number's type: its name, how many bytes its encoding has, and the type of that many bytes that it is written as."""

    def __init__(self, name):
        self.name = name
        self.is_signed = name[0] == "i"
        self.written_as = name[0] + "64" if name.endswith("size") else name
        self.bytes = int(self.written_as[1:]) // 8
        self.kind = "signed" if self.is_signed else "unsigned"
        # The type of those that aren't zero, and the definition that gives its number.
        self.non_zero = f"NonZero{name.capitalize()}"
        self.get = f"non_zero_{name}_get"
        # The schema's law of such a number.
        self.described = "signed_described" if self.is_signed else "number_described"

    def cast(self, value):
        """The expression, as a number of the type that is written."""
        return value if self.name == self.written_as else f"{value} as {self.written_as}"


WHOLE = [Number(name) for name in "u8 u16 u32 u64 u128 usize i8 i16 i32 i64 i128 isize".split()]
# Std has no `NonZeroIsize` in the original's list.
NON_ZERO = [number for number in WHOLE if number.name != "isize"]
# The types of which a width has functions of its own.
FIXED = [number for number in WHOLE if number.name == number.written_as]

GETS = ", ".join(number.get for number in NON_ZERO)
NON_ZERO_TYPES = """use std::num::{
    NonZeroI8, NonZeroI16, NonZeroI32, NonZeroI64, NonZeroI128, NonZeroU8, NonZeroU16, NonZeroU32, NonZeroU64, NonZeroU128, NonZeroUsize,
};
"""


# ---- whole numbers


def types_number(number):
    return f"""
impl BorshType for {number.name} {{
    ghost codec = {{ {number.kind} {number.bytes} }};

    ghost lawful_if = {{ always ({number.kind}-lawful {number.bytes}) }};

    ghost premises = {{ tt }};

    fn encodes_empty() -> bool {{
        false
    }}

    fn element_size() -> usize {{
        size_of::<{number.name}>()
    }}
}}
"""


TYPES_NUMBERS = """// Whole numbers, the lowest byte first, and with a sign in two's complement. A `usize` is written as a
// `u64`, and an `isize` as an `i64`.
ghost use Rattle.borsh_codec.specs.Shapes.{unsigned, signed};
ghost use Rattle.borsh_codec.proofs.Laws.Numbers.{unsigned-lawful, signed-lawful};
ghost use Rattle.borsh_codec.proofs.Laws.Conditional.{always};

use super::types::BorshType;
""" + "".join(map(types_number, WHOLE))


def bytes_of(number):
    """The function that gives a number's bytes."""
    using = {"u8": "byte_of", "u16": "bytes_of"}.get(number.name)
    tactic = f"#[tactic(auto, using(borsh_codec::proofs::NumberBytes::{using}))]\n" if using else ""
    body = "n.to_le_bytes()"
    if number.is_signed:
        body = f"bytes_of_u{number.name[1:]}(n.cast_unsigned())"
    elif number.name == "u8":
        body = "[n]"
    return f"""
#[inline]
{tactic}pub(crate) fn bytes_of_{number.name}(n: {number.name}) -> [u8; {number.bytes}]
    ensures {{ {number.kind}_encoding {number.bytes} n ≡ Some result }}
{{
    {body}
}}
"""


def put_number(number, value):
    """What puts a number into a room: of sixteen bytes by halves."""
    if number.bytes == 16:
        return f"put_{number.name}({value}, room)"
    return f"put_bytes(&bytes_of_{number.written_as}({number.cast(value)}), room)"


def methods(number, value):
    """The methods of a number, whose value that is."""
    given = f"bytes_of_{number.written_as}({number.cast(value)})"
    return ser_methods(f"write_bytes(&{given}, writer)", put_number(number, value), f"bytes_length(&{given})", "_alloc")


def ser_number(number):
    before = "    ghost lies_encoded = { true };\n\n" if number.name == "u8" else ""
    after = """
    /// The bytes themselves, always.
    #[inline]
    fn u8_slice(slice: &[u8]) -> Option<&[u8]>
        ensures { IsSomeAnd result (λ bytes.
            concat_encodings (unsigned_encoding 1) slice.now ≡ Some bytes.now) }
    {
        Some(slice)
    }
""" if number.name == "u8" else ""
    return f"\nimpl BorshSerialize for {number.name} {{\n{before}{methods(number, '*self')}{after}}}\n"


SER_NUMBERS = """// Whole numbers, the lowest byte first, and with a sign in two's complement. A `usize` is
// written as a `u64`, and an `isize` as an `i64`.
ghost use Rattle.std.specs.Prelude.{◌≡◌, true, Some, IsSomeAnd};
ghost use Rattle.borsh_codec.specs.Shapes.{
  append_encodings,
  concat_encodings,
  signed_encoding,
  unsigned_encoding,
};
ghost use Rattle.borsh_codec.specs.Writing.{Puts};

use super::lengths::bytes_length;
use super::puts::{put_bytes, put_two};
use super::raw_bytes::write_bytes;
use super::serialize::BorshSerialize;
use borsh_io::{Result, Write};
use std::alloc::Global;
""" + "".join(map(bytes_of, FIXED)) + """
/// The low and the high half.
#[inline]
fn halves_of_u128(n: u128) -> (u64, u64)
    ensures { append_encodings (unsigned_encoding 8 result.0) (unsigned_encoding 8 result.1)
        ≡ unsigned_encoding 16 n }
{
    (
        (n % 18446744073709551616) as u64,
        (n / 18446744073709551616) as u64,
    )
}

/// Puts the halves one after the other: LLVM makes one store of each, but not of sixteen bytes.
#[inline]
pub(crate) fn put_u128(n: u128, room: &mut [u8]) -> Option<usize>
    ensures { Puts (unsigned_encoding 16 n) room.old room.new result }
{
    let (low, high) = halves_of_u128(n);
    put_two(&low, &high, room)
}

/// Puts the number as `put_u128` does.
#[inline]
pub(crate) fn put_i128(n: i128, room: &mut [u8]) -> Option<usize>
    ensures { Puts (signed_encoding 16 n) room.old room.new result }
{
    put_u128(n.cast_unsigned(), room)
}
""" + "".join(map(ser_number, WHOLE))


def number_of(number):
    """The function that gives the number of its bytes."""
    body = f"u{number.name[1:]}_of(bytes).cast_signed()" if number.is_signed else f"{number.name}::from_le_bytes(bytes)"
    return f"""
#[inline]
fn {number.name}_of(bytes: [u8; {number.bytes}]) -> {number.name}
    ensures {{ {number.kind}_encoding {number.bytes} result ≡ Some bytes }}
{{
    {body}
}}
"""


def de_number(number):
    before = "    ghost reads_at_once = { true };\n\n" if number.name == "u8" else ""
    between = """    /// The bytes, always.
    #[inline(always)]
    fn vec_from_reader<R: Read>(alloc: Global, len: u32, reader: &mut R) -> Result<Option<Vec<u8>>>
        ensures outcome { DecodesAtOnce len (unsigned 1) R.stream reader.old reader.new result }
        ensures some { IfOk result IsSome }
    {
        Ok(Some(read_vec(alloc, len as usize, reader)?))
    }

    /// The bytes, always.
    #[inline(always)]
    fn read_slice<R: Read>(items: &mut [u8], reader: &mut R) -> Option<Result<()>>
        ensures outcome { IfSome result (DecodesOver (unsigned 1) R.stream reader.old reader.new
            items.old items.new) }
        ensures some { IsSome result }
    {
        Some(fill(reader, items))
    }

""" if number.name == "u8" else ""
    value = f"{number.written_as}_of(number_bytes(reader)?)"
    if number.name != number.written_as:
        value += f" as {number.name}"
    return f"""
impl BorshDeserialize for {number.name} {{
{before}    #[inline]
    fn deserialize_reader<R: Read>(_alloc: Global, reader: &mut R) -> Result<{number.name}> {{
        Ok({value})
    }}

{between}    #[inline]
    fn width() -> usize {{
        {number.bytes}
    }}
}}
"""


DE_NUMBERS = """// Whole numbers, the lowest byte first, and with a sign in two's complement. A `usize` is read as a
// `u64`, and an `isize` as an `i64`.
ghost use Rattle.std.specs.Prelude.{◌≡◌, true, Some, IfOk, IfSome, IsSome};
ghost use Rattle.borsh_codec.specs.Shapes.{unsigned_encoding, signed_encoding, unsigned};
ghost use Rattle.borsh_codec.specs.Reading.{DecodesAtOnce};
ghost use Rattle.borsh_de.specs.FixedWidth.{DecodesOver};
ghost use Rattle.borsh_de.specs.Numbers.{TakesNumber};

use super::deserialize::BorshDeserialize;
use super::raw_bytes::{fill, read_bytes, read_vec};
use borsh_io::{Read, Result};
use std::alloc::Global;

/// The bytes of a number. The errors are those of [`read_bytes`].
#[inline]
fn number_bytes<R: Read, const N: usize>(reader: &mut R) -> Result<[u8; N]>
    ensures { TakesNumber N R.stream reader.old reader.new result }
{
    read_bytes(reader)
}
""" + "".join(map(number_of, FIXED)) + "".join(map(de_number, WHOLE))


def schema_type(rust, name, size, described, map_name="map"):
    """A type whose schema is a primitive of that name and size."""
    return f"""
impl BorshSchema for {rust} {{
    ghost name = {{ codes "{name}" }};

    ghost parts = {{ primitive_definitions (codes "{name}") {size} }};

    ghost described = {{ {described} }};

    fn declaration(alloc: Global) -> SchemaResult<Declaration> {{
        declared(alloc, "{name}")
    }}

    fn add_definitions_recursively(alloc: Global, {map_name}: &mut DefinitionMap) -> SchemaResult<()> {{
        add_primitive(alloc, "{name}", {size}, {map_name})
    }}

    ghost describes = {{ Self.described.describes }};
}}
"""


def schema_number(number):
    name = number.written_as
    return schema_type(number.name, name, number.bytes, f'{number.described} (codes "{name}") {number.bytes}')


SCHEMA_NUMBERS = """// Whole numbers: so many bytes.
ghost use Rattle.std.specs.Prelude.{codes};
ghost use Rattle.borsh_definitions.specs.Types.{primitive_definitions};
ghost use Rattle.borsh_definitions.proofs.Laws.Members.{describes_number, describes_signed};
ghost use Rattle.borsh_definitions.proofs.Laws.Quoted.{number_described, signed_described};

use super::definitions::{DefinitionMap, SchemaResult};
use super::parts::{add_primitive, declared};
use super::schema::BorshSchema;
use borsh_walks::Declaration;
use std::alloc::Global;
""" + "".join(map(schema_number, WHOLE))


# ---- numbers that aren't zero


def types_non_zero(number):
    shape = f"{number.kind} {number.bytes}"
    law = f"{number.kind}-lawful {number.bytes}"
    return f"""
impl BorshType for {number.non_zero} {{
    ghost codec = {{ contramap {number.get} ({shape}) }};

    ghost lawful_if = {{ always (contramap-lawful {number.get} ({law})) }};

    ghost premises = {{ tt }};

    fn encodes_empty() -> bool {{
        false
    }}

    fn element_size() -> usize {{
        size_of::<{number.non_zero}>()
    }}
}}
"""


TYPES_NON_ZEROS = f"""// Whole numbers that are not zero: their number.
ghost use Rattle.std.specs.Int.NonZero.{{{GETS}}};
ghost use Rattle.borsh_codec.specs.Shapes.{{contramap, unsigned, signed}};
ghost use Rattle.borsh_codec.proofs.Laws.Exact.{{contramap-lawful}};
ghost use Rattle.borsh_codec.proofs.Laws.Numbers.{{unsigned-lawful, signed-lawful}};
ghost use Rattle.borsh_codec.proofs.Laws.Conditional.{{always}};

use super::types::BorshType;
{NON_ZERO_TYPES}""" + "".join(map(types_non_zero, NON_ZERO))


def ser_non_zero(number):
    return f"\nimpl BorshSerialize for {number.non_zero} {{\n{methods(number, 'self.get()')}}}\n"


SER_NON_ZEROS = f"""// Whole numbers that are not zero: their number.
use super::lengths::bytes_length;
use super::numbers::{{
    bytes_of_i8, bytes_of_i16, bytes_of_i32, bytes_of_i64, bytes_of_i128, bytes_of_u8, bytes_of_u16, bytes_of_u32, bytes_of_u64,
    bytes_of_u128, put_i128, put_u128,
}};
use super::puts::put_bytes;
use super::raw_bytes::write_bytes;
use super::serialize::BorshSerialize;
use borsh_io::{{Result, Write}};
use std::alloc::Global;
{NON_ZERO_TYPES}""" + "".join(map(ser_non_zero, NON_ZERO))


def de_non_zero(number):
    return f"""
impl TryFromParts for {number.non_zero} {{
    type Parts = {number.name};

    ghost view = {{ {number.get} }};

    #[inline]
    fn try_from_parts(number: {number.name}) -> Option<{number.non_zero}> {{
        {number.non_zero}::new(number)
    }}

    fn refusal() -> &'static str {{
        ERROR_INVALID_ZERO_VALUE
    }}
}}

impl BorshDeserialize for {number.non_zero} {{
    #[inline]
    fn deserialize_reader<R: Read>(alloc: Global, reader: &mut R) -> Result<{number.non_zero}> {{
        read_checked(alloc, reader)
    }}
}}
"""


def in_threes(gets):
    """The imports of the definitions that give a number's value, three on a line."""
    rows = [gets[at : at + 3] for at in range(0, len(gets), 3)]
    return "".join(f"ghost use Rattle.std.specs.Int.NonZero.{{{', '.join(row)}}};\n" for row in rows)


DE_NON_ZEROS = f"""// Whole numbers that are not zero: their number. Zero is refused with `InvalidData`, "Expected a
// non-zero value", once all of its bytes are read.
{in_threes([number.get for number in NON_ZERO])}
use super::deserialize::BorshDeserialize;
use super::parts::{{TryFromParts, read_checked}};
use super::refusals::ERROR_INVALID_ZERO_VALUE;
use borsh_io::{{Read, Result}};
use std::alloc::Global;
{NON_ZERO_TYPES}""" + "".join(map(de_non_zero, NON_ZERO))


def schema_non_zero(number):
    law = f'contramap_described {number.get} ({number.described} (codes "{number.non_zero}") {number.bytes})'
    return schema_type(number.non_zero, number.non_zero, number.bytes, law)


SCHEMA_NON_ZEROS = f"""// Numbers that are never zero: so many bytes, as those of the number.
ghost use Rattle.std.specs.Prelude.{{codes}};
ghost use Rattle.std.specs.Int.NonZero.{{{GETS}}};
ghost use Rattle.borsh_definitions.specs.Types.{{primitive_definitions}};
ghost use Rattle.borsh_definitions.proofs.Laws.Members.{{describes_contramap, describes_number, describes_signed}};
ghost use Rattle.borsh_definitions.proofs.Laws.Quoted.{{contramap_described, number_described, signed_described}};

use super::definitions::{{DefinitionMap, SchemaResult}};
use super::parts::{{add_primitive, declared}};
use super::schema::BorshSchema;
use borsh_walks::Declaration;
use std::alloc::Global;
{NON_ZERO_TYPES}""" + "".join(map(schema_non_zero, NON_ZERO))


# ---- both as keys


def ordered(number):
    """The order of a number's encodings."""
    return f"{'signed' if number.is_signed else 'number'}_ordered {number.bytes}"


KEYS = "".join(key(number.name, ordered(number)) for number in WHOLE) + "".join(
    key(number.non_zero, f"contramap_ordered {number.get} ({ordered(number)})") for number in NON_ZERO
)


# ---- proofs


def bytes_of_proof(number):
    """That the bytes of a number are its encoding: of a signed one, those of its bits."""
    bits, size = f"w{number.name[1:]}", number.bytes
    if not number.is_signed:
        return f"""use Rattle.std.proofs.Common.{{arith}}
use Rattle.borsh_codec.proofs.NumberBytes.{{bytes_of}}
use Rattle.borsh_ser.proofs.numbers.bytes_of_{number.name}.Goals as goal

pub returns : goal.returns
returns c = bytes_of {size} c.args.n (omega arith) c.to_le_bytes.ensures
"""
    return f"""use Rattle.std.proofs.Common.{{refl, sym, ap, ◌∙◌, of_z}}
use Rattle.std.specs.Int.{{{bits}}}
use Rattle.std.proofs.lemmas.Int.{{to_z-of_z}}
use Rattle.borsh_codec.specs.Shapes.{{unsigned_encoding}}
use Rattle.borsh_codec.proofs.NumberBytes.{{signed_by_bits}}
use Rattle.borsh_ser.proofs.numbers.bytes_of_{number.name}.Goals as goal

pub returns : goal.returns
returns c =
    let e = c.cast_unsigned.ensures ∙ ap (of_z {bits}) (to_z-of_z {bits} c.args.n c.ranges.n) in
    signed_by_bits {bits} {size} c.args.n refl refl refl c.ranges.n (ap (unsigned_encoding {size}) (sym e) ∙ c.bytes_of_u{bits[1:]}.ensures)
"""


def number_of_proof(number):
    """That the number of some bytes has them as its encoding."""
    bits, size = f"w{number.name[1:]}", number.bytes
    if not number.is_signed:
        return f"""use Rattle.std.proofs.Common.{{rules}}
use Rattle.borsh_codec.proofs.NumberBytes.{{number_of}}
use Rattle.borsh_de.proofs.numbers.{number.name}_of.Goals as goal

pub returns : goal.returns
returns c = number_of {size - 1} c.args.bytes _ (search rules) (search rules) c.from_le_bytes.ensures
"""
    return f"""use Rattle.std.proofs.Common.{{refl, rules, ap, ◌∙◌, SFits}}
use Rattle.std.specs.Int.{{{bits}}}
use Rattle.std.proofs.lemmas.Int.{{to_z-of_z}}
use Rattle.borsh_codec.specs.Shapes.{{signed_encoding}}
use Rattle.borsh_codec.proofs.NumberBytes.{{signed_of}}
use Rattle.borsh_de.proofs.numbers.{number.name}_of.Goals as goal

pub returns : goal.returns
returns c =
    let f : SFits {bits} c.cast_signed.result = search rules in
    ap (signed_encoding {size}) (to_z-of_z {bits} c.cast_signed.result f ∙ c.cast_signed.ensures) ∙ signed_of {bits} {size} c.u{bits[1:]}_of.result refl refl refl c.u{bits[1:]}_of.ensures
"""


def width_proof(number):
    """That each of so many bytes are a number's encoding."""
    goal = f"use Rattle.borsh_de.proofs.numbers.{number.name.capitalize()}BorshDeserialize.width.Goals as goal\n\npub returns : goal.returns\n"
    if not number.is_signed:
        return f"use Rattle.borsh_de.proofs.FixedWidth.{{unsigned_fixed}}\n{goal}returns c h = unsigned_fixed {number.bytes - 1}\n"
    bits = f"w{8 * number.bytes}"
    return f"""use Rattle.std.proofs.Common.{{refl}}
use Rattle.std.specs.Int.{{{bits}}}
use Rattle.borsh_de.proofs.FixedWidth.{{signed_fixed}}
{goal}returns c h = signed_fixed {bits} {number.bytes - 1} refl refl refl
"""


# ---- floating-point numbers


class Float:
    """A floating-point number's type."""

    def __init__(self, bits, infinity):
        self.name, self.bytes, self.codec, self.infinity = f"f{bits}", bits // 8, f"float{bits}", infinity


FLOATS = [Float(32, 0x7F80_0000), Float(64, 0x7FF0_0000_0000_0000)]


def types_float(number):
    return f"""
impl BorshType for {number.name} {{
    ghost codec = {{ {number.codec} }};

    ghost lawful_if = {{ always {number.codec}-lawful }};

    ghost premises = {{ tt }};

    fn encodes_empty() -> bool {{
        false
    }}

    fn element_size() -> usize {{
        size_of::<{number.name}>()
    }}
}}
"""


def float_bytes(number):
    return f"""
#[inline]
fn bytes_of_{number.name}(value: {number.name}) -> [u8; {number.bytes}]
    requires {{ NotNan value }}
    ensures {{ {number.codec}.encoding value ≡ Some result }}
{{
    value.to_le_bytes()
}}
"""


def unless_nan(given):
    return f"let value = *self;\n        if value.is_nan() {{\n            return {given};\n        }}"


def ser_float(number):
    given = f"bytes_of_{number.name}(value)"
    refused = unless_nan("Err(Error::new(ErrorKind::InvalidData, ERROR_NAN_NOT_SERIALIZED))")
    write, put, length = f"write_bytes(&{given}, writer)", f"put_bytes(&{given}, room)", f"bytes_length(&{given})"
    none = unless_nan("None")
    all_three = ser_methods(f"{refused}\n        {write}", f"{none}\n        {put}", f"{none}\n        {length}", "_alloc")
    return f"\nimpl BorshSerialize for {number.name} {{\n{all_three}}}\n"


def de_float(number):
    return f"""
impl BorshDeserialize for {number.name} {{
    #[inline]
    fn deserialize_reader<R: Read>(alloc: Global, reader: &mut R) -> Result<{number.name}> {{
        let bits = u{number.name[1:]}::deserialize_reader(alloc, reader)?;
        // But for the sign's bit, a NaN's bits are above those of infinity.
        if {number.infinity:#_x} < bits % {1 << 8 * number.bytes - 1:#_x} {{
            return Err(refused(ERROR_NAN_NOT_DESERIALIZED));
        }}
        Ok({number.name}::from_bits(bits))
    }}
}}
"""


def schema_float(number):
    return schema_type(number.name, number.name, number.bytes, f"{number.codec}_described", "definitions")


# ---- what is written


FILES = {
    "borsh_types/src/numbers.rt": TYPES_NUMBERS,
    "borsh_types/src/non_zeros.rt": TYPES_NON_ZEROS,
    "borsh_ser/src/numbers.rt": SER_NUMBERS,
    "borsh_ser/src/non_zeros.rt": SER_NON_ZEROS,
    "borsh_de/src/numbers.rt": DE_NUMBERS,
    "borsh_de/src/non_zeros.rt": DE_NON_ZEROS,
    "borsh_schema/src/numbers.rt": SCHEMA_NUMBERS,
    "borsh_schema/src/non_zeros.rt": SCHEMA_NON_ZEROS,
    # Those of `u8` and `u16` need no answers: a lemma proves them.
    **{f"borsh_ser/proofs/numbers/bytes_of_{it.name}/Answers.antt": bytes_of_proof(it) for it in FIXED if it.name not in ("u8", "u16")},
    **{f"borsh_de/proofs/numbers/{it.name}_of/Answers.antt": number_of_proof(it) for it in FIXED},
    **{f"borsh_de/proofs/numbers/{it.name.capitalize()}BorshDeserialize/width/Answers.antt": width_proof(it) for it in WHOLE},
}

PARTS = {
    "borsh_types/src/keys.rt": [Part("impl BorshKey for u8 {", "impl BorshKey for bool {", KEYS)],
    "borsh_types/src/floats.rt": [Part("impl BorshType for f32 {", None, "".join(map(types_float, FLOATS)))],
    "borsh_ser/src/floats.rt": [Part("#[inline]", None, "".join(map(float_bytes, FLOATS)) + "".join(map(ser_float, FLOATS)))],
    "borsh_de/src/floats.rt": [Part("impl BorshDeserialize for f32 {", None, "".join(map(de_float, FLOATS)))],
    "borsh_schema/src/floats.rt": [Part("impl BorshSchema for f32 {", None, "".join(map(schema_float, FLOATS)))],
}
