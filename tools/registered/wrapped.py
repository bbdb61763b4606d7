"""Types that are encoded as their parts: as another type, or a tuple of such."""
import re

from registered.layout import key, ser_methods
from registered.tuples import NUMBERS, joined


class Wrapped:
    """A type, the path that imports it, its parts' type, the function from a value to these, and the expression of a value of `parts`.

    Parts of which not all make a value want `TryFromParts` in place of `FromParts`, and another codec than theirs its own law.
    """

    def __init__(self, name, path, parts, view, made):
        self.name, self.path, self.parts, self.view, self.made = name, path, parts, view, made
        self.parameters = re.findall(r"\b[A-Z]\b", name.partition("<")[2])
        is_parameter = parts in self.parameters
        # The parts' implementation in definitions, and in code.
        self.meant = parts if is_parameter else f"⟦<{parts} as TRAIT>⟧"
        self.called = parts if is_parameter else f"<{parts}>"

    def bounds(self, trait):
        bounds = ", ".join(f"{parameter}: {trait}" for parameter in self.parameters)
        return f"<{bounds}>" if bounds else ""

    def head(self, trait, of=""):
        """The head of an implementation of that trait, whose parameters have it or the trait `of`."""
        return f"impl{self.bounds(of or trait)} {trait} for {self.name}"

    def of(self, trait, member):
        return f"{self.meant.replace('TRAIT', trait)}.{member}"

    def seen(self, value):
        """What the view gives of that value, as a term; of `(λ x. (x.a, x.b))` and the like without the function."""
        function = re.fullmatch(r"\(λ (\w+)\. (.*)\)", self.view)
        return re.sub(rf"\b{function[1]}\.", f"{value}.", function[2]) if function else f"({self.view} {value})"

    def fields(self):
        """The parts of `self`, as expressions."""
        text = self.seen("self")
        return text[1:-1].split(", ") if text.startswith("(self.") else [text]


# tools/new_type adds a row.
WRAPPED = [
    Wrapped("Wrapping<T>", "std::num::Wrapping", "T", "(λ w. w.0)", "Wrapping(parts)"),
]


def types_wrapped(it):
    return f"""
{it.head("BorshType")} {{
    ghost codec = {{ contramap {it.view} {it.of("BorshType", "codec")} }};

    ghost lawful_if = {{ from (contramap-lawful {it.view}) {it.of("BorshType", "lawful_if")} }};

    ghost premises = {{ {it.of("BorshType", "premises")} }};

    fn encodes_empty() -> bool {{
        {it.called}::encodes_empty()
    }}

    fn element_size() -> usize {{
        {it.called}::element_size()
    }}
}}
"""


def key_wrapped(it):
    ordered = f"contramap_ordered {it.view} {it.of('BorshKey', 'ordered')}"
    law = f"λ a b. {it.of('BorshKey', 'key')} {it.seen('a')} {it.seen('b')}"
    return key(it.name, ordered, law, it.bounds("BorshKey"))


def ser_wrapped(it):
    fields = it.fields()
    if len(fields) == 1:
        write, put, length = (f"{fields[0]}.{call}" for call in ("serialize(alloc, writer)", "put(room)", "encoded_length()"))
    else:
        count, parts = NUMBERS[len(fields)], ", ".join(f"&{field}" for field in fields)
        write, put = f"write_{count}({parts}, alloc, writer)", f"put_{count}({parts}, room)"
        length = joined([f"{field}.encoded_length()" for field in fields])
    return f"""
{it.head("BorshSerialize")} {{
{ser_methods(write, put, length)}}}
"""


def de_wrapped(it):
    return f"""
{it.head("FromParts", "BorshDeserialize")} {{
    type Parts = {it.parts};

    ghost view = {{ {it.view.removeprefix("(").removesuffix(")")} }};

    #[inline]
    fn from_parts(parts: {it.parts}) -> {it.name} {{
        {it.made}
    }}
}}

{it.head("BorshDeserialize")} {{
    #[inline]
    fn deserialize_reader<R: Read>(alloc: Global, reader: &mut R) -> Result<{it.name}> {{
        read_parts(alloc, reader)
    }}
}}
"""


def schema_wrapped(it):
    return f"""
{it.head("BorshSchema")} {{
    ghost name = {{ {it.of("BorshSchema", "name")} }};

    ghost parts = {{ {it.of("BorshSchema", "parts")} }};

    ghost described = {{ contramap_described {it.view} {it.of("BorshSchema", "described")} }};

    fn declaration(alloc: Global) -> SchemaResult<Declaration> {{
        {it.called}::declaration(alloc)
    }}

    fn add_definitions_recursively(alloc: Global, map: &mut DefinitionMap) -> SchemaResult<()> {{
        {it.called}::add_definitions_recursively(alloc, map)
    }}

    ghost describes = {{ λ C h. describes_contramap {it.view} ({it.of("BorshSchema", "describes")} C h) }};
}}
"""


# ---- what is written


def file(ghosts, paths, *templates):
    """A file of the templates for all types, with what it imports beside these."""
    paths = sorted([*paths, *(it.path for it in WRAPPED)], key=lambda path: (not path.startswith("super::"), path))
    lines = [f"ghost use Rattle.{path};" for path in ghosts] + [""] * bool(ghosts) + [f"use {path};" for path in paths]
    return "\n".join(["// Types that are encoded as their parts.", *lines, ""]) + "".join(text(it) for it in WRAPPED for text in templates)


FILES = {
    "borsh_types/src/wrapped.rt": file(
        [
            "borsh_codec.specs.Shapes.{contramap}",
            "borsh_codec.proofs.Laws.Exact.{contramap-lawful}",
            "borsh_codec.proofs.Laws.Conditional.{from}",
            "borsh_codec.proofs.Laws.OrderedKeys.{contramap_ordered}",
        ],
        ["super::keys::BorshKey", "super::types::BorshType"],
        types_wrapped,
        key_wrapped,
    ),
    "borsh_ser/src/wrapped.rt": file(
        [],
        ["super::serialize::BorshSerialize", "borsh_io::{Result, Write}", "std::alloc::Global"],
        ser_wrapped,
    ),
    "borsh_de/src/wrapped.rt": file(
        [],
        ["super::deserialize::BorshDeserialize", "super::parts::{FromParts, read_parts}", "borsh_io::{Read, Result}", "std::alloc::Global"],
        de_wrapped,
    ),
    "borsh_schema/src/wrapped.rt": file(
        ["borsh_definitions.proofs.Laws.Members.{describes_contramap}", "borsh_definitions.proofs.Laws.Quoted.{contramap_described}"],
        ["super::definitions::{DefinitionMap, SchemaResult}", "super::schema::BorshSchema", "borsh_walks::Declaration", "std::alloc::Global"],
        schema_wrapped,
    ),
}
PARTS = {}
