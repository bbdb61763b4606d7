"""Types that hold a text, a list, or one value, and are encoded as what they hold; and ranges of one end."""
from registered.layout import Part, key, member, ser_methods
from registered.wrapped import Wrapped, de_wrapped, key_wrapped, ser_wrapped, types_wrapped


class Holder:
    """A type that holds something: its name, the function that gives what it holds, and how many bytes of memory it takes.

    `late` are those whose schemas were written after the others', in shorter lines and with another name for the map.
    """

    def __init__(self, name, view, memory=0, late=False):
        self.name, self.view, self.memory, self.is_late = name, view, memory, late
        self.is_borrowed = name.startswith("&") or "'_" in name
        self.map = "definitions" if late else "map"

    def of(self, value):
        """What that value holds."""
        field = self.view.partition("(λ b. b.")[2][:-1]
        return f"{value}.{field}" if field else f"({self.view} {value})"

    def apart(self):
        """What stands between a clause's head and its second line."""
        return "\n        " if self.is_late else " "


TEXTS = [
    Holder("String", "string_bytes", 24),
    Holder("&str", "(λ r. r.now)", 16),
    Holder("BoxedStr", "boxed_str_bytes", 16),
    Holder("RcStr", "rc_str_bytes", 16),
    Holder("ArcStr", "arc_str_bytes", 16, late=True),
    Holder("CowStr<'_>", "cow_str_bytes", 24),
]
VECTORS = [Holder("Vec<T>", "(λ v. v.items)", 24), Holder("VecDeque<T>", "(λ v. v.items)", 32)]
SLICES = [
    Holder("BoxedSlice<T>", "boxed_slice_items", 16),
    Holder("RcSlice<T>", "rc_slice_items", 16),
    Holder("ArcSlice<T>", "arc_slice_items", 16, late=True),
    Holder("CowSlice<'_, T>", "cow_slice_items", 24),
]
POINTERS = [Holder("Box<T>", "(λ b. b.value)"), Holder("Rc<T>", "(λ b. b.value)"), Holder("Arc<T>", "(λ b. b.value)", late=True)]
COW = Holder("Cow<'_, T>", "cow_value", late=True)


# ---- codecs


def types_holder(head, codec, law, premises, empty, size, of_empty=""):
    return f"""
{head} {{
    ghost codec = {{ {codec} }};

    ghost lawful_if = {{ {law} }};

    ghost premises = {{ {premises} }};

    fn encodes_empty() -> bool{of_empty} {{
        {empty}
    }}

    fn element_size() -> usize {{
        {size}
    }}
}}
"""


def types_text(it):
    law = f"always (contramap-lawful {it.view} text-lawful)"
    # A type with a lifetime says its clauses again.
    clause = "\n        ensures { result ≡ text.is_zero_width }\n   " if it.is_borrowed else ""
    return types_holder(f"impl BorshType for {it.name}", f"contramap {it.view} text", law, "tt", "false", it.memory, clause)


def types_list(it):
    law = f"from (λ l. contramap-lawful {it.view} (list-lawful l)) T.lawful_if"
    codec = f"contramap {it.view} (list T.codec)"
    return types_holder(f"impl<T: BorshType> BorshType for {it.name}", codec, law, "T.premises", "false", it.memory)


def types_pointer(it):
    law = f"from (λ l. contramap-lawful {it.view} (allocated-lawful l)) T.lawful_if"
    codec = f"contramap {it.view} (allocated T.codec)"
    head = f"impl<T: BorshType> BorshType for {it.name}"
    return types_holder(head, codec, law, "T.premises", "T::encodes_empty()", "size_of::<usize>()")


KEY_TEXTS = "".join(key(it.name, f"contramap_ordered {it.view} text_ordered") for it in TEXTS)
KEY_POINTERS = "".join(
    key(
        it.name,
        f"contramap_ordered {it.view} (allocated_ordered T.ordered)",
        f"λ a b. T.key {it.of('a')} {it.of('b')}",
        "<T: BorshKey>",
    )
    for it in POINTERS
)
KEY_SLICES = "".join(
    key(
        it.name,
        f"contramap_ordered {it.view} (list_ordered T.ordered)",
        f"λ a b. all_key T.codec T.key {it.of('a')} {it.of('b')}",
        "<T: BorshKey>",
    )
    for it in SLICES
)


# ---- encoding


def ser_holder(head, write, put, length):
    return f"""
{head} {{
{ser_methods(write, put, length)}}}
"""


def ser_text(it):
    text = "*self" if it.name == "&str" else "self.as_str()"
    head = f"impl BorshSerialize for {it.name}"
    return ser_holder(head, f"write_text({text}, alloc, writer)", f"put_text({text}, room)", f"text_length({text})")


def ser_list(it):
    items = "self.as_slice()"
    head = f"impl<T: BorshSerialize> BorshSerialize for {it.name}"
    return ser_holder(head, f"write_list({items}, alloc, writer)", f"put_list({items}, room)", f"list_length({items})")


def ser_pointer(it):
    value = "self.as_ref()"
    head = f"impl<T: BorshSerialize> BorshSerialize for {it.name}"
    return ser_holder(head, f"{value}.serialize(alloc, writer)", f"{value}.put(room)", f"{value}.encoded_length()")


# ---- decoding


def de_pointer(it):
    return f"""
impl<T: BorshDeserialize> BorshDeserialize for {it.name} {{
    #[inline]
    fn deserialize_reader<R: Read>(alloc: Global, reader: &mut R) -> Result<{it.name}> {{
        let value = T::deserialize_reader(alloc, reader)?;
        Ok({it.name[:-3]}::new(alloc, value)?)
    }}
}}
"""


# ---- schemas


def schema_text(it):
    named = adds = ""
    if it.is_borrowed:
        named = """
        ensures ok { IfOk result (λ d. string_bytes d ≡ codes "String") }
        ensures err { IfErr result (λ e. e ≡ OutOfMemory) }
   """
        adds = "\n        ensures { AddsDefinitions map.old map.new text_definitions result }\n   "
    return f"""
impl BorshSchema for {it.name} {{
    ghost name = {{ codes "String" }};

    ghost parts = {{ text_definitions }};

    ghost described = {{ contramap_described {it.view} text_described }};

    fn declaration(alloc: Global) -> SchemaResult<Declaration>{named} {{
        declared(alloc, "String")
    }}

    fn add_definitions_recursively(alloc: Global, {it.map}: &mut DefinitionMap) -> SchemaResult<()>{adds} {{
        add_list::<u8>(alloc, Self::declaration(alloc)?, {it.map})
    }}

    ghost describes = {{ Self.described.describes }};
}}
"""


def schema_list(it):
    """A list has its own name; a slice that is held has that of a `Vec`."""
    name = it.name[:-3] if it in VECTORS else "Vec"
    begin = f'(codes "{name}<")'
    return f"""
impl<T: BorshSchema> BorshSchema for {it.name} {{
    ghost name = {{ applied {begin} T.name }};

    ghost parts = {{ list_definitions {begin} T.name T.parts }};

    ghost described = {{ contramap_described {it.view}{it.apart()}(list_described {begin} T.described) }};

    fn declaration(alloc: Global) -> SchemaResult<Declaration> {{
        let element = T::declaration(alloc)?;
        Ok(format!(in alloc; "{name}<{{element}}>")?)
    }}

    fn add_definitions_recursively(alloc: Global, {it.map}: &mut DefinitionMap) -> SchemaResult<()> {{
        add_list::<T>(alloc, Self::declaration(alloc)?, {it.map})
    }}

    ghost describes = {{ λ C h. describes_contramap {it.view}
        (describes_elements h.0 (T.describes C h.1.0)) }};
}}
"""


def schema_pointer(it):
    described, describes = "(allocated_described T.described)", f"{it.apart()}(describes_stored (T.describes C h))"
    if it is COW:
        described, describes = "T.described", " (T.describes C h)"
    return f"""
impl<T: BorshSchema> BorshSchema for {it.name} {{
    ghost name = {{ T.name }};

    ghost parts = {{ T.parts }};

    ghost described = {{ contramap_described {it.view} {described} }};

    fn declaration(alloc: Global) -> SchemaResult<Declaration> {{
        T::declaration(alloc)
    }}

    fn add_definitions_recursively(alloc: Global, {it.map}: &mut DefinitionMap) -> SchemaResult<()> {{
        T::add_definitions_recursively(alloc, {it.map})
    }}

    ghost describes = {{ λ C h. describes_contramap {it.view}{describes} }};
}}
"""


# ---- ranges of one end


class End(Wrapped):
    """A range that has one end: its name, the field of the end, and how it is made."""

    def __init__(self, name, field, made):
        super().__init__(f"{name}<T>", f"std::ops::{name}", "T", f"(λ r. r.{field})", made)
        self.range, self.field = name, field


ENDS = [End("RangeFrom", "start", "parts.."), End("RangeTo", "end", "..parts"), End("RangeToInclusive", "end", "..=parts")]


def schema_end(it):
    begin = f'(codes "{it.range}<")'
    definition = "range_from" if it.field == "start" else "range_to"
    parts = ["defined", f"(applied {begin} T.name)", f"({definition} T.name)", "(both T.parts none)"]
    # A line may have 106 columns here, as those of the first ranges had.
    return f"""
{it.head("BorshSchema")} {{
    ghost name = {{ applied {begin} T.name }};

{member("parts", parts, 106)}
    ghost described = {{ struct_described (λ r. (r.{it.field}, tt))
        (fields_described T.described no_fields_described) refl }};

    fn declaration(alloc: Global) -> SchemaResult<Declaration> {{
        let {it.field} = T::declaration(alloc)?;
        Ok(format!(in alloc; "{it.range}<{{{it.field}}}>")?)
    }}

    fn add_definitions_recursively(alloc: Global, map: &mut DefinitionMap) -> SchemaResult<()> {{
        let fields = Fields::NamedFields(vec![in alloc; field::<T>(alloc, "{it.field}")?]?);
        let definition = Definition::Struct {{ fields }};
        add_with_parts::<(T, ())>(alloc, Self::declaration(alloc)?, definition, map)
    }}

    ghost describes = {{ λ C h. describes_contramap {it.view}
        (describes_parts h.0 (all_one (T.describes C h.1.0))) }};
}}
"""


# ---- what is written


def part(first, behind, template, holders):
    return Part(first, behind, "".join(map(template, holders)))


FILES = {}
PARTS = {
    "borsh_types/src/ranges.rt": [part(f"{ENDS[0].head('BorshType')} {{", None, types_wrapped, ENDS)],
    "borsh_ser/src/ranges.rt": [part(f"{ENDS[0].head('BorshSerialize')} {{", None, ser_wrapped, ENDS)],
    "borsh_de/src/ranges.rt": [part("impl<T: BorshDeserialize> FromParts for RangeFrom<T> {", None, de_wrapped, ENDS)],
    "borsh_schema/src/ranges.rt": [part(f"{ENDS[0].head('BorshSchema')} {{", None, schema_end, ENDS)],
    "borsh_types/src/texts.rt": [part("impl BorshType for String {", None, types_text, TEXTS)],
    "borsh_types/src/lists.rt": [
        part("impl<T: BorshType> BorshType for Vec<T> {", "impl<T: BorshType> BorshType for LinkedList<T> {", types_list, VECTORS),
        part(
            "impl<T: BorshType> BorshType for BoxedSlice<T> {",
            "// A plain slice isn't asked whether its elements are empty.",
            types_list,
            SLICES,
        ),
    ],
    "borsh_types/src/pointers.rt": [
        part("impl<T: BorshType> BorshType for Box<T> {", "impl<T: BorshType> BorshType for Cow<'_, T> {", types_pointer, POINTERS)
    ],
    "borsh_types/src/keys.rt": [
        Part("impl BorshKey for String {", "impl<T: BorshKey> BorshKey for &T {", KEY_TEXTS),
        Part("impl<T: BorshKey> BorshKey for Box<T> {", "impl<T: BorshKey> BorshKey for Cow<'_, T> {", KEY_POINTERS),
        part("impl<T: BorshKey> BorshKey for RangeFrom<T> {", "impl<A: BorshKey> BorshKey for (A,) {", key_wrapped, ENDS),
        Part("impl<T: BorshKey> BorshKey for BoxedSlice<T> {", "impl<K: BorshKey + Ord, V: BorshKey> BorshKey for BTreeMap<K, V> {", KEY_SLICES),
    ],
    "borsh_ser/src/texts.rt": [part("impl BorshSerialize for String {", None, ser_text, TEXTS)],
    "borsh_ser/src/lists.rt": [
        part(
            "impl<T: BorshSerialize> BorshSerialize for Vec<T> {",
            "// A plain slice isn't asked whether its elements are empty.",
            ser_list,
            [VECTORS[0], *SLICES],
        )
    ],
    "borsh_ser/src/pointers.rt": [part("impl<T: BorshSerialize> BorshSerialize for Box<T> {", None, ser_pointer, [*POINTERS, COW])],
    "borsh_de/src/pointers.rt": [
        part(
            "impl<T: BorshDeserialize> BorshDeserialize for Box<T> {",
            "impl<T: BorshDeserialize> BorshDeserialize for Cow<'_, T> {",
            de_pointer,
            POINTERS,
        )
    ],
    "borsh_schema/src/texts.rt": [part("impl BorshSchema for String {", None, schema_text, TEXTS)],
    "borsh_schema/src/lists.rt": [
        part("impl<T: BorshSchema> BorshSchema for Vec<T> {", "impl<T: BorshSchema> BorshSchema for LinkedList<T> {", schema_list, VECTORS),
        part("impl<T: BorshSchema> BorshSchema for BoxedSlice<T> {", "impl<T: BorshSchema> BorshSchema for &[T] {", schema_list, SLICES),
    ],
    "borsh_schema/src/pointers.rt": [part("impl<T: BorshSchema> BorshSchema for Box<T> {", None, schema_pointer, [*POINTERS, COW])],
}
