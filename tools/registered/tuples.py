"""Tuples, of one to twenty places, and the calls that write so many parts, up to twelve."""
from registered.layout import Part, filled, key, member, nested, ser_methods

# The most places that a tuple has; and one that is a key, or is written by one call, or into a room. In definitions, a value of so
# many places is as in Rust, and one of more is pairs within one another, the last place beside nothing.
PLACES, CALLED = 20, 12
NUMBERS = "zero one two three four five six seven eight nine ten eleven twelve".split()
# Without R and W, the reader and the writer.
LETTERS = "ABCDEFGHIJKLMNOPQSTU"


class Tuple:
    """A tuple's type with so many places."""

    def __init__(self, places):
        self.places = places
        self.letters = LETTERS[:places]
        self.type = f"({', '.join(self.letters)}{',' if places == 1 else ''})"
        self.rest = f"({', '.join(self.letters[1:])})"
        self.values = [letter.lower() for letter in self.letters]

    def bounds(self, trait):
        return [f"{letter}: {trait}" for letter in self.letters]

    def bound(self, trait):
        return f"impl<{', '.join(self.bounds(trait))}> {trait} for {self.type} {{\n"

    def fields(self, of="t"):
        return [f"{of}.{place}" for place in range(self.places)]


TUPLES = [Tuple(places) for places in range(1, PLACES + 1)]
SHORT = TUPLES[:CALLED]


def chained(word, parts):
    """`(word A (word B C))`, in words to be filled."""
    return [f"{'(' if place else ''}{word} {part}" for place, part in enumerate(parts[:-1])] + [parts[-1] + ")" * (len(parts) - 2)]


def types_tuple(it):
    """A tuple's codec is that of pairs within one another, its first place beside the others."""
    if it.places == 1:
        codec, law, premises = "contramap (λ t. t.0) A.codec", "from (contramap-lawful (λ t. t.0)) A.lawful_if", "A.premises"
        empty, size = "A::encodes_empty()", "A::element_size()"
    elif it.places == 2:
        codec, law, premises = "pair A.codec B.codec", "from_two pair-lawful A.lawful_if B.lawful_if", "(A.premises, B.premises)"
        empty, size = "A::encodes_empty() && B::encodes_empty()", "A::element_size().saturating_add(B::element_size())"
    else:
        if it in SHORT:
            view, pairs = f"(λ t. {nested(it.fields())})", f"⟦<{nested(it.letters)} as BorshType>⟧"
            codec = f"contramap\n        {view}\n        {pairs}.codec"
            law = f"from\n        (contramap-lawful {view})\n        {pairs}.lawful_if"
        elif it.places == CALLED + 1:
            last = it.letters[-1]
            codec = chained("pair", [f"{letter}.codec" for letter in it.letters[:-1]] + [f"(contramap (λ t. t.0) {last}.codec)"])
            law = chained(
                "from_two pair-lawful",
                [f"{letter}.lawful_if" for letter in it.letters[:-1]] + [f"(from (contramap-lawful (λ t. t.0)) {last}.lawful_if)"],
            )
            codec, law = filled(codec, len("    ghost codec = { ")), filled(law, len("    ghost lawful_if = { "))
        else:
            rest = f"⟦<(A, {it.rest}) as BorshType>⟧"
            codec, law = f"{rest}.codec", f"{rest}.lawful_if"
        premises = filled(chained("both", [f"{letter}.premises" for letter in it.letters]), len("    ghost premises = { "))
        rest = f"<(A, {it.rest})>"
        empty, size = f"{rest}::encodes_empty()", f"{rest}::element_size()"
    return f"""
{it.bound("BorshType")}    ghost codec = {{ {codec} }};

    ghost lawful_if = {{ {law} }};

    ghost premises = {{ {premises} }};

    fn encodes_empty() -> bool {{
        {empty}
    }}

    fn element_size() -> usize {{
        {size}
    }}
}}
"""


TYPES_TUPLES = f"""// Tuples of one to twenty places: their parts in order.
ghost use Rattle.borsh_codec.specs.Shapes.{{contramap, pair}};
ghost use Rattle.borsh_codec.proofs.Laws.Exact.{{contramap-lawful}};
ghost use Rattle.borsh_codec.proofs.Laws.Pairs.{{pair-lawful}};
ghost use Rattle.borsh_codec.proofs.Laws.Conditional.{{both, from, from_two}};

use super::types::BorshType;
""" + "".join(map(types_tuple, TUPLES))


def joined(parts):
    """The length of two parts or more, one behind another."""
    if len(parts) == 2:
        return f"joined_length({parts[0]}, {parts[1]})"
    rest = f"joined_length({parts[-2]}, {parts[-1]})"
    lines = []
    for part in reversed(parts[:-2]):
        lines.append(f"let rest = {rest};")
        rest = f"joined_length({part}, rest)"
    return "\n        ".join([*lines, rest])


def ser_tuple(it):
    if it.places == 1:
        write, put = "self.0.serialize(alloc, writer)", "self.0.put(room)"
        length = "self.0.encoded_length()"
    else:
        parts = ", ".join(f"&{field}" for field in it.fields("self"))
        write, put = f"write_{NUMBERS[it.places]}({parts}, alloc, writer)", f"put_{NUMBERS[it.places]}({parts}, room)"
        length = joined([f"{field}.encoded_length()" for field in it.fields("self")])
    return f"""
{it.bound("BorshSerialize")}{ser_methods(write, put, length)}}}
"""


def ser_longer(it):
    """Longer ones write the first places one by one, and the last twelve by one call."""
    first = "".join(f"        {field}.serialize(alloc, writer)?;\n" for field in it.fields("self")[:-CALLED])
    last = ", ".join(f"&{field}" for field in it.fields("self")[-CALLED:])
    return f"""
{it.bound("BorshSerialize")}    #[inline]
    fn serialize<W: Write>(&self, alloc: Global, writer: &mut W) -> Result<()> {{
{first}        write_{NUMBERS[CALLED]}({last}, alloc, writer)
    }}
}}
"""


def calls(verb):
    return ", ".join(sorted(f"{verb}_{NUMBERS[places]}" for places in range(2, CALLED + 1)))


SER_TUPLES = f"""// Tuples of one to twenty places: their parts in order.
use super::lengths::joined_length;
use super::parts::{{{calls("write")}}};
use super::puts::{{{calls("put")}}};
use super::serialize::BorshSerialize;
use borsh_io::{{Result, Write}};
use std::alloc::Global;
""" + "".join([*map(ser_tuple, SHORT), *map(ser_longer, TUPLES[CALLED:])])


# The most places that are read one after another. A longer tuple is read as its first places, and the others as one: each tuple
# within another moves what was read once more.
FLAT = 4


def de_tuple(it):
    """A tuple is read place by place, or as its first three places beside the others."""
    if it.places <= FLAT:
        lines = [f"let {value} = {letter}::deserialize_reader(alloc, reader)?;" for value, letter in zip(it.values, it.letters)]
    else:
        values, letters = ([*parts[:3], f"({', '.join(parts[3:])})"] for parts in (it.values, it.letters))
        lines = [f"let ({', '.join(values)}) = <({', '.join(letters)})>::deserialize_reader(alloc, reader)?;"]
    if it.places <= 2:
        width = "A::width()" if it.places == 1 else "both_widths(A::width(), B::width())"
    else:
        width = f"<(A, {it.rest})>::width()"
    body = "\n        ".join(lines)
    hook = f"""
    #[inline]
    fn width() -> usize {{
        {width}
    }}
"""
    return f"""
{it.bound("BorshDeserialize")}    #[inline]
    fn deserialize_reader<R: Read>(alloc: Global, reader: &mut R) -> Result<{it.type}> {{
        {body}
        Ok(({', '.join(it.values)}{',' if it.places == 1 else ''}))
    }}
{hook if it in SHORT else ""}}}
"""


DE_TUPLES = """// Tuples of one to twenty places: their parts in order.
use super::deserialize::BorshDeserialize;
use super::fixed::both_widths;
use borsh_io::{{Read, Result}};
use std::alloc::Global;
""" + "".join(map(de_tuple, TUPLES))


def six(types):
    """The chain of these types, in sixes."""
    return f"Six<{', '.join(types[:6])}, {six(types[6:])}>" if len(types) > 6 else nested(types, "()")


# So many facts are named before a shorter name stands for those that are left.
STEP = 8


def facts(place):
    """Where the facts of a place are found: of the first `STEP` in `h`, and then in `h1` and `h2`."""
    return f"h{place // STEP or ''}{'.1' * (place % STEP + (place < STEP))}"


def schema_tuple(it):
    """A tuple's schema is its places' names and definitions, and a member is a member of each place, one after another."""
    chain = nested(it.letters, "()")
    types = f"⟦<{chain} as FieldTypes>⟧.described"
    fields = f"(λ t. {nested(it.fields(), 'tt')})" if it in SHORT else "(λ t. t)"
    if it.places == 1:
        declaration = 'let a = A::declaration(alloc)?;\n        Ok(format!(in alloc; "({a},)")?)'
    else:
        declaration = f"tuple_declaration::<A, {six(it.letters[1:])}>(alloc)"
    add = f"add_tuple::<{six(it.letters)}>"
    if it not in SHORT:
        head = f"{', '.join(it.letters[:6])}, {six(it.letters[6:])}"
        declaration, add = f"long_tuple_declaration::<{head}>(alloc)", f"add_long_tuple::<{head}>"
    places = [f"{letter}.describes defs {facts(place)}.0" for place, letter in enumerate(it.letters)]
    if it not in SHORT:
        places[-1] = f"describes_contramap (λ t. t.0) ({places[-1]})"
    members = [f"(all_more ({place})" for place in places[:-1]] + [f"(all_one ({places[-1]}){')' * it.places}"]
    for place in range(STEP, it.places, STEP):
        members[place] = f"(let {facts(place).partition('.')[0]} = {facts(place - 1)}.1 in {members[place][1:]}"
    if it.places in (1, *range(3, CALLED + 1)):
        members = ["λ defs h.", f"describes_contramap (λ t. {nested(it.fields())})", "(describes_parts h.0", *members[:-1], members[-1] + ")"]
    else:
        members = ["λ defs h. describes_parts h.0", *members]
    return f"""
{it.bound("BorshSchema")}{member("name", ["tuple_name", f"{types}.names"])}
{member("parts", ["tuple_of", types])}
    ghost described = {{ struct_described
        {fields}
        {types} refl }};

    fn declaration(alloc: Global) -> SchemaResult<Declaration> {{
        {declaration}
    }}

    fn add_definitions_recursively(alloc: Global, map: &mut DefinitionMap) -> SchemaResult<()> {{
        {add}(alloc, Self::declaration(alloc)?, map)
    }}

{member("describes", members)}}}
"""


def schema_tuples(first, calls, tuples):
    """The file of these tuples' schemas, over these calls."""
    return f"""// {first}
ghost use Rattle.std.specs.Prelude.{{◌∷◌, [], refl}};
ghost use Rattle.borsh_definitions.specs.Described.{{both, none}};
ghost use Rattle.borsh_definitions.proofs.Laws.Members.{{describes_contramap, describes_parts, all_one, all_more}};
ghost use Rattle.borsh_definitions.specs.Names.{{tuple_name}};
ghost use Rattle.borsh_definitions.specs.Types.{{tuple_definitions}};
ghost use Rattle.borsh_definitions.proofs.Laws.Quoted.{{struct_described, tuple_of}};

use super::definitions::{{DefinitionMap, SchemaResult}};
use super::fields::FieldTypes;
use super::schema::BorshSchema;
use super::tuple_parts::{{{calls}}};
use borsh_walks::Declaration;
use std::alloc::Global;
""" + "".join(map(schema_tuple, tuples))


# ---- as keys


def ordered(it):
    """The order of a tuple's encodings: by the first place, and then by the others in turn."""
    if it.places == 1:
        return "contramap_ordered (λ t. t.0) A.ordered"
    if it.places == 2:
        return "pair_ordered A.ordered B.ordered"
    text = "first_part (λ t. t.0) A.ordered"
    for place in range(1, it.places - 1):
        text = f"next_part ({text}) (λ t. t.{place}) {it.letters[place]}.ordered"
    return f"last_part ({text}) (λ t. t.{it.places - 1}) {it.letters[-1]}.ordered"


def equal(it):
    """That two tuples are equal exactly if their places are."""
    if it.places <= 2:
        return "λ x y. A.key x.0 y.0" if it.places == 1 else "λ x y. and_key (A.key x.0 y.0) (B.key x.1 y.1)"
    words = ["(" + "next_key (" * (it.places - 2) + "first_key (A.key x.0 y.0))"]
    words += [f"({letter}.key x.{place} y.{place}))" for place, letter in enumerate(it.letters) if place > 0]
    words[-1] = words[-1][:-1]
    return f"λ x y. last_key\n        {filled(words, 8)}"


def keys_tuple(it):
    return f"""
{it.bound("BorshKey")}{member("ordered", ordered(it).split())}
    ghost key = {{ {equal(it)} }};
}}
"""


# ---- so many parts, one after another


def parts_head(it, verb, more_bounds, more_arguments, answer):
    """The head of `put_five` or `write_five`, with what they are given beside the parts."""
    arguments = [f"{value}: &{letter}" for value, letter in zip(it.values, it.letters)] + more_arguments
    return f"""
/// [`{verb}_two`] for {NUMBERS[it.places]} parts.
#[inline]
pub fn {verb}_{NUMBERS[it.places]}<{", ".join(it.bounds("BorshSerialize") + more_bounds)}>({", ".join(arguments)}) -> {answer}"""


def codecs(it):
    """The codec of the parts, a word for each."""
    return [f"(pair {letter}.codec" for letter in it.letters[:-1]] + [f"{it.letters[-1]}.codec" + ")" * (it.places - 1)]


def put_parts(it):
    """Puts the first part and then the others, by the call for one part fewer."""
    clause = ["Puts", *f"({' '.join(codecs(it))}.encoding".split(), nested([f"{value}.now" for value in it.values]) + ")"]
    clause += ["room.old", "room.new", "result"]
    return f"""{parts_head(it, "put", [], ["room: &mut [u8]"], "Option<usize>")}
    ensures {{ {filled(clause, len("    ensures { "))} }}
{{
    let first = a.put(room)?;
    let second = put_{NUMBERS[it.places - 1]}({", ".join(it.values[1:])}, &mut room[first..])?;
    Some(first + second)
}}
"""


def write_parts(it):
    """Writes the first part and then the others, by the call for one part fewer."""
    values = [f"{value}.now" for value in it.values]
    named = ""
    # The checker takes long over more than ten values, so those behind the sixth have a name.
    if it.places > 10:
        types = nested(it.letters[6:]).replace(", ", " × ")[1:-1]
        named = filled([f"let rest : {types} =", nested(values[6:]) + " in"], len("    ensures { ")) + "\n        "
        values[6:] = ["rest"]
    return f"""{parts_head(it, "write", ["W: Write"], ["alloc: Global", "writer: &mut W"], "Result<()>")}
    ensures {{ {named}Writes
        {filled(codecs(it), 8)}
        {nested(values)}
        W.writing writer.old writer.new result }}
{{
    a.serialize(alloc, writer)?;
    write_{NUMBERS[it.places - 1]}({", ".join(it.values[1:])}, alloc, writer)
}}
"""


def chain(it):
    """A tuple's types one after another, with others behind them."""
    generics, name = ", ".join(it.letters), f"Tuple{it.places}"
    return f"""
/// A tuple of {it.places} types.
pub type {name}<{generics}> = {it.type};

impl<{generics}, R> TupleTypes<R> for {name}<{generics}> {{
    type Chain = {nested(it.letters, "R")};
}}
"""


# ---- proofs


def put_proof(it):
    own, fewer = NUMBERS[it.places], NUMBERS[it.places - 1]
    return f"""use Rattle.borsh_codec.proofs.PutSteps.{{puts_then}}
use Rattle.borsh_ser.proofs.puts.put_{own}.Goals as goal

pub returns : goal.returns
returns g c = puts_then c.in_ok-first.first c.in_ok-second.second _ c.args.room.now c.put.new._room c.put_{fewer}.new.room c.in_ok-first.ensures c.in_ok-second.ensures
"""


def write_proof(it):
    fewer = "serialize-2" if it.places == 2 else f"write_{NUMBERS[it.places - 1]}"
    return f"""use Rattle.borsh_codec.proofs.WriteOutcomes.{{writes_exit_first, writes_then}}
use Rattle.borsh_ser.proofs.parts.write_{NUMBERS[it.places]}.Goals as goal

pub returns-in_err-serialize : goal.returns-in_err-serialize
returns-in_err-serialize g c = writes_exit_first g.met.W.Write.lawful _ _ _ c.from_residual.ensures.1 c.in_err-serialize.ensures

pub returns : goal.returns
returns g c = writes_then g.met.W.Write.lawful _ c.in_ok-serialize.ensures c.{fewer}.ensures
"""


def ser_proof(it):
    """Of each place that is written by itself what follows if it wasn't, behind those that were; and of the twelve behind them."""
    calls = ["serialize"] + [f"serialize-{place}" for place in range(2, it.places - CALLED + 1)]

    def behind(place, last):
        for letter, call in reversed(list(zip(it.letters, calls))[:place]):
            last = f"writes_then g.met.W.Write.lawful g.{letter}.BorshType.codec.encoding_allocates c.in_ok-{call}.ensures ({last})"
        return last

    exits = ""
    for place, call in enumerate(calls):
        residual = f"from_residual-in_err-{call}" if place else "from_residual"
        exit = f"writes_exit_first g.met.W.Write.lawful _ _ _ c.{residual}.ensures.1 c.in_err-{call}.ensures"
        exits += f"\npub returns-in_err-{call} : goal.returns-in_err-{call}\nreturns-in_err-{call} g c = {behind(place, exit)}\n"
    return f"""use Rattle.borsh_codec.proofs.WriteOutcomes.{{writes_exit_first, writes_then}}
use Rattle.borsh_ser.proofs.tuples.Tuple{it.places}BorshSerialize.serialize.Goals as goal
{exits}
pub returns : goal.returns
returns g c = {behind(len(calls), f"c.write_{NUMBERS[CALLED]}.ensures")}
"""


def as_pair(it):
    """The function from a tuple to its first place beside the others."""
    return f"(λ t. (t.0, ({', '.join(it.fields()[1:])})))"


def de_flat_proof(it):
    """Of each place what follows if it wasn't read, behind those that were."""
    view = f"(λ t. {nested(it.fields())})"
    codecs = [f"g.{letter}.BorshType.codec" for letter in it.letters]

    def behind(place):
        return "".join(
            f"    (decodes_pair_second _ g.met.{letter}.BorshType.lawful c.in_ok-{value}.ensures refl\n"
            for letter, value in zip(it.letters[:place], it.values)
        )

    exits = ""
    for place, value in enumerate(it.values):
        residual = f"from_residual-in_err-{value}" if place else "from_residual"
        others = codecs[-1]
        for codec in reversed(codecs[place + 1:-1]):
            others = f"(pair {codec} {others})"
        if place + 1 < it.places:
            last = f"{behind(place)}    (decodes_pair_first {others} _ refl c.in_err-{value}.ensures)"
        else:
            last = f"{behind(place)[:-1]} c.in_err-{value}.ensures"
        exits += f"""
pub returns-in_err-{value} : goal.returns-in_err-{value}
returns-in_err-{value} g c = decodes_exit_contramap {view} _ c.{residual}.ensures.1
{last}{")" * place}
"""
    read = f"c.in_ok-{it.values[-1]}.ensures"
    for value in reversed(it.values[:-1]):
        read = f"(decodes_pair c.in_ok-{value}.ensures {read})"
    lemmas = "decodes_exit_contramap, decodes_made, decodes_pair, decodes_pair_first, decodes_pair_second"
    return f"""use Rattle.std.proofs.Common.{{refl}}
use Rattle.borsh_codec.specs.Shapes.{{pair}}
use Rattle.borsh_codec.proofs.DecodeOutcomes.{{{lemmas}}}
use Rattle.borsh_de.proofs.tuples.Tuple{it.places}BorshDeserialize.deserialize_reader.Goals as goal
{exits}
pub returns : goal.returns
returns g c = decodes_made {view} refl
    {read}
"""


def de_proof(it):
    if it.places <= FLAT:
        return de_flat_proof(it)
    fields = it.fields() if it in SHORT else ["t" + ".1" * place + ".0" for place in range(it.places)]
    others = f"({', '.join(fields[3:])})" if it.places - 3 <= CALLED else "t.1.1.1"
    return f"""use Rattle.borsh_codec.proofs.DecodeOutcomes.{{decodes_exit_contramap}}
use Rattle.borsh_de.proofs.tuples.Tuple{it.places}BorshDeserialize.deserialize_reader.Goals as goal

pub returns-in_err-a : goal.returns-in_err-a
returns-in_err-a g c = decodes_exit_contramap (λ t. ({', '.join(fields[:3])}, {others})) _ c.from_residual.ensures.1 c.in_err-a.ensures
"""


def width_proof(it):
    others = ", ".join(it.fields("a.1")[:-1])
    return f"""use Rattle.std.proofs.Common.{{refl}}
use Rattle.borsh_de.proofs.FixedWidth.{{contramap_fixed}}
use Rattle.borsh_de.proofs.tuples.Tuple{it.places}BorshDeserialize.width.Goals as goal

pub returns : goal.returns
returns g c h = contramap_fixed {as_pair(it)} (λ a x p. ((a.0, {others}), refl)) (c.width.ensures h)
"""


# ---- what is written


CALLS = SHORT[2:]
FILES = {
    "borsh_types/src/tuples.rt": TYPES_TUPLES,
    "borsh_ser/src/tuples.rt": SER_TUPLES,
    "borsh_de/src/tuples.rt": DE_TUPLES,
    "borsh_schema/src/tuples.rt": schema_tuples(
        "Tuples of one to twelve places: their parts in order.", "Six, add_tuple, tuple_declaration", SHORT
    ),
    "borsh_schema/src/long_tuples.rt": schema_tuples(
        "Tuples of thirteen to twenty places: their parts in order.", "Six, add_long_tuple, long_tuple_declaration", TUPLES[CALLED:]
    ),
    **{f"borsh_ser/proofs/puts/put_{NUMBERS[it.places]}/Answers.antt": put_proof(it) for it in CALLS},
    **{f"borsh_ser/proofs/parts/write_{NUMBERS[it.places]}/Answers.antt": write_proof(it) for it in SHORT[1:]},
    **{f"borsh_ser/proofs/tuples/Tuple{it.places}BorshSerialize/serialize/Answers.antt": ser_proof(it) for it in TUPLES[CALLED:]},
    **{f"borsh_de/proofs/tuples/Tuple{it.places}BorshDeserialize/deserialize_reader/Answers.antt": de_proof(it) for it in TUPLES[2:]},
    **{f"borsh_de/proofs/tuples/Tuple{it.places}BorshDeserialize/width/Answers.antt": width_proof(it) for it in CALLS},
}

PARTS = {
    "borsh_types/src/keys.rt": [
        Part("impl<A: BorshKey> BorshKey for (A,) {", "impl<T: BorshKey, const N: usize> BorshKey for [T; N] {", "".join(map(keys_tuple, SHORT)))
    ],
    "borsh_ser/src/puts.rt": [Part("/// [`put_two`] for three parts.", None, "".join(map(put_parts, CALLS)))],
    "borsh_ser/src/parts.rt": [
        Part(
            "/// [`write_two`] for three parts.",
            "/// Writes a tag, one byte, and a part: a variant with one field.",
            "".join(map(write_parts, CALLS)),
        )
    ],
    "borsh/src/derived.rt": [Part("/// A tuple of 2 types.", None, "".join(map(chain, SHORT[1:])))],
}
