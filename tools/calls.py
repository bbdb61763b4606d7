#!/usr/bin/env python3
"""Writes what the bindings say of each call of the library for C: its declarations, its words, and how it is called.

    tools/calls.py           writes it
    tools/calls.py --check   says which files aren't what it would write, and which function of crates/borsh_c has other arguments

A new call is a row of `CALLS`, its function `borsh_c_NAME` in crates/borsh_c, and its tests: rows in crates/borsh_c/src/tests.rt,
and a row of `SAMPLES`. Each part that is written stands in its file between two comments that name this script.
"""
import pathlib
import re
import sys
import textwrap

TOP = pathlib.Path(__file__).resolve().parent.parent
WIDTH = 126


# ---- what the codes mean


class Code:
    """A code that calls return: its name, its number, its name in JavaScript, and what it means for C."""

    def __init__(self, name, number, kind, says):
        self.name, self.number, self.kind, self.says = name, number, kind, says


CODES = [
    Code("YES", 0, "yes", "Yes; the buffer has what was asked for."),
    Code(
        "NO",
        1,
        "no",
        """No: the container breaks a rule or has no size, the bytes are no value, the JSON says none, the type has no container, or the new
schema hasn't all values of the old one.""",
    ),
    Code("MALFORMED", 2, "malformed", "The bytes of the schema aren't the encoding of a container."),
    Code("OUT_OF_MEMORY", 3, "out of memory", "An allocation failed."),
    # Which no proved function returns.
    Code("NULL", 4, "null", "A pointer is null: that of an input whose length isn't 0, or that of a result."),
    Code(
        "UNDECIDED",
        5,
        "undecided",
        """The container allows two values for the same bytes, or breaks a rule of widths, so it has no answer; of `borsh_compare`: neither
answer was found.""",
    ),
    Code("SHORT", 6, "short", "The bytes end within a value, of which more bytes may make one: of `borsh_records` alone."),
]


# ---- what a call is given


def camel(name):
    first, *rest = name.split("_")
    return first + "".join(map(str.capitalize, rest))


class Bytes:
    """Bytes that are read."""

    def __init__(self, name):
        self.name = name
        self.declared = f"const uint8_t *{name}, size_t {name}_length"
        self.rattle = f"{name}: &[u8]"
        self.rust = f"{name}: &[u8]"
        self.rust_c = [f"{name}: *const u8", f"{name}_length: usize"]
        self.rust_given = [f"{name}.as_ptr()", f"{name}.len()"]
        self.js = self.js_given = camel(name)
        self.js_tested = f"it.{self.js}"
        python = "data" if name == "bytes" else name
        self.python, self.python_given, self.python_type = f"{python}: bytes", f"{python}, len({python})", "_BYTES"
        self.short = [name, "length" if name == "schema" else f"{name}_length"]


class Flag:
    """Yes or no."""

    def __init__(self, name):
        self.name = name
        self.declared = f"bool {name}"
        self.rattle = self.rust = f"{name}: bool"
        self.rust_c, self.rust_given = [self.rust], [name]
        self.js, self.js_given, self.js_tested = camel(name), f"Number({camel(name)})", "random(2) === 1"
        self.python, self.python_given, self.python_type = self.rust, name, "[ctypes.c_bool]"
        self.short = [name]


class Numbers:
    """Numbers that are read."""

    def __init__(self, name):
        self.name = name
        self.declared = f"const size_t *{name}, size_t {name}_count"
        self.rattle = self.rust = f"{name}: &[usize]"
        self.rust_c = [f"{name}: *const usize", f"{name}_count: usize"]
        self.rust_given = [f"{name}.as_ptr()", f"{name}.len()"]
        self.js = self.js_given = camel(name)
        self.js_tested = f"it.{self.js}"
        self.python, self.python_given = f"{name}: ctypes.Array[ctypes.c_size_t]", f"{name}, len({name})"
        self.python_type = "_NUMBERS"
        self.short = [name, f"{name}_count"]


class Room:
    """Room for numbers that the call writes, of which a `Count` says how many they are."""

    def __init__(self, name):
        self.name = name
        self.declared = f"size_t *{name}, size_t {name}_room"
        self.rattle = self.rust = f"{name}: &mut [usize]"
        self.rust_c = [f"{name}: *mut usize", f"{name}_room: usize"]
        self.rust_given = [f"{name}.as_mut_ptr()", f"{name}.len()"]
        self.js, self.js_given, self.js_tested = camel(f"{name}_room"), f"new Room({camel(f'{name}_room')})", "MOST_VALUES"
        self.python, self.python_given = f"{name}: ctypes.Array[ctypes.c_size_t]", f"{name}, len({name})"
        self.python_type = "_NUMBERS"
        self.short = [name, f"{name}_room"]


class Number:
    """A number that the call writes after BORSH_YES; after any other code it is unchanged."""

    is_count = False

    def __init__(self, name):
        self.name = name
        self.declared = f"size_t *{name}"
        self.rattle = f"{name}: &mut usize"
        self.rust, self.rust_c, self.rust_given = None, [f"{name}: *mut usize"], ["&mut number"]
        self.js, self.js_given = None, "RESULT"
        self.python, self.python_given, self.python_type = None, "ctypes.byref(number)", "_NUMBER"
        self.short = [f"&{name}"]


class Count(Number):
    """A number that is 0 after any other code than BORSH_YES."""

    is_count = True


class Call:
    """A call: its name; what it is given, after the schema if it has one; what it gives, which is `json`, `lines` or the like, or
    nothing; whether that is a text or bytes; whether a refusal has a place; of which argument the answer's length depends; what it
    says to C; and what is so after BORSH_YES, and in its text after BORSH_NO, if it returns that."""

    def __init__(
        self, name, *arguments, has_schema=True, gives=None, is_text=True, has_place=True, long_of=None, says, yes, no=None
    ):
        self.name = name
        self.arguments = [Bytes("schema"), *arguments] if has_schema else list(arguments)
        self.gives, self.is_text, self.has_place, self.long_of = gives, is_text, has_place, long_of
        self.says, self.yes, self.no = says, yes, no
        self.out = gives or "text"
        self.number = next((it for it in self.arguments if isinstance(it, Number)), None)

    def of(self, *kinds):
        return [it for it in self.arguments if isinstance(it, kinds)]


CALLS = [
    Call(
        "valid",
        has_place=False,
        says="Whether the container keeps the rules of schemas. After BORSH_NO the text is `invalid`, the rule and a name.",
        yes="the container keeps the rules",
        no="`invalid`, the rule and a name that breaks it",
    ),
    Call(
        "size",
        Number("size"),
        has_place=False,
        says="""The greatest size of the container's root, in `*size`, which otherwise is unchanged; no encoding is longer.
After BORSH_NO the text is `overflow`, `recursive`, or `missing` and a name.""",
        yes="the greatest size of the root in bytes is in `size`",
        no="`overflow`, `recursive`, or `missing` and a name",
    ),
    Call(
        "names",
        gives="json",
        has_place=False,
        long_of="schema",
        says="""How the values of each name that the root leads to are written as JSON: a JSON object in UTF-8, with a member for each,
that of the root first. It is a word: `empty` (no bytes, `null`), `bool`, `number`, `signed number`, `float`, `bytes` (another primitive),
`text`, `byte list`, `list`, `map` (an object), `row` (an array of so many), `newtype` (what its part is), `object`, `option` (`null`, or
its value), `enum`, or `refused`, of which JSON says no value. `sorted byte list` and `sorted list` are sets and maps, if an order of
their keys is told, but for parts of these. BORSH_NO isn't returned.""",
        yes="a JSON object: how the values of each name are written",
    ),
    Call(
        "member",
        Bytes("value"),
        says="""Whether all of the bytes are a value of the root. After BORSH_NO the text says where they stop being one, and
why; so do `path` and `offset`.""",
        yes="the bytes are a member of the root",
        no="where they stop being one, and why",
    ),
    Call(
        "to_json",
        Bytes("value"),
        Flag("is_compact"),
        Flag("has_quoted_numbers"),
        gives="json",
        long_of="value",
        says="""The value that all of the bytes are as JSON, in UTF-8: on one line if `is_compact`, and with numbers of 64
bits as strings if `has_quoted_numbers`.""",
        yes="JSON of the value",
        no="why it has none",
    ),
    Call(
        "from_json",
        Bytes("json"),
        gives="value",
        is_text=False,
        long_of="json",
        says="The bytes of the value that JSON says, which is UTF-8.",
        yes="the bytes of the value",
        no="why the JSON describes none",
    ),
    Call(
        "records",
        Bytes("bytes"),
        Room("lengths"),
        Count("count"),
        says="""Values one after another, as in a file: how long each of them is that the bytes begin with. This call and the
next one decode the schema once, so that many values cost little more than their bytes.

The lengths of as many values as are whole are written to `lengths`, at most `lengths_room` of them, and how
many those are to `*count`. Each has at least one byte, and no other bytes could be that value, whatever
follows. After BORSH_YES there are some, unless there are no bytes or no room for a length; what is behind
them is for another call, which says what is wrong with it. After any other code `*count` is 0, and
- BORSH_SHORT says that the bytes end within the first value: read on, and call again;
- BORSH_NO says that they begin with no value, whatever bytes follow, or that a value may be empty, so that
they may be any number of values.""",
        yes="how long each of the values is that the bytes begin with, one after another",
        no="why none begins there",
    ),
    Call(
        "json_lines",
        Bytes("values"),
        Numbers("lengths"),
        Flag("has_quoted_numbers"),
        Count("count"),
        gives="lines",
        long_of="values",
        says="""The JSON of each of the values that have these lengths and lie one after another at `values`, as of
`borsh_to_json` on one line, and a line end behind each. It stops before a value that has no JSON: `*count` is
how many have a line. After BORSH_NO and BORSH_UNDECIDED the first has none, and `*count` is 0. A length that
reaches beyond the bytes is cut.""",
        yes="a line of JSON for each value, up to one that has none",
        no="why the first has none",
    ),
    Call(
        "compile",
        Bytes("text"),
        Bytes("type_text"),
        has_schema=False,
        gives="container",
        is_text=False,
        long_of="text",
        says="""The encoded container of a type, which `type_text` names in Rust's words, as `Vec<Account>`. `text` has the items that
it may name: Rust source text, an Anchor IDL, or a schema object of borsh-js, whose own type is named `Schema`; it may be empty. Both are
UTF-8. After BORSH_NO the text says what is wrong, as the tool does, behind `text` or `type`, which `path` is; `offset` is the byte of
that input, where it is known. The container keeps the rules of schemas.""",
        yes="the encoded container of the type",
        no="why there is none",
    ),
    Call(
        "compare",
        Bytes("old_schema"),
        Bytes("new_schema"),
        has_schema=False,
        gives="text",
        has_place=False,
        says="""Whether each value of the old schema is a value of the new one, by the definitions alone. The text is what the tool
prints: a line with `the same`, `compatible`, `incompatible` or `not known`, and what changed. BORSH_YES says that each is, BORSH_NO that
one is not, whose bytes the text has, and BORSH_UNDECIDED that neither was found. After BORSH_MALFORMED the text begins with `old` or
`new`.""",
        yes="`the same` or `compatible`, and what changed",
        no="`incompatible`, what changed, and bytes that show it",
    ),
]

# Of each call, arguments by which C tests that every request for memory may be refused, and the code that is wanted. The names
# are those of refused.c.
SAMPLES = [
    ("valid", "schema", 0),
    ("valid", "value", 2),
    ("size", "schema &size", 0),
    ("names", "schema", 0),
    ("member", "schema value", 0),
    ("member", "schema cut", 1),
    ("to_json", "schema value false false", 0),
    ("from_json", "schema json", 0),
    ("records", "schema values found &size", 0),
    ("records", "schema cut found &size", 6),
    ("json_lines", "schema values lengths false &size", 0),
    ("compile", "source type", 0),
    ("compile", "source unknown", 1),
    ("compile", "source cut", 1),
    ("compare", "schema schema", 0),
    ("compare", "schema other", 1),
    ("compare", "schema value", 2),
]


# ---- layout


def comment(text, width=WIDTH):
    """A C comment."""
    lines = []
    for part in re.split(r"\n(?=- )|\n\n", text):
        if lines and not part.startswith("- "):
            lines.append("")
        hanging = "  " if part.startswith("- ") else ""
        lines += textwrap.wrap(" ".join(part.split()), width, subsequent_indent=hanging, break_on_hyphens=False)
    return "/* " + "\n".join(f" * {line}".rstrip() for line in lines)[3:] + " */\n"


def filled(head, items, tail, width=WIDTH):
    """`head(items)tail` on lines of at most so many columns, broken after commas, below the first item."""
    indent = " " * (len(head.split("\n")[-1]) + 1)
    lines = [f"{head}("]
    for place, item in enumerate(items):
        item += "," if place < len(items) - 1 else tail
        if len(lines[-1]) + len(item) + 1 > width and lines[-1].strip() != f"{head}(".strip():
            lines.append(indent + item)
        else:
            lines[-1] += item if lines[-1].endswith("(") else f" {item}"
    return "\n".join(lines)


def split(head, items, tail, indent="", width=100, items_width=100):
    """The same as the formatter of Rust lays it out: all on one line, or an item a line."""
    inner = ", ".join(items)
    line = f"{indent}{head}({inner}){tail}"
    if len(line) <= width and len(inner) <= items_width:
        return line
    return "\n".join([f"{indent}{head}(", *(f"{indent}    {item}," for item in items), f"{indent}){tail}"])


# ---- the parts that are written


def h_codes():
    parts = [f"{comment(code.says, WIDTH - 4)}BORSH_{code.name} = {code.number},\n" for code in CODES]
    parts = [textwrap.indent(part, "    ") for part in parts]
    return "enum borsh_code {\n" + "".join(parts) + "};\n"


def declaration(call, prefix, out):
    return filled(f"uint32_t {prefix}{call.name}", [*(it.declared for it in call.arguments), *out], ")")


def public(call):
    return declaration(call, "borsh_", [f"struct borsh_buffer *{call.out}"])


def h_calls():
    return "\n".join(comment(call.says) + public(call) + ";\n" for call in CALLS)


def map_calls():
    return "".join(f"        borsh_{name};\n" for name in ["free", *(call.name for call in CALLS)])


def c_functions():
    out = ["uint8_t *room, size_t room_length, size_t *needed"]
    return "".join(
        declaration(call, "borsh_c_", ["struct place *place", *out] if call.has_place else out) + ";\n" for call in CALLS
    )


def c_given(call):
    """A call's arguments, out of a question."""
    given, counts = [], {Bytes: 0, Flag: 0}
    for it in call.arguments:
        place = counts.get(type(it), 0)
        if isinstance(it, Bytes):
            given += [f"q->bytes[{place}].start", f"q->bytes[{place}].length"]
        elif isinstance(it, Flag):
            given.append(f"q->flags[{place}]")
        elif isinstance(it, (Room, Numbers)):
            given += ["q->numbers", "q->numbers_count"]
        else:
            given.append("&q->number")
        counts[type(it)] = place + 1
    return [*given, *(["place"] if call.has_place else []), "room", "room_length", "needed"]


def c_call(call):
    fields = [f".call = call_{call.name}"]
    bytes_given = call.of(Bytes)
    fields.append(".bytes = {" + ", ".join(f"{{{it.name}, {it.name}_length}}" for it in bytes_given) + "}")
    for it in call.of(Numbers, Room):
        # A call reads those of `Numbers`.
        cast = "(size_t *)" if isinstance(it, Numbers) else ""
        count = "room" if isinstance(it, Room) else "count"
        fields += [f".numbers = {cast}{it.name}", f".numbers_count = {it.name}_{count}"]
    if call.of(Flag):
        fields.append(".flags = {" + ", ".join(it.name for it in call.of(Flag)) + "}")
    if call.long_of:
        fields.append(f".long_of = {1 + [it.name for it in bytes_given].index(call.long_of)}")
    one_line = "    struct question q = {" + ", ".join(fields) + "};\n"
    broken = "    struct question q = {\n" + "".join(f"        {field},\n" for field in fields) + "    };\n"
    asked = f"ask(&q, {call.out})"
    if call.number:
        asked = f"ask_number(&q, {call.number.name}, {str(call.number.is_count).lower()}, {call.out})"
    given = filled(f"    return borsh_c_{call.name}", c_given(call), ");\n")
    unused = "" if call.has_place else "    (void)place;\n"
    return (
        f"static uint32_t call_{call.name}(ASKED) {{\n{unused}{given}}}\n\n"
        + public(call)
        + " {\n"
        + (one_line if len(one_line) <= WIDTH + 1 else broken)
        + f"    return {asked};\n}}\n"
    )


def c_calls():
    most = [max(len(call.of(kind)) for call in CALLS) for kind in (Bytes, Flag)]
    if any(len(call.of(Room, Numbers)) > 1 or len(call.of(Number)) > 1 for call in CALLS):
        sys.exit("tools/calls.py: a call has at most one list of numbers and one number")
    head = f"enum {{ MOST_BYTES = {most[0]}, MOST_FLAGS = {most[1]} }};\n"
    return {"most": head, "calls": "\n".join(map(c_call, CALLS))}


def c_null():
    """Each pointer to an input of a call is null, and then each to a result."""
    checks = []
    for call in CALLS:
        for null in [*call.of(Bytes, Numbers, Room, Number), None]:
            given = []
            for it in call.arguments:
                if isinstance(it, Bytes):
                    given += ["NULL", "1"] if it is null else ["byte", "n"]
                elif isinstance(it, (Numbers, Room)):
                    given += ["NULL" if it is null else "lengths", "2"]
                elif isinstance(it, Number):
                    given.append("NULL" if it is null else "&number")
                else:
                    given.append("false")
            name = f'"borsh_{call.name}, {null.name if null else call.out}"'
            if null:
                checks.append(f"    refuses({name}, borsh_{call.name}({', '.join(given)}, &text), &text);\n")
            else:
                checks.append(f"    refuses({name}, borsh_{call.name}({', '.join(given)}, NULL), NULL);\n")
    return "".join(checks)


def c_samples():
    """The calls with their samples, and what is wanted of each."""
    wanted, calls = [], []
    for place, (name, words, code) in enumerate(SAMPLES):
        call = next(it for it in CALLS if it.name == name)
        given = []
        for it, word in zip(call.arguments, words.split()):
            given.append(word)
            if isinstance(it, (Bytes, Numbers, Room)):
                given.append(f"{'LENGTH' if isinstance(it, Bytes) else 'COUNT'}({word})")
        may_be_fewer = call.number is not None and call.number.is_count and call.gives is not None
        wanted.append(f'    {{"borsh_{name}", {code}, {str(may_be_fewer).lower()}}},\n')
        calls.append(f"    case {place}:\n        return borsh_{name}({', '.join(given)}, out);\n")
    return {"samples": "".join(wanted), "calls": "".join(calls)}


def c_native():
    """Arguments are words of a line, behind the call's name: digits of bytes, numbers with commas, room for so many, 0 or 1."""
    calls = []
    for call in CALLS:
        lines, given = [], []
        for it in call.arguments:
            if isinstance(it, Bytes):
                lines.append(f"struct bytes {it.name} = bytes_in();")
                given += [f"{it.name}.start", f"{it.name}.length"]
            elif isinstance(it, Flag):
                lines.append(f"bool {it.name} = number_in() == 1;")
                given.append(it.name)
            elif isinstance(it, (Numbers, Room)):
                lines.append(f"size_t {it.name} = {'numbers_in' if isinstance(it, Numbers) else 'number_in'}();")
                given += ["numbers", it.name]
            else:
                given.append("number")
        lines.append(f"return borsh_{call.name}({', '.join(given)}, out);")
        body = "".join(f"        {line}\n" for line in lines)
        calls.append(f'    if (strcmp(call, "{call.name}") == 0) {{\n{body}    }}\n')
    return "".join(calls)


def rust_declarations():
    lines = []
    for call in CALLS:
        given = [*(name for it in call.arguments for name in it.rust_c), f"{call.out}: *mut Buffer"]
        lines.append(split(f"fn borsh_{call.name}", given, " -> u32;", "    ") + "\n")
    return "".join(lines)


def rust_call(call):
    given = [*(name for it in call.arguments for name in it.rust_given), "out"]
    before = "    let mut number = 0;\n    let answer = " if call.number else "    "
    after = ";\n    (number, answer)\n" if call.number else "\n"
    asked = f"{before}call(|out| unsafe {{ borsh_{call.name}({', '.join(given)}) }}){after}"
    if max(map(len, asked.split("\n"))) > 100:
        inner = split(f"borsh_{call.name}", given, "", "        ", items_width=60)
        asked = f"{before}call(|out| unsafe {{\n{inner}\n    }}){after}"
    parameters = [it.rust for it in call.arguments if it.rust]
    answer = "(usize, Answer)" if call.number else "Answer"
    return split(f"pub fn {call.name}", parameters, f" -> {answer} {{") + f"\n{asked}}}\n"


def js_calls():
    methods = []
    for call in CALLS:
        parameters = ", ".join(it.js for it in call.arguments if it.js)
        given = ", ".join([*(it.js_given for it in call.arguments), *(["PLACE"] if call.has_place else [])])
        room = f"roomFor({camel(call.long_of)})" if call.long_of else "256"
        asked = f'this.#call("borsh_c_{call.name}", [{given}], {room})'
        methods.append(f"  {camel(call.name)}({parameters}) {{\n    return {asked};\n  }}\n")
    return "\n".join(methods)


def js_codes():
    return "const KINDS = [" + ", ".join(f'"{code.kind}"' for code in CODES) + "];\n"


def js_tests():
    rows = []
    for call in CALLS:
        given = ", ".join(it.js_tested for it in call.arguments if it.js)
        rows.append(f'  ["{camel(call.name)}", {"true" if call.no else "false"}, (it) => [{given}]],\n')
    return "".join(rows)


def python_types():
    rows = []
    for call in CALLS:
        rows.append(f'    "{call.name}": {" + ".join([*(it.python_type for it in call.arguments), "_OUT"])},\n')
    return "_ARGUMENTS = {\n" + "".join(rows) + "}\n"


def python_calls():
    functions = []
    for call in CALLS:
        parameters = ", ".join(it.python for it in call.arguments if it.python)
        given = ", ".join([f'"{call.name}"', *(it.python_given for it in call.arguments)])
        kind, what = {None: (None, ""), "text": ("str", ".decode()"), "bytes": ("bytes", "")}[
            None if not call.gives else "text" if call.is_text else "bytes"
        ]
        answer = f"Tuple[int, {kind}]" if call.number and kind else "int" if call.number else kind
        body = "    number = ctypes.c_size_t()\n" if call.number else ""
        if call.number and kind:
            body += f"    given = _ask({given})\n    return number.value, given{what}\n"
        elif call.number:
            body += f"    _ask({given})\n    return number.value\n"
        else:
            body += f"    {'return ' if kind else ''}_ask({given}){what}\n"
        functions.append(f"def {call.name}({parameters}) -> {answer}:\n{body}")
    return "\n\n".join(functions)


def rattle_codes():
    parts = []
    for code in CODES:
        if code.name == "NULL":
            parts.append("// 4 is for a null pointer: `bindings/c/borsh.c` returns it, and no call of this library.\n\n")
            continue
        says = "\n".join(textwrap.wrap(code.says, WIDTH, initial_indent="/// ", subsequent_indent="/// "))
        parts.append(f"{says}\npub const {code.name}: u32 = {code.number};\n")
    return "".join(parts)


def readme_calls():
    head = "| Call | After `BORSH_YES` | After `BORSH_NO` |\n|---|---|---|\n"
    rows = []
    for call in CALLS:
        given = ", ".join([*(name for it in call.arguments for name in it.short), f"&{call.out}"])
        rows.append(f"| `borsh_{call.name}({given})` | {call.yes} | {call.no or 'not returned'} |\n")
    return head + "".join(rows)


# Each part, by its file and its name there.
PARTS = {
    "bindings/c/borsh.h": {"codes": h_codes(), "calls": h_calls()},
    "bindings/c/borsh.map": {"calls": map_calls()},
    "bindings/c/borsh.c": {"functions": c_functions(), **c_calls()},
    "bindings/c/null.c": {"calls": c_null()},
    "bindings/c/refused.c": c_samples(),
    "bindings/c/README.md": {"calls": readme_calls()},
    "bindings/rust/src/sys.rs": {"declarations": rust_declarations(), "calls": "\n".join(map(rust_call, CALLS))},
    "bindings/js/tests/native.c": {"calls": c_native()},
    "bindings/js/calls.js": {"codes": js_codes(), "calls": js_calls()},
    "bindings/js/tests/compare.test.js": {"calls": js_tests()},
    "bindings/python/src/borsh_proved/_library.py": {"arguments": python_types(), "calls": python_calls()},
    "crates/borsh_c/src/codes.rt": {"codes": rattle_codes()},
}


def written(file, parts):
    """The file's text with these parts in place of those that it has."""
    text = (TOP / file).read_text(encoding="utf-8")
    for name, part in parts.items():
        found = re.compile(rf"^([^\n]*tools/calls\.py writes: {name}\b[^\n]*\n)(.*?)^([^\n]*tools/calls\.py: end)", re.M | re.S)
        if len(found.findall(text)) != 1:
            sys.exit(f"{file} has no one place for the part {name}")
        text = found.sub(lambda it, part=part: it[1] + part + it[3], text)
    return text


def arguments_of(call, source):
    """The arguments that the Rattle function has."""
    found = re.search(rf'^pub extern "C" fn borsh_c_{call.name}\((.*?)\) -> u32$', source, re.M | re.S)
    return [it.strip() for it in found[1].split(",") if it.strip()] if found else []


def other_functions():
    source = (TOP / "crates/borsh_c/src/lib.rt").read_text(encoding="utf-8")
    for call in CALLS:
        wanted = ["alloc: Global", *(it.rattle for it in call.arguments), *(["place: &mut Place"] if call.has_place else [])]
        wanted += ["room: &mut [u8]", "needed: &mut usize"]
        if arguments_of(call, source) != wanted:
            yield f"crates/borsh_c/src/lib.rt: borsh_c_{call.name} hasn't the arguments ({', '.join(wanted)})"
    known = {call.name for call in CALLS}
    for name in re.findall(r"fn borsh_c_(\w+)\(", source):
        if name not in known:
            yield f"crates/borsh_c/src/lib.rt: borsh_c_{name} isn't in the table of tools/calls.py"


def main():
    is_check = sys.argv[1:] == ["--check"]
    if sys.argv[1:] and not is_check:
        sys.exit(__doc__)
    faults = list(other_functions())
    others = 0
    for file, parts in PARTS.items():
        text = written(file, parts)
        if text != (TOP / file).read_text(encoding="utf-8"):
            others += 1
            faults.append(f"{file} isn't what tools/calls.py writes")
            if not is_check:
                (TOP / file).write_text(text, encoding="utf-8")
                faults.pop()
    if faults:
        sys.exit("\n".join(faults))
    print(f"tools/calls.py: {len(CALLS)} calls in {len(PARTS)} files, {others} written")


main()
