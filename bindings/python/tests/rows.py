"""The rows of crates/test_values/data: what crates/test_values/src says of their columns."""

import pathlib
import re

from borsh_proved import Schema

DATA = pathlib.Path(__file__).resolve().parents[3] / "crates/test_values/data"
SCHEMAS = pathlib.Path(__file__).resolve().parent.parent / "src/borsh_proved/schemas.borsh"


def definition_of(kind, columns):
    """The definition of a row, as JSON has it; none if the row is none."""
    if kind == "primitive":
        return {"Primitive": int(columns[0])}
    if kind == "sequence":
        start, _, end = columns[1].partition("..")
        return {"Sequence": {"length_width": int(columns[0]), "length_range": {"start": int(start), "end": int(end)}, "elements": columns[2]}}
    if kind == "tuple":
        return {"Tuple": {"elements": columns}}
    if kind in ("unit", "unnamed", "struct"):
        fields = {"unit": "Empty", "unnamed": {"UnnamedFields": columns}, "struct": {"NamedFields": groups(columns, 2)}}
        return {"Struct": {"fields": fields[kind]}}
    if kind == "enum":
        variants = [[int(tag), name, part] for tag, name, part in groups(columns[1:], 3)]
        return {"Enum": {"tag_width": int(columns[0]), "variants": variants}}
    if kind == "many":
        width, first, step, count = map(int, columns[:4])
        parts = columns[4:]
        variants = [[first + i * step, f"v{i}", parts[i % len(parts)]] for i in range(count)]
        return {"Enum": {"tag_width": width, "variants": variants}}
    return None


def groups(columns, size):
    return [columns[at : at + size] for at in range(0, len(columns), size)]


def parts_of(definition):
    """The names that a definition refers to."""
    ((kind, has),) = definition.items()
    if kind == "Sequence":
        return [has["elements"]]
    if kind == "Tuple":
        return has["elements"]
    if kind == "Enum":
        return {variant[2] for variant in has["variants"]}
    if kind == "Struct" and isinstance(has["fields"], dict):
        ((kind, fields),) = has["fields"].items()
        return [field[1] for field in fields] if kind == "NamedFields" else fields
    return []


def schema_of(root, definitions):
    """The schema with the definitions that the root reaches."""
    reached, names = {}, [root]
    while names:
        name = names.pop()
        if name in definitions and name not in reached:
            reached[name] = definitions[name]
            names += parts_of(definitions[name])
    return Schema.of(root, reached)


def bytes_of(column):
    if column == "-":
        return b""
    found = b""
    for piece in column.split("+"):
        numbers = re.fullmatch(r"(\d+)\.\.(\d+)/(\d+)", piece)
        if numbers:
            first, end, width = map(int, numbers.groups())
            found += b"".join(number.to_bytes(8, "little")[:width] for number in range(first, end))
        else:
            digits, times = repeated(piece)
            found += bytes.fromhex(digits) * times
    return found


def repeated(piece):
    part, star, times = piece.rpartition("*")
    return (part, int(times)) if star and times.isdigit() else (piece, 1)


def text_of(columns):
    return "".join(part * times for part, times in map(repeated, columns))


def rows(file):
    """The rows of a file that aren't definitions: each with its number, its kind, the schema that its root has, and the columns after these.

    Rows by the container of a type, which the file doesn't have, are left out, but for the container of containers."""
    definitions, schemas, is_there = {}, {}, True
    for number, line in enumerate((DATA / file).read_text(encoding="utf-8").split("\n"), 1):
        kind, *columns = line.split("\t")
        if not line or line.startswith("#"):
            continue
        name, columns = columns[0], columns[1:]
        definition = definition_of(kind, columns)
        if definition is not None:
            definitions[name] = definition
            schemas.clear()
            is_there = True
        elif kind == "type":
            is_there = name == "container"
            definitions = Schema(SCHEMAS.read_bytes()).definitions if is_there else {}
            schemas.clear()
        elif is_there and kind not in ("random", "ambiguous"):  # which no call of the library answers
            if name not in schemas:
                schemas[name] = schema_of(name, definitions)
            yield number, kind, schemas[name], columns
