"""Types by their text, and schemas compared: the rows of `crates`, whose answers aren't this library's."""

import unittest

import rows
from borsh_proved import Answer, Error, Kind, Schema, compare

CRATES = rows.DATA.parents[1]


def types():
    """The types of `schema` rows, each with its container."""
    for path in sorted((CRATES / "test_rows/data").glob("*.tsv")):
        for line in path.read_bytes().decode("utf-8", "replace").split("\n"):
            kind, *columns = line.split("\t")
            if kind == "schema" and " " in columns[1]:
                yield columns[0], bytes.fromhex(columns[1].split(" ")[1])


def compared():
    """The rows of two schemas: old, new, and what is said of them."""
    definitions = {}
    for line in (rows.DATA / "compared.tsv").read_text(encoding="utf-8").split("\n"):
        if "\t" not in line:
            continue
        kind, name, *columns = line.split("\t")
        definition = rows.definition_of(kind, columns)
        if definition is not None:
            definitions[name] = definition
        elif kind == "compare":
            yield rows.schema_of(name, definitions), rows.schema_of(columns[0], definitions), columns[1]


class Source(unittest.TestCase):
    def refused(self, says, *given):
        with self.assertRaises(Error) as raised:
            Schema.parse(*given)
        error = raised.exception
        self.assertRegex(str(error), says)
        self.assertEqual((error.kind, error.path), (Kind.NO, str(error).split(": ")[0]))
        return error

    def test_types_have_the_containers_that_they_state_or_break_a_rule(self):
        items = (CRATES / "borsh_tool/tests/types.rs").read_text(encoding="utf-8")
        all_types = set(types())
        self.assertGreater(len(all_types), 50)
        for written, container in sorted(all_types):
            with self.subTest(written):
                wanted = Schema(container)
                try:
                    wanted.validate()
                except Error as broken:
                    self.refused(f"^type: .* breaks the rule {str(broken).split(' ')[1]}$", items, written)
                    continue
                self.assertEqual(Schema.parse(items, written), wanted)

    def test_texts_without_a_schema_say_what_is_wrong_and_where(self):
        for given, says, offset in [
            (("struct A {\n  x u8,\n}", "A"), "^text: line 2, column 5: met `u8`, expected `:`$", 15),
            (("/* é */ struct B(u8)", "B"), "^text: line 1, column 21: the text ends, expected `;`$", 21),
            (("struct Vault;", "Vec<Valt>"), "^type: column 5: `Valt` is no type that has a schema; `Vault` is$", 4),
            (("Vec<()>",), r"^type: column 1: `Vec<\(\)>` breaks the rule ZSTSequence$", 0),
            (('{"types": }', "A"), "^text: line 1, column 11: met `}`, expected a value of JSON$", 10),
            (("",), "^type: line 1, column 1: the text ends, expected a type$", 0),
            (("\ud800", "A"), "^text: not UTF-8$", 0),
        ]:
            self.assertEqual(self.refused(says, *given).offset, offset)
        for given in ((b"u8",), (7, "A"), ("u8", 7)):
            with self.assertRaises(TypeError):
                Schema.parse(*given)

    def test_an_account_begins_with_its_discriminator_and_a_schema_object_needs_no_name(self):
        fields = '[{"name": "x", "type": "u8"}]'
        idl = '{"instructions": [], "accounts": [{"name": "A", "type": {"kind": "struct", "fields": %s}}]}' % fields
        self.assertEqual(Schema.parse(idl, "A").decode(bytes(range(9))), {"discriminator": bytes(range(8)), "x": 8})
        schema = Schema.parse(' {"struct": {"x": "u8", "y": {"option": "bool"}}}')
        self.assertEqual((schema.root, schema.encode({"x": 7, "y": True})), ("Schema", bytes([7, 1, 1])))
        self.assertEqual(Schema.parse("", type="Vec<u8>"), Schema.parse("Vec<u8>"))


class Compared(unittest.TestCase):
    def said(self, old, new):
        """What is said of two schemas, as a row says it."""
        found = compare(old, new)
        self.assertEqual(found.is_compatible, found.answer in (Answer.SAME, Answer.COMPATIBLE))
        self.assertEqual(str(found), found.text)
        answer = "same" if found.answer is Answer.SAME else found.answer.value
        self.assertEqual(found.evidence is None, found.answer is not Answer.INCOMPATIBLE)
        if found.evidence is not None:
            digits, why = found.evidence.split(" is a value of the old schema and no value of the new one: ")
            old.check(bytes.fromhex(digits))
            with self.assertRaises(Error):
                new.check(bytes.fromhex(digits))
            answer += f" {digits} {why}"
        answer += ", same JSON" if found.has_same_json else ""
        return "; ".join([answer, *found.changes])

    def test_schemas_have_the_answers_of_the_rows(self):
        count = 0
        for old, new, wanted in compared():
            with self.subTest(f"{old.root}, {new.root}"):
                self.assertEqual(self.said(old, new), wanted)
            count += 1
        self.assertGreaterEqual(count, 60)

    def test_a_line_end_in_a_name_ends_no_line(self):
        old, new = (
            Schema.of("\n  A", {"\n  A": {"Struct": {"fields": {"NamedFields": [[field, "u8"]]}}}, "u8": {"Primitive": 1}})
            for field in (" x\n  y\r", "z")
        )
        self.assertEqual(compare(old, new).changes, ['"\\x0a  A"." x\\x0a  y\r" is now "\\x0a  A".z'])

    def test_only_schemas_are_compared(self):
        for pair in ((7, Schema.parse("u8")), (Schema.parse("u8"), b"")):
            with self.assertRaises(TypeError):
                compare(*pair)


if __name__ == "__main__":
    unittest.main()
