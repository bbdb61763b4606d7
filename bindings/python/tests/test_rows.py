"""The suite's rows, by each call."""

import io
import re
import unittest

import rows
from borsh_proved import Error, Kind


class Rows(unittest.TestCase):
    def run_file(self, file, kinds):
        """Each row of a file, of which there have to be so many of each kind."""
        found = {}
        for number, kind, schema, columns in rows.rows(file):
            found[kind] = found.get(kind, 0) + 1
            with self.subTest(f"{file}:{number}: {kind} {schema.root[:60]}"):
                getattr(self, "row_" + kind)(schema, columns)
        self.assertEqual(set(found), kinds)

    def refused(self, wanted, call, *arguments):
        """That a call is refused with the text after `! `, whose path and offset the error has."""
        with self.assertRaises(Error) as raised:
            call(*arguments)
        error, text = raised.exception, wanted[2:]
        self.assertEqual(str(error), text)
        self.assertIs(error.kind, Kind.UNDECIDED if text.endswith("` is ambiguous") else Kind.NO)
        if error.offset is not None:
            self.assertRegex(text, f"(at|near) byte {error.offset}\\b")
        if error.path is not None:
            self.assertTrue(text.startswith((error.path + ": ", error.path + " (`", f"no member: {error.path} (`")), text)
        self.assertEqual(error.path is None, re.match("not JSON|`.*` is ambiguous|no value of the schema", text) is not None)

    def row_value(self, schema, columns):
        value, text = rows.bytes_of(columns[0]), rows.text_of(columns[1:])
        if text.startswith("! "):
            self.refused(text, schema.to_json, value)
            self.refused(text, schema.decode, value)
            self.refused(text if text.endswith("` is ambiguous") else "! no member: " + text[2:], schema.check, value)
            return
        schema.check(value)
        self.assertEqual(schema.to_json(value), text)
        self.assertEqual(schema.from_json(text), value)
        self.assertEqual(schema.from_json(schema.to_json(value, pretty=True)), value)
        self.assertEqual(schema.encode(schema.decode(value)), value)
        self.changed(schema, value)

    def changed(self, schema, value):
        """Bytes that are changed in one place: what is decoded is encoded as they are."""
        for at in range(min(len(value), 64)):
            for mask in (1, 0x80):
                other = bytes([*value[:at], value[at] ^ mask, *value[at + 1 :]])
                try:
                    decoded = schema.decode(other)
                except Error:
                    continue
                self.assertEqual(schema.encode(decoded), other)

    def row_refused(self, schema, columns):
        value, text = rows.bytes_of(columns[0]), rows.text_of(columns[1:])
        schema.check(value)
        self.refused(text, schema.to_json, value)
        self.refused(text, schema.decode, value)

    def row_quoted(self, schema, columns):
        value, text = rows.bytes_of(columns[0]), rows.text_of(columns[1:])
        self.assertEqual(schema.to_json(value, quoted=True), text)
        self.assertEqual(schema.from_json(text), value)

    def row_text(self, schema, columns):
        wanted, text = columns[0], rows.text_of(columns[1:])
        if wanted.startswith("! "):
            self.refused(wanted, schema.from_json, text)
        else:
            self.assertEqual(schema.from_json(text), rows.bytes_of(wanted))

    def row_member(self, schema, columns):
        schema.check(rows.bytes_of(columns[0]))

    row_nodes = row_member

    def row_records(self, schema, columns):
        """Where the values begin, each with `+` behind it, and why they end."""
        data, wanted = rows.bytes_of(columns[0]), rows.text_of(columns[1:])
        at, told = 0, []
        try:
            for record in schema.record_bytes(io.BytesIO(data), max_length=1000):
                told.append(f"{at}+")
                at += len(record)
            told.append("end")
        except Error as error:
            told.append(f"! {error}")
        self.assertEqual("".join(told), wanted if data else "end")  # of no bytes nothing is asked

    def test_members(self):
        self.run_file("members.tsv", {"value", "member", "refused", "records", "text"})

    def test_nodes(self):
        self.run_file("nodes.tsv", {"nodes"})

    def test_json(self):
        self.run_file("json.tsv", {"value", "refused", "text"})

    def test_formats(self):
        self.run_file("formats.tsv", {"value", "refused", "quoted", "text"})

    def test_containers(self):
        self.run_file("types.tsv", {"value"})


if __name__ == "__main__":
    unittest.main()
