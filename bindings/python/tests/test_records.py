"""Values one after another: as they come in pieces, faults, ends, limits; and the suite's values in a file."""

import io
import pickle
import tempfile
import unittest

import rows
from borsh_proved import Error, Kind, Schema
from test_package import schema_of, sequence


class Pieces:
    """A file that gives at most so many bytes at a time."""

    def __init__(self, data, size):
        self.file, self.size = io.BytesIO(data), size

    def read(self, count):
        return self.file.read(min(count, self.size))


class Records(unittest.TestCase):
    def setUp(self):
        pair = {"Struct": {"fields": {"NamedFields": [["x", "u64"], ["y", "Vec<bool>"]]}}}
        self.schema = schema_of("A", **{"A": pair, "Vec<bool>": sequence("bool")})
        self.values = [{"x": x, "y": [True, False] * x} for x in range(4)]
        self.data = b"".join(map(self.schema.encode, self.values))
        self.ends = [sum(len(self.schema.encode(value)) for value in self.values[:count]) for count in range(5)]

    def given(self, data, size=2**20, **options):
        """The values before an error, and the error."""
        values = []
        try:
            for value in self.schema.records(Pieces(data, size), **options):
                values.append(value)
        except Error as error:
            return values, error
        return values, None

    def test_values_are_given_however_the_bytes_come(self):
        for size in range(1, len(self.data) + 2):
            self.assertEqual(self.given(self.data, size), (self.values, None))
        file = io.BufferedReader(io.BytesIO(self.data))
        self.assertEqual(list(map(self.schema.decode, self.schema.record_bytes(file))), self.values)
        self.assertEqual(list(self.schema.records(io.BytesIO())), [])

    def test_a_file_that_is_cut_short_tells_where_the_last_value_begins(self):
        for length in range(len(self.data)):
            whole = sum(end <= length for end in self.ends[1:])
            values, error = self.given(self.data[:length], 7)
            self.assertEqual(values, self.values[:whole])
            if length in self.ends:
                self.assertIsNone(error)
            else:
                self.assertEqual((error.kind, error.record), (Kind.NO, self.ends[whole]))
                self.assertRegex(str(error), f"^value at byte {error.record}: cut short: A.*: too few bytes are left$")

    def test_a_fault_of_the_bytes_or_of_a_name_comes_behind_the_values_before_it(self):
        schema = schema_of("Option<bool>", **{"Option<bool>": {"Enum": {"tag_width": 1, "variants": [[0, "None", "()"], [1, "Some", "bool"]]}}, "()": {"Primitive": 0}})
        for data, text, place in [
            (b"\0\1\1\2\0", 'value at byte 3: "Option<bool>" (`Option<bool>` at byte 0): no variant has this tag', ('"Option<bool>"', 0, 3)),
            (b"\0\1\1\1\2\0", 'value at byte 3: "Option<bool>"::Some: neither 0 nor 1', ('"Option<bool>"::Some', None, 3)),
        ]:
            for size in range(1, 7):
                self.schema = schema
                values, error = self.given(data, size)
                self.assertEqual((values, str(error)), ([None, True], text))
                self.assertEqual((error.kind, (error.path, error.offset, error.record)), (Kind.NO, place))
                self.assertEqual(pickle.loads(pickle.dumps(error)).record, 3)

    def test_a_schema_with_an_empty_value_is_refused(self):
        for root in ("()", "[u8; 0]"):
            self.schema = Schema.of(root, {root: {"Tuple": {"elements": []}}})
            values, error = self.given(b"\0")
            text = "the type has a value without bytes, so that any bytes are any number of values"
            self.assertEqual((values, str(error), error.record), ([], text, None))
            self.assertEqual(self.given(b""), ([], None))

    def test_a_longer_value_than_is_wanted_is_refused(self):
        lengths = [len(self.schema.encode(value)) for value in self.values]
        for most in range(1, 20):
            for size in (1, 5, 1000):
                whole = next((at for at, length in enumerate(lengths) if length > most), 4)
                values, error = self.given(self.data, size, max_length=most)
                self.assertEqual(values, self.values[:whole])
                self.assertEqual(error and str(error), None if whole == 4 else f"value at byte {self.ends[whole]}: longer than the limit")

    def test_many_and_long_values(self):
        self.schema = schema_of("Vec<bool>", **{"Vec<bool>": sequence("bool")})
        lengths = [0] * 9000 + [300_000, 1, 2, 3_000_000]
        data = b"".join(length.to_bytes(4, "little") + bytes(length) for length in lengths)
        for size in (2**14, 2**30):
            self.assertEqual([len(record) - 4 for record in self.schema.record_bytes(Pieces(data, size))], lengths)
        data = data[:-3_000_004]
        self.assertEqual(list(map(len, self.schema.records(io.BytesIO(data)))), lengths[:-1])

    def test_bytes_that_are_no_schema_and_a_schema_without_answers(self):
        twice = schema_of("E", E={"Enum": {"tag_width": 1, "variants": [[0, "a", "u8"], [0, "b", "bool"]]}})
        with self.assertRaises(Error) as raised:
            list(twice.records(io.BytesIO(b"\0\0")))
        self.assertIs(raised.exception.kind, Kind.UNDECIDED)

    def test_the_suites_values_follow_one_another_in_a_file(self):
        found = {}
        for file in ("members.tsv", "json.tsv", "formats.tsv", "types.tsv"):
            for _, kind, schema, columns in rows.rows(file):
                if kind == "value" and not rows.text_of(columns[1:]).startswith("! "):
                    found.setdefault(schema, []).append((rows.bytes_of(columns[0]), rows.text_of(columns[1:])))
        self.assertGreater(len(found), 100)
        for schema, values in found.items():
            with tempfile.TemporaryFile() as file:
                file.write(b"".join(value for value, _ in values))
                file.seek(0)
                if all(value for value, _ in values):
                    self.assertEqual(list(schema.record_bytes(file)), [value for value, _ in values])
                    file.seek(0)
                    self.assertEqual(list(schema.records(file)), [schema.decode(value) for value, _ in values])


if __name__ == "__main__":
    unittest.main()
