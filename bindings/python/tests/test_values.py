"""Values, bytes and texts that may be anything: each is taken as what it is, or refused with its place; nothing ends the interpreter."""

import array
import collections
import enum
import os
import subprocess
import sys
import types
import unittest

from borsh_proved import Error, Kind, Schema


def sequence(element):
    return {"Sequence": {"length_width": 4, "length_range": {"start": 0, "end": 2**32 - 1}, "elements": element}}


DEFINITIONS = {
    "A": {"Struct": {"fields": {"NamedFields": [["x", "u64"], ["y", "String"]]}}},
    "E": {"Enum": {"tag_width": 1, "variants": [[0, "V", "u8"], [1, "0x00", "()"]]}},
    "New": {"Struct": {"fields": {"UnnamedFields": ["Option<String>"]}}},
    "Option<String>": {"Enum": {"tag_width": 1, "variants": [[0, "None", "()"], [1, "Some", "String"]]}},
    "Deep": sequence("Deep"),
    "Vec<u8>": sequence("u8"),
    "Vec<u64>": sequence("u64"),
    "Vec<New>": sequence("New"),
    "(u8, f64)": {"Tuple": {"elements": ["u8", "f64"]}},
    "BTreeMap<String, New>": sequence("(String, New)"),
    "(String, New)": {"Tuple": {"elements": ["String", "New"]}},
    "BTreeMap<u64, String>": sequence("(u64, String)"),
    "(u64, String)": {"Tuple": {"elements": ["u64", "String"]}},
    "HashMap<bool, u8>": sequence("(bool, u8)"),
    "(bool, u8)": {"Tuple": {"elements": ["bool", "u8"]}},
    "String": sequence("u8"),
    "()": {"Tuple": {"elements": []}},
    **{name: {"Primitive": size} for name, size in {"bool": 1, "u8": 1, "u64": 8, "u128": 16, "f32": 4, "f64": 8, "char": 4}.items()},
}
SCHEMAS = {name: Schema.of(name, DEFINITIONS) for name in DEFINITIONS}

LONE = "a lone surrogate is no character"
STRING = "expected a string"
WHOLE = "expected a whole number, or a decimal string, of 64 bits, unsigned"
VARIANT = 'expected a variant: "Name" or {"Name": value}'
KEYS = "expected keys that are strings"
KEYS_OF_NUMBERS = "expected keys that are whole numbers of 64 bits, unsigned"


class Colour(enum.IntEnum):
    RED = 7


def knot():
    found = []
    found += [found, found]
    return found


def deep(count):
    value = []
    for _ in range(count - 1):
        value = [value]
    return value


def released():
    view = memoryview(b"abc")
    view.release()
    return view


class Values(unittest.TestCase):
    def refused(self, call, argument, path, reason):
        with self.assertRaises(Error) as raised:
            call(argument)
        error = raised.exception
        self.assertEqual((error.kind, error.path, error.offset, str(error)), (Kind.NO, path, None, f"{path}: {reason}"))

    def test_what_is_refused_where_and_why(self):
        for root, value, path, reason in [
            ("A", {"x": 1, "y": "\ud800"}, "A.y", LONE),
            ("A", {"x": 1, "y": "a\udc00\ud800b"}, "A.y", LONE),
            ("A", {"x": 1, "y": "", "\ud800": 1}, "A", LONE),
            ("A", {"x": 1, 2: ""}, "A", KEYS),
            ("A", {"x": 1, "y": b"h"}, "A.y", STRING),
            ("A", 2**53, "A", "expected an object"),
            ("u64", 2**64, "u64", WHOLE),
            ("u64", 10**100000, "u64", WHOLE),
            ("u64", -(10**100000), "u64", WHOLE),
            ("u64", -1, "u64", WHOLE),
            ("u64", 1.5, "u64", WHOLE),
            ("u64", float("nan"), "u64", WHOLE),
            ("u64", float("inf"), "u64", WHOLE),
            ("u64", True, "u64", WHOLE),
            ("f64", float("nan"), "f64", 'expected a number, "inf" or "-inf"'),
            ("f32", 1e39, "f32", 'expected a number, "inf" or "-inf"'),
            ("f32", 10**400, "f32", 'expected a number, "inf" or "-inf"'),
            ("f64", 10**400, "f64", 'expected a number, "inf" or "-inf"'),
            ("f64", True, "f64", 'expected a number, "inf" or "-inf"'),
            ("f32", b"\0\0\xc0\x3f", "f32", 'expected a number, "inf" or "-inf"'),
            ("char", 7, "char", 'expected "0x.." of 4 bytes'),
            ("Vec<u64>", {}, '"Vec<u64>"', "expected an array"),
            ("Vec<u8>", {}, '"Vec<u8>"', "expected an array"),
            ("Vec<u8>", released(), '"Vec<u8>"', "the bytes are gone"),
            ("(u8, f64)", [1], '"(u8, f64)"', "expected an array of 2"),
            ("(u8, f64)", [1, 2, "\ud800"], '"(u8, f64)"', "expected an array of 2"),
            ("E", b"\0", "E", VARIANT),
            ("E", {1: 2}, "E", KEYS),
            ("Vec<New>", ["", None, "\udfff"], '"Vec<New>"[2].0::Some', LONE),
            ("BTreeMap<String, New>", {"b": "\ud800", "a": ""}, '"BTreeMap<String, New>"[1].1.0::Some', LONE),
            ("BTreeMap<String, New>", {"\uffff": "", "\U00010000": "\ud800"}, '"BTreeMap<String, New>"[1].1.0::Some', LONE),
            ("BTreeMap<String, New>", {"\ud800": ""}, '"BTreeMap<String, New>"', LONE),
            ("BTreeMap<String, New>", {1: ""}, '"BTreeMap<String, New>"', KEYS),
            ("BTreeMap<String, New>", {None: ""}, '"BTreeMap<String, New>"', KEYS),
            ("BTreeMap<String, New>", {b"a": ""}, '"BTreeMap<String, New>"', KEYS),
            ("BTreeMap<u64, String>", {10: "", 9: "\ud800", 11: ""}, '"BTreeMap<u64, String>"[0].1', LONE),
            ("BTreeMap<u64, String>", {1: "", "1": ""}, '"BTreeMap<u64, String>"', "`1` comes twice"),
            ("BTreeMap<u64, String>", {1.5: ""}, '"BTreeMap<u64, String>"', KEYS_OF_NUMBERS),
            ("BTreeMap<u64, String>", {True: ""}, '"BTreeMap<u64, String>"', KEYS_OF_NUMBERS),
            ("BTreeMap<u64, String>", {None: ""}, '"BTreeMap<u64, String>"', KEYS_OF_NUMBERS),
            ("BTreeMap<u64, String>", {10**5000: ""}, '"BTreeMap<u64, String>"', KEYS_OF_NUMBERS),
            ("HashMap<bool, u8>", {True: 1, 2: 2}, '"HashMap<bool, u8>"[1].0', "expected true or false"),
            ("()", "\ud800", '"()"', LONE),
            ("()", {}, '"()"', "expected null"),
            ("Deep", knot(), "Deep", "nests more than 128 deep"),
            ("Deep", deep(129), "Deep", "nests more than 128 deep"),
            ("Deep", deep(100_000), "Deep", "nests more than 128 deep"),
        ]:
            with self.subTest(root=root, reason=reason):
                self.refused(SCHEMAS[root].encode, value, path, reason)

    def test_what_is_taken_is_what_it_is(self):
        for root, value, digits in [
            ("A", {"y": "\U0001f600", "x": 1}, "0100000000000000" + "04000000f09f9880"),
            ("A", types.MappingProxyType({"x": Colour.RED, "y": ""}), "0700000000000000" + "00000000"),
            ("A", collections.OrderedDict(y="", x="18446744073709551615"), "ffffffffffffffff" + "00000000"),
            ("E", "0x00", "01"),
            ("u128", Colour.RED, "07" + 15 * "00"),
            ("f64", 1, "000000000000f03f"),
            ("f64", 2**53 + 1, "0000000000004043"),
            ("f64", float("-inf"), "000000000000f0ff"),
            ("f32", 2**60, "0000805d"),
            ("f32", 7.038531e-26, "fd43ae15"),
            ("(u8, f64)", collections.namedtuple("Pair", "a b")(7, 1.5), "07" + "000000000000f83f"),
            ("BTreeMap<u64, String>", {10: "b", 9: "a"}, "02000000" + "0900000000000000" + "0100000061" + "0a00000000000000" + "0100000062"),
            ("HashMap<bool, u8>", {False: 1, True: 2}, "02000000" + "0001" + "0102"),
            ("Deep", deep(128), 127 * "01000000" + "00000000"),
        ]:
            with self.subTest(root=root):
                self.assertEqual(SCHEMAS[root].encode(value).hex(), digits)

    def test_memoryviews_of_any_stride_format_and_shape(self):
        numbers = array.array("H", [1, 2, 3, 4])
        grid = memoryview(bytes(range(12))).cast("B", (3, 4))
        text = memoryview(b"abcdef")
        for view, data in [
            (text[::2], b"ace"),
            (text[::-1], b"fedcba"),
            (text[4:1:-2], b"ec"),
            (memoryview(b"")[::3], b""),
            (memoryview(bytearray(b"abcd"))[1:3], b"bc"),
            (memoryview(numbers)[::-2], numbers[::-2].tobytes()),
            (grid, bytes(range(12))),
            (grid.cast("B").cast("I", (3, 1)), bytes(range(12))),
            (memoryview(b"\1").cast("B", ()), b"\1"),
        ]:
            value = len(data).to_bytes(4, "little") + data
            schema = SCHEMAS["Vec<u8>"]
            self.assertEqual(schema.encode(view), value)
            spread = memoryview(bytes(byte for byte in value for _ in range(3)))[::3]
            self.assertEqual(schema.decode(spread), data)
            self.assertEqual(schema.to_json(spread), f'"0x{data.hex()}"')
            schema.check(spread)
            with self.assertRaises(Error):
                schema.check(spread[:-1])
        encoding = bytes(SCHEMAS["A"])
        self.assertEqual(Schema(memoryview(encoding[::-1])[::-1]), SCHEMAS["A"])

    def test_bytes_are_taken_when_the_call_is_made(self):
        data = bytearray(bytes(SCHEMAS["Vec<u8>"]))
        schema = Schema(data)
        data[:] = bytes(len(data))
        self.assertEqual(schema, SCHEMAS["Vec<u8>"])
        self.assertEqual(schema.decode(bytearray(b"\1\0\0\0\7")), b"\7")

    def test_objects_that_are_no_values_name_their_part(self):
        for value in (object(), {1}, range(2), 1j, array.array("B", b"a"), iter([])):
            with self.assertRaises(TypeError) as raised:
                SCHEMAS["A"].encode({"x": 1, "y": value})
            self.assertEqual(str(raised.exception), f"A.y: {type(value).__name__} is no value")

    def test_texts_and_definitions_with_a_lone_surrogate(self):
        for text in ('"\ud800"', "\udfff"):
            with self.assertRaises(Error) as raised:
                SCHEMAS["String"].from_json(text)
            self.assertEqual((str(raised.exception), raised.exception.path), ("not UTF-8", None))
        at = "BorshSchemaContainer.definitions[0].1"
        for root, definitions, path, reason in [
            ("\ud800", {}, "BorshSchemaContainer.declaration", LONE),
            ("A", {"B": {"Primitive": 1}, "A": {"Tuple": {"elements": ["\ud800"]}}}, f"{at}::Tuple.elements[0]", LONE),
            ("A", {"A": {"Primitive": 256}}, f"{at}::Primitive.0", "expected a whole number of 8 bits, unsigned"),
            ("A", {"A": {"Tuple": {"elements": knot()}}}, f"{at}::Tuple.elements[0]", STRING),
            ("A", {"A": None}, at, VARIANT),
            ("A", {1: {"Primitive": 1}}, "BorshSchemaContainer.definitions", KEYS),
        ]:
            self.refused(lambda root: Schema.of(root, definitions), root, path, reason)

    def test_nothing_deep_ends_the_interpreter(self):
        """In a process of its own, in which nothing else stops recursion."""
        program = (
            "import sys, test_values as it\n"
            "sys.setrecursionlimit(10**9)\n"
            "for value in (it.knot(), it.deep(10**6)):\n"
            "    for root, part in (('Deep', value), ('A', {'x': value, 'y': value}), ('Vec<New>', [value]), ('BTreeMap<u64, String>', {1: value})):\n"
            "        try: it.SCHEMAS[root].encode(part)\n"
            "        except it.Error as error: print(error)\n"
            "    try: it.Schema.of('A', {'A': {'Tuple': {'elements': value}}})\n"
            "    except it.Error as error: print(error)\n"
            "text = '[' * 10**6 + ']' * 10**6\n"
            "try: it.SCHEMAS['Deep'].from_json(text)\n"
            "except it.Error as error: print(error)\n"
            "try: it.SCHEMAS['Deep'].decode(b'\\1\\0\\0\\0' * 10**6 + bytes(4))\n"
            "except it.Error as error: print(error)\n"
        )
        path = os.pathsep.join(map(os.path.abspath, sys.path))
        done = subprocess.run([sys.executable, "-c", program], capture_output=True, text=True, env={**os.environ, "PYTHONPATH": path})
        told = [
            "Deep: nests more than 128 deep",
            f"A.x: {WHOLE}",
            '"Vec<New>"[0].0::Some: expected a string',
            '"BTreeMap<u64, String>"[0].1: expected a string',
            "BorshSchemaContainer.definitions[0].1::Tuple.elements[0]: expected a string",
        ]
        self.assertEqual((done.stdout.splitlines()[:10], done.returncode), (2 * told, 0), done.stderr)
        for line in done.stdout.splitlines()[10:]:
            self.assertTrue(line.endswith("nests more than 128 deep"), line)


if __name__ == "__main__":
    unittest.main()
