"""The documents' examples, and what no row says: kinds of arguments, numbers beyond a type's, copies, threads, the wheel."""

import base64
import doctest
import hashlib
import pathlib
import pickle
import sys
import tempfile
import threading
import unittest
import zipfile

import borsh_proved
from borsh_proved import Error, Kind, Schema

HERE = pathlib.Path(__file__).resolve().parent
DATA = HERE.parents[2] / "crates/borsh_tool/data"
PRIMITIVES = {name: {"Primitive": size} for name, size in {"u8": 1, "u64": 8, "u128": 16, "f32": 4, "f64": 8, "bool": 1}.items()}


def load_tests(loader, tests, pattern):
    found = doctest.DocTestFinder().find(borsh_proved, module=False, globs=vars(borsh_proved))
    tests.addTests(doctest.DocTestCase(test) for test in found if test.examples)
    tests.addTests(doctest.DocFileSuite(str(HERE.parent / "README.md"), module_relative=False))
    return tests


def schema_of(root, **definitions):
    return Schema.of(root, {**PRIMITIVES, **definitions})


def sequence(element):
    return {"Sequence": {"length_width": 4, "length_range": {"start": 0, "end": 4294967295}, "elements": element}}


class Calls(unittest.TestCase):
    def setUp(self):
        self.schema = Schema((DATA / "readme.borsh").read_bytes())
        self.value = (DATA / "value.borsh").read_bytes()

    def test_a_schema_by_rust_is_what_its_definitions_make(self):
        self.assertEqual(self.schema.root, "A")
        self.assertEqual(Schema.of("A", self.schema.definitions), self.schema)
        self.assertEqual(bytes(self.schema), (DATA / "readme.borsh").read_bytes())
        self.assertEqual(self.schema.max_size(), 4294967307)
        self.schema.validate()

    def test_bytes_that_are_no_schema(self):
        for encoding in (b"", b"\0", self.value, bytes(self.schema)[:-1]):
            with self.assertRaises(Error) as raised:
                Schema(encoding)
            self.assertIs(raised.exception.kind, Kind.MALFORMED)
            self.assertTrue(str(raised.exception).startswith("not a schema container: "))

    def test_any_object_with_bytes_is_taken_and_no_other(self):
        for kind in (bytes, bytearray, memoryview):
            self.assertEqual(Schema(kind(bytes(self.schema))).decode(kind(self.value)), {"x": 12, "y": "hé"})
        self.schema.check(memoryview(bytes(byte for pair in zip(self.value, self.value) for byte in pair))[::2])
        for other in (12, "text", None, [1, 2]):
            for call in (Schema, self.schema.check, self.schema.decode):
                with self.assertRaises(TypeError):
                    call(other)
        with self.assertRaises(TypeError):
            self.schema.encode({"x": object(), "y": ""})

    def test_a_value_that_does_not_fit_names_its_part(self):
        for value, path in [
            ({"x": -1, "y": ""}, "A.x"),
            ({"x": "one", "y": ""}, "A.x"),
            ({"x": 1.5, "y": ""}, "A.x"),
            ({"x": 1, "y": 2}, "A.y"),
            ({"x": 1}, "A.y"),
            ({"x": 1, "y": "", "z": 0}, "A"),
            ((1, "", 3), "A"),
            (7, "A"),
            (None, "A"),
        ]:
            with self.assertRaises(Error) as raised:
                self.schema.encode(value)
            self.assertEqual((raised.exception.kind, raised.exception.path), (Kind.NO, path), value)

    def test_numbers(self):
        for name, numbers in {"u64": (0, 2**64 - 1), "u128": (0, 7, 2**128 - 1), "f64": (0.1, -0.0, float("inf")), "f32": (1.5, 2)}.items():
            schema = schema_of(name)
            for number in numbers:
                again = schema.decode(schema.encode(number))
                self.assertEqual((again, repr(again)), (number, repr(type(again)(number))))
        for name, numbers in {"u64": (2**64, 1.0, True), "u128": (2**128, -1), "f32": (1e300, float("nan")), "f64": ("1.5", 10**400)}.items():
            for number in numbers:
                with self.assertRaises(Error, msg=number):
                    schema_of(name).encode(number)
        with self.assertRaises(Error):
            schema_of("f32").decode(bytes.fromhex("0000c07f"))

    def test_floats_are_their_shortest_decimal_and_rounded_once(self):
        for name, number, digits in [("f32", 0.1, "cdcccc3d"), ("f32", 7.038531e-26, "fd43ae15"), ("f64", 1.5, "000000000000f83f")]:
            self.assertEqual(schema_of(name).encode(number).hex(), digits)
            self.assertEqual(schema_of(name).decode(bytes.fromhex(digits)), number)

    def test_a_text_that_looks_like_bytes_is_a_text(self):
        value = self.schema.encode({"x": 0, "y": "0x0a"})
        self.assertEqual(self.schema.decode(value)["y"], "0x0a")

    def test_too_few_and_too_many_parts(self):
        pair = schema_of("(u8, u8)", **{"(u8, u8)": {"Tuple": {"elements": ["u8", "u8"]}}})
        self.assertEqual(pair.encode([1, 2]), bytes([1, 2]))
        for value in ((), (1,), (1, 2, 3)):
            with self.assertRaises(Error):
                pair.encode(value)

    def test_maps(self):
        pair = {"Tuple": {"elements": ["bool", "f64"]}}
        by_bool = schema_of("BTreeMap<bool, f64>", **{"BTreeMap<bool, f64>": sequence("(bool, f64)"), "(bool, f64)": pair})
        self.assertEqual(by_bool.encode({False: 1.5, True: 2.5}), by_bool.encode([(False, 1.5), (True, 2.5)]))
        self.assertEqual(by_bool.decode(by_bool.encode({True: 2.5})), [(True, 2.5)])
        pair = {"Tuple": {"elements": ["u128", "f64"]}}
        by_number = schema_of("BTreeMap<u128, f64>", **{"BTreeMap<u128, f64>": sequence("(u128, f64)"), "(u128, f64)": pair})
        self.assertEqual(by_number.decode(by_number.encode({2**100: 1.5, 3: 0.5})), {3: 0.5, 2**100: 1.5})

    def test_what_is_in_an_option_or_a_struct_without_names_is_told_by_its_type(self):
        definitions = {
            "Option<Key>": {"Enum": {"tag_width": 1, "variants": [[0, "None", "()"], [1, "Some", "Key"]]}},
            "Key": {"Struct": {"fields": {"UnnamedFields": ["u128"]}}},
            "Clé": {"Struct": {"fields": {"UnnamedFields": ["Option<Key>"]}}},
            "()": {"Primitive": 0},
            "Choice": {"Enum": {"tag_width": 1, "variants": [[0, "Nothing", "()"], [1, "Key", "Option<Key>"]]}},
        }
        option, struct, choice = (schema_of(name, **definitions) for name in ("Option<Key>", "Clé", "Choice"))
        for value in (None, 2**127):
            self.assertEqual(struct.decode(struct.encode(value)), value)
            self.assertEqual(option.decode(option.encode(value)), value)
            self.assertEqual(choice.decode(choice.encode({"Key": value})), {"Key": value})
        self.assertEqual(choice.decode(choice.encode("Nothing")), "Nothing")

    def test_copies(self):
        again = pickle.loads(pickle.dumps(self.schema))
        self.assertEqual((again, hash(again), again.decode(self.value)), (self.schema, hash(self.schema), {"x": 12, "y": "hé"}))
        with self.assertRaises(Error) as raised:
            self.schema.check(self.value[:9])
        copy = pickle.loads(pickle.dumps(raised.exception))
        self.assertEqual((type(copy), str(copy), copy.kind, copy.path, copy.offset), (Error, str(raised.exception), Kind.NO, "A.y", 8))

    def test_threads_share_a_schema(self):
        schema, answers = schema_of("Vec<u64>", **{"Vec<u64>": sequence("u64")}), []
        value = list(range(20_000))
        threads = [threading.Thread(target=lambda: answers.append(schema.decode(schema.encode(value)))) for _ in range(4)]
        for thread in threads:
            thread.start()
        for thread in threads:
            thread.join()
        self.assertEqual(answers, [value] * 4)

    def test_a_place_is_told_whatever_names_there_are(self):
        for name in ("A (`u8` at byte 7): too few", "no member: A: b", "", "é`"):
            schema = Schema.of(name, {name: {"Tuple": {"elements": ["u8", "bool"]}}, **PRIMITIVES})
            for call, value, offset in ((schema.check, b"\1", 1), (schema.decode, b"\1", 1), (schema.decode, b"\1\2", None)):
                with self.assertRaises(Error) as raised:
                    call(value)
                self.assertEqual((raised.exception.path, raised.exception.offset), (f'"{name}".1', offset))


class Wheel(unittest.TestCase):
    def test_the_wheel_has_the_package_the_library_and_their_sums(self):
        sys.path.insert(0, str(HERE.parent))
        import backend

        with tempfile.TemporaryDirectory() as folder:
            name = backend.build_wheel(folder)
            first = (pathlib.Path(folder) / name).read_bytes()
            self.assertEqual(backend.build_wheel(folder), name)
            self.assertEqual((pathlib.Path(folder) / name).read_bytes(), first)
            with zipfile.ZipFile(pathlib.Path(folder) / name) as wheel:
                files = {path: wheel.read(path) for path in wheel.namelist()}
        self.assertRegex(name, r"^borsh_proved-[\d.]+-py3-none-linux_x86_64\.whl$")
        for path in ("__init__.py", "py.typed", "schemas.borsh", "libborsh.so.0"):
            self.assertIn(f"borsh_proved/{path}", files)
        (record,) = (path for path in files if path.endswith("/RECORD"))
        sums = dict(line.split(",", 1) for line in files.pop(record).decode().splitlines())
        self.assertEqual(sums.pop(record), ",")
        for path, data in files.items():
            digest = base64.urlsafe_b64encode(hashlib.sha256(data).digest()).rstrip(b"=").decode()
            self.assertEqual(sums.pop(path), f"sha256={digest},{len(data)}")
        self.assertEqual(sums, {})


if __name__ == "__main__":
    unittest.main()
