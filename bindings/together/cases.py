"""Random schemas and values, the same for the same seed. Written without any of the libraries: what bytes are, is said once more here."""

import itertools
import random
import struct

WHOLE = {f"{sign}{8 * size}": (size, sign == "i") for size in (1, 2, 4, 8, 16) for sign in "ui"}
NON_ZERO = {f"NonZero{name.upper()}": kind for name, kind in WHOLE.items()}
NON_ZERO["NonZeroUsize"] = (8, False)
NUMBERS = {**WHOLE, **NON_ZERO}
PRIMITIVES = {**{name: size for name, (size, _) in NUMBERS.items()}, "bool": 1, "f32": 4, "f64": 8, "char": 4, "Hash": 3}

NAMES = ["a", "b", "value", "__proto__", "constructor", "toString", "length", "", "0", "7", "-1", "two words", 'q"uote', "back\\slash", "é"]
NAMES += ["\U0001f600", "None", "Some", "String", "A.b", "[0]"]
TEXTS = ["", "a", "b", "hé", "\U0001f600", "0x0a", "7", "null", "\0", "\n", '"', "\\", "__proto__", "\uffff", "\U00010000"]
FLOATS = [0.0, -0.0, 1.0, -1.0, 1.5, 0.1, 2.0**60, 1e-300, float("inf"), -float("inf")]


def text(value):
    data = value.encode()
    return len(data).to_bytes(4, "little") + data


def vector(parts):
    return len(parts).to_bytes(4, "little") + b"".join(parts)


def primitive(size):
    return bytes([0, size])


def sequence(element, width=4, start=0, end=2**32 - 1):
    return b"\1" + struct.pack("<BQQ", width, start, end) + text(element)


def tuple_of(elements):
    return b"\2" + vector([text(element) for element in elements])


def enum(width, variants):
    return b"\3" + bytes([width]) + vector([tag.to_bytes(8, "little", signed=True) + text(name) + text(part) for tag, name, part in variants])


def struct_of(named=None, unnamed=None):
    if named is not None:
        return b"\4\0" + vector([text(name) + text(part) for name, part in named])
    return b"\4\2" if unnamed is None else b"\4\1" + vector([text(part) for part in unnamed])


class Case:
    """A schema, and how values of its names are made: by name, a function from how deep a value is to its bytes."""

    def __init__(self, seed):
        self.random = random.Random(seed)
        self.definitions = {}
        self.makers = {}
        self.numbers = itertools.count()
        self.root = self.type(3)

    def schema(self):
        ordered = sorted(self.definitions.items(), key=lambda it: it[0].encode())
        return text(self.root) + len(ordered).to_bytes(4, "little") + b"".join(text(name) + it for name, it in ordered)

    def value(self):
        return self.makers[self.root](0)

    def define(self, name, definition, maker):
        """A name that is defined already keeps its definition: what composes names may come to the same one."""
        if name not in self.definitions:
            self.definitions[name] = definition
            self.makers[name] = maker
        return name

    def type(self, depth):
        if depth == 0 or self.random.random() < 0.25:
            return self.leaf()
        often = [self.list, self.map, self.record, self.choice]
        others = [self.set, self.array, self.option, self.tuple, self.newtype, self.counted, self.loop]
        return self.random.choice(2 * often + others)(depth - 1)

    def leaf(self):
        kind = self.random.randrange(8)
        if kind == 0:
            return self.unit()
        if kind < 3:
            return self.string()
        return self.primitive(self.random.choice(list(PRIMITIVES)))

    def unit(self):
        name, definition = self.random.choice([("()", tuple_of([])), ("Unit", struct_of()), ("Nothing", primitive(0)), ("Zero", struct_of(unnamed=[]))])
        return self.define(name, definition, lambda _: b"")

    def string(self):
        self.primitive("u8")
        return self.define("String", sequence("u8"), lambda _: text(self.random.choice(TEXTS) + self.random.choice(TEXTS)))

    def primitive(self, name):
        size = PRIMITIVES[name]
        if name in NUMBERS:
            make = lambda _: self.number(size, name in NON_ZERO)
        elif name == "bool":
            make = lambda _: bytes([self.random.randrange(2)])
        elif name in ("f32", "f64"):
            make = lambda _: struct.pack("<f" if size == 4 else "<d", self.float(size))
        else:
            make = lambda _: self.random.randbytes(size)
        return self.define(name, primitive(size), make)

    def number(self, size, is_set):
        small = self.random.randbytes(1) + bytes(size - 1)
        limits = [bytes(size), b"\xff" * size, b"\1" + bytes(size - 1), bytes(size - 1) + b"\x80"]
        data = self.random.choice([small, self.random.randbytes(size), *limits])
        return b"\7" + data[1:] if is_set and not any(data) else data

    def float(self, size):
        found = self.random.choice(FLOATS) if self.random.random() < 0.7 else self.random.uniform(-1e9, 1e9)
        return 1.5 if size == 4 and 0 < abs(found) < 1e-30 else found

    def count(self, depth):
        return self.random.choice([0, 1, 1, 2, 3]) if depth < 4 else 0

    def many(self, element, width=4):
        return lambda depth: self.elements([self.makers[element](depth + 1) for _ in range(self.count(depth))], width)

    def elements(self, parts, width=4):
        return len(parts).to_bytes(width, "little") + b"".join(parts)

    def list(self, depth):
        element = self.solid(depth)
        return self.define(f"{self.random.choice(['Vec', 'VecDeque', 'LinkedList'])}<{element}>", sequence(element), self.many(element))

    def solid(self, depth):
        """A name whose values have bytes, as far as is needed: of a list that may be longer than its bytes there is no JSON."""
        name = self.type(depth)
        return self.primitive("u16") if self.makers[name](9) == b"" else name

    def key(self):
        return self.random.choice([self.string, self.string, lambda: self.primitive(self.random.choice(list(NUMBERS))), lambda: self.primitive("bool")])()

    def ascending(self, key, others):
        """Keys of a set or a map in their order, each with what follows it."""

        def order(data):
            if key == "String":
                return data[4:]
            return int.from_bytes(data, "little", signed=NUMBERS.get(key, (1, False))[1])

        def make(depth):
            keys = {self.makers[key](depth + 1) for _ in range(self.count(depth))}
            return self.elements([data + others(depth + 1) for data in sorted(keys, key=order)])

        return make

    def set(self, depth):
        key = self.key()
        return self.define(f"{self.random.choice(['BTreeSet', 'HashSet'])}<{key}>", sequence(key), self.ascending(key, lambda _: b""))

    def map(self, depth):
        key, value = self.key(), self.type(depth)
        entry = self.define(f"({key}, {value})", tuple_of([key, value]), lambda at: self.makers[key](at + 1) + self.makers[value](at + 1))
        name = self.random.choice(["BTreeMap", "HashMap", "IndexMap"])
        return self.define(f"{name}<{key}, {value}>", sequence(entry), self.ascending(key, lambda at: self.makers[value](at)))

    def array(self, depth):
        element, count = self.solid(depth), self.random.randrange(4)
        return self.define(f"[{element}; {count}]", sequence(element, 0, count, count), self.all([element] * count))

    def option(self, depth):
        part = self.type(depth)
        self.define("()", tuple_of([]), lambda _: b"")

        def make(at):
            return b"\0" if at > 4 or self.random.random() < 0.3 else b"\1" + self.makers[part](at + 1)

        return self.define(f"Option<{part}>", enum(1, [(0, "None", "()"), (1, "Some", part)]), make)

    def tuple(self, depth):
        parts = [self.type(depth) for _ in range(self.random.randrange(1, 4))]
        return self.define(f"({', '.join(parts)}{',' * (len(parts) == 1)})", tuple_of(parts), self.all(parts))

    def all(self, parts):
        return lambda at: b"".join(self.makers[part](at + 1) for part in parts)

    def own(self):
        return f"{self.random.choice(['A', 'Point', 'My type', '__proto__', 'Vec<X>', 'Ü'])}{next(self.numbers)}"

    def record(self, depth):
        names = self.random.sample(NAMES, self.random.randrange(1, 4))
        parts = [self.type(depth) for _ in names]
        return self.define(self.own(), struct_of(named=list(zip(names, parts))), self.all(parts))

    def newtype(self, depth):
        parts = [self.type(depth) for _ in range(self.random.choice([1, 1, 2]))]
        return self.define(self.own(), struct_of(unnamed=parts), self.all(parts))

    def choice(self, depth):
        width = self.random.choice([1, 1, 1, 2, 4])
        names = self.random.sample(NAMES, self.random.randrange(1, 4))
        tags = self.random.sample(range(6), len(names)) if self.random.random() < 0.5 else range(len(names))
        variants = [(tag, name, self.type(depth) if self.random.random() < 0.6 else self.unit()) for tag, name in zip(tags, names)]

        def make(at):
            tag, _, part = self.random.choice(variants)
            return tag.to_bytes(width, "little") + self.makers[part](at + 1)

        return self.define(self.own(), enum(width, variants), make)

    def counted(self, depth):
        """A list with another length before it, or fewer elements than the format's own."""
        width, element = self.random.choice([1, 2, 4, 8]), self.solid(depth)
        start, end = self.random.choice([(0, 255), (0, 3), (1, 200)])
        make = self.many(element, width)
        name = self.random.choice([self.own(), f"Vec<{element}>", "String"])
        return self.define(name, sequence(element, width, start, end), make)

    def loop(self, depth):
        """A type that contains itself."""
        name, part = self.own(), self.type(depth)
        self.define("()", tuple_of([]), lambda _: b"")
        inner = self.random.choice([f"Option<{name}>", f"Vec<{name}>"])
        self.define(name, struct_of(named=[("part", part), ("rest", inner)]), lambda at: self.makers[part](at + 1) + self.makers[inner](at + 1))
        if inner.startswith("Option"):
            definition = enum(1, [(0, "None", "()"), (1, "Some", name)])
            return self.define(inner, definition, lambda at: b"\0" if at > 3 else b"\1" + self.makers[name](at + 1))
        some = lambda at: range(self.count(at) if at < 3 else 0)
        return self.define(inner, sequence(name), lambda at: self.elements([self.makers[name](at + 2) for _ in some(at)]))


LEAVES = ["u8", "i64", "u128", "bool", "String", "f32", "()", "usize", "NonZeroU16", "IpAddr", "&'a str", "char", "T", "Missing"]
NESTED = ["Vec<{}>", "Option<{}>", "[{}; 3]", "[{}; N * 2]", "({}, u8)", "HashMap<String, {}>", "std::boxed::Box<{}>", "C<{}>", "Result<{}, A>", "&[{}]"]


def type_text(picker, depth=3):
    """A type in Rust's words."""
    if depth == 0 or picker.random() < 0.3:
        return picker.choice(LEAVES[:11] if picker.random() < 0.95 else LEAVES)
    return picker.choice(NESTED).format(type_text(picker, depth - 1))


def source_text(picker):
    """Items, and a type that names some; a character of either is changed at times."""
    types = [type_text(picker) for _ in range(4)]
    items = "const N: usize = 1 << {}; pub struct A {{ a: {}, b: {} }} enum B {{ X, Y({}), Z {{ z: {} }} }} struct C<T>(T, Vec<T>);".format(picker.randrange(3), *types)
    texts = [items, picker.choice(["A", "B", "Vec<B>", "C<A>", type_text(picker)])]
    if picker.random() < 0.3:
        which = picker.randrange(2)
        at = picker.randrange(len(texts[which]))
        texts[which] = texts[which][:at] + picker.choice("<>(),;:{}[]&*/'aA1 é") + texts[which][at + 1 :]
    return texts


MOST_BYTES = 40


def cases(seed, count):
    """Of each case a line of words in digits: the schema; a byte of it and what is changed there; the value, and what is changed of each of its
    bytes in turn; the text of items, and a type; and as numbers which part of the value is exchanged for a wrong one, some times."""
    picker = random.Random(seed)
    for _ in range(count):
        while True:
            case = Case(picker.randrange(2**64))
            schema, value = case.schema(), case.value()
            if len(value) <= MOST_BYTES and len(schema) < 1500:
                break
        at, mask = picker.randrange(len(schema)), 1 << picker.randrange(8)
        masks = bytes(picker.choice([1, 1, 0x80, picker.randrange(1, 256)]) for _ in value)
        wrong = [str(picker.randrange(1000)) for _ in range(6)]
        texts = [it.encode().hex() for it in source_text(picker)]
        yield " ".join([schema.hex(), str(at), str(mask), value.hex() or "-", masks.hex() or "-", *texts, *wrong])
