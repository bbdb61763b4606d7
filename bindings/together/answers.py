"""What the Python package answers of each case (cases.py), in lines like those of answers.c, and behind a tab what is Python's own: the value,
what it is encoded to, and what is said of it with a wrong part. `answers.py FILE [CALLS]`."""

import ctypes
import gc
import itertools
import json
import math
import struct
import sys

from borsh_proved import Answer, Error, Kind, Schema, compare

CODES = {Kind.NO: 1, Kind.MALFORMED: 2, Kind.UNDECIDED: 5}
COMPARED = {Answer.SAME: 0, Answer.COMPATIBLE: 0, Answer.INCOMPATIBLE: 1, Answer.NOT_KNOWN: 5}
WRONG = [None, True, 7, -1, 1.5, "x", "0x00", "5", b"\1", [], {}, [1], {"a": 1}, "\ud800", 2**64, math.nan, math.inf, 2**200, "0x0a0b0c0d0e0f0a0b", {1: 2}]


# Names that were changed may have characters that end a line, or part what is in it.
PLAIN = {code: "?" for code in range(32)}


def refusal(error):
    offset = "" if error.offset is None else error.offset
    text = f"{CODES[error.kind]}|{error.path or ''}|{offset}|{error}"
    return text if text.isprintable() else text.translate(PLAIN)


def told(call, *arguments):
    """What a call says: a refusal, or `0` and what it returns."""
    try:
        found = call(*arguments)
    except Error as error:
        return refusal(error)
    return "0" if found is None else f"0 {found.hex() if isinstance(found, bytes) else found}"


def told_of_bytes(call, argument, data):
    """The same, and nothing behind `0` where it returns these bytes."""
    found = told(call, argument)
    return "0" if found == f"0 {data.hex()}" else found


def shown(value):
    """A value by what it is, in words that JavaScript has for it too."""
    if value is None or isinstance(value, bool):
        return {None: "n", True: "t", False: "f"}[value]
    if isinstance(value, float):
        is_whole = value.is_integer() and (value != 0 or math.copysign(1, value) > 0)
        return str(int(value)) if is_whole else "x" + struct.pack(">d", value).hex()
    if isinstance(value, int):
        return str(value)
    if isinstance(value, str):
        return json.dumps(value, ensure_ascii=False)
    if isinstance(value, bytes):
        return "b" + value.hex()
    if isinstance(value, dict):
        return "{" + ",".join(f"{json.dumps(str(key), ensure_ascii=False)}:{shown(value[key])}" for key in in_order(value)) + "}"
    return "[" + ",".join(map(shown, value)) + "]"


def in_order(value):
    return sorted(value, key=lambda key: str(key).encode())


def parts_of(value):
    """How many parts a value has, with itself."""
    inner = value.values() if isinstance(value, dict) else value if isinstance(value, (list, tuple)) else ()
    return 1 + sum(map(parts_of, inner))


def exchanged(value, at, wrong):
    """The value with the part of this number in its order exchanged; and the number that comes behind the value's parts."""
    if at == 0:
        return wrong, -1
    at -= 1
    if isinstance(value, dict):
        found = {}
        for key in in_order(value):
            found[key], at = exchanged(value[key], at, wrong)
        return found, at
    if isinstance(value, (list, tuple)):
        items = []
        for item in value:
            item, at = exchanged(item, at, wrong)
            items.append(item)
        return type(value)(items), at
    return value, at


class Answers:
    def __init__(self, write):
        self.write = write
        self.calls = 0

    def schema(self, encoding):
        """The schema that is made, or None."""
        self.calls += 2
        try:
            schema = Schema(encoding)
        except Error as error:
            self.write(f"{refusal(error)} ; {refusal(error)}\n")
            return None
        self.write(f"{told(schema.validate)} ; {told(schema.max_size)}\n")
        return schema

    def value(self, schema, data, numbers=()):
        self.calls += 4 + len(numbers)
        member = told(schema.check, data)
        try:
            value = schema.decode(data)
        except Error as error:
            self.write(f"{member} ; {refusal(error)}\n")
            return
        text = schema.to_json(data)
        mine = told_of_bytes(schema.encode, value, data)
        again = told_of_bytes(schema.from_json, text, data) if numbers else mine
        wrong = "".join(f" ; {self.wrong(schema, value, number)}" for number in numbers)
        self.write(f"{member} ; {text} ; {again}\t{shown(value)} ; {mine}{wrong}\n")

    def types(self, items, name, old, new):
        self.calls += 2
        compared = compare(old, new)
        parsed = told(lambda: bytes(Schema.parse(items, name)))
        self.write(f"{parsed} ; {COMPARED[compared.answer]} {compared.text.translate(PLAIN)}\n")

    def wrong(self, schema, value, number):
        return told(schema.encode, exchanged(value, number % parts_of(value), WRONG[number // 50])[0])

    def case(self, line):
        words = line.split()
        encoding, value, masks = bytes.fromhex(words[0]), *(b"" if word == "-" else bytes.fromhex(word) for word in words[3:5])
        schema = self.schema(encoding)
        other = self.schema(changed(encoding, int(words[1]), int(words[2])))
        self.types(*(bytes.fromhex(word).decode() for word in words[5:7]), schema, other or schema)
        self.value(schema, value, list(map(int, words[7:])))
        for at, mask in enumerate(masks):
            self.value(schema, changed(value, at, mask))


def changed(data, at, mask):
    return data[:at] + bytes([data[at] ^ mask]) + data[at + 1 :]


class Heap(ctypes.Structure):
    _fields_ = [(f"number{at}", ctypes.c_size_t) for at in range(10)]


def taken():
    """How many bytes are taken of the heap of C, and how many blocks of Python's own."""
    gc.collect()
    heap = ctypes.CDLL(None).mallinfo2
    heap.restype = Heap
    return heap().number7, sys.getallocatedblocks()


def main():
    with open(sys.argv[1], encoding="ascii") as cases:
        if len(sys.argv) == 2:
            with open(1, "w", encoding="utf-8", newline="\n") as file:
                answers = Answers(file.write)
                for line in cases:
                    answers.case(line)
            return
        most = int(sys.argv[2])
        answers, before = Answers(len), None
        lines = list(cases)
    for line in itertools.cycle(lines):
        answers.case(line)
        if before is None and answers.calls >= most // 10:
            answers.calls, before = 0, taken()
        if before is not None and answers.calls >= most:
            print(*(number for pair in zip(before, taken()) for number in pair))
            return


main()
