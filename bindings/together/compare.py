#!/usr/bin/env python3
"""Asks C, Rust, Python and JavaScript the same of random schemas and values (cases.py), and compares what they answer, line by line; then
compares the memory that each has before and after 100,000 calls. BORSH_CASES says how many cases there are, and BORSH_SEED which.

Of each case are asked: the schema, and the schema with a byte changed (its rules, and the greatest size); the container of a type by its
text, and whether data of the first schema is still read by the changed one; the value, and the value with each
byte changed in turn (whether it is one; its JSON, and the bytes of that; or else kind, path, offset and words of the refusal). Python and
JavaScript also tell the value as theirs, what it is encoded to, and what they say of it with a part exchanged for a wrong one.
"""

import collections
import concurrent.futures
import itertools
import os
import pathlib
import subprocess
import sys
import tempfile
import time

import cases

HERE = pathlib.Path(__file__).resolve().parent
OUT = HERE.parent / "out"
PROGRAMS = {
    "JavaScript": ["node", "--expose-gc", HERE / "answers.mjs"],
    "Python": [sys.executable, "-B", "-W", "error", HERE / "answers.py"],
    "Rust": [OUT / "rust/release/examples/answers"],
    "C": [OUT / "together/answers"],
}
CALLS = 100_000
# By how many bytes the memory may have grown. What engines keep for themselves varies, but the least object for each call would be more.
GROWTH = {"C": 0, "Rust": 0, "Python": 2**16, "JavaScript": 2**20}
MOST_SHOWN = 5
PROCESSORS = len(os.sched_getaffinity(0))


def run(name, file, *words):
    """What a language's program prints, in a file."""
    answers = file.with_name(f"{name}{len(words)}")
    # Blocks that the C library keeps for a thread would count as taken.
    variables = {"BORSH_LIB": str(OUT), "PYTHONPATH": str(HERE.parent / "python/src"), "GLIBC_TUNABLES": "glibc.malloc.tcache_count=0"}
    with open(answers, "wb") as output:
        subprocess.run([*PROGRAMS[name], file, *words], stdout=output, env={**os.environ, **variables}, check=True)
    return answers


def lines_of(answers):
    with open(answers, encoding="utf-8", newline="\n") as lines:
        yield from lines


def differ(answers):
    """Whether the answers to a question aren't the same: what all say before a tab, and what Python and JavaScript say behind it."""
    return len({answer.rstrip("\n").split("\t")[0] for answer in answers.values()}) != 1 or answers["Python"] != answers["JavaScript"]


def compare(lines, files):
    """How many answers there are of each kind; and how many questions aren't answered alike, after telling some of them."""
    counts, wrong = collections.Counter(), 0
    answers = itertools.zip_longest(*map(lines_of, files.values()), fillvalue="no answer")
    for number, line in enumerate(lines):
        masks = line.split()[4].replace("-", "")
        for question in range(4 + len(masks) // 2):
            answer = dict(zip(files, next(answers)))
            if differ(answer):
                wrong += 1
                if wrong <= MOST_SHOWN:
                    print(f"case {number}, question {question}: {line}", *(f"{name}: {text.rstrip()}" for name, text in answer.items()), sep="\n  ")
            if question < 2:
                continue
            if question == 2:
                counts["types", answer["C"].startswith("0 ")] += 1
                counts["changed schemas", " ; 0 " in answer["C"]] += 1
                continue
            is_taken = answer["C"].endswith(" ; 0\n")
            counts["values" if question == 3 else "changed values", is_taken] += 1
            if question == 3 and is_taken:
                for told in answer["Python"].split(" ; ")[-6:]:
                    counts["values with a wrong part", told.startswith("0 ")] += 1
    return counts, wrong + sum(1 for _ in answers)


def main():
    count, seed = int(os.environ.get("BORSH_CASES", 20_000)), int(os.environ.get("BORSH_SEED", 1))
    started = time.monotonic()
    lines = list(cases.cases(seed, count))
    with tempfile.TemporaryDirectory() as folder, concurrent.futures.ThreadPoolExecutor(PROCESSORS) as pool:
        file = pathlib.Path(folder, "cases")
        file.write_text("\n".join(lines) + "\n", encoding="ascii")
        answers = {name: pool.submit(run, name, file) for name in PROGRAMS}
        memories = {name: pool.submit(run, name, file, str(CALLS)) for name in PROGRAMS}
        counts, wrong = compare(lines, {name: it.result() for name, it in answers.items()})
        grown = {}
        for name, it in memories.items():
            numbers = list(map(int, it.result().read_text().split()))
            grown[name] = max(after - before for before, after in zip(numbers[::2], numbers[1::2]))
    kinds = [f"{counts[kind, True]} {kind} taken, {counts[kind, False]} refused" for kind in dict.fromkeys(kind for kind, _ in counts)]
    print(f"{count} random schemas (seed {seed}) in {', '.join(PROGRAMS)}: {'; '.join(kinds)}; {wrong} answers differ")
    print(f"bytes of memory more after {CALLS} calls than before: {', '.join(f'{name} {more}' for name, more in grown.items())}")
    print(f"{time.monotonic() - started:.0f} s on {PROCESSORS} processors")
    are_taken = counts["values", True] > 0.9 * count and counts["types", True] > 0.4 * count
    is_right = wrong == 0 and are_taken and all(grown[name] <= GROWTH[name] for name in grown)
    return 0 if is_right else 1


sys.exit(main())
