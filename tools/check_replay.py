#!/usr/bin/env python3
"""Checks what the replay stored, without the original: crates/test_rows/data/replay.tsv, conformance/replay/differences.tsv and further.tsv.

Each question that the original answers otherwise is one of a row, whose answer is another one, and its reason is one that
docs/DIFFERENCES.md names; those of differences.tsv are of replay.tsv. The sections of replay.tsv have the sources of the table
in conformance/replay/README.md. Each word of the program borsh_check, as docs/TOOL.md lists them, is one of the replay and of
conformance/borsh_check, and there are rows of its type. Where a document gives a number of stored lines, it is right.
"""
import pathlib
import re
import runpy
import sys

# The documents that speak of the replay, and how they write the number of its lines.
DOCUMENTS = ("README.md", "docs/TRUST.md", "docs/DESIGN.md", "docs/TESTS.md", "docs/MAINTAINING.md", "conformance/replay/README.md")
SAID = re.compile(r"([\d,]+) stored lines")

top = pathlib.Path(__file__).resolve().parent.parent
judge = runpy.run_path(str(top / "conformance" / "judge"))
wrong = []


def read(path):
    """The text of a file, whose lines end in a line feed alone."""
    return (top / path).read_bytes().decode("utf-8")


def check_differences(asked):
    """Questions that are answered otherwise; how many there are."""
    documented = read("docs/DIFFERENCES.md")
    count = 0
    for path, file in (("conformance/replay/differences.tsv", "replay.tsv"), ("conformance/replay/further.tsv", None)):
        for number, line in enumerate(read(path).split("\n")[:-1], 1):
            question, answer, reason = line.rsplit("\t", 2)
            right = [answers for name, _section, it, answers in asked if it == question and file in (name, None)]
            if not right:
                wrong.append(f"{path}:{number}: no row asks this")
            if any(judge["is_right"](answer, answers, True) for answers in right):
                wrong.append(f"{path}:{number}: a row says that this answer is right")
            if f"`{reason}`" not in documented:
                wrong.append(f"{path}:{number}: docs/DIFFERENCES.md doesn't name the reason {reason}")
            count += 1
    return count


def check_sources(asked):
    """The sections' sources are those of the table."""
    table = set(re.findall(r"^\| `([a-z-]+)` \|", read("conformance/replay/README.md"), re.M))
    named = {section.rpartition(": ")[2] for name, section, _question, _answers in asked if name == "replay.tsv"}
    if table != named:
        wrong.append(f"conformance/replay/README.md and replay.tsv differ in the sources {sorted(table ^ named)}")


def check_words(asked):
    """The words are the same everywhere, and have rows."""
    text = read("docs/TOOL.md")
    rows = text[text.index("TYPE is one of these words:") :].splitlines()
    listed = set(re.findall(r"`([a-z][a-z0-9-]*)`", " ".join(row.split("|")[1] for row in rows if row.startswith("| `"))))
    typed = dict(re.findall(r'^    "([a-z0-9-]+)": (?:described|plain) (.*),$', read("conformance/replay/src/types.rs"), re.M))
    adapted = {word: name for name, word in re.findall(r'"([^"\n]+)": "([a-z0-9-]+)"', read("conformance/borsh_check"))}
    if listed != typed.keys() or typed != adapted:
        wrong.append("docs/TOOL.md, conformance/replay/src/types.rs and conformance/borsh_check differ in the words")
    questions = {tuple(question.split("\t")[:2]) for name, _section, question, _answers in asked if name == "replay.tsv"}
    for word, name in sorted(typed.items()):
        for question in (("read", name), ("canon", name)):
            if question not in questions:
                wrong.append(f"replay.tsv has no row of {' '.join(question)}")
        if not {("schema", name), ("line", f"schema {word}")} & questions:
            wrong.append(f"replay.tsv has no row of the schema of {name}")


def main():
    asked = list(judge["rows"](judge["DATA"]))
    others = check_differences(asked)
    check_sources(asked)
    check_words(asked)
    stored = sum(1 for line in read("crates/test_rows/data/replay.tsv").split("\n") if line and not line.startswith("# "))
    for path in DOCUMENTS:
        for number in SAID.findall(re.sub(r"\s+", " ", read(path))):
            if int(number.replace(",", "")) != stored:
                wrong.append(f"{path}: {number} stored lines, and there are {stored}")
    for it in wrong:
        print(it)
    if wrong:
        sys.exit(1)
    print(f"The replay has {stored} stored lines; the original answers {others} questions of the suite otherwise")


main()
