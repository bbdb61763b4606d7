#!/usr/bin/env python3
"""Makes docs/CONTRACTS.md from tools/contracts.md and the doc comments of the calls.

    tools/contracts.py            writes the page
    tools/contracts.py --check    fails if the page isn't what the comments give

In tools/contracts.md a line `<!-- calls of borsh_io, borsh_ser/parts -->` stands for a table of the calls in these crates and
files. A call's comment ends a paragraph with `Left open: ..`. What it says before that is determined, or, where that says
more than the contract does, what stands behind `Determined: ..`. `Left open of each call: ..` in the comment of a trait or
type, or at the head of a file, holds for each of its calls that doesn't say its own. A comment that begins with the name of
another call, as "[`write_two`] for three parts.", shares that call's row. Each call that a crate exports has to have a row.
"""
import pathlib
import re
import sys
import typing

TOP = pathlib.Path(__file__).resolve().parent.parent
PAGE = TOP / "docs/CONTRACTS.md"
FRAME = TOP / "tools/contracts.md"
# The crates whose `pub use` lines say what is exported.
FACADES = (
    "borsh", "borsh_values", "borsh_json", "borsh_compare", "borsh_texts", "borsh_source", "borsh_check_lines", "borsh_tool_commands", "borsh_c",
)

PLACE = re.compile(r"<!-- calls of (.*) -->")
TYPE = re.compile(r"(?:pub )?(trait|struct|enum|impl)\b(?:<[^{]*?>)? (\w+)")
IMPLEMENTATION = re.compile(r"impl\b(?:<.*?>)? (\w+ for .*) \{")
CALL = re.compile(r'( *)(pub )?(?:final |const (?=fn)|extern "C" )*(fn|const) (\w+)')
OPEN = re.compile(r"(.*?)(?:Determined: (.*?))?Left open: ([^\n]*)", re.S)
OPEN_OF_EACH = re.compile(r"Left open of each call: ([^\n]*)")
POINTER = re.compile(r"(?:As )?\[`([\w:]+)`\]")


class Call(typing.NamedTuple):
    """A call, or a trait's implementation for a type, with its comment and what else may say what it leaves open."""

    name: str
    comment: str
    around: tuple[str, ...]
    is_constant: bool
    crate: str


def prose(lines):
    """The paragraphs of a comment, a line each, without code, lists and headings."""
    text = re.sub(r"```.*?```", "", "\n".join(lines), flags=re.S)
    paragraphs = (" ".join(paragraph.split()) for paragraph in re.split(r"\n\s*\n", text))
    return "\n".join(paragraph for paragraph in paragraphs if paragraph and not paragraph.startswith(("#", "- ")))


def calls(file):
    """The calls of a file, in order."""
    lines = file.read_text(encoding="utf-8").splitlines()
    crate = file.parent.parent.name
    first = next((number for number, line in enumerate(lines) if not line.startswith("//")), len(lines))
    head = prose([line.lstrip("/!").strip() for line in lines[:first]])
    types, comment, owner, is_trait = {}, [], "", False
    for line in lines[first:]:
        text = line.strip()
        if text.startswith("///"):
            comment.append(text[3:].removeprefix(" "))
            continue
        if text.startswith("#["):
            continue
        said, comment = prose(comment), []
        if implementation := IMPLEMENTATION.match(line):
            owner = ""
            yield Call(implementation.group(1), said, (), False, crate)
        elif block := TYPE.match(line):
            is_trait = block.group(1) == "trait"
            owner = block.group(2)
            types[owner] = types.get(owner) or said
        elif line == "}":
            owner = ""
        elif call := CALL.match(line):
            indent, public, kind, name = call.groups()
            is_method = indent == "    " and owner
            if (is_method and (public or is_trait)) or (not indent and public):
                full = f"{owner}::{name}" if is_method else name
                yield Call(full, said, (types[owner], head) if is_method else (head,), kind == "const", crate)


def left_open(call):
    """What a call leaves open, by its own comment or by one around it; None if none says so."""
    if own := OPEN.match(call.comment):
        return own.group(3)
    each = (OPEN_OF_EACH.search(text) for text in call.around)
    return next((found.group(1) for found in each if found), "none" if call.is_constant else None)


def determined(call):
    own = OPEN.match(call.comment)
    return (own.group(2) or own.group(1)) if own else call.comment


def cell(text):
    """A comment's text in a table: without links, as one line that begins with a capital letter."""
    text = re.sub(r"\[(`[^`]+`)\](?:\([^)]*\))?", r"\1", text)
    text = " ".join(re.sub(r"`(?:crate|borsh_\w+)::", "`", text).split()).rstrip(".").replace("|", "\\|")
    return text[0].upper() + text[1:]


def is_in(place, file):
    """Whether a file is in a crate, or is the file `crate/file`."""
    crate, _, stem = place.partition("/")
    return file.is_relative_to(TOP / "crates" / crate / "src") and stem in ("", file.stem)


def exported():
    """The items and modules that are exported, each with its crate."""
    items = set()
    for facade in FACADES:
        for file in (TOP / "crates" / facade / "src").glob("*.rt"):
            text = file.read_text(encoding="utf-8")
            for path, names in re.findall(r"^pub use (\w+)::(?:\w+::)*(\{[^}]*\}|\w+)(?: as \w+)?;", text, re.M):
                crate = path if (TOP / "crates" / path).is_dir() else facade
                items |= {(crate, name) for name in re.findall(r"\w+", names)}
            if facade == "borsh" or file.stem == "lib":
                own = re.findall(r'^pub (?:extern "C" )?(?:fn|trait|struct|enum) (\w+)', text, re.M)
                items |= {(facade, name) for name in own}
    return items


def is_exported(call, file, items):
    crate = file.parent.parent.name
    return not items.isdisjoint({(crate, call.name.split("::")[0]), (crate, file.stem)})


def row_of(call, rows):
    """The row of the call that a comment begins with, if it says nothing of its own."""
    pointer = POINTER.match(call.comment)
    if pointer and not OPEN.match(call.comment):
        return next((row for row in rows if row[0].name == pointer.group(1)), None)
    return None


def exported_as(call):
    """A call's name for its users: a type may be exported by another name."""
    file = TOP / "crates" / call.crate / "src/lib.rt"
    owner, _, name = call.name.rpartition("::")
    other = re.search(rf"^pub use \w+::{owner} as (\w+);", file.read_text(encoding="utf-8"), re.M) if owner else None
    return f"{other[1]}::{name}" if other else call.name


def names_of(row):
    names = [f"`{exported_as(call)}`" for call in row]
    return ", ".join(names) if len(names) < 4 else f"{names[0]} to {names[-1]}"


def table(files, items):
    """The table of the calls in these files."""
    rows = []
    for file in files:
        for call in calls(file):
            if shared := row_of(call, rows):
                shared.append(call)
            elif left_open(call) and (is_exported(call, file, items) or not call.is_constant):
                rows.append([call])
    lines = ["| Call | Determined | Left open |", "|---|---|---|"]
    lines += (f"| {names_of(row)} | {cell(determined(row[0]))} | {cell(left_open(row[0]))} |" for row in rows)
    return "\n".join(lines)


def unsaid(files, items):
    """The exported calls of these files that don't say what they leave open."""
    for file in files:
        found = list(calls(file))
        for call in found:
            if is_exported(call, file, items) and not left_open(call) and not row_of(call, [[other] for other in found]):
                yield f"{file.relative_to(TOP)}: `{call.name}` has no `Left open: ..`"


def main():
    files = sorted((TOP / "crates").glob("borsh*/src/*.rt"))
    items, placed = exported(), set()

    def fill(place):
        chosen = [file for one in place.group(1).split(", ") for file in files if is_in(one, file)]
        placed.update(chosen)
        return table(chosen, items)

    page = PLACE.sub(fill, FRAME.read_text(encoding="utf-8"))
    wrong = list(unsaid(files, items))
    for file in files:
        if file not in placed and any(is_exported(call, file, items) for call in calls(file)):
            wrong.append(f"{file.relative_to(TOP)} has exported calls, and is in no table of {FRAME.relative_to(TOP)}")
    if not wrong and sys.argv[1:] != ["--check"]:
        PAGE.write_text(page, encoding="utf-8")
    elif PAGE.read_text(encoding="utf-8") != page:
        wrong.append("docs/CONTRACTS.md isn't what the comments give: run tools/contracts.py")
    if wrong:
        sys.exit("\n".join(wrong))
    print("docs/CONTRACTS.md is what the comments of the calls give")


main()
