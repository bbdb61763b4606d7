#!/usr/bin/env python3
"""Writes what the library says alike of many types: of numbers, of tuples, and of the types that hold a text, a list or a value.

    tools/registers.py           writes it
    tools/registers.py --check   says which files have anything else, and fails if there are any

Whoever reviews such a file reads what tools/registered/ says of one number, one tuple and one holder, and one implementation that was
written. The toolchain's formatter lays the text out, so `rt` has to be on the path.
"""
import pathlib
import subprocess
import sys
import tempfile

from registered import holders, numbers, tuples, wrapped

TOP = pathlib.Path(__file__).resolve().parent.parent
KINDS = (numbers, tuples, holders, wrapped)

# Each file that is written, and the parts of others, by their places below crates/.
FILES = {name: text for kind in KINDS for name, text in kind.FILES.items()}
PARTS = {}
for kind in KINDS:
    for name, parts in kind.PARTS.items():
        PARTS.setdefault(name, []).extend(parts)


def laid_out(texts):
    """The texts in the toolchain's layout; proofs have their own."""
    kit = pathlib.Path(subprocess.run(["rt", "doc"], capture_output=True, text=True, check=True).stdout.strip()).parent
    with tempfile.TemporaryDirectory() as folder:
        places = [pathlib.Path(folder) / f"{number}.rt" for number in range(len(texts))]
        for place, text in zip(places, texts):
            place.write_text(text, encoding="utf-8")
        subprocess.run([kit / "bin/rattle", "fmt", "--write", *places], check=True)
        return [place.read_text(encoding="utf-8") for place in places]


def written():
    """Each file with what is written of it, by its place below crates/."""
    code = [name for name in FILES if name.endswith(".rt")]
    parts = [(name, part) for name, of_file in PARTS.items() for part in of_file]
    texts = laid_out([FILES[name] for name in code] + [part.text for _, part in parts])
    whole = {**FILES, **dict(zip(code, texts))}
    for (name, part), text in zip(parts, texts[len(code) :]):
        before, _, behind = part.split(whole.get(name) or read(name))
        whole[name] = before + text + ("\n" + behind if behind else "")
    return whole


def read(name):
    file = TOP / "crates" / name
    return file.read_text(encoding="utf-8") if file.exists() else ""


def written_lines(crate):
    """How many lines of a crate's code are written here."""
    files = [read(name) for name in FILES if name.startswith(f"{crate}/src/")]
    parts = [part.split(read(name))[1] for name, of_file in PARTS.items() if name.startswith(f"{crate}/src/") for part in of_file]
    return sum(len(text.splitlines()) for text in files + parts)


def main():
    is_check = sys.argv[1:] == ["--check"]
    if sys.argv[1:] and not is_check:
        sys.exit(__doc__)
    whole = written()
    others = [name for name, text in whole.items() if read(name) != text]
    if is_check and others:
        sys.exit("".join(f"crates/{name} isn't what tools/registers.py writes\n" for name in others))
    for name in others:
        file = TOP / "crates" / name
        file.parent.mkdir(parents=True, exist_ok=True)
        file.write_text(whole[name], encoding="utf-8")
    print(f"tools/registers.py: {len(whole)} files" + ("" if is_check else f", {len(others)} written anew"))


if __name__ == "__main__":
    main()
