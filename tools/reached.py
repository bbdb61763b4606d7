"""Which definitions of specs/ a reader needs: those that the contracts of public calls name, those that they name in turn, and so on.

A definition is told by its first line (`abbrev`, `data`, `record`, or `pub` and a name), and has the comment above it. Public are the calls
that a crate's lib.rt exports by name, those of public modules, methods of exported types, traits with all that they say, and what
implementations say of a type (`ghost NAME = { .. };`). Names are followed through the imports of each file.
"""
import pathlib
import re

top = pathlib.Path(__file__).resolve().parent.parent

USE = re.compile(r"^ *(pub |ghost )?use Rattle\.(.+?);?$", re.M)
BEGINS = re.compile(r"^\s*(?:(?:abbrev|pub|data|record|unfoldable|opaque) )+([^\s(){},;:]+)")
WORDS = re.compile(r"[^\s(){},;:\[\]]+")
CALL = re.compile(r"^(\s*)pub (?:unsafe )?(?:extern \"C\" )?fn (\w+)")
IMPL = re.compile(r"^(?:unsafe )?impl(?:<.*?>)? (?:[\w:<>, '\[\]&;()]+ for )?&?(?:mut )?\[?(\w+)")


def spread(path):
    """The paths that a path with braces stands for."""
    front, brace, inside = path.partition("{")
    if not brace:
        yield path.strip()
        return
    depth, word = 0, ""
    for letter in inside[:-1] + ",":
        depth += {"{": 1, "}": -1}.get(letter, 0)
        if letter == "," and depth == 0:
            yield from spread(front + word.strip())
            word = ""
        else:
            word += letter


class Names:
    """What a file imports of specs/: names, and modules under a name."""

    def __init__(self, text):
        self.names, self.modules, self.exports = {}, {}, {}
        for it in USE.finditer(text):
            for path in spread(it[2]):
                path, _, alias = path.partition(" as ")
                crate, kind, *rest = path.split(".")
                if kind != "specs" or not rest:
                    continue
                name = alias or rest[-1]
                self.names[name] = (crate, ".".join(rest[:-1]), rest[-1])
                self.modules[name] = (crate, ".".join(rest))
                if it[1] == "pub ":
                    self.exports[name] = self.names[name]


class Definition:
    """A definition: its name, those of its fields and constructors, and its lines."""

    def __init__(self, name, indent, lines):
        self.name, self.indent, self.lines, self.names = name, indent, lines, {name}

    def add(self, lines):
        self.lines += lines
        field = re.match(r"\s+(?:pub )?([^\s(){},;:]+) :", lines[-1])
        if field:
            self.names.add(field[1])


class File:
    """A file of specs/."""

    def __init__(self, text):
        self.imports, self.definitions, comment = Names(text), [], []
        now = None
        for line in text.splitlines():
            indent = len(line) - len(line.lstrip())
            begins = BEGINS.match(line)
            if not line.strip() or line.startswith(("use ", "pub use ", "pub mod ")) or line.lstrip().startswith(("module ", "mutual")):
                now, comment = (None, []) if line.strip() else (now, comment)
            elif line.lstrip().startswith("--"):
                comment.append(line)
            elif begins and (now is None or indent <= now.indent):
                now = Definition(begins[1], indent, [*comment, line])
                self.definitions.append(now)
                comment = []
            elif now is not None:
                now.add([*comment, line])
                comment = []


def public_text(crate):
    """What the public calls of a crate say, a file after the other, with what the file imports."""
    source = top / "crates" / crate / "src"
    root = (source / "lib.rt").read_text(encoding="utf-8")
    exported = {name for it in re.findall(r"pub use ([^;]+);", root) for name in re.findall(r"\w+(?!\w*::)", it)}
    exported |= set(re.findall(r"pub mod (\w+)", root)) | {"lib"}
    for file in source.rglob("*.rt"):
        text, said, inside, is_said = file.read_text(encoding="utf-8"), [], None, False
        for line in text.splitlines():
            inside = IMPL.match(line)[1] if IMPL.match(line) else None if line.startswith("}") else inside
            call = CALL.match(line)
            if call:
                names = {file.stem, inside} if call[1] else {file.stem, call[2]}
                is_said = bool(names & exported)
            elif re.match(r"(pub )?trait |\s+ghost \w+( :|.* = \{)", line):
                is_said = True
            if is_said:
                said.append(line)
            is_said = is_said and not (line.strip() == "{" or re.match(r"\s+ghost .*;$", line) or line == "}")
        yield "\n".join(said), Names(text)


def reached_of(crates):
    """Of each file of specs/, by `CRATE/FILE`, how many lines of definitions the public calls of these crates need."""
    files = {}
    for folder in (top / "crates").glob("*/specs"):
        for file in folder.rglob("*.antt"):
            name = ".".join(file.relative_to(folder).with_suffix("").parts)
            files[folder.parent.name, name] = File(file.read_text(encoding="utf-8"))

    def find(crate, file, name):
        it = files.get((crate, file))
        if it is None:
            return None
        for definition in it.definitions:
            if name in definition.names:
                return crate, file, it.definitions.index(definition)
        return find(*it.imports.exports[name]) if name in it.imports.exports else None

    def named(text, imports, own=None):
        for word in set(WORDS.findall(text)):
            first, _, rest = word.partition(".")
            yield from (find(*imports.names[it]) for it in {word, first} if it in imports.names)
            if own:
                yield from (find(*own, it) for it in {word, first})
            if first in imports.modules and rest:
                yield find(*imports.modules[first], rest.partition(".")[0])

    reached, left = set(), []
    for crate in crates:
        for text, imports in public_text(crate):
            left += named(text, imports)
    while left:
        it = left.pop()
        if it is None or it in reached:
            continue
        reached.add(it)
        crate, file, index = it
        lines = files[crate, file].definitions[index].lines
        code = "\n".join(line for line in lines if not line.lstrip().startswith("--"))
        left += named(code, files[crate, file].imports, (crate, file))
    counts = {}
    for crate, file, index in reached:
        name = f"{crate}/{file.replace('.', '/')}"
        counts[name] = counts.get(name, 0) + len(files[crate, file].definitions[index].lines)
    return counts
