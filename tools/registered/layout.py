"""How what is written stands in its file, and how terms are laid out there."""
import sys


class Part:
    """What is written of a file that is kept by hand otherwise: from its line `first` up to its line `behind`, or to its end."""

    def __init__(self, first, behind, text):
        self.first, self.behind, self.text = first + "\n", behind and behind + "\n", text

    def split(self, whole):
        """The file's text before the part, the part as it stands, and what is behind it."""
        for line in filter(None, (self.first, self.behind)):
            if "\n" + line not in whole:
                sys.exit(f"tools/registers.py finds no line `{line.strip()}`, between which and others it writes")
        start = whole.index("\n" + self.first) + 1
        end = whole.index("\n" + self.behind, start) + 1 if self.behind else len(whole)
        return whole[:start], whole[start:end], whole[end:]


def filled(words, column, width=100):
    """The words in lines of at most so many columns, the first one from that column on."""
    lines = [[]]
    for word in words:
        if column + len(word) > width:
            lines.append([])
            column = 8
        lines[-1].append(word)
        column += len(word) + 1
    return "\n        ".join(" ".join(line) for line in lines)


def member(name, words, width=100):
    """A ghost member of an implementation, filled."""
    head = f"    ghost {name} = {{ "
    return f"{head}{filled(words, len(head), width)} }};\n"


def nested(parts, end=None):
    """The parts as pairs within one another: (a, (b, c)), or with an end (a, (b, (c, end)))."""
    parts = list(parts) + ([] if end is None else [end])
    return parts[0] if len(parts) == 1 else f"({parts[0]}, {nested(parts[1:])})"


def key(type_name, ordered, law="Self.ordered.key", bounds=""):
    """A type that can be a key of a map."""
    return f"\nimpl{bounds} BorshKey for {type_name} {{\n    ghost ordered = {{ {ordered} }};\n\n    ghost key = {{ {law} }};\n}}\n"


def ser_methods(write, put, length, alloc="alloc"):
    """The three methods of `BorshSerialize`, by their bodies."""
    return f"""    #[inline]
    fn serialize<W: Write>(&self, {alloc}: Global, writer: &mut W) -> Result<()> {{
        {write}
    }}

    #[inline]
    fn put(&self, room: &mut [u8]) -> Option<usize> {{
        {put}
    }}

    #[inline]
    fn encoded_length(&self) -> Option<u32> {{
        {length}
    }}
"""
