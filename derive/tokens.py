"""Rust source as tokens: words, numbers, strings, comments and marks, each with its line."""

from refusal import Refusal

# marks of several characters; all others are one character
LONG_MARKS = ('..=', '...', '::', '->', '=>', '..', '==', '!=', '<=', '>=', '&&', '||')


class Token:
    """A piece of source. `kind` is 'word', 'number', 'text', 'lifetime', 'mark' or 'comment'."""

    def __init__(self, kind, text, line):
        self.kind = kind
        self.text = text
        self.line = line

    def shown(self):
        """The beginning of the text, for a message."""
        first = self.text.split('\n')[0]
        return first if first == self.text and len(first) <= 40 else first[:40] + '..'


def is_word_start(c):
    return c.isalpha() or c == '_'


def is_word_part(c):
    return c.isalnum() or c == '_'


def tokens_of(source):
    """The tokens of a file, its comments among them."""
    found = []
    place = 0
    line = 1
    while place < len(source):
        if source[place].isspace():
            line += source[place] == '\n'
            place += 1
            continue
        kind, end = next_token(source, place, line)
        text = source[place:end]
        found.append(Token(kind, text, line))
        line += text.count('\n')
        place = end
    return found


def next_token(source, place, line):
    """The kind of the token that begins at `place`, and where it ends."""
    if source.startswith('//', place):
        end = source.find('\n', place)
        return 'comment', len(source) if end < 0 else end
    if source.startswith('/*', place):
        return 'comment', end_of_block_comment(source, place, line)
    raw = end_of_raw_string(source, place, line)
    if raw is not None:
        return 'text', raw
    if source[place] == '"' or source.startswith('b"', place):
        return 'text', end_of_string(source, source.index('"', place), line)
    if source[place] == "'" or source.startswith("b'", place):
        return character_or_lifetime(source, place)
    if source.startswith('r#', place) and is_word_start(source[place + 2:place + 3] or ' '):
        return 'word', end_of_word(source, place + 2)
    if is_word_start(source[place]):
        return 'word', end_of_word(source, place)
    if source[place].isdigit():
        return 'number', end_of_word(source, place)
    for mark in LONG_MARKS:
        if source.startswith(mark, place):
            return 'mark', place + len(mark)
    return 'mark', place + 1


def end_of_word(source, place):
    while place < len(source) and (is_word_part(source[place]) or is_prime(source, place)):
        place += 1
    return place


def is_prime(source, place):
    """Whether a quote ends a name of a ghost term, as `x'`, and begins no character."""
    return source[place] == "'" and source[place - 1:place] != 'b' and source[place + 2:place + 3] != "'"


def end_of_block_comment(source, place, line):
    """Behind a comment `/* .. */`; such comments may be nested."""
    depth = 0
    while place < len(source):
        if source.startswith('/*', place):
            depth += 1
            place += 2
        elif source.startswith('*/', place):
            depth -= 1
            place += 2
            if depth == 0:
                return place
        else:
            place += 1
    raise Refusal(line, 'a comment is not closed')


def end_of_raw_string(source, place, line):
    """Behind a string `r"..."` or `br#"..."#`; None if there is none here."""
    start = place + (source[place] == 'b')
    if not source.startswith('r', start):
        return None
    quote = start + 1
    while source.startswith('#', quote):
        quote += 1
    if not source.startswith('"', quote):
        return None
    close = '"' + '#' * (quote - start - 1)
    end = source.find(close, quote + 1)
    if end < 0:
        raise Refusal(line, 'a string is not closed')
    return end + len(close)


def end_of_string(source, quote, line):
    place = quote + 1
    while place < len(source):
        if source[place] == '\\':
            place += 2
        elif source[place] == '"':
            return place + 1
        else:
            place += 1
    raise Refusal(line, 'a string is not closed')


def character_or_lifetime(source, place):
    """A character in quotes, or a lifetime, or a mere quote."""
    start = source.index("'", place) + 1
    if source.startswith('\\', start):
        end = source.find("'", start + 2)
        return 'text', len(source) if end < 0 else end + 1
    if source.startswith("'", start + 1):
        return 'text', start + 2
    if is_word_start(source[start:start + 1] or ' '):
        return 'lifetime', end_of_word(source, start)
    return 'mark', start
