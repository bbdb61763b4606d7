"""Comments `// derive: ..`, which mark a type, and what only looks like one."""

import re

from refusal import Refusal

# what a comment `// derive: ..` may ask for
OPTIONS = ('borsh', 'schema', 'key')


def mark_of(comment):
    """What a comment `// derive: ..` says, or None."""
    match = re.match(r'//(?![/!])\s*derive\s*:(.*)$', comment.text)
    return match and match[1]


def mark_above(reader, seen):
    """The comment `// derive: borsh` above the next item, or None. Other options are refused."""
    found = None
    for comment in reader.comments():
        options = mark_of(comment)
        if options is None or comment in seen:
            continue
        seen.add(comment)
        if reader.at_end():
            raise Refusal(comment.line, 'no type is below the comment: remove it')
        if comment.line == reader.last_line():
            raise Refusal(comment.line, 'the comment is behind code: write it above the type')
        if found is not None:
            raise Refusal(comment.line, 'a second comment of this kind above one type')
        check_options(options, comment.line)
        found = comment
    return found


def options_of(text):
    return [option.strip() for option in text.split(',')]


def check_options(text, line):
    options = options_of(text)
    for index, option in enumerate(options):
        if option not in OPTIONS:
            reason = '`%s` is no option: write `// derive: borsh`, and `, schema` or `, key` behind it if wanted'
            raise Refusal(line, reason % option)
        if option in options[:index]:
            raise Refusal(line, 'the option `%s` comes twice' % option)
    if 'borsh' not in options:
        raise Refusal(line, 'the option `borsh` is missing: write `// derive: borsh, %s`' % ', '.join(options))


def stray_marks(reader, seen):
    """Refusals of marks within an item, which mark nothing."""
    reason = 'the comment is within an item: only types at the top of a file are taken'
    return [Refusal(comment.line, reason) for comments in reader.before.values() for comment in comments
            if mark_of(comment) is not None and comment not in seen]


# a comment that is nearly a mark: all that it says is that something is derived
DERIVED = r'(?:deriv\w*|d[a-z]{3,6}(?=\s*:))[\W_]*borsh\w*|borsh[\W_]*deriv\w+|borsh'
ALMOST = re.compile(r'(?://[/!]*|/\*+!?)[\s*#\[(@-]*(?:%s)(?:[\W_]+(?:borsh\w*|schema|key)|\s*,\s*\w+)*[\W_]*$' % DERIVED, re.I)


def almost_marks(reader):
    """Refusals of comments that look like a mark and aren't one."""
    reason = '`%s` marks nothing: write `// derive: borsh`'
    return [Refusal(comment.line, reason % comment.shown()) for comments in reader.before.values() for comment in comments
            if mark_of(comment) is None and ALMOST.match(comment.text)]


# derive macros of the original
MACROS = re.compile(r'\bBorsh(?:Serialize|Deserialize|Schema)\b')


def refuse_macros(attributes):
    """A derive macro of the original above a type that isn't marked."""
    for name, text, line in attributes:
        if name == 'derive' and MACROS.search(text):
            reason = '`%s` in `#%s`: there is no such macro here, so write `// derive: borsh` above the type in its place'
            raise Refusal(line, reason % (MACROS.search(text)[0], text))
