"""Comments `// skip` and `// tag: 7` at a field or a variant, and what could be meant for one of them."""

import re
import unicodedata

from refusal import Refusal

# words that a comment doesn't begin with unless it is `// skip` or `// tag: 7`, and what each could be meant for
MEANT = dict.fromkeys('skip skips skipped skipping'.split(), 'skip')
MEANT.update(dict.fromkeys('tag tags tagged discriminant discriminants discriminator discr'.split(), 'tag'))

# prose begins with these as a sentence does; alone, with a sign or a number behind it, it could be a mark
IN_PROSE = ('skips', 'skipping', 'tags', 'tagged')

# words before them, as in `borsh: skip`, `#[borsh(skip)]` and `serde_skip`
BEFORE = re.compile(r'(?:borsh|serde)(?:[\W_]+|(?=skip|tag))(?=\w)')


def comment_of(comment):
    """'skip' or 'tag' for a comment that says something of a field or a variant."""
    match = re.match(r'//(?![/!])\s*(skip\s*$|tag\s*:)', comment.text)
    return match and match[1].rstrip(': ')


def refuse_unused(reader, start):
    """A comment `// skip` or `// tag: 7` that is above no field and no variant, from a token on."""
    for place, comment in comments_of(reader, start):
        told = comment_of(comment)
        if told and comment not in reader.used:
            reason = '`%s` is not above a %s: write it in a line of its own above the one that it is for'
            raise Refusal(comment.line, reason % (comment.shown(), {'skip': 'field'}.get(told, 'variant')))


def comments_of(reader, start):
    """The comments of an item, from a token on: those behind it count in the line where it ends."""
    for place in range(start, reader.place + 1):
        for comment in reader.before.get(place, []):
            if place < reader.place or comment.line == reader.last_line():
                yield place, comment


def refuse_near(reader, start, body):
    """A line of a comment that begins with such a word and is neither `// skip` nor `// tag: 7`: in an item's body, which
    begins with a token, in any case, and above the item if nothing else is in it."""
    for place, comment in comments_of(reader, start):
        if comment_of(comment) is None:
            for index, line in enumerate(comment.text.split('\n')):
                text = re.sub(r'^\s*/[/*]+!?|\*+/\s*$', '', line)
                if place >= body or not re.search(r'[^\W\d]\W+[^\W\d]', text):
                    refuse_line(line, text, comment.line + index)


def refuse_doc(text, line):
    """The same of an attribute `#[doc = ".."]`."""
    told = re.match(r'\[doc = r?#*"(.*?)"#*\]$', text, re.S)
    for row in told[1].replace('\\n', '\n').split('\n') if told else []:
        refuse_line('#' + text, row, line)


def refuse_line(shown, text, line):
    """What a comment says in a line, shown as it was written."""
    meant = meant_by(text)
    if meant:
        number = re.search(r'(?<!\w)[0-9]\w*', text)
        instead = {
            'skip': 'write `// skip` above the field or behind it',
            'tag': 'write `// tag: %s` above the variant' % (number[0] if number else '7'),
            'borsh': 'there are `// skip` for a field and `// tag: 7` for a variant',
        }[meant]
        shown = shown.strip() if len(shown.strip()) <= 60 else shown.strip()[:60] + '..'
        reason = ('`%s` changes no byte of the encoding, and begins as if it did: %s, alone in its comment, or begin with '
                  'another word')
        raise Refusal(line, reason % (shown, instead))


def meant_by(text):
    """'skip', 'tag' or 'borsh' if a line of a comment begins with a word for it."""
    text = ''.join(' ' if c.isspace() else c for c in unicodedata.normalize('NFKC', text) if c.isspace() or c.isprintable())
    text = re.sub(r'^[\W_]+', '', text).lower()
    bare = BEFORE.sub('', text, count=1) if BEFORE.match(text) else text
    word, rest = re.match(r'([^\W_]*)(.*)', bare).groups()
    if word in IN_PROSE and re.match(r'\s+[^\W\d]', rest):
        return None
    found = MEANT.get(word) or slip_of(word, rest)
    return found or ('borsh' if re.match(r'borsh\s*[:=(]', text) else None)


def slip_of(word, rest):
    """'skip' or 'tag' if a line is one of them with one letter too few, twice or in the place of the next."""
    if word in slips('skip') and not re.search(r'\w', rest):
        return 'skip'
    return 'tag' if word in slips('tag') and re.match(r'\W*[0-9]\w*\W*$', rest) else None


def slips(word):
    places = range(len(word))
    return ({word[:n] + word[n + 1:] for n in places} | {word[:n] + word[n] + word[n:] for n in places}
            | {word[:n] + word[n + 1:n + 2] + word[n] + word[n + 2:] for n in places})
