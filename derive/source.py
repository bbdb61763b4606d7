"""A module's source: its imports, its items, and the types that are marked by a comment `// derive: ..`."""

import re

from marks import almost_marks, mark_above, mark_of, options_of, refuse_macros, stray_marks
from refusal import Refusal
from rust_types import BORROWS, borrows, heads, holds_two_lifetimes, joined, parse_type
from tokens import tokens_of
from words import comment_of, refuse_doc, refuse_near, refuse_unused

# what a key is compared by
COMPARED = ('PartialEq', 'Eq', 'PartialOrd', 'Ord')

# attributes that say nothing of an encoding: of a field, of a variant and of a type
FIELD_ATTRIBUTES = ('doc', 'allow', 'expect', 'warn', 'deny', 'deprecated')
VARIANT_ATTRIBUTES = FIELD_ATTRIBUTES + ('default',)
TYPE_ATTRIBUTES = FIELD_ATTRIBUTES + ('derive', 'derive_where', 'must_use', 'repr', 'non_exhaustive')


class Field:
    """A field: its name, or its number in a tuple, its type, and whether it is left out of the encoding."""

    def __init__(self, name, type, line, public, skipped):
        self.name = name
        self.type = type
        self.line = line
        self.public = public
        self.skipped = skipped


class Fields:
    """The fields of a struct or a variant. `kind` is 'named', 'tuple' or 'unit'."""

    def __init__(self, kind, all_fields):
        self.kind = kind
        self.all = all_fields

    def encoded(self):
        return [field for field in self.all if not field.skipped]


class Variant:
    def __init__(self, name, tag, fields, line):
        self.name = name
        self.tag = tag
        self.fields = fields
        self.line = line


class Parameter:
    """A parameter of a type: a type or a lifetime with its bounds, or a constant with its type."""

    def __init__(self, name, bounds, constant):
        self.name = name
        self.bounds = bounds
        self.constant = constant
        self.is_type = not constant and not name.startswith("'")


class Marked:
    """A type that is marked: a struct with its fields, or an enum with its variants.

    `options` is what the mark asks for, and `derived` what the attributes derive."""

    def __init__(self, name, line, parameters, where, fields=None, variants=None):
        self.options = ()
        self.derived = ''
        self.name = name
        self.line = line
        self.parameters = parameters
        self.where = where
        self.fields = fields
        self.variants = variants

    def groups(self):
        """The fields of the struct, or those of each variant."""
        return [self.fields] if self.variants is None else [variant.fields for variant in self.variants]

    def names(self, phantom=True):
        """The names that the types of its encoded fields are made of, its parameters among them."""
        return [name for group in self.groups() for field in group.encoded() for name in heads(field.type, phantom)]

    def encoded_parameters(self):
        """The type parameters whose values are encoded: those of a `PhantomData` or of a skipped field aren't."""
        names = self.names(phantom=False)
        return [parameter for parameter in self.parameters if parameter.is_type and parameter.name in names]

    def is_only_encoded(self):
        """Whether it has a reference, or a type with a lifetime that is no `Cow`: such a value is never decoded."""
        return any(borrows(field.type) for group in self.groups() for field in group.encoded())

    def lifetimes(self):
        """Its parameters that are lifetimes."""
        return [parameter.name for parameter in self.parameters if parameter.name.startswith("'")]

    def heads(self):
        """The names from elsewhere that its encoded fields and its bounds are made of."""
        found = self.names()
        for parameter in self.parameters:
            found += re.findall(r'[A-Za-z_]\w*', parameter.bounds)
        found += re.findall(r'[A-Za-z_]\w*', self.where)
        own = {parameter.name for parameter in self.parameters}
        return [name for index, name in enumerate(found) if name not in own and name not in found[:index]]


class Module:
    """What a file says: its imports by the name that each brings in, its items and whether each is public, its marked
    types, its types that aren't marked, the traits that a type derives or that are implemented for it, by its name, and
    what is refused."""

    def __init__(self, imports, items, marked):
        self.imports = imports
        self.items = items
        self.marked = marked
        self.unmarked = set()
        self.derived = {}
        self.implemented = {}
        self.refused = []


CLOSING = {'(': ')', '[': ']', '{': '}'}


class Reader:
    """Tokens one after another; comments are skipped, and `comments` has those before the next token."""

    def __init__(self, tokens, end_line):
        self.tokens = [token for token in tokens if token.kind != 'comment']
        self.before = comments_before(tokens)
        self.place = 0
        self.depth = 0
        self.end_line = end_line
        self.used = set()

    def at_end(self):
        return self.place >= len(self.tokens)

    def peek(self, ahead=0):
        if self.place + ahead >= len(self.tokens):
            raise Refusal(self.end_line, 'the file ends within an item')
        return self.tokens[self.place + ahead]

    def comments(self):
        return self.before.get(self.place, [])

    def last_line(self):
        """The line of the token before this one."""
        return self.tokens[self.place - 1].line if self.place else 0

    def is_next(self, *texts):
        """Whether the next tokens are these."""
        rest = self.tokens[self.place:self.place + len(texts)]
        return [token.text for token in rest] == list(texts)

    def next(self):
        token = self.peek()
        self.place += 1
        return token

    def take(self, text):
        token = self.next()
        if token.text != text:
            raise Refusal(token.line, '`%s` where `%s` is expected' % (token.shown(), text))
        return token

    def skip(self, text):
        """Goes past the next token if it is this one."""
        if not self.at_end() and self.tokens[self.place].text == text:
            self.place += 1
            return True
        return False

    def word(self):
        token = self.next()
        if token.kind != 'word':
            raise Refusal(token.line, '`%s` where a name is expected' % token.shown())
        if token.text.startswith('r#'):
            raise Refusal(token.line, 'the raw identifier `%s`: Rattle has none, so choose another name' % token.text)
        return token.text

    def group(self):
        """The tokens of a bracket, with both ends."""
        start = self.place
        open_brackets = []
        if self.peek().text not in CLOSING:
            raise Refusal(self.peek().line, '`%s` where a bracket is expected' % self.peek().shown())
        while not self.at_end():
            token = self.next()
            if token.text in CLOSING:
                open_brackets.append(token)
            elif token.text in CLOSING.values():
                opened = open_brackets.pop()
                if CLOSING[opened.text] != token.text:
                    reason = '`%s` closes the `%s` of line %d'
                    raise Refusal(token.line, reason % (token.text, opened.text, opened.line))
            if not open_brackets:
                return self.tokens[start:self.place]
        raise Refusal(open_brackets[-1].line, 'the bracket `%s` is not closed' % open_brackets[-1].text)

    def deeper(self, function, *arguments):
        """Calls a function that may come back to itself. No source has a hundred levels."""
        self.depth += 1
        if self.depth > 100:
            raise Refusal(self.peek().line, 'more than 100 levels of types or imports within one another')
        result = function(*arguments)
        self.depth -= 1
        return result

    def until(self, *ends):
        """The tokens before the first of these texts outside brackets."""
        start = self.place
        while not self.peek().text in ends:
            if self.peek().text in CLOSING:
                self.group()
            else:
                self.next()
        return self.tokens[start:self.place]


def comments_before(tokens):
    """The comments before each other token, by its place among those."""
    found = {}
    place = 0
    for token in tokens:
        if token.kind == 'comment':
            found.setdefault(place, []).append(token)
        else:
            place += 1
    return found


def read_module(text):
    """What a file says, with a `Refusal` for each type that can't be taken."""
    reader = Reader(tokens_of(text), text.count('\n') + 1)
    module = Module({}, {}, [])
    seen = set()
    while not reader.at_end():
        start = reader.place
        try:
            read_one(reader, module, seen)
        except Refusal as refusal:
            module.refused.append(refusal)
            if not go_past(reader, module, start):
                return module
            seen.update(comment for place in range(start, reader.place) for comment in reader.before.get(place, []))
    try:
        mark_above(reader, seen)
    except Refusal as refusal:
        module.refused.append(refusal)
    module.refused += stray_marks(reader, seen) + almost_marks(reader)
    for marked in module.marked:
        refuse_undroppable(marked, module)
    return module


def read_one(reader, module, seen):
    """The next item, with what is above it."""
    if reader.is_next('#', '!'):
        reader.place += 2
        reader.group()
        return
    start = reader.place
    mark = mark_above(reader, seen)
    attributes = attributes_of(reader)
    mark = mark or mark_above(reader, seen)
    if reader.at_end():
        return
    derived = ' '.join(text for name, text, _ in attributes if name.startswith('derive'))
    if mark is None:
        refuse_macros(attributes)
        read_item(reader, module, derived)
        return
    check_attributes(attributes, TYPE_ATTRIBUTES, 'type')
    marked = read_marked(reader, mark, start)
    marked.options = options_of(mark_of(mark))
    marked.derived = module.derived[marked.name] = derived
    check_options_of(marked)
    module.marked.append(marked)
    module.items[marked.name] = True


def go_past(reader, module, start):
    """Goes past an item that is refused, and says whether its end is found. Its name is taken all the same."""
    reader.place, reader.depth = start, 0
    try:
        skip_item(reader)
    except Refusal:
        return False
    item = reader.tokens[start:reader.place]
    for token, behind in zip(item, item[1:]):
        if token.text in ('struct', 'enum', 'union') and behind.kind == 'word':
            module.items.setdefault(behind.text, True)
            break
    return True


def refuse_undroppable(marked, module):
    """A type whose values can't be let go."""
    if not re.search(r'\b(Drop|Copy)\b', marked.derived) and not {'Drop', 'Copy'} & module.implemented.get(marked.name, set()):
        reason = '`%s` has values that can\'t be let go, which encoding and decoding do: write `#[derive(Drop)]` above it'
        module.refused.append(Refusal(marked.line, reason % marked.name))


# ---- items

# words before the keyword of an item, and keywords behind which an item has its name
VISIBLE_IN = ('crate', 'super', 'self', 'in')
MODIFIERS = ('unsafe', 'const', 'final', 'extern', 'async')
NAMED = ('struct', 'enum', 'type', 'const', 'static', 'fn', 'trait', 'mod', 'union')


def read_item(reader, module, derived=''):
    """An item that isn't marked: its name is kept, with what it derives, and what it imports."""
    start = reader.place
    if reader.is_next('ghost'):
        skip_item(reader)
        return
    public = skip_visibility(reader)
    if reader.skip('use'):
        for name, path in use_tree(reader, []):
            module.imports[name] = path
        reader.take(';')
        return
    while reader.peek().text in MODIFIERS and reader.peek(1).text in ('fn', 'trait', 'impl') + MODIFIERS:
        reader.next()
    if reader.peek().text in NAMED and reader.peek(1).kind == 'word':
        module.items[reader.peek(1).text] = public
        if reader.peek().text in ('struct', 'enum', 'union'):
            module.unmarked.add(reader.peek(1).text)
            module.derived[reader.peek(1).text] = derived
    is_impl = reader.is_next('impl')
    reader.place = start
    skip_item(reader)
    if is_impl:
        note_impl(reader.tokens[start:reader.place], module)


def note_impl(tokens, module):
    """An `impl Trait for Name`: the names before `for` could all be the trait's."""
    texts = [token.text for token in tokens]
    if 'for' in texts and texts.index('for') < texts.index('{'):
        place = texts.index('for')
        names = [text for text in texts[place + 1:texts.index('{')] if text[0].isalpha()]
        traits = {text for text in texts[:place] if text[0].isalpha()}
        for name in names[:1]:
            module.implemented.setdefault(name, set()).update(traits)


def skip_item(reader):
    """Goes past an item: to a `;`, or to the end of its last block."""
    while not reader.at_end():
        token = reader.peek()
        if token.text == ';':
            reader.next()
            return
        if token.text == '{':
            reader.group()
            if reader.at_end() or not reader.is_next(';') and not goes_on(reader):
                return
        elif token.text in CLOSING:
            reader.group()
        elif token.text in CLOSING.values():
            raise Refusal(token.line, '`%s` closes nothing' % token.text)
        else:
            reader.next()


def goes_on(reader):
    """Whether an item goes on behind a block of its clauses, as `requires { .. }`."""
    return reader.peek().text in ('{', 'ensures', 'requires', 'where', ',', '=')


def skip_visibility(reader):
    """Goes past `pub` or `pub(crate)`, and says whether it was there. A type in brackets may follow, as in
    `pub (u8, u16)`."""
    if not reader.skip('pub'):
        return False
    if reader.is_next('(') and reader.peek(1).text in VISIBLE_IN:
        reader.group()
    return True


def use_tree(reader, prefix):
    """The names that an import brings in, each with its path."""
    path = list(prefix)
    reader.skip('::')
    while True:
        if reader.skip('*'):
            return [('*' + '::'.join(path), '::'.join(path + ['*']))]
        if reader.skip('{'):
            return reader.deeper(use_group, reader, path)
        path.append(reader.word())
        if not reader.skip('::'):
            break
    if path[-1] == 'self':
        path.pop()
    if reader.skip('as'):
        name = reader.next().text
        return [(name, '%s as %s' % ('::'.join(path), name))]
    return [(path[-1], '::'.join(path))]


def use_group(reader, path):
    found = []
    while not reader.is_next('}'):
        found += use_tree(reader, path)
        if not reader.skip(','):
            break
    reader.take('}')
    return found


# ---- attributes and comments

def attributes_of(reader):
    """The attributes before an item, each with its name."""
    return above(reader)[0]


def above(reader):
    """The attributes before an item, and the comments between and behind them. Those before the first of them may be
    behind the code before; their place is told by `is_behind`."""
    attributes, comments = [], list(reader.comments())
    while reader.is_next('#'):
        line = reader.take('#').line
        if not reader.is_next('['):
            raise Refusal(line, '`#` begins no attribute')
        tokens = reader.group()
        attributes.append((tokens[1].text, joined(tokens), line))
        comments += reader.comments()
    return attributes, comments


def check_attributes(attributes, allowed, what):
    for name, text, line in attributes:
        if name not in allowed:
            reason = 'the attribute `#%s` of a %s is not taken: %s'
            raise Refusal(line, reason % (text, what, instead_of(name, text, what)))
        if name == 'doc' and what != 'type':
            refuse_doc(text, line)
        if name == 'derive' and re.search(r'\bBorsh\w+', text):
            reason = '`%s` in `#%s`: the comment is in its place, so remove it'
            raise Refusal(line, reason % (re.search(r'\bBorsh\w+', text)[0], text))


# what to write in place of an attribute `#[borsh(..)]`
BORSH_ATTRIBUTES = {
    'skip': 'write a comment `// skip` above the field',
    'use_discriminant': 'discriminants are always the tags, so remove it',
    'init': 'call the function after decoding',
    'crate': 'the library is `borsh` here, so remove it',
    'bound': 'write the bounds at the parameters',
}


def instead_of(name, text, what):
    if name == 'borsh':
        told = re.match(r'\[borsh\((\w+)', text)
        by_hand = 'implement the traits by hand (docs/IMPLEMENTING.md)'
        return BORSH_ATTRIBUTES.get(told and told[1], by_hand)
    if name in ('cfg', 'cfg_attr'):
        return 'the encoding would depend on it, so write two types, or remove it'
    return 'what it means for the encoding is not known, so remove it, or implement the traits by hand'


def check_options_of(marked):
    try:
        check_only_encoded(marked)
        check_lifetimes(marked)
        check_key(marked)
        check_schema(marked)
    except Refusal as refusal:
        raise refusal.of(marked.name)


def check_only_encoded(marked):
    """A type with references is a struct without a schema, and no key."""
    if not marked.is_only_encoded():
        return
    if marked.variants is not None:
        raise Refusal(marked.line, 'an enum with references is not taken: hold the values themselves, or write a struct')
    if len(marked.options) > 1:
        reason = 'a struct with references is only encoded, so it has no schema and is no key: write `// derive: borsh`'
        raise Refusal(marked.line, reason)


def check_lifetimes(marked):
    """A struct that is decoded and has a lifetime has no other parameter and no schema, and no `Cow` holds the lifetime twice."""
    if marked.is_only_encoded() or not marked.lifetimes():
        return
    others = [parameter.name for parameter in marked.parameters if not parameter.constant][1:]
    if others:
        reason = ('a struct with the lifetime `%s` and the parameter `%s` is not decoded, since the borrow checker covers no type '
                  'argument with two lifetimes: hold the values themselves, or write `&%s ..` for what is only encoded')
        raise Refusal(marked.line, reason % (marked.parameters[0].name, others[0], marked.lifetimes()[0]))
    for field in marked.fields.encoded():
        if holds_two_lifetimes(field.type):
            reason = ('a `Cow` of what borrows is not taken, since the borrow checker covers no type argument with two lifetimes: '
                      'hold owned values within, or a `Vec` of it')
            raise Refusal(field.line, reason)
    if 'schema' in marked.options:
        reason = ('a schema of a struct with a lifetime is not written, since its methods don\'t get the clauses of their trait: '
                  'hold the values themselves, or implement `BorshSchema` by hand')
        raise Refusal(marked.line, reason)


def check_key(marked):
    """A key is a struct that is compared field by field, or an enum without fields."""
    if 'key' not in marked.options:
        return
    missing = [name for name in COMPARED if not re.search(r'\b%s\b' % name, marked.derived)]
    if missing:
        reason = 'a key is compared as its fields are: `#[derive(..)]` lacks `%s`'
        raise Refusal(marked.line, reason % '`, `'.join(missing))
    if any(variant.fields.all for variant in marked.variants or []):
        reason = 'a key is a struct, or an enum without fields: implement `BorshKey` of another type by hand'
        raise Refusal(marked.line, reason)
    if marked.variants is None and not marked.fields.all:
        raise Refusal(marked.line, 'a key without fields is not taken: implement `BorshKey` by hand')
    if marked.parameters:
        raise Refusal(marked.line, 'a key with parameters is not taken: implement `BorshKey` by hand')
    if any(field.skipped for group in marked.groups() for field in group.all):
        reason = ('a key has no field that is left out, since two keys with one encoding would not be equal: remove '
                  '`// skip`')
        raise Refusal(marked.line, reason)


def check_schema(marked):
    """A schema is written for types without lengths as parameters that are encoded."""
    names = marked.names(phantom=False)
    lengths = [parameter.name for parameter in marked.parameters if parameter.constant and parameter.name in names]
    if 'schema' in marked.options and lengths:
        reason = ('a schema of a type with the length `%s` as a parameter is not written: types of two lengths would have '
                  'one name, and nothing says that the array fits in memory; write a type for each length, or implement '
                  '`BorshSchema` by hand')
        raise Refusal(marked.line, reason % lengths[0])


# ---- marked types

def read_marked(reader, mark, start):
    """The struct or the enum below a mark; `start` is where its attributes begin."""
    line = reader.peek().line
    if reader.is_next('union') or reader.is_next('pub', 'union'):
        reason = 'a union has no encoding, since its bytes don\'t say which field they are: write an enum'
        raise Refusal(line, reason)
    if not reader.skip('pub') or reader.peek().text not in ('struct', 'enum'):
        reason = 'no `pub struct` or `pub enum` is below the comment: make the type `pub`, or remove the comment'
        raise Refusal(mark.line, reason)
    what = reader.next().text
    name = reader.word()
    body = reader.place
    try:
        marked = read_type(reader, what, name, line)
        refuse_unused(reader, start)
        refuse_near(reader, start, body)
        return marked
    except Refusal as refusal:
        raise refusal.of(name)


def read_type(reader, what, name, line):
    """What is behind the name of a struct or an enum."""
    parameters = read_parameters(reader, what) if reader.is_next('<') else []
    if what == 'enum':
        where = read_where(reader)
        variants = read_variants(reader)
        if not variants:
            reason = 'an enum without variants has no values, and so no encodings: add a variant, or remove the comment'
            raise Refusal(line, reason)
        return Marked(name, line, parameters, where, variants=variants)
    where = read_where(reader)
    if reader.is_next('{'):
        fields = read_named_fields(reader, 'field')
        return Marked(name, line, parameters, where, fields=fields)
    fields = read_tuple_fields(reader) if reader.is_next('(') else Fields('unit', [])
    where = where or read_where(reader)
    reader.take(';')
    return Marked(name, line, parameters, where, fields=fields)


def read_parameters(reader, what):
    reader.take('<')
    found = []
    while not reader.is_next('>'):
        token = reader.peek()
        if token.kind == 'lifetime' and what == 'enum':
            raise Refusal(token.line, BORROWS % token.text)
        constant = reader.skip('const')
        name = reader.next().text if token.kind == 'lifetime' else reader.word()
        bounds = joined(angle_until(reader, ',', '>', '=')) if reader.skip(':') else ''
        if reader.is_next('='):
            raise Refusal(reader.peek().line, 'the parameter `%s` has a default: remove it' % name)
        found.append(Parameter(name, bounds, constant))
        if not reader.skip(','):
            break
    reader.take('>')
    return found


def angle_until(reader, *ends):
    """The tokens before the first of these texts outside brackets, angle brackets among them."""
    start = reader.place
    depth = 0
    while depth > 0 or reader.peek().text not in ends:
        text = reader.peek().text
        if text in CLOSING:
            reader.group()
            continue
        depth += (text == '<') - (text == '>')
        reader.next()
    return reader.tokens[start:reader.place]


def read_where(reader):
    """The bounds behind `where`, as one text without a comma at its end."""
    if not reader.skip('where'):
        return ''
    return joined(reader.until('{', ';')).rstrip(',').strip()


def read_fields(reader, kind, brackets, read_field):
    """Fields between two brackets. `read_field` reads one, behind its attributes, and gives its name, its type and whether it is public."""
    reader.take(brackets[0])
    found = []
    while not reader.is_next(brackets[1]):
        last_line = reader.last_line()
        skip_behind(reader, found, last_line)
        attributes, comments = above(reader)
        skipped = is_skipped(reader, comments, last_line)
        check_attributes(attributes, FIELD_ATTRIBUTES, 'field')
        line = reader.peek().line
        name, type_of, is_public = read_field(len(found))
        found.append(Field(name, type_of, line, is_public, skipped))
        if not reader.skip(','):
            break
    skip_behind(reader, found, reader.last_line())
    reader.take(brackets[1])
    return Fields(kind, found)


def read_named_fields(reader, what):
    def read_field(_place):
        if reader.is_next('ghost'):
            reason = ('a ghost field says which values there are, which a decoder has to prove: implement the traits by '
                      'hand, with `TryFromParts` (docs/IMPLEMENTING.md)')
            raise Refusal(reader.peek().line, reason)
        is_public = skip_visibility(reader) or what == 'variant'
        name = reader.word()
        reader.take(':')
        return name, parse_type(reader), is_public

    return read_fields(reader, 'named', '{}', read_field)


def read_tuple_fields(reader, public=False):
    def read_field(place):
        is_public = skip_visibility(reader) or public
        return str(place), parse_type(reader), is_public

    return read_fields(reader, 'tuple', '()', read_field)


def skip_behind(reader, fields, last_line):
    """`// skip` in the line where the last of some fields ends, which is left out then."""
    for comment in reader.comments():
        if comment_of(comment) == 'skip' and comment.line == last_line and fields:
            if len(fields) > 1 and fields[-2].line == fields[-1].line:
                reason = '`%s` is behind two fields: write it in a line of its own above the one that it is for'
                raise Refusal(comment.line, reason % comment.shown())
            if fields[-1].skipped:
                raise Refusal(comment.line, 'a second comment `// skip` of one field')
            fields[-1].skipped = True
            reader.used.add(comment)


def is_skipped(reader, comments, last_line):
    """Whether `// skip` is among the comments above a field."""
    found = False
    for comment in comments:
        if comment_of(comment) == 'skip' and comment not in reader.used:
            refuse_behind(reader, comment, last_line, 'field')
            if found:
                raise Refusal(comment.line, 'a second comment `// skip` above one field')
            found = True
    return found


def refuse_behind(reader, comment, last_line, what):
    """A comment behind code could be meant for what is before it."""
    if comment.line == last_line:
        raise Refusal(comment.line, '`%s` is behind code: write it above the %s' % (comment.shown(), what))
    reader.used.add(comment)


def read_variants(reader):
    reader.take('{')
    found, discriminants = [], []
    tag = 0
    while not reader.is_next('}'):
        last_line = reader.last_line()
        attributes, comments = above(reader)
        told = tag_above(reader, comments, last_line)
        check_attributes(attributes, VARIANT_ATTRIBUTES, 'variant')
        line = reader.peek().line
        name = reader.word()
        fields = variant_fields(reader)
        if reader.skip('='):
            if told is not None:
                reason = 'the variant `%s` has a discriminant and a comment `// tag: ..`: write one of them'
                raise Refusal(line, reason % name)
            told = number_of(reader.until(',', '}'), line)
            discriminants.append((line, name, told))
        tag = tag if told is None else told
        refuse_tag(found, name, tag, line)
        found.append(Variant(name, tag, fields, line))
        tag += 1
        if not reader.skip(','):
            break
    reader.take('}')
    with_fields = [variant.name for variant in found if variant.fields.kind != 'unit']
    for line, name, told in discriminants if with_fields else []:
        reason = ('the variant `%s` has a discriminant, which Rattle takes only where no variant has fields, and `%s` has: write '
                  '`// tag: %d` above `%s` in its place')
        raise Refusal(line, reason % (name, with_fields[0], told, name))
    return found


def variant_fields(reader):
    if reader.is_next('{'):
        return read_named_fields(reader, 'variant')
    if reader.is_next('('):
        return read_tuple_fields(reader, public=True)
    return Fields('unit', [])


def tag_above(reader, comments, last_line):
    """The number in a comment `// tag: 7` above a variant, or None."""
    found = None
    for comment in comments:
        if comment_of(comment) != 'tag':
            continue
        refuse_behind(reader, comment, last_line, 'variant')
        if found is not None:
            raise Refusal(comment.line, 'a second comment `// tag: ..` above one variant')
        found = parse_number(comment.text.split(':', 1)[1].strip(), comment.line)
    return found


def number_of(tokens, line):
    if len(tokens) != 1 or tokens[0].kind != 'number':
        raise Refusal(line, 'the discriminant `%s` is no number: write its value' % joined(tokens))
    return parse_number(tokens[0].text, line)


def parse_number(text, line):
    """A whole number as Rust writes it: with underscores, in any base, perhaps with its type."""
    bare = re.sub(r'([ui](8|16|32|64|128|size))$', '', text.replace('_', ''))
    if len(bare) > 40:
        raise Refusal(line, 'a number of more than 40 digits, and a tag is one byte')
    try:
        return int(bare, 0) if not re.fullmatch(r'0\d+', bare) else int(bare)
    except ValueError:
        raise Refusal(line, '`%s` is no number' % text)


def refuse_tag(variants, name, tag, line):
    if not 0 <= tag <= 255:
        raise Refusal(line, 'the tag of `%s` is %d, and a tag is one byte: choose one from 0 to 255' % (name, tag))
    for variant in variants:
        if variant.tag == tag:
            reason = '`%s` and `%s` have one tag, %d: choose another for one of them'
            raise Refusal(line, reason % (variant.name, name, tag))
