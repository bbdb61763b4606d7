"""The types of fields, as trees."""

from refusal import Refusal


class Path:
    """A name with its arguments, as `Vec<u8>`: segments, each a name and a list of types."""

    def __init__(self, segments):
        self.segments = segments

    def head(self):
        """The name that has to be known where the type is written."""
        return self.segments[0][0]


class Tuple:
    def __init__(self, items):
        self.items = items


class Array:
    """Elements of one type; the length is a text, as it was written."""

    def __init__(self, element, length, names):
        self.element = element
        self.length = length
        self.names = names


class Reference:
    """`&'a T`, where `T` may be `str` or a slice: its element is within a `Slice`."""

    def __init__(self, lifetime, type):
        self.lifetime = lifetime
        self.type = type


class Slice:
    """`[T]`, behind a reference."""

    def __init__(self, element):
        self.element = element


class Constant:
    """An argument that is a number, a block or a lifetime, as in `Case<3, u8>`."""

    def __init__(self, text):
        self.text = text


# what can't be the type of a field, by its first token
BORROWS = 'the lifetime `%s` of an enum is not taken: hold the values themselves'
FUNCTION = 'a function pointer has no encoding: hold an enum of the functions that it may be, or write `// skip` above'
NOT_DECODED = {
    '*': 'a raw pointer has no encoding: hold the value itself, or a `Box` or an `Rc` of it',
    '!': 'the type `!` has no values: leave the field out',
    'dyn': 'a trait object has no encoding: hold an enum of the types that it may be, or a type parameter',
    'impl': '`impl Trait` is no type of a field: write a type parameter',
    'fn': FUNCTION,
    'unsafe': FUNCTION,
    'extern': FUNCTION,
    '<': 'a type by its trait, `<T as Trait>::Name`, is not taken: name the type, or write a type parameter',
}

# types of Rust that the library has no encoding of, and what to hold in their place
SHARED = 'hold the value itself, or an `Arc` of it'
INSIDE = "the contents can change behind the proof's back: hold the value itself"
NO_ENCODING = {
    'char': 'hold its number, as a `u32`, or a `String`',
    'str': 'write `String`, or `BoxedStr` for `Box<str>`, `RcStr` for `Rc<str>`, `ArcStr` for `Arc<str>` and `CowStr` for `Cow<str>`',
    'Mutex': SHARED,
    'RwLock': SHARED,
    'Cell': INSIDE,
    'RefCell': INSIDE,
    'OnceCell': INSIDE,
    'Weak': 'hold an index of the value, or an `Rc` of it',
    'BinaryHeap': 'write `Vec<..>`',
    'NonZeroIsize': 'write `NonZeroI64`',
    'Duration': 'hold its seconds and nanoseconds, as a `u64` and a `u32`',
    'Instant': 'it means nothing to another process: hold a number of seconds',
    'SystemTime': 'hold the seconds since a day that you choose, as a `u64`',
    'PathBuf': 'write `String`',
    'OsString': 'write `String`, or `Vec<u8>`',
    'CString': 'write `Vec<u8>`',
}


def parse_type(reader):
    """The type that begins at the reader's next token."""
    return reader.deeper(parse_any, reader)


def parse_any(reader):
    token = reader.peek()
    if token.text in NOT_DECODED:
        raise Refusal(token.line, NOT_DECODED[token.text])
    if token.kind == 'lifetime':
        raise Refusal(token.line, 'the lifetime `%s` where a type is expected' % token.text)
    if token.text == '&':
        return parse_reference(reader)
    if token.text == '(':
        return parse_tuple(reader)
    if token.text == '[':
        return parse_array(reader)
    if token.kind == 'word':
        return parse_path(reader)
    raise Refusal(token.line, '`%s` begins no type' % token.shown())


def parse_reference(reader):
    """`&'a T`: a type with a field of such a type is only encoded."""
    line = reader.take('&').line
    if reader.peek().kind != 'lifetime':
        reason = ('a reference without a lifetime: write `&\'a ..` and give the type the parameter `\'a`; it is encoded then, '
                  'and not decoded')
        raise Refusal(line, reason)
    lifetime = reader.next().text
    if reader.is_next('mut'):
        raise Refusal(line, 'a `&mut` in a field is not taken: hold a `&` of it, or the value itself')
    if reader.is_next('['):
        start = reader.place
        reader.take('[')
        element = parse_type(reader)
        if reader.skip(']'):
            return Reference(lifetime, Slice(element))
        reader.place = start
    return Reference(lifetime, parse_type(reader))


def parse_tuple(reader):
    reader.take('(')
    items = []
    comma = False
    while not reader.is_next(')'):
        items.append(parse_type(reader))
        comma = reader.skip(',')
        if not comma:
            break
    reader.take(')')
    return items[0] if len(items) == 1 and not comma else Tuple(items)


def parse_array(reader):
    line = reader.take('[').line
    element = parse_type(reader)
    if not reader.skip(';'):
        reason = ('a slice without a length has no place in a field: write `Vec<..>` or `[..; N]`, or `BoxedSlice<..>` '
                  'for `Box<[..]>`, `RcSlice<..>` for `Rc<[..]>`, `ArcSlice<..>` for `Arc<[..]>` and `CowSlice<..>` for '
                  '`Cow<[..]>`')
        raise Refusal(line, reason)
    length = reader.until(']')
    reader.take(']')
    names = [t.text for t in length if t.kind == 'word']
    return Array(element, joined(length), names)


def parse_path(reader):
    segments = [parse_segment(reader)]
    while reader.skip('::'):
        segments.append(parse_segment(reader))
    if reader.is_next('!'):
        raise Refusal(reader.peek().line, 'a macro in the place of a type is not taken: write the type')
    return Path(segments)


def parse_segment(reader):
    name = reader.word()
    arguments = []
    if reader.skip('<'):
        while not reader.is_next('>'):
            arguments.append(parse_argument(reader))
            if not reader.skip(','):
                break
        reader.take('>')
    elif reader.is_next('('):
        raise Refusal(reader.peek().line, FUNCTION)
    return name, arguments


def parse_argument(reader):
    token = reader.peek()
    if token.kind in ('number', 'lifetime'):
        return Constant(reader.next().text)
    if token.text == '{':
        return Constant('{ %s }' % joined(reader.group()[1:-1]))
    return parse_type(reader)


# types of the library whose values lie in memory of their own
HELD = ('Box', 'Rc', 'Arc', 'Vec', 'VecDeque', 'LinkedList', 'BTreeMap', 'BTreeSet', 'HashMap', 'HashSet', 'IndexMap',
        'IndexSet', 'BoxedSlice', 'RcSlice', 'ArcSlice', 'CowSlice', 'PhantomData')

# types that are decoded as owned, whatever lifetime they have
COWS = ('Cow', 'CowStr', 'CowSlice')


# types whose encodings are never empty, whatever their arguments are
NEVER_EMPTY = {'bool', 'String', 'Vec', 'Option', 'Result', 'u8', 'u16', 'u32', 'u64', 'u128', 'usize', 'i8', 'i16',
               'i32', 'i64', 'i128', 'isize', 'f32', 'f64'}


def is_never_empty(tree, own):
    """Whether no encoding of a type is empty, by its text alone; `own` has the names that mean something else here."""
    if isinstance(tree, Reference):
        return is_counted(tree.type) or is_never_empty(tree.type, own)
    if isinstance(tree, Path):
        name = tree.segments[0][0]
        return len(tree.segments) == 1 and name in NEVER_EMPTY and name not in own
    return isinstance(tree, Tuple) and any(is_never_empty(item, own) for item in tree.items)


def bare_names(tree):
    """The names in a type that aren't within a type of `HELD`."""
    if isinstance(tree, Path):
        name, arguments = tree.segments[-1]
        if name in HELD:
            return []
        return [tree.head()] + [found for argument in arguments for found in bare_names(argument)]
    if isinstance(tree, Tuple):
        return [found for item in tree.items for found in bare_names(item)]
    if isinstance(tree, Array):
        return tree.names + bare_names(tree.element)
    return []


def arrays_in(tree):
    """The arrays in a type, but those in a `PhantomData`."""
    if isinstance(tree, Path):
        name, arguments = tree.segments[-1]
        return [found for argument in arguments for found in arrays_in(argument)] if name != 'PhantomData' else []
    if isinstance(tree, Tuple):
        return [found for item in tree.items for found in arrays_in(item)]
    return [tree] + arrays_in(tree.element) if isinstance(tree, Array) else []


def names_on_the_heap(tree):
    """The names in a type that are within a type of `HELD`."""
    if isinstance(tree, Path):
        name, arguments = tree.segments[-1]
        inner = heads if name in HELD else names_on_the_heap
        return [found for argument in arguments for found in inner(argument)] if name != 'PhantomData' else []
    if isinstance(tree, Reference):
        return heads(tree.type)
    if isinstance(tree, Tuple):
        return [found for item in tree.items for found in names_on_the_heap(item)]
    return names_on_the_heap(tree.element) if isinstance(tree, Array) else []


# types whose encodings may have any length
GROWING = {'String', 'BoxedStr', 'RcStr', 'ArcStr', 'Vec', 'BoxedSlice', 'RcSlice', 'ArcSlice', 'CowStr', 'CowSlice'}

# those that have no `put`
WALKED = {'VecDeque', 'LinkedList', 'BTreeMap', 'BTreeSet', 'HashMap', 'HashSet', 'IndexMap', 'IndexSet', 'Bytes', 'BytesMut'}


def mentions(tree, names):
    """Whether the encoding of a type has one of these in it; a `str` and a slice are among those that grow."""
    if isinstance(tree, Path):
        name, arguments = tree.segments[-1]
        return name in names or name != 'PhantomData' and any(mentions(argument, names) for argument in arguments)
    if isinstance(tree, Tuple):
        return any(mentions(item, names) for item in tree.items)
    if isinstance(tree, Reference):
        return names is GROWING and is_counted(tree.type) or mentions(tree.type, names)
    return isinstance(tree, Array) and mentions(tree.element, names)


def is_counted(tree):
    """Whether a type is `str` or a slice, whose encoding begins with a length."""
    return isinstance(tree, Slice) or isinstance(tree, Path) and tree.segments[-1][0] == 'str'


def tuples_in(tree):
    """The tuples in a type, but those in a `PhantomData`."""
    if isinstance(tree, Path):
        name, arguments = tree.segments[-1]
        return [found for argument in arguments for found in tuples_in(argument)] if name != 'PhantomData' else []
    if isinstance(tree, Tuple):
        return [tree] + [found for item in tree.items for found in tuples_in(item)]
    if isinstance(tree, Reference):
        return tuples_in(tree.type)
    return tuples_in(tree.element) if isinstance(tree, (Array, Slice)) else []


# marks with no space before them, and those with none behind them
TIGHT = (',', ';', ')', ']', '>', '::', '?', '.', ':')
OPEN = ('', '(', '[', '<', '::', '&', '?', '.')


def joined(tokens):
    """Tokens as one text, as a formatter writes an expression or a bound."""
    text = ''
    for index, token in enumerate(tokens):
        before = tokens[index - 1].text if index else ''
        called = token.text in ('<', '(') and before[-1:].isalnum()
        tight = called or token.text in TIGHT or before in OPEN
        text += token.text if tight else ' ' + token.text
    return text


def without_encoding(tree):
    """The names in a type that the library may have no encoding of, each with its path."""
    if isinstance(tree, Path):
        name, arguments = tree.segments[-1]
        path = '::'.join(segment for segment, _ in tree.segments)
        found = [(name, path)] if name in NO_ENCODING else []
        arguments = [] if name == 'PhantomData' else arguments
        return found + [one for argument in arguments for one in without_encoding(argument)]
    if isinstance(tree, Tuple):
        return [one for item in tree.items for one in without_encoding(item)]
    if isinstance(tree, Reference):
        return [] if is_counted(tree.type) and isinstance(tree.type, Path) else without_encoding(tree.type)
    return without_encoding(tree.element) if isinstance(tree, (Array, Slice)) else []


def borrows(tree):
    """Whether a type has a reference, or a lifetime other than `'static`, but in a `PhantomData` or of a `Cow`."""
    if isinstance(tree, Path):
        name, arguments = tree.segments[-1]
        if name in COWS:
            return any(borrows(argument) for argument in arguments if not is_lifetime(argument))
        return name != 'PhantomData' and any(borrows(argument) for argument in arguments)
    if isinstance(tree, Tuple):
        return any(borrows(item) for item in tree.items)
    if isinstance(tree, Array):
        return borrows(tree.element)
    return isinstance(tree, Reference) or is_lifetime(tree)


def holds_two_lifetimes(tree):
    """Whether a type names a lifetime and holds another type that does, as `CowSlice<'a, CowStr<'a>>`."""
    if isinstance(tree, Path):
        arguments = tree.segments[-1][1]
        inner = [argument for argument in arguments if not is_lifetime(argument)]
        named = len(inner) < len(arguments) and any(name.startswith("'") for argument in inner for name in heads(argument))
        return named or any(holds_two_lifetimes(argument) for argument in inner)
    if isinstance(tree, Tuple):
        return any(holds_two_lifetimes(item) for item in tree.items)
    return isinstance(tree, Array) and holds_two_lifetimes(tree.element)


def is_lifetime(tree):
    return isinstance(tree, Constant) and tree.text.startswith("'") and tree.text != "'static"


def heads(tree, phantom=True):
    """The names that have to be known where the type is written, each once, in order; without `phantom` those alone that
    aren't within a `PhantomData`."""
    found = []

    def visit(node):
        if isinstance(node, Path):
            add(node.head())
            if node.segments[-1][0] == 'PhantomData' and not phantom:
                return
            for _, arguments in node.segments:
                for argument in arguments:
                    visit(argument)
        elif isinstance(node, Tuple):
            for item in node.items:
                visit(item)
        elif isinstance(node, Array):
            visit(node.element)
            for name in node.names:
                add(name)
        elif isinstance(node, Reference):
            add(node.lifetime)
            visit(node.type)
        elif isinstance(node, Slice):
            visit(node.element)
        elif is_lifetime(node):
            add(node.text)

    def add(name):
        if name not in found:
            found.append(name)

    visit(tree)
    return found
