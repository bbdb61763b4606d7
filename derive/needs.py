"""What a field's type needs beside an encoding: the key of a map has an order, and what is left out has a default."""

import re

from layout import type_text
from refusal import Refusal
from rust_types import Array, Path, Reference, Slice, Tuple, is_counted

# maps and sets, whose first argument is the key
MAPS = ('BTreeMap', 'HashMap', 'IndexMap')
SETS = ('BTreeSet', 'HashSet', 'IndexSet')

# types with an encoding that are no keys
FLOATS = ('f32', 'f64')
NO_KEY = ('HashMap', 'HashSet', 'IndexMap', 'IndexSet', 'RangeInclusive', 'SocketAddr', 'SocketAddrV6')

# the most parts of a tuple that is a key
KEY_TUPLE = 5

# types without a default: here `Default` is told no allocator
NO_DEFAULT = set('''Vec VecDeque LinkedList String Box Rc Arc BTreeMap BTreeSet HashMap HashSet IndexMap IndexSet BoxedStr RcStr
    ArcStr CowStr BoxedSlice RcSlice ArcSlice CowSlice BytesMut Result Ipv4Addr Ipv6Addr IpAddr SocketAddr SocketAddrV4
    SocketAddrV6 RangeInclusive RangeFrom RangeTo RangeToInclusive Ordering Instant SystemTime Weak'''.split())
NO_DEFAULT |= {'NonZero%s%s' % (sign, width) for sign in 'UI' for width in ('8', '16', '32', '64', '128', 'size')}

# types with the default of what they hold
HOLDING = ('Range', 'Cow', 'Cell', 'RefCell', 'Mutex', 'RwLock')

# bounds from which no order follows, nor a default
OTHER_BOUNDS = set('''Clone Copy Drop Debug PartialEq Eq PartialOrd Ord Hash BorshType BorshSerialize BorshDeserialize BorshSchema Send
    Sync Sized'''.split())

# where the types of the library, and of Rust, come from
LIBRARIES = re.compile(r'(std|core|alloc|borsh\w*|indexmap|bytes|uuid)::')


class Types:
    """The structs and enums that the files of a crate declare."""

    def __init__(self, places, declared_at):
        self.modules = {place.module_name: place.module for place in places}
        self.declared_at = declared_at

    def marked(self, name, place):
        """The marked type that a name is of, or None."""
        module, bare = self.declared_at(name, place)
        found = [one for one in self.modules[module].marked if one.name == bare] if module in self.modules else []
        return found[0] if found else None

    def traits(self, name, place):
        """The name of a struct or an enum of the crate with the traits that it has, or None."""
        module, bare = self.declared_at(name, place)
        if module not in self.modules or bare not in self.modules[module].derived:
            return None
        told = set(re.findall(r'\w+', self.modules[module].derived[bare]))
        return bare, told.union(*[one.implemented.get(bare, ()) for one in self.modules.values()])


def refuse_needs(marked, place, types):
    """A key without an order, and a field that is left out and has no default."""
    needs = Needs(marked, place, types)
    for field in [field for group in marked.groups() for field in group.all]:
        if not field.skipped:
            needs.check_keys(field)
        elif not marked.is_only_encoded():
            needs.check_default(field)


class Needs:
    """Looks through the types of a marked type's fields."""

    def __init__(self, marked, place, types):
        self.marked = marked
        self.place = place
        self.types = types
        self.parameters = {parameter.name: parameter for parameter in marked.parameters}

    def library_name(self, node):
        """The last part of the name of a type that isn't the file's own, or None."""
        names = [name for name, _ in node.segments]
        module = self.place.module
        if names[0] in module.items or names[0] in self.parameters:
            return None
        path = '::'.join([module.imports.get(names[0], names[0]).split(' as ')[0]] + names[1:])
        return path.split('::')[-1] if path in names[:1] or LIBRARIES.match(path) else None

    def lacks(self, name, bound):
        """Whether a parameter has no such bound, and none that it could follow from."""
        told = re.findall(r'\w+', self.parameters[name].bounds)
        for one in re.findall(r'\b%s\s*:([^,]*)' % name, self.marked.where):
            told += re.findall(r'\w+', one)
        return bound not in told and set(told) <= OTHER_BOUNDS

    # ---- keys

    def check_keys(self, field):
        if 'key' in self.marked.options:
            reason = self.no_key(field.type, 'write `// derive: borsh` without `key`, and hold what has it in a list of pairs')
            self.refuse(field, 'a key is made of keys, and the field `%s` holds %s', reason)
        for node in paths_in(field.type):
            name, arguments = self.library_name(node), node.segments[-1][1]
            if name in MAPS and len(arguments) >= 2 or name in SETS and arguments:
                pair = '(%s)' % ', '.join(type_text(one) for one in arguments[:2]) if name in MAPS else type_text(arguments[0])
                reason = self.no_key(arguments[0], 'hold a list, `Vec<%s>`' % pair)
                self.refuse(field, 'the field `%s` has a map or a set with the key %s', reason)

    def refuse(self, field, start, reason):
        if reason:
            name = '`%s`: ' % self.marked.name
            raise Refusal(field.line, name + start % (field.name, '%s: %s' % reason))

    def no_key(self, node, instead):
        """Why a type is no key, with what to write, or None."""
        if isinstance(node, Path):
            return self.no_key_by_name(node, instead)
        if isinstance(node, Tuple):
            if len(node.items) > KEY_TUPLE:
                reason = 'a tuple of more than %d, which is no key' % KEY_TUPLE
                return reason, 'write some of them as a tuple within, whose bytes are the same'
            return first(self.no_key(item, instead) for item in node.items)
        if isinstance(node, (Array, Slice)):
            return self.no_key(node.element, instead)
        return self.no_key(node.type, instead) if isinstance(node, Reference) else None

    def no_key_by_name(self, node, instead):
        name, arguments = node.segments[-1]
        if node.head() in self.parameters:
            lacks = self.parameters[node.head()].is_type and self.lacks(node.head(), 'BorshKey')
            return ('`%s`, which needs bounds' % name, 'write `%s: BorshKey + Ord`' % name) if lacks else None
        known = self.library_name(node)
        if known in FLOATS:
            return '`%s`, whose values have no order' % known, instead
        if known in NO_KEY:
            return '`%s`, which is no key' % known, instead
        own = self.types.marked(name, self.place) if len(node.segments) == 1 else None
        if own and not {'key', 'BorshKey'} & (set(own.options) | self.types.traits(name, self.place)[1]):
            return '`%s`, which isn\'t marked as one' % name, 'write `// derive: %s, key` above it' % ', '.join(own.options)
        return first(self.no_key(one, instead) for one in arguments) if known != 'PhantomData' else None

    # ---- defaults

    def check_default(self, field):
        reason = self.no_default(field.type)
        self.refuse(field, 'the field `%s` is left out, so a decoded value has the `Default` of its type there, and there is none of %s', reason)

    def no_default(self, node):
        """A type that has no default, with what to write, or None."""
        if isinstance(node, Path):
            return self.no_default_by_name(node)
        if isinstance(node, Tuple):
            return first(self.no_default(item) for item in node.items)
        if isinstance(node, Array):
            return self.no_default(node.element)
        if isinstance(node, Reference) and not is_counted(node.type):
            return 'a reference', 'hold an `Option` of it, whose default is `None`'
        return None

    def no_default_by_name(self, node):
        name, arguments = node.segments[-1]
        if node.head() in self.parameters:
            lacks = self.parameters[node.head()].is_type and self.lacks(node.head(), 'Default')
            return ('`%s`' % name, 'write `%s: Default`' % name) if lacks else None
        known = self.library_name(node)
        if known in NO_DEFAULT:
            return '`%s`' % known, 'hold an `Option` of it, whose default is `None`'
        if known in HOLDING:
            return first(self.no_default(one) for one in arguments)
        own = self.types.traits(name, self.place) if len(node.segments) == 1 else None
        if own and 'Default' not in own[1]:
            return '`%s`' % name, 'write `#[derive(Default)]` above `%s`, or hold an `Option` of it' % own[0]
        return None


def first(reasons):
    return next((reason for reason in reasons if reason), None)


def paths_in(tree):
    """The names with arguments in a type, but those in a `PhantomData`."""
    if isinstance(tree, Path):
        name, arguments = tree.segments[-1]
        inner = [] if name == 'PhantomData' else arguments
        return [tree] + [one for argument in inner for one in paths_in(argument)]
    if isinstance(tree, Tuple):
        return [one for item in tree.items for one in paths_in(item)]
    if isinstance(tree, Reference):
        return paths_in(tree.type)
    return paths_in(tree.element) if isinstance(tree, (Array, Slice)) else []
