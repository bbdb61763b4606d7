"""The text that is written for a type: what its bytes are, and how it is encoded and decoded."""

import copy
import re

from ghost import KNOWN, RESERVED, Term, ghost_cases, ghost_member, ghost_name, ghost_term, nested_pairs, within_width
from ghost_imports import ghost_imports
from groups import TUPLE, Node, flat_fields, ghost_parts, grouped, parts, shaped
from layout import (Group, arm, binding, block_arm, call, chain, chain_fits, conjunction, doc_line, flat,
                    function_head, impl_head, import_lines, pattern, statement, struct_of, tuple_of, tuple_type,
                    type_layout, type_text, within)
from rust_types import GROWING, WALKED, Array, Path, arrays_in, heads, is_never_empty, mentions
from source import Fields

NUMBERS = ('zero', 'one', 'two', 'three', 'four', 'five', 'six', 'seven', 'eight', 'nine', 'ten', 'eleven',
           'twelve')

# the most fields of a struct or a variant
MOST_FIELDS = 200

# the module of the library that has what is written here, and what it has
DERIVED = 'borsh::derived'
OFFERED = set('''BorshDeserialize BorshKey BorshSchema BorshSerialize BorshType Case CaseWith Cases Chain ChainTo Declaration
    DefinitionMap EnumExt FieldTypes Fork FromCases FromParts Global Read Result SchemaResult Tag TupleTypes VariantTypes Write
    add_enum add_enum_with add_named add_named_with add_unit add_unnamed add_unnamed_with declared declared_with read_enum read_parts
    read_variant put_bytes write_bytes'''.split())
OFFERED |= {prefix + number for prefix in ('write_', 'put_') for number in NUMBERS[2:]}
OFFERED |= {'Tuple%d' % count for count in range(2, TUPLE + 1)}


class Place:
    """Where a type is: its crate's name, the file's module (None for the root file), what the module says, and the
    file's name."""

    def __init__(self, crate, module_name, module, file):
        self.crate = crate
        self.module_name = module_name
        self.module = module
        self.file = file


class Writer:
    """Puts together the text for one type."""

    def __init__(self, marked, place):
        self.marked = marked
        self.place = place
        paths = set(user_imports(marked, place))
        self.used = {last_name(path) for path in paths if is_offered(path)}
        self.imports = {path for path in paths if not is_offered(path)}
        self.taken = set(marked.heads()) | {marked.name} | {parameter.name for parameter in marked.parameters}
        self.taken = self.taken - self.used | {last_name(path) for path in self.imports}
        self.alias = free_name('Fields' if marked.variants is None else 'Variants', self.taken)
        self.list = free_name('FieldList' if marked.variants is None else 'VariantList', self.taken)
        if not any(group.encoded() for group in marked.groups()):
            self.list = self.alias
        self.is_paired = is_paired(marked, place)
        self.sink = free_name('W', self.taken)
        self.source = free_name('R', self.taken)

    # ---- names

    def part_name(self, number, variant='', kind=''):
        """The name of a type for some fields of a struct or a variant of many."""
        return free_name('%sPart%s%s' % (variant, number, kind), self.taken)

    def lib(self, name):
        """A name of the library, or its path where the type uses that name for something else."""
        if name in self.taken:
            return '%s::%s' % (DERIVED, name)
        self.used.add(name)
        return name

    def all_imports(self):
        """The imports. The names of the library are listed where `*` could hide a name of the type's module."""
        is_hidden = self.taken & OFFERED or any(path.endswith('*') for path in self.imports)
        names = sorted(self.used) if is_hidden else ['*']
        return self.imports | {'%s::%s' % (DERIVED, name) for name in names}

    def arguments(self):
        """The parameters as arguments: `<A, N>` or nothing."""
        names = [parameter.name for parameter in self.marked.parameters]
        return '<%s>' % ', '.join(names) if names else ''

    def own(self):
        return self.marked.name + self.arguments()

    def own_layout(self):
        names = [parameter.name for parameter in self.marked.parameters]
        return generic_group(self.marked.name, names) if names else self.marked.name

    def alias_use(self, alias=None):
        """The alias with those parameters that the encoded fields name."""
        names = [parameter.name for parameter in self.alias_parameters()]
        return (alias or self.alias) + ('<%s>' % ', '.join(names) if names else '')

    def alias_head(self, alias=None):
        """The alias as it is declared."""
        names = ['const %s: %s' % (p.name, p.bounds) if p.constant else p.name for p in self.alias_parameters()]
        return (alias or self.alias) + ('<%s>' % ', '.join(names) if names else '')

    def list_use(self):
        """The same of the alias for schemas."""
        return self.alias_use(self.list)

    def list_head(self):
        return self.alias_head(self.list)

    def alias_parameters(self):
        named = self.marked.names()
        return [parameter for parameter in self.marked.parameters if parameter.name in named]

    def bounded(self, bound):
        """The parameters with their bounds and one more on types that are encoded, as an `impl` declares them."""
        found = []
        encoded = self.marked.encoded_parameters()
        for parameter in self.marked.parameters:
            if parameter.constant:
                found.append('const %s: %s' % (parameter.name, parameter.bounds))
                continue
            bounds = [part.strip() for part in parameter.bounds.split('+')] if parameter.bounds else []
            bounds += [bound] if parameter in encoded and bound not in bounds else []
            found.append('%s: %s' % (parameter.name, ' + '.join(bounds)) if bounds else parameter.name)
        return found

    def where(self):
        return split_bounds(self.marked.where)

    def empty_head(self, codec):
        """The head of `encodes_empty`. A type with a lifetime doesn't get the trait's clause where no argument names it."""
        head = '    fn encodes_empty() -> bool {'
        return with_clause(head, 'result ≡ %s.is_zero_width' % codec.flat()) if self.has_lifetime() else head

    def has_lifetime(self):
        return any(parameter.name.startswith("'") for parameter in self.marked.parameters)

    def block(self, trait, bound, rows):
        """An `impl` block."""
        head = impl_head(self.bounded(self.lib(bound)), self.lib(trait), self.own(), self.where())
        return '\n'.join([head] + within_width(rows) + ['}'])

    def premises(self):
        """The proof of what the laws rest on: facts of keys, and what the parameters bring."""
        types = self.marked.encoded_parameters()
        keys = [parameter.name for parameter in types if re.search(r'\bBorshKey\b', parameter.bounds)]
        brought = [name.lower() + '_key' for name in keys] + [parameter.name + '.premises' for parameter in types]
        facts = '(%s)' % ', '.join(['key_facts'] + brought) if brought else 'key_facts'
        if not keys:
            return '    ghost premises = { Prim.search %s };' % facts
        lets = [row for name in keys for row in key_fact(name)]
        rows = lets + ['        Prim.search %s };' % facts]
        return '    ghost premises = { ' + '\n'.join(rows).lstrip()

    # ---- the whole

    def text(self, blocks):
        """The blocks with their imports."""
        body = '\n\n'.join(blocks)
        head = '// Written by borsh_derive.py from %s: edit that file, and run the program again.'
        rows = [head % self.place.file]
        rows += ghost_imports(self, body)
        rows += [''] + import_lines(self.all_imports()) + ['', body]
        return '\n'.join(rows) + '\n'


def is_offered(path):
    """Whether a path of the type's module names what the library's module for generated text has."""
    return last_name(path) in OFFERED and re.match(r'borsh(_\w+)?::', path) and ' as ' not in path


def last_name(path):
    return path.split(' as ')[-1].split('::')[-1]


class Part(Writer):
    """Puts together the text for some fields of a struct or a variant of many, which are written as one part: a type of
    references to them. `path` is the place of the part in the tuple of all fields."""

    def __init__(self, writer, node, variant=''):
        self.__dict__.update(writer.__dict__)
        self.node = node
        fields = flat_fields(node)
        named = set(name for field in fields for name in heads(field.type))
        parameters = [parameter for parameter in writer.marked.parameters if parameter.name in named]
        bounds = [bound for bound in split_bounds(writer.marked.where) if bound.split(':')[0].strip() in named]
        self.owner = '%s::%s' % (writer.marked.name, variant) if variant else writer.marked.name
        self.marked = copy.copy(writer.marked)
        self.marked.parameters, self.marked.where = parameters, ', '.join(bounds)
        self.marked.fields, self.marked.variants = Fields('tuple', fields), None
        self.marked.name = writer.part_name(node.number, variant)
        self.alias = writer.part_name(node.number, variant, 'Fields')

    def own(self):
        return "%s<%s>" % (self.marked.name, ', '.join(["'a"] + [parameter.name for parameter in self.marked.parameters]))

    def declared(self):
        return self.alias_head(self.marked.name + "<'a>").replace('><', ', ')

    def bounded(self, bound):
        return ["'a"] + super().bounded(bound)

    def has_lifetime(self):
        return True


def key_fact(name):
    """What a map asks of a parameter that is its key, as a variable of a ghost term."""
    return ['        let %s_key : IsKey %s.ordered %s.cmp %s.eq %s.codec =' % (name.lower(), name, name, name, name),
            '        record { key = %s.key; total = %s.total; matches = %s.matches_eq } in' % (name, name, name)]


def is_paired(marked, place):
    """Whether the only field of a struct is a list, a box or an option of a type of one's own. Its parts are the field
    and `()`, since the prover stops with a fault of its own at such a type as the parts."""
    fields = marked.fields.encoded() if marked.variants is None else []
    if len(fields) != 1 or not isinstance(fields[0].type, Path):
        return False
    inner = [name for argument in fields[0].type.segments[-1][1] for name in heads(argument)]
    return any(name in place.module.items or name in place.module.imports for name in inner)


def free_name(name, taken):
    while name in taken:
        name += 'Type'
    return name


def user_imports(marked, place):
    """The imports of what the type's fields and bounds name, as a module beside the type's own sees it."""
    found = [beside(place, marked.name)]
    for name in marked.heads():
        if name in place.module.imports:
            found.append(moved(place, place.module.imports[name]))
        elif name in place.module.items:
            found.append(beside(place, name))
    found += [moved(place, path) for name, path in place.module.imports.items() if name.startswith('*')]
    return found


def beside(place, name):
    """The path of an item of the type's own module."""
    return 'super::' + (place.module_name + '::' if place.module_name else '') + name


def moved(place, path):
    """A path of the type's own module, for a module beside it."""
    head, _, rest = path.partition('::')
    if head == 'self':
        return beside(place, rest)
    if head in place.module.items:
        return beside(place, path)
    return path


def split_bounds(where):
    """The bounds of a `where`, one by one."""
    found, depth, part = [], 0, ''
    for c in where:
        depth += (c in '(<[') - (c in ')>]')
        if c == ',' and depth == 0:
            found.append(part.strip())
            part = ''
        else:
            part += c
    return found + ([part.strip()] if part.strip() else [])


# ---- fields

def type_of_parts(fields):
    layouts = [type_layout(field.type) for field in fields]
    return parts(layouts, tuple_type) if layouts else '()'


def local_names(fields, avoid):
    """A variable for each encoded field: its own name, or `part0` where it has none or that name is in use."""
    found = []
    names = [field.name for field in fields]
    for index, name in enumerate(names):
        bare = name[0].isdigit() or name in avoid
        found.append(free_variable('part%d' % index, names) if bare else name)
    return found


def taking_apart(value, names, indent):
    """Statements that bind the parts of a value; of more than twelve there are tuples within."""
    rows = []
    values = {'': value}
    for node in grouped(names):
        for item in node.items:
            if isinstance(item, Node):
                values[item.number] = free_variable('group%d' % item.number, names)
        bound = [values[item.number] if isinstance(item, Node) else item for item in node.items]
        rows.append(binding(tuple_of(bound), values[node.number], indent))
    return rows


def free_variable(name, names):
    while name in names:
        name += '_parts'
    return name


def made(path, fields, names):
    """The value with these fields; those that are left out have their default."""
    encoded = dict(zip(fields.encoded(), names))
    if fields.kind == 'unit':
        return path
    if fields.kind == 'tuple':
        return call(path, [encoded.get(field, 'Default::default()') for field in fields.all])
    rows = []
    for field in fields.all:
        value = encoded.get(field, 'Default::default()')
        rows.append(field.name if value == field.name else '%s: %s' % (field.name, value))
    return struct_of(path, rows)


def blocks_of(writer):
    """What every type has."""
    return struct_blocks(writer) if writer.marked.variants is None else enum_blocks(writer)


# ---- structs

def struct_blocks(writer):
    blocks = [struct_fields, struct_meaning, struct_encoding]
    if not writer.marked.is_only_encoded():
        blocks += [struct_parts, struct_decoding]
    if 'key' in writer.marked.options:
        blocks.append(struct_key)
    return [block(writer) for block in blocks]


def struct_fields(writer):
    fields = writer.marked.fields.encoded()
    left_out = ' that are encoded' if len(fields) < len(writer.marked.fields.all) else ''
    doc = doc_line('The fields of [`%s`]%s, in order.' % (writer.marked.name, left_out))
    return '%s\n%s' % (doc, tuple_alias(writer, writer.alias_head(), grouped(fields)[0]))


def tuple_alias(writer, head, node, variant=''):
    """The declaration of a name for the tuple of fields; one that is too wide is named by its length."""
    types = [Part(writer, item, variant).alias_use() if isinstance(item, Node) else type_layout(item.type)
             for item in node.items] + (['()'] if writer.is_paired else [])
    start = 'type %s = ' % head
    line = statement(start, parts(types, tuple_type) if types else '()', ';', 0)
    if '\n' in line:
        line = statement(start, generic_group(writer.lib('Tuple%d' % len(types)), types), ';', 0)
    return line


def struct_view(writer):
    """The function from a value to the tuple of its fields."""
    fields = writer.marked.fields.encoded()
    unit = ['tt'] if writer.is_paired else []
    return Term('λ v. ' if fields else 'λ _. ', ghost_parts(['v.' + ghost_name(field.name) for field in fields] + unit))


def struct_meaning(writer):
    """The view is that of `FromParts`; with parameters it is written out, since that impl asks for more of them."""
    if writer.marked.parameters or writer.marked.is_only_encoded():
        view = struct_view(writer).within('(', ')')
    else:
        view = quote(writer, writer.own(), 'FromParts', '.view')
    laws_of_fields = quote(writer, writer.alias_use(), 'BorshType', '.lawful_if')
    laws = ghost_member('lawful_if', 'from', [view.within('(contramap-lawful ', ')'), laws_of_fields])
    return meaning(writer, view, 'BorshType', laws, encodes_empty(writer), element_size(writer))


def encodes_empty(writer):
    """What `encodes_empty` returns. It is `false` where a field's type says so, which the prover computes; a call brings
    the laws of all fields with it, and takes it longer."""
    marked, module = writer.marked, writer.place.module
    own = set(module.items) | set(module.imports)
    if all(parameter.name.startswith("'") for parameter in marked.parameters) and any(is_never_empty(field.type, own) for field in marked.fields.encoded()):
        return ' ' * 8 + 'false'
    calls = of_fields(writer, 'encodes_empty')
    return ' ' * 8 + conjunction(calls, 8, 8, 0)


def element_size(writer):
    """What `element_size` returns: the size of the type; with parameters, which may have any, that of the fields."""
    if not writer.marked.parameters:
        return ' ' * 8 + 'size_of::<%s>()' % writer.own()
    if writer.marked.variants is not None:
        return ' ' * 8 + '<%s>::element_size()' % writer.alias_use()
    return chain_of_sizes(writer)


def chain_of_sizes(writer):
    """The sizes of the fields, one added to the other."""
    calls = of_fields(writer, 'element_size')
    added = [within('.saturating_add(', call, ')') for call in calls[1:]]
    if len(calls) == 2 and not chain_fits(calls[0], added, 8):
        rows = [statement('let first = ', calls[0], ';', 8), statement('let second = ', calls[1], ';', 8)]
        return '\n'.join(rows + [' ' * 8 + 'first.saturating_add(second)'])
    return chain(calls[0], added, 8)


def of_fields(writer, name):
    """A call of `BorshType` for all fields. With a length as a parameter each field is asked by itself: that a tuple
    with an array of such a length fits in memory doesn't follow."""
    types = [type_layout(field.type) for field in writer.marked.fields.encoded()]
    if not any(parameter.constant for parameter in writer.marked.parameters) or not types:
        return ['<%s>::%s()' % (writer.alias_use(), name)]
    ends = [('', '') if re.fullmatch(r'\w+', flat(node)) else ('<', '>') for node in types]
    return [within(start, node, '%s::%s()' % (end, name)) for node, (start, end) in zip(types, ends)]


def quote(writer, name, trait, member):
    """A member of an implementation, as a ghost term names it."""
    return Term('', ['⟦<%s as %s>⟧%s' % (name, writer.lib(trait), member)])


def meaning(writer, view, trait, laws, empty, size):
    """`impl BorshType`: the codec of the parts, seen through the view, and the laws that follow from theirs."""
    codec = quote(writer, writer.alias_use(), trait, '.codec')
    rows = [ghost_member('codec', 'contramap', [view, codec]), '', laws, '', writer.premises(), '',
            writer.empty_head(codec), empty, '    }', '',
            '    fn element_size() -> usize {', size, '    }']
    return writer.block('BorshType', 'BorshType', rows)


def struct_encoding(writer):
    names = ['self.' + field.name for field in writer.marked.fields.encoded()]
    if not names:
        body = statement('', call(writer.lib('write_bytes'), ['&[]', 'writer']), '', 8)
    elif len(names) == 1:
        body = chain('self', [names[0][len('self'):], '.serialize(alloc, writer)'], 8)
    else:
        whole = 'self' if holds_whole(writer) else ''
        body = '\n'.join(written_node(writer, grouped(writer.marked.fields.encoded())[0], ['&' + name for name in names], whole))
    rows = [serialize_head(writer, used=bool(names))] + by_room(writer) + [body, '    }'] + struct_put(writer, names)
    block = writer.block('BorshSerialize', 'BorshSerialize', rows)
    return '\n\n'.join(part_blocks(writer, grouped(writer.marked.fields.encoded())[1:]) + [block])


def written_node(writer, node, places, whole, variant=''):
    """The statements that write the places of a node: references to its fields, and parts, which refer to these or to the
    whole value."""
    rows, arguments = [], []
    for item in node.items:
        if not isinstance(item, Node):
            arguments.append(places[0])
            places = places[1:]
            continue
        name, count = writer.part_name(item.number, variant), len(flat_fields(item))
        if whole:
            rows.append('        let part%d = %s(%s);' % (item.number, name, whole))
        arguments.append('&part%d' % item.number if whole else within('&', call(name, places[:count]), ''))
        places = places[count:]
    return rows + [statement('', written(writer, arguments), '', 8)]


def written(writer, arguments):
    """The call that writes parts in order."""
    return call(writer.lib('write_' + NUMBERS[len(arguments)]), arguments + ['alloc', 'writer'])


def holds_whole(writer):
    """Whether the types for some fields refer to the whole value. One with parameters can't quote the view of it."""
    return writer.marked.variants is None and not writer.marked.parameters


def part_blocks(writer, nodes, variant=''):
    """The types of references to some fields of a struct or a variant of many, each written as one part."""
    blocks = []
    for node in nodes:
        part = Part(writer, node, variant)
        fields = flat_fields(node)
        if holds_whole(writer):
            held, whole = ["&'a " + writer.own()], 'whole'
            parts_of = quote(writer, writer.own(), 'FromParts', '.view').flat()
            view = Term('(λ r. ', ['(%s r.0.now)%s' % (parts_of, node.path)], ')')
            places = ['&whole.%s' % field.name for field in fields]
        else:
            held, whole = ["&'a " + type_text(field.type) for field in fields], ''
            view = Term('(λ r. ', shaped(node, ('r.%d.now' % index for index in range(len(fields)))), ')')
            places = ['self.%d' % index for index in range(len(fields))]
        laws_of_fields = quote(part, part.alias_use(), 'BorshType', '.lawful_if')
        laws = ghost_member('lawful_if', 'from', [view.within('(contramap-lawful ', ')'), laws_of_fields])
        writes = [serialize_head(part, used=True)] + (['        let whole = self.0;'] if whole else [])
        writes += written_node(part, node, places, whole, variant) + ['    }']
        doc = 'Fields of [`%s`]' % part.owner
        blocks += ['%s\n%s' % (doc_line(doc + ', in order.'), tuple_alias(part, part.alias_head(), node, variant)),
                   '%s\n#[derive(Drop)]\n%s' % (doc_line(doc + ', which are written as one part.'),
                               statement('', call('struct ' + part.declared(), held), ';', 0)),
                   meaning(part, view, 'BorshType', laws, encodes_empty(part), chain_of_sizes(part)),
                   part.block('BorshSerialize', 'BorshSerialize', writes)]
    return blocks


# the head of the method by which a list writes many elements at a time
PUT = '    fn put(&self, room: &mut [u8]) -> Option<usize> {'

# the first statements of `serialize`: what fits in a room is written at once
BY_ROOM = '''        let mut room = [0u8; 256];
        if let Some(n) = self.put(&mut room) {
            return %s(&room[..n], writer);
        }'''

LENGTH = '    fn encoded_length(&self) -> Option<u32> {'


def has_put(writer):
    """Whether a struct has the method `put`: none of its fields is a map, say, which has none."""
    fields = writer.marked.fields.encoded()
    return not writer.is_paired and 0 < len(fields) <= TUPLE and not any(mentions(field.type, WALKED) for field in fields)


def by_room(writer):
    """The statements that write all fields at once. Without a text or a list LLVM makes few stores of `serialize`, and a room
    gains nothing."""
    fields = writer.marked.fields.encoded()
    gains = has_put(writer) and len(fields) > 1 and any(mentions(field.type, GROWING) for field in fields)
    return [BY_ROOM % writer.lib('write_bytes')] if gains else []


def struct_put(writer, names):
    """The methods `put` and `encoded_length`."""
    if not has_put(writer):
        return []
    if len(names) == 1:
        field = names[0][len('self'):]
        length = ['', LENGTH, chain('self', [field, '.encoded_length()'], 8), '    }']
        return ['', PUT, chain('self', [field, '.put(room)'], 8), '    }'] + length
    arguments = ['&' + name for name in names] + ['room']
    body = statement('', call(writer.lib('put_' + NUMBERS[len(names)]), arguments), '', 8)
    return ['', PUT, body, '    }'] + struct_length(writer, names)


def struct_length(writer, names):
    """The method `encoded_length` of two fields or more: that of a tuple of references, which isn't covered where a type has a
    lifetime."""
    if any("'" in flat(type_layout(field.type)) for field in writer.marked.fields.encoded()):
        return []
    fields = statement('let fields = ', tuple_of(['&' + name for name in names]), ';', 8)
    return ['', LENGTH, fields, '        fields.encoded_length()', '    }']


def serialize_head(writer, used):
    name = 'serialize<%s: %s>' % (writer.sink, writer.lib('Write'))
    alloc = 'alloc' if used else '_alloc'
    parameters = ['&self', '%s: %s' % (alloc, writer.lib('Global')), 'writer: &mut %s' % writer.sink]
    return function_head(name, parameters, '%s<()>' % writer.lib('Result'), 4)


def struct_parts(writer):
    fields = writer.marked.fields
    names = local_names(fields.encoded(), ())
    parameter = {0: '_fields', 1: names[0] if names else ''}.get(len(names), 'fields')
    view = ghost_term(struct_view(writer).within('ghost view = { ', ' };'), 4)

    def head_with(name):
        return function_head('from_parts', ['%s: %s' % (name, writer.alias_use())], writer.own_layout(), 4)

    # the fields are taken apart in the parameter where they fit into its line
    bound = names + (['_'] if writer.is_paired else [])
    head = head_with(flat(tuple_of(bound))) if 1 < len(bound) <= TUPLE else ''
    is_whole = not head or '\n' in head
    if is_whole:
        head = head_with(parameter)
    if len(bound) > TUPLE:
        head = with_clause(head, equation_later(quote(writer, writer.own(), 'FromParts', '.view').flat(), 'fields'))
    rows = ['    type Parts = %s;' % writer.alias_use(), '', view, '', head]
    if is_whole and len(bound) > 1:
        rows += taking_apart('fields', bound, 8)
    rows += [statement('', made(writer.marked.name, fields, names), '', 8), '    }']
    return writer.block('FromParts', 'BorshDeserialize', rows)


def struct_decoding(writer):
    head = deserialize_head(writer, 'deserialize_reader', [])
    body = '        %s(alloc, reader)' % writer.lib('read_parts')
    return writer.block('BorshDeserialize', 'BorshDeserialize', [head, body, '    }'] + own_width(writer))


def struct_key(writer):
    """`impl BorshKey`: derived comparisons go over nested pairs."""
    fields = writer.marked.fields.encoded()
    view = Term('(λ v. ', nested_pairs(['v.' + ghost_name(field.name) for field in fields]), ')')
    ordered = quote(writer, pairs([type_text(field.type) for field in fields]), 'BorshKey', '.ordered')
    member = ghost_member('ordered', 'contramap_ordered', [view, ordered])
    rows = [member, '', '    ghost key = { Self.ordered.key };']
    return writer.block('BorshKey', 'BorshKey', rows)


def pairs(items):
    return items[0] if len(items) == 1 else '(%s, %s)' % (items[0], pairs(items[1:]))


def deserialize_head(writer, name, more):
    parameters = ['alloc: %s' % writer.lib('Global'), 'reader: &mut %s' % writer.source] + more
    generic = '%s<%s: %s>' % (name, writer.source, writer.lib('Read'))
    return function_head(generic, parameters, generic_group(writer.lib('Result'), [writer.own_layout()]), 4)


# ---- enums

def enum_blocks(writer):
    blocks = [enum_variants, enum_cases, enum_meaning, enum_encoding, enum_decoding, enum_after_tag]
    if 'key' in writer.marked.options:
        blocks.append(enum_key)
    return [block(writer) for block in blocks]


def tree(items, leaf, fork):
    """Items as a tree that is split in the middle."""
    if len(items) == 1:
        return leaf(items[0])
    middle = (len(items) + 1) // 2
    return fork(tree(items[:middle], leaf, fork), tree(items[middle:], leaf, fork))


def on_tree(items, left='left', right='right'):
    """Each item with the turns that lead to it in that tree."""
    def turned(turn, pairs):
        return [(item, [turn] + turns) for item, turns in pairs]

    return tree(items, lambda item: [(item, [])], lambda a, b: turned(left, a) + turned(right, b))


def generic_group(name, arguments):
    return Group(name, '<', arguments, '>')


def enum_variants(writer):
    case, fork = writer.lib('Case'), writer.lib('Fork') if len(writer.marked.variants) > 1 else None
    node = tree(writer.marked.variants,
                lambda v: generic_group(case, [str(v.tag), type_of_parts(v.fields.encoded())]),
                lambda a, b: generic_group(fork, [a, b]))
    doc = doc_line('The variants of [`%s`]: each has a tag and its fields, in order.' % writer.marked.name)
    return '%s\n%s' % (doc, statement('type %s = ' % writer.alias_head(), node, ';', 0))


def enum_view(writer):
    """The arms of the function from a value to its variant, on its place in the tree."""
    rows = []
    for variant, turns in on_tree(writer.marked.variants):
        encoded = variant.fields.encoded()
        names = dict(zip(encoded, ghost_binders(encoded)))
        binders = [names.get(field, '_') for field in variant.fields.all]
        node = Term('fields ', ghost_parts([names[field] for field in encoded]))
        for turn in reversed(turns):
            node = node.within(turn + ' (', ')')
        start = ' '.join(['%s.%s' % (ghost_name(writer.marked.name), ghost_name(variant.name))] + binders)
        rows.append(node.within(start + ' ↦ ', ''))
    return rows


# functions of the arms of a view
IN_ARMS = {'left', 'right', 'fields'}


def ghost_binders(fields):
    """A variable for each field of a variant: its own name, if no such name means something else in the term."""
    names = [field.name for field in fields]
    if any(name[0].isdigit() or name in RESERVED | KNOWN | IN_ARMS for name in names):
        return ['part%d' % index for index in range(len(names))]
    return names


def enum_cases(writer):
    head = function_head('from_cases', ['cases: %s' % writer.alias_use()], writer.own_layout(), 4)
    view = ghost_cases('view', enum_view(writer), 4)
    clause = with_clause(head, equation_later(quote(writer, writer.own(), 'FromCases', '.view').flat(), 'cases'))
    rows = ['    type Cases = %s;' % writer.alias_use(), '', view, '', clause, '        match cases {']
    for variant, turns in on_tree(writer.marked.variants):
        rows += from_case(writer, variant, turns)
    rows += ['        }', '    }', '', '    ghost distinct_tags = { refl };']
    return writer.block('FromCases', 'BorshType', rows)


def equation_later(view, parameter):
    """What `from_cases` and `from_parts` ensure. It says no less than the trait's clause, `view result ≡ cases`. Where the
    goal is an equation, `search` first computes both sides with all that is known of the variants or fields, and gives up
    after ten million steps; behind a premise it leaves the equation to the next tactic, which needs few."""
    return '⊤ → %s result ≡ %s' % (view, parameter)


def with_clause(head, clause):
    """The head of a function with a clause."""
    return '%s\n        ensures { %s }\n    {' % (head[:-len(' {')], clause)


def from_case(writer, variant, turns):
    """The arm that makes a variant of its fields. A field that is an array is taken out by a `let`."""
    names = local_names(variant.fields.encoded(), ())
    inner = {0: '()', 1: names[0] if names else ''}.get(len(names), 'fields')
    held = len(names) == 1 and isinstance(variant.fields.encoded()[0].type, Array)
    node = 'case' if held else tuple_of(['_', inner])
    for turn in reversed(turns):
        node = pattern('%s::%s' % (writer.lib('Fork'), turn.capitalize()), [node])
    value = made('%s::%s' % (writer.marked.name, variant.name), variant.fields, names)
    if len(names) < 2 and not held:
        return [arm(node, value, 12)]

    def rows_at(indent):
        taken = [' ' * indent + 'let %s = case.1;' % names[0]] if held else taking_apart('fields', names, indent)
        return taken + [statement('', value, '', indent)]

    return block_arm(node, rows_at, 12)


def enum_meaning(writer):
    view = quote(writer, writer.own(), 'FromCases', '.view')
    variants = quote(writer, writer.alias_use(), 'Cases', '.variants')
    laws = ghost_member('lawful_if', 'enum_lawful_if', [view, variants, Term('', ['refl'])])
    return meaning(writer, view, 'Cases', laws, '        false', element_size(writer))


def enum_encoding(writer):
    fields = [field for variant in writer.marked.variants for field in variant.fields.encoded()]
    wide = [variant for variant in writer.marked.variants if len(variant.fields.encoded()) >= TUPLE]
    has_put = not wide and not any(mentions(field.type, WALKED) for field in fields)
    rows = [serialize_head(writer, bool(fields))]
    rows += [BY_ROOM % writer.lib('write_bytes')] if has_put and any(mentions(field.type, GROWING) for field in fields) else []
    rows += ['        match self {'] + [written_variant(writer, variant) for variant in writer.marked.variants]
    rows += ['        }', '    }'] + (enum_put(writer) if has_put else [])
    blocks = [part_blocks(writer, grouped(variant.fields.encoded()), variant.name) for variant in wide]
    return '\n\n'.join(sum(blocks, []) + [writer.block('BorshSerialize', 'BorshSerialize', rows)])


def enum_put(writer):
    """The method `put` of an enum."""
    rows = ['', PUT, '        match self {']
    for variant in writer.marked.variants:
        encoded = variant.fields.encoded()
        names = local_names(encoded, ('room',))
        node = matched('%s::%s' % (writer.marked.name, variant.name), variant.fields, dict(zip(encoded, names)))
        if names:
            put, first = 'put_' + NUMBERS[len(names) + 1], '&%s(%d)' % (writer.lib('Tag'), variant.tag)
        else:
            put, first = 'put_bytes', '&[%d]' % variant.tag
        rows.append(arm(node, call(writer.lib(put), [first] + names + ['room']), 12))
    return rows + ['        }', '    }']


def written_variant(writer, variant):
    """The arm that writes a variant: its tag and its fields."""
    encoded = variant.fields.encoded()
    names = local_names(encoded, ('alloc', 'writer'))
    path = '%s::%s' % (writer.marked.name, variant.name)
    node = matched(path, variant.fields, dict(zip(encoded, names)))
    if not names:
        return arm(node, call(writer.lib('write_bytes'), ['&[%d]' % variant.tag, 'writer']), 12)
    tag = '&%s(%d)' % (writer.lib('Tag'), variant.tag)
    if len(names) >= TUPLE:
        names = [within('&', call(writer.part_name('', variant.name), names), '')]
    return arm(node, written(writer, [tag] + names), 12)


def matched(path, fields, names):
    """The pattern that binds the encoded fields of a variant."""
    if fields.kind == 'unit':
        return path
    if fields.kind == 'tuple':
        return pattern(path, [names.get(field, '_') for field in fields.all])
    rows = []
    for field in fields.encoded():
        rows.append(field.name if names[field] == field.name else '%s: %s' % (field.name, names[field]))
    return struct_of(path, rows + (['..'] if len(rows) < len(fields.all) else []))


def enum_key(writer):
    """`impl BorshKey` of an enum without fields: its derived equality and order with their laws, and for each variant that
    it is equal to itself alone."""
    rows = ['    ghost ordered = { record {']
    for member, trait in (('codec', 'BorshType'), ('eq', 'PartialEq'), ('cmp', 'Ord')):
        rows.append('      %s = ⟦<%s as %s>⟧.%s;' % (member, writer.own(), writer.lib(trait) if member == 'codec' else trait, member))
    rows += ['      total = total-law;', '      matches = matches_eq-law;', '      key = elim [']
    for variant in writer.marked.variants:
        name = '%s.%s' % (ghost_name(writer.marked.name), ghost_name(variant.name))
        others = [OTHER] if len(writer.marked.variants) > 1 else []
        rows += ['        | %s ↦ elim [' % name, '          | %s ↦ (λ _. refl, λ _. refl)' % name] + others + ['        ]']
    rows += ['      ];', '    } };', '', '    ghost key = { Self.ordered.key };']
    return writer.block('BorshKey', 'BorshKey', rows)


OTHER = '          | _ ↦ (λ e. absurd (true≢false (sym e)), λ h. absurd h)'


def enum_decoding(writer):
    head = deserialize_head(writer, 'deserialize_reader', [])
    body = '        %s(alloc, reader)' % writer.lib('read_enum')
    return writer.block('BorshDeserialize', 'BorshDeserialize', [head, body, '    }'] + own_width(writer))


def own_width(writer):
    """The method `width` of a type with a length as a parameter, or with an array whose elements name a parameter: that it
    fits in memory, which the provided one has to know, doesn't follow from these."""
    if not any(parameter.constant for parameter in writer.marked.parameters) and not has_array_of_parameter(writer.marked):
        return []
    return ['', '    fn width() -> usize {', '        0', '    }']


def has_array_of_parameter(marked):
    names = {parameter.name for parameter in marked.parameters}
    types = [field.type for group in marked.groups() for field in group.all]
    return any(names & set(heads(array.element)) for type in types for array in arrays_in(type))


def enum_after_tag(writer):
    head = deserialize_head(writer, 'deserialize_variant', ['tag: u8'])
    body = '        %s(alloc, reader, tag)' % writer.lib('read_variant')
    return writer.block('EnumExt', 'BorshDeserialize', [head, body, '    }'])
