"""What is written for a type's schema: its name, its definitions, and why they describe its encodings."""

from describe import describes_fields, describes_variants
from emit import Part, generic_group, quote, tree
from ghost import Applied, Term, ghost_list, ghost_member, ghost_name, nested_pairs
from groups import TUPLE, Node, grouped, leaves_of, places_of, shaped
from layout import (ARRAY_WIDTH, TUPLE_WIDTH, Group, call, doc_line, flat, function_head, statement, tuple_type,
                    type_layout)
from rust_types import heads

def with_schema(writer, blocks):
    """The blocks of a type, and those of its schema where the mark asks for one."""
    if 'schema' in writer.marked.options:
        blocks = blocks + (struct_schema(writer) if writer.marked.variants is None else enum_schema(writer))
    return blocks


def schema(writer, data, adding, describes):
    """`impl BorshSchema`: the members that say what the schema is, the call that adds the definitions, and a proof."""
    parameters = named_parameters(writer)
    if parameters:
        function = '%s::<%s, %s>' % (writer.lib('declared_with'), parameters[0], chain(parameters[1:], '()'))
    else:
        function = writer.lib('declared')
    declared = statement('', call(function, ['alloc', '"%s"' % writer.marked.name]), '', 8)
    rows = ['    ghost name = { %s };' % ghost_own_name(writer), ''] + data + ['']
    rows += [head(writer, 'declaration', [], writer.lib('Declaration')), declared, '    }', '',
             head(writer, 'add_definitions_recursively', ['map: &mut %s' % writer.lib('DefinitionMap')], '()'),
             adding, '    }', '', describes]
    return writer.block('BorshSchema', 'BorshSchema', rows)


def named_parameters(writer, variant=None):
    """The type parameters that are in the name of the type, or in that of a variant's definition."""
    fields = variant.fields.encoded() if variant else []
    names = [name for field in fields for name in heads(field.type, phantom=False)]
    return [parameter.name for parameter in writer.marked.encoded_parameters() if not variant or parameter.name in names]


def ghost_own_name(writer):
    parameters = named_parameters(writer)
    own = 'codes "%s"' % writer.marked.name
    if not parameters:
        return own
    others = ' ∷ '.join(['%s.name' % name for name in parameters[1:]] + ['[]'])
    others = '(%s)' % others if len(parameters) > 1 else others
    return 'name_with (%s) %s.name %s' % (own, parameters[0], others)


def head(writer, name, more, result):
    parameters = ['alloc: %s' % writer.lib('Global')] + more
    return function_head(name, parameters, '%s<%s>' % (writer.lib('SchemaResult'), result), 4)


def chain(items, end):
    """`(a, (b, end))`."""
    return '(%s, %s)' % (items[0], chain(items[1:], end)) if items else end


def chain_type(fields, end='()'):
    """The types of fields one after another."""
    node = end
    for field in reversed(fields):
        node = tuple_type([type_layout(field.type), node])
    return node


def list_aliases(writer, fields, start, variant=''):
    """The declarations of the types of many fields one after another: a name for those of each group and all behind it."""
    leaves = leaves_of(grouped(fields)[0])
    rows, behind = [], None
    for index in range(len(leaves) - 1, -1, -1):
        tail = Part(writer, Node(leaves[index:]), variant)
        name = '%s%d' % (start, index) if index else start
        own = [Part(writer, leaves[index], variant).alias_use()]
        types = generic_group(writer.lib('ChainTo'), own + [behind]) if behind else generic_group(writer.lib('Chain'), own)
        rows.append(statement('type %s = ' % tail.alias_head(name), types, ';', 0))
        behind = tail.alias_use(name)
    return list(reversed(rows))


def fields_view(names):
    """The function from a value to its fields one after another, in groups where there are many."""
    def chained(items):
        return nested_pairs([chained(item) if isinstance(item, list) else item for item in items] + ['tt'])

    return Term('(λ %s. ' % ('v' if names else '_'), chained(shaped(grouped(names)[0], iter(names))), ')')


def fields_described(writer, type_of_fields, fields, variant=''):
    """What describes fields one after another, in groups where there are many."""
    if not fields:
        return Term('', ['no_fields_described'])
    if len(fields) > TUPLE:
        return groups_described(writer, grouped(fields)[0], variant)
    return quote(writer, type_of_fields, 'FieldTypes', '.described')


def groups_described(writer, node, variant):
    if not isinstance(node.items[0], Node):
        chained = '%s<%s>' % (writer.lib('Chain'), Part(writer, node, variant).alias_use())
        return quote(writer, chained, 'FieldTypes', '.described')
    groups = 'no_groups'
    for item in reversed(node.items):
        groups = Applied('more_groups', groups_described(writer, item, variant), groups)
    return Applied('groups_described', groups)


# ---- structs

def struct_schema(writer):
    fields = writer.marked.fields.encoded()
    kind = writer.marked.fields.kind if fields else 'unit'
    chained = types_in_chain(writer, fields)
    described = fields_described(writer, chained, fields)
    view = fields_view(['v.' + ghost_name(field.name) for field in fields])
    types = quote(writer, chained, 'FieldTypes', '.described') if fields else described
    data = [struct_parts(writer, kind, types), '', struct_described(writer, kind, view, described)]
    describes = '    ghost describes = { Self.described.describes };'
    if named_parameters(writer):
        describes = describes_fields(writer, fields)
    block = schema(writer, data, struct_call(writer, kind, chained), describes)
    if len(fields) <= TUPLE:
        return [block]
    doc = doc_line('The fields of [`%s`] as its schema goes through them.' % writer.marked.name)
    first, *others = list_aliases(writer, fields, writer.list)
    return ['%s\n%s' % (doc, first)] + others + [block]


def types_in_chain(writer, fields):
    """The types of fields one after another, by the alias of their tuple; past twelve by an alias of their own."""
    if not fields:
        return '()'
    if len(fields) == 1:
        return writer.alias_use() if writer.is_paired else '(%s, ())' % writer.alias_use()
    if len(fields) > TUPLE:
        return writer.list_use()
    return '%s<%s>' % (writer.lib('Chain'), writer.alias_use())


def struct_described(writer, kind, view, described):
    """The codec, and that the definitions describe it."""
    if kind == 'named':
        return ghost_member('described', 'named_described', [view, labels(writer), described, Term('', ['refl'])])
    if kind == 'tuple':
        return ghost_member('described', 'unnamed_described', [view, described])
    return ghost_member('described', 'struct_described', [view, described, Term('', ['refl'])])


def labels(writer):
    """The names of the fields."""
    return Term('', ['(%s)' % ghost_list(['codes "%s"' % field.name for field in writer.marked.fields.encoded()])])


def struct_parts(writer, kind, described):
    """The definitions that the name leads to."""
    name = Term('', ['(%s)' % ghost_own_name(writer)])
    if kind == 'unit':
        return ghost_member('parts', 'unit_struct', [name])
    if kind == 'tuple':
        members = [described.within('', one) for one in ('.names', '.parts')]
        return ghost_member('parts', 'unnamed_struct', [name] + members)
    return ghost_member('parts', 'struct_parts', [name, labels(writer), described])


def struct_call(writer, kind, chained):
    """The statements that add these definitions. The names are a constant: an array that a function makes takes the
    prover longer."""
    parameters = named_parameters(writer)
    name = '"%s"' % writer.marked.name
    if kind == 'unit':
        return statement('', call(writer.lib('add_unit'), ['alloc', name, 'map']), '', 8)
    function = 'add_named' if kind == 'named' else 'add_unnamed'
    types = [chained]
    if parameters:
        function += '_with'
        types = [parameters[0], chain(parameters[1:], '()'), chained]
    function = '%s::<%s>' % (writer.lib(function), ', '.join(types))
    if kind == 'tuple':
        return statement('', call(function, ['alloc', name, 'map']), '', 8)
    names = reference_to(['"%s"' % field.name for field in writer.marked.fields.encoded()])
    return '\n'.join([statement('const NAMES: &[&str] = ', names, ';', 8),
                      statement('', call(function, ['alloc', name, 'NAMES', 'map']), '', 8)])


# ---- enums

def enum_schema(writer):
    types = tree(writer.marked.variants,
                 lambda v: variant_types(writer, v),
                 lambda a, b: generic_group(writer.lib('Fork'), [a, b]))
    doc = doc_line('The variants of [`%s`] as its schema goes through them.' % writer.marked.name)
    lists = [row for variant in writer.marked.variants if len(variant.fields.encoded()) > TUPLE
             for row in list_aliases(writer, variant.fields.encoded(), list_name(writer, variant), variant.name)]
    aliases = ['%s\n%s' % (doc, statement('type %s = ' % writer.list_head(), types, ';', 0))] + lists
    data = enum_parts(writer) + [''] + enum_described(writer)
    describes = '    ghost describes = { Self.described.describes };'
    if named_parameters(writer):
        describes = describes_variants(writer, quote(writer, writer.own(), 'FromCases', '.view'))
    block = schema(writer, data, enum_call(writer), describes)
    return aliases + [block] if has_list(writer) else [block]


def variant_types(writer, variant):
    """The tag and the types of the fields of a variant, with the parameters that they name."""
    parameters = named_parameters(writer, variant)
    fields = variant.fields.encoded()
    types = [chain_type(fields)]
    if len(fields) > TUPLE:
        types = [Part(writer, Node(fields), variant.name).alias_use(list_name(writer, variant))]
    if not parameters:
        return generic_group(writer.lib('Case'), [str(variant.tag)] + types)
    return generic_group(writer.lib('CaseWith'), [str(variant.tag), parameters[0], chain(parameters[1:], '()')] + types)


def list_name(writer, variant):
    """The name of the types of a variant's fields one after another."""
    return writer.part_name('', variant.name, 'List')


def has_list(writer):
    """Whether the schema goes through other types than the encoding: without fields they are the same."""
    return any(variant.fields.encoded() for variant in writer.marked.variants)


def enum_parts(writer):
    """The definitions that the name leads to: the enum's, and one of the fields of each variant."""
    read = quote(writer, writer.list_use(), 'VariantTypes', '.read')
    rows = []
    for index, variant in enumerate(writer.marked.variants):
        names = ['codes "%s"' % variant.name, ghost_list(field_texts(variant))]
        rows.append(Term('∷ ' if index else '(', names))
    arguments = [Term('', ['(codes "%s")' % writer.marked.name])] + rows + [Term('', ['∷ [])']), read]
    if not named_parameters(writer):
        return [ghost_member('parts', 'enum_definitions', arguments)]
    return [ghost_member('parts', 'enum_definitions_as', [Term('', ['(%s)' % ghost_own_name(writer)])] + arguments)]


def field_texts(variant):
    if variant.fields.kind != 'named':
        return []
    return ['codes "%s"' % field.name for field in variant.fields.encoded()]


def enum_described(writer):
    """What describes each variant, in the form of the tree."""
    view = quote(writer, writer.own(), 'FromCases', '.view')
    cases = tree(writer.marked.variants,
                 lambda v: described_case(writer, v),
                 lambda a, b: Applied('fork_described', a, b))
    return [ghost_member('described', 'enum_described', [view, cases])]


def described_case(writer, variant):
    """What describes a variant: its fields one after another, in place of a tuple."""
    fields = variant.fields.encoded()
    described = fields_described(writer, flat(chain_type(fields)), fields, variant.name)
    tail = [described, 'refl', 'refl'] if isinstance(described, Applied) else [described.within('', ' refl refl')]
    return Applied('case_described', fields_view(places_of(fields)), *tail)


def enum_call(writer):
    rows = []
    for variant in writer.marked.variants:
        names = ['"%s"' % field.name for field in variant.fields.encoded() if variant.fields.kind == 'named']
        rows.append(Group('', '(', ['"%s"' % variant.name, reference_to(names)], ')', TUPLE_WIDTH))
    arguments = ['alloc', '"%s"' % writer.marked.name, 'NAMES', 'map']
    parameters = named_parameters(writer)
    types = [parameters[0], chain(parameters[1:], '()'), writer.list_use()] if parameters else [writer.list_use()]
    function = '%s::<%s>' % (writer.lib('add_enum_with' if parameters else 'add_enum'), ', '.join(types))
    return '\n'.join([statement('const NAMES: &[(&str, &[&str])] = ', reference_to(rows), ';', 8),
                      statement('', call(function, arguments), '', 8)])


def reference_to(items):
    """A reference to an array."""
    return Group('', '&[', items, ']', ARRAY_WIDTH, fills=True)
