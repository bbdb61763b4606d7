"""Why the definitions of a type with parameters describe its encodings: a ghost term over the types of its fields."""

from emit import on_tree, tree
from ghost import Applied, Term, ghost_member, ghost_name, nested_pairs
from groups import Node, grouped, places_of, shaped
from layout import type_text
from refusal import Refusal
from rust_types import Array, Path, Tuple, heads

# lists of elements: the function from a list to its elements, if it isn't one of the prover's itself
LISTS = {'Vec': '(λ list. list.items)', 'VecDeque': '(λ list. list.items)', 'LinkedList': None}

HELD = ('Box', 'Rc', 'Arc')


def describes_fields(writer, fields):
    """The member `describes`. `defs` are the definitions of a container, and `held` says that it holds the type's:
    `held.0` its own, `held.1` those of the fields."""
    parameters = [parameter.name for parameter in writer.marked.parameters if not parameter.constant]
    terms = Terms(writer, parameters)
    view = pairs_view(['v.' + ghost_name(field.name) for field in fields])
    parts = terms.parts([field.type for field in fields], 'held.1', fields[0].line)
    function = 'λ defs held. describes_contramap'
    return ghost_member('describes', function, [view, Applied('describes_parts', 'held.0', parts)])


def describes_variants(writer, view):
    """The same of an enum: `held.1` holds the definitions of the variants, in the form of the tree."""
    parameters = [parameter.name for parameter in writer.marked.parameters if not parameter.constant]
    terms = Terms(writer, parameters)
    places = iter(['.'.join(['held.1'] + turns) for _, turns in on_tree(writer.marked.variants, '0', '1')])
    cases = tree(writer.marked.variants,
                 lambda variant: Applied('case_in', 'refl', terms.of_variant(variant, next(places))),
                 lambda a, b: Applied('fork_in', a, b))
    return ghost_member('describes', 'λ defs held. describes_enum', [view, Term('', ['held.0']), cases])


def pairs_view(names):
    """The function from a value to nested pairs of its fields."""
    def paired(items):
        return nested_pairs([paired(item) if isinstance(item, list) else item for item in items])

    return Term('(λ v. ', paired(shaped(grouped(names)[0], iter(names))), ')')


class Terms:
    """Terms that say why a type's definitions describe its encodings."""

    def __init__(self, writer, parameters):
        self.writer = writer
        self.parameters = parameters

    def of(self, node, at, line):
        """The term for a type whose definitions are held as `at`."""
        if not set(heads(node)) & set(self.parameters) or is_named(node, 'PhantomData'):
            name = '<%s as %s>' % (type_text(node), self.writer.lib('BorshSchema'))
            return Applied('⟦%s⟧.described.describes' % name, 'defs', at)
        if isinstance(node, Tuple):
            places = ['tuple.%d' % index for index in range(len(node.items))]
            parts = Applied('describes_parts', at + '.0', self.parts(node.items, at + '.1', line))
            return Applied('describes_contramap', Term('(λ tuple. ', nested_pairs(places), ')'), parts)
        if isinstance(node, Array):
            return Applied('describes_row', node.length, at + '.0', self.of(node.element, at + '.1.0', line))
        return self.of_path(node, at, line)

    def of_variant(self, variant, at):
        """The term for a variant, whose fields are a tuple of one after another."""
        types = [field.type for field in variant.fields.encoded()]
        parts = self.parts(types, at + '.1', variant.line) if types else 'all_none'
        described = Applied('describes_parts', at + '.0', parts)
        if len(types) < 2:
            return described
        return Applied('describes_contramap', pairs_view(places_of(types)), described)

    def parts(self, types, at, line):
        """The term for types one after another, in groups where there are many."""
        places = iter([at + '.1' * index + '.0' for index in range(len(types))])
        return self.of_node(grouped(types)[0], places, line)

    def of_node(self, node, places, line):
        terms = [self.of_node(item, places, line) if isinstance(item, Node) else self.of(item, next(places), line)
                 for item in node.items]
        in_groups = isinstance(node.items[0], Node)
        term = terms[-1] if in_groups else Applied('all_one', terms[-1])
        for other in reversed(terms[:-1]):
            term = Applied('all_joined' if in_groups else 'all_more', other, term)
        return term

    def of_path(self, node, at, line):
        name, arguments = node.segments[-1]
        if name in self.parameters and not arguments:
            return Applied('%s.describes' % name, 'defs', at)
        if name in LISTS and len(arguments) == 1:
            elements = Applied('describes_elements', at + '.0', self.of(arguments[0], at + '.1.0', line))
            return Applied('describes_contramap', LISTS[name], elements) if LISTS[name] else elements
        if name in HELD and len(arguments) == 1:
            value = Applied('describes_stored', self.of(arguments[0], at, line))
            return Applied('describes_contramap', '(λ boxed. boxed.value)', value)
        if name == 'Option' and len(arguments) == 1:
            return self.variants('option_view', at, [
                ('first_variant', Applied('describes_unit', at + '.1.1.0.0')),
                ('(later_variant first_variant)', self.of(arguments[0], at + '.1.0', line))])
        if name == 'Result' and len(arguments) == 2:
            return self.variants('result_view', at, [
                ('(later_variant first_variant)', self.of(arguments[1], at + '.1.1.0', line)),
                ('first_variant', self.of(arguments[0], at + '.1.0', line))])
        if name in ('BTreeMap', 'HashMap') and len(arguments) == 2:
            return self.map(name, arguments, at, line)
        if name in ('BTreeSet', 'HashSet') and len(arguments) == 1:
            return self.set(name, arguments[0], at, line)
        reason = ('a schema of a type with parameters is not written where a field is a `%s` of a parameter: '
                  'implement `BorshSchema` by hand (docs/IMPLEMENTING.md)')
        raise Refusal(line, reason % name)

    def variants(self, view, at, rows):
        term = 'choice_none'
        for place, part in reversed(rows):
            term = Applied('choice_more', place, 'refl', part, term)
        return Applied('describes_contramap', view, Applied('describes_choice', at + '.0', term))

    def member(self, node, trait, member):
        """A data member of an implementation."""
        text = type_text(node)
        if text in self.parameters:
            return '%s.%s' % (text, member)
        return '⟦<%s as %s>⟧.%s' % (text, trait if trait == 'Ord' else self.writer.lib(trait), member)

    def ordered(self, name, key, values, at, entry):
        """The term for the entries of a map or a set."""
        order = self.member(key, 'Ord', 'cmp')
        if name.startswith('BTree'):
            entries = Applied('describes_ordered', order, at + '.0', entry)
        else:
            entries = Applied('describes_sorted', order, values, at + '.0', entry)
        return Applied('describes_refused_if', self.member(key, 'BorshType', 'codec.is_zero_width'), entries)

    def map(self, name, arguments, at, line):
        key, value = arguments
        entry = Applied('describes_parts', at + '.1.0.0', self.parts([key, value], at + '.1.0.1', line))
        equivalent = self.member(value, 'BorshType', 'codec.equivalent')
        entries = self.ordered(name, key, equivalent, at, entry)
        return Applied('describes_contramap', '(λ map. map.entries)', entries)

    def set(self, name, key, at, line):
        entry = Applied('describes_contramap', '(λ entry. entry.0)', self.of(key, at + '.1.0', line))
        entries = Applied('describes_contramap', 'unit_entries', self.ordered(name, key, '(λ _ _. ⊤)', at, entry))
        return Applied('describes_contramap', '(λ set. set.keys)', entries)


def is_named(node, name):
    return isinstance(node, Path) and node.segments[-1][0] == name
