"""Texts as `rt fmt` lays them out: lines of at most 100 columns."""

import re

from rust_types import Array, Constant, Reference, Slice, Tuple

WIDTH = 100

# the widest arguments of a call, calls of methods one after another, elements of an array, places of a tuple's type, and
# fields of a struct, that stay in one line
CALL_WIDTH = 60
CHAIN_WIDTH = 60
ARRAY_WIDTH = 60
TUPLE_WIDTH = 60
STRUCT_WIDTH = 18

# where all arguments of a call are as short as this, and none of them is a call, they fill lines
SHORT = 10


class Group:
    """A head, as a name, and items in brackets, each a text or a group. `lone` is behind an item that is the only one."""

    def __init__(self, head, opening, items, closing, limit=WIDTH, pad='', fills=False, lone=''):
        self.head = head
        self.opening = opening
        self.items = items
        self.closing = closing
        self.limit = limit
        self.pad = pad
        self.fills = fills
        self.lone = lone

    def within(self, before, behind):
        """The same with more text on both sides."""
        return Group(before + self.head, self.opening, self.items, self.closing + behind, self.limit, self.pad,
                     self.fills, self.lone)


def call(name, arguments):
    return Group(name, '(', arguments, ')', CALL_WIDTH, fills=True)


def tuple_of(items):
    return Group('', '(', items, ')', lone=',')


def tuple_type(items):
    return Group('', '(', items, ')', TUPLE_WIDTH, lone=',')


def pattern(name, items):
    return Group(name, '(', items, ')')


def struct_of(name, fields):
    return Group(name, ' {', fields, '}', STRUCT_WIDTH, ' ')


def type_layout(tree):
    """A type as a text or a group."""
    if isinstance(tree, Constant):
        return tree.text
    if isinstance(tree, Reference):
        return within('&%s ' % tree.lifetime, type_layout(tree.type), '')
    if isinstance(tree, Slice):
        return within('[', type_layout(tree.element), ']')
    if isinstance(tree, Array):
        return within('[', type_layout(tree.element), '; %s]' % tree.length)
    if isinstance(tree, Tuple):
        return tuple_type([type_layout(item) for item in tree.items]) if tree.items else '()'
    names = []
    for name, arguments in tree.segments[:-1]:
        names.append(name + (flat(generic(arguments)) if arguments else ''))
    name, arguments = tree.segments[-1]
    head = '::'.join(names + [name])
    return Group(head, '<', [type_layout(a) for a in arguments], '>') if arguments else head


def generic(arguments):
    return Group('', '<', [type_layout(argument) for argument in arguments], '>')


def type_text(tree):
    return flat(type_layout(tree))


def flat(node):
    """A text or a group in one line."""
    if isinstance(node, str):
        return node
    inner = ', '.join(flat(item) for item in node.items)
    if len(node.items) == 1:
        inner += node.lone
    return node.head + node.opening + node.pad + inner + node.pad + node.closing


def within(before, node, behind):
    """A text or a group with more text on both sides."""
    return before + node + behind if isinstance(node, str) else node.within(before, behind)


def is_narrow(node):
    """Whether no limit of the group or of a group in it is passed."""
    if isinstance(node, str):
        return True
    inner = sum(len(flat(item)) + 2 for item in node.items) - 2
    return inner <= node.limit and all(is_narrow(item) for item in node.items)


def laid_out(node, indent, used, behind):
    """A text or a group from column `used` on, with `behind` columns behind it; later lines are indented."""
    line = flat(node)
    if isinstance(node, str) or (is_narrow(node) and used + len(line) + behind <= WIDTH):
        return line
    if node.opening == '&[' and len(node.items) == 1 and not isinstance(node.items[0], str):
        return node.opening + laid_out(node.items[0], indent, used + 2, behind + 1) + node.closing
    inner = indent + 4
    lines = [node.head + node.opening]
    if node.fills and all(is_short(item) for item in node.items):
        lines.append(rows_of(['%s,' % flat(item) for item in node.items], inner))
    else:
        lines += ['%s%s,' % (' ' * inner, laid_out(item, inner, inner, 1)) for item in node.items]
    return '\n'.join(lines + [' ' * indent + node.closing])


def is_short(item):
    """Whether an argument or an element shares its line with others; a call and an array don't."""
    text = flat(item)
    return len(text) <= SHORT and '(' not in text and '[' not in text


def statement(prefix, node, suffix, indent):
    """A line `prefix node suffix`, over more lines where it is too wide."""
    start = ' ' * indent + prefix
    return start + laid_out(node, indent, len(start), len(suffix)) + suffix


def chain(start, calls, indent):
    """Calls of methods one after another. The first one stands behind a short start, as `self`; one alone has its line to
    itself."""
    if chain_fits(start, calls, indent):
        return ' ' * indent + flat(start) + ''.join(flat(one) for one in calls)
    if len(flat(start)) <= 4:
        start, calls = within(flat(start), calls[0], ''), calls[1:]
    rows = [statement('', start, '', indent)] + [statement('', one, '', indent + 4) for one in calls]
    return '\n'.join(rows)


def chain_fits(start, calls, indent):
    """Whether they have one line."""
    line = flat(start) + ''.join(flat(one) for one in calls)
    return indent + len(line) <= min(WIDTH, WIDTH if len(calls) == 1 else indent + CHAIN_WIDTH)


def conjunction(calls, indent, used, behind):
    """`a && (b && c)` from column `used` on, with `behind` columns behind it."""
    if len(calls) == 1:
        return laid_out(calls[0], indent, used, behind)
    line = and_then([flat(one) for one in calls])
    if all(is_narrow(one) for one in calls) and used + len(line) + behind <= WIDTH:
        return line
    inner = indent + 4
    start = laid_out(calls[0], indent, used, 0) + '\n' + ' ' * inner + '&& '
    if len(calls) == 2:
        return start + conjunction(calls[1:], inner, inner + 3, behind)
    return start + '(' + conjunction(calls[1:], inner, inner + 4, behind + 1) + ')'


def and_then(calls):
    if len(calls) < 3:
        return ' && '.join(calls)
    return '%s && (%s)' % (calls[0], and_then(calls[1:]))


def binding(node, value, indent):
    """`let node = value;`."""
    start = ' ' * indent + 'let '
    line = flat(node)
    if len(start + line + ' = ' + value + ';') <= WIDTH:
        return '%s%s = %s;' % (start, line, value)
    if len(start + line + ' =') <= WIDTH:
        return '%s%s =\n%s%s;' % (start, line, ' ' * (indent + 4), value)
    return '%s%s = %s;' % (start, laid_out(node, indent, WIDTH, 0), value)


def arm(pattern_node, body, indent):
    """An arm of a `match`: a pattern and one expression."""
    start = ' ' * indent
    text = laid_out(pattern_node, indent, indent, len(' =>'))
    last = text.split('\n')[-1]
    used = len(last) + len(' => ') + (indent if '\n' not in text else 0)
    line = flat(body)
    if is_narrow(body) and used + len(line) + 1 <= WIDTH:
        return '%s%s => %s,' % (start, text, line)
    is_broken = not isinstance(body, str) and used + len(body.head + body.opening) <= WIDTH
    if not is_broken and '\n' not in text:
        return '%s%s =>\n%s%s,' % (start, text, ' ' * (indent + 4), laid_out(body, indent + 4, indent + 4, 1))
    return '%s%s => %s,' % (start, text, laid_out(body, indent, WIDTH, 1))


def block_arm(pattern_node, rows_at, indent):
    """An arm of a `match`: a pattern and a block. `rows_at` has the rows of the block for their indentation. Where the
    pattern fits into its line and the brace behind it doesn't, the whole block is in lines of its own."""
    start = ' ' * indent
    text = laid_out(pattern_node, indent, indent, len(' =>'))
    last = text.split('\n')[-1]
    used = len(last) + (indent if '\n' not in text else 0)
    if used + len(' => {') <= WIDTH:
        return ['%s%s => {' % (start, text)] + rows_at(indent + 4) + [start + '}']
    inner = ' ' * (indent + 4)
    return ['%s%s =>' % (start, text), inner + '{'] + rows_at(indent + 8) + [inner + '}']


def function_head(name, parameters, result, indent):
    """`fn name(parameters) -> result {`, over more lines where it is too wide."""
    start = ' ' * indent
    line = '%sfn %s(%s) -> %s {' % (start, name, ', '.join(parameters), flat(result))
    if len(line) <= WIDTH:
        return line
    inner = ' ' * (indent + 4)
    rows = ['%sfn %s(' % (start, name)] + ['%s%s,' % (inner, parameter) for parameter in parameters]
    return '\n'.join(rows + [statement(') -> ', result, ' {', indent)])


def impl_head(parameters, trait, name, where):
    """`impl<..> trait for name where .. {`."""
    bounds = ['    %s,' % part for part in where]
    generics = '<%s>' % ', '.join(parameters) if parameters else ''
    end = '' if where else ' {'
    line = 'impl%s %s for %s' % (generics, trait, name)
    if len(line + end) > WIDTH and len('impl%s %s' % (generics, trait)) <= WIDTH:
        line = 'impl%s %s\n    for %s' % (generics, trait, name)
    elif len(line + end) > WIDTH:
        rows = ['    %s,' % parameter for parameter in parameters]
        line = '\n'.join(['impl<'] + rows + ['> %s for %s' % (trait, name)])
    return '\n'.join([line, 'where'] + bounds + ['{']) if where else line + ' {'


def rows_of(words, indent):
    """Words in one line, or over several, which are a column shorter."""
    line = ' ' * indent + ' '.join(words)
    return line if len(line) <= WIDTH else filled(words, indent, WIDTH - 1)


def filled(words, indent, width):
    """Words over as many lines as they need."""
    lines = []
    line = ' ' * indent
    for word in words:
        if line.strip() and len(line) + 1 + len(word) > width:
            lines.append(line)
            line = ' ' * indent
        line += word if not line.strip() else ' ' + word
    return '\n'.join(lines + [line])


def doc_line(text):
    """A doc comment."""
    return filled(['///'] + text.split(' '), 0, WIDTH).replace('\n', '\n/// ')


# ---- imports

def natural(name):
    """Names in the order of imports: types first, numbers by their value."""
    parts = re.split(r'(\d+)', name)
    return (not name[:1].isupper(), [(0, int(p), '') if p.isdigit() else (1, 0, p) for p in parts])


def import_lines(imports):
    """Lines `use a::{b, c};` of paths, sorted; each path is a text, perhaps with ` as name`."""
    groups = {}
    for path in set(imports):
        prefix, _, name = path.rpartition('::') if ' as ' not in path else split_alias(path)
        groups.setdefault(prefix, []).append(name)
    lines = []
    for prefix, names in groups.items():
        names = sorted(names, key=natural)
        lines.append((import_order(prefix, names), import_line(prefix, names)))
    return [line for _, line in sorted(lines)]


def split_alias(path):
    bare, alias = path.split(' as ')
    prefix, mark, name = bare.rpartition('::')
    return prefix, mark, '%s as %s' % (name, alias)


def import_order(prefix, names):
    segments = prefix.split('::') + ([names[0]] if len(names) == 1 else [])
    rank = ('self', 'super', 'crate').index(segments[0]) if segments[0] in ('self', 'super', 'crate') else 3
    last = [] if len(names) == 1 else [(True, [(2, 0, '')])]
    return rank, [natural(segment) for segment in segments] + last


def import_line(prefix, names):
    if len(names) == 1:
        return 'use %s%s;' % (prefix + '::' if prefix else '', names[0])
    line = 'use %s::{%s};' % (prefix, ', '.join(names))
    if len(line) <= WIDTH:
        return line
    return 'use %s::{\n%s\n};' % (prefix, rows_of([name + ',' for name in names], 4))
