"""Terms of the prover's language, as `rt fmt` leaves them."""

from layout import WIDTH

# the words of the prover's language, which are names in quotes `«..»` alone, and the one that is none at all
RESERVED = set('''data record deriving module where use mod pub package open as unfoldable abbrev axiom unfold unfolding
    ruleset mutual infix infixl infixr elim let in do Type coe fcoe tcoe hcom com λ 𝕀 𝔽'''.split())
NO_NAME = 'deriving'

# names with a meaning in each file: constructors, which a pattern would match in place of binding a variable, and tactics
KNOWN = set('yes no refl tt absurd rw simp search grw cc omega grind hlevel assumption ground first_of cap'.split())

# modules in each file
MODULES = {'Prim', 'Rattle'}


def ghost_name(name):
    """A name behind a dot or in a path."""
    return '«%s»' % name if name in RESERVED else name


def ghost_list(items):
    """Items as a list."""
    return ' ∷ '.join(items + ['[]'])


class Term:
    """A ghost term: a tuple between two texts; its items are texts or tuples, as lists."""

    def __init__(self, before, items, behind=''):
        self.before = before
        self.items = items
        self.behind = behind

    def flat(self):
        return self.before + ghost_tuple(self.items) + self.behind

    def within(self, before, behind):
        """The same term with more text on both sides."""
        return Term(before + self.before, self.items, self.behind + behind)

    def rows(self, indent, behind=''):
        """The lines from column `indent` on; in a tuple that is too wide each item has lines of its own."""
        line = ' ' * indent + self.flat() + behind
        if len(line) <= WIDTH or len(self.items) < 2:
            return [line]
        rows = [' ' * indent + self.before + '(']
        for item in self.items:
            rows += as_term(item).rows(indent + 2, ',')
        return rows + [' ' * indent + ')' + self.behind + behind]


def as_term(item):
    """A text, a tuple as a list, or a term as a term."""
    if isinstance(item, str):
        return Term('', [item])
    return Term('', item) if isinstance(item, list) else item


def ghost_tuple(items):
    """Items as a tuple; of one the item, of none the only value of `()`."""
    texts = [item if isinstance(item, str) else as_term(item).flat() for item in items]
    return '(%s)' % ', '.join(texts) if len(texts) > 1 else texts[0] if texts else 'tt'


def nested_pairs(items):
    """`(a, (b, c))`, for a term."""
    return items if len(items) < 3 else [items[0], nested_pairs(items[1:])]


class Applied:
    """A function applied to arguments, each a text or a term."""

    def __init__(self, function, *arguments):
        self.function = function
        self.arguments = [as_term(argument) for argument in arguments]

    def flat(self):
        return '(%s)' % ' '.join([self.function] + [argument.flat() for argument in self.arguments])

    def words(self):
        """The terms that a line may be broken between, with what stands around them."""
        found = [Term('', ['(' + self.function])] + words_of(self.arguments)
        return found[:-1] + [found[-1].within('', ')')]


def words_of(arguments):
    return [word for argument in arguments for word in (argument.words() if isinstance(argument, Applied) else [argument])]


def filled_rows(start, arguments, behind):
    """A function and its arguments, as many in a line as fit. Where a tuple doesn't fit into a line of its own, each of its
    places has one."""
    rows = [start]
    words = words_of(arguments)
    for index, word in enumerate(words):
        after = behind if index + 1 == len(words) else ''
        text = word.flat() + after
        if len(rows[-1]) + 1 + len(text) <= WIDTH:
            rows[-1] += ' ' + text
        else:
            rows += word.rows(8, after)
    return rows


def ghost_term(node, indent):
    return '\n'.join(node.rows(indent))


def ghost_member(name, function, arguments):
    """`ghost name = { function arguments };`, over as many lines as the arguments need."""
    return '\n'.join(filled_rows('    ghost %s = { %s' % (name, function), arguments, ' };'))


def ghost_cases(name, arms, indent):
    """`ghost name = { elim [ .. ] };`, one arm a line where it is too wide."""
    start = '%sghost %s = { elim [' % (' ' * indent, name)
    line = '%s %s ] };' % (start, ' | '.join(one.flat() for one in arms))
    if len(line) <= WIDTH:
        return line
    rows = [row for one in arms for row in case_rows(one.within('| ', ''), indent + 2)]
    return '\n'.join([start] + rows + [' ' * indent + '] };'])


def case_rows(arm, indent):
    """The lines of an arm; where the names that it binds need several, the others are indented once more."""
    if len(' ' * indent + arm.before + '(') <= WIDTH and len(arm.items) > 1:
        return arm.rows(indent)
    if len(arm.items) < 2:
        return broken(' ' * indent + arm.flat())
    # the bracket of the tuple stays behind the word before it
    rows = [row.replace(TIED, ' ') for row in broken(' ' * indent + arm.before.rstrip() + TIED + '(')]
    last = rows.pop().strip()
    return rows + Term(last[:-1], arm.items, arm.behind).rows(indent + 4)


TIED = '\0'


def within_width(rows):
    """The rows of an `impl`, those of ghost members broken at spaces where they are too wide."""
    found = []
    is_ghost = False
    for row in '\n'.join(rows).split('\n'):
        is_ghost = is_ghost or row.startswith('    ghost ')
        found += broken(row) if is_ghost else [row]
        is_ghost = is_ghost and not row.endswith('};')
    return found


def broken(row):
    """A row over as many lines as it needs, at spaces outside of quotes `⟦..⟧`, and rather before a `∷`."""
    found = []
    first = len(row) - len(row.lstrip())
    inner = 8 if first in (4, 8) else first + 4
    while len(row) > WIDTH:
        indent = len(row) - len(row.lstrip())
        spaces = [place for place in range(indent + 1, len(row))
                  if row[place] == ' ' and row[place:] != ' };' and not is_quoted(row, place)]
        fitting = [place for place in spaces if place <= WIDTH]
        if not spaces:
            break
        end = max([place for place in fitting if row[place + 1] == '∷'] or fitting or spaces[:1])
        found.append(row[:end])
        row = ' ' * inner + row[end + 1:]
    return found + [row]


def is_quoted(row, place):
    return row.count('⟦', 0, place) > row.count('⟧', 0, place)
