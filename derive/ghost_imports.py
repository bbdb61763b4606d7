"""The imports of ghost terms in what is written."""

import re

from ghost import ghost_name
from layout import WIDTH

# what specs have for ghost terms: the library's under one path, and std's, of which the gate wants operators from std
# itself
GHOST_OFFERED = {
    'Rattle.borsh.specs.Derived': '''IsKey all_joined all_more all_none all_one case_described case_in choice_more choice_none
        contramap contramap-lawful contramap_ordered describes_choice describes_contramap describes_elements
        describes_enum describes_ordered describes_parts describes_refused_if describes_row describes_sorted
        describes_stored describes_unit enum_definitions enum_definitions_as enum_described enum_lawful_if fields
        first_variant fork_described fork_in from groups_described key_facts
        later_variant left more_groups name_with named_described no_fields_described no_groups option_view result_view right
        struct_described struct_parts unit_entries unit_struct unnamed_described unnamed_struct'''.split(),
    'Rattle.std.specs.Prelude': ['codes', 'refl', '⊤', '◌∷◌', '[]', '◌≡◌'],
    'Rattle.std.proofs.Common': ['sym', 'true≢false'],
}


GHOST_NAMES = {name for names in GHOST_OFFERED.values() for name in names}


def ghost_imports(writer, body):
    """The imports of ghost terms."""
    ghost = ' '.join(member + clause for member, clause in
                     re.findall(r'ghost \w+ = \{(.*?)\};\n|ensures \{(.*?)\}\n', body, re.S))
    rows = []
    for path, offered in GHOST_OFFERED.items():
        rows += ghost_lines(path, [name for name in offered if is_used(name, ghost)])
    if writer.marked.variants is not None:
        module = [writer.place.module_name] if writer.place.module_name else []
        path = ['Rattle', writer.place.crate, 'specs', 'declared'] + module + [writer.marked.name]
        rows += ghost_lines('.'.join(ghost_name(name) for name in path), [ghost_name(writer.marked.name)])
        if 'key' in writer.marked.options:
            path = path[:3] + ['contracts'] + module + [writer.marked.name + 'Ord', 'TheImpl', 'Laws']
            rows += ghost_lines('.'.join(ghost_name(name) for name in path), ['total-law', 'matches_eq-law'])
    return rows


def ghost_lines(path, names):
    """The imports of these names, as many in a line as fit."""
    rows = []
    for name in names:
        if rows and len(rows[-1] + ', ' + name) <= WIDTH:
            rows[-1] = '%s, %s};' % (rows[-1][:-2], name)
        else:
            rows.append('ghost use %s.{%s};' % (path, name))
    return rows


def is_used(name, ghost):
    """Whether ghost terms have a name; an operator `◌∷◌` is named without its circles."""
    if not re.search(r'\w', name):
        return name.strip('◌') in ghost
    return re.search(r'(?<![\w.-])%s(?![\w-])' % re.escape(name), ghost)
