#!/usr/bin/env python3
"""Writes the implementations of types that are marked by a comment.

    borsh_derive.py CRATE            writes src/MODULE_TYPE.rt for each type with `// derive: borsh` above it
    borsh_derive.py CRATE --check    names each file that isn't what it would write, and exits with 1

The comment `// derive: borsh, schema, key` also asks for a schema, and for what makes the type a key of maps.
CRATE is the folder of a crate. For each type that can't be taken, its file, line and the reason are printed, and
nothing is written then. What is written is ordinary source, which the prover checks as any other: nothing rests on
this program being right.

The exit status is 0 if all was written or nothing differs, 1 if a type or a file can't be taken or a file
differs, and 2 if the arguments are wrong.
"""

import os
import re
import sys

from emit import MOST_FIELDS, Place, Writer, blocks_of
from ghost import MODULES, NO_NAME, RESERVED
from ghost_imports import GHOST_NAMES
from groups import TUPLE
from marks import mark_of
from needs import Types, refuse_needs
from refusal import Refusal, Refusals
from root import modules_of, refuse_taken, with_modules
from rust_types import NO_ENCODING, arrays_in, bare_names, heads, names_on_the_heap, tuples_in, without_encoding
from schema import with_schema
from source import read_module
from tokens import tokens_of

HEAD = '// Written by borsh_derive.py from '

USAGE = 'usage: borsh_derive.py CRATE [--check]'


def main(arguments):
    if arguments in (['--help'], ['-h']):
        print(__doc__.strip())
        return 0
    check = '--check' in arguments
    folders = [argument for argument in arguments if argument != '--check']
    if len(folders) != 1 or folders[0].startswith('-'):
        print(USAGE, file=sys.stderr)
        return 2
    try:
        files = texts_of(folders[0])
        return checked(folders[0], files) if check else written(folders[0], files)
    except Refusal as refusal:
        return said(folders[0], [refusal])
    except Refusals as refusals:
        return said(folders[0], refusals.all)


def said(folder, refusals):
    """Prints each refusal."""
    for refusal in refusals:
        refusal.file = os.path.join(folder, refusal.file)
        print('borsh_derive: %s' % refusal, file=sys.stderr)
    return 1


def checked(folder, files):
    """Names the files that differ."""
    status = 0
    for name, text in sorted(files.items()):
        path = os.path.join(folder, 'src', name)
        if not with_file(name, is_same, path, text):
            print('borsh_derive: %s is not what would be written: run borsh_derive.py %s' % (path, folder))
            status = 1
    return status


def written(folder, files):
    """Writes the files that differ."""
    for name, text in sorted(files.items()):
        path = os.path.join(folder, 'src', name)
        if not with_file(name, is_same, path, text):
            with_file(name, write, path, text)
            print('borsh_derive: wrote %s' % path)
    return 0


# ---- files

def read(path):
    """The text of a file, with `\n` at the end of each line."""
    try:
        with open(path, 'rb') as file:
            content = file.read()
    except OSError as error:
        raise Refusal(None, "can't be read: %s" % error.strerror)
    try:
        return content.decode('utf-8').replace('\r\n', '\n')
    except UnicodeDecodeError as error:
        raise Refusal(content[:error.start].count(b'\n') + 1, 'the file is not UTF-8')


def is_same(path, text):
    return os.path.exists(path) and read(path) == text


def write(path, text):
    """Writes a file; one that has lines ending in `\r\n` keeps them."""
    try:
        if os.path.exists(path):
            with open(path, 'rb') as file:
                text = text.replace('\n', '\r\n') if b'\r\n' in file.read() else text
        with open(path, 'w', encoding='utf-8', newline='') as file:
            file.write(text)
    except OSError as error:
        raise Refusal(None, "can't be written: %s" % error.strerror)


# ---- a crate

def texts_of(folder):
    """The text of each file that a crate should have by its marks, and of its root file."""
    sources = sources_of(folder)
    root = 'lib.rt' if 'lib.rt' in sources else 'main.rt'
    with_file(root, modules_of, sources[root])
    modules, refused = places_of(folder, sources, root)
    places = [(place, marked) for place in modules for marked in place.module.marked]
    types = Types(modules, declared_at)
    refused += clashes(places, root) + unmarked(modules) + cycles(places, root)
    files = {}
    for place, marked in places:
        name = source_name(place, root)
        try:
            files[file_name(place, marked)] = with_file(name, text_of, marked, place, types)
        except Refusal as refusal:
            refused.append(refusal)
    if refused:
        raise Refusals(refused)
    refuse_files(sources, files)
    if not files:
        raise Refusal(None, 'no type is marked: write `// derive: borsh` above a `pub struct` or a `pub enum`', 'src')
    modules = sorted(name[:-3] for name in files)
    for module in modules:
        refuse_taken(sources[root], module, 'src/' + root)
    files[root] = with_modules(sources[root], modules)
    return files


def text_of(marked, place, types):
    """The text for one type."""
    try:
        refuse_names(marked, place)
        refuse_fields(marked, place)
        refuse_needs(marked, place, types)
        writer = Writer(marked, place)
        return writer.text(with_schema(writer, blocks_of(writer)))
    except Refusal as refusal:
        raise refusal.of(marked.name)


def sources_of(folder):
    """The texts of the files of src/, by name. Those that this program wrote are among them."""
    src = os.path.join(folder, 'src')
    if not os.path.isdir(src):
        reason = 'there is no such folder: give the folder of a crate, as crates/NAME'
        raise Refusal(None, reason, 'src')
    try:
        names = sorted(name for name in os.listdir(src) if name.endswith('.rt'))
    except OSError as error:
        raise Refusal(None, "can't be read: %s" % error.strerror, 'src')
    if not {'lib.rt', 'main.rt'} & set(names):
        raise Refusal(None, 'there is neither lib.rt nor main.rt', 'src')
    refuse_folders(src)
    return {name: with_file(name, read, os.path.join(src, name)) for name in names}


def refuse_folders(src):
    """A mark in a file of a folder within src/."""
    for folder, folders, names in sorted(os.walk(src)):
        folders.sort()
        for name in sorted(names) if folder != src else []:
            file = os.path.relpath(os.path.join(folder, name), src)
            if name.endswith('.rt'):
                for token in with_file(file, tokens_of, with_file(file, read, os.path.join(folder, name))):
                    if token.kind == 'comment' and mark_of(token) is not None:
                        reason = 'only types of files in src/ itself are taken: move the type to one of them'
                        raise Refusal(token.line, reason, 'src/' + file)


def places_of(folder, sources, root):
    """The modules that were written by hand, and what is refused in them."""
    crate = os.path.basename(os.path.abspath(folder))
    found, refused = [], []
    for name, text in sources.items():
        if text.startswith(HEAD):
            continue
        try:
            module = with_file(name, read_module, text)
        except Refusal as refusal:
            refused.append(refusal)
            continue
        for refusal in module.refused:
            refusal.file = 'src/' + name
        refused += module.refused
        if module.marked and name != root and name[:-3] not in with_file(root, modules_of, sources[root]):
            reason = 'the file is no module of the crate: src/%s has no line `mod %s;`' % (root, name[:-3])
            refused.append(Refusal(module.marked[0].line, reason, 'src/' + name))
        found.append(Place(crate, None if name == root else name[:-3], module, name))
    return found, refused


def with_file(name, function, *arguments):
    """Calls a function; a refusal gets the name of the file, in the crate's folder."""
    try:
        return function(*arguments)
    except Refusal as refusal:
        refusal.file = 'src/' + name
        raise


def source_name(place, root):
    return place.module_name + '.rt' if place.module_name else root


def file_name(place, marked):
    return '%s_%s.rt' % (place.module_name or 'root', snake(marked.name))


def snake(name):
    """`BigTree` as `big_tree`."""
    return re.sub(r'(?<=[a-z0-9])(?=[A-Z])|(?<=[A-Z])(?=[A-Z][a-z])', '_', name).lower()


# ---- refusals over the whole crate

def clashes(places, root):
    """Refusals of two types of one name, if one file has both or a field is of one of them, and of two types with one file."""
    held = {declared_at(name, place) for place, marked in places for name in marked.heads()}
    names, files, found = {}, {}, []
    for place, marked in places:
        file = source_name(place, root)
        own = file_name(place, marked)
        others = names.setdefault(marked.name, [])
        modules = [place.module_name] + [other.module_name for other in others]
        if place in others or others and any((module, marked.name) in held for module in modules):
            reason = 'a second type `%s`: the other one is in src/%s' % (marked.name, source_name(others[-1], root))
            found.append(Refusal(marked.line, reason, 'src/' + file))
        elif own in files:
            reason = '`%s` and `%s` would have one file, %s' % (files[own], marked.name, own)
            found.append(Refusal(marked.line, reason, 'src/' + file))
        others.append(place)
        files[own] = marked.name
    return found


def unmarked(places):
    """Refusals of fields of a type of the crate that is neither marked nor implements the library's traits by hand."""
    modules = {place.module_name: place.module for place in places}
    by_hand = {name for module in modules.values() for name, traits in module.implemented.items()
               if {'BorshType', 'BorshSerialize'} & traits}
    found = []
    for place in places:
        for marked in place.module.marked:
            own = {parameter.name for parameter in marked.parameters}
            for field in [field for group in marked.groups() for field in group.encoded()]:
                for name in heads(field.type, phantom=False):
                    module, bare = declared_at(name, place)
                    if name not in own and module in modules and bare in modules[module].unmarked and bare not in by_hand:
                        reason = ('`%s`: the type `%s` of the field `%s` is not marked: mark `%s`, by `// derive: borsh` '
                                  'above it, or implement the traits by hand')
                        found.append(Refusal(field.line, reason % (marked.name, name, field.name, bare), 'src/' + place.file))
    return found


def declared_at(name, place):
    """The module of the crate that a name may be declared in, and its name there."""
    if name in place.module.items or name not in place.module.imports:
        return place.module_name, name
    path = place.module.imports[name].split(' as ')[0].split('::')
    inner = [part for part in path if part not in ('crate', 'super')] if path[0] in ('crate', 'super') else path[:0]
    return inner[0] if len(inner) == 2 else None if inner else '', path[-1]


def cycles(places, root):
    """Refusals of types that hold themselves, perhaps through others."""
    held = {marked.name: marked.heads() for _, marked in places}
    found = []
    for place, marked in places:
        way = way_back(marked.name, held)
        if way is not None:
            through = ' through `%s`' % '`, `'.join(way) if way else ''
            reason = ('`%s` holds itself%s, and no codec is made of itself: hold the nodes in a `Vec`, and let them name '
                      'one another by index')
            found.append(Refusal(marked.line, reason % (marked.name, through), 'src/' + source_name(place, root)))
    return found


def way_back(name, held):
    """The types on the shortest way from a type to itself, or None. Each type is looked at once."""
    ways = {name: []}
    for_later = [name]
    for current in for_later:
        for other in held[current]:
            if other == name:
                return ways[current]
            if other in held and other not in ways:
                ways[other] = ways[current] + [other]
                for_later.append(other)
    return None


def refuse_fields(marked, place):
    """Fields of types without an encoding, those that a module beside the type's own couldn't name, and too many."""
    for group in marked.groups():
        for field in group.encoded():
            refuse_type(marked, field, place)
    private = [name for name in marked.heads() if place.module.items.get(name) is False and place.module_name]
    if private:
        reason = '`%s` names `%s`, which is private to the file: make it `pub` or `pub(crate)`'
        raise Refusal(marked.line, reason % (marked.name, private[0]))
    for group in marked.groups():
        encoded = group.encoded()
        most = TUPLE if marked.is_only_encoded() or marked.lifetimes() else MOST_FIELDS
        if len(encoded) > most:
            reason = 'more than %d fields: put some of them into a struct of their own, whose bytes are the same'
            raise Refusal(encoded[most].line, reason % most)
        for field in encoded:
            if any(len(node.items) > TUPLE for node in tuples_in(field.type)):
                reason = 'a tuple of more than %d: write some of them as a tuple within, whose bytes are the same'
                raise Refusal(field.line, reason % TUPLE)
        for field in group.all:
            refuse_array_of_parameter(marked, field)
            refuse_length_on_the_heap(marked, field)
            if marked.variants is not None:
                refuse_bare_length(marked, field)
            elif not field.public and place.module_name:
                reason = ('the field `%s` of `%s` is private, and what is written is a module of its own: '
                          'make it `pub` or `pub(crate)`')
                raise Refusal(field.line, reason % (field.name, marked.name))


def refuse_names(marked, place):
    """Names that the prover's language has no form for, or reads as something else."""
    fields = [(field.name, field.line) for group in marked.groups() for field in group.encoded()]
    variants = [(variant.name, variant.line) for variant in marked.variants or []]
    files = [(name, 1) for name in (place.crate, place.module_name)]
    for name, line in fields + variants + files + [(marked.name, marked.line)]:
        if name == NO_NAME:
            reason = "the prover's language has the word `%s`, which names nothing else: choose another name"
            raise Refusal(line, reason % name)
    parameters = [parameter.name for parameter in marked.parameters]
    own = [marked.name] if marked.variants is not None else []
    for name in own + parameters:
        if name in MODULES | GHOST_NAMES or name in RESERVED and name in parameters:
            reason = "the prover's language has a meaning of its own for `%s`: choose another name"
            raise Refusal(marked.line, reason % name)


def refuse_type(marked, field, place):
    """A type of Rust that the library has no encoding of, if the file has no type of its own of that name."""
    own = set(place.module.items) | {parameter.name for parameter in marked.parameters}
    for name, path in without_encoding(field.type):
        path = place.module.imports.get(path, path)
        if name not in own and (path == name or path.split('::')[0] in ('std', 'core', 'alloc')):
            reason = '`%s`: the type `%s` of the field `%s` has no encoding here: %s'
            raise Refusal(field.line, reason % (marked.name, name, field.name, NO_ENCODING[name]))


def refuse_parameters(marked, field, names, is_length, reason):
    """Refuses the parameters of that kind, lengths or types, that are among the names."""
    for parameter in marked.parameters:
        if (parameter.constant if is_length else parameter.is_type) and parameter.name in names:
            raise Refusal(field.line, reason % parameter.name)


def refuse_array_of_parameter(marked, field):
    """An array whose elements hold a parameter by itself: that it fits in memory doesn't follow."""
    for array in arrays_in(field.type):
        refuse_parameters(marked, field, bare_names(array.element), False,
                          'the parameter `%s` is by itself in an array, and the proofs need an array of a known size: '
                          'write `Vec<..>`, or a tuple')


def refuse_length_on_the_heap(marked, field):
    """A parameter that is a length, within a list: that an element fits in memory doesn't follow."""
    refuse_parameters(marked, field, names_on_the_heap(field.type), True,
                      'the length `%s` is within a type like `Vec`, and the proofs need elements of a known size: write '
                      'the length as a number, or hold the array by itself')


def refuse_bare_length(marked, field):
    """A length as a parameter by itself in a variant: that the variants fit in memory doesn't follow."""
    refuse_parameters(marked, field, [] if field.skipped else bare_names(field.type), True,
                      'the length `%s` is by itself in a variant, and the proofs need an enum of a known size: write the '
                      'length as a number')


def refuse_files(sources, files):
    """Files that would be written over, and those whose type is gone."""
    for name in files:
        if name in sources and not sources[name].startswith(HEAD):
            raise Refusal(1, 'this file would be written over, and was written by hand', 'src/' + name)
    for name, text in sources.items():
        if text.startswith(HEAD) and name not in files:
            reason = 'no type is marked for this file any more: delete it, and its `mod` line'
            raise Refusal(1, reason, 'src/' + name)


if __name__ == '__main__':
    for stream in (sys.stdout, sys.stderr):
        stream.reconfigure(errors='backslashreplace')
    sys.exit(main(sys.argv[1:]))
