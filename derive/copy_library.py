#!/usr/bin/env python3
"""Copies the library and the generator into a repository of one's own.

    copy_library.py FOLDER

The crates of the library go to FOLDER/crates, the generator to FOLDER/derive, and their lines to FOLDER/crates.txt, above those
that are there. Where they are there already, by this program, they are replaced: so it also brings a newer library.

The exit status is 0 if all was copied, 1 if something of the same name is there, and 2 if the arguments are wrong.
"""

import pathlib
import shutil
import sys

TOP = pathlib.Path(__file__).resolve().parent.parent

# the first line of the library's lines in crates.txt, and the one behind them
FIRST = '# The library.'
LAST = '# Crates of this repository.'


def main(arguments):
    if arguments in (['--help'], ['-h']):
        print(__doc__.strip())
        return 0
    if len(arguments) != 1 or arguments[0].startswith('-'):
        print('usage: copy_library.py FOLDER', file=sys.stderr)
        return 2
    try:
        return copied(pathlib.Path(arguments[0]).resolve())
    except OSError as error:
        print("copy_library: %s: %s" % (error.filename, error.strerror), file=sys.stderr)
        return 1


def copied(folder):
    """Copies everything, or says what is in the way."""
    lines = library_lines((TOP / 'crates.txt').read_text(encoding='utf-8'))
    crates = [line.split(':')[0].split()[0] for line in lines]
    file = folder / 'crates.txt'
    before = file.read_text(encoding='utf-8') if file.exists() else ''
    places = ['crates/' + crate for crate in crates] + ['derive']
    if folder == TOP or TOP in folder.parents:
        print('copy_library: %s is in the repository that is copied' % folder, file=sys.stderr)
        return 1
    there = [place for place in places if (folder / place).exists()]
    if there and not library_lines(before):
        print('copy_library: %s is there already: give another folder, or remove it' % (folder / there[0]), file=sys.stderr)
        return 1
    for place in places:
        shutil.rmtree(folder / place, ignore_errors=True)
        shutil.copytree(TOP / place, folder / place, ignore=shutil.ignore_patterns('out', '__pycache__'))
    for licence in TOP.glob('LICENSE-*'):
        shutil.copy(licence, folder / 'derive')
    file.write_text('\n'.join([FIRST, *lines, '', LAST, own_lines(before)]), encoding='utf-8')
    print('copy_library: %d crates and the generator are in %s' % (len(crates), folder))
    return 0


def library_lines(text):
    """The lines of crates.txt below the first comment, as far as a blank one."""
    rows = text.split('\n')
    if FIRST not in rows:
        return []
    rows = rows[rows.index(FIRST) + 1:]
    return rows[:rows.index('')] if '' in rows else rows


def own_lines(text):
    """The lines that aren't of the library."""
    rows = text.split('\n')
    if LAST in rows:
        rows = rows[rows.index(LAST) + 1:]
    return '\n'.join(rows)


if __name__ == '__main__':
    sys.exit(main(sys.argv[1:]))
