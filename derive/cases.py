"""What the tests of borsh_derive.py share: a crate in a folder of its own, and what is written for it or refused."""

import contextlib
import io
import os
import re
import shutil
import tempfile
import unittest

import borsh_derive

HEAD = '//! A crate.\n#![tactic(auto)]\n\npub mod types;\n'


def droppable(text):
    """The text with `#[derive(Drop)]` before each type that derives nothing, in its own line."""
    rows = text.split('\n')
    for index, row in enumerate(rows):
        above = '\n'.join(rows[:index]).split('\n\n')[-1]
        if re.match(r'pub (struct|enum)\b', row) and not re.search(r'^#\[derive', above, re.M):
            rows[index] = '#[derive(Drop)] ' + row
    return '\n'.join(rows)


class Crate:
    """A crate in a folder of its own. Its types may be let go."""

    def __init__(self, types, root=HEAD, **more):
        self.folder = os.path.join(tempfile.mkdtemp(), 'sample')
        os.makedirs(os.path.join(self.folder, 'src'))
        self.write('types', droppable(types))
        self.write('lib', droppable(root))
        for name, text in more.items():
            self.write(name, droppable(text))

    def path(self, name):
        return os.path.join(self.folder, 'src', name + '.rt')

    def write(self, name, text):
        with open(self.path(name), 'w', encoding='utf-8') as file:
            file.write(text)

    def read(self, name):
        return borsh_derive.read(self.path(name))

    def files(self):
        return sorted(os.listdir(os.path.join(self.folder, 'src')))

    def texts(self):
        return {name: self.read(name[:-3]) for name in self.files()}

    def run(self, *flags):
        """The exit status, and what was printed."""
        out = io.StringIO()
        with contextlib.redirect_stdout(out), contextlib.redirect_stderr(out):
            status = borsh_derive.main([self.folder] + list(flags))
        return status, out.getvalue()


class Cases(unittest.TestCase):
    def crate(self, types, **more):
        crate = Crate(types, **more)
        self.addCleanup(shutil.rmtree, os.path.dirname(crate.folder), True)
        return crate

    def written(self, types, file, **more):
        """The text of a file that is written."""
        crate = self.crate(types, **more)
        status, said = crate.run()
        self.assertEqual(status, 0, said)
        return crate.read(file)

    def refused(self, types, line, reason, **more):
        """The crate is refused, with the line and the reason, and nothing is written."""
        crate = self.crate(types, **more)
        before = {name: crate.read(name[:-3]) for name in crate.files()}
        status, said = crate.run()
        self.assertEqual(status, 1, said)
        self.assertIn('src/types.rt:%d: ' % line, said)
        self.assertIn(reason, said)
        self.assertEqual(before, {name: crate.read(name[:-3]) for name in crate.files()})
