"""The root file of a crate: its `mod` lines, and where a new one is put."""

from refusal import Refusal
from source import Module, Reader, read_item, skip_visibility
from tokens import tokens_of


class Item:
    """An item of a file: its first and last line, with the comments and attributes that belong to it, the module that it
    names if it is `mod name;`, and the names that it brings."""

    def __init__(self, first, last, module, names):
        self.first = first
        self.last = last
        self.module = module
        self.names = names


def items_of(text):
    """The items of a file, in order."""
    reader = Reader(tokens_of(text), text.count('\n') + 1)
    found = []
    skip_inner_attributes(reader)
    while not reader.at_end():
        behind = reader.last_line()
        first = reader.peek().line
        for comment in reversed(reader.comments()):
            if comment.line <= behind or first - last_line_of(comment) > 1 or comment.text.startswith('//!'):
                break
            first = comment.line
        while reader.is_next('#') and not reader.is_next('#', '!'):
            reader.take('#')
            reader.group()
        if skip_inner_attributes(reader):
            continue
        module = module_named(reader)
        brought = Module({}, {}, [])
        read_item(reader, brought)
        found.append(Item(first, reader.last_line(), module, list(brought.items) + list(brought.imports)))
    return found


def last_line_of(comment):
    return comment.line + comment.text.count('\n')


def skip_inner_attributes(reader):
    """Goes past `#![..]`, and says whether there was one or the file ends here."""
    start = reader.place
    while reader.is_next('#', '!'):
        reader.take('#')
        reader.take('!')
        reader.group()
    return reader.place > start or reader.at_end()


def module_named(reader):
    """The name in `mod name;`, or None."""
    start = reader.place
    skip_visibility(reader)
    name = None
    if reader.skip('mod') and not reader.at_end() and reader.peek().kind == 'word':
        name = reader.next().text
        name = name if reader.is_next(';') else None
    reader.place = start
    return name


def modules_of(text):
    return [item.module for item in items_of(text) if item.module]


def with_modules(text, modules):
    """The root file with a `mod` line for each module."""
    for module in sorted(set(modules) - set(modules_of(text))):
        text = with_module(text, module)
    return text


def with_module(text, module):
    """The file with one more `mod` line: in order in the first block of such lines, or else above the first item."""
    lines = text.split('\n')
    items = items_of(text)
    block = first_block(items)
    line = 'mod %s;' % module
    if block:
        before = [item for item in block if item.module < module]
        # the comments above the first line may be of the whole block
        index = before[-1].last if before else block[0].first - 1
        if not before and block[0].first < len(lines) and is_comment(lines[index]):
            index = block[0].last
        return '\n'.join(lines[:index] + [line] + lines[index:])
    if items:
        index = items[0].first - 1
        above = [''] if index and lines[index - 1].strip() else []
        return '\n'.join(lines[:index] + above + [line, ''] + lines[index:])
    rest = text.rstrip('\n')
    return rest + ('\n\n' if rest else '') + line + '\n'


def is_comment(line):
    return line.lstrip().startswith(('//', '/*'))


def first_block(items):
    """The first `mod` lines that follow one another without a blank line."""
    block = []
    for item in items:
        if block and (item.module is None or item.first != block[-1].last + 1):
            break
        if item.module is not None:
            block.append(item)
    return block


def refuse_taken(text, module, file):
    """An item of the root file with the name of a module that is to be written."""
    for item in items_of(text):
        if module in item.names and item.module != module:
            reason = 'the name `%s` is that of the module to be written: give one of them another name'
            raise Refusal(item.last, reason % module, file)
