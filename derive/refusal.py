"""Why a type can't be taken."""


class Refusal(Exception):
    """A type or a file that can't be taken: the file, the line (None where it is the whole file) and the reason."""

    def __init__(self, line, reason, file=None):
        super().__init__(reason)
        self.file = file
        self.line = line
        self.reason = ' '.join(reason.split())

    def of(self, name):
        """The same, with the name of the type."""
        if '`%s`' % name not in self.reason:
            self.reason = '`%s`: %s' % (name, self.reason)
        return self

    def __str__(self):
        place = [str(part) for part in (self.file, self.line) if part is not None]
        return ': '.join([':'.join(place), self.reason])


class Refusals(Exception):
    """All that was refused."""

    def __init__(self, all_refusals):
        super().__init__()
        self.all = sorted(all_refusals, key=lambda refusal: (refusal.file, refusal.line or 0))
