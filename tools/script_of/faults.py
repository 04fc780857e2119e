"""What is wrong with a file, and where."""
from collections import namedtuple

# A file's name as it was given, and the numbers of a line and of a character in it, from 1.
Place = namedtuple("Place", "file line column")


class Fault(Exception):
    """A fault at a place of a file, or, without a place, of what the files hold together."""

    def __init__(self, place, text):
        super().__init__(text)
        self.place, self.text = place, text

    def __str__(self):
        if self.place is None:
            return self.text
        return f"{self.place.file}, line {self.place.line}, column {self.place.column}: {self.text}"


class Unreadable(Exception):
    """A file that cannot be read."""


class Wrong(Exception):
    """A fault at a place that only the document knows: `at` is what its `place` takes."""

    def __init__(self, at, text):
        super().__init__(text)
        self.at, self.text = at, text
