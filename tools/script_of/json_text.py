"""Reads JSON values that stand one behind another, or in an array, each with its place, and with no more of the file in hand
than the value needs that is read."""
import json
import re
from collections import namedtuple

from . import limits
from .faults import Fault, Place, Wrong

# A value and where it begins in the text: None, True, False, a str, an int of 64 bits, a Number, a list of nodes, or Members.
Node = namedtuple("Node", "at value")

WHITE = re.compile(r"[ \t\r\n]*")
NUMBER = re.compile(r"-?(?:0|[1-9][0-9]*)(?:\.[0-9]+)?(?:[eE][-+]?[0-9]+)?")
WORD = re.compile(r"[\w.+-]*")
HALF = re.compile("[\ud800-\udfff]")
WORDS = {"null": None, "true": True, "false": False}
CHUNK = 1 << 16
DECODER = json.JSONDecoder()


class Number(str):
    """The text of a number that is no integer of 64 bits."""


class Members(list):
    """The members of an object: where each name stands, the name, and the node of its value. A name may stand twice."""


class Unfinished(Exception):
    """The text in hand ends within a value."""


def integer(text):
    """The integer of 64 bits that the text spells, or None."""
    if len(text) > 20:
        return None
    value = int(text)
    return value if limits.LEAST_INTEGER <= value <= limits.GREATEST_INTEGER else None


class Parser:
    """Reads one value of a text, from a place on. Tokens do not reach over the end of a line."""

    def __init__(self, text, at, depth):
        self.text, self.at, self.depth = text, at, depth

    def skip(self):
        """Passes over white space and shows the character behind it."""
        self.at = WHITE.match(self.text, self.at).end()
        if self.at == len(self.text):
            raise Unfinished
        return self.text[self.at]

    def value(self):
        first, at = self.skip(), self.at
        if first == '"':
            return Node(at, self.string())
        if first == "{":
            return Node(at, self.nested("}", Members(), self.member))
        if first == "[":
            return Node(at, self.nested("]", [], self.value))
        return Node(at, self.word())

    def string(self):
        begin = self.at
        try:
            text, self.at = DECODER.raw_decode(self.text, begin)
        except ValueError as error:
            at = getattr(error, "pos", begin)
            raise Wrong(at, string_fault(str(error), self.text, at)) from error
        if HALF.search(text):
            raise Wrong(begin, "the text has one half of a surrogate pair without the other")
        return text

    def word(self):
        word = WORD.match(self.text, self.at).group()
        if word in WORDS:
            value = WORDS[word]
        elif NUMBER.fullmatch(word):
            value = integer(word) if word.lstrip("-").isdigit() else None
            value = Number(word) if value is None else value
        else:
            raise Wrong(self.at, f"no JSON value begins with {word or self.text[self.at]!r}")
        self.at += len(word)
        return value

    def nested(self, end, items, item):
        """The items between brackets."""
        if self.depth == 0:
            raise Wrong(self.at, f"nested deeper than the {limits.NESTING} that a line of a script may be")
        self.depth -= 1
        self.at += 1
        if self.skip() != end:
            items.append(item())
            while self.skip() == ",":
                self.at += 1
                items.append(item())
        if self.skip() != end:
            raise Wrong(self.at, f"a comma or {end} is wanted in place of {self.text[self.at]!r}")
        self.at += 1
        self.depth += 1
        return items

    def member(self):
        if self.skip() != '"':
            raise Wrong(self.at, f"a name in quotes is wanted in place of {self.text[self.at]!r}")
        at, name = self.at, self.string()
        if self.skip() != ":":
            raise Wrong(self.at, f"a colon is wanted in place of {self.text[self.at]!r}")
        self.at += 1
        return at, name, self.value()


def string_fault(told, text, at):
    if told.startswith("Invalid control character") and text[at:at + 1] not in ("\n", "\r"):
        return "a control character in a text, which JSON wants escaped"
    if told.startswith(("Invalid control character", "Unterminated")):
        return "the text has no quote at its end"
    return "a bad escape in a text"


class JsonText:
    """The JSON text of some lines, the first with this number, read value by value."""

    def __init__(self, path, lines, first=1, depth=limits.NESTING):
        self.path, self.lines, self.depth = path, iter(lines), depth
        # The lines in hand, the number of the first, and how far they are read.
        self.text, self.line, self.at = "", first, 0

    def place(self, at):
        return Place(self.path, self.line + self.text.count("\n", 0, at), at - self.text.rfind("\n", 0, at))

    def fill(self):
        """Takes in more lines, as much again as is in hand; whether there were any. Those behind which all is read go."""
        cut = self.text.rfind("\n", 0, self.at) + 1
        self.line += self.text.count("\n", 0, cut)
        parts, size = [self.text[cut:]], 0
        self.at -= cut
        for line in self.lines:
            parts.append(line)
            size += len(line)
            if size > max(CHUNK, len(parts[0])):
                break
        self.text = "".join(parts)
        return size > 0

    def peek(self):
        """The next character that is no white space, or nothing at the end."""
        while True:
            self.at = WHITE.match(self.text, self.at).end()
            if self.at < len(self.text):
                return self.text[self.at]
            if not self.fill():
                return ""

    def next(self):
        """The next value; read again from its beginning where the text in hand ends within it."""
        while True:
            parser = Parser(self.text, self.at, self.depth)
            try:
                node = parser.value()
            except Wrong as wrong:
                raise Fault(self.place(wrong.at), wrong.text) from wrong
            except Unfinished:
                if self.fill():
                    continue
                raise Fault(self.place(len(self.text)), "the file ends within a JSON value") from None
            self.at = parser.at
            return node

    def fault(self, at, text):
        return Fault(self.place(at), text)
