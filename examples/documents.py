"""The documents of the tree as Markdown: their blocks, the words in backticks, their links and headings, each with its line."""
import collections
import os
import re

TOP = os.path.dirname(os.path.dirname(os.path.abspath(__file__)))
# What of the tree is no part of it.
LEFT_OUT = (".git", "out", "__pycache__")
SPAN = re.compile(r"`([^`\n]+)`")
LINK = re.compile(r"\[([^\[\]]*)\]\(([^()\s]+)\)")
# A block: the number of its first line, the words behind its fence (none of an indented one), the lines in it.
Block = collections.namedtuple("Block", "line words lines")


class Malformed(Exception):
    """A block that is not ended: the number of its line."""


def names():
    """The paths of all documents from the top of the tree."""
    found = []
    for folder, folders, files in os.walk(TOP):
        folders[:] = [name for name in folders if name not in LEFT_OUT]
        found += [os.path.relpath(os.path.join(folder, name), TOP) for name in files if name.endswith(".md")]
    return sorted(found, key=lambda name: (name.count(os.sep), name))


class Document:
    """A document: `blocks`, and `prose`, its text with blank lines in their place."""

    def __init__(self, name):
        self.name, self.folder = name, os.path.dirname(os.path.join(TOP, name))
        with open(os.path.join(TOP, name), encoding="utf-8") as file:
            self.lines = file.read().split("\n")
        self.blocks = list(blocks_of(self.lines))
        prose = list(self.lines)
        for block in self.blocks:
            for at in range(block.line - 1, block.line + len(block.lines) + (block.words is not None)):
                prose[at] = ""
        self.prose = "\n".join(prose)

    def line_at(self, offset):
        return self.prose.count("\n", 0, offset) + 1

    def spans(self):
        """The words between backticks, each with its line."""
        for span in SPAN.finditer(self.prose):
            yield self.line_at(span.start()), span[1]

    def links(self):
        """Each link: its line, its text, where it leads."""
        plain = SPAN.sub(lambda span: re.sub(r"[\[\]()]", " ", span[0]), self.prose)
        for link in LINK.finditer(plain):
            yield self.line_at(link.start()), self.prose[slice(*link.span(1))], link[2]
        for broken in re.finditer(r"\]\(", LINK.sub(lambda link: "\n" * link[0].count("\n"), plain)):
            yield plain.count("\n", 0, broken.start()) + 1, "", None

    def headings(self):
        """The anchors of the headings, as they stand in links."""
        found = []
        for heading in re.findall(r"^#+ (.*)$", self.prose, re.MULTILINE):
            text = LINK.sub(r"\1", heading).lower().strip()
            anchor = re.sub(r"[^\w\- ]", "", text).replace(" ", "-")
            found.append(anchor + (f"-{found.count(anchor)}" if anchor in found else ""))
        return found


def blocks_of(lines):
    """The fenced and the indented blocks."""
    at = 0
    while at < len(lines):
        start, line = at, lines[at]
        at += 1
        if line.startswith("```"):
            if "```" not in lines[at:]:
                raise Malformed(start + 1)
            at = lines.index("```", at) + 1
            yield Block(start + 1, line[3:].split(), lines[start + 1:at - 1])
        elif line.startswith("    ") and (start == 0 or not lines[start - 1]):
            while at < len(lines) and lines[at].startswith("    "):
                at += 1
            yield Block(start + 1, None, lines[start:at])
