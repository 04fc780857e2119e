"""The requests of a file: JSON values one behind another, laid out as one likes."""
import re

from . import limits
from .json_text import JsonText
from .lines import lines

TEXT_OR_WHITE = re.compile(r'("(?:[^"\\]|\\.)*")|[ \t\r\n]+')
# The search's line is two objects around the request.
DEPTH = limits.NESTING - 2


def requests(path):
    """Each request's place and its text without white space between, else as it stands."""
    text = JsonText(path, (line for _, line in lines(path)), depth=DEPTH)
    while text.peek():
        node = text.next()
        yield text.place(node.at), TEXT_OR_WHITE.sub(lambda found: found[1] or "", text.text[node.at:text.at])
