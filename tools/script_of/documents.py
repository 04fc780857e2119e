"""The documents of a file in each format, before their names and values are looked at."""
import re

from .faults import Fault, Place, Wrong
from .json_text import JsonText, Members, integer
from .lines import lines
from .table import Rows

FORMATS = {".csv": "csv", ".jsonl": "lines", ".ndjson": "lines", ".json": "json"}
CHILDREN = "_childDocuments_"
WHOLE = re.compile(r"0|-?[1-9][0-9]*")
FRACTION = re.compile(r"[-+]?(?:[0-9]+\.[0-9]*|\.[0-9]+|[0-9]+(?=[eE]))(?:[eE][-+]?[0-9]+)?")


class Spelled(str):
    """A cell that spells a number with a fraction or an exponent, which may be meant as a text too."""


class Document:
    """Where it stands, its members as a field, a place of it, and values with their places, and its children. `place` turns
    a place of it into one of the file."""

    def __init__(self, place, at):
        self.place, self.at, self.members, self.children = place, at, [], []


def documents(path, form, splits, names):
    """The documents of a file. `splits` has the separator of each column of a CSV file whose cells hold several values."""
    if form == "csv":
        return of_table(path, splits, names)
    return of_lines(path, names) if form == "lines" else of_array(path, names)


def of_lines(path, names):
    for number, line in lines(path):
        text = JsonText(path, [line.rstrip("\r\n")], number)
        if text.peek():
            node = text.next()
            if text.peek():
                raise text.fault(text.at, "more text behind the document of this line")
            yield of_node(node, text, names)


def of_array(path, names):
    text = JsonText(path, (line for _, line in lines(path)))
    if text.peek() != "[":
        raise text.fault(text.at, "an array of documents is wanted, which begins with [")
    text.at += 1
    if text.peek() != "]":
        yield of_node(text.next(), text, names)
        while text.peek() == ",":
            text.at += 1
            yield of_node(text.next(), text, names)
    if text.peek() != "]":
        found = f"in place of {text.peek()!r}" if text.peek() else "where the file ends"
        raise text.fault(text.at, f"a comma or ] is wanted {found}")
    text.at += 1
    if text.peek():
        raise text.fault(text.at, "more text behind the array")


def of_node(node, text, names):
    try:
        return of_object(node, text, names, is_child=False)
    except Wrong as wrong:
        raise text.fault(wrong.at, wrong.text) from wrong


def of_object(node, text, names, is_child):
    if not isinstance(node.value, Members):
        raise Wrong(node.at, "a document is an object, which begins with {")
    document = Document(text.place, node.at)
    for at, name, held in node.value:
        if name == CHILDREN:
            document.children += [of_object(one, text, names, is_child=True) for one in children(held, is_child)]
        elif names.field(name, at) is not None:
            document.members.append((names.field(name, at), at, [(one.at, one.value) for one in several(held)]))
    return document


def children(node, is_child):
    if node.value is None:
        return []
    if not isinstance(node.value, list) or isinstance(node.value, Members):
        raise Wrong(node.at, f"{CHILDREN} is an array of documents")
    if node.value and is_child:
        raise Wrong(node.at, "a child has children, and a script has no grandchildren")
    return node.value


def several(node):
    """The nodes of a member's values, without nulls."""
    is_array = isinstance(node.value, list) and not isinstance(node.value, Members)
    for one in node.value if is_array else [node]:
        if one.value is not None:
            yield one


def of_table(path, splits, names):
    """A document for each row behind the header. An empty cell is no value."""
    rows = iter(Rows(path, lines(path)))
    header = next(rows, None)
    if header is None:
        raise Fault(Place(path, 1, 1), "there is no header: the first line has the names of the fields")
    columns = [column(header, number, splits, names) for number in range(len(header.cells))]
    if "id" not in [field for field, _ in columns]:
        raise Fault(header.place(0), "no column is named id; --id COLUMN names the one that holds it")
    for row in rows:
        if len(row.cells) != len(columns):
            place = row.place(len(columns) if len(row.cells) > len(columns) else 0)
            raise Fault(place, f"cells in this row: {len(row.cells)}; in the header: {len(columns)}")
        yield of_row(row, columns)


def column(header, number, splits, names):
    """The field of a column, None where it is passed over, and the separator of its cells or None."""
    name = header.cells[number]
    if name in header.cells[:number]:
        raise Fault(header.place(number), f"the name {name!r} stands twice in the header")
    try:
        return names.field(name, number), splits.get(name)
    except Wrong as wrong:
        raise Fault(header.place(number), wrong.text) from wrong


def of_row(row, columns):
    document = Document(row.place, 0)
    for number, ((field, separator), cell) in enumerate(zip(columns, row.cells)):
        if field is not None:
            texts = cell.split(separator) if separator else [cell]
            document.members.append((field, number, [(number, value_of(text)) for text in texts if text]))
    return document


def value_of(text):
    """A cell's value: an integer where it is spelled as one is printed, so that nothing of the text is lost."""
    if WHOLE.fullmatch(text):
        value = integer(text)
        return text if value is None else value
    return Spelled(text) if FRACTION.fullmatch(text) else text
