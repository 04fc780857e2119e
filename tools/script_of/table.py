"""The rows of a CSV file: cells between commas, in quotes where they hold commas, quotes (written twice) or line feeds."""
from . import limits
from .faults import Fault, Place


class Row:
    """The cells of a row, and where they begin: the line and column of each, or those of the first where all stand side by side
    without quotes."""

    def __init__(self, path, cells, begins):
        self.path, self.cells, self.begins = path, cells, begins

    def place(self, number):
        if number < len(self.begins):
            return Place(self.path, *self.begins[number])
        line, column = self.begins[0]
        return Place(self.path, line, column + sum(len(cell) + 1 for cell in self.cells[:number]))


class Rows:
    def __init__(self, path, lines):
        self.path, self.lines = path, iter(lines)
        # The line in hand, its number, and how far it is read.
        self.line, self.number, self.at = "", 0, 0

    def step(self):
        """Takes in the next line; whether there is one."""
        self.number, self.line = next(self.lines, (self.number, ""))
        self.at = 0
        return self.line != ""

    def __iter__(self):
        """Each row. Lines without anything on them are none."""
        while self.step():
            if self.line.strip("\r\n"):
                yield self.row()

    def row(self):
        if '"' not in self.line:
            return Row(self.path, self.line.rstrip("\r\n").split(","), [(self.number, 1)])
        cells, begins = [], []
        while True:
            begins.append((self.number, self.at + 1))
            cells.append(self.quoted() if self.line.startswith('"', self.at) else self.plain())
            if not self.line.startswith(",", self.at):
                return Row(self.path, cells, begins)
            self.at += 1

    def ends_at(self):
        return len(self.line.rstrip("\r\n"))

    def plain(self):
        end = self.line.find(",", self.at)
        end = self.ends_at() if end < 0 else end
        cell = self.line[self.at:end]
        if '"' in cell:
            place = Place(self.path, self.number, self.at + cell.index('"') + 1)
            raise Fault(place, "a quote in a cell that does not begin with one; put the cell in quotes and write the quote twice")
        self.at = end
        return cell

    def quoted(self):
        begin, parts, size = Place(self.path, self.number, self.at + 1), [], 0
        self.at += 1
        while True:
            end = self.line.find('"', self.at)
            if end >= 0:
                parts.append(self.line[self.at:end])
                self.at = end + 1
                if not self.line.startswith('"', self.at):
                    return self.closed("".join(parts))
                parts.append('"')
                self.at += 1
                continue
            parts.append(self.line[self.at:])
            size += len(self.line)
            if size > limits.LINE_BYTES or not self.step():
                within = f" within {limits.LINE_BYTES:,} characters" if size > limits.LINE_BYTES else ""
                raise Fault(begin, f"this quote is not closed{within}")

    def closed(self, cell):
        if not self.line.startswith(",", self.at) and self.at != self.ends_at():
            place = Place(self.path, self.number, self.at + 1)
            raise Fault(place, "a comma or the end of the line is wanted behind the closing quote")
        return cell
