"""Replies in a terminal: each facet indented under what it is counted in, with counts, bars in proportion and statistics."""
import textwrap

from . import faults, reading
from .text import BESIDE, cut, documents, how_many, label, value, visible, width

STEP, GAP = "  ", "  "
LONGEST_BAR, SHORTEST_BAR, SHORTEST_LABEL = 30, 4, 8
EIGHTHS = " ▏▎▍▌▋▊▉"


class Terminal:
    """How many columns there are, which characters can be written, and whether names may be bold."""

    def __init__(self, columns, encoding, is_bold):
        self.columns, self.encoding, self.is_bold = columns, encoding, is_bold
        self.has_blocks = self.written("█…") == "█…"

    def written(self, text):
        """A text with escapes for the characters that cannot be written."""
        return text.encode(self.encoding, "backslashreplace").decode(self.encoding)

    def label(self, text):
        return self.written(label(text))

    def lines(self, number, said):
        """The lines that show what the line with this number says."""
        if isinstance(said, reading.ScriptFault):
            yield self.bold("the script has a fault" + (f" in line {said.line}" if said.line else ""))
            yield f"{STEP}{self.label(said.name)} ({said.number})"
            yield from self.wrapped(self.written(visible(faults.of_script(said))))
        elif isinstance(said, reading.RequestFault):
            at = f", at {' > '.join(map(self.label, said.path))}" if said.path else ""
            yield self.bold(f"{number}. session {self.label(said.session)}: the request has a fault")
            yield f"{STEP}{self.label(said.name)} ({said.number}){at}"
            yield from self.wrapped(faults.of_request(said))
        elif isinstance(said, reading.Sent):
            yield from self.sent(said)
        else:
            numbers = " ".join(map(str, said.generations))
            yield self.bold(f"{number}. session {self.label(said.session)}: {documents(said.bucket.count)}, generations {numbers}")
            yield from self.inside(said.bucket, STEP, 0)

    def sent(self, said):
        """For each round how many shards sent something, how many bytes in all, and the most of one."""
        yield self.bold(f"search {said.search}: {sum(sum(lengths.values()) for _, lengths in said.rounds):,} bytes sent")
        rows = [reading.SENT_HEADS, *([f"{one:,}" for one in row] for row in reading.sent_table(said))]
        widths = [max(map(len, column)) for column in zip(*rows)]
        for row in rows:
            yield STEP + GAP.join(one.rjust(columns) for one, columns in zip(row, widths))

    def wrapped(self, words):
        return textwrap.wrap(words, max(self.columns, 20), initial_indent=STEP, subsequent_indent=STEP)

    def bold(self, text):
        return f"\x1b[1m{text}\x1b[0m" if self.is_bold else text

    def inside(self, bucket, indent, most):
        """The statistics and the facets of a bucket, whose bars are no longer for their counts than those around it, of which
        the longest stands for `most`."""
        names = max((width(self.label(name)) for name, _ in bucket.statistics), default=0)
        numbers = max((len(f"{number:,}") for _, number in bucket.statistics), default=0)
        for name, number in bucket.statistics:
            yield f"{indent}{padded(self.label(name), names)}{GAP}{number:{numbers},}"
        yield from self.facets(bucket, indent, most)

    def facets(self, bucket, indent, most):
        for name, facet in bucket.facets:
            if isinstance(facet, reading.Bucket):
                yield f"{indent}{self.bold(self.label(name))}: {documents(facet.count)}"
                yield from self.inside(facet, indent + STEP, most)
            else:
                told = how_many(facet)
                yield indent + self.bold(self.label(name)) + (f": {told}" if told else "")
                yield from self.rows(facet, indent + STEP, most)

    def rows(self, facet, indent, most):
        """The buckets of a facet and what stands beside them, in columns of their own."""
        values = [self.written(value(one.value)) for one in facet.buckets]
        if all(isinstance(one.value, int) for one in facet.buckets):
            digits = max(map(len, values), default=0)
            values = [text.rjust(digits) for text in values]
        shown = [*zip(values, facet.buckets), *((BESIDE[name], one) for name, one in facet.beside)]
        most = max([most, *(one.count for one in facet.buckets)])
        layout = Layout(self, shown, len(indent))
        for number, (text, one) in enumerate(shown):
            yield indent + layout.line(text, one, self.bar(one.count, most, layout.bar) if number < len(values) else "")
            inner = self.facets if layout.has_statistics else self.inside
            yield from inner(one, indent + STEP, most)

    def bar(self, count, most, columns):
        """A bar as long as the count is of the most; no count but 0 has none."""
        if count <= 0 or not columns:
            return ""
        if not self.has_blocks:
            return "#" * max(1, count * columns // most)
        full, rest = divmod(max(1, count * columns * 8 // most), 8)
        return "█" * full + EIGHTHS[rest].strip()


class Layout:
    """How wide the columns of some buckets are: label, count, bar, statistics. Where statistics leave no room for a label they
    are not among them; where nothing is left for a bar it has no columns."""

    def __init__(self, terminal, shown, indent):
        self.terminal, self.counts = terminal, max((len(f"{one.count:,}") for _, one in shown), default=0)
        statistics = max((width(self.statistics(one)) for _, one in shown), default=0)
        room = terminal.columns - indent - len(GAP) - self.counts
        self.has_statistics = room - statistics - len(GAP) >= SHORTEST_LABEL
        room -= statistics + len(GAP) if statistics and self.has_statistics else 0
        self.labels = min(max((width(text) for text, _ in shown), default=0), max(SHORTEST_LABEL, room // 2))
        bar = min(LONGEST_BAR, room - self.labels - len(GAP))
        self.bar = bar if bar >= SHORTEST_BAR else 0

    def line(self, text, bucket, bar):
        text = cut(text, self.labels, "…" if self.terminal.has_blocks else "~")
        line = f"{padded(text, self.labels)}{GAP}{bucket.count:{self.counts},}{GAP}{padded(bar, self.bar)}"
        return (line + GAP + self.statistics(bucket) if self.has_statistics else line).rstrip()

    def statistics(self, bucket):
        return GAP.join(f"{self.terminal.label(name)} {number:,}" for name, number in bucket.statistics)


def padded(text, columns):
    return text + " " * (columns - width(text))
