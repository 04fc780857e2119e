"""The examples of docs/guide.md and docs/from-solr.md, as scripts and the replies that these say.

A block that begins with "```script NAME" is a script; "```request behind NAME" has requests of the session main that
follow the lines of that script; "```replies" has what the block before it gives. A line that begins with a space goes on
the line before. A comment in front of a table says what the table's examples are: their cells hold them between
backticks.
"""
import json
import os
import re

DOCS = os.path.join(os.path.dirname(os.path.dirname(os.path.abspath(__file__))), "docs")
# Each may stand behind the scripts of those before it.
DOCUMENTS = ("guide.md", "from-solr.md")
# Examples that a cell tells in words.
IN_WORDS = {
    "1,048,577 spaces": [" " * 1_048_577],
    "a search of a 17th session": ['{"search":{"request":{},"session":"s%d"}}' % i for i in range(17)],
    "an `id` of 32,767 letters": ['{"id":"' + "x" * 32_767 + '"}'],
}
# Examples that are tried elsewhere: the two of scripts that are too large to stand in the guide by check-statuses, those
# of bad documents by their own table.
NOT_HERE = ["67,108,865 line feeds", "the 1,048,577th document", "see below"]


class Case:
    """A script's lines, the replies that a document says, and where it stands there."""

    def __init__(self, document, line, script, replies):
        self.document, self.line, self.script, self.replies = document, line, script, replies

    def text(self):
        return "".join(line + "\n" for line in self.script)


def compact(value):
    return json.dumps(value, ensure_ascii=False, separators=(",", ":"), sort_keys=True)


def search(request):
    """A search of a request's JSON text."""
    return '{"search":{"request":' + request + "}}"


def joined(lines):
    """Lines where those that begin with a space go on the one before."""
    whole = []
    for line in lines:
        if line.startswith(" "):
            whole[-1] += line.lstrip(" ")
        else:
            whole.append(line)
    return whole


def spans(cell):
    """The examples of a cell; there is at least one."""
    found = [lines[0] for lines in repeated(cell)]
    if not found:
        raise ValueError(f"a cell without an example: {cell}")
    return found


def repeated(cell):
    """The examples of a cell, each as lines: as often as it is to stand."""
    if cell in IN_WORDS:
        return [IN_WORDS[cell]]
    found = re.findall(r"`([^`]+)`(?: ([\d,]+) times)?", cell)
    return [[text] * int(times.replace(",", "") or "1") for text, times in found]


def matches(cells, opening):
    """A query, what it asks, the ids of what it matches."""
    ids = re.findall(r"\d+", cells[-1])
    facets = {"count": len(ids)}
    if ids:
        facets["ids"] = {"buckets": [{"count": 1, "val": name} for name in ids]}
    asked = {"query": spans(cells[0])[0], "facet": {"ids": {"type": "terms", "field": "id", "limit": -1, "sort": "index"}}}
    yield opening + [search(compact(asked))], [reply(facets)]


def reply(facets):
    return compact({"facets": facets, "generations": [1], "session": "main"})


def fault(cells, names):
    number, name = int(cells[0]), cells[1].strip("`")
    return compact({"error": name, "facet": names, "number": number, "session": "main"})


def query_faults(cells, opening):
    for text in spans(cells[-1]):
        if text.startswith("{!"):
            asked = {"filter": text}
        elif text[0] in "{7":
            asked = {"filter": json.loads(text)}
        else:
            asked = {"query": text}
        yield opening + [search(compact(asked))], [fault(cells, [])]


def request_faults(cells, opening):
    for text in spans(cells[-1]):
        yield opening + [search(text)], [fault(cells, json.loads(cells[-2].strip("`")))]


def refused(cells, opening):
    """What is asked, the fault's name, requests; a fault inside facets is of all the facets that there are."""
    for text in spans(cells[-1]):
        names, inside = [], json.loads(text).get("facet")
        while inside:
            (name, command), = inside.items()
            names.append(name)
            inside = command.get("facet") if isinstance(command, dict) else None
        yield opening + [search(text)], [fault([numbers()[cells[1].strip("`")], cells[1]], names)]


def numbers():
    """The number of each fault of requests, as the tables of the guide have them."""
    with open(os.path.join(DOCS, "guide.md"), encoding="utf-8") as guide:
        rows = [cells for _, words, rows in blocks(guide.read().split("\n")) if words[:1] == ["table"] and words[1].startswith("faults of")
                and words[1] != "faults of scripts" for cells in ([cell.strip() for cell in row.strip("|").split("|")] for row in rows)]
    return {cells[1].strip("`"): cells[0] for cells in rows}


def script_faults(cells, opening):
    if cells[-1] not in NOT_HERE:
        spans(cells[-1])
    for lines in [] if cells[-1] in NOT_HERE else repeated(cells[-1]):
        lines = lines if cells[-1].endswith("as the first line") else opening + lines
        yield lines, [compact({"error": cells[1].strip("`"), "line": len(lines), "number": int(cells[0])})]


def details(cells, opening):
    said = {"detail": cells[0].strip("`"), "error": "bad-document", "line": len(opening) + 1, "number": 6}
    for text in spans(cells[-1]):
        yield opening + ['{"add":{"doc":' + text + "}}"], [compact(said)]


def ranges(cells, opening):
    """The words of `include`, then counts without hardend and with it: the buckets, before, between, after."""
    counts = [int(number) for cell in cells[1:] for number in cell.split(",")]
    for hard, (a, b, c, before, between, after) in ((False, counts[:6]), (True, counts[6:])):
        facet = {"type": "range", "field": "n", "start": 0, "end": 10, "gap": 4, "other": "all", "hardend": hard,
                 "include": spans(cells[0])}
        buckets = [{"count": count, "val": 4 * i} for i, count in enumerate((a, b, c))]
        shown = {"buckets": buckets, "before": {"count": before}, "between": {"count": between}, "after": {"count": after}}
        yield opening + [search(compact({"facet": {"r": facet}}))], [reply({"count": 5, "r": shown})]


TABLES = {"matches": matches, "faults of queries": query_faults, "faults of requests": request_faults,
          "faults of scripts": script_faults, "details": details, "range": ranges, "refused": refused}


def blocks(lines):
    """Each block with its first words and each table with its comment: the line's number, the words, what stands in it."""
    i = 0
    while i < len(lines):
        start, line = i + 1, lines[i]
        if line.startswith("```"):
            end = lines.index("```", i + 1)
            yield start, line[3:].split(), lines[i + 1:end]
            i = end
        elif line.startswith("<!-- "):
            rows = []
            i += 1
            while i < len(lines) and (lines[i].startswith("|") or not rows and not lines[i]):
                rows += [lines[i]] if lines[i] else []
                i += 1
            yield start, ["table", *line[5:-4].split(": ")], rows[2:]
        i += 1


def cases():
    """Every example of the documents."""
    scripts = {}
    for document in DOCUMENTS:
        yield from cases_of(document, scripts)


def cases_of(document, scripts):
    """The examples of one document, behind these scripts and its own."""
    with open(os.path.join(DOCS, document), encoding="utf-8") as file:
        lines = file.read().split("\n")
    waiting, is_told = None, True
    for line, words, content in blocks(lines):
        if words[:1] == ["script"]:
            scripts[words[1]] = waiting = joined(content)
        elif words[:2] == ["request", "behind"]:
            if not is_told:
                raise ValueError(f"{document}: requests without replies before line {line}")
            waiting, is_told = scripts[words[2]] + [search(request) for request in joined(content)], False
        elif words[:1] == ["replies"]:
            is_told = True
            yield Case(document, line, waiting, joined(content))
        elif words[:1] == ["table"]:
            for row, text in enumerate(content):
                cells = [cell.strip() for cell in text.strip("|").split("|")]
                for script, replies in TABLES[words[1]](cells, scripts[words[2]]):
                    yield Case(document, line + 4 + row, script, replies)
    if not is_told:
        raise ValueError(f"{document}: the last requests have no replies")
