"""Rows of text: scripts, and what the program writes of each. They stand in rows/*.txt.

A file is paragraphs, with one blank line between two. A line that begins with "# " is a comment. The first line of a
paragraph says what it is:

    front NAME             lines that the rows behind it begin with
    row NAME               a script, and what is written
    row NAME behind FRONT  the same, where the script begins with the lines of a front

Names are unique in a file. The lines below are lines of the script, and directly below each what it makes the program write:

    ? REQUEST              a search of the session a
    add SHARD MEMBERS      adds a document with these members to a shard; its id is the number of the adds so written
    end                    a commit of every shard, and a sync
    \\LINE                  a line of the script, whatever it begins with; \\ alone is an empty one
    LINE                   a line of the script that has none of these forms
    @ [1,1] SESSION        no line: the generations and the session (a if absent) that lines from here on show
    @ [0..2,1] SESSION     the same, where each number of a range may be shown
    = FACETS               a reply with these facets, whatever its generations are; or one such line below the other for each that
                           they may be, in ascending order (the number of the last shard rises first)
    ! NAME a/b             the error line of a request, at the facet b in the facet a; without a path at none
    ! NAME ["a","b"]       the same, for names of any characters
    ! NAME at LINE         the fault of the whole script, which is all that is written; the status is 65
    ! bad-document DETAIL at LINE
    > TEXT                 a line that is written, as it is

A row begins with the generations and the session that its front ends with. `N * LINE` is a line N times, with the number of
the repetition, from 0, in place of each `#`; several lines in turn stand with ` | ` between them (`\\#` and `\\|` are the
characters themselves); `<# * A + B % C>` is the number times A and B more, modulo C, where each part but `#` may be absent.
`<N x CHARACTER>` is a character N times: one that stands there, or `space`, `tab`, `return`, `feed`,
or `byte ff` for a byte. A line feed ends each line of a script, but a last one that ends in `<no feed>`.
"""
import itertools
import json
import math
import re

import phases

SCRIPT_FAULTS = {
    "not-json": 1, "no-schema": 2, "unknown-line": 3, "bad-schema": 4, "bad-shard": 5, "bad-document": 6,
    "field-total": 8, "too-many-documents": 9, "too-many-sessions": 10, "long-line": 11,
    "too-long": 12, "too-many-commits": 13, "too-many-syncs": 14,
}
DETAILS = ["wrong-type", "unknown-field", "too-many-values", "no-id", "long-term", "deep-children"]
REQUEST_FAULTS = {
    "not-an-object": 1, "unknown-key": 2, "query-syntax": 3, "mixed-operators": 4, "unknown-field": 5, "bad-value": 6,
    "bad-command": 7, "unknown-type": 8, "missing-parameter": 9, "bad-parameter": 10, "unknown-sort": 11,
    "bad-statistic": 12, "wrong-field-type": 13, "reserved-name": 14, "nested-exclude": 15, "too-large": 16,
}
REPEATED = re.compile(r"(\d+) \* (.*)", re.DOTALL)
NUMBER = re.compile(r"\\([#|])|<#(?: \* (\d+))?(?: \+ (\d+))?(?: % ([1-9]\d*))?>|#")
RUN = re.compile(r"<(\d+) x (space|tab|return|feed|byte [0-9a-f]{2}|[^ ])>")
CHARACTERS = {"space": " ", "tab": "\t", "return": "\r", "feed": "\n"}
NO_FEED = "<no feed>"
GENERATIONS = re.compile(r"\[\d{1,4}(\.\.\d{1,4})?(,\d{1,4}(\.\.\d{1,4})?)*\]")
# A reply may have at most so many generations; put a sync ahead of a search that may have more.
MOST_GENERATIONS = 1000
SCRIPT_FAULT = re.compile(r"([a-z-]+)(?: ([a-z-]+))? at (\d+)")


class Malformed(Exception):
    """A file that is not of this notation: the line, and what is wrong with it."""

    def __init__(self, line, what):
        super().__init__(f"line {line}: {what}")


class Answer:
    """The texts that a line which is written may be, the line of the file where it stands, and the line of the script that it
    answers."""

    def __init__(self, line, about, texts):
        self.line, self.about, self.texts = line, about, texts


def compact(value):
    return json.dumps(value, ensure_ascii=False, separators=(",", ":"), sort_keys=True)


def run_of(match):
    """A run of one character; a byte that is no text stands as a surrogate."""
    character = match[2]
    if character.startswith("byte "):
        character = bytes.fromhex(character[5:]).decode("utf-8", "surrogateescape")
    return CHARACTERS.get(character, character) * int(match[1])


def counted(found, number):
    """What stands in place of a mark, in the repetition with a number."""
    mark, times, more, modulo = found.groups()
    if mark:
        return mark
    result = number * int(times or 1) + int(more or 0)
    return str(result % int(modulo) if modulo else result)


def spread(text):
    """The lines that a line stands for."""
    match = REPEATED.fullmatch(text)
    if not match:
        yield text
        return
    parts = match[2].split(" | ")
    for number in range(int(match[1])):
        for part in parts:
            yield NUMBER.sub(lambda found: counted(found, number), part)


def search_of(text):
    """What a search asks, of a line that is one."""
    if '"search"' not in text:
        return None
    try:
        value = json.loads(text)
    except ValueError:
        return None
    asked = value.get("search") if isinstance(value, dict) and len(value) == 1 else None
    return asked if isinstance(asked, dict) else None


class Paragraph:
    """A front or a row: its script as bytes behind that of its front, and what is written."""

    def __init__(self, line, name, front):
        self.line, self.name, self.front = line, name, front
        self.script = bytearray()
        self.answers = []
        self.status = 0
        self.sessions = set(front.sessions) if front else set()
        self.searches_alone = True
        self.lines = front.lines if front else 0
        self.adds = front.adds if front else 0
        self.generations = front.generations if front else None
        self.session = front.session if front else "a"
        self.about = None
        self.facets = []
        self.waits = None
        self.unanswered = None
        self.has_feed = True

    def say(self, line, text):
        """A line of the script."""
        self.leave()
        if not self.has_feed:
            raise Malformed(line, f"a line behind one that ends in {NO_FEED}")
        self.has_feed = not text.endswith(NO_FEED)
        if not self.has_feed:
            text = text[:-len(NO_FEED)]
        self.script += text.encode("utf-8", "surrogateescape")
        if self.has_feed:
            self.script += b"\n"
        self.lines += 1 + text.count("\n")
        self.about = text
        asked = search_of(text)
        if asked is None or not self.has_feed:
            self.searches_alone = False
        if asked is not None:
            self.waits = line
            self.sessions.add(str(asked.get("session", "main")))

    def leave(self):
        """The line above is done with; a search has its answer by now, but where the script has a fault."""
        if self.waits is not None and self.unanswered is None:
            self.unanswered = self.waits
        self.waits = None
        self.settle()

    def settle(self):
        """Nothing more is said of the reply above."""
        if len(self.facets) > 1 and len(self.facets) != len(self.generations):
            raise Malformed(self.answers[-1].line, f"facets of {len(self.facets)} of {len(self.generations)} generations")
        self.facets = []

    def answer(self, line, *texts):
        """A line that is written: one of these."""
        if self.status:
            raise Malformed(line, "nothing else is written beside the fault of a script")
        if self.waits is None:
            raise Malformed(line, "an answer that does not stand below a search")
        self.waits = None
        self.answers.append(Answer(line, self.about, texts))

    def fault(self, line, name, detail, at):
        """The fault of the whole script."""
        if name not in SCRIPT_FAULTS:
            raise Malformed(line, f"no fault of scripts: {name}")
        if (detail is not None) != (name == "bad-document") or detail is not None and detail not in DETAILS:
            raise Malformed(line, f"no detail of {name}: {detail}")
        if self.answers or self.status or self.front and self.front.answers:
            raise Malformed(line, "nothing else is written beside the fault of a script")
        if at not in (0, self.lines):
            raise Malformed(line, f"the line above is line {self.lines} of the script and not {at}")
        self.status, self.waits = 65, None
        said = {"error": name, "line": at, "number": SCRIPT_FAULTS[name]}
        if detail is not None:
            said["detail"] = detail
        self.answers.append(Answer(line, self.about or "", [compact(said)]))

    def refusal(self, line, rest):
        """A fault of the script, or of a request."""
        match = SCRIPT_FAULT.fullmatch(rest)
        if match:
            return self.fault(line, match[1], match[2], int(match[3]))
        name, _, path = rest.partition(" ")
        if name not in REQUEST_FAULTS:
            raise Malformed(line, f"no fault of requests: {name}")
        if path.startswith("["):
            path = listed(line, path, str)
        elif " " in path:
            raise Malformed(line, f"no path of facets: {path}")
        else:
            path = path.split("/") if path else []
        said = {"error": name, "facet": path, "number": REQUEST_FAULTS[name], "session": self.session}
        return self.answer(line, compact(said))

    def reply(self, line, facets):
        if self.generations is None:
            raise Malformed(line, "no generations are said")
        try:
            is_compact = compact(json.loads(facets)) == facets
        except ValueError as error:
            raise Malformed(line, f"no JSON: {error}") from error
        if not is_compact:
            raise Malformed(line, "not as it is written: members in the order of their bytes, no spaces between them")
        if 0 < len(self.facets) < len(self.generations):
            self.facets.append(facets)
            self.answers[-1].texts = [self.reply_line(*pair) for pair in zip(self.facets, self.generations)]
        else:
            self.answer(line, *(self.reply_line(facets, numbers) for numbers in self.generations))
            self.facets = [facets]

    def reply_line(self, facets, numbers):
        return '{"facets":%s,"generations":%s,"session":%s}' % (facets, compact(numbers), compact(self.session))

    def add(self, line, rest):
        shard, _, members = rest.partition(" ")
        if not shard.isdigit():
            raise Malformed(line, "no shard behind add")
        self.adds += 1
        self.say(line, '{"add":{"doc":{"id":"%d"%s},"shard":%s}}' % (self.adds, "," + members if members else "", shard))

    def take(self, line, text):
        """One line of the paragraph."""
        if text.startswith("\\"):
            return self.say(line, text[1:])
        head, space, rest = text.partition(" ")
        if head == "add":
            return self.add(line, rest)
        if text == "end":
            self.say(line, '{"commit":{}}')
            return self.say(line, '{"sync":{}}')
        if head in ("front", "row"):
            raise Malformed(line, "no blank line stands before it")
        if head[:1] not in tuple("?@=!>#"):
            return self.say(line, text)
        if len(head) > 1 or not space:
            raise Malformed(line, f"no line begins so; a line of the script has a backslash before it: {text[:60]}")
        if head == "@":
            self.settle()
            numbers, _, session = rest.partition(" ")
            self.generations, self.session = generations(line, numbers), session or "a"
            return None
        if head == ">":
            return self.answer(line, rest)
        takes = {"?": self.ask, "=": self.reply, "!": self.refusal}
        if head not in takes:
            raise Malformed(line, "a comment that is repeated")
        return takes[head](line, rest)

    def ask(self, line, request):
        self.say(line, '{"search":{"request":' + request + ',"session":"a"}}')

    def close(self):
        """The paragraph ends."""
        self.leave()
        if self.unanswered is not None and not self.status:
            raise Malformed(self.unanswered, "a search without its answer")
        if not self.script and not self.answers:
            raise Malformed(self.line, "nothing stands below it")
        wrong = None if self.status else phases.misstated(self)
        if wrong:
            raise Malformed(wrong.line, "not the generations that the phases of the script allow")

    def whole(self):
        """The script with the lines of the front."""
        return (bytes(self.front.script) if self.front else b"") + bytes(self.script)

    def written(self):
        """All that is written, line by line."""
        return (self.front.answers if self.front else []) + self.answers


def listed(line, text, kind):
    """A JSON array of texts or of whole numbers."""
    try:
        value = json.loads(text)
    except ValueError:
        value = None
    if not isinstance(value, list) or not all(type(item) is kind for item in value):
        raise Malformed(line, f"no JSON array as it is wanted here: {text}")
    return value


def generations(line, text):
    """Each list of numbers that a list of numbers and ranges stands for, in ascending order."""
    if not GENERATIONS.fullmatch(text):
        raise Malformed(line, f"no generations: {text}")
    ends = [[int(end) for end in part.split("..")] for part in text[1:-1].split(",")]
    ranges = [range(part[0], part[-1] + 1) for part in ends]
    if not 0 < math.prod(map(len, ranges)) <= MOST_GENERATIONS:
        raise Malformed(line, f"no generations, or too many: {text}")
    return list(itertools.product(*ranges))


def begun(line, text, fronts, names):
    """A paragraph of its first line."""
    kind, _, name = text.partition(" ")
    if kind not in ("front", "row") or not name.strip():
        raise Malformed(line, "a paragraph begins with `front NAME` or `row NAME`")
    front = None
    if kind == "row" and " behind " in name:
        name, _, behind = name.rpartition(" behind ")
        front = fronts.get(behind)
        if front is None:
            raise Malformed(line, f"no front stands ahead of it with the name: {behind}")
    if name in names:
        raise Malformed(line, f"the name stands at line {names[name]} too")
    names[name] = line
    paragraph = Paragraph(line, name, front)
    if kind == "front":
        fronts[name] = paragraph
    return paragraph


def close_front(front):
    if front.status:
        raise Malformed(front.line, "a front whose script has a fault")
    if not front.has_feed:
        raise Malformed(front.line, f"a front that ends in {NO_FEED}")


def read(text):
    """The rows of a file's text, in their order."""
    rows, fronts, names, used = [], {}, {}, set()
    paragraph, is_open = None, True

    def end():
        if paragraph is None:
            return
        paragraph.close()
        if fronts.get(paragraph.name) is paragraph:
            close_front(paragraph)
        else:
            rows.append(paragraph)
            used.add(paragraph.front)

    lines = text.split("\n")
    if lines[-1]:
        raise Malformed(len(lines), "no line feed ends the last line")
    for number, line in enumerate(lines[:-1], 1):
        if line.startswith("# "):
            is_open = True
        elif not line:
            if not is_open:
                raise Malformed(number, "a blank line behind another, or at the beginning")
            end()
            paragraph, is_open = None, False
        elif not line.strip():
            raise Malformed(number, "white space alone; a line of the script has a backslash before it")
        elif paragraph is None:
            paragraph, is_open = begun(number, line, fronts, names), True
        else:
            for one in spread(line):
                paragraph.take(number, RUN.sub(run_of, one))
    if not is_open:
        raise Malformed(len(lines) - 1, "a blank line at the end")
    end()
    for front in fronts.values():
        if front not in used:
            raise Malformed(front.line, "no row stands behind this front")
    return rows
