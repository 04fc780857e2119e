"""What the lines of a script are, read by Python: which are JSON and have one of the forms, and which search. Whether a schema, a
document or a shard is at fault is not looked at."""
import itertools
import json
import math
import re

BLANK = b" \t\r"
MOST_NESTED = 127
MOST_BYTES_OF_SESSION = 64
TEXT = re.compile(r'"(?:[^"\\]|\\.)*"')
# A pair of surrogates, a half of one, any other escape.
ESCAPE = re.compile(r"\\u[dD][89abAB]..\\u[dD][c-fC-F]..|(\\u[dD][89a-fA-F])|\\.")
# The members that the value inside a line has to have, and those that it may have.
FORMS = {
    "add": ({"doc"}, {"shard"}),
    "delete": ({"id"}, {"shard"}),
    "commit": (set(), {"shard"}),
    "sync": (set(), set()),
    "search": ({"request"}, {"session"}),
}
# The faults that are known here, and the lines that each of the others may be told of. The limits on bytes, documents, commits and
# phases are too large for these scripts.
KNOWN = ["not-json", "no-schema", "unknown-line"]
TOLD_OF = {
    "bad-schema": ["schema"],
    "bad-shard": ["add", "delete", "commit"],
    "bad-document": ["add"],
    "field-total": ["add"],
    "too-many-sessions": ["search"],
}


def number(text):
    value = float(text)
    if math.isinf(value):
        raise ValueError("a number that is too large")
    return value if re.search("[.eE]|^-0$", text) else int(text)


def refuse(text):
    raise ValueError(f"{text} is no JSON")


def is_too_deep(text):
    steps = ((sign in "[{") - (sign in "]}") for sign in TEXT.sub("", text))
    return max(itertools.accumulate(steps), default=0) > MOST_NESTED


def value_of(line):
    """The value of a line; ValueError where it is not JSON, not UTF-8, nested too deep, or has a number that is too large."""
    text = line.decode("utf-8")
    if is_too_deep(text) or any(escape[1] for escape in ESCAPE.finditer(text)):
        raise ValueError("nested too deep, or half of a pair of surrogates")
    return json.loads(text, parse_int=number, parse_float=number, parse_constant=refuse)


def is_session(value):
    return isinstance(value, str) and 1 <= len(value.encode("utf-8")) <= MOST_BYTES_OF_SESSION


def is_id(value):
    """Whether a line may delete this: a text, or a whole number of 64 bits."""
    return isinstance(value, str) or type(value) is int and -2 ** 63 <= value < 2 ** 63


def has_form(value, is_first):
    """Whether this is the schema, at first, or else a line of another form."""
    if not isinstance(value, dict) or len(value) != 1:
        return False
    (name, inside), = value.items()
    if is_first or name not in FORMS:
        return is_first and name == "schema"
    needed, others = FORMS[name]
    if not isinstance(inside, dict) or not needed <= set(inside) <= needed | others:
        return False
    return is_session(inside.get("session", "main")) and (name != "delete" or is_id(inside["id"]))


class Script:
    """A script: by its number each line that has a form, up to the first that has none, and the number and the name of the fault
    of that one, None where all have one."""

    def __init__(self, text):
        self.text, self.lines, self.fault = text, {}, None
        for at, line in enumerate(text.split(b"\n"), 1):
            if line.strip(BLANK):
                self.take(at, line)
            if self.fault:
                return
        if not self.lines:
            self.fault = 0, "no-schema"

    def take(self, at, line):
        try:
            value = value_of(line)
        except ValueError:
            self.fault = at, "not-json"
            return
        if has_form(value, not self.lines):
            self.lines[at] = value
        else:
            self.fault = at, "unknown-line" if self.lines else "no-schema"

    def sessions(self):
        """The session of each search."""
        return [line["search"].get("session", "main") for line in self.lines.values() if "search" in line]

    def may_tell(self, at, name):
        """Whether the fault of the script may be one of this name in the line of this number."""
        if name in KNOWN:
            return (at, name) == self.fault
        return any(form in self.lines.get(at, {}) for form in TOLD_OF.get(name, []))
