"""Changes of what stands in the JSON of a script: numbers, texts, names, members, values. A script may be broken already."""
import re

TOKEN = re.compile(rb'"(?:[^"\\\n]|\\[^\n])*"|-?[0-9][0-9.eE+-]*|[][{}]|true|false|null')
BEHIND_NAME = re.compile(rb"[ \t\r]*:")
NUMBERS = [b"0", b"-1", b"-0", b"0.5", b"1.0", b"1e2", b"01", b"65", b"1000001", b"9223372036854775807", b"9223372036854775808",
           b"-9223372036854775808", b"18446744073709551616", b"1e400", b"-1e400", b"1" * 400]
# Texts beside those of the lines: none, a NUL, half a pair of surrogates, a whole pair, a long one, a number, queries, dates, gaps.
TEXTS = [b'""', b'"\\u0000"', b'"\\ud83d"', b'"\\ud83d\\ude00"', b'"' + b"long " * 30 + b'"', b'"-07"', b'"*:*"', b'"-("',
         b'"{!tag=A}"', b'"unique(id)"',
         b'"1900-02-29T00:00:00Z"', b'"2024-02-29T23:59:59.9999Z"', b'"9999-12-31T23:59:59.999Z"', b'"+1SECOND"', b'"+9999YEARS"']
# What queries, tags, sorts and statistics are made of, as it stands in a text.
SIGNS = [b"+", b"-", b"!", b"(", b")", b":", b"^", b"[", b"]", b"{", b"}", b"~", b"*", b"?", b"/", b"#", b",", b" ", b"0", b"\\\\",
         b'\\"', b" AND ", b" OR ", b" NOT ", b" TO ", b" asc", b" desc"]
NAMES = [b'"count"', b'"val"', b'"numBuckets"', b'"_x_"', b'""', b'"id"', b'"_childDocuments_"', b'"\\u0073earch"']
# A value is put into so many arrays or objects; JSON may be nested 127 deep.
NESTED = [1, 2, 118, 119, 120, 121, 122, 123, 124, 125, 126, 127, 128, 5000]


class Tokens:
    """The texts, numbers, brackets and words of a script, and which of them are names of members."""

    def __init__(self, script):
        self.script, self.all = script, list(TOKEN.finditer(script))
        self.names = [at for at, token in enumerate(self.all) if self.is_name(token)]

    def is_name(self, token):
        return token[0].startswith(b'"') and BEHIND_NAME.match(self.script, token.end()) is not None

    def spans(self, begins):
        """Where the tokens begin and end that are no names and begin with one of some bytes."""
        names = set(self.names)
        return [token.span() for at, token in enumerate(self.all) if at not in names and token[0][:1] in begins]

    def span_of_value(self, name):
        """Where the value of a member begins and ends, by the number of its name; the end of the script where nothing ends it."""
        depth = 0
        for token in self.all[name + 1:]:
            depth += (token[0] in b"[{") - (token[0] in b"]}")
            if depth <= 0:
                return self.all[name + 1].start(), token.end()
        return len(self.script), len(self.script)

    def values(self):
        """The spans of the values of all members."""
        return [self.span_of_value(name) for name in self.names]


def exchanged(script, span, piece):
    return script[:span[0]] + piece + script[span[1]:]


def of(script, spans):
    return [script[start:end] for start, end in spans]


def number(chance, script, _):
    spans = Tokens(script).spans(b"-0123456789")
    return exchanged(script, chance.one(spans), chance.one(NUMBERS)) if spans else script


def text(chance, script, other):
    """A text becomes one of another line, of this script or the other, or a text that is hard."""
    spans = Tokens(script).spans(b'"')
    others = of(script, spans) if chance.happens(60) else of(other, Tokens(other).spans(b'"'))
    return exchanged(script, chance.one(spans), chance.one(TEXTS if chance.happens(25) else others)) if spans and others else script


def sign(chance, script, _):
    """A sign stands in a text, in place of a byte or before it; in a query or a statistic where there is one."""
    spans = [(start, end) for start, end in Tokens(script).spans(b'"') if end - start > 2]
    spoken = [(start, end) for start, end in spans if re.search(rb"[:(]", script[start:end])]
    if not spans:
        return script
    start, end = chance.one(spoken or spans)
    at = start + 1 + chance.below(end - start - 2)
    return exchanged(script, (at, at + chance.below(2)), chance.one(SIGNS))


def name(chance, script, other):
    tokens, others = Tokens(script), Tokens(chance.one([script, other]))
    if not tokens.names or not others.names:
        return script
    names = NAMES if chance.happens(25) else [others.all[at][0] for at in others.names]
    return exchanged(script, tokens.all[chance.one(tokens.names)].span(), chance.one(names))


def double_member(chance, script, _):
    """A member stands twice; every second time the one has another member's value."""
    tokens = Tokens(script)
    if not tokens.names:
        return script
    at = chance.one(tokens.names)
    start, end = tokens.span_of_value(at)
    value = script[start:end] if chance.happens(50) else chance.one(of(script, tokens.values()))
    whole, twice = script[tokens.all[at].start():end], tokens.all[at][0] + b":" + value
    both = [whole, twice] if chance.happens(50) else [twice, whole]
    return exchanged(script, (tokens.all[at].start(), end), b",".join(both))


def value(chance, script, _):
    """A member has another member's value."""
    values = Tokens(script).values()
    return exchanged(script, chance.one(values), chance.one(of(script, values))) if values else script


def nest(chance, script, _):
    """A member's value stands in arrays, or in objects."""
    values = Tokens(script).values()
    if not values:
        return script
    span, depth = chance.one(values), chance.one(NESTED)
    front, rear = chance.one([(b"[", b"]"), (b'{"facet":', b"}")])
    return exchanged(script, span, front * depth + script[span[0]:span[1]] + rear * depth)


CHANGES = {
    "a number": number,
    "a text": text,
    "a sign in a text": sign,
    "a name": name,
    "a member doubled": double_member,
    "a value": value,
    "a value nested": nest,
}
