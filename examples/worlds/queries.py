"""Query texts, each made together with the condition that it asks of a document, as the guide tells it."""
from counting import any_value, index_order
from worlds.documents import DATES, FIELDS, VALUES, held, spellings

SPECIAL = set('+-!():^[]"{}~*?\\/ \t\n')
FORBIDDEN = ("-", "!", "NOT ")
AND, OR = (" AND ", " && ", " "), (" ", " OR ", " || ")


def grouped(required, forbidden, optional):
    """What a group of clauses asks of a document."""
    def matches(document):
        if any(condition(document) for condition in forbidden):
            return False
        if required or not optional:
            return all(condition(document) for condition in required)
        return any(condition(document) for condition in optional)
    return matches


class Queries:
    """Writes query texts and keeps the conditions of all that it wrote."""

    def __init__(self, chance):
        self.chance = chance
        self.conditions = {
            "*:*": lambda document: True,
            "kind:p": lambda document: "p" in document["kind"],
            "-kind:c": lambda document: "c" not in document["kind"],
        }

    def text(self):
        if self.chance.happens(15):
            return "*:*"
        text, condition = self.group(2) if self.chance.happens(45) else self.named(0)
        self.conditions[text] = condition
        return text

    def wide(self):
        """A text that many documents match: a value that is frequent, or all but one value."""
        is_without = self.chance.happens(50)
        field = self.chance.one(["brand", "marks", "tags", "ns"] if is_without else ["kind", "marks", "sizes"])
        wanted = self.chance.one(VALUES[field])
        has = any_value(lambda value: value == wanted)(field)
        text = ("-" if is_without else "") + f"{field}:{self.spelled(wanted)}"
        self.conditions[text] = lambda document: has(document) != is_without
        return text

    def parents(self):
        """A text that finds parents above all."""
        return self.chance.one(["kind:p", "kind:p", "*:*", "-kind:c", None]) or self.text()

    def named(self, deeper):
        """A clause with a name, or one in parentheses."""
        if deeper and self.chance.happens(30):
            text, condition = self.group(deeper - 1)
            return f"({text})", condition
        field = self.chance.one(list(FIELDS))
        if deeper and self.chance.happens(25):
            text, condition = self.group(deeper - 1, field)
            return f"{field}:({text})", condition
        if self.chance.happens(5):
            return "*:*", lambda document: True
        text, condition = self.value(field, False)
        return f"{field}:{text}", condition

    def group(self, deeper, field=None):
        """Clauses with signs and operators; behind the name of a field most are values of it."""
        words, text, needs = self.chance.one([AND, OR]), "", {"required": [], "forbidden": [], "optional": []}
        between = ["", *(self.chance.one(words) for _ in range(self.chance.below(3))), ""]
        for before, behind in zip(between, between[1:]):
            sign = self.chance.one(["", "", "", "", "+", "-", "!", "NOT "])
            is_value = field and self.chance.happens(80)
            clause, condition = self.value(field, True) if is_value else self.named(deeper)
            beside = {before.strip(), behind.strip()}
            is_required = sign == "+" or beside & {"AND", "&&"}
            need = "forbidden" if sign in FORBIDDEN else "required" if is_required else "optional"
            needs[need].append(condition)
            text += before + sign + clause
        return text, grouped(**needs)

    def value(self, field, in_group):
        """What stands behind the name of a field: a value, a star, or a range."""
        if self.chance.happens(12):
            return "*", lambda document: bool(document[field])
        if self.chance.happens(30):
            return self.range(field)
        said = self.chance.one(VALUES[field])
        wanted = held(field, said)
        text = self.spelled(self.said(field, said))
        if in_group and text.startswith("-"):
            text = "\\" + text
        return text, any_value(lambda value: value == wanted)(field)

    def said(self, field, value):
        """A value of a field, a date in any of its spellings."""
        return self.chance.one([value, *spellings(value)]) if field in DATES and value is not None else value

    def spelled(self, value):
        if isinstance(value, int):
            return str(value)
        if value in ("", "AND") or self.chance.happens(30):
            return quoted(value)
        return "".join("\\" + letter if letter in SPECIAL else letter for letter in value)

    def range(self, field):
        opens, closes = self.chance.one("[{"), self.chance.one("]}")
        ends = [self.chance.one(VALUES[field] + [None, None]) for _ in range(2)]
        low, high = (None if one is None else held(field, one) for one in ends)

        def holds(value):
            at = index_order(value)
            above = low is None or index_order(low) < at or (opens == "[" and low == value)
            below = high is None or at < index_order(high) or (closes == "]" and high == value)
            return above and below
        texts = [end(self.said(field, one), field in DATES and self.chance.happens(50)) for one in ends]
        return f"{opens}{texts[0]} TO {texts[1]}{closes}", any_value(holds)(field)


def quoted(text):
    return '"' + text.replace("\\", "\\\\").replace('"', '\\"') + '"'


def end(value, is_bare):
    """An end of a range, without quotes where it may be bare."""
    if value is None:
        return "*"
    return quoted(value) if isinstance(value, str) and not is_bare and not value.isalnum() else str(value)
