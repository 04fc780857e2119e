"""The types of fields, as they are set or as their values have them, and the values as the script is to have them."""
import re

from . import limits
from .dates import is_date
from .documents import Spelled
from .faults import Fault, Wrong
from .json_text import Members, Number, integer

TYPES = ("string", "strings", "plong", "plongs", "pdate", "pdates")


class Field:
    """What was seen of a field: how many values, how many of them numbers and how many dates, and where the first text, the
    first text that is no date, the first fraction and the first document with several values stood."""

    def __init__(self, set_type=None, is_given=False):
        # The type that it has, whatever its values, and whether it was given by whoever calls.
        self.set_type, self.is_given, self.values, self.numbers, self.dates = set_type, is_given, 0, 0, 0
        self.text, self.other, self.fraction, self.several = None, None, None, None

    def type(self):
        if self.set_type:
            return self.set_type
        kind = "string"
        if self.values and not self.text:
            kind = "plong"
        elif self.values and self.dates == self.values:
            kind = "pdate"
        return kind + "s" if self.several else kind


class Fields:
    def __init__(self, types):
        self.fields = {"id": Field("string"), **{name: Field(kind, True) for name, kind in types.items()}}

    def take_in(self, names):
        """Takes in fields that perhaps no document has."""
        for name in names:
            self.fields.setdefault(name, Field())

    def take(self, name, at, values, place):
        """The values that a document has in a field, each an integer or a text, and what was seen of them."""
        field = self.fields.setdefault(name, Field())
        taken = [value_for(field, name, one_at, value, place) for one_at, value in values]
        if len(taken) > 1:
            if field.set_type in ("string", "plong", "pdate"):
                raise Wrong(at, "a document has one id" if name == "id" else f"several values, and {name} is set to hold one")
            field.several = field.several or place(at)
        field.values += len(taken)
        return taken

    def types(self):
        """The type of each field; told is the first that no type holds."""
        for name, field in self.fields.items():
            if field.fraction and not field.text and not field.set_type:
                place, text = field.fraction
                raise Fault(place, no_fraction(name, text))
        return {name: field.type() for name, field in self.fields.items()}

    def why(self, name):
        """Why a field has its type, in words, where that is not plain."""
        field = self.fields[name]
        if field.set_type:
            return "as set" if field.is_given else ""
        if not field.values:
            return "no document has a value"
        told = []
        if field.several:
            told.append(f"several values in {at_line(field.several)}")
        if field.text and field.numbers:
            told.append(f"a text in {at_line(field.text)}")
        elif field.other and field.dates:
            told.append(f"a text that is no date in {at_line(field.other)}")
        return ", ".join(told)


def at_line(place):
    return f"{place.file}, line {place.line}"


def keeps(name):
    return f"--type {name}=string " + ("" if name == "id" else "(or strings) ") + "keeps its text"


def no_fraction(name, text):
    return f"{text} is no whole number, and no field holds another; {keeps(name)}"


def value_for(field, name, at, value, place):
    if isinstance(value, Members):
        raise Wrong(at, f"an object, and no field holds one; only _childDocuments_ has documents in it (field {name})")
    if isinstance(value, list):
        raise Wrong(at, f"an array in an array (field {name})")
    if field.set_type in ("plong", "plongs"):
        return integer_for(name, at, value)
    if field.set_type in ("pdate", "pdates"):
        return date_for(name, at, value)
    if isinstance(value, bool):
        if not field.is_given:
            raise Wrong(at, f"{spelled(value)} is neither a text nor a whole number; {keeps(name)}")
        return spelled(value)
    if isinstance(value, int):
        field.numbers += 1
        return str(value) if field.set_type else value
    return text_for(field, name, at, value, place)


def text_for(field, name, at, value, place):
    if isinstance(value, Number) and not field.is_given and not re.fullmatch("-?[0-9]+", value):
        raise Wrong(at, no_fraction(name, value))
    size = len(value.encode("utf-8"))
    if size > limits.TEXT_BYTES:
        raise Wrong(at, f"a text of {size:,} bytes, and one has at most {limits.TEXT_BYTES:,} (field {name})")
    if isinstance(value, Spelled):
        field.numbers += 1
        field.fraction = field.fraction or (place(at), str(value))
    else:
        field.text = field.text or place(at)
        if not field.set_type and is_date(value):
            field.dates += 1
        else:
            field.other = field.other or place(at)
    return str(value)


def integer_for(name, at, value):
    if isinstance(value, int) and not isinstance(value, bool):
        return value
    text = spelled(value)
    found = re.fullmatch("(-?)0*([0-9]+)", text)
    number = integer(found[1] + found[2]) if found else None
    if number is None:
        raise Wrong(at, f"{shown(text)} is no integer of 64 bits, as {name} is set to hold")
    return number


def date_for(name, at, value):
    text = spelled(value)
    if not is_date(text):
        raise Wrong(at, f"{shown(text)} is no date of the form YYYY-MM-DDThh:mm:ssZ, as {name} is set to hold; {keeps(name)}")
    return text


def spelled(value):
    """The text of a text, a number or a truth value."""
    return str(value).lower() if isinstance(value, bool) else str(value)


def shown(text):
    return repr(text if len(text) <= 40 else text[:40] + "..")
