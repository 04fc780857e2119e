"""The lines of a file as text."""
import codecs
import itertools

from . import limits
from .faults import Fault, Place, Unreadable


def lines(path):
    """Each line with its number, from 1, and its line feed. A byte order mark in front of the file is left out."""
    try:
        with open(path, "rb") as file:
            for number in itertools.count(1):
                raw = file.readline(limits.SCRIPT_BYTES + 1)
                if not raw:
                    return
                yield number, text_of(path, number, raw)
    except OSError as error:
        raise Unreadable(f"{path}: {error.strerror}") from error


def text_of(path, number, raw):
    if len(raw) > limits.SCRIPT_BYTES:
        most = f"{limits.SCRIPT_BYTES:,}"
        raise Fault(Place(path, number, 1), f"the line has more than {most} bytes, which is more than a script may have")
    if number == 1 and raw.startswith(codecs.BOM_UTF8):
        raw = raw[len(codecs.BOM_UTF8):]
    try:
        return raw.decode("utf-8")
    except UnicodeDecodeError as error:
        before = raw[:error.start].decode("utf-8")
        raise Fault(Place(path, number, len(before) + 1), "the bytes here are not UTF-8") from error
