"""Which texts are dates."""
import datetime
import re

TEXT = re.compile(r"(\d{4})-(\d\d)-(\d\d)T(\d\d):(\d\d):(\d\d)(?:\.\d{1,9})?Z", re.ASCII)


def is_date(text):
    """Whether the program takes a text for a date: it has the form, the calendar has the day, and a clock shows the time."""
    found = TEXT.fullmatch(text)
    if found is None:
        return False
    try:
        datetime.datetime(*map(int, found.groups()))
    except ValueError:
        return False
    return True
