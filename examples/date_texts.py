"""Dates as the guide tells them: what a text says, how it is printed, and the gaps of a range. All of it goes by the calendar of
Python, whose years are those of dates, from 1 to 9999."""
import calendar
import datetime
import re

TEXT = re.compile(r"(\d{4})-(\d\d)-(\d\d)T(\d\d):(\d\d):(\d\d)(?:\.(\d{1,9}))?Z", re.ASCII)
GAP = re.compile(r"\+([1-9]\d{0,3})(YEAR|MONTH|DAY|HOUR|MINUTE|SECOND)S?", re.ASCII)
LAST_YEAR = 9999


def moment(text):
    """The moment that a text says, or nothing where it is no date. Digits behind the third of a fraction are dropped."""
    found = TEXT.fullmatch(text)
    if found is None:
        return None
    *parts, fraction = found.groups()
    thousandths = int((fraction or "").ljust(3, "0")[:3])
    try:
        return datetime.datetime(*map(int, parts), thousandths * 1000)
    except ValueError:
        return None


def printed(when):
    return f"{when.year:04}-{when.month:02}-{when.day:02}T{when:%H:%M:%S}.{when.microsecond // 1000:03}Z"


def later(when, gap):
    """The moment a gap later, or nothing where that is behind the last year. Behind months it is the same day, or the month's last."""
    number, unit = GAP.fullmatch(gap).groups()
    number = int(number)
    if unit in ("YEAR", "MONTH"):
        return months_later(when, number * 12 if unit == "YEAR" else number)
    try:
        return when + datetime.timedelta(**{unit.lower() + "s": number})
    except OverflowError:
        return None


def months_later(when, number):
    year, month = divmod(when.year * 12 + when.month - 1 + number, 12)
    if year > LAST_YEAR:
        return None
    last = calendar.monthrange(year, month + 1)[1]
    return when.replace(year=year, month=month + 1, day=min(when.day, last))


def gaps(start, end, gap):
    """The low end and the high end of each gap, as pairs. Each low end but the first is the one before it and a gap."""
    low = start
    while low is not None and low < end:
        high = later(low, gap)
        yield low, high
        low = high
