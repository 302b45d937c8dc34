"""Asks the library for the seconds of each day from 0000-01-01 to 9999-12-31, of each second of two days, and of dates and times
that do not exist, and compares them with the calendar of Python, which has the years from 1. A year is one check.

The year 0 is a leap year of 366 days before 0001-01-01.
"""

import datetime
import itertools
import subprocess

import pytest

SECONDS = 86_400
EPOCH = datetime.date(1970, 1, 1).toordinal()
FIRST = 1 - 366  # 0000-01-01
AFTER_LEAP_YEAR = datetime.date(5, 1, 1).toordinal()  # the months of the year 4 are those of the year 0


def day_of(ordinal):
    """Returns a day as YYYYMMDD; 1 is 0001-01-01."""
    if ordinal > 0:
        return datetime.date.fromordinal(ordinal).isoformat().replace("-", "")
    return "0000" + day_of(ordinal + AFTER_LEAP_YEAR - 1)[4:]


def time_of(second):
    return f"{second // 3600:02}{second // 60 % 60:02}{second % 60:02}"


TIMES = [time_of(second) for second in range(SECONDS)]


def existing():
    """Yields each day, at a second that changes from day to day, and each second of two days, with what is to be told."""
    for ordinal in range(FIRST, datetime.date.max.toordinal() + 1):
        second = ordinal * 7919 % SECONDS
        digits = day_of(ordinal) + TIMES[second]
        yield f"{digits}Z", f"{(ordinal - EPOCH) * SECONDS + second} {digits} "
    for ordinal in (FIRST, datetime.date(2024, 2, 29).toordinal()):
        day = day_of(ordinal)
        for second, time in enumerate(TIMES):
            yield f"{day}{time}.25Z", f"{(ordinal - EPOCH) * SECONDS + second} {day}{time} 25"


def missing():
    """Yields what looks like a day of the first 400 years or a second, and is none."""
    days = {day_of(ordinal) for ordinal in range(FIRST, datetime.date(400, 1, 1).toordinal())}
    for year, month, day in itertools.product(range(400), range(20), range(40)):
        if (date := f"{year:04}{month:02}{day:02}") not in days:
            yield f"{date}000000Z", "NoSuchDate"
    seconds = {*TIMES}
    for number in range(1_000_000):
        if (time := f"{number:06}") not in seconds:
            yield f"20240229{time}Z", "NoSuchTime"


@pytest.mark.built
def test_days(library, tally):
    """Counts each year of which all lines are told as they should be, and each of which not."""
    cases = [*existing(), *missing()]
    given = "\n".join(text for text, _ in cases)
    told = subprocess.run([library, "times"], input=given, stdout=subprocess.PIPE, stderr=subprocess.DEVNULL, text=True).stdout
    lines = told.split("\n")[:-1]
    compared = itertools.zip_longest(cases, lines[: len(cases)])
    wrong = {text[:4]: (text, wanted, came) for (text, wanted), came in compared if wanted != came}
    for year in {text[:4]: None for text, _ in cases}:
        tally.count(year, wrong.get(year) and "a text, what was wanted, what came: {}, {}, {}".format(*wrong[year]))
    if len(lines) > len(cases):
        tally.count("more lines", f"{lines[len(cases)]!r}")
