"""Minutes as dates: minute 0 is Thursday 1970-01-01 00:00, in whatever zone the job is given (docs/TIME.md)."""
import datetime
import re

from jobtool.wrong import Wrong

EPOCH = datetime.datetime(1970, 1, 1)
WEEKDAYS = ["mon", "tue", "wed", "thu", "fri", "sat", "sun"]
DAY = 1440


def minute_of(word):
    """The minute of a date like 1970-01-04T22:00."""
    if not re.fullmatch(r"[0-9]{4}-[0-9]{2}-[0-9]{2}T[0-9]{2}:[0-9]{2}", word, re.ASCII):
        raise Wrong("'%.40s' is no date like 1970-01-04T22:00" % word)
    try:
        at = datetime.datetime.strptime(word, "%Y-%m-%dT%H:%M")
    except ValueError:
        raise Wrong("there is no date and time %s" % word)
    minute = (at - EPOCH) // datetime.timedelta(minutes=1)
    if not 0 <= minute < 2**32:
        raise Wrong("%s lies outside the minutes that a job can hold" % word)
    return minute


def moment(minute):
    """The date and time of a minute, or None past the year 9999, which a file can name and no job is run with."""
    try:
        return EPOCH + datetime.timedelta(minutes=minute)
    except OverflowError:
        return None


def date_of(minute):
    """As 1970-01-04T22:00; the number itself where it has no date."""
    at = moment(minute)
    return at.strftime("%Y-%m-%dT%H:%M") if at else str(minute)


def weekday_of(minute):
    """As mon; by the rule alone, which needs no calendar."""
    return WEEKDAYS[(minute // DAY + 3) % 7]
