"""Dates in the forms that From_ lines and `Date` headers have."""
import calendar
import datetime
import functools
import re
import time
from collections.abc import Sequence
from typing import Optional

from ..patterns import pattern
from .files import LONG

MONTHS = {name: number for number, name in enumerate("jan feb mar apr may jun jul aug sep oct nov dec".split(), 1)}
WEEKDAY = r"(?i:mon|tue|wed|thu|fri|sat|sun)"
# the names of zones with their hours east of Greenwich; one that several zones have stands for what mail mostly means
NAMED_ZONES = (
    "HST -10, AKST -9, AKDT -8, PST -8, PDT -7, MST -7, MDT -6, CST -6, CDT -5, EST -5, EDT -4, AST -4, ADT -3, "
    "NST -3.5, NDT -2.5, Z 0, UT 0, UTC 0, GMT 0, WET 0, WEST 1, BST 1, CET 1, MET 1, MEZ 1, CEST 2, MEST 2, MESZ 2, "
    "EET 2, EEST 3, MSK 3, MSD 4, SGT 8, HKT 8, AWST 8, JST 9, KST 9, ACST 9.5, ACDT 10.5, AEST 10, AEDT 11, NZST 12, "
    "NZDT 13"
)
ZONES = {name: float(hours) for name, hours in map(str.split, NAMED_ZONES.split(", "))}
MONTH = "(?P<{0}month>(?i:%s))" % "|".join(MONTHS)
CLOCK = r"(?P<{0}hour>[01]?\d|2[0-3]):(?P<{0}minute>[0-5]\d)(?::(?P<{0}second>[0-5]\d|60))?"
ZONE = r"(?:\s+(?P<{0}zone>(?:GMT|UTC)?[-+]\d{{4}}|[A-Z]+(?:\s+DST)?)\b)?"
# as in a From_ line, and as in a header
DAY, YEAR, LAST_ZONE = r"(?P<{0}day>\d\d?)", r"(?P<{0}year>(?:19|20)\d\d%s)", ZONE.replace("zone", "last_zone")
ASCTIME = r"%s\s+%s\s+%s%s\s+%s\b%s" % (MONTH, DAY, CLOCK, ZONE, YEAR % "", LAST_ZONE)
HEADER = r"%s\s+%s\s+%s\s+%s%s" % (DAY, MONTH, YEAR % r"|\d\d", CLOCK, ZONE)
DATE = "(?:%s|%s)" % (ASCTIME.format(""), HEADER.format("header_"))
HAS_DATE = pattern(r"\b" + DATE)
ENDS_DATED = pattern(r"\s" + WEEKDAY + r",?\s+" + DATE + r"(?:\s+\([^()]*\)|\s+remote\s+from\s+\S+)?\s*\Z")
# the end of a line that is dated like most From_ lines, and the number of its letters
PLAIN = pattern(r"\s%s %s [ 0-3]\d (?:[01]\d|2[0-3]):[0-5]\d:[0-5]\d (?:19|20)\d\d\Z" % (WEEKDAY, MONTH.format("")))
PLAIN_LENGTH = 25
# a date of ISO 8601 at the end of a line
ISO = pattern(
    r"\s(?P<year>(?:19|20)\d\d)-(?P<month>0[1-9]|1[0-2])-(?P<day>0[1-9]|[12]\d|3[01])[T ](?P<hour>[01]\d|2[0-3])"
    r":(?P<minute>[0-5]\d)(?::(?P<second>[0-5]\d|60)(?:[.,]\d+)?)?\s?(?P<zone>Z|UTC|GMT|[-+]\d\d:?\d\d|)\s*\Z"
)
EAST = pattern(r"(?P<sign>[-+])(?P<hours>[01]\d)(?P<minutes>[0-5]\d)\Z")
ZONE_NAME = pattern(r"(?P<name>[A-Z]*)(?P<summer>\s+DST)?\Z")
PARTS = ("year", "month", "day", "hour", "minute", "second")
# the groups of these and of the zone in each of the two forms
FORMS = [[form + part for part in (*PARTS, "zone")] for form in ("", "header_")]
# what programs write if they know no date: midnight of this day
UNKNOWN = (1970, 1, 1, 0, 0, 0)
# from this time on a date in another form counts as none: January 1, 2100
TOO_LATE = 4102444800


def is_dated(line: bytes) -> bool:
    """Whether a line that begins with `From ` ends in a weekday, a date and a time, as a From_ line does."""
    text = line.decode("latin-1") if len(line) <= LONG else ""
    return PLAIN.match(text[-PLAIN_LENGTH:]) is not None or ENDS_DATED.search(text) is not None


def ends_in_iso(line: bytes) -> Optional[re.Match[str]]:
    """The date of ISO 8601 at the end of a line."""
    return ISO.search(line[-LONG:].decode("latin-1"))


def date_in(text: bytes) -> Optional[Sequence[str]]:
    """The parts of the first date in a text, and its zone, if it has one."""
    found = HAS_DATE.search(text.decode("latin-1"))
    if found:
        *parts, zone = found.group(*FORMS[found["month"] is None])
        return (*parts, zone or found["last_zone"])
    found = ends_in_iso(text)
    if not found:
        return None
    year, month, *rest = found.group(*PARTS)
    return (year, list(MONTHS)[int(month) - 1], *rest, found["zone"].replace(":", ""))


def seconds_of(text: bytes) -> Optional[int]:
    """The date in a text, in seconds since 1970. Without a zone, it is in that of TZ or of this machine."""
    found = date_in(text)
    if not found:
        return None
    year, month, day, hour, minute, second, zone = found
    years = int(year) + (0 if len(year) > 2 else 2000 if year < "50" else 1900)
    moment = (years, MONTHS[month.lower()], int(day), int(hour), int(minute), int(second or 0))
    east = east_of(zone) if zone else 0
    if moment == UNKNOWN or east is None:
        return None
    try:
        # raises ValueError if there is no such day
        datetime.date(*moment[:3])
        seconds = calendar.timegm((*moment, 0, 0, 0)) - east if zone else int(time.mktime((*moment, 0, 0, -1)))
    except (ValueError, OverflowError):
        return None
    return seconds or None


def seconds_of_plain(day: bytes, hour: bytes, minute: bytes, second: bytes, year: bytes) -> Optional[int]:
    """The same of a date in the parts that most From_ lines have; None if it may be none, or the clock is changed on
    that day."""
    midnight = midnight_by(time.tzname, day, year)
    return midnight and midnight + 3600 * int(hour) + 60 * int(minute) + int(second)


@functools.lru_cache(maxsize=1 << 13)
def midnight_by(_: tuple[str, str], day: bytes, year: bytes) -> Optional[int]:
    """When such a day after 1970 begins in the zone of these names; None if the clock is changed on that day."""
    lines = [b" %s %s %s" % (day, clock, year) for clock in (b"00:00:00", b"23:59:59")]
    first, last = map(seconds_of, lines)
    return first if is_dated(lines[0]) and first and first > 0 and last == first + 86399 else None


def seconds_of_header(text: bytes) -> Optional[int]:
    """The date in a `Date` header, in seconds since 1970. It may be in the forms of `seconds_of`, or in another form
    that Python reads; in that one a date without a zone is in UTC. It may be anything, for strangers' mail, so a day
    that does not exist, or one before 1970 or after 2099, is no date."""
    seconds = seconds_of(text[:LONG])
    if seconds is not None:
        return seconds
    # hardly any date needs this module, and loading it takes a tenth of the time in which the companion starts
    from email.utils import parsedate_tz

    try:
        found = parsedate_tz(text[:LONG].decode("latin-1"))
        if found is None or found[:6] == UNKNOWN:
            return None
        datetime.datetime(*found[:5])
        seconds = calendar.timegm(found[:9]) - (found[9] or 0)
    except Exception:  # pylint: disable=broad-except
        return None
    return seconds if 0 < seconds < TOO_LATE else None


@functools.lru_cache(maxsize=256)
def east_of(zone: str) -> Optional[int]:
    """How many seconds a zone is east of Greenwich, if that is known."""
    numbers = EAST.search(zone)
    if numbers:
        return int(numbers["sign"] + "1") * (3600 * int(numbers["hours"]) + 60 * int(numbers["minutes"]))
    name = ZONE_NAME.match(zone) if zone[-1].isalpha() else None
    return int(3600 * (ZONES[name["name"]] + bool(name["summer"]))) if name and name["name"] in ZONES else None
