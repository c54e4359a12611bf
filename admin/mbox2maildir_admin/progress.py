"""The progress of tasks: on a terminal in a line that is overwritten, elsewhere in one line per minute."""
import functools
import os
import sys
import time
import unicodedata
from collections.abc import Iterable, Mapping
from typing import NamedTuple, Optional

from .terminal import LINE, complain, named
from .units import WAITING, Say, counted

# how often the line of a terminal is overwritten, and how often a line is printed elsewhere, in seconds
PAUSE, MINUTE = 0.2, 60
# the width of a terminal that does not tell it, and the least part of a line that a long name gets
WIDTH, NAME = 80, 24
# what one does and, if that is known, the place in a text and the size of that text
Doing = tuple[str, Optional[int], Optional[int]]
UNITS = (("GB", 1e9), ("MB", 1e6), ("kB", 1e3))


def unit_of(size: int) -> tuple[str, float]:
    """The unit in which people read a size, and how many bytes it has."""
    return next((pair for pair in UNITS if size >= pair[1]), ("bytes", 1))


def how_far(place: int, size: int) -> str:
    """How far a place is in a text of a size."""
    unit, long = unit_of(size)
    form = "%.1f of %.1f %s" if long > 1 else "%d of %d %s"
    return form % (place / long, size / long, unit)


def length(size: int) -> str:
    """A number of bytes as people read it."""
    unit, long = unit_of(size)
    return "%.1f %s" % (size / long, unit) if long > 1 else counted(size, "byte")


def duration(seconds: float) -> str:
    """A number of seconds as people read it."""
    if seconds < 100:
        return "%d s" % seconds
    minutes = int(seconds / 60 + 0.5)
    return "%d min" % minutes if minutes < 100 else "%d h %d min" % divmod(minutes, 60)


def in_milliseconds(seconds: float) -> int:
    """A time in milliseconds."""
    return round(1000 * seconds)


def milliseconds_since(began: float) -> int:
    """How many milliseconds have passed since a time of the monotonic clock."""
    return in_milliseconds(time.monotonic() - began)


class Spent(NamedTuple):
    """How long a first pass took for a mailbox, and how long a last pass would take for it, in milliseconds."""

    took: int
    last: int


class Estimate:
    """How long a last pass would take now, by what a first pass has spent on each mailbox."""

    def __init__(self) -> None:
        # in milliseconds, for all mailboxes and for the one that takes longest
        self.took = self.last = self.longest = 0
        # whether anything was measured
        self.is_known = False

    def add(self, spent: Optional[Spent]) -> None:
        """Takes what was spent on a mailbox, if that was measured."""
        if spent:
            self.is_known = True
            self.took += spent.took
            self.last += spent.last
            self.longest = max(self.longest, spent.last)

    def seconds(self, passed: float, at_once: int) -> float:
        """The time in seconds, if so much passed until now, and so many mailboxes are at work at the same time. What
        the pass spent on no mailbox is spent again."""
        rest = max(0.0, passed - self.took / 1000 / at_once)
        return rest + max(self.longest, self.last / at_once) / 1000


def width_of(text: str) -> int:
    """How many columns of a terminal a text takes."""
    return sum(2 if unicodedata.east_asian_width(letter) in "WF" else 1 for letter in text)


def fitted(name: str, columns: int) -> str:
    """A name that fits into a number of columns: the end of a longer one."""
    if width_of(name) <= columns:
        return name
    while name and width_of(name) + 3 > columns:
        name = name[1:]
    return "..." + name


def cut(line: str, columns: int) -> str:
    """A line that fits into a number of columns: the beginning of a longer one."""
    while width_of(line) > columns:
        line = line[:-1]
    return line


def width_of_terminal() -> int:
    """How many columns the terminal has on which the line stands."""
    try:
        return os.get_terminal_size(sys.stderr.fileno()).columns or WIDTH
    except OSError:
        return WIDTH


class Actor(NamedTuple):
    """The mailbox or user that is at work, how its line starts, and which step it is at."""

    who: str
    start: str = ""
    step: str = ""


class Pace:
    """Where and when something that is being done began, and the place that was told last."""

    def __init__(self, doing: str, place: int, now: float) -> None:
        self.doing, self.place, self.time, self.last = doing, place, now, 0

    def figures(self, place: int, size: int, now: float) -> list[str]:
        """What is known of the progress, the most important first: percent, the time that is left, and the
        rate."""
        figures = ["%d %%" % (100 * place // size)] if size else []
        done, seconds = place - self.place, now - self.time
        if done > 0 and seconds >= 1:
            rate = done / seconds
            figures += ["%s left" % duration((size - place) / rate), "%.1f MB/s" % (rate / 1e6)]
        return figures


def composed(actor: Actor, doing: str, more: Iterable[str], columns: int) -> str:
    """A line that fits into a number of columns, with as many of `more` as leave room for a name. A line that
    is wider than the terminal could not be overwritten."""
    end = ": %s" % doing
    for one in more:
        if width_of(actor.start + end) + min(width_of(actor.who), NAME) + len(one) + 2 > columns:
            break
        end += ", " + one
    return cut(actor.start + fitted(actor.who, columns - width_of(actor.start) - width_of(end)) + end, columns)


class Progress:
    """Says how far tasks are."""

    def __init__(self) -> None:
        self.is_terminal, self.next_time = sys.stderr.isatty(), 0.0
        self.next_minute = time.monotonic() + MINUTE
        # by the name of what is at work
        self.paces: dict[str, Pace] = {}

    def end(self, who: str) -> None:
        """Forgets what is no longer at work."""
        self.paces.pop(who, None)

    def say(self, actor: Actor, doing: str, place: Optional[int] = None, size: Optional[int] = None) -> None:
        """Says how far one is."""
        now = time.monotonic()
        pace = self.paces.get(actor.who)
        if pace is None or pace.doing != doing or place is not None and place < pace.last:
            pace = self.paces[actor.who] = Pace(doing, place or 0, now)
        pace.last = place or 0
        if now < (self.next_time if self.is_terminal else self.next_minute):
            return
        figures = [actor.step] if actor.step else []
        # a child that belongs to a user may say any two numbers
        if place is not None and size is not None and place <= size:
            doing += " " + how_far(place, size)
            figures = pace.figures(place, size, now) + figures
        if self.is_terminal:
            self.next_time = now + PAUSE
            LINE.rewrite(composed(actor, doing, figures, width_of_terminal() - 1))
        elif not doing.startswith(WAITING):
            self.next_minute = now + MINUTE
            complain("%s%s: %s" % (actor.start, actor.who, ", ".join([doing, *figures])))


class Beat:
    """Passes on the progress of a task now and then: a loop over files says more than anybody reads."""

    def __init__(self, say: Say) -> None:
        self.say, self.next_time, self.step = say, 0.0, ""

    def __call__(self, doing: str, place: Optional[int] = None, size: Optional[int] = None) -> None:
        now = time.monotonic()
        # each step begins with a word of its own, which is said at once
        if now >= self.next_time or not doing.startswith(self.step):
            self.next_time, self.step = now + PAUSE / 2, doing.split(" ", 1)[0]
            self.say(doing, place, size)


def together(at_work: Mapping[str, Doing], task: str) -> tuple[str, str, Optional[int], Optional[int]]:
    """The progress of all that are at work at the same time: how many they are, what they do, which is their
    task unless all do the same, and the sums of what is known."""
    words = {doing.split(" ", 1)[0] for doing, _, _ in at_work.values()}
    known = [(place, size) for _, place, size in at_work.values() if place is not None and size is not None]
    places, sizes = (sum(numbers) for numbers in zip((0, 0), *known))
    doing = words.pop() if len(words) == 1 else task
    return "%d at work" % len(at_work), doing, places if known else None, sizes if known else None


@functools.lru_cache(maxsize=None)
def of_this_run() -> Progress:
    """The progress of a command that does one file after the other."""
    return Progress()


def say_of(path: bytes) -> Say:
    """The function that takes the progress of a file."""
    return Beat(functools.partial(of_this_run().say, Actor(named(path))))
