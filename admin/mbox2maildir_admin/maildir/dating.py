"""Gives converted files the dates of their From_ lines."""
import array
import contextlib
import enum
import functools
import os
from collections.abc import Iterator
from typing import Optional

from ..mbox.dates import seconds_of_header
from ..mbox.fields import Header
from ..mbox.inventory import NO_DATE, Inventory
from ..mbox.mailbox import Mailbox
from ..remarks import Remark, Says
from ..terminal import named
from ..units import Place
from .files import digest_of, listings_of

# the dates that each file system can hold
HELD = range(1 << 31)


class Dated(enum.IntEnum):
    """What became of the file of a message: there is none, it has its date, or the file system cannot hold its date."""

    NO_FILE = 0
    DONE = 1
    NOT_HELD = 2


class Dating:
    """The dates of a text's messages, and which messages have files with them. Dates are those of the From_ lines, or
    those of the headers if From_ lines have none."""

    def __init__(self, mailbox: Mailbox, inventory: Inventory, by_header: bool = False) -> None:
        """With `by_header` the dates are those of the headers if all From_ lines have the same date."""
        self.mailbox, self.inventory, self.dates = mailbox, inventory, inventory.dates[:]
        # the state of each message
        self.states = bytearray(self.messages)
        # the From_ line of the first message, if all have the same date
        self.one_date: Optional[bytes] = None
        if self.messages > 1 and self.dates[0] != NO_DATE and self.dates.count(self.dates[0]) == self.messages:
            self.one_date = self.from_line(Place(0))
        if by_header and self.one_date is not None:
            self.dates = array.array("q", [NO_DATE]) * self.messages
        # how many messages have the date of their header, since their From_ lines have none
        self.by_header = 0
        for place in map(Place, range(self.messages)):
            if self.dates[place] == NO_DATE:
                date = seconds_of_header(Header.at(mailbox, inventory.offset(place))[b"date"])
                if date is not None:
                    self.dates[place] = date
                    self.by_header += 1

    @property
    def messages(self) -> int:
        """How many messages there are."""
        return len(self.dates)

    @property
    def dated(self) -> int:
        """How many messages have files with their dates."""
        return self.states.count(Dated.DONE)

    def from_line(self, place: Place) -> bytes:
        """The From_ line of a message."""
        return self.mailbox.from_line_at(self.inventory.offset(place))

    def give(self, place: Place, number: int, state: os.stat_result) -> None:
        """Gives the file of a message, which is open and has this state, its date, if it has another one, as a new file
        has. If it cannot have its date, the old times stay."""
        date = self.dates[place]
        if date == NO_DATE:
            return
        is_held = True
        if state.st_mtime_ns != date * 10**9:
            os.utime(number, (date, date))
            is_held = date in HELD or os.fstat(number).st_mtime_ns == date * 10**9
            if not is_held:
                os.utime(number, ns=(state.st_atime_ns, state.st_mtime_ns))
        self.states[place] = Dated.DONE if is_held else Dated.NOT_HELD

    def give_all(self, maildir: bytes) -> None:
        """Gives the files of a Maildir the dates of their messages."""
        table, known = self.inventory.table, self.messages - self.dates.count(NO_DATE)
        for paths in listings_of(maildir):
            for number, (name, path) in enumerate(paths, 1):
                self.mailbox.say("dating file %d" % number)
                place = table.place(name)
                if place is not None:
                    self.give_at(path, place)
            if self.messages - self.states.count(Dated.NO_FILE) == known:
                break

    def give_at(self, path: bytes, place: Place) -> None:
        """Gives the file of a message its date, unless that was renamed meanwhile."""
        with contextlib.suppress(FileNotFoundError):
            # no size is asked for, so the file is opened, and not hashed
            digest_of(path, (), functools.partial(self.give, place))

    def missing(self) -> list[Place]:
        """The messages with a date and without a file."""
        pairs = enumerate(zip(self.dates, self.states))
        return [Place(place) for place, (date, state) in pairs if date != NO_DATE and state == Dated.NO_FILE]

    def remarks(self) -> list[Remark]:
        """What is to be said of messages whose From_ line has no date."""
        without = sum(date == NO_DATE or state == Dated.NOT_HELD for date, state in zip(self.dates, self.states))
        return Says.DATED_BY_HEADER.of_any(self.by_header) + Says.WITHOUT_DATE.of_any(without)

    def not_dated(self, maildir: bytes) -> Iterator[str]:
        """What is said of messages that have no file with their date."""
        for place in map(Place, range(self.messages)):
            state = self.states[place]
            if state == Dated.DONE:
                continue
            if self.dates[place] == NO_DATE:
                why = "could not read a date from its From_ line or its header: %s" % named(
                    self.from_line(place).rstrip()
                )
            elif state == Dated.NOT_HELD:
                why = "the file system cannot store its date"
            else:
                why = "not found in %s" % named(maildir)
            yield "message %d (line %d): %s" % (place + 1, self.inventory.lines[place], why)
