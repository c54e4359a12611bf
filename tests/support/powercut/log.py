"""The log of a disk, and the disks that a power cut may have left of it."""
import os
import random
import struct
from collections.abc import Iterator, Sequence
from typing import NamedTuple, Optional

from tests.support.powercut.devices import make_hole

# as cutdisk.c writes it: a letter, an offset, a length
HEAD = struct.Struct("<c7xQQ")
WRITE, ZEROS, FLUSH, MARK = "W", "Z", "F", "M"
SECTOR, PAGE = 512, 4096
# what the workload writes into the log when it begins
START = "start"
TORN, TORN_SECTORS, ONE_MISSING = "torn", "torn sectors", "one missing"
# for the writes since the last flush, how likely each is kept
SHARES = {"random": 0.5, "few": 0.15, "most": 0.85}
AFTER_MARKS = ("none", "all", "random", ONE_MISSING)
AFTER_WRITES = ("all", "none", TORN, TORN_SECTORS, "random", ONE_MISSING)
# states in which the most may be lost, or kept in another order
BEFORE_FLUSHES = ("none", "random", "random", "few", "most", ONE_MISSING)

# a first and a last byte
Part = tuple[int, int]


class Entry(NamedTuple):
    """A write, zeros, a flush or a mark: the place on the disk, and the place of its bytes in the log."""

    letter: str
    offset: int
    length: int
    at: int


class State(NamedTuple):
    """A disk after a cut at a point of the log: what is left of the writes since the last flush that ended before. If
    the last write is torn, parts of it are left."""

    kind: str
    point: int
    flush: int
    kept: tuple[int, ...] = ()
    torn: Optional[tuple[Part, ...]] = None


class Log:
    """The entries of a log."""

    def __init__(self, path: str, before: Sequence[str] = ()) -> None:
        """Takes the log at a path. `before` has the marks of what was done on the disk before."""
        self.entries, self.before = [], [*before]  # type: list[Entry], list[str]
        with open(path, "rb") as file:
            self.bytes = file.read()
        at = 0
        while at < len(self.bytes):
            letter, offset, length = HEAD.unpack_from(self.bytes, at)
            at += HEAD.size
            self.entries.append(Entry(letter.decode(), offset, length, at))
            at += length if letter.decode() in (WRITE, MARK) else 0
        marks = (place for place, entry in enumerate(self.entries) if entry.letter == MARK)
        self.start = next(place for place in marks if self.data(self.entries[place]) == START.encode())

    def data(self, entry: Entry) -> bytes:
        """The bytes of a write or a mark."""
        return self.bytes[entry.at : entry.at + entry.length]

    def marks(self, point: int) -> list[str]:
        """The lines of the marks up to a point."""
        since = self.entries[self.start + 1 : point]
        text = "".join(self.data(entry).decode() for entry in since if entry.letter == MARK)
        return self.before + text.splitlines()

    def count(self, letter: str) -> int:
        """How many entries with a letter there are since the start."""
        return sum(entry.letter == letter for entry in self.entries[self.start :])

    def apply(self, file: int, place: int, parts: Optional[Sequence[Part]] = None) -> None:
        """Makes a write in an image, or parts of it."""
        entry = self.entries[place]
        for first, last in [(0, entry.length)] if parts is None else parts:
            if entry.letter == WRITE:
                os.pwrite(file, self.bytes[entry.at + first : entry.at + last], entry.offset + first)
            elif entry.letter == ZEROS:
                make_hole(file, entry.offset + first, last - first)

    def is_write(self, place: int) -> bool:
        """Whether an entry changes the disk."""
        return self.entries[place].letter in (WRITE, ZEROS)

    def at_start(self) -> State:
        """The disk as the workload found it."""
        return State("none", self.start, self.start)

    def states(self, budget: int, seed: int) -> list[State]:
        """As many disks that a cut may leave, in the order of their flushes: those just after marks, and some of the
        others."""
        chance = random.Random(seed)
        found = {}  # type: dict[object, State]
        flushes = self.last_flushes()
        for kind, point in self.points(chance):
            if len(found) >= budget:
                break
            state = self.state(kind, point, flushes[point], chance)
            if state:
                found.setdefault((state.flush, state.kept, state.torn), state)
        return sorted(found.values(), key=lambda state: state.flush)

    def last_flushes(self) -> list[int]:
        """What was flushed at each point. The start comes after a sync, which without a journal does not end with a
        flush."""
        flushes, last = [], self.start
        for place, entry in enumerate(self.entries):
            flushes.append(last)
            if entry.letter == FLUSH and place > self.start:
                last = place + 1
        return [*flushes, last]

    def points(self, chance: random.Random) -> Iterator[tuple[str, int]]:
        """The kinds of states and their points: those after marks first, the others in a random order."""
        since = range(self.start, len(self.entries))
        marks = [place + 1 for place in since if self.entries[place].letter == MARK]
        writes = [place + 1 for place in since if self.is_write(place)]
        ends = [place for place in since if self.entries[place].letter == FLUSH] + [len(self.entries)]
        yield from ((kind, point) for point in marks for kind in AFTER_MARKS)
        pool = [(kind, point) for point in writes for kind in AFTER_WRITES]
        pool += [(kind, point) for point in ends for kind in BEFORE_FLUSHES]
        chance.shuffle(pool)
        yield from pool

    def state(self, kind: str, point: int, flush: int, chance: random.Random) -> Optional[State]:
        """A state of a kind; None if there is none."""
        pending = [place for place in range(flush, point) if self.is_write(place)]
        if kind == "none":
            return State(kind, point, flush)
        if kind == "all":
            return State(kind, point, flush, tuple(pending))
        if not pending:
            return None
        if kind == ONE_MISSING:
            missing = chance.choice(pending)
            return State(kind, point, flush, tuple(place for place in pending if place != missing))
        if kind in (TORN, TORN_SECTORS):
            entry, unit = self.entries[pending[-1]], PAGE if kind == TORN else SECTOR
            if entry.letter != WRITE or entry.length <= unit:
                return None
            parts = tuple((at, min(at + unit, entry.length)) for at in range(0, entry.length, unit))
            torn = tuple(part for part in parts if chance.random() < 0.5)
            return State(kind, point, flush, tuple(pending), torn)
        return State(kind, point, flush, tuple(place for place in pending if chance.random() < SHARES[kind]))
