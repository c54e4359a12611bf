"""How many mailboxes or users are at work at the same time, and in which order groups of mailboxes begin and their rows
are told."""
import os
import re
from collections.abc import Callable, Sequence
from typing import Any, Optional

from ..progress import length
from ..terminal import complain

# the places in a plan of the mailboxes that go into one folder: they follow one another
SameFolder = Sequence[int]
# on most disks more of them would wait for each other
MOST = 8
# how much memory a process may take, with the programs that it runs: enough for a mailbox of 500,000 messages
NEED = 256 << 20
AVAILABLE = re.compile(rb"^MemAvailable: +(\d+) kB$", re.M)


def jobs_of(asked: Optional[int], count: int) -> int:
    """How many of `count` are at work at the same time: as many as were asked for, otherwise eight, or as many as
    memory allows, which is said."""
    if asked is not None or count < 2:
        return asked or 1
    jobs = min(MOST, count)
    try:
        with open("/proc/meminfo", "rb") as file:
            found = AVAILABLE.search(file.read())
    except OSError:
        return jobs
    # what is free, or can be made free, if the system tells that
    memory = int(found.group(1)) << 10 if found else jobs * NEED
    if memory // NEED < jobs:
        jobs = max(1, memory // NEED)
        complain("only %s of memory are free, so %d at a time; --jobs N sets another number" % (length(memory), jobs))
    return jobs


def in_groups(folders: Sequence[bytes]) -> list[SameFolder]:
    """The mailboxes of a plan in groups, by their places. Mailboxes of one folder are in one group, since they must
    follow one another; one that goes nowhere is a group of its own."""
    groups: dict[tuple[bytes, int], list[int]] = {}
    for place, folder in enumerate(folders):
        groups.setdefault((folder, -1 if folder else place), []).append(place)
    return list(groups.values())


def largest_first(groups: Sequence[SameFolder], paths: Sequence[bytes]) -> list[SameFolder]:
    """Groups of mailboxes, of which each has a path, the largest group first: lest it is alone at the end."""
    sizes = list(map(size_of, paths))
    return sorted(groups, key=lambda places: sum(sizes[place] for place in places), reverse=True)


def size_of(mailbox: bytes) -> int:
    """How many bytes a mailbox has, if it can be seen; otherwise 0. No symbolic link is followed."""
    try:
        return os.lstat(mailbox).st_size
    except OSError:
        return 0


class InOrder:
    """Passes on what becomes known of places in the order of these."""

    def __init__(self, give: Callable[[Any], object]) -> None:
        """Takes what it is passed on to."""
        self.give, self.next = give, 0
        # what waits for a place before it
        self.waiting: dict[int, Any] = {}

    def take(self, place: int, one: Optional[Any]) -> None:
        """Takes what became of a place; None if nothing is to be said of that."""
        self.waiting[place] = one
        while self.next in self.waiting:
            self.pass_on(self.next)
            self.next += 1

    def end(self) -> None:
        """Passes on the rest: if a signal ended the work, some places in between are missing."""
        for place in sorted(self.waiting):
            self.pass_on(place)

    def pass_on(self, place: int) -> None:
        """Passes on what became of a place, if something is to be said of it."""
        one = self.waiting.pop(place)
        if one is not None:
            self.give(one)
