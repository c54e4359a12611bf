"""Messages that may have one of two files: with all of their bytes, or without the header fields that mail programs
hide.

So a message has two bases, one from the text and one from its stripped text, and a file under either base is a file of
the message. If both texts have equal messages, one base may be that of two messages. Then a message that has a file of
all its bytes keeps it, and the others have the files of the stripped text in their order.
"""
import array
import collections
import contextlib
import copy
from collections.abc import Iterable, Iterator, Sequence
from typing import NamedTuple, Optional

from ..mbox.bases import Table
from ..mbox.inventory import Inventory, messages_of
from ..mbox.mailbox import Mailbox
from ..units import Offset, Place
from .files import listings_of


class Stripped(NamedTuple):
    """The messages of a stripped text by their bases, and their sizes."""

    table: Table
    sizes: Sequence[int]


def present_in(maildir: bytes, table: Table) -> tuple[bytearray, bool]:
    """Which messages of a text have a file under their base in a Maildir, which need not exist: by place, 1 if so. And
    whether there are files of other names."""
    there, has_others = bytearray(len(table)), False
    with contextlib.suppress(FileNotFoundError):
        for paths in listings_of(maildir):
            for name, _ in paths:
                place = table.own_place(name)
                if place is None:
                    has_others = True
                else:
                    there[place] = 1
    return there, has_others


class Others(NamedTuple):
    """Other forms that the messages may have: their places by other digests, the sizes of such files, and the bases of
    files that are there beside those of the same messages."""

    digests: dict[bytes, list[Place]] = {}
    sizes: Sequence[int] = ()
    unchosen: Sequence[bytes] = ()


class Either:
    """The messages of a text, each with the base that it has in a Maildir."""

    def __init__(
        self, inventory: Inventory, stripped: Stripped, full_there: bytearray, stripped_there: bytearray
    ) -> None:
        """Takes the messages of a text, those of its stripped text, and which of them have files, by their places."""
        self.full, self.sizes, self.stripped = inventory.table, inventory.sizes, stripped
        # the bases of the messages that have others in the Maildir than in the text
        self.chosen: dict[Place, bytes] = {}
        self.unchosen: set[bytes] = set()
        self.choose(full_there, stripped_there)
        self.inventory = inventory
        if self.chosen:
            self.inventory = copy.copy(inventory)
            bases = (self.chosen.get(Place(place)) or base for place, base in enumerate(self.full.bases()))
            table = self.inventory.table = Table.of(bases)
            pairs = zip(inventory.sizes, stripped.sizes)
            are_stripped = self.are_stripped(map(table.digest, range(len(table))))
            self.inventory.sizes = array.array(
                "Q", (pair[is_stripped] for pair, is_stripped in zip(pairs, are_stripped))
            )

    @classmethod
    def of(cls, maildir: bytes, inventory: Inventory, mailbox: Mailbox, start: Offset) -> "Either":
        """Takes the messages of a text that begins at an offset, and the bases in a Maildir, which need not exist."""
        full_there, has_others = present_in(maildir, inventory.table)
        # if exactly the files of all bytes are there, no file is that of a message without its fields
        if all(full_there) and not has_others:
            return cls(inventory, Stripped(inventory.table, inventory.sizes), full_there, full_there)
        table, sizes = Table(), array.array("Q")
        for message in messages_of(mailbox, start, is_stripped=True):
            table.add(message.digest)
            sizes.append(message.size)
        mailbox.check()
        stripped_there, _ = present_in(maildir, table)
        return cls(inventory, Stripped(table, sizes), full_there, stripped_there)

    def others_than_stripped(self) -> Iterator[Place]:
        """The places of the messages that are other ones in the stripped text."""
        if self.full.digests != self.stripped.table.digests:
            for place in map(Place, range(len(self.full))):
                if self.full.digest(place) != self.stripped.table.digest(place):
                    yield place

    def choose(self, full_there: bytearray, stripped_there: bytearray) -> None:
        """Chooses the bases of the messages that have the same digest in the stripped text, if one of them has another
        in the text."""
        mixed = set(map(self.stripped.table.digest, self.others_than_stripped()))
        groups: collections.defaultdict[bytes, list[Place]] = collections.defaultdict(list)
        for place in map(Place, range(len(self.full))) if mixed else ():
            digest = self.stripped.table.digest(place)
            if digest in mixed:
                groups[digest].append(place)
        for digest, places in groups.items():
            there = [self.stripped.table.base(place) for place in places if stripped_there[place]]
            missing = [self.stripped.table.base(place) for place in places if not stripped_there[place]]
            for place in places:
                is_other = self.full.digest(place) != digest
                if is_other and (full_there[place] or not there):
                    continue
                self.chosen[place] = (there or missing).pop(0)
            self.unchosen.update(there)

    def are_stripped(self, digests: Iterable[Optional[bytes]]) -> Iterator[bool]:
        """Whether each of these digests, one for the file of each message that has one, is that of the stripped text of
        a message whose text has another."""
        return (digest not in (None, self.full.digest(place)) for place, digest in enumerate(digests))

    def others(self) -> Others:
        """The other forms that the messages may have."""
        digests: collections.defaultdict[bytes, list[Place]] = collections.defaultdict(list)
        for place in self.others_than_stripped():
            for digest in (self.full.digest(place), self.stripped.table.digest(place)):
                digests[digest].append(place)
        sizes = [*self.sizes, *self.stripped.sizes] if digests else []
        return Others(digests, sizes, sorted(self.unchosen))
