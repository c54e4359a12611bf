"""Which names the messages get that are placed.

The program numbers equal messages of a text in their order, and passes over names that are taken. So of k equal
messages it gets so many copies that exactly k of these names are free, whatever their numbers are.
"""
import array
import collections
import itertools
from collections.abc import Iterable, Iterator, Sequence
from typing import Optional

from ..mbox.bases import FIRST, Table, base_in
from ..mbox.inventory import Inventory
from ..units import Place
from .lines import LOST, PLACED, Brought
from .match import Match, Stand


class Placing:
    """The messages of a text that are nowhere, the names of their files, and what the program gets for that: copies of
    messages first, then the text itself from a place on."""

    def __init__(self, match: Match) -> None:
        self.match, self.inventory, self.nowhere = match, match.inventory, match.nowhere
        # the names that differ from those that the messages have in the text, and how many more copies of a message the
        # program gets
        self.names: dict[int, bytes] = {}
        self.more: collections.Counter[int] = collections.Counter()
        rest = len(self.inventory)
        for place in reversed(self.nowhere):
            if place != rest - 1:
                break
            rest = place
        # from here on all messages are nowhere
        self.rest = Place(rest)
        self.give_names()

    def give_names(self) -> None:
        """Gives messages that equal others, or files, the first names that are free. Before each, the program gets as
        many copies as there are names to pass over, so that messages are placed in their order."""
        table, files = self.inventory.table, self.match.files
        # beside other counts of its digest alone, a message gets the first one, which it has in the text
        has_files = any(files.there)
        same: collections.defaultdict[bytes, list[int]] = collections.defaultdict(list)
        for place in self.nowhere if has_files or table.repeats else ():
            digest = table.digest(place)
            if table.place_of(digest + FIRST) in table.repeats or has_files and files.has_digest(digest):
                same[digest].append(place)
        for digest, places in same.items():
            taken, last = set(files.counts_of(digest)), 0
            for place, count in zip(places, (count for count in itertools.count(1) if count not in taken)):
                name = b"%s.%d" % (digest.hex().encode(), count)
                if name != table.name(place):
                    self.names[place] = name
                self.more[place], last = count - last - 1, count
            if places[-1] >= self.rest and (taken or places[0] < self.rest):
                self.rest = Place(len(self.inventory))

    def name(self, place: int) -> bytes:
        """The name that the file of a message gets."""
        return self.names.get(place) or self.inventory.table.name(place)

    def base(self, place: int) -> bytes:
        """The base that the file of a message gets."""
        return base_in(self.names[place]) or b"" if place in self.names else self.inventory.table.base(place)

    def copied(self) -> list[Place]:
        """The places of the messages of which the program gets copies first, as often as it gets them."""
        return [Place(one) for one in self.nowhere if one < self.rest for _ in range(1 + self.more[one])]

    def lines(self) -> Iterator[Brought]:
        """The lines of the batch, in the order in which messages are placed."""
        match, inventory = self.match, self.inventory
        yield from (one._replace(word=LOST) for one in match.lost_lines)
        for place in sorted(match.found):
            yield match.found[place]
        for place in itertools.chain(match.places(Stand.MINE), self.nowhere):
            yield Brought(PLACED, self.name(place), inventory.core(place), inventory.bare(place))

    def count_of_lines(self) -> int:
        """How many lines these are."""
        match = self.match
        return len(match.lost_lines) + len(match.found) + match.count(Stand.MINE) + len(self.nowhere)

    def messages_at(self, places: Sequence[int]) -> Inventory:
        """The messages at these places, with the bases of their files."""
        if len(places) == len(self.inventory) and not self.names and not self.match.count(Stand.FRESH):
            return self.inventory
        names = (self.match.found[place].name if place in self.match.found else self.name(place) for place in places)
        return with_bases(self.inventory, places, map(base_in, names))

    def whole(self) -> Inventory:
        """All messages, with the bases of the files that stand for them as far as these have bases."""
        if not self.names and not self.match.found:
            return self.inventory
        names = {**self.names, **{place: one.name for place, one in self.match.found.items()}}
        several = range(len(self.inventory))
        bases = [base_in(names[place]) if place in names else self.inventory.table.base(place) for place in several]
        used = {base for place, base in enumerate(bases) if place in names}
        for place in several:
            own = self.inventory.table.base(place)
            if bases[place] is None or place not in names and own in used:
                bases[place] = own if own not in used else b"%s.%d" % (bytes(32), place + 1)
        return with_bases(self.inventory, several, bases)


def with_bases(inventory: Inventory, places: Sequence[int], bases: Iterable[Optional[bytes]]) -> Inventory:
    """Some messages of a text, with other bases."""
    some = Inventory()
    some.table = Table.of(base for base in bases if base)
    some.count_lines = lambda: (inventory.lines[place] for place in places)
    for name in ("sizes", "offsets", "unquoted", "dates"):
        row = getattr(inventory, name)
        setattr(some, name, array.array(row.typecode, (row[place] for place in places)))
    return some
