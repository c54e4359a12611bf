"""The bases of messages, by which mbox2maildir names their files."""
import array
import binascii
import itertools
import re
from collections.abc import Iterable, Iterator
from typing import Optional

from ..units import Place

# the largest count, and the numbers of as many digits that are less: one digit is, and all before it are the same
MOST = b"18446744073709551615"
LESS = [b"%b[0-%d][0-9]{%d}" % (MOST[:at], MOST[at] - 49, 19 - at) for at in range(1, 20) if MOST[at] > 48]
COUNT = b"|".join([rb"[1-9][0-9]{0,18}", *LESS, MOST])
BASE = re.compile(rb"(?P<digest>[0-9a-f]{64})(?P<count>\.(?:%b))(?=[:,]|\Z)" % COUNT)
# a base that only the info may follow
OWN = re.compile(BASE.pattern.replace(b"[:,]", b":"))
# the bytes of a digest, and the count of the first message that has it
DIGEST, FIRST = 32, b".1"
# stands for no place
FREE = -1


def is_own(name: bytes) -> bool:
    """Whether a name, without its info, is one that mbox2maildir gives: a base and nothing else."""
    return BASE.fullmatch(name) is not None


def before_info(name: bytes) -> bytes:
    """The part of a file's name before its info, which mail programs change."""
    return name.split(b":")[0]


def base_in(name: bytes, pattern: re.Pattern[bytes] = BASE) -> Optional[bytes]:
    """The base that a name begins with, its digest as bytes; None if it begins with none."""
    found = pattern.match(name)
    return binascii.unhexlify(found["digest"]) + found["count"] if found else None


def own_base_in(name: bytes) -> Optional[bytes]:
    """The base that a name is, without its info, its digest as bytes; None if it is none."""
    return base_in(name, OWN)


class Table:
    """The messages of a text by their bases, with the place of each. A base is a digest of 32 bytes, and a count.

    A dict of bases would take three times the memory. So the digests stand in one row, and `slots` is a hash table of
    places: each is in the slot to which the hash of its base leads, or if that is taken, in the next free one.
    """

    def __init__(self) -> None:
        self.digests, self.counts = bytearray(), array.array("Q")
        # how many messages have the same digest, if several have, by the place of the first one
        self.repeats: dict[int, int] = {}
        # for fewer messages, none needs another slot
        self.slots = array.array("i", [FREE]) * (1 << 12)

    @classmethod
    def of(cls, bases: Iterable[bytes]) -> "Table":
        """Takes messages that have these bases, each another one."""
        self = cls()
        for base in bases:
            self.keep(base)
        return self

    def __len__(self) -> int:
        return len(self.counts)

    def add(self, digest: bytes) -> bytes:
        """Adds the next message, which has this digest, and returns its base."""
        slot, count = self.slot_at(digest, 1), 1
        first = self.slots[slot]
        if first != FREE:
            count = self.repeats[first] = self.repeats.get(first, 1) + 1
            slot = self.slot_at(digest, count)
        self.put(slot, digest, count)
        return digest + b".%d" % count

    def keep(self, base: bytes) -> None:
        """Adds the next message, which has this base."""
        digest, count = base[:DIGEST], int(base[DIGEST + 1 :])
        self.put(self.slot_at(digest, count), digest, count)

    def put(self, slot: int, digest: bytes, count: int) -> None:
        """Adds the next message, and puts its place into a slot."""
        self.slots[slot] = len(self.counts)
        self.digests += digest
        self.counts.append(count)
        # a search goes on up to a free slot, so half of them are free
        if 2 * len(self.counts) > len(self.slots):
            self.slots = array.array("i", [FREE]) * (4 * len(self.slots))
            for place, its in enumerate(self.counts):
                self.slots[self.slot_at(self.digest(place), its)] = place

    def slot_at(self, digest: bytes, count: int) -> int:
        """The slot that has the place of the message of the base with this digest and this count; if there is no such
        message, a free slot."""
        slots, digests, counts = self.slots, self.digests, self.counts
        slot = hash((digest, count)) % len(slots)
        while (place := slots[slot]) != FREE:
            if counts[place] == count and digests[place * DIGEST : (place + 1) * DIGEST] == digest:
                break
            slot = (slot + 1) % len(slots)
        return slot

    def digest(self, place: int) -> bytes:
        """The digest of the message at a place."""
        return bytes(self.digests[place * DIGEST : (place + 1) * DIGEST])

    def base(self, place: int) -> bytes:
        """The base of the message at a place."""
        return b"%b.%d" % (self.digests[place * DIGEST : (place + 1) * DIGEST], self.counts[place])

    def name(self, place: int) -> bytes:
        """The name that the program gives the file of the message at a place, without an info."""
        return b"%b.%d" % (binascii.hexlify(self.digest(place)), self.counts[place])

    def bases(self) -> Iterator[bytes]:
        """The bases of all messages, in their order."""
        return map(self.base, range(len(self)))

    def place(self, name: bytes) -> Optional[Place]:
        """The place of the message whose base a name begins with; None if no message has that base."""
        return self.place_of(base_in(name))

    def own_place(self, name: bytes) -> Optional[Place]:
        """The place of the message whose base a name is, without its info; None if it belongs to none, or was
        renamed."""
        return self.place_of(own_base_in(name))

    def place_of(self, base: Optional[bytes]) -> Optional[Place]:
        """The place of the message that has this base; None if no message has it."""
        place = self.slots[self.slot_at(base[:DIGEST], int(base[DIGEST + 1 :]))] if base else FREE
        return None if place == FREE else Place(place)

    def places_of(self, digest: bytes) -> Iterator[Place]:
        """The places of the messages that were added with this digest, in their order."""
        for count in itertools.count(1):
            place = self.slots[self.slot_at(digest, count)]
            if place == FREE:
                return
            yield Place(place)

    def has(self, digest: bytes) -> bool:
        """Whether a message has this digest."""
        return self.slots[self.slot_at(digest, 1)] != FREE
