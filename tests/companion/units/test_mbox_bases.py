"""Bases, by which the files of messages are named."""
import collections
import random
import unittest

from mbox2maildir_admin.mbox.bases import Table, before_info, is_own

DIGEST, OTHER = b"\x0a" * 32, b"\xff" * 32
NAME = b"0a" * 32


class NamesTest(unittest.TestCase):
    def test_whose_a_name_is(self) -> None:
        for name, own in (
            (NAME + b".1", True),
            (NAME + b".20", True),
            (NAME + b".18446744073709551615", True),
            (NAME + b".18446744073709551599", True),
            (NAME + b".9999999999999999999", True),
            # a name that a mail program gave to a copy; no number, or none in the right form; another program's
            (NAME + b".1,S=12", False),
            (NAME + b".0", False),
            (NAME + b".18446744073709551616", False),
            (NAME + b".18446744073709551620", False),
            (NAME + b".20000000000000000000", False),
            (NAME + b".100000000000000000000", False),
            (NAME, False),
            (NAME.upper() + b".1", False),
            (b"1700000000.M1P2.host", False),
        ):
            self.assertEqual(is_own(name), own, name)

    def test_before_the_info(self) -> None:
        self.assertEqual(before_info(NAME + b".1:2,FS"), NAME + b".1")


class TableTest(unittest.TestCase):
    def test_equal_messages_are_counted(self) -> None:
        table = Table()
        bases = [table.add(digest) for digest in (DIGEST, OTHER, DIGEST, DIGEST)]
        self.assertEqual(bases, [DIGEST + b".1", OTHER + b".1", DIGEST + b".2", DIGEST + b".3"])
        self.assertEqual((list(table.bases()), table.repeats), (bases, {0: 3}))

    def test_many_places(self) -> None:
        """The same as in a dict of bases, while the table grows."""
        draw, table = random.Random(75), Table()
        wanted: dict[bytes, int] = {}
        counts: collections.Counter[int] = collections.Counter()
        for place in range(3000):
            number = draw.randrange(2500)
            counts[number] += 1
            base = b"%032d.%d" % (number, counts[number])
            self.assertEqual(table.add(base[:32]), base)
            wanted[base] = place
        self.assertEqual([table.place_of(base) for base in wanted], list(wanted.values()))
        absent = [b"%032d.%d" % (number, counts[number] + 1) for number in range(2500)]
        self.assertEqual({table.place_of(base) for base in absent}, {None})
        self.assertEqual((list(table.bases()), len(table)), (list(wanted), 3000))
        for number, count in counts.items():
            places = [wanted[b"%032d.%d" % (number, one)] for one in range(1, count + 1)]
            self.assertEqual(list(table.places_of(b"%032d" % number)), places)

    def test_searches_are_short(self) -> None:
        """Slots that follow each other are few: a search goes through them, in a mailbox of any size."""
        draw, table = random.Random(76), Table()
        for _ in range(3000):
            table.add(draw.randbytes(32))
        taken = "".join(" x"[slot >= 0] for slot in table.slots).split()
        self.assertLess(max(map(len, taken)), 1000)

    def test_bases_of_another_order(self) -> None:
        bases = [DIGEST + b".3", OTHER + b".1", DIGEST + b".1"]
        table = Table.of(bases)
        self.assertEqual([table.place_of(base) for base in [*bases, DIGEST + b".2"]], [0, 1, 2, None])
        self.assertEqual((list(table.bases()), table.name(0)), (bases, NAME + b".3"))

    def test_very_many_equal_messages(self) -> None:
        for count in (b".70000", b".4294967296", b".18446744073709551615"):
            self.assertEqual(Table.of([DIGEST + count]).name(0), NAME + count)

    def test_places(self) -> None:
        table = Table()
        for digest in (DIGEST, OTHER, DIGEST):
            table.add(digest)
        names = (NAME + b".1", NAME + b".2:2,S", NAME + b".3", b"ff" * 32 + b".1,S=1:2,", b"box")
        self.assertEqual([table.place(name) for name in names], [0, 2, None, 1, None])
        # what another program renamed has no place of its own
        self.assertEqual([table.own_place(name) for name in names], [0, 2, None, None, None])
        self.assertEqual((table.has(OTHER), table.has(b"\0" * 32)), (True, False))
