"""Which file stands for which message: each rule, by lines and names alone."""
import unittest
from collections import deque
from collections.abc import Sequence

from mbox2maildir_admin.ledger.assign import Why, by_form, files_of, nobodys, offers_of
from mbox2maildir_admin.ledger.lines import NAMELESS, PLACED, SHARED, Brought, Line, State

BOX, OTHER, THIRD = "/box", "/other", "/third"
C, D = b"c" * 16, b"d" * 16
A, B = b"a", b"b"


def line(name: bytes, number: int, path: str = BOX, was_nowhere: bool = False, state: State = State.HELD) -> Line:
    """A line of a mailbox."""
    return Line(path, state, Brought(PLACED if was_nowhere else SHARED, name, C, C), number, was_nowhere)


def seen(lines: Sequence[Line], *there: bytes) -> list[tuple[list[int], bool]]:
    """The numbers of the lines about each file, and whether it has a name."""
    return [([one.number for one in file.lines], file.name is not None) for file in files_of(lines, there)]


class FilesTest(unittest.TestCase):
    def test_all_lines_with_a_name(self) -> None:
        several = [line(A, 1, was_nowhere=True), line(A, 2, OTHER), line(B, 3)]
        self.assertEqual(seen(several, A), [([2, 1], True), ([3], False)])

    def test_a_name_that_was_placed_again(self) -> None:
        """Lines between the two are about the first file, and later ones about the second one."""
        several = [line(A, 1, was_nowhere=True), line(A, 2, OTHER), line(A, 3, OTHER, True), line(A, 4, THIRD)]
        self.assertEqual(seen(several, A), [([4, 3], True), ([2, 1], False)])

    def test_a_name_that_a_mailbox_has_several_times(self) -> None:
        """It is that of several files. Another mailbox that has both is about the same two."""
        several = [line(A, 1), line(A, 2), line(A, 3, OTHER), line(A, 3, OTHER), line(A, 4, THIRD)]
        self.assertEqual(seen(several, A), [([4, 3, 2], True), ([3, 1], False)])
        # what it had once, or what other runs were going to bring, is about the same file
        states = (State.FORMER, State.OPEN, State.OVERTAKEN)
        several = [line(A, 1), *(line(A, number, state=state) for number, state in enumerate(states, 2))]
        self.assertEqual(seen(several, A), [([4, 3, 2, 1], True)])
        self.assertEqual(len(seen([line(A, 2, state=State.OPEN)] * 2, A)), 2)

    def test_without_a_name(self) -> None:
        several = [line(NAMELESS, 1), line(NAMELESS, 1), line(NAMELESS, 2, OTHER)]
        self.assertEqual(seen(several, NAMELESS[:0]), [([2, 1], False), ([1], False)])
        self.assertFalse(any(file.is_gone for file in files_of(several, ())))
        other = line(NAMELESS, 2, OTHER)
        self.assertEqual(len(seen([several[0], other._replace(message=other.message._replace(core=D))])), 2)
        # what it had once is another file than what it has
        self.assertEqual(len(seen([line(NAMELESS, 1, state=State.FORMER), line(NAMELESS, 2)])), 2)

    def test_what_a_program_renamed(self) -> None:
        """Each name stands for one file of its form."""
        unnamed = by_form([(C, b"17.host"), (D, b"18.host"), (b"", b"19.host")])
        files = files_of([line(A, 1), line(B, 1)], ())
        self.assertEqual([file.find(unnamed, C) for file in files], [True, False])
        self.assertEqual([(file.name, file.is_renamed, file.is_gone) for file in files][0], (b"17.host", True, False))
        self.assertEqual((files[1].is_gone, unnamed), (True, {C: deque(), D: deque([b"18.host"])}))


class OffersTest(unittest.TestCase):
    def test_their_order(self) -> None:
        names = [b"%d" % number for number in range(7)]
        several = [
            line(names[0], 1, OTHER, state=State.OVERTAKEN),
            line(names[1], 2, state=State.FORMER),
            line(names[2], 3, OTHER),
            line(names[3], 4, OTHER, state=State.FORMER),
            line(names[4], 5, was_nowhere=True, state=State.OPEN),
            line(names[5], 6, OTHER, state=State.OPEN),
        ]
        files = [nobodys(names[6], C, C), *files_of(several, [*names[:2], *names[3:5]])]
        wanted = [
            (Why.BEGUN, 5),
            (Why.SHARED, 4),
            (Why.GONE, 3),
            (Why.REGAINED, 2),
            (Why.NOBODYS, 0),
            (Why.ONCE_THEIRS, 1),
            # what no mailbox has any more may be nobody's
            (Why.ONCE_THEIRS, 4),
        ]
        self.assertEqual([(one.why, one.line.number) for one in offers_of(files, BOX)], wanted)
        # another form of other mailboxes serves nobody
        self.assertEqual({one.line.path for one in offers_of(files, BOX) if one.in_any_form}, {BOX})

    def test_what_more_mailboxes_have(self) -> None:
        """It comes first: an undo of one of them then leaves no file more than another one needs."""
        files = files_of([line(A, 1, OTHER), line(B, 2, OTHER), line(B, 3, THIRD)], [A, B])
        self.assertEqual([one.file.name for one in offers_of(files, BOX)], [B, B, A])
