"""How progress is spelled: sizes, times, and the line of a terminal of any width."""
import fcntl
import os
import struct
import termios
import unittest
from collections.abc import Callable, Sequence
from typing import Any, Optional
from unittest import mock

from mbox2maildir_admin.progress import Actor, Doing, Estimate, Pace, Progress, Spent, composed, cut, duration
from mbox2maildir_admin.progress import fitted, how_far, length, together, width_of, width_of_terminal

COMPLAIN, GB = "mbox2maildir_admin.progress.complain", 10**9
MAIL = "\u90f5"
# what is called with which values, and what it answers
ROWS: Sequence[tuple[Callable[..., Any], tuple[Any, ...], Any]] = (
    *(
        (fitted, ("sheds", columns), wanted)
        for columns, wanted in ((9, "sheds"), (5, "sheds"), (4, "...s"), (0, "..."))
    ),
    *(
        (cut, (f"a{MAIL}b", columns), wanted)
        for columns, wanted in ((4, f"a{MAIL}b"), (3, f"a{MAIL}"), (2, "a"), (0, ""))
    ),
    (how_far, (1, 2), "1 of 2 bytes"),
    (how_far, (1500, 4000), "1.5 of 4.0 kB"),
    (how_far, (0, GB), "0.0 of 1.0 GB"),
    *((length, (size,), wanted) for size, wanted in ((0, "0 bytes"), (1, "1 byte"), (999, "999 bytes"))),
    *(
        (length, (size,), wanted)
        for size, wanted in ((1000, "1.0 kB"), (12345678, "12.3 MB"), (4000 * GB, "4000.0 GB"))
    ),
    *((duration, (seconds,), wanted) for seconds, wanted in ((0.4, "0 s"), (99, "99 s"), (100, "2 min"))),
    *((duration, (seconds,), wanted) for seconds, wanted in ((5940, "99 min"), (6000, "1 h 40 min"))),
    (Pace("reading", 0, 10.0).figures, (0, 0, 10.0), []),
    (Pace("reading", 0, 10.0).figures, (50, 100, 10.5), ["50 %"]),
    (Pace("reading", 0, 10.0).figures, (0, 100, 99.0), ["0 %"]),
    (Pace("reading", GB, 10.0).figures, (2 * GB, 4 * GB, 30.0), ["50 %", "40 s left", "50.0 MB/s"]),
)
# what is at work, and the line of a terminal with so many columns
LINES = (
    ("box", 32, "1/1 box: reading, 50 %, 9 s left"),
    ("box", 31, "1/1 box: reading, 50 %"),
    ("box", 22, "1/1 box: reading, 50 %"),
    ("box", 21, "1/1 box: reading"),
    ("mail/lists/box", 25, "1/1 ...lists/box: reading"),
)
# what a first pass spent on mailboxes, how long it took and how many were at work at once, and the estimate: they share
# the time, the longest is done by none sooner, and what was spent on no mailbox is spent again
ESTIMATES: Sequence[tuple[Sequence[Optional[Spent]], float, int, float]] = (
    ([Spent(4000, 1500)], 5.0, 1, 2.5),
    ([Spent(4000, 1500), None, Spent(2000, 500)], 5.0, 2, 3.5),
    ([Spent(1000, 500)] * 8, 2.0, 8, 1.5),
    ([Spent(9000, 500)], 5.0, 1, 0.5),
)


class ProgressTest(unittest.TestCase):
    def test_words(self) -> None:
        for function, values, wanted in ROWS:
            self.assertEqual(function(*values), wanted, values)

    def test_lines(self) -> None:
        """A line that is wider than the terminal could not be overwritten."""
        for who, columns, wanted in LINES:
            self.assertEqual(composed(Actor(who, "1/1 "), "reading", ["50 %", "9 s left"], columns), wanted)
        for columns in range(100):
            for who in ("mia/lists/sheds", MAIL * 100, "/home/" + "x" * 300):
                line = composed(Actor(who, "12/41 "), "verifying file 7", ["50 %", "9 s left"], columns)
                self.assertLessEqual(width_of(line), columns)

    def test_minutes(self) -> None:
        """Without a terminal a line is said each minute."""
        said = []
        with mock.patch("time.monotonic", return_value=0.0) as clock, mock.patch(COMPLAIN) as complain:
            progress = Progress()
            progress.is_terminal = False
            for clock.return_value in (59.0, 60.0, 61.0, 119.0, 120.0):
                progress.say(Actor("box", "1/1 "), "reading")
                said.append(complain.call_count)
        self.assertEqual(said, [0, 1, 1, 1, 2])

    def test_width(self) -> None:
        """A terminal that has no size, or is gone while a run goes on, counts as one of 80 columns."""
        main, terminal = os.openpty()
        with open(main, "rb"), open(terminal, "w", encoding="utf-8") as output, mock.patch("sys.stderr", output):
            for size, wanted in ((0, 80), (40, 40)):
                fcntl.ioctl(main, termios.TIOCSWINSZ, struct.pack("4H", 24, size, 0, 0))
                self.assertEqual(width_of_terminal(), wanted)
        with open(os.devnull, "w", encoding="utf-8") as output, mock.patch("sys.stderr", output):
            self.assertEqual(width_of_terminal(), 80)

    def test_estimates(self) -> None:
        for several, passed, at_once, wanted in ESTIMATES:
            estimate = Estimate()
            for one in several:
                estimate.add(one)
            self.assertEqual((estimate.seconds(passed, at_once), estimate.is_known), (wanted, True))

    def test_several_at_work(self) -> None:
        """What they do together, if all do the same, and how far they are, as far as that is known."""
        work: dict[str, Doing] = {}
        for who, place, size, wanted in (
            ("reading", 1, 10, ("1 at work", "reading", 1, 10)),
            ("reading b", 5, 30, ("2 at work", "reading", 6, 40)),
            ("converting", 7, 100, ("3 at work", "migrating", 13, 140)),
            ("waiting 3 seconds", None, None, ("4 at work", "migrating", 13, 140)),
        ):
            work[who] = who, place, size
            self.assertEqual(together(work, "migrating"), wanted)
        for who in ("reading", "reading b", "converting", "converting"):
            work.pop(who, None)
        self.assertEqual(together(work, "migrating"), ("1 at work", "waiting", None, None))
