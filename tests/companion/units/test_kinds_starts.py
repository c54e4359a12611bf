"""The shapes of From_ lines without dates."""
import itertools
import unittest

from mbox2maildir_admin.kinds.starts import shape_of

# lines of one shape each, as a program writes them
WRITTEN = [
    [b"From ", b"From \r", b"From   "],
    [b"From -", b"From -\r"],
    [
        b"From alva@example.org",
        b"From list-bounces+mia=example.org@lists.example.net",
        b"From alva at example.org  ",
        b"From MAILER-DAEMON",
        b"From MAILER_DAEMON",
    ],
    [b"From alva", b"From d.boris-s2", b"From m\xc3\xbcller"],
    [b"From Alva", b"From Debian-exim"],
    [b"From -1234567890123456789", b"From 987654321"],
    # whoever the sender is
    [
        b"From alva@example.org 2025-03-03T09:12:44+01:00",
        b"From MAILER-DAEMON 2004-12-24T23:00:01-05:00",
        b"From Debian-exim 2025-03-03 09:12Z\r",
        b"From root 2025-03-03T09:12:44.123456",
    ],
    [
        b"From alva@example.org Mo M\xc3\xa4r  3 09:12:44 2025",
        b"From boris Di Dez 24 23:00:01 CET 2024",
        b"From alva at example.org lun. f\xc3\xa9vr.  3 09:12:44 2025",
        b"From alva mar. mars 24 9:12:44 AM 2025",
    ],
    [b"From alva@example.org Mo 3. M\xe4r 2025 09:12:44", b"From Boris Di 24. Dez 2024 23:00:01"],
    [b"From - 3/3/2025 9:12 AM", b"From - 12/24/2024 11:00 PM", b"From mia 12/24/2024 11:00"],
    [b'From "Alva Smith" <alva@example.org> (CET)', b'From "Boris Jones" <boris@example.com> (CEST)'],
]
# lines of mail
TALK = [
    [b"From here on it gets better:"],
    [b"From the first of May we are here."],
    [b"From 9 to 5"],
    [b"From alva at work"],
    [b"From here:"],
    [b"From alice@example.org I hear"],
    [b"From 2019 on, at 10:15, there were 3"],
    [b"From 1 to 12:30 on 3 days"],
    [b"From 2025-03-03 on"],
    [b"From alva of whom we had not heard until 3 March 2025 09:12:44"],
]


class UndatedTest(unittest.TestCase):
    def test_lines_of_one_shape(self) -> None:
        for lines in WRITTEN:
            self.assertEqual(len(set(map(shape_of, lines))), 1, lines)

    def test_lines_of_different_shapes(self) -> None:
        for (one, *_), (other, *_) in itertools.combinations(WRITTEN + TALK, 2):
            self.assertNotEqual(shape_of(one), shape_of(other))
