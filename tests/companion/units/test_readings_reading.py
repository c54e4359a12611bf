"""The words that say how a mailbox is read: those of a command, and those of a record."""
import unittest

from mbox2maildir_admin.readings.reading import UNDECIDED, Reading, lines_named, renumbered
from mbox2maildir_admin.units import LineNumber


def lines(*numbers: int) -> frozenset[LineNumber]:
    """Numbers of lines."""
    return frozenset(map(LineNumber, numbers))


class WordsTest(unittest.TestCase):
    def test_words(self) -> None:
        """Those of a command, which a human can say, and those of the record, which say everything."""
        named = Reading("mboxrd", lines(9, 7), lines(12), "0123456789abcdef")
        for reading, options, words in (
            (UNDECIDED, "", ""),
            (Reading("mboxo"), "--as mboxo", "mboxo"),
            (named, "--as mboxrd --text 7,9 --begin 12 --of 0123456789abcdef", None),
            (named, None, "mboxrd text=7,9 begin=12 of=0123456789abcdef"),
            (Reading(drop=True, of="a-1"), "--of a-1 --drop-deleted", "of=a-1 drop-deleted"),
            (Reading("mboxo", ends="crlf"), "--as mboxo", "mboxo crlf"),
            (Reading("unquoted", ends="cr"), "--as unquoted", "unquoted cr"),
            (Reading("mboxcl2", drop=True, dropped=3), "--as mboxcl2 --drop-deleted", "mboxcl2 dropped=3 drop-deleted"),
            (Reading("mboxrd", part="0123", stripped=True), "--as mboxrd", "mboxrd labels=0123 dovecot"),
            (Reading("mboxo", alone=False), "--as mboxo", None),
        ):
            if options is not None:
                self.assertEqual(reading.options(), options.split())
            if words is not None:
                self.assertEqual((reading.words(), Reading.of_words(words)), (words, reading))

    def test_words_of_another_version(self) -> None:
        for words in (
            None,
            "",
            "mbox",
            "mboxo uw-imap",
            "mboxo lines=3",
            "mboxo text=x",
            "mboxo text=0",
            "mboxo text=3 start=7",
            "mboxo crlf cr",
            "mboxo crlf=1",
            "mboxo dropped=x",
            "mboxo mboxrd",
            "crlf mboxo",
        ):
            self.assertEqual(Reading.of_words(words), UNDECIDED, words)

    def test_parts(self) -> None:
        """What a human may decide, and how all of the text is read."""
        decided = Reading("mboxo", lines(3), lines(5), "a-1", True)
        whole = decided._replace(ends="crlf", dropped=2, part="0123", stripped=True)
        self.assertEqual(whole.decided, decided)
        self.assertEqual(whole.of_text, decided._replace(ends="crlf"))

    def test_other_numbers_of_lines(self) -> None:
        new = {LineNumber(7): LineNumber(1), LineNumber(9): LineNumber(2)}
        found = renumbered(Reading("mboxo", lines(7), lines(9, 12)), new)
        self.assertEqual(found, Reading("mboxo", lines(1), lines(2)))

    def test_lines(self) -> None:
        self.assertEqual(lines_named(["7,9", "12"]), lines(7, 9, 12))
        for wrong in ("", "0", "7,", "7-9", "x"):
            self.assertRaises(ValueError, lines_named, [wrong])
