"""Faults: the word of each, what is said of it, and the words of reasons."""
import errno
import os
import unittest
from typing import Union

from mbox2maildir_admin.faults import REASONS, Fault, Left, Reason, fault_of
from mbox2maildir_admin.nexts import Answer, Phrase

OF_BOX = FileNotFoundError(2, "No such file or directory", b"box")
# a fault; its word if it came up with the file `box`; and what is said of it
FAULTS: list[tuple[Union[Fault, OSError], Phrase, str]] = [
    (Left("why"), Reason.OTHER, "why"),
    (Fault("why", Reason.NO_FILE), Reason.NO_FILE, "why"),
    (Fault("full", Reason.NOT_OWN, place=b"a: b"), Reason.NOT_OWN, "'a: b': full"),
    (OF_BOX, Reason.MISSING, "No such file or directory"),
    (FileNotFoundError(2, "gone"), Reason.MISSING, "gone"),
    (NotADirectoryError(20, "no folder", "box"), Reason.MISSING, "no folder"),
    (FileNotFoundError(2, "gone", b"M/new"), Reason.ERROR, "M/new: gone"),
    (PermissionError(13, "denied"), Reason.ERROR, "denied"),
    (OSError(errno.EIO, os.strerror(errno.EIO)), Reason.ERROR, "Input/output error"),
]


class FaultsTest(unittest.TestCase):
    def test_faults(self) -> None:
        for error, reason, says in FAULTS:
            fault = fault_of(error, b"box")
            self.assertEqual((fault.reason, str(fault)), (reason, says), error)

    def test_what_could_not_be_made(self) -> None:
        # nothing is at its path that could be listed
        for path, listed in ((b"/dev/null", "/dev/null"), (b"/dev/box", "/dev"), (b"gone", ".")):
            (answer,) = fault_of(PermissionError(13, "denied", path), path).next
            assert isinstance(answer, Answer)
            self.assertEqual(answer.command.line(), "ls -ld " + listed)

    def test_each_reason_has_a_word_and_a_sentence(self) -> None:
        self.assertEqual([one for name, one in vars(Reason).items() if name.isupper()], list(REASONS.values()))
        for reason in REASONS.values():
            self.assertRegex("%s: %s" % (reason.word, reason.says), r"\A[a-z][a-z-]*: [A-Z][^|]*\.\Z")
