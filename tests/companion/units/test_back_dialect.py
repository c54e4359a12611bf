"""Messages in the dialect of a mailbox: each written text was worked out by hand."""
import hashlib
import unittest
from typing import Optional

from mbox2maildir_admin.back.dialect import LAST_TIME, Client, Dialect, Letter, date_of, parted, written

MAIL, HEAD = b"Subject: one\n\nFrom me\n>From you\nend\n", b"Subject: one\n"
# the word of a dialect, and whether its lines end in CR LF; a message, its flags, and whether a reader has met it; and
# what is written of it after its From_ line
WRITTEN: list[tuple[str, bool, bytes, str, bool, bytes]] = [
    ("mboxrd", False, MAIL, "", False, HEAD + b"\n>From me\n>>From you\nend\n\n"),
    ("mboxo", False, MAIL, "", False, HEAD + b"\n>From me\n>From you\nend\n\n"),
    ("mboxcl", False, MAIL, "", False, b"Content-Length: 24\n" + HEAD + b"\n>From me\n>>From you\nend\n\n"),
    ("mboxcl2", False, MAIL, "", False, b"Content-Length: 22\n" + HEAD + b"\nFrom me\n>From you\nend\n\n"),
    ("mboxrd", True, b"A: b\n\nx\n", "", False, b"A: b\r\n\r\nx\r\n\r\n"),
    # what the mail has itself stays beside that
    ("mboxrd", False, b"A: b\r\n\r\nx\r\n", "S", False, b"Status: R\r\nA: b\r\n\r\nx\r\n\n"),
    ("mboxcl2", True, b"A: b\n\nx\n", "", False, b"Content-Length: 3\r\nA: b\r\n\r\nx\r\n\r\n"),
    # flags
    ("mboxrd", False, b"A: b\n\nx\n", "", True, b"Status: O\nA: b\n\nx\n\n"),
    ("mboxrd", False, b"A: b\n\nx\n", "S", True, b"Status: RO\nA: b\n\nx\n\n"),
    ("mboxrd", False, b"A: b\n\nx\n", "DFRST", True, b"Status: RO\nX-Status: AFTD\nA: b\n\nx\n\n"),
    ("mboxrd", False, b"A: b\n\nx\n", "P", False, b"A: b\n\nx\n\n"),
    # a last line without an end
    ("mboxrd", False, b"A: b\n\nx", "", False, b"A: b\n\nx\n\n"),
    ("mboxcl2", False, b"A: b\n\nx", "", False, b"Content-Length: 2\nA: b\n\nx\n\n"),
    ("mboxrd", False, b"A: b", "", False, b"A: b\n\n"),
    ("mboxrd", False, b"", "", False, b"Status:\n\n"),
    # a field precedes a first line that is none, unless that would go on in it
    ("mboxrd", False, b"hello\n", "", False, b"Status:\nhello\n\n"),
    ("mboxrd", False, b"\nx\n", "", False, b"Status:\n\nx\n\n"),
    ("mboxcl2", False, b"hello\n", "", False, b"Content-Length: 0\nhello\n\n"),
    ("mboxrd", False, b" a: b\n\nx\n", "", False, b" a: b\n\nx\n\n"),
    ("mboxrd", False, b" a: b\n\nx\n", "S", True, b" a: b\nStatus: RO\n\nx\n\n"),
    ("mboxrd", False, b"hello\r\n", "S", True, b"Status: RO\r\nhello\r\n\n"),
]
SENDERS = [
    (b"Return-Path: <a@b>\n", b"a@b"),
    (b"return-path:\tc@d\n", b"c@d"),
    (b"Return-Path: <>\n", b"MAILER-DAEMON"),
    (b"Return-Path: <a b>\n", b"MAILER-DAEMON"),
    (b"X-Return-Path: <a@b>\n", b"MAILER-DAEMON"),
]
PARTS = [
    (b"A: b\n\nx\n", (b"A: b\n", b"\n", b"x\n")),
    (b"A: b\r\n\r\nx", (b"A: b\r\n", b"\r\n", b"x")),
    (b"\nx\n", (b"", b"\n", b"x\n")),
    (b"A: b\n", (b"A: b\n", b"", b"")),
    (b"A: b\n\n\n", (b"A: b\n", b"\n", b"\n")),
]
GAPS = [(b"", b""), (b"x\n\n", b""), (b"\n\r\n", b""), (b"yx\n", b"\n"), (b"xyz", b"\n\n")]
# the dialects of readings, by the words of these
READINGS: list[tuple[str, Optional[Dialect]]] = [
    ("mboxrd", Dialect("mboxrd", False)),
    ("mboxo crlf", Dialect("mboxo", True)),
    ("mboxcl2 dropped=2 drop-deleted", Dialect("mboxcl2", False)),
    ("mboxrd dovecot", Dialect("mboxrd", False)),
    *((words, None) for words in ("unquoted", "mboxrd text=7", "mboxrd begin=7", "mboxrd cr", "mboxcl2 start=3")),
    *((words, None) for words in ("mboxrd labels=Sent", "?unclear")),
]


class DialectTest(unittest.TestCase):
    def test_written(self) -> None:
        for word, crlf, text, flags, is_old, wanted in WRITTEN:
            line, rest = written(Letter(text, flags, is_old), Dialect(word, crlf)).text.split(b"\n", 1)
            self.assertEqual((rest, line[:19], line.endswith(b"\r")), (wanted, b"From MAILER-DAEMON ", crlf), text)

    def test_the_sender(self) -> None:
        for field, wanted in SENDERS:
            letter = Letter(b"A: b\n" + field + b"\nReturn-Path: <body@x>\n")
            self.assertEqual(written(letter, Dialect("mboxrd", False)).text.split(b" ")[1], wanted, field)

    def test_parts_and_gaps(self) -> None:
        for text, parts in PARTS:
            self.assertEqual(parted(text), parts)
        for end, gap in GAPS:
            self.assertEqual(Dialect("mboxrd", False).gaps_after(end), (gap,))
        self.assertEqual(Dialect("mboxrd", True).gaps_after(b"x\r\n"), (b"\r\n",))

    def test_readings(self) -> None:
        for words, wanted in READINGS:
            self.assertEqual(Dialect.of_words(words), wanted, words)

    def test_dates_that_each_program_reads(self) -> None:
        self.assertEqual((date_of(-(10**12)), date_of(10**12)), (date_of(1), date_of(LAST_TIME)))

    def test_threads_of_gmail(self) -> None:
        """Each message has its own, a positive number of 64 bits, beside its flags."""
        cores = [hashlib.sha256(bytes(count)).digest()[:16] for count in range(100)]
        fields = [Client("Gmail").fields_to_write("FS", core, 1) for core in cores]
        threads = {int(thread.split()[1]) for thread, _ in fields}
        self.assertEqual((len(threads), max(threads) < 1 << 63), (len(cores), True))
        self.assertEqual({labels for _, labels in fields}, {b"X-Gmail-Labels: Opened,Starred"})

    def test_what_programs_wrote_is_left_out(self) -> None:
        header = b"Content-Length: 9999\nA: b\nSTATUS: RO\nX-UID:\n 7\nX-Keywords: k\n"
        one = written(Letter(header + b"\nStatus: x\n"), Dialect("mboxrd", False))
        self.assertEqual(one.text.split(b"\n", 1)[1], b"A: b\n\nStatus: x\n\n")
        self.assertEqual(one.taken, [b"Content-Length", b"STATUS", b"X-UID", b"X-Keywords"])
        for header in (b"", b"Status: x", b"Status: x\n", b" Status: x\n", b"X-Mozilla-Status: 1\n"):
            self.assertEqual(Client().cleared(header)[0], b"" if header.startswith(b"Status") else header)
