"""The mail that tests put into mailboxes."""
import hashlib
import re
import time
from collections.abc import Iterator

# the heads of messages: From_ line and header, up to the empty line
A = b"From alva@example.org Mon Mar  3 09:12:44 2025\nFrom: alva@example.org\nSubject: one\n"
B = b"From boris@example.com Mon Mar  3 11:40:02 2025\nFrom: boris@example.com\nSubject: two\n"
C = b"From carla@example.net Mon Mar  3 12:00:00 2025\nFrom: carla@example.net\nSubject: three\n"
# mailboxes of one message each
ONE, TWO, THREE = (head + b"\nhello\n\n" for head in (A, B, C))
# a body that an mbox has to quote
MAY = b"hello\nFrom the first of May we are here.\nA.\n"
# the message by which Dovecot keeps an empty mailbox, as it writes that
INTERNAL = (
    b"From MAILER_DAEMON  Thu Nov 26 11:55:37 2026\nDate: Thu, 26 Nov 2026 11:55:37 +0000\n"
    b"From: Mail System Internal Data <MAILER-DAEMON@host>\n"
    b"Subject: DON'T DELETE THIS MESSAGE -- FOLDER INTERNAL DATA\n"
    b"Message-ID: <1795694137@host>\nX-IMAP: 1795694136 0000000002\nStatus: RO\n\n"
    b"This text is part of the internal format of your mail folder, and is not\na real message.  It is created "
    b"automatically by the mail system software.\n"
    b"If deleted, important folder data will be lost, and it will be re-created\n"
    b"with the data reset to initial values.\n\n"
)


def with_length(head: bytes, body: bytes, more: int = 0) -> bytes:
    """A message with a length, which may be wrong by some bytes."""
    return head + b"Content-Length: %d\n\n" % (len(body) + more) + body


def numbered(word: str, count: int) -> bytes:
    """A mailbox of this many messages, whose subjects are a word and a number."""
    return b"".join(ONE.replace(b"one", b"%b%d" % (word.encode(), number)) for number in range(count))


def bodies_of(text: bytes) -> Iterator[bytes]:
    """The mail of a mailbox, message by message, as the files of a Maildir hold it."""
    for piece in re.split(rb"(?m)^From .*\n", text)[1:]:
        piece = piece[:-1] if piece.endswith(b"\n\n") or piece == b"\n" else piece
        yield re.sub(rb"(?m)^>(>*From )", rb"\1", piece)


def digest_of(text: bytes) -> str:
    """The SHA-256 of a text."""
    return hashlib.sha256(text).hexdigest()


def moment_of(mailbox: bytes) -> float:
    """The date of the first From_ line of a mailbox. It has no zone."""
    words = mailbox.split(b"\n", 1)[0].decode().split(" ", 2)
    return time.mktime(time.strptime(words[2], "%a %b %d %H:%M:%S %Y"))
