"""Mailboxes that are made up, and what each of their messages must become, without asking the program."""
import random
import time
import typing
from collections import Counter
from collections.abc import Sequence
from itertools import zip_longest
from typing import NamedTuple

from tests.support.mail import digest_of

KIB = 1 << 10
SIZES = (0, 1, 60, 900, 4 * KIB, 4 * KIB + 1, 20 * KIB, 100 * KIB)
# about how many messages a mailbox has, and how large the largest is
COUNT, LARGEST = 14, 512 * KIB
# the first header lines of messages: those that go to `new`, and to `cur`
UNSEEN, SEEN = (b"",), (b"Status: RO\n", b"Status: O\n", b"Status: R\n", b"Status: RO\nX-Status: AF\n")
FIRST_DATE, LAST_DATE = 10**9, 15 * 10**8


class Message(NamedTuple):
    """A message: its file's name without flags, its digest, its size, and the date of its From_ line."""

    base: str
    digest: str
    size: int
    date: int


class Made(NamedTuple):
    """A mailbox on a disk that keeps its power, and its messages in their order."""

    path: str
    messages: Sequence[Message]


def body_of(size: int, chance: random.Random, headers: Sequence[bytes]) -> bytes:
    """A body of a size, which ends with the end of a line. A body of a few bytes has no header."""
    if size < SIZES[2]:
        return b"\n" * size
    text = bytearray(chance.choice(headers) + b"Subject: %d\n\n" % chance.randrange(1 << 60))
    while len(text) < size - 1:
        line = b"%x\n" % chance.getrandbits(300)
        text += chance.choices([line, b"From here\n", b">From there\n"], [18, 1, 1])[0]
    return bytes(text[: size - 1]) + b"\n"


def quoted(body: bytes) -> bytes:
    """A body as it is in a mailbox."""
    lines = body.split(b"\n")
    return b"\n".join(b">" + line if line.lstrip(b">").startswith(b"From ") else line for line in lines)


def bodies(count: int, largest: int, chance: random.Random, headers: Sequence[bytes] = UNSEEN + SEEN) -> list[bytes]:
    """Bodies of several sizes, one of them large. Some are there twice."""
    made = [body_of(SIZES[place % len(SIZES)], chance, headers) for place in range(count)]
    made.insert(count // 3, body_of(largest, chance, headers))
    return [*made, made[3], made[-1], made[0]]


def write(path: str, texts: Sequence[bytes], chance: random.Random, hidden: Sequence[bytes] = ()) -> Made:
    """Writes a mailbox of these bodies, each after header lines that Dovecot hides, if there are any. Its messages are
    those without these lines."""
    counts = Counter()  # type: typing.Counter[str]
    messages = []
    with open(path, "wb") as file:
        for text, fields in zip_longest(texts, hidden, fillvalue=b""):
            date = chance.randrange(FIRST_DATE, LAST_DATE)
            stamp = time.strftime("%a %b %e %H:%M:%S +0000 %Y", time.gmtime(date))
            file.write(b"From someone@example.org  " + stamp.encode() + b"\n" + fields + quoted(text) + b"\n")
            digest = digest_of(text)
            counts[digest] += 1
            messages.append(Message(f"{digest}.{counts[digest]}", digest, len(text), date))
    return Made(path, messages)


def two(folder: str, chance: random.Random) -> list[Made]:
    """Two mailboxes that have messages in common; one may have a message more often than the other."""
    first, second = bodies(COUNT, LARGEST, chance), bodies(COUNT * 2 // 3, LARGEST // 4, chance)
    second[1:1] = [first[5], first[5], first[7], first[0], first[0], first[0]]
    return [write(f"{folder}/{name}.mbox", texts, chance) for name, texts in (("a", first), ("b", second))]


def shared(folder: str, chance: random.Random) -> list[Made]:
    """Two mailboxes whose messages all have a header. They have some in common, some of them more often in one of the
    two."""
    first, second = ([body_of(max(size, SIZES[2]), chance, UNSEEN + SEEN) for size in SIZES] for _ in range(2))
    first += [first[2], first[3], first[3]]
    second += [first[2], first[3], first[4], first[4], first[5]]
    return [write(f"{folder}/{name}.mbox", texts, chance) for name, texts in (("a", first), ("b", second))]


def unseen(folder: str, chance: random.Random) -> Made:
    """A mailbox whose mail all goes to `new`."""
    return write(f"{folder}/unseen.mbox", bodies(COUNT, LARGEST, chance, UNSEEN), chance)


def seen(folder: str, chance: random.Random) -> Made:
    """A mailbox whose mail all goes to `cur`."""
    texts = [text for text in bodies(COUNT, LARGEST, chance, SEEN) if text.strip()]
    return write(f"{folder}/seen.mbox", texts, chance)


def numbered(folder: str, chance: random.Random, headers: Sequence[bytes] = SEEN) -> Made:
    """A mailbox with numbers and keywords, and one of these header lines in each message, as Dovecot writes them.
    `migrate --dovecot` leaves them out."""
    texts = [body_of(max(size, SIZES[2]), chance, UNSEEN) for size in (LARGEST // 8, *SIZES)]
    hidden = [
        b"X-UID: %d\nX-Keywords: %s\n" % (3 * place + 1, b"later" if place % 3 else b"") + chance.choice(headers)
        for place in range(1, len(texts) + 1)
    ]
    hidden[0] = b"X-IMAPbase: 1234567890 %d later\n" % (3 * len(texts) + 9) + hidden[0]
    return write(f"{folder}/numbered.mbox", texts, chance, hidden)


def tree(folder: str, chance: random.Random) -> list[Made]:
    """Three mailboxes that have nothing in common."""
    return [
        write(f"{folder}/{name}", bodies(COUNT // 3, LARGEST // 16, chance, UNSEEN + SEEN), chance)
        for name in ("Sent", "garden", "sheds")
    ]
