"""The mailbox that all converters get, and the messages in it."""
import random
import re
from typing import List, NamedTuple, Set

FROM_LINE = re.compile(rb"^(>*From )", re.MULTILINE)
WORDS = "the a of to and in that we it for on with as at by from this be are or an have not they which one had".split()


class Message(NamedTuple):
    """A message as its sender wrote it."""

    text: bytes
    # the letters of a Maildir that its Status and X-Status give
    flags: str

    def quoted(self) -> bytes:
        """The message in the form of an mboxrd."""
        return FROM_LINE.sub(rb">\1", self.text)


class Corpus:
    """Messages that each have a Message-ID. One in ten has lines that begin with `From `."""

    def __init__(self, count: int, seed: int) -> None:
        chance = random.Random(seed)
        self.messages: List[Message] = [message_of(number, chance) for number in range(count)]

    def mailbox(self) -> bytes:
        """All messages as one mboxrd."""
        separator = b"From sender@example.org Thu Jan  1 00:00:00 2015\n"
        return b"".join(separator + message.quoted() + b"\n" for message in self.messages)

    def escaped(self) -> Set[int]:
        """The numbers of the messages in which a line is escaped."""
        return {number for number, message in enumerate(self.messages) if message.quoted() != message.text}

    def flagged(self) -> Set[int]:
        """The numbers of the messages that have flags."""
        return {number for number, message in enumerate(self.messages) if message.flags}


def message_of(number: int, chance: random.Random) -> Message:
    """A message. Its number is in its Message-ID, and decides its flags and whether lines begin with `From `."""
    status, flags = {1: ("Status: RO\nX-Status: F\n", "FS"), 2: ("Status: RO\nX-Status: A\n", "RS")}.get(
        number % 5, ("", "")
    )
    header = (
        "From: Sender <sender@example.org>\nTo: reader@example.org\nSubject: message %d\n"
        "Date: Thu, 01 Jan 2015 00:00:00 +0000\nMessage-ID: <%d@example.org>\n%s\n" % (number, number, status)
    )
    lines = [" ".join(chance.choice(WORDS) for _ in range(12)) for _ in range(chance.randrange(5, 80))]
    if number % 10 == 0:
        lines.insert(2, "From here on it is different.")
    if number % 30 == 0:
        lines.insert(4, ">From a quoted letter.")
    return Message((header + "\n".join(lines) + "\n").encode(), flags)
