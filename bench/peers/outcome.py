"""Compares what a converter left in a Maildir with the messages that it was given."""
import re
from pathlib import Path
from typing import Dict, List, NamedTuple

from .corpus import Corpus, Message

NUMBER = re.compile(rb"^Message-ID: <(\d+)@example\.org>", re.MULTILINE | re.IGNORECASE)


class Found(NamedTuple):
    """A file of a Maildir."""

    text: bytes
    flags: str


class Outcome(NamedTuple):
    """How many messages have a file, and how many files are of each sort. A message that has several files counts as
    doubled."""

    messages: int
    exact: int
    # the message with one line end more or less at its end
    end: int
    # the message with the `>` that its lines `From ` have in the mailbox
    escaped: int
    # the body is that of the message, and lines of its header were added or left out
    header: int
    cut: int
    # any other text
    changed: int
    lost: int
    doubled: int
    # files that belong to no message
    strangers: int
    # messages with flags, among those that must have some
    flagged: int

    def is_right(self) -> bool:
        """Whether each message has exactly one file, and that is complete."""
        return not self.lost + self.doubled + self.cut + self.strangers


def sort_of(message: Message, text: bytes) -> str:
    """The sort of a file, compared with the message whose number it has."""
    if text == message.text:
        return "exact"
    if text == message.quoted():
        return "escaped"
    if text.rstrip(b"\n") == message.text.rstrip(b"\n"):
        return "end"
    body, quoted = (one.split(b"\n\n", 1)[1] for one in (message.text, message.quoted()))
    got = text.split(b"\n\n", 1)[1] if b"\n\n" in text else None
    if got is not None and got.rstrip(b"\n") in (body.rstrip(b"\n"), quoted.rstrip(b"\n")):
        return "header" if got.rstrip(b"\n") == body.rstrip(b"\n") else "escaped"
    if got is None or body.startswith(got) or quoted.startswith(got):
        return "cut"
    return "changed"


def files_of(maildir: Path) -> List[Found]:
    """The files of `new` and `cur`."""
    return [
        Found(path.read_bytes(), path.name.partition(":2,")[2])
        for folder in ("new", "cur")
        if (maildir / folder).is_dir()
        for path in sorted((maildir / folder).iterdir())
    ]


def outcome_of(maildir: Path, corpus: Corpus) -> Outcome:
    """Compares a Maildir with the messages."""
    files = files_of(maildir)
    counts = dict.fromkeys(("exact", "end", "escaped", "header", "cut", "changed"), 0)
    by_number: Dict[int, List[Found]] = {}
    strangers = 0
    for found in files:
        match = NUMBER.search(found.text)
        if match and int(match.group(1)) < len(corpus.messages):
            by_number.setdefault(int(match.group(1)), []).append(found)
            counts[sort_of(corpus.messages[int(match.group(1))], found.text)] += 1
        else:
            # too little of it is there to tell its message, or it belongs to the converter itself
            strangers += 1
    return Outcome(
        messages=len(corpus.messages),
        lost=len(corpus.messages) - len(by_number),
        doubled=sum(len(some) > 1 for some in by_number.values()),
        strangers=strangers,
        flagged=sum(
            set(corpus.messages[number].flags) <= set(by_number[number][0].flags)
            for number in corpus.flagged() & set(by_number)
        ),
        **counts,
    )
