"""What is in a Maildir under the converter's names, and what must be in it."""
import collections
import hashlib
import os
import re
from collections.abc import Iterable, Iterator, Sequence
from typing import NamedTuple

from tests.support.powercut.mailboxes import Made, Message

# a converter's name, and its base
NAME = re.compile(r"([0-9a-f]{64})\.[1-9][0-9]*(?=:|\Z)")
SUBFOLDERS = ("new", "cur")


class Found(NamedTuple):
    """A file: its path below the Maildir, its digest, and what the system says of it."""

    path: str
    digest: str
    size: int
    date: int
    inode: int


class Look:
    """What a Maildir has: files by their bases, files that can't be read, and files that hold another message."""

    def __init__(self, folder: str) -> None:
        self.files = collections.defaultdict(list)  # type: collections.defaultdict[str, list[Found]]
        self.broken = []  # type: list[str]
        for sub in SUBFOLDERS:
            try:
                names = os.listdir(os.path.join(folder, sub))
            except FileNotFoundError:
                continue
            except OSError as fault:
                self.broken.append(f"{sub}: {fault.strerror}")
                continue
            for name in filter(NAME.match, names):
                self.take(folder, f"{sub}/{name}")

    def take(self, folder: str, name: str) -> None:
        """Takes a file that has a converter's name."""
        base, path = os.path.basename(name).split(":")[0], os.path.join(folder, name)
        try:
            state = os.lstat(path)
            with open(path, "rb") as file:
                data = file.read()
        except OSError as fault:
            self.broken.append(f"{name[:16]}: {fault.strerror}")
            return
        digest = hashlib.sha256(data).hexdigest()
        self.files[base].append(Found(name, digest, len(data), int(state.st_mtime), state.st_ino))
        if digest != base.split(".")[0]:
            zeros = ", all zeros" if data and not data.strip(b"\0") else ""
            self.broken.append(f"{name[:16]}: {len(data)} bytes that are not the message's{zeros}")

    def doubles(self) -> Iterator[tuple[str, str]]:
        """The messages that have several names, by their bases, with these names."""
        for base, files in self.files.items():
            if len(files) > 1:
                yield base, f"{shown(base)}: {', '.join(file.path[:14] for file in files)}"

    def missing(self, messages: Iterable[Message]) -> Iterator[str]:
        """The messages that are nowhere, or have other bytes than their own."""
        for message in {message.base: message for message in messages}.values():
            files = self.files.get(message.base, [])
            if {(file.digest, file.size) for file in files} != {(message.digest, message.size)}:
                there = ", ".join(f"{file.path[:14]} of {file.size} bytes" for file in files)
                yield f"{shown(message.base)} of {message.size} bytes: {there or 'nowhere'}"

    def there(self, messages: Iterable[Message]) -> Iterator[str]:
        """The messages that have a file."""
        for message in messages:
            if message.base in self.files:
                yield f"{shown(message.base)}: {self.files[message.base][0].path[:14]}"

    def undated(self, messages: Sequence[Message]) -> Iterator[str]:
        """The files that have other dates than their From_ lines."""
        dates = {message.base: message.date for message in messages}
        wrong = [base for base, date in dates.items() for file in self.files.get(base, [])[:1] if file.date != date]
        if wrong:
            yield f"{len(wrong)} of {len(dates)} have another date, as {shown(wrong[0])}"


def shown(base: str) -> str:
    """A base in a shorter form."""
    return f"{base[:10]}..{base[64:]}"


def owed(mailboxes: Sequence[Made], marks: Sequence[str]) -> list[Message]:
    """The messages that the program's lines have promised, by the marks until a moment."""
    by_name = {os.path.basename(mailbox.path): mailbox for mailbox in mailboxes}
    found = {}  # type: dict[str, Message]
    waiting = []  # type: list[Made]
    for mark in marks:
        word, _, rest = mark.strip().partition(" ")
        if word == "file":
            waiting.append(by_name[rest])
        elif word.startswith("messages"):
            found.update((message.base, message) for message in waiting.pop(0).messages)
        elif word == "gone":
            found.pop(rest, None)
        elif word == "exit":
            waiting = []
    return list(found.values())
