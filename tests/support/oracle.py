#!/usr/bin/env python3
"""Prints the listing of an mbox text: one line a message with index, base, place, info, size and sender.

Usage: listing.py [FILE]

Written from the rules in docs/RULES.md alone, to be compared with what the program prints.
"""
import hashlib
import io
import re
import sys
from collections.abc import Iterable, Iterator
from typing import Optional

# the From_ line of a message without its end, and its body
Message = tuple[bytes, bytes]

QUOTED = re.compile(rb">+From ")
LETTERS = {"F": "F", "A": "R", "R": "S", "D": "T"}


def messages_of(lines: Iterable[bytes]) -> Iterator[Message]:
    """From_ line and body of each message of a text, which is given as its lines with their ends."""
    block = []  # type: list[bytes]
    for line in lines:
        if line.startswith(b"From "):
            if block:
                yield message_of(block)
            block = []
        elif not block:
            sys.exit("no From line at the start")
        block.append(line)
    if block:
        yield message_of(block)


def message_of(block: list[bytes]) -> Message:
    """From_ line and body of a message, given as its lines."""
    from_line, *others = block
    if others and others[-1] == b"\n":
        others.pop()
    return from_line.split(b"\n")[0], b"".join(line[1:] if QUOTED.match(line) else line for line in others)


def header_of(body: bytes) -> list[bytes]:
    """The lines of the header."""
    header = []
    for line in io.BytesIO(body):
        if line in (b"\n", b"\r\n"):
            break
        header.append(line)
    return header


def field_of(header: list[bytes], name: bytes) -> bytes:
    """What follows the name in the first line of the header that begins with it."""
    for line in header:
        if line[: len(name)].lower() == name:
            return line[len(name) :]
    return b""


def flags_of(body: bytes) -> set[str]:
    """The letters that count in the two fields."""
    header = header_of(body)
    fields = field_of(header, b"status:") + field_of(header, b"x-status:")
    return {letter for letter in "ROFAD" if letter.encode() in fields}


def info_of(flags: set[str]) -> Optional[str]:
    """The info of a name, or None if it has none."""
    if not flags:
        return None
    return "2," + "".join(sorted(LETTERS[flag] for flag in flags if flag != "O"))


def sender_of(from_line: bytes) -> str:
    """The sender of a From_ line, as it is listed."""
    sender = from_line[len(b"From ") :].split(b" ", 1)[0]
    return "".join(chr(c) if 0x21 <= c <= 0x7E else "?" for c in sender) or "-"


def listing(lines: Iterable[bytes]) -> Iterator[str]:
    """The listing of a text, line by line."""
    counts = {}  # type: dict[str, int]
    for index, (from_line, body) in enumerate(messages_of(lines), 1):
        digest = hashlib.sha256(body).hexdigest()
        counts[digest] = counts.get(digest, 0) + 1
        info = info_of(flags_of(body))
        place = "new" if info is None else "cur"
        yield f"{index} {digest}.{counts[digest]} {place} {info or '-'} {len(body)} {sender_of(from_line)}\n"


def main() -> None:
    # the lines of a file in binary mode end only at \n
    source = open(sys.argv[1], "rb") if len(sys.argv) > 1 else sys.stdin.buffer
    sys.stdout.writelines(listing(source))


if __name__ == "__main__":
    main()
