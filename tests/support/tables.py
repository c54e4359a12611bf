"""Tables as data: files of rows beside the tests that read them. A row is a text, and lines of what is expected of it:

    - {A}\\nhello\\n\\n
        the first of these lines

A text is written as in Python, and may go on behind a backslash that ends its line. `{A}`, `{B}`, `{INTERNAL}` and
`{MAY}` stand for those of `mail`, `{D}` for the From_ line of `{B}`, and `{9*x}` for nine `x`. Behind `-crlf` and `-cr`
each `\\n` stands for CR LF, or for CR. A line that begins with `#` is a comment.
"""
import re
from collections.abc import Iterator
from pathlib import Path
from typing import NamedTuple

from tests.support.checks import TOP, text_of
from tests.support.mail import INTERNAL, MAY, A, B

ENDS = {"-": b"\n", "-crlf": b"\r\n", "-cr": b"\r"}
PIECES = {"A": A, "B": B, "D": B.split(b"\n", maxsplit=1)[0], "INTERNAL": INTERNAL, "MAY": MAY}
# a piece by its name, or by how often it stands there
BRACES = re.compile(rb"\{(?:(\d+)\*([^}]*)|(\w+))\}")


class Row(NamedTuple):
    """A text, and what is expected of it."""

    text: bytes
    lines: list[str]


def text_in(words: str) -> bytes:
    """A text, as a table has it."""
    raw = words.encode("ascii").decode("unicode_escape").encode("latin-1")
    return BRACES.sub(lambda found: found[2] * int(found[1]) if found[1] else PIECES[found[3].decode()], raw)


def rows_of(name: str) -> list[Row]:
    """The rows of a table."""
    return list(read(TOP / "tests/tables" / name))


def read(path: Path) -> Iterator[Row]:
    """Each row of a file."""
    lines = text_of(path).replace("\\\n", "").splitlines()
    beginnings = [number for number, line in enumerate(lines) if line.startswith("-")]
    for begin, end in zip(beginnings, [*beginnings[1:], len(lines)]):
        how, _, words = lines[begin].partition(" ")
        expected = [line[4:] for line in lines[begin + 1 : end] if not line.startswith("#")]
        yield Row(text_in(words).replace(b"\n", ENDS[how]), expected)
