"""What is printed: names and lines of mail come from others, and are escaped."""
import os
import re
import shlex
import sys
from collections.abc import Iterable, Sequence
from typing import IO, Union

from . import ADMIN
from .looks import straight

# standard input
INPUT = 0
# how many lines, messages or files of one sort are named
NAMED = 5
# what a name may not have in a sentence without quotes: what ends it there, and blanks that nobody would see
UNCLEAR = re.compile(r"""[`'"|]|->|[:;,]\s|[:;]\Z|\A\s|\s\s|\s\Z|\A\Z""")


class OutputFault(Exception):
    """Standard output takes no more bytes. The cause is an OSError."""

    def __init__(self, cause: OSError) -> None:
        super().__init__(str(cause))
        self.cause = cause


def text_of(name: Union[bytes, str]) -> str:
    """A name as a text, in which a byte that is not UTF-8 is a surrogate, whatever the locale. A text stays as
    it is."""
    return name if isinstance(name, str) else name.decode("utf-8", "surrogateescape")


def bytes_of(text: str) -> bytes:
    """The bytes of such a text. A letter that stands for no byte raises an error."""
    return text.encode("utf-8", "surrogateescape")


def shown(name: Union[bytes, str]) -> str:
    """A name, or a line of mail, as it is printed: bytes that are no printable character are escaped."""
    text = text_of(name)
    if text.isprintable():
        return text
    return "".join(one if one.isprintable() else "".join("\\x%02x" % byte for byte in bytes_of(one)) for one in text)


def named(name: Union[bytes, str]) -> str:
    """A name as it stands in a sentence or before a row: in quotes if it could be taken for a part of that."""
    text = shown(name)
    return "'%s'" % shown(text_of(name).replace("\\", "\\\\").replace("'", "\\'")) if UNCLEAR.search(text) else text


def spelled(path: bytes) -> str:
    """A path as a line of a record has it. Backslashes are escaped too, so that no two paths are spelled alike."""
    return shown(straight(path).replace(b"\\", b"\\\\"))


def operand(name: bytes) -> str:
    """A name as a word of a command that is never an option."""
    return text_of(b"./" + name if name.startswith(b"-") else name)


def first_of(names: Sequence[bytes], between: str = ", ", most: int = NAMED) -> str:
    """The first of some names, as they stand in a sentence, and how many more there are."""
    more = " and %d more" % (len(names) - most) if names[most:] else ""
    return between.join(map(named, names[:most])) + more


def option(name: str, value: bytes) -> list[str]:
    """An option with its value, as words of a command."""
    return ["%s=%s" % (name, text_of(value))] if value.startswith(b"-") else [name, text_of(value)]


def quoted(name: str) -> str:
    """A word of a command as a shell reads it as one word."""
    if name.isprintable():
        return shlex.quote(name)
    return "$'%s'" % shown(name.replace("\\", "\\\\").replace("'", "\\'"))


def is_text(name: Union[bytes, str]) -> bool:
    """Whether a name is UTF-8, as the words of mbox2maildir must be."""
    whole = bytes_of(name) if isinstance(name, str) else name
    return whole.decode("utf-8", "ignore").encode() == whole


class StatusLine:
    """The line of a terminal, on standard error, that is overwritten again and again."""

    is_written = False

    def rewrite(self, line: str) -> None:
        """Overwrites the line."""
        put_error(bytes_of("\r\x1b[K" + line))
        self.is_written = bool(line)

    def clear(self) -> None:
        """Removes the line, so that another one can be printed."""
        if self.is_written:
            self.rewrite("")


LINE = StatusLine()


def write(piece: bytes) -> None:
    """Writes bytes to standard output."""
    LINE.clear()
    try:
        sys.stdout.buffer.write(piece)
    except OSError as error:
        raise OutputFault(error) from error


def flush() -> None:
    """Flushes standard output."""
    try:
        sys.stdout.flush()
    except OSError as error:
        raise OutputFault(error) from error


def put(line: str) -> None:
    """Prints a line."""
    write(bytes_of(line) + b"\n")


def complain(line: str, below: Iterable[str] = ()) -> None:
    """Prints what is wrong, with what stands below it, after everything that was printed before."""
    flush()
    LINE.clear()
    lines = "".join("%s\n" % one for one in ("%s: %s" % (ADMIN, line), *below))
    put_error(bytes_of(lines))


def put_error(piece: bytes) -> None:
    """Writes to standard error. If that fails, nothing else changes."""
    try:
        sys.stderr.buffer.write(piece)
        sys.stderr.buffer.flush()
    except OSError:
        drop(sys.stderr)


def drop(stream: IO[str]) -> None:
    """Discards what a stream still holds, and what will be written to it."""
    nowhere = os.open(os.devnull, os.O_WRONLY)
    os.dup2(nowhere, stream.fileno())
    os.close(nowhere)


def has_terminal() -> bool:
    """Whether standard input, output and error are one terminal, and this process may read from it."""
    streams = range(3)
    try:
        is_one = all(map(os.isatty, streams)) and len({os.fstat(number).st_rdev for number in streams}) == 1
        return is_one and os.tcgetpgrp(INPUT) == os.getpgrp()
    except OSError:
        return False


def open_streams() -> None:
    """Opens /dev/null for each standard stream that is closed, so that no other file gets its number."""
    for number, name in enumerate(("stdin", "stdout", "stderr")):
        if getattr(sys, name) is None:
            os.open(os.devnull, os.O_RDONLY)
            setattr(sys, name, os.fdopen(number, "w" if number else "r"))
