"""The core of a message, by which it is known whoever has rewritten it, and its bare form.

The bare form is the message without the header fields that mail programs note for themselves. The core is the bare form
without the CRs at the ends of its lines and without the `>` before `From ` at the beginnings of lines, and it ends with
one line end. A field begins at the beginning of a line, and ends and is found as `fields` says.

Most messages are their own bare form and their own core. So nothing is hashed for these until they differ: from there
on the one that differs has a digest of its own.
"""
import hashlib
import re
from collections.abc import Iterator
from typing import Optional

from .fields import NOTED_FIELD, without
from .pieces import NEVER, Read, header_of, pieces_of

# how many bytes of a digest are kept
SHORT = 16
# rows of `>` before `From `, what each of them has, and the end of a text that may begin one, or is a CR
ROWS, IN_ROW = re.compile(rb"\n>+(?=From )"), b">From "
BEGUN = re.compile(rb"(?:(?:^|\n)>+(?:F(?:r(?:om?)?)?)?|\r)\Z")


def bare_of(text: bytes, begun: bytes) -> bytes:
    """The bare form of the beginning of a message, or of what goes on with what has begun in the header."""
    return without(NOTED_FIELD, text, 0, header_of(text, 0)[0], begun)


def core_of(text: bytes) -> bytes:
    """The core of lines of the bare form."""
    if b"\r" in text:
        text = text.replace(b"\r\n", b"\n")
    return ROWS.sub(b"\n", b"\n" + text)[1:] if IN_ROW in text else text


class Digests:
    """The digests of a message, and of its bare form and its core, which begin with the header."""

    def __init__(self, with_cores: bool = True) -> None:
        self.whole = self.bare = self.core = hashlib.sha256()
        self.size, self.with_cores = 0, with_cores
        # how many line ends of the core wait for what follows them, and whether the last line so far has ended
        self.held, self.is_ended = 0, False

    def take(self, mail: bytes, begun: Optional[bytes]) -> None:
        """Takes the next lines: of the header, of which this has begun, or of the body alone."""
        if self.with_cores:
            self.take_core(mail if begun is None else bare_of(mail, begun), mail)
        self.whole.update(mail)
        self.size += len(mail)

    def take_core(self, bare: bytes, mail: bytes) -> None:
        """Takes the next lines of the bare form and those of the mail, which the digest of that has not had yet."""
        core = core_of(bare)
        if self.bare is self.whole and bare is not mail:
            self.bare = self.bare.copy()
            self.core = self.bare if self.core is self.whole else self.core
        if self.core is self.bare and (core is not bare or bare.endswith(b"\n\n") or self.is_ended and bare == b"\n"):
            self.core = self.bare.copy()
        if self.core is not self.bare:
            text = core.rstrip(b"\n")
            if text:
                self.core.update(b"\n" * self.held + text)
                self.held, self.is_ended = 0, False
            self.held += len(core) - len(text)
        else:
            self.is_ended = bare.endswith(b"\n") if bare else self.is_ended
        if self.bare is not self.whole:
            self.bare.update(bare)

    def end(self) -> tuple[bytes, bytes]:
        """Ends the message. Returns the first bytes of the digests of its core and of its bare form."""
        if not self.is_ended:
            self.core = self.core.copy()
            self.core.update(b"\n")
        return self.core.digest()[:SHORT], self.bare.digest()[:SHORT]


def forms_of(read: Read, is_ended: bool = False) -> tuple[bytes, bytes]:
    """The first bytes of the digests of the core and of the bare form of a message that is read. Its last line may
    count as ended, as a mailbox would have it."""
    digests = Digests()
    for piece in pieces_of(read, parted_at=NEVER):
        digests.take(piece.data + b"\n" * (is_ended and piece.ends and not piece.data.endswith(b"\n")), piece.begun)
    return digests.end()


def beginning_of(read: Read) -> Iterator[bytes]:
    """The core of a message that is read, or of the beginning of one, as far as what follows could not change it. The
    line ends at its end stay as they are."""
    for piece in pieces_of(read, parted_at=NEVER):
        text = piece.data
        if piece.begun is not None:
            end, body = header_of(text, 0)
            # a line of a header may go on as another field
            is_known = body > end or text.endswith(b"\n") or not piece.ends
            text = bare_of(text if is_known else text[: text.rfind(b"\n") + 1], piece.begun)
        begun = BEGUN.search(text) if piece.ends else None
        yield core_of(text[: begun.start() + begun[0].startswith(b"\n")] if begun else text)
