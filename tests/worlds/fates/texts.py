"""The contents of the files of a world, each with its fate, and mail with the messages that a Maildir must have from
it. What holds no mail, is of another kind or is not known are the rows of a table."""
import bz2
import enum
import gzip
import lzma
import re
from collections.abc import Callable, Iterator, Sequence
from random import Random
from typing import NamedTuple

from tests.support.splitter import split
from tests.tables.kinds import ALONE, LIKE_MAIL, NOT_KNOWN
from tests.tables.other_kinds import KINDS
from tests.worlds.letters import PLAIN as LINES
from tests.worlds.letters import SEEN, Letter, asctime, moment


class Fate(enum.Enum):
    """What is to become of a name."""

    DONE = "done"
    LEFT = "left"
    NO_MAIL = "no mail"


class Content(NamedTuple):
    """The bytes of a file, its fate wherever they are, the messages in it, and what its row says."""

    data: bytes
    fate: Fate
    messages: tuple[bytes, ...] = ()
    says: str = ""
    # whether nobody can say what it is, so that --no-mail may apply to it; and whether something in it looks like mail
    is_unknown: bool = False
    is_like_mail: bool = False

    def under(self, raw: bytes) -> "Content":
        """What it is under a name. What nobody knows is an index under the name of one, if it does not look like
        mail, and a short line of ASCII is a lock."""
        is_line = len(self.data) <= 256 and self.data.isascii() and len(self.data.splitlines()) == 1
        is_lock = raw.endswith(b".lock") and is_line
        is_index = raw.endswith(b".msf") and not self.is_like_mail
        return no_mail(self.data) if self.is_unknown and (is_index or is_lock) else self


Maker = Callable[[Random], Content]
# lines that mean nothing to a mailbox, lines that a writer must quote, and some that only look like these
PLAIN = [line for line in LINES if line != b">"]
QUOTABLE = [b"From the start", b">From the other", b">>From afar", b"From a@b Mon Mar  3 09:12:44 2025"]
FIRST_OF_MAY = b"From the first of May"
# what is put before a text that begins after a crash
NULS = bytes(512)


def letter(draw: Random, lines: Sequence[bytes] = PLAIN, first: bytes = b"") -> Letter:
    """A letter that no other letter equals, with some of these lines, after a first one if that is given."""
    number = draw.getrandbits(64)
    header = b"From: u%d@example.org\nSubject: note %d\n" % (number % 97, number) + draw.choice(SEEN)
    body = [*([first] if first else []), *draw.choices(lines, k=draw.randrange(4)), b"the end"]
    return Letter(b"u%d@example.org" % (number % 97), moment(draw), header, b"".join(line + b"\n" for line in body))


def letters(draw: Random, lines: Sequence[bytes] = PLAIN, first: bytes = b"", most: int = 3) -> list[Letter]:
    """One or more of them."""
    return [letter(draw, lines, first) for _ in range(draw.randint(1, most))]


def mailbox(several: Sequence[Letter], kind: str = "mboxrd") -> bytes:
    """A mailbox to which these letters were delivered."""
    return b"".join(one.delivered(kind) for one in several)


def done(text: bytes, word: str = "mboxrd") -> Content:
    """Mail that is converted, as it is read by a word."""
    return Content(text, Fate.DONE, split(text, word))


def left(data: bytes, says: str = "") -> Content:
    """Something that is left, with a row that says this."""
    return Content(data, Fate.LEFT, (), says)


def no_mail(data: bytes) -> Content:
    """What is known to be no mail."""
    return Content(data, Fate.NO_MAIL)


def not_known(data: bytes, is_like_mail: bool = False) -> Content:
    """Something of an unknown kind, which is left."""
    return Content(data, Fate.LEFT, (), "not known", True, is_like_mail)


def always(content: Content) -> Maker:
    """The same whatever is drawn."""
    return lambda _: content


def mboxrd(draw: Random) -> Content:
    """mboxrd."""
    return done(mailbox(letters(draw, [*PLAIN, *QUOTABLE])))


def packed(pack: Callable[[bytes], bytes]) -> Maker:
    """A compressed mailbox."""

    def make(draw: Random) -> Content:
        content = done(mailbox(letters(draw)))
        return content._replace(data=pack(content.data))

    return make


def cut(pack: Callable[[bytes], bytes], says: str) -> Maker:
    """One that is left."""
    return lambda draw: left(pack(mailbox(letters(draw))), says)


def undated(draw: Random) -> bytes:
    """A letter behind a From_ line without a date."""
    one = letter(draw)
    return one.delivered("mboxrd").replace(b" " + asctime(one.when), b"", 1)


def after_nulls(draw: Random) -> Content:
    """NULs that a crash left, before a dated From_ line with a header."""
    count = draw.choice([1, 512, 4096, 70000])
    return done(bytes(count) + mailbox(letters(draw)))._replace(says=f"byte {count + 1}")


def one_mail(draw: Random) -> Content:
    """One mail as it is sent, without a From_ line."""
    return left(letter(draw).whole)


def wrong_lengths(draw: Random) -> Content:
    """mboxcl2 with wrong lengths: it is a guess where messages end."""
    text = mailbox(letters(draw, first=FIRST_OF_MAY), "mboxcl2")
    return left(re.sub(rb"(?m)^Content-Length: (\d+)", lambda found: b"Content-Length: %d" % (int(found[1]) + 5), text))


def of_table() -> Iterator[tuple[str, Content]]:
    """The rows of the table, by their kinds."""
    for number, (data, kind, then) in enumerate(KINDS):
        if "no mail" in kind:
            yield f"{kind} {number}", no_mail(data)
        elif kind.startswith("not known, compressed"):
            yield f"{kind} {number}", not_known(data, ALONE in then)._replace(says=kind)
        elif kind == "not known" and then in (NOT_KNOWN, LIKE_MAIL):
            yield f"{kind} {number}", not_known(data, then == LIKE_MAIL)
        elif "messages" not in kind:
            yield f"{kind} {number}", left(data, kind)


Makers = dict[str, Maker]
TABLE = dict(of_table())

MAIL: Makers = {
    "mboxrd": mboxrd,
    # of mail without a `>From ` of its own: it is read as it was written
    "mboxo": lambda draw: done(mailbox(letters(draw, [*PLAIN, *QUOTABLE[:1]]), "mboxo"), "mboxo"),
    # correct lengths stay in the mail
    "mboxcl2": lambda draw: done(mailbox(letters(draw, first=FIRST_OF_MAY), "mboxcl2"), "mboxcl2"),
    # a program has added the CR
    "CR LF": lambda draw: done(mailbox(letters(draw, [one for one in PLAIN if b"\r" not in one] + QUOTABLE), "crlf")),
    # no date, but a header
    "undated": lambda draw: done(undated(draw)),
    "NULs": after_nulls,
    "gzip": packed(gzip.compress),
    "bzip2": packed(bz2.compress),
    "xz": packed(lzma.compress),
}
DOUBTFUL: Makers = {
    "wrong lengths": wrong_lengths,
    # its writer quoted nothing
    "not quoted": lambda draw: left(mailbox(letters(draw, first=FIRST_OF_MAY), "unquoted"), "quote"),
    # this may be the rest of a message, and of this a part is lost
    "NULs, undated": lambda draw: left(NULS + undated(draw)),
    "NULs and text": lambda draw: left(NULS + b"the rest of a line\n\n" + mailbox(letters(draw))),
    # it has lost its first byte
    "damaged": lambda draw: left(mailbox(letters(draw))[1:]),
    "one mail": one_mail,
    "notes": lambda draw: not_known(b"From time to time I write\nabout garden %d\n" % draw.randrange(1000), True),
}
NO_MAIL: Makers = {kind: always(one) for kind, one in TABLE.items() if one.fate == Fate.NO_MAIL}
OF_ANOTHER_KIND: Makers = {
    "gzip of gzip": cut(lambda text: gzip.compress(gzip.compress(text)), "compressed by gzip"),
    "cut gzip": cut(lambda text: gzip.compress(text)[:-1], "it is incomplete"),
    "bzip2 and more": cut(lambda text: bz2.compress(text) + b"BZh8", "stream 2"),
    "MMDF of letters": cut(lambda text: b"\1\1\1\1\n" + text + b"\1\1\1\1\n", "MMDF"),
    **{kind: always(one) for kind, one in TABLE.items() if one.fate == Fate.LEFT and not one.is_unknown},
}
UNKNOWN: Makers = {
    "text": lambda draw: not_known(b"hello\nthis is no mail %d\n" % draw.randrange(1000) * draw.randint(1, 20)),
    # it has two lines, so that it is no lock whatever its name
    "bytes": lambda draw: not_known(b"\xf7\x13\n" + draw.getrandbits(800).to_bytes(100, "big") + b"\n"),
    "ELF": always(not_known(b"\x7fELF\2\1\1" + bytes(9) + b"\2\0\x3e\0" + bytes(300))),
    "script": always(not_known(b"#!/bin/sh\necho From here on\n")),
    **{kind: always(one) for kind, one in TABLE.items() if one.is_unknown},
}
SUBSCRIPTIONS = next(one for kind, one in TABLE.items() if "subscriptions" in kind)
EVERYTHING = {**MAIL, **DOUBTFUL, **NO_MAIL, **OF_ANOTHER_KIND, **UNKNOWN}
