"""Mail: realistic letters, with the lines that mailboxes stumble over, and which part of a message is the mail,
whichever program rewrote it. Nothing here comes from the companion: a header is split, and fields are left out, line by
line."""
import datetime
import re
from collections.abc import Sequence
from random import Random
from typing import NamedTuple

SENDERS = [b"alva@example.org", b"boris@example.com", b"list-bounces+mia=example.org@lists.example.net", b"root@vm"]
WORDS = "garden shed march letter from hello report plan tea mail friend budget meeting monday rain late".split()
# lines of talk that begin like a From_ line, what others quoted before, and what looks like a header after such lines
TALK = [
    b"From the first of May we are here.",
    b"From Alice",
    b"From alice@example.org",
    b"From: alice",
    b"From here on it is Mon Mar  3 2025",
    b"From 9 to 5",
    b"From a to b:",
    b"From ",
]
QUOTED = [b">From the shed", b">>From afar", b">>>From here", b"> From time to time", b">From"]
HEADERLIKE = [b"Note: it ends", b"Subject: the shed", b"To: boris"]
PLAIN = [
    b"hello",
    b"",
    b"",
    b"> a line that was quoted",
    b"from here on, with a small letter",
    b" From behind a blank",
    b"se\xf1or, \xe4\xf6\xfc",
    "grüße, 你好".encode(),
    b"it came on Mon Mar  3 09:12:44 2025",
    b"-- ",
    b"\tTab",
    b"." * 998,
    b">",
    b"a\rb",
]
# lines of mail that is odd in other ways
ODD = [b"ends in CR LF\r", b"From me\r", b"a\0b", b"x" * 2000, b"Content-Length: 4", b"Status: RO", b"."]
# fields that programs write, as they may be in mail that somebody sends
SENT_FIELDS = ["Status: RO", "X-UID: 3", "status : O", "X-Keywords: a\n b", "X-Status: A", "Lines: 7", ""]
# the bodies of letters that are told apart by their numbers, with parts that may be mistaken
BODIES = [
    "hello {0}\n",
    "hello {0}\nFrom the shed.\n\nMore.\n",
    "hello {0}\n\nStatus: RO\nX-UID: {0}\n",
    "--a\nContent-Type: text/plain\nStatus: RO\n\nhello {0}\n--a--\n",
    "hello {0}\n\n\n",
    "{0}" + "long " * 400 + "\n",
    "hello {0}\n>From me\n",
]
# in place of one of them in ten
LONG_BODY = "{0} " + "long\n" * 20000
# the fields that Dovecot's mbox driver hides, and those that mutt, Thunderbird, Evolution and Gmail write
HIDDEN = frozenset("content-length status x-imap x-imapbase x-keywords x-status x-uid".split())
OF_PROGRAMS = HIDDEN | {"lines", "x-mozilla-status", "x-mozilla-status2", "x-mozilla-keys"}
OF_PROGRAMS |= {"x-evolution", "x-gmail-labels", "x-gm-thrid"}
# how far into its line the colon of a field may be
LONGEST = 8191
# before which lines a delivery of a kind puts a `>`
FROM, FROM_OR_QUOTED = re.compile(rb"(?m)^From "), re.compile(rb"(?m)^>*From ")
QUOTED_BY = {"mboxo": FROM, "mboxrd": FROM_OR_QUOTED, "mboxcl": FROM_OR_QUOTED, "crlf": FROM_OR_QUOTED}
# what a program notes of mail that was seen, or nothing
SEEN = [b"", b"", b"Status: RO\n", b"Status: O\nX-Status: AF\n", b"X-Status: D\n"]
# how mailboxes of a history are delivered to
KINDS = ("mboxrd", "mboxcl2", "mboxrd", "mboxcl2", "crlf")
ID = re.compile(rb"(?mi)^Message-ID: *<([^>]*)>")


def asctime(when: datetime.datetime, pad: str = " ") -> bytes:
    """A date as From_ lines have it."""
    day = ("%2d" if pad == " " else "%02d") % when.day
    return ("%s %s %s" % (when.strftime("%a %b"), day, when.strftime("%H:%M:%S %Y"))).encode()


class Letter(NamedTuple):
    """A message as its sender wrote it: the sender of its envelope, when it came, its header, and its body."""

    sender: bytes
    when: datetime.datetime
    header: bytes
    body: bytes

    @property
    def whole(self) -> bytes:
        """The message as it is sent."""
        return self.header + b"\n" + self.body

    def mail(self) -> bytes:
        """The part that is the mail, whoever delivers it."""
        return content(self.whole)

    def delivered(self, kind: str, days: int = 0) -> bytes:
        """The text that a delivery of a kind appends to a mailbox, some days later."""
        line = b"From %s %s" % (self.sender, asctime(self.when + datetime.timedelta(days)))
        return written(line, self.whole, kind)


def written(line: bytes, message: bytes, kind: str) -> bytes:
    """The text that a delivery of a kind appends to a mailbox: a From_ line without its end, and a message."""
    quoted = QUOTED_BY.get(kind)
    fields, end, body = parted(quoted.sub(rb">\g<0>", message) if quoted else message)
    length = [b"Content-Length: %d\n" % len(body)] if kind in ("mboxcl", "mboxcl2") else []
    text = b"".join([line, b"\n", *fields, *length, end, body, b"\n"])
    return text.replace(b"\n", b"\r\n") if kind == "crlf" else text


def moment(draw: Random) -> datetime.datetime:
    """A moment between 1990 and 2030."""
    return datetime.datetime(1990, 1, 1) + datetime.timedelta(seconds=draw.randrange(40 * 365 * 86400))


def sentence(draw: Random) -> bytes:
    """A line of words."""
    return " ".join(draw.choices(WORDS, k=draw.randint(2, 9))).encode()


def forwarded(draw: Random) -> list[bytes]:
    """A message of an mbox that was pasted into the mail, with a dated From_ line."""
    dated = b"From carla@example.net " + asctime(moment(draw))
    header = [b"From: carla@example.net", b"Subject: pasted"] if draw.random() < 0.5 else []
    blank = [b""] if draw.random() < 0.5 else []
    return [*blank, dated, *header, b"", b"what carla wrote"]


def talk(draw: Random) -> list[bytes]:
    """Lines that begin with `From `, some after a blank line, some before lines that look like a header."""
    lines: list[bytes] = []
    for _ in range(draw.randint(1, 3)):
        lines += [b""] * (draw.random() < 0.4) + [draw.choice(TALK + QUOTED)]
        lines += [draw.choice(HEADERLIKE)] * (draw.random() < 0.3) + [sentence(draw)]
    return lines


def in_parts(draw: Random) -> list[bytes]:
    """The body of a message of several parts, one of which is a message."""
    mark = b"=_%x" % draw.getrandbits(48)
    text = [b"--" + mark, b"Content-Type: text/plain; charset=utf-8", b"", sentence(draw), draw.choice(TALK)]
    inner = [b"--" + mark, b"Content-Type: message/rfc822", b"", b"From: carla@example.net", b"Subject: inner", b""]
    return [b"This is a message of several parts.", b"", *text, *inner, sentence(draw), b"--" + mark + b"--"]


def body_of(draw: Random) -> bytes:
    """A body, mostly plain, sometimes with lines `From `."""
    lines = [draw.choice([*PLAIN, sentence(draw)]) for _ in range(draw.randrange(6))]
    shape = draw.random()
    if shape < 0.30:
        lines += talk(draw)
    elif shape < 0.33:
        lines += forwarded(draw)
    elif shape < 0.40:
        lines = in_parts(draw)
    elif shape < 0.43:
        lines = []
    elif shape < 0.44:
        lines += [b"a\0b", bytes(draw.randint(1, 40))]
    lines += [sentence(draw) for _ in range(draw.randrange(3))]
    end = b"\r\n" if draw.random() < 0.05 else b"\n"
    body = b"".join(line + end for line in lines)
    last = draw.random()
    # a last line without an end, and blank lines at the end
    return body[: -len(end)] if body and last < 0.05 else body + end * 2 if last < 0.12 else body


def letter(draw: Random) -> Letter:
    """A letter that no other letter equals, of which anything may be mistaken."""
    sender, when, number = draw.choice(SENDERS), moment(draw), draw.getrandbits(48)
    fields = [
        b"From: " + sender,
        b"To: mia@example.org",
        b"Subject: %s %x" % (sentence(draw), number),
        b"Date: " + when.strftime("%a, %d %b %Y %H:%M:%S +0000").encode(),
        b"Message-ID: <%x@example.org>" % number,
    ]
    if draw.random() < 0.3:
        fields.append(b"Received: by mx.example.org\n\twith ESMTP id %x" % draw.getrandbits(32))
    return Letter(sender, when, b"".join(field + b"\n" for field in fields), body_of(draw))


def letters(draw: Random, most: int = 6) -> list[Letter]:
    """Some of them."""
    return [letter(draw) for _ in range(draw.randint(1, most))]


def numbered(draw: Random, number: int) -> Letter:
    """A letter by its number, about which a run mostly asks nothing."""
    name = draw.choice(SENT_FIELDS)
    header = f"From: boris@example.com\nSubject: {number}\nMessage-ID: <{number}@example.com>\n"
    header += draw.choice(["", "", "", f"{name}\n" if name else "", "X-UIDL: mine\n", "Received: a\n\tStatus: RO\n"])
    body = draw.choice([*BODIES, LONG_BODY if draw.random() < 0.1 else "short {0}\n"])
    when = datetime.datetime(2025, 3, number % 28 + 1, number % 24, 12, number % 60)
    return Letter(b"boris@example.com", when, header.encode(), body.format(number).encode())


def parted(message: bytes) -> tuple[list[bytes], bytes, bytes]:
    """The fields of a message, each with its continuations, the line that ends its header, and its body."""
    fields: list[bytes] = []
    lines = re.findall(rb"[^\n]*\n|[^\n]+\Z", message)
    for place, line in enumerate(lines):
        if line in (b"\n", b"\r\n"):
            return fields, line, b"".join(lines[place + 1 :])
        if line[:1] in (b" ", b"\t") and fields:
            fields[-1] += line
        else:
            fields.append(line)
    return fields, b"", b""


def is_one(field: bytes, names: frozenset[str]) -> bool:
    """Whether a field has one of these names."""
    name, colon, _ = field[:LONGEST].partition(b":")
    return bool(colon) and name.rstrip(b" \t").decode("latin-1").lower() in names


def without(message: bytes, names: frozenset[str] = HIDDEN) -> bytes:
    """A message without the fields of these names, and without the CR of the line that ends its header."""
    fields, end, body = parted(message)
    return b"".join(field for field in fields if not is_one(field, names)) + end.replace(b"\r", b"") + body


def bare(message: bytes, more: Sequence[bytes] = ()) -> bytes:
    """A message without the fields that mailboxes are read by, and without more of these names. Its last line has
    ended."""
    fields, end, body = parted(message)
    names = HIDDEN | {name.decode() for name in more}
    text = b"".join([*(field for field in fields if not is_one(field, names)), end, body])
    return text if text.endswith(b"\n") else text + b"\n"


def field_of(message: bytes, name: bytes) -> bytes:
    """The value of the last field of a name."""
    found: list[bytes] = re.findall(rb"(?im)^%s: *([^\r\n]*)" % name, b"".join(parted(message)[0]))
    return found[-1] if found else b""


def with_fields(message: bytes, more: bytes) -> bytes:
    """A message with more fields at the end of its header."""
    fields, end, body = parted(message)
    return b"".join([*fields, more, end, body])


def content(message: bytes) -> bytes:
    """The part of a message that is the mail, whichever program rewrote it, and however its lines `From ` are
    quoted."""
    return re.sub(rb"(?m)^>+From ", b"From ", form(message))


def form(message: bytes) -> bytes:
    """The same, with these lines as they are quoted."""
    return without(message, OF_PROGRAMS).replace(b"\r\n", b"\n").rstrip(b"\n")


def id_of(mail: bytes) -> bytes:
    """The Message-ID of a message, or else the message."""
    found = ID.search(mail)
    return found[1] if found else content(mail)
