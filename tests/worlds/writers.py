"""Writers of mailboxes. Each turns the same letters into an mbox text, as a program, or a way of using one, does. If a
docstring says so, what its writer does to lines `From ` and to lengths was measured: the program of Debian 12 was given
messages with such lines, with lengths right and wrong, with CR LF, empty, and without an end. For the others it is what
their documentation says. The last three are what happens to mailboxes: a crash leaves NUL bytes, a line loses its end,
and a sender lies."""
import re
from collections.abc import Callable, Sequence
from random import Random
from typing import NamedTuple

from tests.support.mail import INTERNAL
from tests.worlds.letters import Letter, asctime

QUOTED_FROM = re.compile(rb"^>From ", re.M)
QUOTED_MORE = re.compile(rb"^>(>*From )", re.M)
FROM = re.compile(rb"^From ", re.M)
FROM_OR_QUOTED = re.compile(rb"^(>*From )", re.M)
# the message by which Dovecot keeps an empty mailbox, without its From_ line and the blank line at its end
KEEPS_EMPTY = INTERNAL.partition(b"\n")[2][:-1].replace(b"%010d" % 2, b"%010d")


class Piece(NamedTuple):
    """The text of a message in a mailbox, with its From_ line; the message as a reader that knows the program gets it
    back; and the message that the program was given, which that reader may not be able to tell."""

    text: bytes
    message: bytes
    sent: bytes


class Written(NamedTuple):
    """A mailbox, message by message, and the word by which it is read as it was written."""

    word: str
    pieces: tuple[Piece, ...]

    @property
    def text(self) -> bytes:
        """The whole text."""
        return b"".join(piece.text for piece in self.pieces)

    @property
    def messages(self) -> tuple[bytes, ...]:
        """What a reader that knows the program gets back."""
        return tuple(piece.message for piece in self.pieces)


Writer = Callable[[Random, Sequence[Letter]], Written]


def ended(text: bytes) -> bytes:
    """A text whose last line has its end."""
    return text if text.endswith(b"\n") else text + b"\n"


def without_cr(mail: Letter) -> Letter:
    """A message without the CR before its line ends."""
    return mail._replace(body=mail.body.replace(b"\r\n", b"\n"))


def in_mboxo(text: bytes) -> bytes:
    """A message with `>` before each line `From `."""
    return FROM.sub(b">From ", text)


def out_of_mboxo(text: bytes) -> bytes:
    """What a reader makes of it. A line that began with `>From ` can't be told from one that was quoted."""
    return QUOTED_FROM.sub(b"From ", text)


def in_mboxrd(text: bytes) -> bytes:
    """A message with `>` before each line of `>`, any number of them, and `From `."""
    return FROM_OR_QUOTED.sub(rb">\1", text)


def out_of_mboxrd(text: bytes) -> bytes:
    """What a reader makes of it."""
    return QUOTED_MORE.sub(rb"\1", text)


def piece_of(from_line: bytes, text: bytes, message: bytes, sent: bytes = b"") -> Piece:
    """A From_ line and the text of a message, with a blank line after it."""
    return Piece(b"%s\n%s\n" % (from_line, text), message, sent or message)


def mboxo_of(lines: Sequence[bytes], wholes: Sequence[bytes]) -> Written:
    """Messages behind From_ lines in an mboxo."""
    pieces = []
    for line, whole in zip(lines, map(ended, wholes)):
        quoted = in_mboxo(whole)
        pieces.append(piece_of(line, quoted, out_of_mboxo(quoted), whole))
    return Written("mboxo", tuple(pieces))


def mboxrd_of(lines: Sequence[bytes], wholes: Sequence[bytes]) -> Written:
    """Messages behind From_ lines in an mboxrd."""
    several = map(ended, wholes)
    return Written("mboxrd", tuple(piece_of(line, in_mboxrd(one), one) for line, one in zip(lines, several)))


def postfix(draw: Random, mails: Sequence[Letter]) -> Written:
    """Postfix, Exim, OpenSMTPD and Python: an mboxo. Measured of Python 3.11, which quotes `From ` in the whole
    message, gives a last line its end, and leaves a length as it is."""
    blanks = draw.choice([b" ", b"  "])
    wholes = [b"Return-Path: <%s>\nX-Original-To: mia@vm\n" % one.sender + one.whole for one in mails]
    return mboxo_of([b"From " + one.sender + blanks + asctime(one.when) for one in mails], wholes)


def qmail(_: Random, mails: Sequence[Letter]) -> Written:
    """qmail-local, fdm, getmail and maildrop: an mboxrd. Measured of maildrop 2.9.3, which quotes in the whole message,
    its header too, and leaves a length as it is."""
    lines = [b"From " + one.sender.replace(b" ", b"-") + b" " + asctime(one.when) for one in mails]
    return mboxrd_of(lines, [b"Delivered-To: mia@vm\n" + one.whole for one in mails])


def with_field(mail: Letter, length: int) -> bytes:
    """A header that has a length."""
    return mail.header + b"Content-Length: %d\n" % length


def procmail(draw: Random, mails: Sequence[Letter]) -> Written:
    """procmail: an inbox to which some mails came with a length. Measured of procmail 3.22: mail without one is quoted
    as an mboxo, and a message without a body gets no additional blank line. If mail came with a length that is too
    long, procmail writes the right one, with as many digits, and quotes nothing within it."""
    pieces = []
    for one in mails:
        line = b"From %s  %s" % (one.sender, asctime(one.when))
        quoted = ended(in_mboxo(one.whole))
        if draw.random() < 0.3 and one.body.endswith(b"\n"):
            whole = one.header + b"Content-Length:%5d\n\n" % len(one.body) + one.body
            pieces.append(piece_of(line, whole, whole))
        elif one.body:
            pieces.append(piece_of(line, quoted, out_of_mboxo(quoted), ended(one.whole)))
        else:
            # by the rules the blank line of the header ends the message
            pieces.append(piece_of(line, one.header, one.header))
    return Written("mboxcl2", tuple(pieces))


def mutt(draw: Random, mails: Sequence[Letter]) -> Written:
    """mutt and neomutt, for mail of a Maildir or a server: an mboxcl2. Measured of mutt 2.2.12 and neomutt 20220429:
    they write a correct length into each message, `Lines: 0` if it is 0, and no blank line after a message whose last
    line has no end."""
    pieces = []
    for one in mails:
        status = draw.choice([b"", b"Status: RO\n", b"Status: O\n", b"Status: RO\nX-Status: AF\n"])
        lines = b"Lines: 0\n" * (not one.body)
        text = one.header + status + b"Content-Length: %d\n" % len(one.body) + lines + b"\n" + one.body
        pieces.append(piece_of(b"From " + one.sender + b" " + asctime(one.when), text, ended(text)))
    return Written("mboxcl2", tuple(pieces))


def mutt_of_a_spool(draw: Random, mails: Sequence[Letter]) -> Written:
    """mutt, neomutt and Dovecot, for mail that they copied out of a spool, and mutt when it writes a spool anew: an
    mboxcl. Measured of mutt 2.2.12, neomutt 20220429 and Dovecot 2.3.19 over a spool of Python's: the lines stay quoted
    as they were, and each message gets a length that is right for that."""
    spool = [one._replace(body=ended(in_mboxo(one.body)) if one.body else b"") for one in mails]
    read = mutt(draw, spool)
    messages = [out_of_mboxrd(piece.message) for piece in read.pieces]
    return Written("mboxcl", tuple(Piece(piece.text, one, one) for piece, one in zip(read.pieces, messages)))


def dovecot(draw: Random, mails: Sequence[Letter]) -> Written:
    """Dovecot, by IMAP or its delivery: an mboxcl2. Measured of Dovecot 2.3.19: it writes CR LF as LF, gives a last
    line its end, and an empty body a blank line. A folder that was empty once begins with a message of Dovecot's own,
    which has no length."""
    pieces = []  # type: list[Piece]
    if draw.random() < 0.4:
        internal = KEEPS_EMPTY % len(mails)
        pieces.append(piece_of(b"From MAILER_DAEMON  " + asctime(mails[0].when), internal, internal))
    for uid, one in enumerate(mails, 1):
        body = ended(without_cr(one).body)
        base = b"" if pieces else b"X-IMAPbase: 1795743055 %010d\n" % len(mails)
        status = draw.choice([b"Status: \n", b"Status: R\n", b"Status: RO\nX-Status: A\n"])
        fields = (
            one.header + base + b"X-UID: %d\n" % uid + status + b"X-Keywords:" + b" " * draw.randint(60, 75) + b"\n"
        )
        text = fields + b"Content-Length: %d\n\n" % len(body) + body
        pieces.append(piece_of(b"From %s  %s" % (one.sender, asctime(one.when)), text, text))
    return Written("mboxcl2", tuple(pieces))


def git(draw: Random, mails: Sequence[Letter]) -> Written:
    """git, mailutils and mairix: nothing is quoted. Measured of git 2.39.5, format-patch, and of mailutils 3.15, mail.
    A dated From_ line in the mail with a header after it is left out, since nothing tells it from a message."""
    form, pieces = draw.randrange(3), []
    for one in mails:
        senders = [
            b"%s %s" % (one.sender, asctime(one.when)),
            b"%040x Mon Sep 17 00:00:00 2001" % draw.getrandbits(160),
            b"mairix@mairix " + asctime(one.when),
        ]
        message = re.sub(rb"From: carla@example.net\r?\nSubject: pasted\r?\n", b"", ended(one.whole))
        pieces.append(piece_of(b"From " + senders[form], message, message))
    return Written("unquoted", tuple(pieces))


def export(draw: Random, mails: Sequence[Letter]) -> Written:
    """Exports and scripts of people's own: nothing is quoted, and From_ lines have no date that is known. They have
    Google Groups' numbers, dates of ISO 8601, or nothing. A mail alone is quoted: a dated line in it would be like the
    beginning of the next, and no other line contradicts that."""
    form, pieces = draw.randrange(3), []
    for one in mails:
        number, when = draw.getrandbits(64) - 2**63, one.when.strftime("%Y-%m-%dT%H:%M:%SZ").encode()
        sender = [b"%d" % number, b"%s %s" % (one.sender, when), b"-"][form]
        message = ended(one.whole)
        text = message if len(mails) > 1 else in_mboxrd(message)
        pieces.append(piece_of(b"From " + sender, text, message))
    return Written("mboxrd", tuple(pieces))


def with_crlf(written: Written) -> Written:
    """The same text with a CR before each line end."""
    return written._replace(
        pieces=tuple(piece._replace(text=piece.text.replace(b"\n", b"\r\n")) for piece in written.pieces)
    )


def thunderbird(draw: Random, mails: Sequence[Letter]) -> Written:
    """Thunderbird: an mboxrd, with fields that have its flags, as 153 writes it, by the guide. In a third of them the
    lines end in CR LF, and in some there is mail that is marked as deleted."""
    marks = [0, 1, 3, 5, 9] if draw.random() < 0.2 else [0, 1, 3, 5]
    fields = b"X-Mozilla-Status: %04x\nX-Mozilla-Status2: 00000000\nX-Mozilla-Keys:" + b" " * 80 + b"\n"
    wholes = [fields % draw.choice(marks) + without_cr(one).whole for one in mails]
    written = mboxrd_of([b"From - " + asctime(one.when) for one in mails], wholes)
    return with_crlf(written) if draw.random() < 0.3 else written


def evolution(draw: Random, mails: Sequence[Letter]) -> Written:
    """Evolution: an mboxo, with a field that has its numbers and flags."""
    wholes = [
        one.header + b"X-Evolution: %08x-%04x\n" % (number, draw.choice([0, 0x10, 0x11])) + b"\n" + one.body
        for number, one in enumerate(mails, 1)
    ]
    return mboxo_of([b"From " + one.sender + b" " + asctime(one.when) for one in mails], wholes)


def takeout(draw: Random, mails: Sequence[Letter]) -> Written:
    """Gmail's Takeout: an mboxrd, as the guide reads it, with labels; mostly with CR LF."""
    lines, wholes = [], []
    for one in map(without_cr, mails):
        number = draw.getrandbits(60)
        labels = draw.choice([b"Inbox,Unread", b"Inbox,Opened", b"Archived,Starred,Opened", b"Sent"])
        lines.append(b"From %d@xxx " % number + one.when.strftime("%a %b %d %H:%M:%S +0000 %Y").encode())
        wholes.append(b"X-GM-THRID: %d\nX-Gmail-Labels: %s\n" % (number, labels) + one.whole)
    written = mboxrd_of(lines, wholes)
    return with_crlf(written) if draw.random() < 0.7 else written


def public_inbox(_: Random, mails: Sequence[Letter]) -> Written:
    """public-inbox: an mboxrd whose From_ lines have no date of their own."""
    return mboxrd_of([b"From mboxrd@z Thu Jan  1 00:00:00 1970"] * len(mails), [one.whole for one in mails])


def sendmail(draw: Random, mails: Sequence[Letter]) -> Written:
    """Old sendmail and Solaris' mail.local, over UUCP: an mboxcl2 with `>From ` in the header, one for each machine
    that the message came by."""
    pieces = []
    for one in mails:
        day, year = asctime(one.when)[:-5], asctime(one.when)[-5:]
        zone, remote = draw.choice([b"", b" GMT", b" MET DST"]), draw.choice([b"", b" remote from uunet"])
        line = b"From uunet!" + one.sender.split(b"@")[0] + b" " + day + zone + year + remote
        way = b">From " + one.sender + b" " + asctime(one.when) + b" remote from vm\n"
        body = ended(one.body)
        text = way * draw.randint(0, 2) + one.header + b"Content-Length: %d\n\n" % len(body) + body
        pieces.append(piece_of(line, text, text))
    return Written("mboxcl2", tuple(pieces))


def lengths_of_senders(draw: Random, mails: Sequence[Letter]) -> list[Letter]:
    """Mail of which some has the length that its sender gave it: that of the body that was sent, with LF or CR LF, or a
    wrong one, since a machine on its way wrote the mail anew."""
    several = []
    for one in mails:
        sent = draw.random()
        length = len(one.body) + (one.body.count(b"\n") if sent < 0.1 else draw.randint(-9, 40) if sent < 0.15 else 0)
        several.append(one._replace(header=with_field(one, max(0, length))) if draw.random() < 0.3 else one)
    return several


def inbox(draw: Random, mails: Sequence[Letter]) -> Written:
    """An inbox to which some mails came with a length, by Postfix or by maildrop: these leave the length, and quote."""
    return draw.choice([postfix, postfix, qmail])(draw, lengths_of_senders(draw, mails))


def crashed(draw: Random, mails: Sequence[Letter]) -> Written:
    """A spool with NUL bytes before a message, as a machine leaves them that loses its power while it writes."""
    written = draw.choice([postfix, qmail])(draw, mails)
    place = draw.randrange(len(mails))
    pieces = list(written.pieces)
    nulls = bytes(draw.choice([1, 7, 512, 4096]))
    pieces[place] = pieces[place]._replace(text=nulls + pieces[place].text)
    return Written(written.word, tuple(pieces))


def joined(draw: Random, mails: Sequence[Letter]) -> Written:
    """Two mailboxes one after the other (`cat a b`), the first of which had lost the end of its last line. No such line
    is only `>`: a From_ line after it would look like a quoted one."""
    written = draw.choice([postfix, qmail, evolution, git])(draw, mails)
    pieces = list(written.pieces)
    place = draw.randrange(len(pieces))
    if place + 1 < len(pieces) and pieces[place].text.rstrip(b"\n").rpartition(b"\n")[2].strip(b"> \t-"):
        pieces[place] = without_end(pieces[place])
    return Written(written.word, tuple(pieces))


def lied(draw: Random, mails: Sequence[Letter]) -> Written:
    """An inbox of Postfix, in which a sender gave a length that leads over the next messages to a From_ line."""
    written = postfix(draw, mails)
    pieces = list(written.pieces)
    first = draw.randrange(len(pieces))
    last = draw.randrange(first, len(pieces))
    body = pieces[first].text.partition(b"\n\n")[2] + b"".join(piece.text for piece in pieces[first + 1 : last + 1])
    field = b"\nContent-Length: %d\n\n" % (len(body) - 1)
    pieces[first] = Piece(*(text.replace(b"\n\n", field, 1) for text in pieces[first]))
    return Written(written.word, tuple(pieces))


def without_end(piece: Piece) -> Piece:
    """A message that has lost the line ends after it."""
    lost = [text.rstrip(b"\n") for text in (piece.text, piece.message, piece.sent)]
    return Piece(lost[0], *(text + b"\n" for text in lost[1:]))


WRITERS: dict[str, Writer] = {
    one.__name__: one
    for one in (
        postfix,
        qmail,
        procmail,
        mutt,
        mutt_of_a_spool,
        dovecot,
        git,
        export,
        thunderbird,
        evolution,
        takeout,
        public_inbox,
        sendmail,
        inbox,
        crashed,
        joined,
        lied,
    )
}
