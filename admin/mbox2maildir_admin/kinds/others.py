"""Files that do not begin with mbox text: the table of kinds, with what to do with each; and what is damaged, is one
mail, or is not known."""
import enum
import os
import re
from collections.abc import Callable, Sequence
from typing import NamedTuple, Optional

from ..mbox.dates import is_dated
from ..mbox.fields import NAME
from ..mbox.files import LONG, WHOLE
from ..mbox.lines import Said, cut
from ..mbox.mailbox import Mailbox
from ..mbox.pieces import pieces_of
from ..nexts import Does, Task, Template, Todo
from ..patterns import pattern
from ..terminal import shown
from ..units import LineNumber, Offset
from .look import Look, signs_of
from .making import Makes, Recipe
from .named import index_of
from .starts import HEAD, end_of_row, is_from_line, is_tar

# the date that stands for no date, and a From_ line that has it
NO_DATE = "Thu Jan  1 00:00:00 1970"
UNDATED = "From MAILER-DAEMON " + NO_DATE
# writes that line before the text
FROM_LINE = "echo '%s'" % UNDATED
# quotes the lines of one message, exactly
QUOTE_ALL = "sed 's/^>*From />&/'"
TAR = "mkdir {copy} && tar %s-xC {copy} <{}"
FIRST_FIELD = pattern(NAME)
PROPERTY_LIST = pattern(rb"\s*<(?:\?xml|!DOCTYPE plist|plist)")
# the names of subscription files of Dovecot and UW-IMAP; a line of such a file in the older form, and in version 2
SUBSCRIPTIONS = b".subscriptions", b".mailboxlist"
FOLDER_NAME = pattern(rb"(?!From )[^\0-\x1f\x7f>:][^\0-\x1f\x7f:]{0,254}\Z")
TABBED_NAME = pattern(rb"(?!From )[^\0-\x08\x0b-\x1f\x7f]{1,1024}\Z")
RULE = pattern(rb'[A-Za-z]+="[^\r\n]*"\r?\Z')
# records of 24 bytes
LOG = pattern(rb"(?:[\x01-\x0c]\0{3}.{20})*\Z", re.DOTALL)
# how the name of a kind begins that holds no mail, and what to do with such a file
NO_MAIL = "no mail: "
LEAVE: Recipe = (Task(Todo.LEAVE),)


class Holds(enum.Enum):
    """What a file holds, as far as its content shows it."""

    MAIL = "mbox text, as it is or damaged"
    OTHER = "mail of another kind, or what mail may be in"
    NO_MAIL = "no mail"
    UNKNOWN = "not known"


class Form(enum.Enum):
    """The form of a text that must be unpacked before it is read: the words of its kind, and either the program that
    unpacks it or the name of its encoding."""

    GZIP = "compressed by gzip", "gzip"
    BZIP2 = "compressed by bzip2", "bzip2"
    XZ = "compressed by xz", "xz"
    ZSTD = "compressed by zstd", "zstd"
    LZ4 = "compressed by lz4", "lz4"
    UTF_16 = "a text in UTF-16", "", "UTF-16"
    UTF_32 = "a text in UTF-32", "", "UTF-32"

    def __init__(self, kind: str, program: str, encoding: str = "") -> None:
        self.kind, self.program, self.encoding = kind, program, encoding
        # the commands by which a human unpacks it, finds out what it holds, and unpacks an archive that it holds
        by_hand = "iconv -f %s -t UTF-8 <{}" % encoding if encoding else "%s -dc <{}" % program
        self.unpacks = Template("unpack-" + (program or encoding), by_hand + " >{copy}")
        self.looks = Template("look-into-" + (program or encoding), by_hand + " | file -")
        self.unpacks_tar = Template("unpack-tar-" + program, TAR % "-I %s " % program) if program else None


class Other(NamedTuple):
    """A kind of file that is not mbox text: how it begins, what it is, and what to do with it."""

    start: re.Pattern[bytes]
    kind: str
    recipe: Recipe
    holds: Holds = Holds.OTHER
    # what else must hold, if the beginning alone does not tell
    check: Optional[Callable[[Mailbox], bool]] = None
    form: Optional[Form] = None


def lines_of(mailbox: Mailbox) -> list[bytes]:
    """The lines of a text; none if it is long, or does not end with the end of a line."""
    text = mailbox.at(0, WHOLE) if mailbox.size <= WHOLE else b""
    return text[:-1].split(b"\n") if text.endswith(b"\n") else []


def is_emlx(mailbox: Mailbox) -> bool:
    """Whether the first line says where a message ends that begins after it, and a property list begins there."""
    first, _, after = mailbox.at(0, 1 << 12).partition(b"\n")
    end = len(first) + 1 + int(first)
    return FIRST_FIELD.match(after) is not None and PROPERTY_LIST.match(mailbox.at(end, 1 << 12)) is not None


def is_mailbox_log(mailbox: Mailbox) -> bool:
    """Whether it has only records of Dovecot: four bytes for a number up to 12, 16 for a mailbox, and four for a time.
    Of a long file only the beginning tells."""
    return mailbox.size > WHOLE or LOG.match(mailbox.at(0, WHOLE)) is not None


def is_uidvalidity(mailbox: Mailbox) -> bool:
    """Whether it has the name of Dovecot's file, and only a number in it."""
    return os.path.basename(mailbox.path) == b"dovecot-uidvalidity" and mailbox.size == 8


def is_subscriptions(mailbox: Mailbox) -> bool:
    """Whether it has only names of folders, one per line; in the older form also the name of such a file."""
    lines = lines_of(mailbox)
    if lines[:1] and lines[0].startswith(b"V\t"):
        return all(TABBED_NAME.match(name) for name in lines[2:])
    is_named = os.path.basename(mailbox.path) in SUBSCRIPTIONS
    return is_named and bool(lines) and all(FOLDER_NAME.match(name) for name in lines)


def is_filter_rules(mailbox: Mailbox) -> bool:
    """Whether each line is a word and a value for it."""
    lines = lines_of(mailbox)
    return bool(lines) and all(RULE.match(line) for line in lines)


def other(
    start: bytes, kind: str, then: str, package: str = "", check: Optional[Callable[[Mailbox], bool]] = None
) -> Other:
    """A kind that may hold mail, with the command that makes a mailbox of it. Debian's package is named if it has
    another name than the program."""
    return Other(pattern(start, re.DOTALL), kind, (Makes(Template(kind, then, package)),), check=check)


def folder(start: bytes, kind: str, then: str, package: str = "") -> Other:
    """A kind that holds files, with the command that makes a folder of them."""
    return Other(pattern(start, re.DOTALL), kind, (Makes(Template(kind, then, package), is_folder=True),))


def packed(start: bytes, form: Form, package: str = "") -> Other:
    """A kind whose text is unpacked. The command unpacks it by hand."""
    return other(start, form.kind, form.unpacks.text, package)._replace(form=form)


def no_mail(start: bytes, kind: str, check: Optional[Callable[[Mailbox], bool]] = None) -> Other:
    """A kind that holds no mail."""
    return Other(pattern(start, re.DOTALL), NO_MAIL + kind, LEAVE, Holds.NO_MAIL, check)


ONE_MAIL = "(%s && %s {} && echo) >{copy}" % (FROM_LINE, QUOTE_ALL)
# MMDF quotes nothing, and its messages need no From_ line
MMDF = (
    'LC_ALL=C awk \'/^\\001\\001\\001\\001$/ {i = !i; if (!i) print ""; n = i; next} '
    'n {n = 0; if (/^From /) {print; next}; print "' + UNDATED + '"} '
    '{sub(/^>*From /, ">&"); print}\' {} >{copy}'
)
EMLX = "(%s && tail -n +2 {} | head -c $(head -n 1 {}) | %s && echo) >{copy}" % (FROM_LINE, QUOTE_ALL)
# Debian's mailutil takes only names below HOME
MAILUTIL = 'HOME=/ mailutil copy "$(realpath --relative-to=/ {})" "#driver.unix/$(realpath --relative-to=/ {copy})"'
BABYL = "cp {} {copy}.old && emacs --batch -l unrmail -f batch-unrmail {copy}.old && mv {copy}.old.mail {copy}"
MESSAGES = [
    other(rb"\x01{4}\n", "MMDF", MMDF),
    other(rb"\*mbx\*\r\n", "UW-IMAP's mbx", MAILUTIL, "uw-mailutils"),
    other(rb"BABYL OPTIONS:", "Emacs's Babyl", BABYL),
    other(rb"\d{1,18}[ \t]*\n", "Apple Mail's emlx, of one message", EMLX, check=is_emlx),
    # Dovecot, dbox-file.c: the version of the format, the size of a message's header, and when the file was made
    Other(pattern(rb"[12] M[0-9a-f]+ C[0-9a-f]+\n", re.DOTALL), "Dovecot's dbox", (Task(Todo.DOVEADM),)),
    # [MS-PST] 2.2.2.6: dwMagic
    folder(rb"!BDN", "Outlook's pst", "mkdir {copy} && readpst -r -o {copy} {}", "pst-utils"),
    # libdbx: the magic number, and a class: a folder of messages, or the list of the folders
    folder(rb"\xcf\xad\x12\xfe[\xc5-\xc7]", "Outlook Express's dbx", "mkdir {copy} && undbx {} {copy}"),
    # [MS-CFB] 2.2: Header Signature
    other(
        rb"\xd0\xcf\x11\xe0\xa1\xb1\x1a\xe1",
        "OLE2, as Outlook's msg",
        "msgconvert --mbox {copy} {}",
        "libemail-outlook-message-perl",
    ),
    packed(rb"\xff\xfe\x00\x00|\x00\x00\xfe\xff", Form.UTF_32),
    packed(rb"\xff\xfe|\xfe\xff", Form.UTF_16),
]
# GNU tar fails if the program that unpacks fails
ARCHIVE = folder(rb".{148}[ 0-7]", "an archive of tar", TAR % "")._replace(check=is_tar)
PACKED = [
    packed(rb"\x1f\x8b", Form.GZIP),
    other(rb"\x1f[\x1e\x9d]", "compressed by compress or pack", "gzip -dc <{} >{copy}"),
    packed(rb"BZh[1-9](?:1AY&SY|\x17rE8P\x90)", Form.BZIP2),
    packed(rb"\xfd7zXZ\x00", Form.XZ, "xz-utils"),
    # the properties, a dictionary of at least 64 KiB, and a size, or a mark that it is unknown: as xz's lzma_alone.c
    # checks. It has no checksum, so a file that was changed looks right
    other(rb"\]\0\0..(?:\xff{8}|....[\0-\x3f]\0{3})", "compressed by lzma", "xz -dc <{} >{copy}", "xz-utils"),
    # RFC 8878, 3.1.1 and 3.1.2
    packed(rb"\x28\xb5\x2f\xfd|[\x50-\x5f]\x2a\x4d\x18", Form.ZSTD),
    packed(rb"\x04\x22\x4d\x18", Form.LZ4),
    # it has no mark at its end, so a file that was cut looks complete
    other(rb"\x02\x21\x4c\x18", "compressed by lz4, in its old format", "lz4 -dc <{} >{copy}"),
    other(rb"LZIP\x01", "compressed by lzip", "lzip -dc <{} >{copy}"),
    other(rb"\x89LZO\0\r\n\x1a\n", "compressed by lzop", "lzop -dc <{} >{copy}"),
    folder(rb"PK(?:\x03\x04|\x05\x06|\x07\x08)", "an archive of zip", "unzip {} -d {copy}"),
    folder(rb"7z\xbc\xaf\x27\x1c", "an archive of 7z", "7z x -o{copy} {}", "p7zip-full"),
    folder(rb"Rar!\x1a\x07", "an archive of rar", "unar -D -o {copy} {}"),
    folder(
        rb"0707(?:01|02|07)[0-7]|\xc7\x71|\x71\xc7",
        "an archive of cpio",
        "mkdir {copy} && cpio -id --no-absolute-filenames -D {copy} <{}",
    ),
    ARCHIVE,
    other(rb"-----BEGIN PGP (?:MESSAGE|SIGNED MESSAGE)", "encrypted or signed by OpenPGP", "gpg -d {} >{copy}"),
    # RFC 4880, 4.2 and 5.1, 5.3, 5.6: a key that is encrypted for a public key or by words, or compressed data
    other(
        rb"(?:\x84.|\x85..|\xc1[\0-\xbf]|\xc1[\xc0-\xdf].)\x03.{8}[\x01\x02\x10\x12]"
        rb"|(?:\x8c.|\xc3[\0-\xbf])[\x04\x05][\x01-\x0d][\x00\x01\x03]|\xa3[\x01-\x03]",
        "encrypted or signed by OpenPGP",
        "gpg -d {} >{copy}",
    ),
]
IMAGES = (
    rb"\x89PNG\r\n\x1a\n|\xff\xd8\xff[\xc0-\xfe]|GIF8[79]a.{6}\0|II\x2a\0|MM\0\x2a|RIFF.{4}WEBP"
    # a bitmap's reserved bytes, and the size of its second header; an icon's or cursor's count, and its first picture
    rb"|BM.{4}\0{4}.{4}[\x0c\x28\x34\x38\x40\x6c\x7c]\0{3}|\0\0[\x01\x02]\0[\x01-\xff]\0.{3}\0"
    rb"|\0{3}.ftyp(?:heic|heix|mif1|avif)"
)
WITHOUT_MAIL = [
    no_mail(rb"// <!-- <mdb:mork", "Thunderbird's index (.msf)"),
    no_mail(rb"\0\0\0\x01Bud1", "Apple's index"),
    no_mail(rb"SQLite format 3\0", "SQLite"),
    no_mail(rb"%PDF-\d", "PDF"),
    no_mail(IMAGES, "an image"),
    # Dovecot, mail-index.h and mail-transaction-log.h: the versions, the size of the header, and whether numbers begin
    # with their lowest byte
    no_mail(rb"\x07[\0-\x1f](?:\x78\0|\0\x78).{8}[\0\x01]\0{3}", "Dovecot's index"),
    # the same, the size of the header since 1.0, 1.1 and 2.2, and the numbers of this log and of the one before
    no_mail(rb"\x01[\0-\x1f][\x18\x20\x28]\0.{4}..\0\0..\0\0", "Dovecot's index"),
    # mail-cache-private.h: the version, the size of an offset, a lower version; and an offset with its highest bits set
    no_mail(rb"\x01[\x04\x08][\0-\x1f]\0.{24}(?:[\x80-\xff]{4}|\0{4})", "Dovecot's index"),
    no_mail(rb"[\x01-\x0c]\0{3}", "Dovecot's log of mailboxes", is_mailbox_log),
    no_mail(rb"[0-9a-f]{8}\Z", "Dovecot's UIDVALIDITY", is_uidvalidity),
    no_mail(rb"V\t\d\n\n|[^\n\t]+\n", "subscriptions", is_subscriptions),
    # KMail 1, kmfolderindex.cpp, kmmsgdict.cpp, kmheaders.cpp
    no_mail(rb"# KMail-Index(?:-IDs)? V\d+\n|## KMail Sort V\d+\n", "KMail's index"),
    no_mail(rb'version="\d+"\r?\nlogging="(?:yes|no)"\r?\n', "Thunderbird's rules", is_filter_rules),
    # nsPop3Protocol.cpp, nsMsgFilterList.cpp
    no_mail(rb"# POP3 State File\r?\n# This is a generated file!  Do not edit\.\r?\n", "Thunderbird's popstate"),
    no_mail(
        rb"(?:<!DOCTYPE html>\s+<html>\s+)?<head>\s+<meta [^<>]*charset=[^<>]*>\s+"
        rb'<style type="text/css">body\{font-family:Consolas,',
        "Thunderbird's log of rules",
    ),
]
OTHERS = MESSAGES + PACKED + WITHOUT_MAIL
# a header, and a line of text without a colon before it
HEADER = pattern(rb"(?:%s[^\n]*\n(?:[ \t][^\n]*\n)*)+" % NAME)
BEFORE_HEADER = pattern(rb"[^\0\n:]*\n")
# what the header of a mail has: who sent it or which server took it, and one of the other fields. Notes, vCards,
# calendars and settings have lines like a header too
SENT, OTHER_FIELDS = b"From|Received", b"Date|Message-ID|Subject|Return-Path|MIME-Version"
FROM_SOMEBODY = pattern(rb"(?mi)^(?:%s)[ \t]*:" % SENT)
OF_MAIL = pattern(rb"(?mi)^(?:%s)[ \t]*:" % OTHER_FIELDS)
BLANKS = b"\0 \t\r\n\v\f"
BEGINS = "the mbox text begins here, at byte %d"
NO_FROM_LINE = "a line `From ` without a date at its end and without a header after it"
WITH_FROM_LINE = "(" + FROM_LINE + " && %s) >{copy}"
WITH_DATE = Makes(Template("date-line-1", "sed '1s/$/ " + NO_DATE + "/' {} >{copy}"), Does.FIRST_BEGINS)
QUOTE_LINE = Makes(Template("quote-line-1", WITH_FROM_LINE % "sed '1s/^/>/' {}"), Does.FIRST_IS_TEXT)
ASK_LINE: Recipe = (WITH_DATE, QUOTE_LINE)
BEGIN_ALL = Template("begin-all", WITH_FROM_LINE % "cat {}")
BEGIN_AT = Template("begin-at", WITH_FROM_LINE % "tail -c +{rest} {}")
WITHOUT_START = Template("cut", "tail -c +{rest} {} >{copy}")
AS_ONE_MAIL = Template("whole", ONE_MAIL)
FILE = Template("file", "file {}")
NOT_KNOWN: Recipe = (FILE, Task(Todo.PASS_OVER))
# something in it looks like mail, so nobody passes over it together with others
ALONE = Task(Todo.PASS_OVER_ALONE)
ASK_FILE: Recipe = (WITH_DATE, ALONE)
LIKE_MAIL: Recipe = (FILE, ALONE)
# a line of this form may be one of mail
LINE_OF_MAIL = pattern(rb"(?m)^(?:>*From |(?i:%s|%s)[ \t]*:)" % (SENT, OTHER_FIELDS))


def other_of(mailbox: Mailbox) -> Optional[Other]:
    """The kind in the table that a file is of, if there is one."""
    head = mailbox.at(0, HEAD)
    return next((one for one in OTHERS if one.start.match(head) and (not one.check or one.check(mailbox))), None)


class Finding(NamedTuple):
    """What a file is, what to do with it, and what is said of its lines."""

    kind: str
    recipe: Recipe
    holds: Holds
    said_lines: Sequence[Said] = ()


def finding_of(look: Look) -> Finding:
    """Finds out what a file is that does not begin with mbox text."""
    mailbox, line_of = look.mailbox, look.mailbox.line_at
    known = other_of(mailbox)
    if known:
        return Finding(known.kind, known.recipe, known.holds)
    from_lines = (piece for piece in pieces_of(mailbox.again().read) if piece.begins)
    begins = next((piece for piece in from_lines if look.sort_of(piece, *signs_of(mailbox, piece)) != "text"), None)
    found = [Said(line_of(begins.offset), BEGINS % (begins.offset + 1), shown(begins.from_line[:72]))] if begins else []
    head = mailbox.at(0, HEAD)
    if head.startswith(b"From "):
        why = [Said(LineNumber(1), NO_FROM_LINE, shown(head.split(b"\n")[0][:72]))]
        if begins:
            return Finding("damaged", ASK_LINE, Holds.MAIL, why + found)
        return Finding("not known", ASK_FILE, Holds.UNKNOWN, why)
    blanks = end_of_row(mailbox, Offset(0), BLANKS)
    text = mailbox.at(blanks, HEAD)
    line = shown(text.split(b"\n")[0][:72])
    if is_from_line(text):
        # only blank bytes come before it
        first = Said(line_of(blanks), BEGINS % (blanks + 1), line)
        found = [first, *(found if begins and begins.offset != blanks else [])]
        return Finding("damaged", (Makes(WITHOUT_START, more=(str(blanks + 1),)),), Holds.MAIL, found)
    if not begins and begins_with_mail(head):
        return Finding("one mail without a From_ line", (Makes(AS_ONE_MAIL),), Holds.MAIL)
    if is_rest_of_from_line(text):
        found.insert(0, Said(LineNumber(1), "this may be the rest of a From_ line", line))
    if not found:
        return unknown(mailbox, cut(head.split(b"\n")[0]))
    makes = Makes(BEGIN_AT, more=(str(blanks + 1),)) if blanks else Makes(BEGIN_ALL)
    return Finding("damaged", (makes,), Holds.MAIL, found)


def unknown(mailbox: Mailbox, line: str) -> Finding:
    """What a file is that begins with this line, and in which no message begins: an index by its name, or not known."""
    is_like_mail = any(LINE_OF_MAIL.search(piece.data) for piece in pieces_of(mailbox.again().read))
    index = index_of(mailbox.path)
    if index and not is_like_mail:
        return Finding(NO_MAIL + index, LEAVE, Holds.NO_MAIL)
    said = [Said(LineNumber(1), "", line)]
    return Finding("not known", LIKE_MAIL if is_like_mail else NOT_KNOWN, Holds.UNKNOWN, said)


def begins_with_mail(text: bytes, start: int = 0) -> bool:
    """Whether a text has the header of a mail, which begins at this place."""
    header = HEADER.match(text, start)
    return header is not None and all(fields.search(header[0]) for fields in (FROM_SOMEBODY, OF_MAIL))


def is_rest_of_from_line(text: bytes) -> bool:
    """Whether a text begins with what may be left of a From_ line: its date, or a line that is not of a header, before
    the header of a mail."""
    line = text.split(b"\n")[0][:LONG]
    before = BEFORE_HEADER.match(text)
    is_rest = before is not None and begins_with_mail(text, before.end())
    return is_rest or is_dated(b" " + line) and b"\0" not in line
