"""The names of a Maildir's folders: for mailboxes by their places in a tree, and for names that a human gives."""
import base64
import os
import re
from typing import Optional

from ..patterns import pattern
from ..terminal import is_text, named, option, shown, text_of

# the name of the Maildir itself among its folders
INBOX = b"."
# how long a name may be on a disk, in bytes
LONGEST = 255
# the folders above Thunderbird's mailboxes: a profile, and in it a folder for each account
PROFILE = pattern(
    r"\A(?:(?:Profiles/)?[0-9a-z]{8}\.default[^/]*/(?:Mail|ImapMail)/[^/]+/|Mail/Local Folders/|ImapMail/[^/]+\.[^/]+/)"
)
# KMail keeps the folders below a folder in a hidden one beside it
BELOW_OF_KMAIL = pattern(r"(\A|/)\.([^/]+)\.directory(?=/)")
# Apple Mail and `readpst -r` keep the mail of a folder in a file of this name in that folder
MAIL_OF_FOLDER = pattern(r"([^/])/mbox\Z")
# the ending of a copy made by hand, and what it may stand for
COPY = b".mboxrd"
# the endings of compressed files, which may hold all of the mailbox beside them, as a copy may
COMPRESSED = b".gz", b".bz2", b".xz", b".zst", b".lz4"
COPIES = (COPY, *COMPRESSED)
IS_COMPRESSED = "(?:%s)" % "|".join(re.escape(ending.decode()) for ending in COMPRESSED)
HAND_MADE = pattern(r"([^/])%s?\.mboxrd\Z" % IS_COMPRESSED)
ENDINGS = pattern(r"([^/])\.(?:(?:sbd|mbox)(?=/)|mbox\Z)")
# Thunderbird keeps the folders below a folder in one of this ending beside it
BELOW_OF_THUNDERBIRD = pattern(r"([^/])\.sbd(?=/)")
SIX = "[A-Za-z0-9+,]"
ENCODED = pattern("&(?:%s{8})*(?:%s{2}[AEIMQUYcgkosw048]|%s{5}[AQgw])?-" % (SIX, SIX, SIX))
CONTROL = pattern(r"[\x00-\x1f\x7f-\x9f]")


def folder_name(folder: bytes) -> str:
    """The name of a folder, as a human gives it."""
    return shown(name_given(folder))


def folder_shown(folder: bytes) -> str:
    """The same as it stands in a sentence, and as a mail program shows it: no name that a reader gets is in modified
    UTF-7."""
    return named(without_utf7(text_of(name_given(folder))))


def folder_path(maildir: bytes, folder: bytes) -> bytes:
    """The path of a folder in a Maildir."""
    return maildir if folder == INBOX else os.path.join(maildir, folder)


def folders_in(maildir: bytes) -> list[bytes]:
    """The paths of the folders of a Maildir, its own among them."""
    try:
        names = [name for name in os.listdir(maildir) if name.startswith(b".")]
    except FileNotFoundError:
        return []
    return [maildir, *(os.path.join(maildir, name) for name in sorted(names))]


def name_of(maildir: bytes, folder: bytes) -> bytes:
    """The name on the disk of the folder at a path in a Maildir."""
    return INBOX if folder == maildir else os.path.basename(folder)


def on_disk(name: str) -> bytes:
    """The name on the disk of a folder with this name in IMAP."""
    return INBOX if name == "INBOX" else b"." + name.encode()


def folder_of_place(path: str) -> str:
    """The name in IMAP of the folder for a mailbox, by its path below the tree, or by that of its copy made by hand."""
    return folder_of(place_of(HAND_MADE.sub(r"\1", path)))


def folder_on_disk(path: bytes) -> bytes:
    """The name on the disk of the folder of a mailbox, by its path below the tree without the endings of compressed
    files and copies."""
    return on_disk(folder_of_place((path if path.endswith(COPY) else path + COPY).decode()))


def place_of(path: str) -> str:
    """The place of a mailbox among folders, without the names that Thunderbird, KMail, Apple Mail and readpst add."""
    return MAIL_OF_FOLDER.sub(r"\1", BELOW_OF_KMAIL.sub(r"\1\2", PROFILE.sub("", path)))


def folder_of(place: str) -> str:
    """The name in IMAP, in modified UTF-7, of the folder for a place, or of one that a human names, with `/` between
    the parts; INBOX is the Maildir itself."""
    name = ENDINGS.sub(r"\1", place)
    name = re.sub(r"(\A|/)~", r"\1-", name).replace(".", "-").replace("/", ".")
    name = re.sub(r"\A(?i:inbox)(?=\.|\Z)", "INBOX", name)
    # a name that an IMAP server made is already in modified UTF-7
    if not re.search("&|[^ -~]", ENCODED.sub("", name)):
        return name

    def encoded(found: re.Match[str]) -> str:
        return "&%s-" % base64.b64encode(found.group().encode("utf-16-be")).decode().rstrip("=").replace("/", ",")

    return re.sub("[^ -~]+", encoded, name.replace("&", "&-"))


def without_utf7(name: str) -> str:
    """A name in modified UTF-7 as a human writes it."""

    def letters(found: re.Match[str]) -> str:
        text = found[0][1:-1].replace(",", "/")
        return base64.b64decode(text + "=" * (-len(text) % 4)).decode("utf-16-be", "replace") if text else "&"

    return ENCODED.sub(letters, name)


def name_before(path: str) -> str:
    """The name of a mailbox by its path below the tree, as Dovecot names an mbox, if its folder gets another one: no
    part of a name there has a dot, or begins with `~`. What Thunderbird, KMail, Apple Mail and readpst put around their
    folders is no part of the name, and neither is the ending of a copy made by hand."""
    around = ENDINGS if MAIL_OF_FOLDER.search(path) else BELOW_OF_THUNDERBIRD
    name = around.sub(r"\1", place_of(re.sub(r"([^/])\.mboxrd\Z", r"\1", path)))
    return name if "." in name or re.search(r"(?:\A|/)~", name) else ""


def words_of(folder: bytes) -> list[str]:
    """The words of the command line that give a folder, by its name on the disk."""
    return option("--folder", name_given(folder))


def name_given(folder: bytes) -> bytes:
    """The name by which a human gives a folder, by its name on the disk."""
    return b"INBOX" if folder == INBOX else folder[1:].replace(b".", b"/")


def why_no_folder(name: str) -> Optional[str]:
    """Why a name that a human gives is no name of a folder; None if it is one."""
    if not is_text(name):
        return "the name is not UTF-8"
    name = text_of(name)
    parts = name.split("/")
    if "" in parts:
        return "a part of the name is empty: put `/` only between two parts"
    if CONTROL.search(name):
        return "the name has a control character"
    if any(set(part) == {"."} for part in parts):
        return "a part of the name has only dots"
    if "." in name:
        several = "/".join(filter(None, re.split(r"[./]", name)))
        return "the name has a dot: give %s for folders in one another, or %s" % (
            named(several),
            named(name.replace(".", "-")),
        )
    if len(on_disk(folder_of(name))) > LONGEST:
        return "the name is too long for a folder"
    return None
