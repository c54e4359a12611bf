"""What names tell: mail programs give some to mailboxes of folders, and such a file is nobody's inbox. Others are those
of files that hold no mail, if little or nothing is in them. A human names files that hold no mail."""
import fnmatch
import os
import re
import stat
from collections.abc import Sequence

from ..looks import top_above
from ..maildir.folders import IS_COMPRESSED
from ..mbox.files import open_file, read_up_to
from ..patterns import pattern
from ..terminal import text_of
from .starts import OPENING

# mutt's muttrc and manual (mbox, record, postponed), Alpine's technical notes, Thunderbird's, Evolution's and KMail's
# own folders, Apple Mail, Outlook; in lower case
NAMES = frozenset(
    (
        "mbox, sent, postponed, outbox, drafts, draft, trash, junk, spam, templates, sent-mail, sent_mail, sentmail, "
        "sent items, sent messages, sent mail, postponed-msgs, saved-messages, received, read-mail, read-messages, "
        "deleted items, deleted messages, unsent messages, archive, archives, archived"
    ).split(", ")
)
# the mail of a mailbox that Apple Mail exported, and the name of that
EXPORTED = pattern(rb"([^/]+)\.mbox/mbox\Z")
# the endings of mailboxes, of compressed files and of copies made by hand
ENDINGS = pattern(r"(?:\.mbox)?%s?(?:\.mboxrd)?\Z" % IS_COMPRESSED)
# the names of empty files that are not mailboxes: hidden ones, locks, indexes, and Dovecot's files beside its counter
EMPTY_AUXILIARY = pattern(rb"\..*|.*\.(?:lock|msf)|dovecot-uidvalidity\.[0-9a-f]{8}", re.DOTALL)
# nsMsgLocalStoreUtils.cpp: the names that Thunderbird takes for no folder
BESIDE = pattern(
    rb"(?is:(?:msgfilterrules|rules|rulesbackup|popstate|sort)\.dat|(?:filterlog|junklog)\.html|mailfilt\.log"
    rb"|filters\.js|feed(?:s|items)\.(?:json|rdf)(?:\.(?:tmp|backup|corrupt))?|feeditems_error.*|.*\.msf)"
)
# the names of files that mail programs write beside mailboxes
INDEXES = {
    "Apple's index": rb"table_of_contents|\.DS_Store|(?:Info|mbox)\.plist",
    "Evolution's index": rb".+\.(?:cmeta|ev-summary(?:-meta)?|ibex\.index(?:\.data)?)|folders\.db|folder-tree\.xml",
    "Eudora's index": rb"(?i:.+\.toc(?:\.\d{3})?|(?:descmap|filters)\.pce|eudora\.ini|lmos\.dat)",
    "Thunderbird's index": rb"%s|(?:panacea|virtualFolders)\.dat|(?:profiles|installs)\.ini" % BESIDE.pattern,
    "a Takeout's settings": rb"archive_browser\.html"
    rb"|(?:Blocked Addresses|Delegates|Filters|Settings|Vacation responder)\.json",
}
# the same as one pattern, with a group for each of them
INDEX = pattern(b"|".join(b"(%s)" % names for names in INDEXES.values()), re.DOTALL)
# the most bytes of a line that a program writes into its lock: ASCII, such as its number, which Dovecot's host follows
LONGEST_LOCK = 256
LINE_OF_LOCK = pattern(rb"(?:\d+:|(?!From |%s))[\t -~]*(?:\r?\n)?\Z" % OPENING.pattern)


def name_of_folder(path: bytes) -> str:
    """The name of the folder that a mailbox is, if a mail program gives such a mailbox its name; empty otherwise."""
    exported = EXPORTED.search(os.path.abspath(path))
    if exported:
        name = exported[1].decode("utf-8", "replace").replace(".", "-")
        return name if name.lower() != "inbox" else ""
    name = ENDINGS.sub("", os.path.basename(path).decode("utf-8", "replace"), count=1)
    return name if name.lower() in NAMES else ""


def passes_over(words: Sequence[bytes], tops: Sequence[bytes], path: bytes, is_known: bool) -> bool:
    """Whether words pass over a file that is not mbox text: one of them is its whole path or, if its kind is not known,
    a pattern for its path below one of these folders, or for its name."""
    whole = os.path.abspath(path)
    if any(os.path.abspath(word) == whole for word in words):
        return True
    above = top_above(path, tops) or os.path.dirname(path)
    below = text_of(os.path.relpath(path, above or b"."))
    return not is_known and any(fnmatch.fnmatchcase(below, text_of(word)) for word in words)


def is_no_mail(path: bytes) -> bool:
    """Whether a file is known to hold no mail, by its name and its size, or as a lock of one line. A symbolic link is
    not."""
    state, name = os.lstat(path), os.path.basename(path)
    if not stat.S_ISREG(state.st_mode) or state.st_size > LONGEST_LOCK:
        return False
    if state.st_size == 0:
        return is_auxiliary(name)
    if not name.endswith(b".lock"):
        return False
    with open_file(path, os.O_NOFOLLOW) as file:
        text = read_up_to(file, LONGEST_LOCK + 1)
    return len(text) <= LONGEST_LOCK and LINE_OF_LOCK.match(text) is not None


def is_auxiliary(name: bytes) -> bool:
    """Whether a file of this name may be known to hold no mail. One of another name never is."""
    return EMPTY_AUXILIARY.fullmatch(name) is not None or bool(index_of(name))


def index_of(path: bytes) -> str:
    """What a file is by its name if a mail program writes such files; empty otherwise. One that holds mail is none."""
    found = INDEX.fullmatch(os.path.basename(path))
    return [*INDEXES][found.lastindex - 1] if found and found.lastindex else ""
