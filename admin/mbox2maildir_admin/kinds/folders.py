"""Folders that mail programs write: those with a file for each message, which are Maildirs and folders of MH, and count
as one name each; and Thunderbird's profiles, with the places of their mailboxes among folders."""
import collections
import os
import re
from typing import NamedTuple, Optional

from ..faults import Fault
from ..looks import is_below, is_file, is_folder, may_be, upwards
from ..maildir.folders import INBOX, folder_on_disk
from ..maildir.making import GOES_BACK, GOES_BACK_NEW, SUBFOLDERS, WITH_MAIL
from ..mbox.files import is_empty, open_file
from ..mbox.pieces import FROM
from ..nexts import Next, Template, Todo, run_next, task
from ..patterns import pattern
from ..terminal import is_text, operand, text_of
from .named import BESIDE
from .others import FROM_LINE, QUOTE_ALL
from .starts import OPENING

DirEntry = os.DirEntry[bytes]
MAILDIR, MH = "it is a Maildir", "an MH folder"
BY_THUNDERBIRD = "Thunderbird has a file for each message in it: copy them into an account with one file per folder"
# what servers, and programs that copy mail, write beside the three folders of a Maildir, and what this program does
OF_MAILDIR = pattern(
    rb"maildirfolder|maildirsize|subscriptions|dovecot.*|courier.*|\.uidvalidity|\.mbsyncstate.*|\.isyncuidmap\.db"
    rb"|mbox2maildir-.*",
    re.DOTALL,
)
# the name of a message in a Maildir: a time, what is unique to it, and a host; or any name with flags behind it
OF_MESSAGE = pattern(rb"[0-9]+\.[^.]+\..+|.+:2,[^.]*", re.DOTALL)
KEYWORDS_OF_COURIER = b"courierimapkeywords"
# Apple Mail exports the mailbox NAME as a folder NAME.mbox, in which a file of this name has the mail
MBOX = b"mbox"
# the names of messages that Thunderbird has in files of their own, beside an empty folder `tmp`
OF_THUNDERBIRD, STORE = pattern(rb".+\.eml|[0-9]+", re.DOTALL), (b"cur", b"tmp")
# the names of MH's messages, and the file in which MH keeps lists of them
NUMBER, SEQUENCES = pattern(rb"[0-9]+"), b".mh_sequences"
# how many bytes of a message show how it begins
BEGINNING = 1 << 9
# makes a mailbox of the messages in a folder of MH
FROM_MH = Template(
    "from-mh",
    "(cd {} && for n in $(ls | grep -xE '[0-9]+' | sort -n); do "
    "head -c 5 $n | grep -q '^From ' || { %s; %s $n; echo; }; done) >{rest}" % (FROM_LINE, QUOTE_ALL),
)
# the folders of a profile that have a folder for each account, what else each profile has, and what stands beside all
OF_ACCOUNTS = (b"Mail", b"ImapMail")
PREFERENCES, LIST = b"prefs.js", b"profiles.ini"
# where profiles are below the folder with that list, on some systems
PROFILES = b"Profiles"


def is_maildir(path: bytes) -> bool:
    """Whether there is a folder that is a Maildir."""
    if not is_folder(path):
        return False
    with os.scandir(path) as found:
        return has_maildir([*found])


def has_maildir(entries: list[DirEntry]) -> bool:
    """Whether a folder with these entries is a Maildir: it has the three folders, and none of them is a symbolic link.
    What packs or copies files may leave out empty folders: then one of messages is enough."""
    lacking, subs = lacking_in(entries), [one for one in entries if one.name in SUBFOLDERS]
    are_missing = not any(one.name in lacking for one in subs)
    return not lacking or are_missing and any(has_messages(one.path) for one in subs if one.name in WITH_MAIL)


def lacking_in(entries: list[DirEntry]) -> set[bytes]:
    """The folders of a Maildir that are not among these entries."""
    return {*SUBFOLDERS} - {entry.name for entry in entries if entry.is_dir(follow_symlinks=False)}


def has_messages(folder: bytes) -> bool:
    """Whether each name in a folder is one that a Maildir gives to a message, and the first one is of mail. If the
    folder can't be read, it is left for that reason later."""
    try:
        with os.scandir(folder) as found:
            entries = sorted(found, key=lambda entry: entry.name)
    except OSError:
        return False
    are_named = all(OF_MESSAGE.fullmatch(one.name) and one.is_file(follow_symlinks=False) for one in entries)
    return are_named and any(OPENING.match(head_of(one.path)) for one in entries[:1])


def has_store(entries: list[DirEntry]) -> bool:
    """Whether a folder with these entries is one of Thunderbird's in which each message has a file."""
    subs = {one.name: one.path for one in entries if one.is_dir(follow_symlinks=False)}
    if not subs.keys() >= {*STORE}:
        return False
    try:
        return any(map(OF_THUNDERBIRD.fullmatch, os.listdir(subs[b"cur"])))
    except OSError:
        # it is left for that reason later
        return False


def is_of_maildir(entry: DirEntry) -> bool:
    """Whether a name in a Maildir is part of it. A mailbox of another program is not, whatever its name is."""
    if entry.is_dir(follow_symlinks=False):
        return entry.name in (*SUBFOLDERS, KEYWORDS_OF_COURIER)
    if not entry.is_file(follow_symlinks=False) or not OF_MAILDIR.fullmatch(entry.name):
        return False
    # what goes back is mbox text, which the files of the Maildir have too
    return entry.name in (GOES_BACK, GOES_BACK_NEW) or not head_of(entry.path).startswith(FROM)


def is_export(path: bytes, entries: list[DirEntry]) -> bool:
    """Whether a folder with these entries is a mailbox as Apple Mail exports it."""
    is_named = os.path.basename(os.path.abspath(path)).endswith(b"." + MBOX)
    return is_named and any(entry.name == MBOX and entry.is_file(follow_symlinks=False) for entry in entries)


def messages_of_mh(entries: list[DirEntry]) -> list[DirEntry]:
    """Those of the entries that are messages of MH: files that have numbers as names and begin with a header."""
    return [
        entry
        for entry in entries
        if NUMBER.fullmatch(entry.name) and entry.is_file(follow_symlinks=False) and OPENING.match(head_of(entry.path))
    ]


def head_of(path: bytes) -> bytes:
    """How a file begins. Nothing if it can't be read; it is left for that reason later."""
    try:
        with open_file(path, os.O_NOFOLLOW) as file:
            return file.read(BEGINNING) or b""
    except (OSError, Fault):
        return b""


def next_of_mh(path: bytes, copy: bytes) -> Next:
    """The command that makes a mailbox of a folder of MH."""
    return run_next(FROM_MH, operand(path), operand(copy)) + task(Todo.MOVE_AWAY, text_of(path))


class MailboxPlace(NamedTuple):
    """The place of a mailbox among folders: an account, with `/`, if it needs one, and its name; and whether it is an
    Inbox with mail, and not the only one."""

    account: bytes
    name: bytes
    is_inbox: bool = False


class Profile:
    """A profile, and which of its accounts have mail for which folders."""

    def __init__(self, path: bytes) -> None:
        self.path = os.path.abspath(path)
        self.givers: collections.defaultdict[bytes, set[bytes]] = collections.defaultdict(set)
        for top in OF_ACCOUNTS:
            for folder, folders, names in os.walk(os.path.join(self.path, top)):
                if {*STORE} <= set(folders):
                    # each message has a file
                    folders.clear()
                    continue
                for file in (os.path.join(folder, name) for name in names):
                    account, below = self.parted(file)
                    if account and is_text(below) and head_of(file).startswith(FROM):
                        self.givers[folder_on_disk(below)].add(account)

    def parted(self, path: bytes) -> tuple[bytes, bytes]:
        """The account of a mailbox, by its path in the profile, and the path below that."""
        parts = os.path.relpath(path, self.path).split(b"/", 2)
        return (b"/".join(parts[:2]), parts[2]) if len(parts) == 3 and parts[0] in OF_ACCOUNTS else (b"", b"")

    def place(self, path: bytes) -> MailboxPlace:
        """The place of a mailbox. It has its account only if another one has mail for the same folder."""
        account, below = self.parted(path)
        if not account:
            return MailboxPlace(b"", os.path.relpath(path, self.path))
        folder = folder_on_disk(below) if is_text(below) else b""
        if len(self.givers.get(folder, ())) < 2:
            return MailboxPlace(b"", below)
        return MailboxPlace(os.path.basename(account) + b"/", below, folder == INBOX and account in self.givers[folder])


class Profiles:
    """The profiles of a tree: those in it that were met, or the one that it is in."""

    def __init__(self, old: bytes) -> None:
        self.old = old
        self.found: list[Profile] = []
        above = next(filter(is_profile, upwards(old)), None)
        if above is not None:
            self.found.append(Profile(above))

    def parted(self, folder: bytes, entries: list[DirEntry]) -> tuple[list[DirEntry], list[DirEntry]]:
        """The names in a folder that are looked at, and the rest, which holds no mail: of a profile, and of the folder
        above the profiles. Takes a profile that is named by its parent. Raises OSError if a name can't be looked at."""
        if is_profile(folder):
            if os.path.dirname(folder) in (self.old, os.path.join(self.old, PROFILES)):
                self.found.append(Profile(folder))
            wanted = [one for one in entries if one.name in OF_ACCOUNTS]
        elif any(one.name == LIST for one in entries):
            wanted = [one for one in entries if one.name == PROFILES or may_be(is_profile, one.path)]
        else:
            wanted = []
        return (wanted, [one for one in entries if one not in wanted]) if wanted else (entries, [])

    def profile_of(self, path: bytes) -> Optional[Profile]:
        """The profile in which a file is."""
        return next((one for one in self.found if is_below(os.path.abspath(path), one.path)), None)

    def place(self, path: bytes, top: bytes) -> MailboxPlace:
        """The place of a mailbox of the tree, which is that below a folder if it is in no profile."""
        profile = self.profile_of(path)
        return profile.place(os.path.abspath(path)) if profile else MailboxPlace(b"", os.path.relpath(path, top))

    def is_no_mail(self, path: bytes) -> bool:
        """Whether a file of a profile stands beside mailboxes, or is an empty mailbox of an account without mail."""
        profile = self.profile_of(path)
        if not profile or head_of(path).startswith(FROM):
            return False
        is_beside = BESIDE.fullmatch(os.path.basename(path)) is not None
        account, _ = profile.parted(os.path.abspath(path))
        return is_beside or is_empty(path) and not any(account in givers for givers in profile.givers.values())


def is_profile(path: bytes) -> bool:
    """Whether a folder has the settings of a profile, and one of its folders for accounts."""
    return is_file(os.path.join(path, PREFERENCES)) and any(is_folder(os.path.join(path, one)) for one in OF_ACCOUNTS)
