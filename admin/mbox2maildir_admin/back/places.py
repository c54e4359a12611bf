"""Which mailbox the mail of a folder goes back to: the one that the folder has its mail from, wherever both are now;
else the one of the folder's name; else a new one. And who makes that, and FILE.lock beside a mailbox."""
import collections
import contextlib
import functools
import os
from collections.abc import Iterable, Sequence
from contextlib import AbstractContextManager
from typing import NamedTuple, Optional

from ..faults import Fault, Left, Reason
from ..ledger.ledger import Ledger
from ..ledger.match import cores_of
from ..ledger.record import Record, is_gone, unspelled
from ..looks import is_below, is_file, is_folder, is_link, is_there
from ..maildir.folders import (
    COMPRESSED,
    INBOX,
    folder_on_disk,
    folder_path,
    folder_shown,
    folders_in,
    name_given,
    name_of,
    without_utf7,
)
from ..maildir.making import sync_folder
from ..mbox.lock_file import drop_lock, lock_file_of, spot_of
from ..mbox.mailbox import Mailbox
from ..migration.places import Planned, recorded
from ..migration.trees import Tree
from ..readings.reading import Reading
from ..readings.texts import folder_for_copies, text_then
from ..terminal import is_text, named, text_of

NO_TREE = "%s has no mailbox: name a folder for new mailboxes too, such as that of the old ones (not Thunderbird's)"
TREE_GONE = "%s has no mailbox, and the folder of the others is not there: %s"
NO_INBOX = "INBOX has no mailbox: name the one of the inbox too, such as /var/mail/NAME, even if it is not there"
GONE = "its mailbox is gone: %s"
NOT_NAMED = "its mailbox is %s, which was not named"
# what the name of a mailbox ends in that stands beside another one, which takes nothing
BESIDE = b"-back"
# how many names are tried for a new mailbox
NAMES = 100


class Names(NamedTuple):
    """The paths of mailboxes and of folders of mailboxes; that of a folder which is made for new ones if there is none
    among these; and what is said if none is the inbox."""

    paths: Sequence[bytes]
    tree: Optional[bytes] = None
    no_inbox: str = NO_INBOX


class Places:
    """The mailboxes of the folders of a Maildir, among those at some paths."""

    def __init__(self, record: Record, names: Names) -> None:
        self.record, self.names, maildir = record, names, record.maildir
        trees = {name: Tree(name, maildir).read() for name in filter(is_folder, names.paths)}
        # in its own, Thunderbird alone knows where it would look for a new mailbox
        self.trees = [name for name, tree in trees.items() if not tree.profiles.found]
        # none is made where folders came from mailboxes: it would be in the way of these, which are elsewhere
        has_folders = any(one.about.folder != INBOX for one in record.lines())
        if not self.trees and names.tree and not is_there(names.tree) and not has_folders:
            self.trees = [names.tree]
        # by folders, as they are named on the disk: the mailboxes, in the order of the names
        self.found: collections.defaultdict[bytes, list[bytes]] = collections.defaultdict(list)
        # by the paths of the mailboxes to which mail would go back by a rehearsal: the folders of that mail
        self.would = dict[bytes, bytes]()
        for name in names.paths:
            for one in trees[name].placed(record, maildir, set()) if name in trees else [self.planned(name)]:
                if one.folder:
                    self.found[one.folder].append(one.leads_to or one.path)

    def planned(self, name: bytes) -> Planned:
        """A mailbox that was named, with its folder."""
        one = recorded(Planned(name, INBOX), self.record)
        if self.record.folders_given(name) or not is_file(name):
            return one
        try:
            # root follows no symbolic link
            mailbox = Mailbox.open(name, follow=os.geteuid() != 0)
        except (Fault, OSError):
            # its row says why it can't be opened
            return one
        with mailbox:
            # the record does not know its path: a ledger may show that it was moved
            for place in folders_in(self.record.maildir):
                ledger = Ledger(place)
                if any(self.is_moved(ledger, path, mailbox) for path in ledger.sources):
                    return one._replace(folder=name_of(self.record.maildir, place))
        return one

    def is_moved(self, ledger: Ledger, path: str, mailbox: Mailbox) -> bool:
        """Whether a mailbox is the one of a ledger that is gone from its path. It has the same bytes; or it is the same
        file, which may have got another's inode, and has all that was brought. It is not read if it has another size
        and inode."""
        before = ledger.sources[path]
        is_same = bool(before.inode) and before.inode == mailbox.state.st_ino
        if not (is_same or before.key[0] == mailbox.size) or not is_gone(path):
            return False
        if before.key == mailbox.key():
            # any two that are empty have the same bytes
            return is_same or mailbox.size > 0
        reading = Reading.of_words(before.words)._replace(stripped=False)
        with text_then(mailbox, reading, folder_for_copies(self.record.maildir, self.record.is_dry)) as text:
            return is_same and text is not None and ledger.is_in(path, cores_of(text.messages()))

    def name_of(self, path: bytes, folder: bytes) -> str:
        """The name by which Dovecot knows the mailbox of a folder: that of its path below a tree."""
        below = [os.path.relpath(path, tree) for tree in self.trees]
        names = [one for one in below if one.split(b"/")[0] != b".."]
        return without_utf7(text_of(names[0] if names else name_given(folder)))

    def of(self, folder: bytes) -> list[bytes]:
        """The mailboxes of a folder, of which the first one that takes mail gets it; those that brought mail come
        first. Raises Left if there is none, and none can be made."""
        paths = Ledger(folder_path(self.record.maildir, folder)).paths()
        found = self.found.get(folder, [])
        there = sorted(filter(is_there, found), key=lambda one: not set(self.record.names_of(one)) & set(paths))
        if there:
            return there
        here = [path for path in paths if not is_gone(path)]
        if paths and not here:
            raise Left(GONE % named(unspelled(paths[0])), Reason.MISSING)
        if folder == INBOX and not found:
            raise Left(self.names.no_inbox, Reason.NO_MAILBOX)
        # a Takeout is named without being in each folder of its labels; and this run may have made a mailbox
        is_new = any(is_below(unspelled(path), os.path.abspath(tree)) for path in here for tree in self.trees)
        if here and not is_new and self.paths_named.isdisjoint(here):
            raise Left(NOT_NAMED % named(unspelled(here[0])), Reason.NO_MAILBOX)
        return [found[0] if folder == INBOX else self.new(folder)]

    def are_gone(self, folder: bytes) -> bool:
        """Whether all mailboxes of a folder are gone, and no file of such a name is beside a mailbox that was named:
        some of a tree that was moved may be named."""
        paths = Ledger(folder_path(self.record.maildir, folder)).paths()
        above = {os.path.dirname(one) for found in self.found.values() for one in found}
        moved = (os.path.join(one, os.path.basename(unspelled(path))) for one in above for path in paths)
        return not any(map(is_there, (*self.found.get(folder, ()), *moved))) and all(map(is_gone, paths))

    @functools.cached_property
    def paths_named(self) -> set[str]:
        """The paths, as ledgers spell them, of all mailboxes that were named."""
        return {path for found in self.found.values() for one in found for path in self.record.names_of(one)}

    def new(self, folder: bytes) -> bytes:
        """The new mailbox of a folder, in the first tree."""
        if not self.trees and self.names.tree and not is_there(self.names.tree):
            raise Left(TREE_GONE % (folder_shown(folder), named(self.names.tree)), Reason.MISSING)
        if not self.trees:
            raise Left(NO_TREE % folder_shown(folder), Reason.NO_MAILBOX)
        parts, tree = name_given(folder).split(b"/"), self.trees[0]
        nested = os.path.join(tree, *parts)
        # a mailbox whose name is not UTF-8 becomes no folder
        is_its_own = is_text(folder) and folder_on_disk(os.path.relpath(nested, tree)) == folder
        if is_its_own and self.is_free(nested, folder):
            return nested
        return self.first_free(os.path.join(tree, b"-".join(parts)), folder)

    def beside(self, path: bytes, folder: bytes, tried: Sequence[bytes]) -> bytes:
        """The new mailbox beside one that takes nothing, and beside further ones that were tried. That of an inbox
        outside of the first tree is in the tree: its owner may make none in a spool, and would not see it there."""
        if folder == INBOX and self.trees and os.path.relpath(path, self.trees[0]).startswith(b"../"):
            path = os.path.join(self.trees[0], b"inbox")
        path = next((path[: -len(end)] for end in COMPRESSED if path.endswith(end)), path)
        return self.first_free(path + BESIDE, folder, tried)

    def first_free(self, path: bytes, folder: bytes, tried: Sequence[bytes] = ()) -> bytes:
        """The first of the names for a new mailbox of a folder that is free, and was not tried."""
        for one in (path, *(b"%s-%d" % (path, number) for number in range(2, NAMES))):
            if one not in tried and self.is_free(one, folder):
                return one
        raise Left("no name is free for a new mailbox: %s" % named(path), Reason.NO_MAILBOX)

    def is_free(self, path: bytes, folder: bytes) -> bool:
        """Whether a mailbox can be made at a path for a folder, or was made there for it before. None can be made where
        a rehearsal would have made one for another folder, nor above or below that."""
        others = (one for one, its in self.would.items() if (one, its) != (path, folder))
        if any(is_below(path, one) or is_below(one, path) for one in others):
            return False
        if is_there(path):
            is_own = is_file(path) and not is_link(path)
            return is_own and (not os.path.getsize(path) or self.is_of(path, folder))
        above = os.path.dirname(os.path.abspath(path))
        while not is_there(above):
            above = os.path.dirname(above)
        return is_folder(above)

    def is_of(self, path: bytes, folder: bytes) -> bool:
        """Whether the ledger of a folder has the mailbox at a path."""
        return not {*self.record.names_of(path)}.isdisjoint(Ledger(folder_path(self.record.maildir, folder)).paths())


class Keeper:
    """Who makes what is missing at the place of a mailbox: here, this process, with its own rights."""

    def locked(self, mailbox: Mailbox, owner: bytes) -> AbstractContextManager[None]:
        """Holds FILE.lock for an open mailbox. `owner` is the Maildir whose mail goes back. Raises Left if another
        program has it."""
        return lock_file_of(mailbox, owner)

    def drop_locks(self, paths: Iterable[bytes], owner: bytes) -> None:
        """Removes FILE.lock of each of these mailboxes which a killed run left."""
        for path in paths:
            drop_lock(spot_of(path), owner)

    def make(self, path: bytes) -> None:
        """Makes a mailbox, if it is not there, which only its owner may read, and the folders above it. They are on the
        disk then."""
        above = os.path.dirname(os.path.abspath(path))
        make_folders(above)
        with contextlib.suppress(FileExistsError):
            os.close(os.open(path, os.O_WRONLY | os.O_CREAT | os.O_EXCL | os.O_NOFOLLOW | os.O_CLOEXEC, 0o600))
        # a run that was killed may have made it, and not synced
        sync_folder(above)


def make_folders(path: bytes) -> None:
    """Makes a folder that is not there, and those above it."""
    if not is_folder(path):
        above = os.path.dirname(path)
        make_folders(above)
        os.mkdir(path, 0o700)
        sync_folder(above)
