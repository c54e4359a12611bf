"""A mailbox that is open, and what the record of a Maildir and the ledger of a folder know of it before it is read."""
import collections
from collections.abc import Container, Iterable, Iterator, Sequence
from typing import NamedTuple, Optional

from ..ledger.gone import gone_there
from ..ledger.history import About, Event, Note, RecordLine
from ..ledger.ledger import Ledger, count_in
from ..ledger.match import cores_of
from ..ledger.record import Record, is_gone, unspelled
from ..looks import is_folder, is_there, state_at
from ..maildir.folders import INBOX, folder_path
from ..maildir.making import SyncNames, make_maildir
from ..mbox.inventory import Inventory
from ..mbox.mailbox import Mailbox
from ..terminal import spelled


# of what is known, more than one in so many is much if it is gone
ONE_IN = 10


class Opened(NamedTuple):
    """A mailbox that is open and locked, and the folder of a Maildir that it goes into: its name on the disk, and its
    path."""

    mailbox: Mailbox
    maildir: bytes
    name: bytes
    folder: bytes

    @classmethod
    def into(cls, maildir: bytes, name: bytes, mailbox: Mailbox) -> "Opened":
        """A mailbox that goes into the folder of this name in a Maildir."""
        return cls(mailbox, maildir, name, folder_path(maildir, name))

    @property
    def about(self) -> About:
        """The folder, and the mailbox by its size and its SHA-256."""
        return About(self.name, *self.mailbox.key())

    def make_folder(self, sync: SyncNames) -> None:
        """Makes the folder if it is missing. `sync` syncs its names."""
        make_maildir(self.folder, self.name == INBOX, sync)

    def has_changed(self, text: Mailbox) -> bool:
        """Whether the mailbox, or the text that stands for it, has changed since it was looked at."""
        return self.mailbox.has_changed() or text.has_changed()


class Elsewhere(NamedTuple):
    """A line of the index by which a mailbox went into another folder; how many of these messages this one has; whether
    the folder is still there; whether the mailbox is there twice: it was moved, or has its path, and is no other one
    with its bytes; and the cores of what is gone from the folder."""

    line: RecordLine
    messages: int
    has_folder: bool
    is_moved: bool
    gone: collections.Counter[bytes]


class Known:
    """What is known of an open mailbox: by the ledger of its folder or, if that lacks something of it, by the index."""

    def __init__(self, record: Record, ledger: Ledger, opened: Opened) -> None:
        self.record, self.ledger, self.opened = record, ledger, opened
        self.names = record.names_of(opened.mailbox.path)
        # its path as the ledger spells it
        self.path = next((name for name in self.names if name in ledger.paths()), self.names[0])
        # the lines of the index about mailboxes of which the ledger lacks something; and that about this one, which may
        # have been moved, if the ledger lacks something of it
        self.unknown = record.unknown_to(opened.name, ledger)
        self.by_index = next((one for one in self.unknown if one.path in self.names), None)
        if not self.by_index and self.path not in ledger.paths():
            moved = (one for one in self.unknown if self.has_bytes_of(one) and is_gone(one.path))
            self.by_index = next(moved, None)
        # no number is given again of a batch that the ledger has lost
        ledger.last = max(ledger.last, record.last_numbers.get(ledger.number, 0))

    def has_bytes_of(self, line: RecordLine) -> bool:
        """Whether the mailbox has the bytes of the one that a line is about. One of another size is not read for that,
        and one without a byte is no other one."""
        mailbox = self.opened.mailbox
        return mailbox.size > 0 and line.about.size == mailbox.size and line.about[1:] == mailbox.key()

    @property
    def is_cut(self) -> bool:
        """Whether the ledger is older than what the index has of the mailbox."""
        return self.by_index is not None and self.by_index.ledger == self.ledger.number

    @property
    def is_lacking(self) -> bool:
        """Whether the ledger, as it is by now, lacks something that the index has of the path of the mailbox."""
        return any(one.path in self.names for one in self.record.unknown_to(self.opened.name, self.ledger))

    @property
    def is_begun(self) -> bool:
        """Whether a run was killed that may have placed something of the mailbox."""
        return self.ledger.pending(self.path) is not None

    def done(self) -> Optional[RecordLine]:
        """What is known of the mailbox if all of it is done, by its bytes; None if it is not."""
        mailbox = self.opened.mailbox
        if not mailbox.size:
            source = self.ledger.sources.get(self.path)
            notes = self.record.noting(Note.EMPTY, self.opened.name, self.names)
            is_open = self.path in self.ledger.leaving or source and source.count()
            return None if is_open else next((one for one in notes if one.about == self.opened.about), None)
        if self.by_index:
            return self.by_index if self.has_bytes_of(self.by_index) and self.by_index.what is Event.DONE else None
        return self.done_at(self.path)

    def done_at(self, path: str) -> Optional[RecordLine]:
        """What the ledger has of the mailbox of a path, if that is done and had the bytes of this one. A mailbox of
        another size is not read to find this out."""
        source, mailbox = self.ledger.sources.get(path), self.opened.mailbox
        is_same = source and source.count() and source.key[0] == mailbox.size and source.key == mailbox.key()
        line = self.record.index_line(self.opened.name, self.ledger, path) if is_same else None
        return line if line and line.what is Event.DONE else None

    def elsewhere(self, inventory: Inventory, new: Sequence[int]) -> Iterator[Elsewhere]:
        """Where all went, or began to go, before another folder was named for the mailbox; and where mail went that is
        new to it, of mailboxes that are gone from their paths: it may be one of them, which was moved, or got their
        mail. A run that was killed could not say this."""
        same, others = self.lines_elsewhere(map(inventory.core, new)) if new and not self.by_index else ([], [])
        cores = cores_of(inventory) if same or others else collections.Counter[bytes]()
        for line in (*same, *others):
            ledger = Ledger(folder_path(self.record.maildir, line.about.folder))
            has, is_known = ledger.has(line.path), line.path in ledger.paths()
            if line in others and not any(has[inventory.core(at)] for at in new):
                continue
            is_whole = ledger.is_in(line.path, cores) and line.path in moved_in(ledger, self.opened.mailbox)
            is_moved = line.path in self.names or is_gone(line.path) and (line in same or is_whole)
            has_folder = is_known or is_folder(ledger.folder) and not ledger.number
            count = sum((has & cores).values()) or line.messages
            yield Elsewhere(line, count, has_folder, is_known and is_moved, gone_there(ledger, line.path))

    def lines_elsewhere(self, new: Iterable[bytes]) -> tuple[list[RecordLine], list[RecordLine]]:
        """The lines of the index about other folders: into which the mailbox went, if it is new, or one with the same
        bytes, whose path another one may have by now; and into which others went that are gone, and may have one of
        these cores."""
        record, same = self.record, list[RecordLine]()
        if self.path not in self.ledger.sources:
            own = (record.last_of(folder, self.names) for folder in record.folders_with(self.names))
            lines = record.lines_of(self.opened.mailbox)
            same = [*filter(None, own), *(line for line in lines if is_gone(line.path) or is_replaced(line))]
        others = [line for line in record.gone(new) if line not in same and line.about.folder != self.opened.name]
        return [line for line in same if line.about.folder != self.opened.name], others

    def joined(self, given: Container[bytes]) -> list[bytes]:
        """The paths of the mailboxes whose mail the folder has, and that are not gone, if a mailbox of a tree gets its
        place beside them: one command for all would have left it. Whoever gives its path chooses the folder. What
        INBOX has of others is said of each that comes to it."""
        is_known = self.by_index or self.path in self.ledger.paths()
        if is_known or self.opened.name == INBOX or self.opened.mailbox.path in given:
            return []
        others = (unspelled(path) for path in self.ledger.paths() if path != self.path)
        return list(filter(is_there, others))

    def paths(self) -> list[str]:
        """The path by which the ledger has the mailbox or, if it has none, those from which it may have been moved."""
        return [self.path] if self.path in self.ledger.paths() else moved_in(self.ledger, self.opened.mailbox)

    def take_place_by_bytes(self) -> None:
        """Takes the place of a mailbox of the folder that is done and gone from its path, if this one has its bytes: it
        was moved."""
        paths = self.ledger.paths()
        if not self.opened.mailbox.size or self.by_index or self.path in paths:
            return
        moved = next((path for path in paths if self.done_at(path) and is_gone(path)), None)
        if moved is not None:
            self.move(moved)

    def take_place_by_cores(self, inventory: Inventory) -> None:
        """Takes the place of a mailbox of the folder that is gone from its path, if this one is the same file, or has
        its bytes, and has all that it had. Of one that had no message, only bytes show that it is the same."""
        ledger = self.ledger
        if self.path in ledger.paths():
            return
        moved = self.paths()
        cores = cores_of(inventory) if moved else collections.Counter[bytes]()
        path = next((path for path in moved if ledger.is_in(path, cores) or self.has_bytes_without_mail(path)), None)
        if path is not None:
            self.move(path)

    def has_bytes_without_mail(self, path: str) -> bool:
        """Whether the mailbox of a path had the bytes of this one, but no message: a server keeps its UIDs there."""
        mailbox, ledger = self.opened.mailbox, self.ledger
        return mailbox.size > 0 and not count_in(ledger, path) and ledger.last_read(path).key == mailbox.key()

    def move(self, path: str) -> None:
        """Notes that what the mailbox of a path brought, the UIDs that the folder has from it, and what was decided
        about it, are this one's."""
        record, name, now = self.record, self.opened.name, spelled(self.opened.mailbox.path)
        # a run that is killed after the ledger says it would never say whose these are
        several = [*record.notes(Note.NUMBERED, name)[-1:], *record.notes(Note.ANSWERED, name)]
        record.add_lines(*(one._replace(path=now) for one in several if one.path == path))
        self.ledger.move(path, self.path)


def moved_in(ledger: Ledger, mailbox: Mailbox) -> list[str]:
    """The paths in the ledger of mailboxes that are gone from there, and of which this one may be the moved one: it has
    the bytes of that, or is the same file. To be sure, it also has all that the mailbox had."""
    key, inode = mailbox.key(), mailbox.state.st_ino
    return [path for path in ledger.paths() if ledger.is_of(path, key, inode) and is_gone(path)]


def is_replaced(line: RecordLine) -> bool:
    """Whether a mailbox of another size is at the path of one."""
    state = state_at(unspelled(line.path))
    return state is not None and state.st_size != line.about.size
