"""Subscriptions on their way back: from the list that Dovecot keeps in a Maildir into that of the old tree."""
import contextlib
import os
import stat
from collections.abc import Iterator

from ..faults import Fault, Left, Reason
from ..ledger.history import Note
from ..ledger.ledger import Ledger
from ..ledger.record import unspelled
from ..looks import is_folder, is_there, state_at
from ..maildir.folders import INBOX, folder_of_place, folder_path, on_disk
from ..migration.dovecot import FORM, OLD_SUBSCRIPTIONS, SUBSCRIPTIONS, lines_of
from ..migration.outcomes import Row, Verdict, row_left
from ..remarks import Says
from ..terminal import is_text
from ..units import counted
from .journal import NewFile
from .places import Places

# the ending of its name while it is written
DRAFT = b".mbox2maildir-back"
# the parts of the name of a folder
Name = tuple[bytes, ...]


class Lists:
    """The two lists of names, and the mailboxes by their folders."""

    def __init__(self, places: Places) -> None:
        self.maildir, self.tree, self.places = places.record.maildir, places.trees[0], places
        self.old, self.has_tabs = names_listed(os.path.join(self.tree, OLD_SUBSCRIPTIONS), b"/")
        self.new, _ = names_listed(os.path.join(self.maildir, SUBSCRIPTIONS), b".")

    def names(self) -> list[Name]:
        """What the tree is to be subscribed to: the folders of the list of the Maildir that have a mailbox there, by
        the name of that, and the mailboxes beside theirs and that of INBOX. If `migrate` wrote that list, what is
        missing there was unsubscribed, unless it is no folder. What else the list of the tree has stays, as RFC 3501,
        6.3.6 wants it, whether it is there or not."""
        old = {folder_of_old(name): name for name in reversed(self.old)}
        wanted = {folder_of_new(name): old.get(folder_of_new(name)) or self.name_of(name) for name in self.new}
        left = [name for name in self.old if folder_of_old(name) not in wanted]
        if self.places.record.notes(Note.SUBSCRIBED, INBOX):
            left = [name for name in left if not is_folder(folder_path(self.maildir, folder_of_old(name)))]
        kept = [name for name in self.old if folder_of_old(name) in wanted or name in left]
        beside = [name for folder in dict.fromkeys([INBOX, *wanted]) for name in self.beside(folder)]
        return list(dict.fromkeys([*kept, *filter(None, wanted.values()), *beside]))

    def name_of(self, name: Name) -> Name:
        """The name of the mailbox for a folder; empty if it has no mailbox in the tree. INBOX has one anywhere."""
        if folder_of_new(name) == INBOX:
            return name
        with contextlib.suppress(Left):
            path = self.places.of(folder_of_new(name))[0]
            if path in self.places.would or is_there(path):
                return self.below(path)
        return ()

    def beside(self, folder: bytes) -> Iterator[Name]:
        """The names of the mailboxes in the tree that got mail of a folder, and brought none. Without them, who is
        subscribed to the folder would not see that mail."""
        ledger = Ledger(folder_path(self.maildir, folder))
        there = filter(is_there, map(unspelled, ledger.paths()))
        for path in (*there, *(path for path, its in self.places.would.items() if its == folder)):
            if self.below(path) and not any(name in ledger.begun for name in self.places.record.names_of(path)):
                yield self.below(path)

    def below(self, path: bytes) -> Name:
        """The name of the mailbox at a path; empty if it has none in the tree."""
        # a ledger has paths as they were given, to the tree or to what it leads to
        trees = self.tree, os.path.realpath(self.tree)
        names = (tuple(os.path.relpath(path, tree).split(b"/")) for tree in trees)
        return next((name for name in names if name[0] != b".."), ())

    def write(self, path: bytes, names: list[Name]) -> None:
        """Puts the list of the tree, in the form that it has, or in that of Dovecot, in the place of a plain file, or
        of nothing, whatever ends a run. Its mode stays."""
        state = state_at(path, False)
        if state and not stat.S_ISREG(state.st_mode):
            raise Left("it is no plain file", Reason.SUBSCRIPTIONS)
        has_tabs = self.has_tabs or not self.old
        lines = [(b"\t" if has_tabs else b"/").join(name) + b"\n" for name in names]
        with NewFile.at(path + DRAFT) as new:
            new.add(FORM * has_tabs + b"".join(lines))
            os.fchmod(new.number, stat.S_IMODE(state.st_mode) if state else 0o600)
            new.put(path)


def names_listed(path: bytes, between: bytes) -> tuple[list[Name], bool]:
    """The names in a list, and whether tabs separate their parts there, and not this byte."""
    lines, has_tabs = lines_of(path)
    return [tuple(line.split(b"\t" if has_tabs else between)) for line in lines if is_text(line)], has_tabs


def folder_of_new(name: Name) -> bytes:
    """The folder on the disk for a name in the list of a Maildir."""
    return on_disk(b".".join(name).decode())


def folder_of_old(name: Name) -> bytes:
    """The folder on the disk that a mailbox of the tree becomes."""
    return on_disk(folder_of_place(b"/".join(name).decode()))


def rows_of(places: Places, is_dry: bool) -> Iterator[Row]:
    """Writes the list of the first tree, and gives its row, if anything is to change in it."""
    path = os.path.join(places.trees[0], OLD_SUBSCRIPTIONS)
    try:
        if not is_there(os.path.join(places.record.maildir, SUBSCRIPTIONS)):
            return
        lists = Lists(places)
        names = lists.names()
        if set(names) == set(lists.old):
            return
        if not is_dry:
            lists.write(path, names)
    except (Fault, OSError) as fault:
        yield row_left(path, b"", fault)._replace(reason=Reason.SUBSCRIPTIONS, is_back=True)
        return
    says = Says.SUBSCRIPTIONS.of(counted(len(names), "folder"))
    yield Row(
        path, b"", "subscriptions", None, Verdict.WOULD_BACK if is_dry else Verdict.BACK, remarks=(says,), is_back=True
    )
