"""What a command does for one user, with that user's rights: `migrate`, and what other commands do in its place."""
import functools
import marshal
import os
import stat
from collections.abc import Iterator, Mapping, Sequence
from typing import Any, NamedTuple, Optional, Union

from .. import MAILDIR
from ..faults import Fault, Left, Reason
from ..jobs.crew import Parent
from ..ledger.prepared import has_list
from ..ledger.record import Record
from ..looks import is_there, may_be
from ..maildir.folders import folders_in
from ..maildir.making import want_own
from ..migration.outcomes import Observer, Row, row_left
from ..migration.places import UserHome, folders_of_moved
from ..migration.servers import want_unread
from ..migration.several import refuse, run_all
from ..migration.options import Options
from ..migration.telling import Whose, told
from ..nexts import Runs
from ..program import Program
from ..terminal import bytes_of, named, option, shown, text_of
from .accounts import Account, why_no_home
from .clerks import InboxClerk, Inboxes, sync_by_root


class SpoolUser(NamedTuple):
    """An account under one of its names, and the place of that name in the spool, with how many bytes the mailbox there
    has: None if there is none, or if it is left."""

    name: bytes
    account: Account
    place: bytes
    size: Optional[int]
    is_left: bool = False
    # why its mailbox is left unless the record has it; and the files beside it that may be copies of it
    why_not: Optional[Left] = None
    copies: tuple[bytes, ...] = ()
    # further mailboxes of the account
    others: tuple[bytes, ...] = ()

    def packed(self) -> bytes:
        """A user who waits, as a few bytes: a child starts the later the more memory its parent has."""
        name, account, *rest = self
        words: list[Any] = [name, tuple(account), *rest]
        return marshal.dumps(words)

    @classmethod
    def unpacked(cls, user: bytes) -> "SpoolUser":
        """The user that these bytes are."""
        name, account, *rest = marshal.loads(user)
        return cls(name, Account(*account), *rest)


class UserWork:
    """What a command does for one user: `migrate`, as which other commands begin. It takes the mailbox in the spool, if
    there is one, with the files beside it that may be copies of it, and those in the home. Root may have left what the
    spool has. If there is a reason why not, the mailbox only goes on if the record has it."""

    # the command that does this, and whether mail is on the way back: then each home is looked at, even if the spool
    # has nothing of its user
    command, is_back = Runs.MIGRATE, False

    def __init__(self, user: SpoolUser, spool: "Spool") -> None:
        self.user, self.spool, self.options = user, spool, spool.options
        self.account, self.mailbox = user.account, None if user.size is None else user.place
        # the Maildir, and the folder of mailboxes, if one is asked for
        self.maildir = self.path_of(spool.maildir)
        self.tree = self.path_of(spool.tree) if spool.tree and not user.why_not else None

    def path_of(self, name: bytes) -> bytes:
        """The path of this name in the home."""
        return os.path.normpath(os.path.join(self.account.home, name))

    def whose(self) -> Whose:
        """The user as root knows it."""
        mailboxes = {one: one for one in self.user.copies}
        mailboxes.update({b"": self.mailbox} if self.mailbox else {})
        return Whose(shown(self.user.name), text_of(self.account.name), mailboxes, self.is_back)

    def clerk(self) -> Optional[InboxClerk]:
        """What does for the child what only root can do in the spool; None if nothing."""
        return None

    def work(self, relay: "Relay") -> None:
        """Does the work of a child: the same as the command if its user runs it."""
        relay.user, relay.maildir, left = self.user, self.maildir, why_no_home(self.account)
        if left:
            # the home belongs to what is left of the spool; otherwise it is the user that has one row
            of_home = self.tree if self.user.is_left and self.tree else self.account.home
            for path in self.of_spool() or [of_home]:
                relay.leave(path, left)
        else:
            self.work_on(list(self.names(relay)), relay)
        relay.tell("end", relay.rows)

    def of_spool(self) -> list[bytes]:
        """The paths in the spool."""
        return [self.mailbox, *self.user.copies] if self.mailbox else []

    def names(self, relay: "Relay") -> Iterator[bytes]:
        """The paths that are to be migrated. If the folder of mailboxes can't be looked for, it is left."""
        yield from self.of_spool()
        yield from self.names_of_home(relay)

    def names_of_home(self, relay: "Relay") -> Iterator[bytes]:
        """The same for what is in the home: its folder of mailboxes, if it has one. It is left if a symbolic link leads
        to it, since none is followed."""
        if not self.tree:
            return
        path = self.account.home
        try:
            for part in os.path.relpath(self.tree, path).split(b"/"):
                path = os.path.join(path, part)
                if stat.S_ISLNK(os.lstat(path).st_mode) and path != self.tree:
                    raise Left("%s is a symbolic link, which is not followed" % named(path), Reason.LINK)
            yield self.tree
        except FileNotFoundError:
            pass
        except (Fault, OSError) as fault:
            relay.leave(self.tree, fault)

    def work_on(self, names: list[bytes], relay: "Relay") -> None:
        """Does the work for the mailboxes at these paths. If that cannot go on, those that have no row yet are left."""
        if not names and not self.has_more():
            return
        try:
            want_own(self.maildir)
            refuse(self.maildir, names)
            if self.options.prepare:
                want_unread(self.maildir, self.account.home, self.spool.locations, self.options.unread)
            if self.user.why_not and not is_recorded(self.maildir, names[0]):
                relay.leave_rest(names, self.user.why_not)
                return
            self.run(names, relay)
        except (Fault, OSError) as fault:
            relay.leave_rest(names or [self.maildir], fault)
        except Exception as fault:  # pylint: disable=broad-except
            relay.leave_rest(names or [self.maildir], Fault("internal error: %r" % fault, Reason.DEFECT))

    def has_more(self) -> bool:
        """Whether folders of the Maildir are only prepared, which is said even if no mailbox is there any more."""
        return not self.options.prepare and may_be(
            lambda maildir: any(map(has_list, folders_in(maildir))), self.maildir
        )

    def run(self, names: list[bytes], relay: "Relay") -> None:
        """Migrates the mailboxes at these paths into the Maildir."""
        has_inbox = bool(self.mailbox) or self.user.is_left
        home = UserHome(self.account.home, has_inbox, functools.partial(sync_by_root, relay))
        run_all(self.options, self.maildir, names, relay, self.program(relay), home)

    def program(self, relay: "Relay") -> Program:
        """What runs mbox2maildir, as long as root is there."""
        return Program(self.spool.program, relay.alive)


class Spool(NamedTuple):
    """A folder with one mailbox per user, and what is the same for all users: the names of the Maildir and of the
    folder of mailboxes in each home, which may be empty, the options, the users who are asked for, with where their
    names came from, if any are, and what is done."""

    path: bytes
    maildir: bytes
    tree: bytes
    options: Options
    asked: Optional[Mapping[bytes, str]] = None
    work: type[UserWork] = UserWork
    # the path of mbox2maildir
    program: bytes = b""
    # where Dovecot looks for mail, if that was asked for
    locations: Optional[Sequence[str]] = None
    # the same folder, open, if mail goes back, unless nothing is written
    inboxes: Optional[Inboxes] = None

    @property
    def is_of_homes(self) -> bool:
        """Whether each home is looked at, even if there is no mailbox of its user."""
        return self.work.is_back or bool(self.tree)

    def words(self) -> list[str]:
        """The options of the command that does this for one user, with what was decided for all."""
        return self.options.of_next()._replace(decision=self.options.decision).words()

    def words_of_homes(self) -> list[str]:
        """The options that say what is taken in each home."""
        maildir = option("--maildir", self.maildir) if self.maildir != bytes_of(MAILDIR) else []
        return maildir + (option("--tree", self.tree) if self.tree else [])


def is_recorded(maildir: bytes, mailbox: bytes) -> bool:
    """Whether the record of a Maildir has a mailbox, which may have been moved, or what was prepared from its path."""
    with Record.open(maildir, False) as record:
        names = record.names_of(mailbox)
        is_known = record.folders_with(names) or record.prepared_from(names)
        return bool(is_known or folders_of_moved(mailbox, record))


class Relay(Parent, Observer):
    """Tells root rows by the names that root prints after the user's name: none for the mailbox of the spool and for
    the home, otherwise a name below the home."""

    user: SpoolUser
    maildir: bytes

    def __init__(self, pipe: int, alive: int) -> None:
        super().__init__(pipe, alive)
        # the paths that have a row, and how many rows were told
        self.with_rows: set[bytes] = set()
        self.rows = 0

    def row(self, row: Row) -> None:
        """Tells a row. The mailbox of a row may be gone from the spool."""
        gone = self.why_gone(row) if row.reason else None
        if gone:
            row = row_left(row.path, row.folder, gone)
        home = self.user.account.home
        path = b"" if row.path in (self.user.place, home) else os.path.relpath(row.path, home)
        path = row.path if row.path in self.user.copies or path.startswith(b"../") else path
        self.with_rows.add(row.path)
        self.rows += 1
        self.tell("row", told(row._replace(path=path)))

    def why_gone(self, row: Row) -> Optional[Left]:
        """Why a row is left if its user's home went away meanwhile, or the Maildir in it, which a row could take for a
        ledger that is lost. None if neither is so."""
        left = why_no_home(self.user.account)
        if not left and row.reason in (Reason.LEDGER, Reason.RECORD) and not may_be(is_there, self.maildir):
            left = Left("the Maildir of its user is missing: %s" % named(self.maildir), Reason.HOME)
        return left

    def leave_rest(self, names: list[bytes], fault: Union[Fault, OSError]) -> None:
        """Tells that each path without a row is left or, if all have one, the last."""
        for name in [name for name in names if name not in self.with_rows] or names[-1:]:
            self.leave(name, fault)
