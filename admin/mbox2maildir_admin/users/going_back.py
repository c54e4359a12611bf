"""The way back of one user: the mail that is new in the Maildir in the home goes into the inbox of the spool and into
the mailboxes of the home, with the user's rights."""
import contextlib
import os
from collections.abc import Iterable, Iterator, Sequence
from typing import Optional

from ..back.places import Keeper, Names
from ..back.several import bring_all, want_migrated
from ..faults import Left, Reason, naming
from ..jobs.crew import Parent
from ..looks import is_folder, is_link, is_there, may_be
from ..maildir.files import mail_in
from ..maildir.folders import folders_in
from ..mbox.bases import BASE
from ..mbox.lock_file import hold, look_for_lock_file, spot_of
from ..mbox.mailbox import Mailbox
from ..migration.outcomes import Observer, Verdict
from ..migration.trees import Tree
from ..nexts import Runs
from .clerks import MAKE, RELEASE, TAKE, InboxClerk, Inboxes
from .homes import Relay, Spool, UserWork, is_recorded
from .spool import for_users


# what is said of the mail of an inbox whose mailbox root has left
NO_INBOX = "the mailbox of the spool is left"


class Returner(UserWork):
    """A user whose mail goes back."""

    command, is_back = Runs.BACK, True

    @property
    def mailboxes(self) -> tuple[bytes, ...]:
        """The mailboxes that the spool has of the user, or would have."""
        return (*([] if self.user.is_left else [self.user.place]), *self.user.others)

    def clerk(self) -> Optional[InboxClerk]:
        """What root does for the child: it makes the inbox, and FILE.lock, which the child may not."""
        if not self.spool.inboxes:
            return None
        owner = b"%d %s" % (self.account.uid, self.spool.maildir)
        return InboxClerk(self.spool.inboxes, self.account, tuple(map(os.path.basename, self.mailboxes)), owner)

    def has_more(self) -> bool:
        """Whether there is a Maildir, even if no mailbox is there: its mail is left then."""
        return may_be(is_there, self.maildir)

    def names(self, relay: Relay) -> Iterator[bytes]:
        """The paths that mail may go back to."""
        yield from self.mailboxes
        yield from self.names_of_home(relay)

    def run(self, names: list[bytes], relay: Relay) -> None:
        """Brings the mail of the Maildir back into the mailboxes at these paths."""
        maildir = self.maildir
        if not is_there(maildir) and all(map(has_no_mailbox, names)):
            return
        has_none = not self.mailbox and names == [self.user.place]
        # what is there came from no old mailbox if its user has none, unless a file has a name that only this program
        # gives
        if not has_none or any(BASE.match(name) for folder in folders_in(maildir) for name, _ in mail_in(folder)):
            want_migrated(maildir)
        paths = [one for one in names if one not in self.user.others or is_recorded(maildir, one)]
        names_back, keeper = Names(paths, self.tree, NO_INBOX), Asking(relay, self.mailboxes)
        relay.tell("then", bring_all(self.program(relay), maildir, names_back, self.options, keeper, relay))


def has_no_mailbox(path: bytes) -> bool:
    """Whether nothing that may be a mailbox is at a path or below it."""
    if not is_there(path):
        return True
    if is_link(path) or not is_folder(path):
        return False
    tree = Tree(path).read()
    is_left = tree.mailboxes() or tree.links or tree.maildirs
    return not is_left and all(row.verdict == Verdict.NO_MAIL for row in tree.rows)


class Asking(Keeper):
    """Has root make the inbox of the spool, and FILE.lock beside it. What is in the home is the user's own."""

    def __init__(self, parent: Parent, mailboxes: Sequence[bytes]) -> None:
        self.parent = parent
        self.places = {os.path.realpath(path): place for place, path in enumerate(mailboxes)}

    def refusal(self, what: str, path: bytes) -> Optional[Left]:
        """Has root do something beside an inbox. Returns why it did not."""
        return self.parent.refusal(what, self.places[os.path.realpath(path)])

    @contextlib.contextmanager
    def locked(self, mailbox: Mailbox, owner: bytes) -> Iterator[None]:
        """Holds FILE.lock for an open mailbox. Raises Left if another program has it."""
        if os.path.realpath(mailbox.place) not in self.places:
            with super().locked(mailbox, owner):
                yield
            return
        refusal = self.refusal(TAKE, mailbox.place)
        # an old one counts for nothing
        if refusal and not (refusal.reason is Reason.LOCKED and look_for_lock_file(mailbox)):
            raise refusal
        number = None if refusal else hold(spot_of(mailbox.place))
        try:
            yield
        finally:
            if number is not None:
                os.close(number)
            if not refusal:
                self.refusal(RELEASE, mailbox.place)

    def make(self, path: bytes) -> None:
        """Makes a mailbox, if it is not there. Raises Left if root can't make it."""
        if os.path.realpath(path) not in self.places:
            super().make(path)
            return
        refusal = self.refusal(MAKE, path)
        if refusal:
            raise refusal

    def drop_locks(self, paths: Iterable[bytes], owner: bytes) -> None:
        """Removes the locks that a killed run left in the home. Root has removed those of the spool."""
        super().drop_locks([path for path in paths if os.path.realpath(path) not in self.places], owner)


def back_users(spool: Spool, observer: Observer) -> None:
    """Brings the mail of the users of a spool back."""
    with contextlib.ExitStack() as stack:
        if not spool.options.dry:
            with naming(spool.path):
                spool = spool._replace(inboxes=stack.enter_context(contextlib.closing(Inboxes(spool.path))))
        for_users(spool._replace(work=Returner), observer)
        # users end in any order
        observer.then = tuple(sorted(observer.then, key=str))
