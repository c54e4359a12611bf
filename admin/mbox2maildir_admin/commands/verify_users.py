"""The command `verify --users`: the mailboxes of many users, each compared with its Maildir with its user's rights."""
import functools
from collections.abc import Iterator

from ..ledger.record import Record
from ..looks import is_folder, is_link
from ..maildir.folders import INBOX
from ..migration.places import Pairs, Planned, recorded_or_moved
from ..migration.options import Options
from ..migration.trees import Tree, link_left
from ..nexts import Runs
from ..users.homes import Relay, UserWork
from ..users.spool import for_users
from .comparing import compare_mailbox
from .files import for_planned
from .options import Given, jobs_in
from .running import Telling, spool_of


def verifying_users(given: Given) -> Telling:
    """What compares the mailboxes of users with their Maildirs."""
    spool = spool_of(given, Options(jobs=jobs_in(given)))
    return functools.partial(for_users, spool._replace(work=Verifier))


class Verifier(UserWork):
    """A user whose mailboxes are compared with the Maildir in the home."""

    command = Runs.VERIFY

    def has_more(self) -> bool:
        """There is nothing else to compare."""
        return False

    def run(self, names: list[bytes], relay: Relay) -> None:
        """Compares the mailboxes at these paths with the Maildir."""
        maildir, verify = self.maildir, functools.partial(compare_mailbox, self.spool.program, relay)
        with Record.open(maildir, False) as record:
            pairs = Pairs(record, maildir, own=names)
            for name in names:
                is_tree = is_folder(name) and (not is_link(name) or record.has_below(name))
                tree = Tree(name, maildir, options=self.options).read() if is_tree else None
                plan = tree.plan(record, maildir) if tree else list(self.planned(name, pairs, relay))
                for_planned(maildir, name, (plan, tree.rows if tree else ()), record, verify, relay)

    @staticmethod
    def planned(name: bytes, pairs: Pairs, relay: Relay) -> Iterator[Planned]:
        """A file with its folder, unless it is left."""
        if is_link(name):
            relay.leave(name, link_left(name))
            return
        one = pairs.judged(recorded_or_moved(Planned(name, INBOX), pairs.record))
        if one.why:
            relay.leave(name, one.why)
        else:
            yield one
