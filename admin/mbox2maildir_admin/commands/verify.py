"""The command `verify`: whether each message is in the Maildir, or in the Maildirs of many users."""
import functools

from ..migration.rows import Reporter, Shows
from ..program import find_program
from .comparing import compare_mailbox
from .files import Migrated, each, for_mailboxes
from .options import Given
from .running import Telling, reporter_of, run_reported


def do_verify(given: Given) -> int:
    """Says whether each message is in the Maildir."""
    shows = Shows((lambda row: True) if given.all else None, given.users)
    reporter = reporter_of(given, shows, {}, "verifying")
    task: Telling = functools.partial(verify_named, given)
    if given.users:
        # only this one needs what migrates
        from .verify_users import verifying_users

        task = verifying_users(given)
    return run_reported(task, reporter, given.report, "run the same command again")


def verify_named(given: Given, reporter: Reporter) -> None:
    """Compares the mailboxes that are named with a Maildir."""
    maildir, *files = given.operands

    def verify(one: Migrated) -> None:
        compare_mailbox(find_program(), reporter, one)

    reporter.total = len(files)
    each(files, lambda path: for_mailboxes(maildir, path, verify, reporter), reporter)
