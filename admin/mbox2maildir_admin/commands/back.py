"""The command `back`: the mail that did not come from the old mailboxes goes into them."""

from ..back.several import bring_back
from ..migration.outcomes import Row
from ..migration.rows import Reporter, Shows
from ..migration.options import Options
from ..users.going_back import back_users
from .options import Given, jobs_in
from .running import reporter_of, run_reported, spool_of


def do_back(given: Given) -> int:
    """Brings mail back, and says whether all of it is in the mailboxes."""
    options = Options(dry=given.dry_run, now=given.now, dovecot=given.dovecot, jobs=jobs_in(given))

    def back(reporter: Reporter) -> None:
        if given.users:
            back_users(spool_of(given, options), reporter)
        else:
            root, *names = given.operands
            reporter.then = bring_back(root, names, options, reporter)

    shows = Shows(Row.is_said if given.all else None, given.users, not given.dry_run)
    reporter = reporter_of(given, shows, {}, "bringing mail back")
    return run_reported(back, reporter, given.report, "the ledgers have what went back: run the same command again")
