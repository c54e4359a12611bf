"""How a command runs that tells what becomes of mailboxes: whose they are, its rows, its report and its last line."""
import contextlib
import sys
from collections.abc import Callable, Mapping
from typing import TYPE_CHECKING, Optional

from ..faults import Status
from ..looks import straight
from ..migration.options import Options
from ..migration.rows import INTERRUPTED, STAGES, Reporter, Shows
from ..terminal import OutputFault, bytes_of, complain, drop
from .options import Given

if TYPE_CHECKING:
    from ..users.homes import Spool

# does what a command says, and tells what became of each mailbox
Telling = Callable[[Reporter], None]


def reporter_of(given: Given, shows: Shows, stages: Mapping[str, int] = STAGES, task: str = "migrating") -> Reporter:
    """What prints the rows of a command: lines, or objects for programs."""
    reporter = Reporter(shows._replace(is_silent=given.json), stages, task)
    if given.json:
        from ..migration.objects import Objects

        reporter.objects.append(Objects())
    return reporter


def spool_of(given: Given, options: Options) -> "Spool":
    """The spool that the command line names, and the users who are asked for, if any are."""
    # only this one needs what gives a process the rights of another user
    from ..users.homes import Spool
    from ..users.spool import asked_for

    path, *names = given.operands
    asked = asked_for(names, None if given.names is None else bytes_of(given.names))
    return Spool(straight(path), bytes_of(given.maildir), bytes_of(given.tree or ""), options, asked)


def run_reported(task: Telling, reporter: Reporter, report: Optional[str], after: str) -> int:
    """Does a task whose rows a reporter gets, and a new file if one is named. Returns the status. `after` says what to
    do if the output takes no more."""
    written = contextlib.ExitStack()
    if report is not None:
        from ..migration.objects import Report

        reporter.objects.insert(0, written.enter_context(contextlib.closing(Report(bytes_of(report)))))
    try:
        task(reporter)
        return reporter.end(*reporter.notes)
    except KeyboardInterrupt:
        reporter.end(INTERRUPTED)
        raise
    except OutputFault as fault:
        drop(sys.stdout)
        complain("the output could not be written: %s; %s" % (fault.cause.strerror, after))
        # a report takes more
        reporter.end(INTERRUPTED)
        return Status.LEFT
    finally:
        written.close()
