"""The command `migrate`: the whole migration of mailboxes, and the way back."""
from collections.abc import Iterator, Sequence

from ..faults import Left, Reason, Status
from ..looks import is_folder, is_surely, is_there
from ..maildir.folders import why_no_folder
from ..migration.block import Typed
from ..migration.outcomes import Row, row_left
from ..migration.rows import Reporter, Shows
from ..migration.options import Options
from ..nexts import Runs, run_next
from ..readings.reading import UNDECIDED
from ..terminal import bytes_of, complain, has_terminal, named, operand
from .options import Given, WrongOptions, decision_of, jobs_in, labels_of
from .running import Telling, reporter_of, run_reported, spool_of

# the options that answer questions about mailboxes, or can be given only once
ONCE = ("--as", "--of", "--text", "--begin", "--drop-deleted", "--report")
# what is said of ties that no question has
UNMET = "--of %s: no question has this tie: it was answered before, or what is asked has changed"
# what the last line says of what is only prepared
ONLY_PREPARED = "what is prepared is done once migrate runs without --prepare"
UNQUOTED = "its path was given as %d words, so nothing was migrated"
# of how many words a path may be that was not quoted
MOST_WORDS = 8


def do_migrate(given: Given) -> int:
    """Migrates mailboxes, or lists the users whom a run would take. Returns the status."""
    task, reporter = task_of(given), printer_of(given)
    if given.list:
        from ..users.spool import list_users

        return Status.of(list_users(spool_of(given, Options())))

    def migrate(reporter: Reporter) -> None:
        task(reporter)
        reporter.notes += (ONLY_PREPARED,) * given.prepare
        reporter.ask(lambda words: task_of(given.read(words))(reporter))

    noted = "" if given.dry_run or given.prepare else "what was done is in the record: "
    return run_reported(migrate, reporter, given.report, noted + "run the same command again")


def task_of(given: Given) -> Telling:
    """What the words say. Raises WrongOptions if one of them says nothing."""
    target, *names = given.operands
    # what is at a name counts only where something is said of one mailbox
    says = given.again or given.word or given.drop_deleted
    alone = bool(says) and is_one(given)
    options = options_in(given, alone)

    def task(reporter: Reporter) -> None:
        if given.users:
            from ..users.spool import for_users

            for_users(spool_of(given, options), reporter)
        elif given.undo:
            undo(target, names[0], options, reporter)
        elif leave_unquoted(given.operands, options, reporter):
            return
        else:
            migrate_named(target, names, options, reporter)
        unmet = [tie for tie in given.of.split(",") if tie not in reporter.kept.ties]
        if given.of and unmet and not alone:
            complain(UNMET % ",".join(map(named, unmet)))

    return task


def leave_unquoted(words: Sequence[bytes], options: Options, reporter: Reporter) -> bool:
    """Leaves each path that was given as several words, because it was not quoted. Returns whether there is one."""
    paths = list(joined(words))
    given = *options.words(), *options.answer.options()
    then = run_next(Runs.MIGRATE, *given, *(operand(path) for path, _ in paths))
    for path, count in paths:
        if count > 1:
            reporter.total += 1
            reporter.begin()
            reporter.row(row_left(path, b"", Left(UNQUOTED % count, Reason.WORDS, then)))
    return len(paths) < len(words)


def joined(words: Sequence[bytes]) -> Iterator[tuple[bytes, int]]:
    """The paths that words are, and of how many words each is: of several if that path is there."""
    at = 0
    while at < len(words):
        several = (words[at : at + count] for count in range(min(MOST_WORDS, len(words) - at), 1, -1))
        one = next((some for some in several if is_surely(is_there, b" ".join(some))), words[at : at + 1])
        yield b" ".join(one), len(one)
        at += len(one)


def undo(maildir: bytes, name: bytes, options: Options, reporter: Reporter) -> None:
    """Undoes a mailbox."""
    from ..labels.noted import has_labels
    from ..takeouts.undoing import undo_takeout
    from ..undoing.undo import undo_own

    undo_it = undo_takeout if options.folder is None and has_labels(maildir, name) else undo_own
    undo_it(maildir, name, options, reporter)


def migrate_named(maildir: bytes, names: Sequence[bytes], options: Options, reporter: Reporter) -> None:
    """Migrates the mailboxes that are named into a Maildir."""
    from ..labels.noted import has_labels
    from ..migration.several import migrate_own

    if options.labels or options.again and has_labels(maildir, names[0]):
        from ..takeouts.migrating import migrate_takeouts

        migrate_takeouts(maildir, names, options, reporter)
    else:
        migrate_own(maildir, names, options, reporter)


def printer_of(given: Given) -> Reporter:
    """What prints the rows; on a terminal it may ask questions too."""
    # the command that was typed, without what answers questions
    words = [words for words in given.typed if words[0].split("=")[0] not in ONCE]
    takes_users = given.users and len(given.operands) == 1 and given.names is None
    typed = Typed([word for several in words for word in several], given.operands, takes_users)
    shows = Shows(Row.is_said if given.all else None, given.users, not given.dry_run, typed)
    asks_nothing = given.json or given.no_questions or given.users or given.undo or given.dry_run
    if asks_nothing or not has_terminal():
        return reporter_of(given, shows)
    from .questions import Asker

    return Asker(given.operands[1:], shows)


def options_in(given: Given, alone: bool) -> Options:
    """The options for mailboxes: for one that is a file, or for several."""
    jobs, why = jobs_in(given), why_no_folder(given.folder) if given.folder is not None else ""
    if why:
        raise WrongOptions("--folder %s: %s" % (named(given.folder), why))
    if given.users and given.drop_deleted and not given.of:
        raise WrongOptions("--drop-deleted needs --of to go with --users")
    spared, decision = tuple(map(bytes_of, given.no_mail)), decision_of(given, alone)
    options = Options(given.dry_run, given.again, given.dovecot, given.folder, spared, given.now, decision, jobs=jobs)
    options = options._replace(any_disk=given.any_disk, labels=labels_of(given))
    options = options._replace(prepare=given.prepare, unread=given.unread)
    if decision.of and not (alone or decision.text | decision.begin):
        options = options._replace(decision=UNDECIDED, answer=decision)
    return options if alone or not given.again else options._replace(again=False, again_rewritten=True)


def is_one(given: Given) -> bool:
    """Whether a single MAILBOX is migrated that is a file, or a single NAME without a folder of mailboxes."""
    _, *names = given.operands
    return len(names) == 1 and not given.tree and given.names is None and (given.users or not is_folder(names[0]))
