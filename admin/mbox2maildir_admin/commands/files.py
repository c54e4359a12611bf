"""The files that the command line names, the mailboxes below folders, and what the record of a Maildir says of them."""
import contextlib
import functools
import os
from collections.abc import Callable, Iterable, Iterator
from typing import NamedTuple, Optional, Union

from ..faults import Fault, Reason, complain_of
from ..kinds.folders import is_maildir
from ..kinds.look import Look
from ..kinds.others import Holds
from ..ledger.history import Event, History, Note, RecordLine
from ..ledger.record import Record
from ..looks import is_folder, is_there, type_at
from ..maildir.disk import trial_folder
from ..maildir.folders import INBOX, folder_path
from ..maildir.making import RECORD, WITH_MAIL
from ..mbox.files import is_empty
from ..mbox.mailbox import Mailbox
from ..migration.answers import is_passed_over
from ..migration.outcomes import Observer, Row, Verdict
from ..migration.places import Planned, recorded_or_moved
from ..migration.trees import Tree
from ..nexts import Does, Runs, Task, Todo, run_next
from ..progress import say_of
from ..readings.reading import Reading
from ..readings.texts import Text, content_of, folder_for_copies, open_text
from ..readings.diagnosis import look_at
from ..remarks import Says
from ..terminal import complain, named, operand
from ..units import Say


class Complaints(Observer):
    """Says on standard error which files were left out, and which failed."""

    # whether none failed, and none was left out that may be mail
    is_well = True

    def say(self, path: bytes) -> Say:
        """The function that takes the progress of the file at a path."""
        return say_of(path)

    def row(self, row: Row) -> None:
        """Takes a file that was left out."""
        self.is_well = self.is_well and row.verdict == Verdict.NO_MAIL
        what = [row.verdict] * (row.verdict != Verdict.LEFT)
        complain("%s: left out: %s" % (named(row.path), ", ".join([*what, *filter(None, [row.says])])), row.below())

    def leave(self, path: bytes, fault: Union[Fault, OSError]) -> None:
        """Takes why nothing was done with a file."""
        self.is_well = False
        complain_of(fault, path)


def each(files: Iterable[bytes], task: Callable[[bytes], None], observer: Observer) -> None:
    """Does a task for each file. One that fails is left."""
    for file in files:
        try:
            task(file)
        except (Fault, OSError) as fault:
            observer.leave(file, fault)


def read_tree(
    path: bytes, maildir: Optional[bytes] = None, record: Optional[History] = None
) -> tuple[Tree, list[Planned]]:
    """The names below a folder, and the mailboxes among them with the folders in which the record of a Maildir has
    them. That Maildir is left out if it is there too."""
    if is_maildir(path):
        raise Fault("it is a Maildir, not a mailbox", Reason.MAILDIR, (Task(Todo.LEAVE),))
    tree, known, disk = Tree(path, maildir).read(), record or History(), maildir or trial_folder()
    plan = tree.plan(known, maildir or b"", lambda one: bool(row_without_mail(one.path, disk, known)))
    if not plan and not tree.rows:
        raise Fault("it contains no mailbox", Reason.NO_MAILBOX, (Task(Todo.NO_FILES),))
    return tree, plan


class Migrated(NamedTuple):
    """A mailbox and the folder of a Maildir that has its mail, by their paths; that Maildir, and what its record says;
    and the Maildir and the mailbox, or the folder of mailboxes, that were named."""

    file: bytes
    folder: bytes
    root: bytes
    record: History
    given: tuple[bytes, bytes]
    # whether the folder has only those messages of the mailbox that have its label
    is_part: bool = False

    @property
    def name(self) -> bytes:
        """The name of its folder on the disk."""
        return os.path.relpath(self.folder, self.root)

    def reading(self, mailbox: Mailbox) -> tuple[Reading, bool]:
        """How it was read when it was converted into its folder, and whether it had the same bytes. If the record does
        not have it there, it was read as this text was, or else as the mailbox of this path; nothing is decided if
        there is neither."""
        names = self.record.names_of(mailbox.path)
        same = [line for line in self.record.lines_of(mailbox) if line.what is Event.DONE]
        its = [self.record.last_of(folder, names) for folder in self.record.folders_with(names)]

        def nearness(line: RecordLine) -> tuple[bool, ...]:
            has_folder, has_path = line.about.folder == self.name, line.path in names
            return has_folder and has_path, line in same, has_folder, has_path

        lines = sorted((line for line in (*same, *its) if line), key=nearness)
        return Reading.of_words(lines[-1].words if lines else None), bool(lines) and lines[-1] in same

    def for_texts(self, task: "Callable[[Migrated, Text], None]", observer: Observer) -> None:
        """Does a task for its text. If it is in the folders of its labels, this is done for each of these with the text
        that the folder has, and one that fails is left."""
        from ..labels.noted import noted_of

        observer.begin()
        say, noted = observer.say(self.file), noted_of(self.record, self.file)
        if not noted:
            with self.missing(), open_text(self.file, self.folder, say, self.reading) as text:
                task(self, text)
            return
        from ..labels.parts import parts_of

        with parts_of(self.root, self.file, noted, self.reading, say) as parts:
            observer.total += len(parts) - 1
            for number, (name, part) in enumerate(parts.items()):
                if number:
                    observer.begin()
                folder = folder_path(self.root, self.record.name_now(name, self.file))
                one = self._replace(folder=folder, is_part=True)
                try:
                    with one.missing(), part as text:
                        task(one, text)
                except (Fault, OSError) as fault:
                    observer.leave(self.file, fault)

    @contextlib.contextmanager
    def missing(self) -> Iterator[None]:
        """If its folder is missed in here, raises Fault, with the command that migrates what was named as the Maildir's
        other mailboxes were: with --dovecot if one of them was. If it was done, the command brings back its mail."""
        try:
            yield
        except FileNotFoundError as fault:
            maildir, path = self.given
            if not type_at(path) or any(is_folder(os.path.join(self.folder, sub)) for sub in WITH_MAIL):
                raise
            last = self.record.last_of(self.name, self.record.names_of(self.file))
            words = ["--dovecot"] * any(Reading.of_words(line.words).stripped for line in self.record.lines())
            if last and last.what is Event.DONE:
                why, path, words, does = "its folder is gone", self.file, ["--again", *words], Does.BRINGS_BACK
            else:
                why, does = "it was not migrated", Does.RUN
            then = run_next(Runs.MIGRATE, *words, operand(maildir), operand(path), does=does)
            raise Fault("%s: %s is no Maildir" % (why, named(self.folder)), Reason.NO_MAILDIR, then) from fault


# does something for a mailbox
Doing = Callable[[Migrated], None]


def for_mailboxes(maildir: bytes, path: bytes, task: Doing, observer: Observer) -> None:
    """Does a task for a mailbox or, if the path is a folder, for each mailbox below it. A file without mail by the
    record is left out."""
    is_tree = is_folder(path)
    root = maildir if is_tree else root_of(maildir)
    with Record.open(root, make=False) as record:
        tree, plan = read_tree(path, maildir, record) if is_tree else (None, [])
    if tree:
        for_planned(maildir, path, (plan, tree.rows), record, task, observer)
        return
    is_noted = record.noting(Note.NO_MAIL, INBOX, record.names_of(path))
    left = left_out(path, maildir, record, observer) if is_noted else None
    if left:
        observer.row(left)
        return
    # what was named may be a folder of a Maildir: then that is the one that has its mail; an empty mailbox may have
    # none any more
    is_root = root == maildir and not is_empty(path)
    folder = recorded_or_moved(Planned(path, INBOX), record).folder_in(maildir) if is_root else maildir
    task(Migrated(path, folder, root, record, (maildir, path)))


def for_planned(
    maildir: bytes,
    path: bytes,
    found: tuple[Iterable[Planned], Iterable[Row]],
    record: History,
    task: Doing,
    observer: Observer,
) -> None:
    """Does a task for each mailbox at a path or below it. Says what else was found there, and leaves files without mail
    out."""
    plan, rows = list(found[0]), [without_mail(row, maildir, record) for row in found[1]]
    observer.total += len(plan) - 1

    def do_task(planned: Planned, file: bytes) -> None:
        left = left_out(file, maildir, record, observer)
        if left:
            rows.append(left)
            return
        task(Migrated(file, planned.folder_in(maildir), maildir, record, (maildir, path)))

    for one in plan:
        each([one.leads_to or one.path], functools.partial(do_task, one), observer)
    for row in rows:
        observer.row(row)


def without_mail(row: Row, maildir: bytes, record: History) -> Row:
    """The row of a file of a tree that has no folder, if it has no mail, and so needs none; any other row as it is."""
    return (row.reason is Reason.NO_FOLDER and row_without_mail(row.path, maildir, record)) or row


def row_without_mail(path: bytes, maildir: bytes, record: History) -> Optional[Row]:
    """The row of a file that surely has no mail; None for any other."""
    with contextlib.suppress(Fault, OSError):
        return left_out(path, maildir, record, Observer())
    return None


def left_out(path: bytes, maildir: bytes, record: History, observer: Observer) -> Optional[Row]:
    """The row of a file without mail, itself or in what it holds if it is packed; None if it may have mail. By the
    record a file that is not mbox text has none as long as it has its path and its bytes. Raises Fault if a packed file
    is not complete."""
    with Mailbox.open(path, observer.say(path)) as mailbox, content_of(mailbox, folder_for_copies(maildir)) as text:
        diagnosis = look_at(text, Look.read_begun) if text.size else None
        holds = diagnosis.holds if diagnosis else Holds.NO_MAIL
        is_noted = bool(diagnosis and diagnosis.recipe) and is_passed_over(record, mailbox)
    if holds != Holds.NO_MAIL and not is_noted:
        return None
    return Row(path, b"", "", None, Verdict.NO_MAIL, remarks=(Says.NO_MAIL_NOTED.of(),) * is_noted)


def root_of(folder: bytes) -> bytes:
    """The Maildir of a folder: the one that it is in, if that has a record and the folder has none."""
    above = os.path.dirname(os.path.abspath(folder))
    has_records = [is_there(os.path.join(one, RECORD)) for one in (folder, above)]
    return above if has_records == [False, True] else folder
