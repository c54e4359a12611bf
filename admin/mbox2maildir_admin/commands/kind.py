"""The command `kind`: what a file is, and what to do first."""
import contextlib
import functools
import os
import pwd
import stat
from typing import NamedTuple, Optional

from ..faults import Left, Status
from ..kinds.folders import is_maildir
from ..kinds.making import Where
from ..kinds.others import Holds
from ..ledger.history import History
from ..looks import is_folder, may_write
from ..maildir.disk import trial_folder
from ..maildir.folders import INBOX, words_of
from ..mbox.mailbox import Mailbox
from ..migration.outcomes import Detail, Observer, Row, Verdict
from ..migration.rows import Shows
from ..migration.trees import Tree
from ..nexts import Answer, Command, Next, Quote, Runs, Todo, User, task
from ..progress import say_of
from ..readings.copies import with_lf
from ..readings.plans import OtherKind, Question, question_of
from ..readings.reading import UNDECIDED, Reading
from ..readings.texts import choice_of, form_of
from ..readings.diagnosis import TAKEOUT, Diagnosis, look_at
from ..terminal import operand
from .files import each, read_tree, without_mail
from .options import Given
from .running import reporter_of


class Found(NamedTuple):
    """A file or folder that was found: its path and, if it was not named itself, the folder of mailboxes that it is in,
    and the folder of a Maildir that it gets by its place there, by its name on the disk."""

    path: bytes
    top: bytes = b""
    folder: bytes = INBOX

    def words(self) -> list[str]:
        """The words that migrate it by itself into its folder."""
        return [*([] if self.folder == INBOX else words_of(self.folder)), "MAILDIR"]


def do_kind(given: Given) -> int:
    """Says what files are."""
    reporter = reporter_of(given, Shows(lambda row: True), {})
    kinds = Kinds(reporter)
    each(given.operands, kinds.say_below, reporter)
    return Status.of(kinds.are_as_they_are and not reporter.counts[Verdict.LEFT])


def row_found(path: bytes, kind: str, then: Next) -> Row:
    """The row of a file of a kind."""
    return Row(path, b"", kind, None, Verdict.FOUND, next=then)


class Kinds:
    """Prints what files are."""

    def __init__(self, observer: Observer) -> None:
        # and whether all can be converted as they are
        self.observer, self.are_as_they_are = observer, True

    def say_below(self, path: bytes) -> None:
        """Prints what a file is or, for a folder, what each file in it is."""
        if not is_folder(path):
            self.say(Found(path))
        elif is_maildir(path):
            self.observer.row(row_found(path, "a Maildir", task(Todo.LEAVE)))
            self.are_as_they_are = False
        else:
            tree, plan = read_tree(path)
            found = {one.path: Found(one.path, tree.old, one.folder) for one in plan}
            each(found, lambda file: self.say(found[file], tree), self.observer)
            for row in tree.rows:
                self.observer.row(without_mail(row, trial_folder(), History()))
            if plan:
                self.observer.row(row_found(path, "a folder of mailboxes", (Answer(migrate(Found(path))),)))

    def say(self, found: Found, tree: Optional[Tree] = None) -> None:
        """Prints what a file is, unless it is one of a tree that holds no mail."""
        path = found.path
        with Mailbox.open(path, say_of(path)) as mailbox, with_lf(mailbox, trial_folder()) as text:
            diagnosis = look_at(text)
            if tree and diagnosis.holds == Holds.NO_MAIL:
                tree.pass_over(path, kind=diagnosis.kind.partition(": ")[2])
                return
            # a packed file has to be unpacked first
            is_packed = bool(form_of(mailbox))
            self.are_as_they_are = self.are_as_they_are and not is_packed and diagnosis.is_as_it_is
            self.observer.row(row_packed(mailbox, diagnosis, found) if is_packed else row_plain(diagnosis, found))


def row_packed(mailbox: Mailbox, diagnosis: Diagnosis, found: Found) -> Row:
    """The row of what is in a packed file."""
    path = found.path
    try:
        with choice_of(mailbox, trial_folder()) as choice:
            plan = choice.plan
            return row_found(path, plan.kind, as_it_is(found, plan.kind))._replace(messages=plan.messages)
    except Left as left:
        if isinstance(left, Question):
            ask(left, found)
        elif isinstance(left, OtherKind):
            left.put(where(found))
        row = row_found(path, left.kind or diagnosis.kind, left.next)._replace(messages=left.messages, most=left.most)
        return row._replace(why=str(left), quotes=left.quotes)


def row_plain(diagnosis: Diagnosis, found: Found) -> Row:
    """The row of a file that is not packed."""
    then, quotes = as_it_is(found, diagnosis.kind), tuple[Quote, ...]()
    if diagnosis.recipe:
        then = where(found).next(diagnosis.recipe, found.path)
    elif not diagnosis.reading:
        question = question_of(diagnosis)
        ask(question, found)
        then, quotes = question.next, question.quotes
    row = row_found(found.path, diagnosis.kind, then)._replace(messages=diagnosis.messages, most=diagnosis.most)
    details = tuple(Detail(one.says, line=one.line or None, text=one.text) for one in diagnosis.said_lines)
    return row._replace(quotes=quotes, details=details)


def ask(question: Question, found: Found) -> None:
    """Sets the commands of the answers to what a human must decide."""
    question.put(functools.partial(migrate, found, TAKEOUT if question.is_takeout else question.kind))


def as_it_is(found: Found, kind: str) -> Next:
    """What to do next with a file that needs no answer. One command for a whole folder of mailboxes follows later."""
    return () if found.top else (Answer(migrate(found, kind)),)


def migrate(found: Found, kind: str = "", decision: Reading = UNDECIDED) -> Command:
    """The command that migrates a mailbox as it was decided, and a Takeout into the folders of its labels."""
    words = [*decision.options(), *found.words()]
    if kind.startswith(TAKEOUT):
        words = ["--labels", *decision.options(), "MAILDIR"]
    return Command.of(Runs.MIGRATE, *words, operand(found.path))


def where(found: Found) -> Where:
    """Where a file is put, by its owner, after a command has made a mailbox of it."""
    owner = os.stat(found.path).st_uid
    user: User = None
    if os.geteuid() != 0 or owner == 0:
        owner, home = os.geteuid(), os.path.expanduser("~")
    else:
        try:
            account = pwd.getpwuid(owner)
            user, home = account.pw_name, account.pw_dir
        except KeyError:
            user, home = owner, "/"
    owner_may_write = functools.partial(user_may_write, owner)
    place = Where.of(found.path, found.top, os.fsencode(home), owner_may_write)._replace(user=user)
    if owner_may_write(os.path.dirname(found.path) or b"."):
        return place
    return place._replace(migrate=tuple(found.words()))


def user_may_write(user: int, folder: bytes) -> bool:
    """Whether a user, who may be the one who runs this, may write in a folder."""
    if user == os.geteuid():
        return may_write(folder)
    state = os.stat(folder)
    if user == state.st_uid:
        return bool(state.st_mode & stat.S_IWUSR)
    groups = list[int]()
    with contextlib.suppress(KeyError):
        account = pwd.getpwuid(user)
        groups = os.getgrouplist(account.pw_name, account.pw_gid)
    return bool(state.st_mode & (stat.S_IWGRP if state.st_gid in groups else stat.S_IWOTH))
