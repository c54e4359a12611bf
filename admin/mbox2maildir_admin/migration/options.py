"""How mailboxes are migrated: the words of the command, and what follows from them."""
import os
from collections.abc import Sequence
from typing import Any, NamedTuple, Optional

from ..kinds.making import Where
from ..kinds.named import passes_over
from ..labels.choosing import Choosing
from ..looks import may_write, top_above
from ..maildir.folders import INBOX, folder_of, on_disk, words_of
from ..nexts import Command, Runs
from ..readings.plans import Question
from ..readings.reading import UNDECIDED, Reading
from ..readings.texts import folder_for_copies
from ..terminal import bytes_of, operand, option
from .known import Opened
from .steps import Extra


class Options(NamedTuple):
    """How mailboxes are migrated, in the words of the command, and what follows from these words."""

    # whether nothing is made
    dry: bool = False
    # whether all that is nowhere is placed
    again: bool = False
    # whether with Dovecot's files
    dovecot: bool = False
    # the folder for mailboxes that are files
    folder: Optional[str] = None
    # paths and patterns of files without mail
    no_mail: tuple[bytes, ...] = ()
    # whether no quiet minute is waited for
    now: bool = False
    # what is decided about how they are read
    decision: Reading = UNDECIDED
    # how many folders are at work at the same time; None if nobody says it
    jobs: Optional[int] = 1
    # whether everything that is nowhere is converted of mailboxes that were rewritten since
    again_rewritten: bool = False
    undo: bool = False
    # whether a disk will do on which a power cut could take mail away
    any_disk: bool = False
    # how folders are made of labels, if they are
    labels: Optional[Choosing] = None
    # what is decided about questions that have one of its ties, if several mailboxes are migrated
    answer: Reading = UNDECIDED
    # whether mail is only prepared, and whether nobody reads it
    prepare: bool = False
    unread: bool = False
    # what is done besides mail and dates
    extra: Extra = Extra()
    # the names that are migrated, the home of the user whose mail it is, if it is not the one who runs this, and
    # whether a mailbox goes into the folders of its labels
    names: Sequence[bytes] = ()
    home: bytes = b""
    is_labelled: bool = False

    @property
    def named_folder(self) -> Optional[bytes]:
        """The folder for mailboxes that are files, by its name on the disk; None if none is named."""
        return None if self.folder is None else on_disk(folder_of(self.folder))

    def disk(self, maildir: bytes) -> bytes:
        """A folder on the disk where copies are made of what goes into a Maildir."""
        return folder_for_copies(maildir, self.dry)

    def words(self) -> list[str]:
        """The options, as words of a command."""
        again = self.again or self.again_rewritten
        given = {
            "--undo": self.undo,
            "--prepare": self.prepare,
            "--unread": self.unread,
            "--dovecot": self.dovecot,
            "--dry-run": self.dry,
            "--now": self.now,
            "--any-disk": self.any_disk,
        }
        words = [word for word, is_given in given.items() if is_given]
        for pattern in self.no_mail:
            words += option("--no-mail", pattern)
        words += ["--again"] * again + self.decision.options() + (self.labels.words() if self.labels else [])
        return words + ([] if self.folder is None else option("--folder", bytes_of(self.folder)))

    def passes_over(self, path: bytes, is_known: bool) -> bool:
        """Whether a file that is not mbox text is passed over, by its path and whether its kind is known."""
        return passes_over(self.no_mail, [self.home] if self.home else self.names, path, is_known)

    def of_next(self) -> "Options":
        """Those of a command for one of the mailboxes, which decides itself, and names its folder. A rehearsal's is
        dry."""
        stay = Options(any_disk=self.any_disk, labels=self.labels)
        stay = stay._replace(prepare=self.prepare, unread=self.unread)
        return stay._replace(dry=self.dry, dovecot=self.dovecot, no_mail=self.no_mail, now=self.now)

    def where(self, opened: Opened) -> Where:
        """Where the next command puts a file of which it makes a mailbox for this folder."""
        path = opened.mailbox.path
        top = top_above(path, self.names)
        home = self.home or os.fsencode(os.path.expanduser("~"))
        where = Where.of(path, top, home, may_write)._replace(wants_file=self.is_labelled)
        # what a symbolic link leads to is outside of what was named
        if (top or path in self.names) and may_write(os.path.dirname(path) or b"."):
            return where
        names = self.command(opened, decision=UNDECIDED).singles[0].names[:-1]
        return where._replace(migrate=names, is_dry=self.dry)

    def command(self, opened: Opened, path: bytes = b"", **changes: Any) -> Command:
        """The command for a mailbox, or for the one at a path, with the options that were given, and their changes."""
        given: dict[str, Any] = {"decision": self.decision, **changes}
        options = self.of_next()._replace(**given)
        # with labels, a mailbox has all of its folders; without a name, one of another run
        is_default = opened.name == INBOX and self.folder is None
        folder = [] if self.is_labelled or is_default else words_of(opened.name)
        paths = operand(opened.maildir), operand(path or opened.mailbox.path)
        return Command.of(Runs.MIGRATE, *options.words(), *folder, *paths)

    def put_commands(self, opened: Opened, question: Question) -> None:
        """Sets the commands of the answers to what a human must decide."""
        question.put(lambda decision: self.command(opened, decision=decision))

    def undo_command(self, opened: Opened, path: bytes = b"") -> Command:
        """The command that undoes a mailbox, or the one at a path."""
        given = {"decision": UNDECIDED, "dovecot": False, "no_mail": (), "any_disk": False, "labels": None}
        return self.command(opened, path, undo=True, prepare=False, unread=False, **given)
