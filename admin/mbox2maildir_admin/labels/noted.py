"""What the record notes of a mailbox that goes into the folders of its labels: what was said about labels, which
folders these are, and in which languages Gmail's own labels were. It is noted before the first message is placed, and
that it is undone after the last one is gone."""
import itertools
from typing import NamedTuple, Optional

from ..faults import Fault
from ..ledger.history import UNLABELLED, About, History, Note, RecordLine
from ..ledger.record import Record, is_gone, unspelled
from ..maildir.folders import INBOX
from ..mbox.mailbox import Mailbox
from ..terminal import bytes_of, text_of
from .choosing import GIVES, Choosing


class Noted(NamedTuple):
    """What was said about labels; the folders by their names on the disk; and the languages other than English in which
    Gmail's own labels were: a name that stood for a folder of Gmail's does so in later runs too."""

    choosing: Choosing
    folders: tuple[bytes, ...]
    languages: tuple[str, ...] = ()

    def words(self) -> str:
        """The words by which the record has it."""
        labels = ["%s=%s" % (gives, encoded(bytes_of(label))) for label, gives in self.choosing.given]
        labels += ["language=%s" % encoded(bytes_of(inbox)) for inbox in self.languages]
        return " ".join(["word=%s" % self.choosing.word, *labels, *("in=%s" % encoded(one) for one in self.folders)])

    @classmethod
    def of(cls, line: Optional[RecordLine]) -> "Noted":
        """Reads the words of a line; without one, nothing was noted."""
        from urllib.parse import unquote_to_bytes

        words = (word.partition("=")[::2] for word in (line.words or "" if line else "").split(" "))
        pairs = [(what, unquote_to_bytes(name)) for what, name in words]
        given = tuple((text_of(label), what) for what, label in pairs if what in GIVES)
        folders = tuple(name for what, name in pairs if what == "in")
        languages = tuple(text_of(inbox) for what, inbox in pairs if what == "language")
        return cls(Choosing(text_of(dict(pairs).get("word", b"")), given), folders, languages)


def encoded(name: bytes) -> str:
    """A name as a word without blanks."""
    from urllib.parse import quote

    return quote(name, safe="")


def line_of(record: History, mailbox: Mailbox) -> Optional[RecordLine]:
    """The line about an open mailbox, which may have been moved, that names the folders of its labels; None if it went
    into none."""
    lines = record.labelled()
    here = (lines[name] for name in (record.names_of(mailbox.path) if lines else ()) if name in lines)
    gone = (one for one in lines.values() if one.about.size == mailbox.size and one.about[1:] == mailbox.key())
    return next(itertools.chain(here, (one for one in gone if is_gone(one.path))), None)


def note(record: Record, mailbox: Mailbox, noted: Noted, messages: int) -> None:
    """Notes what goes into which folders, unless that is the last that was noted."""
    before, about = line_of(record, mailbox), About(INBOX, *mailbox.key())
    is_here = before is not None and before.path in record.names_of(mailbox.path)
    if not is_here or before is None or (before.about, before.words) != (about, noted.words()):
        record.add(Note.LABELS, about, messages, mailbox.path, noted.words())
    if before and not is_here:
        note_nothing(record, before)


def note_nothing(record: Record, line: RecordLine) -> None:
    """Notes that the mailbox of a line has no folders any more."""
    record.add(Note.LABELS, line.about, line.messages, unspelled(line.path), UNLABELLED)


def has_labels(root: bytes, path: bytes) -> bool:
    """Whether the record of a Maildir has a mailbox in the folders of its labels."""
    try:
        with Record.open(root, make=False) as record:
            return noted_of(record, path) is not None
    except (Fault, OSError):
        # whatever is wrong is said where it is needed
        return False


def noted_of(record: History, path: bytes) -> Optional[Noted]:
    """What is noted of the mailbox at a path; None if it went into no folders of labels."""
    if not record.labelled():
        return None
    with Mailbox.open(path) as mailbox:
        line = line_of(record, mailbox)
    return Noted.of(line) if line else None
