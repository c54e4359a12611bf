"""What became of a mailbox, how that is said, and who is told of it."""
import functools
import os
from collections.abc import Iterator, Sequence
from typing import Any, NamedTuple, Optional, Union

from ..faults import Fault, Left, Reason, fault_of
from ..looks import type_at
from ..maildir.folders import folder_name, folder_shown
from ..nexts import BELOW, NOTHING, ROOT, Next, Phrase, Quote, lines_below, objects_of
from ..progress import Beat, Spent
from ..readings.plans import Plan
from ..remarks import PLACES, Remark, Says
from ..terminal import is_text, named, shown, text_of
from ..units import Say


class Verdict:
    """What became of a mailbox, in the words of its row."""

    DONE = "done"
    BEFORE = "done before"
    WOULD = "would be done"
    PREPARED = "prepared"
    WOULD_PREPARE = "would be prepared"
    UNDONE = "undone"
    WOULD_UNDO = "would be undone"
    # by `back`: a mailbox has the mail of its folder, or would have it, or there was none for it
    BACK = "back"
    WOULD_BACK = "would go back"
    NOTHING_NEW = "nothing new"
    # by `kind`: what it is
    FOUND = "found"
    # by `verify`: each message is there exactly once, or not
    WHOLE = "whole"
    NOT_WHOLE = "not whole"
    NO_MAIL = "no mail"
    LEFT = "left"


VERDICTS: list[str] = [verdict for name, verdict in vars(Verdict).items() if name.isupper()]


class Detail(NamedTuple):
    """What is said of a message, a file or a line, with the word of its sort if it is counted; and the line as it is
    printed, if it is shown."""

    says: str
    word: str = ""
    line: Optional[int] = None
    # the number of the message that begins in the line
    message: Optional[int] = None
    path: bytes = b""
    text: str = ""

    def sentence(self) -> str:
        """What is said."""
        where = "message %s (line %s): " % (self.message, self.line) if self.message else "line %s: " % self.line
        return (where if self.line else "") + self.says + (" " + named(self.path) if self.path else "")

    def as_object(self) -> dict[str, Any]:
        """The same for programs."""
        where = path_of(self.path) if self.path else {"path": None}
        named_by = {"sort": self.word or None, "message": self.message, "line": self.line, **where}
        return {"says": self.sentence(), **named_by, "text": self.text or None}


class Row(NamedTuple):
    """A mailbox, and what became of it. With a user, the path is one of that user's, and empty for the mailbox of the
    spool."""

    path: bytes
    # the name of its folder on the disk, if it has one
    folder: bytes
    # what it is, and how many messages it has, if that is known
    kind: str
    messages: Optional[int]
    verdict: str
    # why it is left, as a sentence and as a word, if it is
    why: str = ""
    reason: Optional[Phrase] = None
    # how many bytes it has, if that is known
    size: Optional[int] = None
    # what else is to be said of it, the lines of mail that are shown, and what is to be done next
    remarks: tuple[Remark, ...] = ()
    quotes: tuple[Quote, ...] = ()
    next: Next = NOTHING
    # what a first pass has spent on it, if it measured that
    spent: Optional[Spent] = None
    # whether it is on the way from the folder into the mailbox
    is_back: bool = False
    # the tie of the answer for several mailboxes that decided about it, if one did
    tie: str = ""
    # how many messages it may have at most, if it is not known how many
    most: Optional[int] = None
    # how many messages, files and lines there are of each sort, and what is said of the first ones
    counts: tuple[tuple[str, int], ...] = ()
    details: tuple[Detail, ...] = ()
    # the user to whom it belongs, if it is that of one of many, as the name is printed
    user: Optional[str] = None
    # whether its mailbox has a row for each of its folders, as a Takeout has
    is_part: bool = False

    @property
    def label(self) -> str:
        """What its line begins with: the user, and the path unless it is the mailbox of the spool."""
        names = [named(self.user)] if self.user is not None else []
        return " ".join([*names, *([named(self.path)] if self.path or not names else [])])

    @property
    def way(self) -> str:
        """The same and its folder, in the order in which its mail goes."""
        names = [self.label, folder_shown(self.folder) if self.folder else ""]
        return " -> ".join(filter(None, reversed(names) if self.is_back else names))

    @property
    def name(self) -> str:
        """What its line begins with in a list: INBOX for the mailbox of the spool. One that is left is named without
        its folder, unless it has several, of which some may be left."""
        if not self.path:
            return " ".join(filter(None, [self.label, folder_shown(self.folder) if self.folder else ""]))
        return self.label if self.verdict == Verdict.LEFT and not self.is_part else self.way

    @property
    def said(self) -> list[Remark]:
        """What else is to be said of it, in the order of the table, whenever it came up."""
        return sorted(self.remarks, key=lambda one: PLACES[one.word])

    @property
    def says(self) -> str:
        """What is said of it in its line."""
        return "; ".join(filter(None, [self.why, *(remark.says for remark in self.said)]))

    def line(self) -> str:
        """Its line: the mailbox, its folder, unless it was done before its kind and how many messages it has, what
        became of it, and what is said of it."""
        count = "" if self.messages is None or self.verdict == Verdict.BEFORE else "messages %d" % self.messages
        count += " to %d" % self.most if count and self.most is not None and self.most != self.messages else ""
        what = ", ".join(filter(None, [self.kind, count]))
        if self.verdict == Verdict.FOUND:
            return ": ".join(filter(None, [self.way, what, self.says]))
        verdict, sign = ("%s (%s)" % (self.verdict, self.word), ": ") if self.word else (self.verdict, ", ")
        return ": ".join(filter(None, [self.way, what, verdict + (sign + self.says if self.says else "")]))

    def below(self) -> Iterator[str]:
        """The lines that stand below its line."""
        asked = {one.line for one in self.quotes if not one.is_around}
        for one in self.details:
            if one.says:
                yield BELOW + one.sentence()
            if one.text and one.line and one.line not in asked:
                yield from lines_below([Quote(one.line, one.text)], ())
        yield from lines_below(self.quotes, self.next)

    def as_object(self) -> dict[str, Any]:
        """The same for programs."""
        return {
            "type": "row",
            "user": self.user,
            **path_of(self.path),
            "folder": folder_name(self.folder) or None,
            "directory": shown(self.folder) or None,
            "kind": self.kind or None,
            "messages": self.messages,
            "bytes": self.size,
            "verdict": self.verdict,
            "reason": self.word or None,
            "says": self.says,
            "remarks": [{"remark": one.word, "says": one.says} for one in self.said],
            "lines": [{"line": one.line, "text": one.text, "around": one.is_around} for one in self.quotes],
            # of the mailboxes of users, root runs what nobody else does
            "next": objects_of(self.next, None if self.user is None else ROOT),
            **({} if self.most is None else {"most": self.most}),
            **({"counts": dict(self.counts)} if self.counts else {}),
            **({"details": [one.as_object() for one in self.details]} if self.details else {}),
        }

    @property
    def left_for(self) -> Optional[Phrase]:
        """Why it is left, if it is."""
        return (self.reason or Reason.OTHER) if self.verdict == Verdict.LEFT else None

    @property
    def word(self) -> str:
        """The word for why it is left; empty if it is not."""
        return self.left_for.word if self.left_for else ""

    def is_said(self) -> bool:
        """Whether the row is printed, and not only counted in the sum."""
        if self.verdict == Verdict.NO_MAIL:
            return Says.BY_NO_MAIL.of() in self.remarks
        return self.is_changed() or bool(self.says or self.next)

    def is_changed(self) -> bool:
        """Whether the run did something, or would do it."""
        return self.verdict not in (Verdict.BEFORE, Verdict.NOTHING_NEW, Verdict.FOUND, Verdict.WHOLE, Verdict.NO_MAIL)


class Outcome(NamedTuple):
    """What became of a mailbox: the row that is printed of it and, if all of its messages were verified in a folder,
    what is noted there once the disk was synced."""

    row: Row
    # the path of the folder, the batch of its ledger, which a first pass does not have, and whether a list of what was
    # prepared there is over then
    folder_path: bytes = b""
    batch: Optional[int] = None
    ends_list: bool = False
    # the path of the mailbox, and the state of its file: it is closed, so others may write to it
    path: bytes = b""
    state: Optional[os.stat_result] = None


class Observer:
    """Is told how far mailboxes are, and what became of each. This one does nothing."""

    # how many mailboxes, or users, there are, and how many are at work at the same time
    total, at_once = 0, 1
    # what is to be done once all is done, and what else the last line says
    then: Next = NOTHING
    notes: tuple[str, ...] = ()

    def begin(self) -> None:
        """Notes that one more has begun."""

    def progress(self, who: str, doing: str, place: Optional[int] = None, size: Optional[int] = None) -> None:
        """Takes how far one is: what is done with it and, if that is known, the place in a text and the size of that
        text."""

    def say(self, path: bytes) -> Say:
        """The function that takes the progress of the file at a path."""
        return Beat(functools.partial(self.progress, named(path)))

    def rest(self, who: str) -> None:
        """Notes that one is no longer at work. Its row may come later."""

    def row(self, row: Row) -> None:
        """Takes what became of a mailbox."""

    def leave(self, path: bytes, fault: Union[Fault, OSError]) -> None:
        """Takes why something is left."""
        self.row(row_left(path, b"", fault))

    def ended(self, user: str) -> None:
        """Takes that nothing follows of a user."""


def path_of(path: bytes) -> dict[str, Any]:
    """A path for programs, with its bytes if it is no text."""
    return {"path": text_of(path)} if is_text(path) else {"path": shown(path), "path_hex": path.hex()}


def row_left(
    path: bytes, name: bytes, error: Union[Fault, OSError], plan: Optional[Plan] = None, size: Optional[int] = None
) -> Row:
    """The row of a mailbox that is left, with what is known of it from its plan, or from the reason why it has none."""
    fault = fault_of(error, path)
    known: Union[Plan, Left, None] = plan or (fault if isinstance(fault, Left) else None)
    kind, messages = (known.kind, known.messages) if known else ("", None)
    row = Row(path, name, kind, messages, Verdict.LEFT, str(fault), fault.reason, size)
    return row._replace(quotes=fault.quotes, next=fault.next)


def seen(names: Sequence[bytes], observer: Observer) -> list[bytes]:
    """Those of some names that can be looked at. The others are left."""
    found = []
    for name in names:
        try:
            type_at(name)
            found.append(name)
        except OSError as fault:
            observer.leave(name, fault)
    return found
