"""What keeps a file from being done."""
import contextlib
import errno
import os
from collections.abc import Iterable, Iterator, Sequence
from typing import Optional, Union

from .looks import ABSENT, is_folder, is_surely, is_there
from .nexts import NOTHING, Next, Phrase, Quote, Runs, Todo, by_word, lines_below, run_next, task
from .terminal import complain, named, operand


class Reason:
    """Why something is left. docs/LEFT.md has the words and the sentences too."""

    OTHER = Phrase("other", "There is no word for it yet.")
    ERROR = Phrase("error", "A system call failed.")
    # what the file is: mail that only a human can split, mail of another kind, not known; or it is a copy, or has one
    UNCLEAR = Phrase("unclear", "The file does not show how to read it: you decide.")
    LABELS = Phrase("labels", "Some messages lack Gmail's labels, or you have to decide about a label.")
    OTHER_KIND = Phrase("other-kind", "It holds mail of another kind.")
    NOT_KNOWN = Phrase("not-known", "It is not known what it is.")
    PACKED = Phrase(
        "packed",
        "It is compressed or in UTF-16, and cannot be unpacked. It is incomplete or damaged, it holds more than 100 "
        "times its size, or the program that unpacks it is missing.",
    )
    COPY = Phrase("copy", "Another file stands beside it, and one of them may be a copy of the other.")
    LEFT_BEHIND = Phrase("left-behind", "An interrupted command left it behind.")
    LINK = Phrase("link", "It is a symbolic link, or its path within the home contains one.")
    MISSING = Phrase("missing", "Nothing is at its path.")
    WORDS = Phrase("words", "Its path was given as several words.")
    NO_FILE = Phrase("no-file", "It is neither a regular file nor a folder.")
    HOLES = Phrase("holes", "It is a sparse file with more than 16 MB of holes.")
    MAILDIR = Phrase("maildir", "It is a Maildir.")
    MH = Phrase("mh", "It is an MH folder.")
    # who is at work on it
    LOCKED = Phrase("locked", "Another program has locked it, or works in its folder.")
    CHANGED = Phrase("changed", "A program writes to it.")
    # the folder that it would go to
    NO_FOLDER = Phrase(
        "no-folder",
        "Another mailbox goes into this folder, another folder has this mail, or no folder can have this name.",
    )
    NOT_OWN = Phrase(
        "not-own",
        "A folder on the path belongs to another user, can be changed by others, cannot be entered, or is a link or a "
        "file.",
    )
    NO_ROOM = Phrase("no-room", "The disk has too little room, or too few inodes.")
    NO_SYNC = Phrase("no-sync", "The file system of its folder does not sync folders, or leaves out all syncs.")
    # what is there already
    PARTLY_THERE = Phrase(
        "partly-there", "Some of its messages are there, but not in the ledger, the folder's list of messages."
    )
    REWRITTEN = Phrase("rewritten", "More than a tenth of it was replaced since it was done, or it is another mailbox.")
    LEDGER = Phrase("ledger", "The ledger, the folder's list of messages, is lost, damaged, or cannot be trusted.")
    ANOTHER_READING = Phrase(
        "another-reading",
        "It was begun or done with another reading, which delivers other bytes; to go on would double mail.",
    )
    CUT = Phrase("cut", "A message was converted before it was complete.")
    NUMBERED = Phrase("numbered", "Its UIDs cannot be kept: the folder has others, from Dovecot or another mailbox.")
    PREPARED = Phrase("prepared", "A first pass (`--prepare`) cannot store it in its folder, or cannot be finished.")
    SUBSCRIPTIONS = Phrase("subscriptions", "There is a list of subscriptions already, or it cannot be written.")
    # what failed
    WRONG_LINES = Phrase("wrong-lines", "A line that `--text` or `--begin` names has no `From ` where it should.")
    MISREAD = Phrase("misread", "It was read twice with different results, or not to its end.")
    CONVERT_FAILED = Phrase("convert-failed", "The program mbox2maildir failed, or is missing.")
    SYNC_FAILED = Phrase("sync-failed", "A sync of the disk failed.")
    NOT_VERIFIED = Phrase("not-verified", "Not every message is there exactly once.")
    NOT_HELD = Phrase("not-held", "The mailbox's format cannot hold some of the mail that `back` would append.")
    TORN = Phrase(
        "torn", "A run was killed while it appended a message, and another program has written behind this cut message."
    )
    UNDO = Phrase("undo", "Its undo would harm other mail, or was interrupted.")
    # what is wrong with the Maildir or its record
    NO_MAILDIR = Phrase(
        "no-maildir",
        "The Maildir, or the folder above it, is missing or is not what it should be, or the Maildir has no record.",
    )
    RECORD = Phrase("record", "The record cannot be read, written or locked, or others may write to it.")
    # what is wrong with a user: the name, what the spool has under it, the home, the process
    NO_USER = Phrase("no-user", "The name belongs to no user.")
    SYSTEM_ACCOUNT = Phrase("system-account", "The user is a system account.")
    NO_MAILBOX = Phrase("no-mailbox", "The folder has no mailbox, or the spool has none of a user who was named.")
    OTHER_OWNER = Phrase("other-owner", "It belongs to another user.")
    SAME_USER = Phrase("same-user", "The user has another mailbox, which goes into INBOX.")
    HOME = Phrase("home", "The home is missing, cannot be entered, or belongs to another user.")
    PROCESS = Phrase("process", "The process that migrated it was ended, or its answer cannot be read.")
    DEFECT = Phrase("defect", "An internal error of this command.")


REASONS = by_word(Reason)
# the reasons that the same command settles when it is run again, and what is to be done before, unless a fault says it
SETTLED = {Reason.LOCKED: task(Todo.WAIT), Reason.CHANGED: task(Todo.STOP_WRITER)}


# errors of a disk that is full, and of one that is only read or fails
FULL, FAILING = (errno.ENOSPC, errno.EDQUOT), (errno.EROFS, errno.EIO)


class Status:
    """How a command ends, as its exit status: all is well; something is left that a human settles; nothing is left but
    what the same command settles when it is run again (EX_TEMPFAIL of sysexits(3))."""

    WELL, LEFT, LATER = 0, 1, 75

    @classmethod
    def of(cls, is_well: bool) -> int:
        """The status of a command that is run again only by a human."""
        return cls.WELL if is_well else cls.LEFT

    @classmethod
    def after(cls, reasons: Iterable[Phrase]) -> int:
        """The status of a command that leaves something for each of these reasons."""
        is_settled = {one in SETTLED for one in reasons}
        return cls.LEFT if False in is_settled else cls.LATER if is_settled else cls.WELL


class Fault(Exception):
    """Why something could not be done with a file, as a sentence and as a word for programs; what is to be done next;
    and the lines of mail that are shown for it. If the fault is in another place, the sentence begins with that."""

    def __init__(
        self,
        why: str,
        reason: Phrase = Reason.OTHER,
        then: Next = NOTHING,
        quotes: Sequence[Quote] = (),
        place: Optional[bytes] = None,
    ) -> None:
        super().__init__(why if place is None else "%s: %s" % (named(place), why))
        self.reason, self.quotes, self.place = reason, tuple(quotes), place
        self.next = then or SETTLED.get(reason, NOTHING)


class Left(Fault):
    """Why a mailbox is left as it is; if that is known, also what it is, and how many messages it has or may have."""

    # what it is, and how many messages it has, or may have at most
    kind = ""
    messages: Optional[int] = None
    most: Optional[int] = None


def reason_of(error: OSError, otherwise: Phrase) -> Phrase:
    """Why something is left after an error of the system: nothing else is wrong if the disk is full or fails."""
    return Reason.NO_ROOM if error.errno in FULL else Reason.ERROR if error.errno in FAILING else otherwise


def fault_of(error: Union[Fault, OSError], path: bytes) -> Fault:
    """The fault that came up with the file at a path. An error of the system names its own place, if that is another
    one."""
    if isinstance(error, Fault):
        return error
    place = path if error.filename is None else os.fsencode(error.filename)
    why, is_absent, then = error.strerror or str(error), error.errno in ABSENT, NOTHING
    # the folder above shows why a file could not be made or looked at, and what is there
    above = place
    while above and not is_surely(is_there, above):
        above = os.path.dirname(above)
    if error.errno == errno.EACCES or is_absent:
        may_list = is_absent and is_surely(is_folder, above or b".")
        then = run_next(Runs.LIST if may_list else Runs.LIST_ITSELF, operand(above or b"."))
    if place != path:
        return Fault(why, reason_of(error, Reason.ERROR), then, place=place)
    return Left(why, reason_of(error, Reason.MISSING if is_absent else Reason.ERROR), then)


def complain_of(error: Union[Fault, OSError], path: bytes = b"") -> None:
    """Prints what is wrong with a file, and what to do next."""
    fault = fault_of(error, path)
    why = str(fault) or (fault.kind if isinstance(fault, Left) else "")
    says = "%s: %s" % (named(path), why) if path and fault.place is None else why
    complain(says, lines_below(fault.quotes, fault.next))


@contextlib.contextmanager
def naming(path: bytes, reason: Phrase = Reason.ERROR) -> Iterator[None]:
    """Turns an error in here into a fault that names this file or folder, for a reason, unless it is the disk's."""
    try:
        yield
    except OSError as error:
        then = fault_of(error, path).next if reason is Reason.ERROR else NOTHING
        raise Fault(error.strerror, reason_of(error, reason), then, place=path) from error
