"""The files in which Dovecot keeps the order, UIDs and keywords of a folder. With them its clients see no change.

Dovecot reads them when it first looks at the folder, so they are written before that, and never in place of another
file.
"""
import contextlib
import hashlib
import io
import os
import re
import stat
import time
from collections.abc import Callable
from typing import Optional

from ..faults import Fault, Left, Reason
from ..flags.dovecot_headers import (
    LETTERS,
    FromHeaders,
    fields_of,
    first_head,
    info_of,
    internal_head,
    is_listed,
    marks_of,
)
from ..flags.renaming import add_flags, give_marks
from ..ledger.history import About, Note
from ..ledger.record import Record
from ..looks import is_there
from ..maildir.files import names_in
from ..maildir.folders import INBOX, folder_of_place, folder_shown
from ..maildir.making import TMP, sync_folder
from ..mbox.fields import headers_at
from ..mbox.files import WHOLE, open_file, read_up_to
from ..mbox.lock_file import Spot, drop_lock, make_held
from ..mbox.mailbox import Mailbox
from ..nexts import Runs, Todo, run_next, task
from ..readings.texts import form_of
from ..remarks import Remark, Says
from ..terminal import is_text, named, operand
from ..units import Offset, Place, Size
from .known import Opened
from .steps import Extra, Steps

KEYWORDS, LIST, SUBSCRIPTIONS = b"dovecot-keywords", b"dovecot-uidlist", b"subscriptions"
OLD_SUBSCRIPTIONS, FORM = b".subscriptions", b"V\t2\n\n"
# the first line of a list of UIDs: its form, UIDVALIDITY and the next UID
FIRST = re.compile(rb"3 (?:[^\n]* )?V([0-9]{1,10}) (?:[^\n]* )?N([0-9]{1,10})(?=[ \n])")
# the ending of the lock of a list, and after how many seconds it counts for nothing, as for Dovecot
LOCK, STALE = b".lock", 120
# how long a list may be that is looked at: this is some 5,000,000 lines
LONGEST_LIST = 1 << 29
CHANGED = "Dovecot is changing %s"
NUMBERED_BY_DOVECOT = "Dovecot has looked at this folder and keeps the UIDs that it gave"
OF_ANOTHER = "%s has the UIDs of another mailbox"
AFTER_THOSE = "%s, and Dovecot gives these messages UIDs after those"
GOES_ON = "run this again, which goes on without its UIDs"
WHAT_IS_NEW = Says.UIDS_OF_NEW.of()
DONE_WITHOUT = Says.WITHOUT_UIDS.of("it was migrated without --dovecot")


# records a file by its path, its size and its SHA-256 before it is written
NoteFile = Callable[[bytes, int, str], None]


class Dovecot(Extra):
    """Brings UIDs, flags and keywords of a mailbox into the folder, as Dovecot's mbox driver read them. Leaves out
    the header fields that hold them, which that driver hides."""

    IS_STRIPPED = True

    def __init__(self, record: Record) -> None:
        super().__init__()
        self.record = record

    def start_of(self, text: Mailbox, start: Offset) -> Offset:
        """The offset after the message by which Dovecot keeps an empty mailbox, if that comes first."""
        head, end = internal_head(text, start)
        return end if head else start

    def hindrance(self, one: Steps) -> Optional[Left]:
        """Why the folder cannot get the UIDs of the mailbox, if it can't."""
        try:
            if not one.was_begun:
                self.kept_from(one)
        except Left as left:
            return left
        return None

    def apply(self, one: Steps, dry: bool = False) -> list[Remark]:
        """Writes the files, each once, unless nothing may be written. Returns what is to be said of it."""
        says, found = self.look(one)
        if dry:
            return says
        for name in (KEYWORDS, LIST):
            remove_draft(one.opened.folder, name)
        if found:
            if one.was_begun:
                remove_lists(self.record, one.opened, one.known.path)
            self.write(one, found)
        elif one.contents.is_stripped:
            # the folder keeps its UIDs, and its new messages get those flags of their headers that their files lack
            marks = [marks_of(fields_of(one.contents.header(Place(place))), {}) for place in one.places]
            letters = [info_of(its, "") for its in marks]
            listed = {Place(place) for place, its in enumerate(marks) if is_listed(its)}
            add_flags(one.opened.folder, one.files, letters, one.is_unread, listed)
        if WHAT_IS_NEW in says:
            self.raise_next(one)
        return says

    def raise_next(self, one: Steps) -> None:
        """Has the list of a folder give what is new no UID that the mailbox has given since."""
        head, folder = first_head(one.contents.full.mailbox, one.contents.full.start), one.opened.folder
        text = content_at(os.path.join(folder, LIST), LONGEST_LIST) or b""
        found = FIRST.match(text)
        # a list with another UIDVALIDITY is about other UIDs
        if head and found and int(found[1]) == head.validity and int(found[2]) <= head.last:
            new = text[: found.start(2)] + b"%d" % (head.last + 1) + text[found.end(2) :]
            if is_written(self.record, one.opened.name, folder, LIST):
                self.writer(one.opened.name)(LIST, len(new), hashlib.sha256(new).hexdigest())
            replace(os.path.join(folder, LIST), text, new)

    def look(self, one: Steps) -> tuple[list[Remark], Optional[FromHeaders]]:
        """What is to be said, and what was read of the mailbox, if the folder gets UIDs."""
        full = one.contents.full
        head, _ = internal_head(full.mailbox, full.start)
        lost = one.contents.unquoted(one.places)
        # nothing shows a packed mailbox as it is
        shows = "Dovecot shows it once unpacked" if form_of(one.opened.mailbox) else "Dovecot showed it"
        says = Says.LOSES_QUOTE.of_any(lost, ">From", shows)
        says += [Says.WITHOUT_INTERNAL.of()] * bool(head)
        try:
            kept = self.kept_from(one)
        except Left as left:
            if not one.was_begun:
                # it is there since this run has begun
                raise Left("%s: %s" % (left, GOES_ON), left.reason) from left
            # a conversion that was begun goes on, since no other command would finish it
            kept = [Says.WITHOUT_UIDS.of(left)]
        if kept is not None:
            return says + kept, None
        found = FromHeaders(head)
        for header in headers_at(full.mailbox, full.offsets[:-1]):
            found.add(header)
        return says + list(found.remarks()), found

    def write(self, one: Steps, found: FromHeaders) -> None:
        """Writes the files. The list comes last, since with it Dovecot accepts the others."""
        opened, whole = one.opened, one.placing.whole()
        self.record.add(Note.NUMBERED, opened.about, len(whole), opened.mailbox.path)
        if found.keywords:
            text = b"".join(b"%d %s\n" % pair for pair in enumerate(found.keywords[:LETTERS]))
            place_file(opened.folder, KEYWORDS, text, self.writer(opened.name))
        infos = give_marks(opened.folder, whole, found.marks)
        validity, following, order = found.numbers(one.begun_at)
        listed = io.BytesIO()
        listed.write(b"3 V%d N%d\n" % (validity, following))
        for uid, place in order:
            info = infos[place]
            if info is not None:
                listed.write(b"%d :%s\n" % (uid, whole.table.name(place) + info))
        place_file(opened.folder, LIST, listed.getvalue(), self.writer(opened.name))

    def writer(self, name: bytes) -> NoteFile:
        """Returns the function that records a file of a folder before it is written."""
        return lambda file, size, digest: self.record.add(Note.WROTE, About(name, Size(size), digest), 0, file)

    def kept_from(self, one: Steps) -> Optional[list[Remark]]:
        """What is to be said if the folder keeps the UIDs that it has; None if it gets some now."""
        opened = one.opened
        numbered = self.record.numbered(opened.name)
        if numbered and numbered.path not in self.record.names_of(opened.mailbox.path):
            says = OF_ANOTHER % folder_shown(opened.name)
            if one.places and first_head(one.contents.full.mailbox, one.contents.full.start):
                raise Left(AFTER_THOSE % says, Reason.NUMBERED)
            return [WHAT_IS_NEW if one.places else Says.WITHOUT_UIDS.of(says)]
        there = [name for name in names_in(opened.folder) if name.startswith(b"dovecot")]
        if numbered and one.had_brought and LIST in there:
            return [WHAT_IS_NEW]
        for name in there:
            if not is_written(self.record, opened.name, opened.folder, name):
                raise Left("%s is there: %s" % (named(name), NUMBERED_BY_DOVECOT), Reason.NUMBERED)
        if LIST in there:
            is_same = numbered is not None and numbered.about == opened.about
            # one that a killed run has written was read by nobody, and the mailbox may have changed since
            return None if is_same or one.was_begun else [WHAT_IS_NEW]
        return [DONE_WITHOUT] if one.had_brought else None


def is_written(record: Record, name: bytes, folder: bytes, file: bytes) -> bool:
    """Whether the record has a file as one that was written for a mailbox of the folder of this name, which is at this
    path."""
    notes = [one for one in record.notes(Note.WROTE, name) if os.path.basename(one.path) == os.fsdecode(file)]
    most = max((one.about.size for one in notes), default=0)
    text = content_at(os.path.join(folder, file), most) if file in (KEYWORDS, LIST) else None
    return text is not None and hashlib.sha256(text).hexdigest() in {one.about.digest for one in notes}


def remove_lists(record: Record, opened: Opened, path: str) -> None:
    """Removes the files that were written for a mailbox, which the ledger may still have at the path that it was moved
    from, unless somebody has changed them since."""
    numbered, there = record.numbered(opened.name), names_in(opened.folder)
    is_its_own = numbered is not None and numbered.path in (path, *record.names_of(opened.mailbox.path))
    for name in (LIST, KEYWORDS):
        if is_its_own and name in there and is_written(record, opened.name, opened.folder, name):
            os.unlink(os.path.join(opened.folder, name))
    sync_folder(opened.folder)


def place_file(folder: bytes, name: bytes, text: bytes, note: NoteFile) -> None:
    """Writes a file under another name, and links it to its own name once it is on the disk. A file that is there
    stays."""
    path, draft = os.path.join(folder, name), draft_path(folder, name)
    remove_draft(folder, name)
    if is_there(path):
        if content_at(path, len(text)) == text:
            return
        then = run_next(Runs.REMOVE, operand(path))
        raise Left("an earlier run left another %s" % named(name), Reason.NUMBERED, then)
    note(path, len(text), hashlib.sha256(text).hexdigest())
    with open(os.open(draft, os.O_WRONLY | os.O_CREAT | os.O_EXCL | os.O_CLOEXEC, 0o600), "wb") as file:
        try:
            file.write(text)
            file.flush()
            os.fsync(file.fileno())
            os.link(draft, path)
        except FileExistsError as fault:
            says = "%s is there by now: %s: %s" % (named(name), NUMBERED_BY_DOVECOT, GOES_ON)
            raise Left(says, Reason.NUMBERED) from fault
        finally:
            os.unlink(draft)
    sync_folder(folder)


def replace(path: bytes, text: bytes, new: bytes) -> None:
    """Puts another text in the place of a list, as Dovecot does it: its lock gets the name of the list. Dovecot's own
    lock has no list in it, so that one which a killed run left is known, and goes. Raises Left if Dovecot has the lock,
    or has changed the list."""
    lock = Spot(path + LOCK)
    drop_lock(lock, content=FIRST)
    with contextlib.suppress(FileNotFoundError):
        if os.lstat(lock.name).st_mtime < time.time() - STALE:
            lock.unlink()
    try:
        number = make_held(lock, new, 0o600)
    except FileExistsError as fault:
        raise Left(CHANGED % named(path), Reason.LOCKED, task(Todo.STOP_DOVECOT)) from fault
    try:
        with open_file(path) as old:
            if old.readall() != text:
                raise Left(CHANGED % named(path), Reason.CHANGED, task(Todo.STOP_DOVECOT))
        os.rename(lock.name, path)
    except BaseException:
        lock.unlink()
        raise
    finally:
        os.close(number)
    sync_folder(os.path.dirname(path))


def draft_path(folder: bytes, name: bytes) -> bytes:
    """The path at which a file is written before it gets its name."""
    return os.path.join(folder, TMP, b"mbox2maildir-admin-" + name)


def remove_draft(folder: bytes, name: bytes) -> None:
    """Removes what a killed run may have left there, even if the file has got its name since."""
    with contextlib.suppress(FileNotFoundError):
        os.unlink(draft_path(folder, name))


def content_at(path: bytes, most: int) -> Optional[bytes]:
    """What a plain file holds; of a longer one, one byte more than the most that is wanted. None if there is no such
    file."""
    try:
        if not stat.S_ISREG(os.lstat(path).st_mode):
            return None
    except FileNotFoundError:
        return None
    with open_file(path) as file:
        return read_up_to(file, most + 1)


def lines_of(path: bytes) -> tuple[list[bytes], bool]:
    """The lines of a file of subscriptions, and whether tabs separate the parts of names, as in the newer form."""
    text = content_at(path, WHOLE) or b""
    if len(text) > WHOLE:
        raise Fault("it is longer than 1 MB, so it is not a list of folders", place=path)
    first, *lines = text.split(b"\n")
    has_tabs = first.startswith(b"V\t")
    return [line for line in ([] if has_tabs else [first]) + lines if line], has_tabs


def subscribe(maildir: bytes, old: bytes, record: Record, dry: bool) -> list[bytes]:
    """Writes the subscriptions of a tree once, in Dovecot's form: the folders that its `.subscriptions` names, under
    the names that they get. Returns the lines that a file there lacks."""
    path, (found, has_tabs) = os.path.join(maildir, SUBSCRIPTIONS), lines_of(os.path.join(old, OLD_SUBSCRIPTIONS))
    places = [line.replace(b"\t", b"/") if has_tabs else line for line in found if is_text(line)]
    names = [folder_of_place(place.decode()).encode() for place in places]
    lines = [name.replace(b".", b"\t") for name in names]
    text = FORM + b"".join(line + b"\n" for line in lines)
    about = About(INBOX, Size(len(text)), hashlib.sha256(text).hexdigest())
    if not names or any(one.about == about for one in record.notes(Note.SUBSCRIBED, INBOX)):
        return []
    if is_there(path) and content_at(path, len(text)) != text:
        there, has_tabs = lines_of(path)
        return [line for line in (lines if has_tabs else names) if line not in there]
    if not dry:
        place_file(maildir, SUBSCRIPTIONS, text, lambda *_: None)
        # somebody who unsubscribes from a folder later is not told of it again
        record.add(Note.SUBSCRIBED, about, 0, path)
    return []
