"""The record of a Maildir: a file with a line for each thing that is noted of a mailbox, and an index of its ledgers.

The index is written from the ledgers when the record is opened and closed. It says which folders mailboxes have, where
these are, and that a ledger is gone, or was longer once. What a mailbox has brought is read from the ledger, as long as
that is there, and what the index lacks is found in the ledgers.

The file belongs to the owner of the Maildir, and nothing in it is trusted that could harm anybody else.
"""
import contextlib
import errno
import fcntl
import functools
import itertools
import os
import re
import time
from collections.abc import Callable, Container, Iterable, Iterator, Sequence
from typing import Optional, Union

from ..faults import Fault, Reason, fault_of, naming
from ..looks import is_below, is_there, may_be, real_path
from ..maildir.folders import folder_path, folders_in, name_of
from ..maildir.making import LEDGER, RECORD, SyncNames, is_partly_there, make_alone, sync_folder, synced_once
from ..terminal import named, spelled
from ..units import Size
from .history import TIME, About, Event, History, Note, RecordLine, What
from .ledger import Ledger, count_in
from .lines import BY_ANOTHER, CUT, FIRST_LINE, lines_in, want_trusted, was_cut
from .match import Holders

AT_WORK_OR_LEFT = "another migrate is at work in %s, or a convert that an interrupted one left behind"
MADE_MEANWHILE = "another migrate has made %s meanwhile"
UNREAD = (
    "%s: the record does not name its folder, so mail of its mailboxes could come a second time: correct this, or move "
    "it away"
)
# the first line says which version has written it
FIRST_OF_RECORD = b"mbox2maildir-record\t2"
# what lines of the index say
INDEX = (*Event, Note.FOUND)
# a larger file is no record; this is some 50,000 lines
MOST = 1 << 23
# the size and the digest in the line about a mailbox that was undone
NO_TEXT = Size(0), "0" * 64
# what is escaped in the path of a line of the record
ESCAPED = re.compile(rb"\\x([0-9a-f]{2})|\\\\")


class Record(History):
    """What the lines of a record say. It is locked while it is open, also by a program that inherits its file."""

    def __init__(self, maildir: bytes) -> None:
        """Takes the Maildir whose record it is. No file is open yet."""
        super().__init__()
        self.maildir, self.path = maildir, os.path.join(maildir, RECORD)
        self._descriptor: Optional[int] = None
        self.size, self.is_cut, self.has_first_line = 0, False, False
        # why ledgers could not be read, by their paths
        self.unread: dict[bytes, Union[Fault, OSError]] = {}
        # the lines that wait for the file to be made; and whether lines stay in memory
        self.waiting: list[RecordLine] = []
        self.is_dry = False
        # the function that puts lines on the disk; for a worker, its parent does that
        self.write: Callable[..., None] = self.store

    @classmethod
    @contextlib.contextmanager
    def open(cls, maildir: bytes, make: bool) -> Iterator["Record"]:
        """Opens the record of a Maildir, makes it if it is missing, and locks it. Without `make` it is only read, and
        need not exist, and lines stay in memory. In the end it is closed; programs that inherited it keep the lock."""
        record = cls(maildir)
        record.is_dry = not make
        try:
            record.take_file(make)
            record.add_lines(*record.changes(is_found=True))
            try:
                yield record
            finally:
                # what cannot be written now is found by the next run
                with contextlib.suppress(Fault):
                    record.add_lines(*record.changes())
        finally:
            record.close()

    @classmethod
    @contextlib.contextmanager
    def to_migrate(cls, maildir: bytes, dry: bool) -> Iterator["Record"]:
        """The same for a migration. A Maildir that is not there is made later, once a mailbox was read; a rehearsal
        makes nothing. Raises Fault if a ledger cannot be read, and no line of the index names its folder."""
        is_open = is_partly_there(maildir) and not dry
        if is_open:
            make_alone(maildir)
        with cls.open(maildir, is_open) as record:
            record.is_dry = dry
            for path, why in record.unread.items():
                # a mailbox that it has would come a second time, into another folder
                if not record.index_of(name_of(maildir, os.path.dirname(path))) and may_be(is_there, path):
                    fault = fault_of(why, path)
                    raise Fault(UNREAD % fault, Reason.LEDGER, fault.next)
            yield record

    @property
    def descriptor(self) -> int:
        """The descriptor of its file."""
        assert self._descriptor is not None, "it is there"
        return self._descriptor

    @property
    def is_open(self) -> bool:
        """Whether its file is open."""
        return self._descriptor is not None

    def take_file(self, make: bool, sync: SyncNames = sync_folder) -> None:
        """Opens its file if it exists, and reads it. With `make` it also makes and locks it, and `sync` syncs its
        name."""
        flags = os.O_NOFOLLOW | os.O_NONBLOCK | os.O_NOCTTY | os.O_CLOEXEC
        flags |= os.O_RDWR | os.O_APPEND | os.O_CREAT if make else os.O_RDONLY
        with naming(self.path, Reason.RECORD):
            try:
                self._descriptor = os.open(self.path, flags, 0o600)
            except OSError as fault:
                if fault.errno == errno.ELOOP:
                    raise Fault("it is a symbolic link", Reason.RECORD, place=self.path) from fault
                if make or fault.errno != errno.ENOENT:
                    raise
        self.look()
        if not self.is_open:
            return
        # a record that is only read may belong to the owner of the Maildir
        want_trusted(self.path, os.fstat(self.descriptor), Reason.RECORD, is_own=make)
        if make:
            self.lock()
        self.read()
        if make and not self.size:
            # no line is written before the name of the file is on the disk, and a run may have been killed before that
            sync(self.maildir)

    def names_of(self, path: bytes) -> Sequence[str]:
        """Also each path of a line, of the same last name, from whose folder a symbolic link leads to it."""
        names = super().names_of(path)
        real, name = os.path.split(names[-1])
        others = (os.path.join(folder, name) for folder in self.places_of(name) if real_folder(folder) == real)
        return *names, *(other for other in others if other not in names)

    def has_below(self, folder: bytes) -> bool:
        """Whether it has a mailbox below the folder that a path leads to, unless the Maildir itself is below that.
        Raises OSError if the path can't be looked at."""
        real = real_path(folder)
        found = any(line.path.startswith(spelled(real) + "/") for line in self.lines())
        return found and not is_below(real_path(self.maildir), real)

    def make(self, *more: Callable[[SyncNames], object]) -> None:
        """Makes the Maildir and its file, if that has not been done, and more by functions that take what syncs the
        names. All names are on the disk then, and the lines that waited for the file. A rehearsal makes nothing. Raises
        Fault if another `migrate` has made them meanwhile."""
        if self.is_dry:
            return
        was_open = self.is_open
        try:
            with synced_once() as sync:
                if not self.is_open:
                    make_alone(self.maildir, sync)
                    self.take_file(True, sync)
                    if self.size:
                        raise Fault(MADE_MEANWHILE % named(self.maildir), Reason.LOCKED)
                for make in more:
                    make(sync)
        except BaseException:
            if not was_open:
                self.close()
            raise
        waiting, self.waiting = self.waiting, []
        if waiting:
            self.store(*waiting)

    def close(self) -> None:
        """Closes its file, if that is open."""
        if self._descriptor is not None:
            os.close(self._descriptor)
            self._descriptor = None

    def lock(self) -> None:
        """Locks it, so that only one `migrate` is at work in its Maildir. Raises Fault if another one is."""
        try:
            fcntl.flock(self.descriptor, fcntl.LOCK_EX | fcntl.LOCK_NB)
        except BlockingIOError as fault:
            raise Fault(AT_WORK_OR_LEFT % named(self.maildir), Reason.LOCKED) from fault
        except OSError as fault:
            # where nothing is locked, two would place the same mail
            raise Fault("it cannot be locked: %s" % fault.strerror, Reason.RECORD, place=self.path) from fault

    def read(self) -> None:
        """Reads its lines. Lines that were cut do not count. Raises Fault if another version has written it, or if
        it is too large for a record."""
        data = os.pread(self.descriptor, MOST + 1, 0)
        if len(data) > MOST:
            raise Fault("it is too large for a record: look at it, and move it away", Reason.RECORD, place=self.path)
        self.size, self.is_cut = len(data), bool(data) and not data.endswith(b"\n")
        several = data.split(b"\n")[:-1]
        lines = [line for line in several if not was_cut(line)]
        self.has_first_line = lines[:1] == [FIRST_OF_RECORD]
        # a power cut may have taken the first line
        if lines and not self.has_first_line and b"\0" not in several[0]:
            raise Fault(BY_ANOTHER, Reason.RECORD, place=self.path)
        for line in filter(None, map(RecordLine.parse, lines)):
            self.take(line)

    @functools.cached_property
    def _gone(self) -> tuple[list[RecordLine], Holders]:
        """The lines about those mailboxes that were gone when this was asked first, and which of these has a core."""
        gone = [line for line in self.lines() if is_gone(line.path)]
        folders = itertools.groupby(gone, lambda line: folder_path(self.maildir, line.about.folder))
        cores = (map(Ledger(folder).has, (line.path for line in its)) for folder, its in folders)
        return gone, Holders(itertools.chain.from_iterable(cores))

    def gone(self, cores: Iterable[bytes]) -> list[RecordLine]:
        """The lines about those of these mailboxes that may have one of these cores by the ledger of their folder."""
        gone, holders = self._gone
        return [gone[number] for number in holders.of(cores)]

    def add(self, what: What, about: About, messages: int, path: bytes, words: Optional[str] = None) -> None:
        """Appends a line: see `add_lines`."""
        self.add_lines(RecordLine(what, about, messages, time.strftime(TIME, time.gmtime()), spelled(path), words))

    def add_gone(self, folder: bytes, paths: Container[str]) -> None:
        """Notes of the mailboxes of some paths that a folder has nothing of them any more, since it is gone."""
        about, when = About(folder, *NO_TEXT), time.strftime(TIME, time.gmtime())
        lines = [one for one in self.last_events(folder) if one.path in paths]
        self.add_lines(*(RecordLine(Event.UNDONE, about, 0, when, one.path, "-", *one[6:]) for one in lines))

    def look(self) -> None:
        """Looks which folders have which ledgers."""
        self.numbers, self.unread = {}, {}
        for folder in folders_in(self.maildir):
            with self.noting_unread(folder):
                whole = (line for line in lines_in(folder) if not was_cut(line))
                head = FIRST_LINE.match(next(whole, b""))
                if head:
                    self.numbers[name_of(self.maildir, folder)] = head[1].decode()
        self.folders = {number: name for name, number in reversed([*self.numbers.items()])}

    @contextlib.contextmanager
    def noting_unread(self, folder: bytes) -> Iterator[None]:
        """Notes it if the ledger of a folder cannot be read, which is said where it is needed."""
        try:
            yield
        except (Fault, OSError) as fault:
            self.unread[os.path.join(folder, LEDGER)] = fault

    def changes(self, is_found: bool = False) -> Iterator[RecordLine]:
        """The lines that the index lacks of the ledgers that have changed. If it was just read, mailboxes of ledgers
        that no line names are found."""
        if not is_found:
            self.look()
        # of two copies of a folder, that one counts which the index has
        its = {(one.ledger, one.about.folder) for one in self.lines()}
        self.folders.update((number, name) for name, number in self.numbers.items() if (number, name) in its)
        for number, name in self.folders.items():
            folder = folder_path(self.maildir, name)
            with self.noting_unread(folder):
                if os.stat(os.path.join(folder, LEDGER)).st_size != self.ledger_sizes.get(number):
                    is_new, lines = is_found and number not in self.ledger_sizes, self.changes_in(name, Ledger(folder))
                    yield from lines
                    yield from (one._replace(what=Note.FOUND) for one in lines if is_new)

    def changes_in(self, name: bytes, ledger: Ledger) -> list[RecordLine]:
        """The lines that the index lacks of the mailboxes of a folder, as far as its ledger has all that it had. What
        damage has left of one that no line names shows which mailboxes it has. If the folder was deleted and made anew,
        mail that went back into a mailbox does not show what else that had brought."""
        last = {one.path: one for one in self.index_of(name) if one.ledger == ledger.number}
        had_other = {one.path for one in self.unknown_to(name, ledger)}
        found = []
        for path, number in [] if ledger.damage and ledger.number in self.ledger_sizes else ledger.lasts.items():
            before, now = last.get(path), self.index_line(name, ledger, path)
            is_known = before is not None and number >= before.number and now.says() != before.says()
            is_unsure = path in had_other and now.about[1:] == NO_TEXT
            if is_known or before is None and now.what is not Event.UNDONE and not is_unsure:
                found.append(now)
        return found

    @staticmethod
    def index_line(name: bytes, ledger: Ledger, path: str) -> RecordLine:
        """The line of the index about a mailbox, by the ledger of a folder."""
        event, when, number = Event.UNDONE, time.strftime(TIME, time.gmtime()), ledger.lasts[path]
        at = ledger.number, ledger.size, number
        if path not in ledger.paths():
            return RecordLine(event, About(name, *NO_TEXT), 0, when, path, "-", *at)
        event = Event.DONE if ledger.pending(path) is None and path not in ledger.leaving else Event.BEGUN
        read = ledger.last_read(path)
        about = About(name, Size(read.key[0]), read.key[1])
        return RecordLine(event, about, count_in(ledger, path), when, path, read.words, *at)

    def unknown_to(self, name: bytes, ledger: Ledger) -> list[RecordLine]:
        """The last line about each mailbox of a folder of which the ledger there lacks something: the folder had
        another one, or it was longer once."""
        unknown = []
        for one in self.index_of(name):
            is_longer = ledger.lasts.get(one.path, 0) < one.number
            if is_longer if one.ledger == ledger.number else one.what is not Event.UNDONE:
                unknown.append(one)
        return unknown

    def add_lines(self, *lines: RecordLine) -> None:
        """Appends lines at once: `store` puts them on the disk, or the parent of a worker."""
        if lines:
            self.write(*lines)
        for line in lines:
            self.take(line)

    def store(self, *lines: RecordLine) -> None:
        """Puts lines on the disk. Those of the index need no sync, those of a rehearsal stay in memory, and before the
        file is made all wait. Raises Fault if not all of them could be written."""
        if self.is_dry:
            return
        if not self.is_open:
            self.waiting += lines
            return
        with naming(self.path, Reason.RECORD):
            # if a full disk cut the line before, that is ended first, so that it becomes no other one
            begin = (CUT + b"\n") * self.is_cut + (FIRST_OF_RECORD + b"\n") * (not self.has_first_line)
            piece = begin + b"".join(one.line() for one in lines)
            if self.size + len(piece) > MOST:
                raise OSError(errno.EFBIG, "it is full: move it away; the ledgers in the folders say what was brought")
            self.is_cut = True
            written = os.write(self.descriptor, piece)
            self.size += written
            if written != len(piece):
                raise OSError(errno.ENOSPC, os.strerror(errno.ENOSPC))
            self.is_cut = False
            if any(one.what not in INDEX for one in lines):
                os.fsync(self.descriptor)
            self.has_first_line = True


@functools.lru_cache(maxsize=1 << 10)
def real_folder(folder: str) -> str:
    """The folder, as lines spell it, to which one leads that a line spells; empty if that can't be looked at: then no
    mailbox can be read there."""
    try:
        return spelled(real_path(unspelled(folder)))
    except OSError:
        return ""


def unspelled(path: str) -> bytes:
    """The path that a line of the record spells."""
    return ESCAPED.sub(lambda found: bytes([int(found[1], 16)]) if found[1] else b"\\", path.encode("utf-8"))


def is_gone(path: str) -> bool:
    """Whether nothing is at the path that a line spells any more."""
    return not is_there(unspelled(path))
