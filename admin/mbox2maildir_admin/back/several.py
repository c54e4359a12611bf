"""The mail of a Maildir on its way back, folder by folder."""
import collections
import os
from collections.abc import Iterator, Mapping, Sequence
from typing import Optional, Union

from ..faults import FULL, Fault, Left, Reason
from ..ledger.ledger import Ledger
from ..ledger.record import Record, is_gone, unspelled
from ..looks import is_file, is_there, may_be
from ..maildir.folders import folder_path, folder_shown, folders_in, name_of
from ..maildir.making import GOES_BACK, RECORD, real_place, want_roots_alone
from ..mbox.bases import BASE
from ..mbox.files import is_empty
from ..migration.outcomes import Observer, Row, Verdict, row_left
from ..migration.options import Options
from ..nexts import NOTHING, Next, Runs, run_next
from ..program import Program, find_program
from ..remarks import Remark, Says, Sentence
from ..terminal import first_of, named, operand
from .appending import Returned, TakesNothing, Way, not_held, nothing_new
from .journal import Journal
from .mails import Findings, Target, findings_in
from .places import Keeper, Names, Places
from .subscriptions import rows_of

NO_RECORD = "it has no record, so nothing shows which mail came from the old mailboxes"
TORN = "the message that begins in line %d is cut: a run was killed there, and another program has written after it"
DISK_FULL = "no room is left on its disk, or on that of the Maildir"
UNLESS = ", unless somebody has removed %s from the mailbox"
# what the name of a Maildir ends in that has been moved aside
MOVED_ASIDE = b".back"
Remarks = tuple[Remark, ...]


def bring_back(maildir: bytes, names: Sequence[bytes], options: Options, observer: Observer) -> Next:
    """Brings the mail back that is in a Maildir of the user who runs this, and did not come from the mailboxes at some
    paths. Returns what moves the Maildir aside."""
    if os.geteuid() == 0:
        # a symbolic link above it may lead elsewhere by then
        maildir = real_place(maildir)
        want_roots_alone(maildir)
    want_migrated(maildir)
    return bring_all(Program(find_program()), maildir, Names(names), options, Keeper(), observer)


def want_migrated(maildir: bytes) -> None:
    """Raises Fault if nothing was migrated into a Maildir."""
    if not is_there(os.path.join(maildir, RECORD)):
        raise Fault(NO_RECORD, Reason.NO_MAILDIR, place=maildir)


def bring_all(
    program: Program, maildir: bytes, names: Names, options: Options, keeper: Keeper, observer: Observer
) -> Next:
    """Brings mail back by a program, whoever runs this, and whatever was migrated. Returns what moves the Maildir
    aside."""
    os.umask(0o077)
    with Record.open(maildir, not options.dry) as record:
        return Folders(Way(program, record, options, Places(record, names), keeper, observer)).run()


class Folders:
    """The folders of a Maildir whose mail goes back."""

    def __init__(self, way: Way) -> None:
        self.way, self.places, self.is_dry = way, way.places, way.options.dry
        self.is_right = True
        # the folders with mail whose mailboxes are gone, as if their disk was not mounted
        self.gone: set[bytes] = set()

    def run(self) -> Next:
        """Brings back the mail of each folder, and tells its row. Returns what moves the Maildir aside, once all of its
        mail is back."""
        maildir, observer = self.way.record.maildir, self.way.observer
        found = findings_in(maildir, self.places.found, observer.say(maildir))
        self.gone.update(filter(self.places.are_gone, found.alone))
        observer.rest(named(maildir))
        self.add_deleted_folders(found)
        if not self.is_dry:
            self.drop_locks()
        folders = list(self.folders(found))
        observer.total += len(folders)
        for folder in folders:
            observer.begin()
            stands = self.standing(found, folder)
            for row in self.rows(self.target(found, folder)):
                self.tell(row._replace(remarks=(*row.remarks, *stands.pop(row.path, ()))))
            for path in sorted(stands):
                self.tell(nothing_new(Target(path, folder, (), stands[path])))
        if self.way.options.dovecot and self.places.trees:
            for row in rows_of(self.places, self.is_dry):
                self.tell(row)
        if self.is_dry or not self.is_right:
            return NOTHING
        ends = b"", *(b"-%d" % number for number in range(2, 100))
        names = (maildir.rstrip(b"/") + MOVED_ASIDE + end for end in ends)
        name = next((name for name in names if not may_be(is_there, name)), None)
        return run_next(Runs.MOVE, operand(maildir), operand(name)) if name else NOTHING

    def tell(self, row: Row) -> None:
        """Tells a row."""
        self.is_right = self.is_right and not row.left_for
        self.places.would.update({row.path: row.folder} if row.verdict == Verdict.WOULD_BACK else {})
        self.way.observer.row(row)

    def drop_locks(self) -> None:
        """Removes the locks that a killed run left, also beside mailboxes that are not named now. If a ledger had noted
        that all is back, nothing may go back there any more, and nobody else would remove them."""
        noted = {unspelled(line.path) for line in self.way.record.lines()}
        paths = noted.union(*self.places.found.values())
        self.way.keeper.drop_locks(sorted(paths), os.path.realpath(self.way.record.maildir))

    def add_deleted_folders(self, found: Findings) -> None:
        """Takes it that all messages were deleted of a folder that is gone, or was made anew, by the index. What is
        there by names of this program has only lost its ledger."""
        for folder in self.places.found:
            ledger, new = Ledger(folder_path(self.way.record.maildir, folder)), found.new.get(folder, ())
            for line in self.way.record.unknown_to(folder, ledger):
                if line.ledger != ledger.number and not any(BASE.fullmatch(mail.before) for mail in new):
                    found.deleted.setdefault(folder, []).extend([{line.path}] * line.messages)

    def folders(self, found: Findings) -> Iterator[bytes]:
        """The folders with mail that goes back, or with a mailbox, and those about which something is to be said."""
        wanted = {*found.new, *found.moved, *found.changed, *found.deleted, *self.places.found, *self.gone}
        there = {name_of(self.way.record.maildir, path): path for path in folders_in(self.way.record.maildir)}
        for folder, path in there.items():
            if folder in wanted or is_there(os.path.join(path, GOES_BACK)):
                yield folder
        yield from (folder for folder in found.deleted if folder not in there)

    def target(self, found: Findings, folder: bytes) -> Target:
        """The mail of a folder that goes back, wherever it goes to, and what is said of messages that people moved
        there."""
        path = next(iter(self.places.found.get(folder, ())), folder_path(self.way.record.maildir, folder))
        remarks = list[Remark]()
        for other, count in collections.Counter(found.moved.get(folder, ())).items():
            remarks += Says.MOVED.of_any(count, folder_shown(other))
        return Target(path, folder, found.new.get(folder, ()), tuple(remarks), found.returned.get(folder, ()))

    def standing(self, found: Findings, folder: bytes) -> dict[bytes, Remarks]:
        """What is said of the messages of a folder that were deleted or changed there, and stand in its mailboxes as
        before, by these."""
        paths = self.places.found.get(folder, [])
        if not paths or folder not in found.deleted and folder not in found.changed:
            return {}
        names = {path: set(self.way.record.names_of(path)) for path in paths}
        # in one that had another size when it was read last, nobody knows what it has now
        sizes = {line.about.size for line in self.way.record.last_events(folder)}
        remarks: collections.defaultdict[bytes, Remarks] = collections.defaultdict(tuple)
        for says, several in ((Says.DELETED, found.deleted), (Says.CHANGED, found.changed)):
            counts: collections.Counter[bytes] = collections.Counter()
            for its in several.get(folder, ()):
                counts.update(holders_of(its, names))
            for path, count in counts.items():
                is_sure = not may_be(lambda one: (os.path.getsize(one) if is_file(one) else 0) not in sizes, path)
                unless = "" if is_sure else UNLESS % ("it" if count == 1 else "them")
                remarks[path] += (*says.of_any(count, unless, stands=count if is_sure else 0),)
        return remarks

    def rows(self, target: Target) -> Iterator[Row]:
        """The row of the mailbox to which the mail of a folder goes back; and those of mailboxes beside it, which get
        what it cannot hold."""
        try:
            yield from self.recovered(target.folder)
            if not target.mails and target.folder not in self.gone:
                yield self.way.row_without_mail(target)
                return
            several = self.places.of(target.folder)
        except (Fault, OSError) as fault:
            yield left(target._replace(path=folder_path(self.way.record.maildir, target.folder)), fault)
            return
        for path in several:
            found = self.brought(target._replace(path=path))
            if found:
                row, refused = found
                yield row
                yield from self.rows_beside(Target(path, target.folder, refused), Says.BESIDE)
                return
        yield from self.rows_beside(target._replace(path=several[0]), Says.BESIDE_ALL)

    def recovered(self, folder: bytes) -> Iterator[Row]:
        """Takes back what a killed run appended in part. The row of a mailbox in which a message stays cut."""
        journal = None if self.is_dry else Journal.left_in(folder_path(self.way.record.maildir, folder))
        if not journal:
            return
        try:
            paths = [unspelled(journal.mailbox), *self.places.found.get(folder, ())]
            paths = list(filter(is_file, paths))
            same = [one for one in paths if os.stat(one).st_ino == journal.inode]
            # another file at its path may be a copy of it
            for path in (same or paths)[:1]:
                with self.way.mailbox_at(path) as mailbox:
                    line = journal.recover(mailbox)
                if line is not None:
                    yield left(Target(path, folder, ()), Left(TORN % line, Reason.TORN))
            if not paths:
                journal.remove()
        finally:
            os.close(journal.number)

    def rows_beside(self, target: Target, why: Sentence) -> Iterator[Row]:
        """The rows of the mailboxes beside one that does not get this mail. What one of them cannot hold goes into the
        next one."""
        rest, tried = target, list[bytes]()
        while rest.mails:
            try:
                tried.append(self.places.beside(target.path, target.folder, tried))
            except (Fault, OSError) as fault:
                yield left(rest._replace(path=target.path), fault)
                return
            rest = rest._replace(path=tried[-1], returned=())
            found = self.brought(rest)
            if not found:
                yield left(rest._replace(remarks=()), not_held(rest.mails))
                return
            row, refused = found
            files = [one.path for one in rest.mails if one not in refused]
            if files:
                yield row._replace(remarks=(why.of(named(target.path), first_of(files)), *row.remarks))
            rest = rest._replace(mails=refused)

    def brought(self, target: Target) -> Optional[Returned]:
        """What became of a mailbox to which mail goes back, and which is made if it is missing; None if it takes
        nothing."""
        way, options = self.way, self.way.options
        try:
            is_missing = not is_there(target.path)
            if is_missing and not options.dry:
                # none is made that would stay empty
                row, refused = way._replace(options=options._replace(dry=True)).append(target)
                if row.left_for:
                    return row, refused
            # the name of an empty one may not be on the disk yet
            if not options.dry and (is_missing or is_empty(target.path)):
                way.keeper.make(target.path)
            # nobody else knows of a new one
            return way._replace(options=options._replace(now=options.now or is_missing)).append(target)
        except TakesNothing:
            return None
        except (Fault, OSError) as fault:
            return left(target, fault), ()


def left(target: Target, fault: Union[Fault, OSError]) -> Row:
    """The row of a mailbox to which nothing went back."""
    if isinstance(fault, OSError) and fault.errno in FULL:
        fault = Left(DISK_FULL, Reason.NO_ROOM)
    row = row_left(target.path, target.folder, fault)
    return row._replace(messages=len(target.mails), remarks=target.remarks, is_back=True)


def holders_of(paths: set[str], names: Mapping[bytes, set[str]]) -> Iterator[bytes]:
    """The mailboxes, by their paths with all names of these, that have a message which those at some paths had. One
    that is gone from its path may be the first of them; of one that is not named now, nothing is said."""
    several = [path for path, its in names.items() if its & paths]
    if several:
        yield from several
    elif all(map(is_gone, paths)):
        yield from list(names)[:1]
