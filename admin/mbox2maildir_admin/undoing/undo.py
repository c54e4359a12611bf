"""Removes what a mailbox brought into a folder, or what is only prepared there.

A plan says first what becomes of each message. Its file goes if this mailbox, or one that was undone before, placed it,
its bytes are right, the mailbox still has the message, and no other mailbox has the file, had it, or lacks its own file
of that message. The ledger says that the mailbox is being undone before the first file is removed, and that nothing is
known of it any more once everything is synced. The same words go on with a run that was killed.
"""
import collections
import contextlib
import enum
import fcntl
import functools
import os
from collections.abc import Container, Iterator, Mapping, Sequence
from typing import NamedTuple, Optional

from ..faults import Fault, Left, Reason
from ..flags.renaming import sync_names
from ..ledger.assign import File, by_form, files_of
from ..ledger.lines import LOST, NOBODYS, Brought, Line, State
from ..ledger.match import cores_of
from ..ledger.gone import without_line
from ..ledger.history import Event
from ..ledger.ledger import Ledger, count_in
from ..ledger.prepared import has_list, origin_in, remove_list
from ..ledger.record import Record, unspelled
from ..looks import is_there
from ..maildir.files import digest_of, forms_in, mail_in
from ..maildir.folders import INBOX, folder_path, folder_shown, folders_in, name_of
from ..maildir.making import RECORD, open_folder, real_place
from ..mbox.bases import DIGEST, base_in, before_info, is_own
from ..mbox.locks import WITHOUT_LOCKS, open_mailbox
from ..mbox.mailbox import CHANGED_MEANWHILE, Mailbox, is_unchanged
from ..migration.dovecot import Dovecot, remove_lists
from ..migration.known import Known, Opened, moved_in
from ..migration.outcomes import Observer, Row, Verdict, row_left
from ..migration.places import folders_of_moved
from ..migration.preparing import other_in, remove_prepared
from ..migration.several import refuse
from ..migration.options import Options
from ..migration.steps import Extra
from ..nexts import Todo, task
from ..readings.reading import Reading, with_deleted
from ..readings.texts import NO_LONGER, content_of, text_then
from ..remarks import Remark, Says
from ..terminal import first_of, named
from ..units import Say, counted

NOT_RECORDED = "no ledger has it, so nothing shows which files are its own"
DAMAGED = "the ledger of its folder is damaged in line %d"
OLDER = (
    "the ledger of its folder is older than its record, and nothing shows which files are those of %s: migrate that "
    "with --again first"
)
WITHOUT_LINE = (
    "the ledger of its folder is older than the folder, where this program has placed %s of which no ledger has a "
    "line: restore the newest one, or first migrate the other mailboxes that went there"
)
IN_SEVERAL = "the record has it in several folders: %s"
NAMES_CHANGE = "names in its folder keep changing"
CONVERTER = "another converter is at work in %s"
# how often a folder is listed while names in it change
PASSES = 20
# the states of lines whose mailbox has the message, or may have it; and of those whose mailbox has it
MAY_HAVE, HAVE = (State.HELD, State.OPEN), (State.HELD,)
# how often there is each core
Cores = collections.Counter[bytes]


class Fate(enum.Enum):
    """What becomes of a message, by the remark on it: it goes, stays for a reason, or was gone before."""

    REMOVED = Says.REMOVED
    SHARED = Says.KEPT_SHARED
    FORMER = Says.KEPT_FORMER
    FOREIGN = Says.KEPT_FOREIGN
    LOST = Says.KEPT_LOST
    EDITED = Says.KEPT_EDITED
    RENAMED = Says.KEPT_RENAMED
    GONE = Says.ALREADY_GONE


# how many messages have each fate
Counts = collections.Counter[Fate]


class Becomes(NamedTuple):
    """What becomes of a message that the mailbox brought, with its line. If its file stays for another mailbox, it has
    the path of that; and if mailboxes get it in place of a file of theirs that is gone, that file. What goes may be
    gone already, edited or renamed: one listing may miss a file that is renamed meanwhile, so `remove` looks for each
    by the base of its name, and says what it met."""

    fate: Fate
    line: Line
    keeper: str = ""
    instead_of: Optional[File] = None


class Undo:
    """Undoes mailboxes of a Maildir."""

    def __init__(self, record: Record, options: Options) -> None:
        self.record, self.options = record, options

    def run(self, path: bytes, say: Say) -> Row:
        """Undoes a mailbox, and returns its row. `say` takes the progress."""
        folder, size = self.options.named_folder, None
        name = folder or b""
        try:
            if folder is None:
                names = sorted(self.record.folders_of(path) or folders_of_moved(path, self.record))
                if len(names) > 1:
                    # which folder is not asked about what is not there
                    os.stat(path)
                    where = ", ".join(map(folder_shown, names))
                    raise Left(IN_SEVERAL % where, Reason.UNDO, task(Todo.NAME_FOLDER))
                name = names[0] if names else INBOX
            with open_mailbox(path, say=say, follow=True, quiet=not self.options.now) as mailbox:
                size = mailbox.size
                return self.undo(Opened.into(self.record.maildir, self.record.name_now(name, path), mailbox))
        except (Fault, OSError) as fault:
            return row_left(path, name, fault, None, size)

    def undo(self, opened: Opened) -> Row:
        """Undoes an open mailbox."""
        mailbox, dry = opened.mailbox, self.options.dry
        ledger = Ledger(opened.folder, dry=dry)
        if ledger.damage:
            raise Left(DAMAGED % ledger.damage, Reason.UNDO)
        path = self.path_in(ledger, opened)
        if not path:
            raise Left(NOT_RECORDED, Reason.UNDO)
        known = Known(self.record, ledger, opened)
        newer = known.by_index or next((one for one in known.unknown if one.what is not Event.UNDONE), None)
        if newer:
            # the ledger lacks what the index has of the mailbox, or of another one of its folder
            raise Left(OLDER % named(unspelled(newer.path)), Reason.UNDO)
        plan = becomes_of(ledger, path, self.cores_now(opened, ledger, path))
        # without lines of its files, the ledger is older than its folder: another mailbox may have what would go
        names = without_line(opened.maildir, opened.folder) if Fate.REMOVED in {one.fate for one in plan} else ()
        if names:
            raise Left(WITHOUT_LINE % counted(len(names), "message"), Reason.LEDGER)
        messages = count_in(ledger, path)
        counts = remove(opened, plan, dry) if dry else self.carry_out(opened, ledger, path, plan)
        keepers = collections.Counter(one.keeper for one in plan if one.keeper)
        verdict = Verdict.WOULD_UNDO if dry else Verdict.UNDONE
        remarks = tuple(remarks_on_undone(counts, keepers, dry))
        return Row(mailbox.path, opened.name, "", messages, verdict, size=mailbox.size, remarks=remarks)

    def path_in(self, ledger: Ledger, opened: Opened) -> str:
        """The path of a mailbox as a ledger spells it, also if it was moved from there; empty if it does not have it.
        An undo that was killed goes on from the new place."""
        mailbox, paths = opened.mailbox, ledger.paths()
        known = next((path for path in self.record.names_of(mailbox.path) if path in paths), "")
        moved = () if known else moved_in(ledger, mailbox)
        has_all = (path for path in moved if ledger.is_in(path, self.cores_now(opened, ledger, path)))
        return known or next(has_all, "")

    def cores_now(self, opened: Opened, ledger: Ledger, path: str) -> Cores:
        """How often the mailbox has each core now, as it was read when it was migrated."""
        words, disk = ledger.last_read(path).words, self.options.disk(self.record.maildir)
        reading = Reading.of_words(words)
        extra = Dovecot(self.record) if reading.stripped else Extra()
        # it still has what was marked as deleted since
        reading = with_deleted(reading)
        with content_of(opened.mailbox, disk) as text, text_then(text, reading, disk, extra.start_of) as then:
            if not then:
                raise Left(NO_LONGER % words, Reason.UNDO)
            return cores_of(then.messages())

    def carry_out(self, opened: Opened, ledger: Ledger, path: str, plan: Sequence[Becomes]) -> Counts:
        """Removes the files that go, and notes that before and afterwards. Returns what became of the messages."""
        with alone_in(opened.folder):
            want_same(opened.mailbox)
            if ledger.sources and has_list(opened.folder):
                # the list of a last pass that was killed at its end would count again once nothing is there
                remove_list(opened.folder)
            if path not in ledger.leaving:
                ledger.note(b"<\t%s\n" % path.encode())
            hand_over(ledger, plan)
            counts = remove(opened, plan)
            remove_lists(self.record, opened, path)
            sync_names(opened.folder)
            ledger.undo(path)
            return counts


def undo_own(root: bytes, path: bytes, options: Options, observer: Observer) -> None:
    """Undoes a mailbox in a Maildir of the user who runs this."""
    root = real_place(root)
    refuse(root, [path], Options(options.dry, folder=options.folder, now=options.now, undo=True))
    if not is_there(os.path.join(root, RECORD)):
        raise Fault("it has no record, so nothing was migrated into it", Reason.UNDO, place=root)
    observer.total += 1
    with Record.open(root, not options.dry) as record:
        observer.begin()
        say = functools.partial(observer.progress, named(path))
        row = undo_prepared(record, path, options, say)
        observer.row(row or Undo(record, options).run(path, say))


def becomes_of(ledger: Ledger, path: str, has: Cores) -> list[Becomes]:
    """What becomes of the messages that the mailbox of a path brought. It has each core so often now, and a killed undo
    may have removed what is gone."""
    is_resumed = path in ledger.leaving
    there = {before_info(name) for name, _ in mail_in(ledger.folder)}
    files = files_of((line for line in ledger.message_lines(None) if line.state is not State.UNDONE), there)
    gone = gone_of_others(ledger.folder, files, path, has)

    def order(one: tuple[Line, File]) -> tuple[bool, ...]:
        """What stays for others comes first, and then what is in the form of what they lack; what the mailbox had once
        may have other bytes than what it has."""
        line, file = one
        is_late = not others_of(file, path, MAY_HAVE), line.state not in MAY_HAVE, (file.name is None) != is_resumed
        return (*is_late, file.bare not in (other.bare for other in gone.get(line.message.core, ())))

    own = sorted(((line, file) for file in files for line in [file.line_of(path)] if line), key=order)
    plan = [becomes_by(line, file, has, gone) for line, file in own]
    # of what the mailbox no longer has, or a killed run was to bring, nothing is said once it is gone
    return [one for one in plan if one.fate is not Fate.GONE or one.line.state in MAY_HAVE]


def becomes_by(line: Line, file: File, has: Cores, gone: Mapping[bytes, list[File]]) -> Becomes:
    """What becomes of a message, by the line of the mailbox about its file. What goes, or stays in place of what others
    lack, is taken from what the mailbox has, and from what others lack."""
    message, has_file = line.message, file.name is not None
    holders, theirs = others_of(file, line.path, MAY_HAVE), gone.get(message.core, [])
    # the last one gets it: one in its form
    theirs.sort(key=lambda one: one.bare == file.bare)
    if file.is_renamed:
        return Becomes(Fate.RENAMED, line)
    if not has_file and (message.word in NOBODYS or holders or not has[message.core] or not file.is_newest):
        return Becomes(Fate.GONE, line)
    if message.word in NOBODYS:
        return Becomes(Fate.FOREIGN, line)
    if holders:
        # one that lacks its own has this one too
        without = (one for one in reversed(theirs) if not any(one.line_of(other.path) for other in holders))
        instead_of = next(without, None)
        if instead_of:
            theirs.remove(instead_of)
        return Becomes(Fate.SHARED, line, holders[-1].path, instead_of)
    if not has[message.core]:
        return Becomes(Fate.LOST, line)
    has[message.core] -= 1
    if theirs and has_file:
        return Becomes(Fate.SHARED, line, others_of(theirs[-1], line.path, HAVE)[-1].path, theirs.pop())
    # if it went, nothing would bring it again
    had = has_file and others_of(file, line.path, (State.FORMER,))
    return Becomes(Fate.FORMER if had else Fate.REMOVED, line)


def others_of(file: File, path: str, states: Container[State]) -> list[Line]:
    """The lines of other mailboxes than that of a path about a file, in these states."""
    return [line for line in file.lines if line.path != path and line.state in states]


def gone_of_others(folder: bytes, files: Sequence[File], path: str, has: Cores) -> dict[bytes, list[File]]:
    """The files of other mailboxes that are gone, by the cores of their messages, as far as the mailbox of a path has
    these. What other programs have renamed is not gone, and gets its name: their files are read, if one is missing."""
    missing = [file for file in files if file.name is None and any(line.state in MAY_HAVE for line in file.lines)]
    names = {line.message.name for file in files for line in file.lines} if missing else set()
    several = ((before_info(name), path) for name, path in mail_in(folder)) if missing else ()
    read = ((forms_in(path), name) for name, path in several if not is_own(name) and name not in names)
    unnamed = by_form((forms[1], name) for forms, name in read if forms)
    found: collections.defaultdict[bytes, list[File]] = collections.defaultdict(list)
    # what stands for a file of another mailbox stays whether it is that one or not
    for file in sorted(missing, key=lambda one: not others_of(one, path, HAVE)):
        core = file.lines[0].message.core
        if not file.find(unnamed, file.bare) and has[core] and others_of(file, path, HAVE):
            found[core].append(file)
    return found


def hand_over(ledger: Ledger, plan: Sequence[Becomes]) -> None:
    """Notes which mailboxes have files in place of those of them that are gone. Of one of which a run was killed, this
    is not noted: a batch that ends would hide what that run may have placed."""
    handed: collections.defaultdict[str, list[Brought]] = collections.defaultdict(list)
    for one in plan:
        for other in others_of(one.instead_of, one.line.path, HAVE) if one.instead_of else ():
            handed[other.path] += other.message._replace(word=LOST), one.line.message
    for path, several in handed.items():
        if ledger.pending(path) is None:
            read, lost_first = ledger.last_read(path), sorted(several, key=lambda one: one.word != LOST)
            ledger.note_without_files(read.key, read.words, path, read.inode, *lost_first)


def remove(opened: Opened, plan: Sequence[Becomes], dry: bool = False) -> Counts:
    """Removes the files that go, whatever their flags, until a listing shows none: mail programs may rename them
    meanwhile. Returns what became of all messages of the plan."""
    counts: Counts = collections.Counter(one.fate for one in plan if one.fate is not Fate.REMOVED)
    bases = {base for one in plan if one.fate is Fate.REMOVED for base in [base_in(one.line.message.name)] if base}
    removed: set[bytes] = set()
    for _ in range(PASSES):
        before, is_stale = len(removed), False
        stays: dict[bytes, Fate] = {}
        listed = ((base_in(name), name, path) for name, path in mail_in(opened.folder))
        for base, name, path in [(base, name, path) for base, name, path in listed if base and base in bases]:
            if not is_own(before_info(name)):
                stays.setdefault(base, Fate.RENAMED)
                continue
            is_right = remove_file(opened.mailbox, path, base[:DIGEST], dry)
            if is_right is None:
                is_stale = True
            elif is_right:
                removed.add(base)
                opened.mailbox.say("removing", len(removed))
            else:
                stays[base] = Fate.EDITED
        if len(removed) == before and not is_stale:
            counts.update(fate for base, fate in stays.items() if base not in removed)
            counts[Fate.REMOVED] = len(removed)
            counts[Fate.GONE] += len(bases - removed - stays.keys())
            return counts
    raise Left(NAMES_CHANGE, Reason.CHANGED, task(Todo.STOP_READERS))


def remove_file(mailbox: Mailbox, path: bytes, digest: bytes, dry: bool) -> Optional[bool]:
    """Removes a file if it has this digest, as long as the mailbox still has what it holds, and returns whether it has.
    None if it is gone, or changes meanwhile. A symbolic link has no digest."""
    try:
        before, found, now = os.lstat(path), digest_of(path)[0], os.lstat(path)
        if not is_unchanged(before, now):
            return None
        if found == digest and not dry:
            want_same(mailbox)
            os.unlink(path)
    except FileNotFoundError:
        return None
    return found == digest


def want_same(mailbox: Mailbox) -> None:
    """Checks that a mailbox has not changed, and that no other file is at its path. Raises Left if not."""
    try:
        is_same = os.path.samestat(os.stat(mailbox.path), mailbox.state)
    except FileNotFoundError:
        is_same = False
    if mailbox.has_changed() or not is_same:
        raise Left(CHANGED_MEANWHILE, Reason.CHANGED, task(Todo.PUT_BACK))


@contextlib.contextmanager
def alone_in(folder: bytes) -> Iterator[None]:
    """Locks a folder, so that no converter is at work in it meanwhile. On a disk without locks there is no lock. Raises
    Left if a converter is at work."""
    with open_folder(folder) as number:
        try:
            fcntl.flock(number, fcntl.LOCK_EX | fcntl.LOCK_NB)
        except BlockingIOError as fault:
            raise Left(CONVERTER % named(folder), Reason.LOCKED) from fault
        except OSError as fault:
            if fault.errno not in WITHOUT_LOCKS:
                raise
        yield


def undo_prepared(record: Record, path: bytes, options: Options, say: Say) -> Optional[Row]:
    """Removes what was prepared from the mailbox of a path, which need not be there, and returns its row; None if
    nothing was, or a list that is there does not count. In a folder that is named, what was prepared from one that is
    gone counts too, and elsewhere if that had the same bytes: this may be it, moved."""
    folder = options.named_folder
    try:
        names, root = record.names_of(path), record.maildir
        places = folders_in(root) if folder is None else [folder_path(root, folder)]
        origins = {name_of(root, place): origin_in(place) for place in filter(has_list, places)}
        own = [name for name, origin in origins.items() if origin is not None and origin.path in names]
        moved = [] if own or record.folders_of(path) else folders_of_moved(path, record)
        for name in [*own, *moved] if folder is None else [folder]:
            if name in origins and not other_in(origins[name], names):
                return remove_prepared(record, path, name, options.dry, say)
        return None
    except (Fault, OSError) as fault:
        return row_left(path, folder or b"", fault)


def remarks_on_undone(counts: Counts, keepers: collections.Counter[str], dry: bool) -> Iterator[Remark]:
    """What is said of the messages that the mailbox brought, by how many of them each other mailbox keeps."""
    yield Says.REMOVED.of(counted(counts[Fate.REMOVED], "message"), dry=dry)
    # a run that was killed may have changed the order in which mailboxes were begun
    paths = [unspelled(path) for path in sorted(keepers, key=lambda one: (-keepers[one], one))]
    keeper = first_of(paths, most=1), "have" if len(paths) > 1 else "has"
    for fate in counts.keys() - {Fate.REMOVED}:
        yield from fate.value.of_any(counts[fate], *(keeper if fate is Fate.SHARED else ()), dry=dry)
