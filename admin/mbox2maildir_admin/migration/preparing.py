"""What is only prepared in a folder, from a mailbox that people still use: whether it can be, or be finished, who reads
there, which of its files a mailbox wants, and how it is taken back or removed. The folder says what is prepared in it,
wherever the mailbox is by then. And what becomes of such a folder though trees were migrated: the mailbox was renamed
or removed since, or another command migrates it.

All passes do the same:

1. A file of the list is ours if its inode, size and ctime are those in the list. Otherwise it is read, and is ours if
   it has the digest in its name. Any other file of the list stays, and the row says so.
2. The rules of `ledger/match.py` give each message its name, as if none of our files were there.
3. Our files without such a name are removed. For each file that is missing, a line `p` is written and synced.
4. The last pass writes a line `>`. `mbox2maildir` places the missing files. It is started only if files are missing, or
   if `tmp` has a name that begins like its own. The last pass sets flags. Then dates are set, and each file that was
   not ours at step 1 is read.
5. Once the disk is synced, a first pass writes the list anew. The last pass writes `=` into the ledger, and removes the
   list.

If a last pass was killed, the next pass takes back the lists of UIDs and the flags and, by lines `-`, the batches, also
of another mailbox of the folder. It removes each file of which no line says where it was verified, and places its
message again. If the record says that a folder is prepared, and the list is gone, the mailbox is left. Before a line
`@`, no file was placed: such a list is removed, and the folder too if it has a line `/`.

A mailbox that has not changed since is not read between first passes: its file says so by its inode, size, mtime and
ctime. On the day its bytes do: if the folder also has exactly the mail of its list, and that a line `&`, the list
stands for the text, which is not taken apart again. Dates still come from the From_ lines, since the time zone may have
changed, and flags and UIDs from the headers.
"""
import array
import collections
import contextlib
import enum
import functools
import os
import time
from collections.abc import Container, Iterable, Iterator, Mapping, Sequence
from typing import NamedTuple, Optional

from ..faults import Fault, Left, Reason
from ..flags.renaming import sync_names
from ..ledger.history import Event, Note, names_of
from ..ledger.ledger import Ledger, has_failed
from ..ledger.lines import PLACED, BatchHead, Brought
from ..ledger.prepared import (
    ASIDE,
    NEXT_LIST,
    AsRead,
    Origin,
    Prepared,
    ReadText,
    aside_of,
    has_list,
    origin_in,
    remove_aside,
    remove_list,
    sub_with_info,
)
from ..ledger.record import Record, unspelled
from ..looks import is_folder, is_there, may_be, real_path, top_above
from ..maildir.files import digest_of, mail_in, names_in
from ..maildir.folders import INBOX, folder_path, folders_in, name_of, words_of
from ..maildir.making import LEDGER, MARK, PREPARED, SUBFOLDERS, WITH_MAIL, sync_folder
from ..mbox.bases import base_in, before_info, own_base_in
from ..mbox.core import SHORT
from ..mbox.dates import seconds_of
from ..mbox.inventory import NO_DATE
from ..nexts import NOTHING, Answer, Does, Next, Runs, Todo, run_next, task
from ..progress import Spent, milliseconds_since
from ..readings.plans import Plan
from ..readings.reading import UNDECIDED, Reading
from ..readings.texts import Choice, Text
from ..remarks import Remark, Says
from ..terminal import named, operand, spelled, text_of
from ..units import Offset, Say, counted, silent
from .carrying import PREPARED_SYNC_FAILED, SYNC_FAILED
from .dovecot import KEYWORDS, LIST, is_written, remove_draft
from .known import ONE_IN, Known, Opened
from .options import Options
from .outcomes import Row, Verdict, row_left
from .places import Planned
from .steps import Contents, Part

NOT_FREE = "mail of a mailbox is in its folder already, and migrate brings the rest"
READ = "somebody reads in its folder already: %s"
ANOTHER = "%s is prepared in its folder, and only one mailbox can be"
OTHERWISE = "it was prepared %s --dovecot"
MANY_GONE = "its mailbox is gone, as are %d of the %d of its tree that were prepared"
NOT_MET = "it is only prepared, and no mailbox of this command goes there"
LIST_GONE = "the list of what was prepared in its folder is gone, so nothing shows which files are only copies"


class Stage(enum.Enum):
    """What the list of a folder, its ledger and the record say of it."""

    # nothing
    FREE = enum.auto()
    # mailboxes brought mail there, or may have
    MAIL = enum.auto()
    # the same, and the list was left by a killed run, or comes from a backup: its files are mail
    OVER = enum.auto()
    # it is only prepared
    PREPARED = enum.auto()
    # the same, and a last pass has begun
    BEGUN = enum.auto()
    # it is only prepared, and its list is gone
    LIST_GONE = enum.auto()


class Preparation:
    """A folder of a Maildir, as far as mail is only prepared in it, or may be."""

    def __init__(self, record: Record, name: bytes, ledger: Ledger) -> None:
        """Reads the list of the folder."""
        self.record, self.name, self.ledger, self.folder = record, name, ledger, ledger.folder
        self.prepared = Prepared.read(self.folder)

    @property
    def stage(self) -> Stage:
        """What is known of the folder."""
        ledger, prepared, unknown = self.ledger, self.prepared, self.record.unknown_to(self.name, self.ledger)
        if prepared.is_there:
            is_over = ledger.sources or any(one.what is Event.DONE for one in unknown)
            return Stage.OVER if is_over else Stage.BEGUN if prepared.batch else Stage.PREPARED
        if self.record.prepared(self.name) and not ledger.sources:
            return Stage.LIST_GONE
        return Stage.MAIL if ledger.paths() or unknown else Stage.FREE

    @property
    def is_open(self) -> bool:
        """Whether the list counts."""
        return self.stage in (Stage.PREPARED, Stage.BEGUN)

    def reader(self) -> Optional[bytes]:
        """The path of a file that shows that somebody reads in the folder; None if nothing does."""
        return reader_in(self.record, self.name, self.prepared)

    def take_begun(self) -> None:
        """Takes the files that a killed `migrate` was to place there, for whichever mailbox."""
        ledger = self.ledger
        begun = {number for number, batch in ledger.open.items() if batch.is_whole}
        for _, one in ledger.messages(begun):
            base = own_base_in(one.name)
            if one.word == PLACED and base is not None:
                self.prepared.note(base)

    def take_back(self) -> None:
        """Takes back what a `migrate` that was killed has done there, of each mailbox: flags, lists of UIDs, and what
        it noted. Afterwards the folder is only prepared."""
        folder, is_dry = self.folder, self.record.is_dry
        if not is_dry:
            self.take_begun()
            self.give_names_back()
            for file in names_in(folder):
                if is_written(self.record, self.name, folder, file):
                    os.unlink(os.path.join(folder, file))
            for file in (KEYWORDS, LIST):
                remove_draft(folder, file)
            if all(is_folder(os.path.join(folder, sub)) for sub in WITH_MAIL):
                # a run may have been killed before it made them
                sync_names(folder)
        for path in self.ledger.paths():
            self.ledger.undo(path)
        self.record.add_lines(*self.record.changes_in(self.name, self.ledger))
        if not is_dry:
            self.prepared.take_back()

    def give_names_back(self) -> None:
        """Gives files the names that they were prepared with. Those that only the killed run has placed are removed."""
        for place, name, path in list(self.prepared.listed()):
            sub = self.prepared.subs[place]
            if sub is None and digest_of(path)[0] == self.prepared.table.digest(place):
                os.unlink(path)
            elif sub and sub != sub_with_info(name, path):
                target = os.path.join(self.folder, sub[:3], before_info(name) + sub[3:])
                if not is_there(target):
                    os.rename(path, target)

    def empty(self) -> None:
        """Removes everything that was prepared, and the folder itself if it was made for that, holds nothing else, and
        no mailbox has brought anything."""
        self.prepared.remove_unwanted()
        folder, aside, is_unused = self.folder, aside_of(self.folder), False
        if self.name != INBOX and not self.ledger.paths():
            others = set(os.listdir(folder)) - {*SUBFOLDERS, MARK, LEDGER, PREPARED, NEXT_LIST}
            subs = (os.path.join(folder, sub) for sub in SUBFOLDERS)
            is_unused = self.prepared.is_made and not others and not any(map(names_in, subs))
        if is_unused:
            # the list stays until the folder is put aside, so that another run can go on
            for sub in SUBFOLDERS:
                with contextlib.suppress(FileNotFoundError):
                    os.rmdir(os.path.join(folder, sub))
            for name in (MARK, LEDGER):
                with contextlib.suppress(FileNotFoundError):
                    os.unlink(os.path.join(folder, name))
            remove_aside(aside)
            os.rename(folder, aside)
            sync_folder(os.path.dirname(aside))
        self.forget()
        if is_unused:
            remove_aside(aside)
            self.ledger.forget_all()

    def note_kept(self) -> None:
        """Notes the files that stay as what an undo has kept: otherwise the ledger would be older than its folder."""
        table, origin, path = self.prepared.table, self.prepared.origin, spelled(os.path.join(self.folder, PREPARED))
        places = [place for place, is_there in enumerate(self.prepared.files) if is_there]
        if places and origin:
            head = BatchHead.without_files(len(places), origin.key, origin.words, path, 0)
            cores = (table.digest(place)[:SHORT] for place in places)
            its = (Brought(PLACED, table.name(place), core, core) for place, core in zip(places, cores))
            self.ledger.begin(head, its)
            self.ledger.undo(path)

    def forget(self) -> None:
        """Notes that nothing is prepared there any more. Without its list the folder would count as lost."""
        entry = self.record.prepared(self.name)
        if entry:
            self.record.add(Note.UNPREPARED, entry.about, 0, unspelled(entry.path))
        if has_list(self.folder):
            remove_list(self.folder)


def mend(
    record: Record, options: Options, opened: Opened, ledger: Ledger, verified: Container[int]
) -> Optional[Preparation]:
    """Removes a list that is over from the folder of a mailbox, and takes back what a killed last pass did there.
    Returns what is only prepared there then, or is going to be; None if mail is placed there at once. These batches of
    the ledger were verified by this run, and their disk is not synced yet."""
    if not (options.prepare or record.has_prepared or has_list(opened.folder)):
        return None
    one = Preparation(record, opened.name, ledger)
    if one.prepared.batch:
        one.take_begun()
    stage = one.stage
    if stage is Stage.OVER:
        if one.prepared.batch not in verified and not options.dry:
            remove_list(opened.folder)
        one.prepared = Prepared(opened.folder)
    elif stage is Stage.BEGUN and not (options.again or ledger.damage or has_failed(ledger) or one.reader()):
        one.take_back()
    if options.prepare or stage in (Stage.PREPARED, Stage.BEGUN, Stage.LIST_GONE):
        return one
    # once something was prepared in the Maildir, a run that is killed may be followed by a first pass, or by other
    # mailboxes
    return one if stage is Stage.FREE and record.has_prepared and not one.reader() else None


def other_in(origin: Optional[Origin], names: Sequence[str]) -> bytes:
    """The path of the mailbox from which a folder is prepared if it is there, and is another one than that of these
    names; empty otherwise. What was prepared from one that is gone is whose mailbox comes: it may have been moved."""
    other = unspelled(origin.path) if origin else b""
    # a symbolic link may lead from one to the other
    return other if other and is_there(other) and not {*names_of(other)} & {*names} else b""


def want_free(one: Preparation, known: Known) -> None:
    """Raises Left if a folder cannot be prepared from a mailbox."""
    other = other_in(one.prepared.origin, known.names) if one.is_open else b""
    if other:
        raise Left(ANOTHER % named(other), Reason.PREPARED)
    if one.stage in (Stage.MAIL, Stage.OVER):
        raise Left(NOT_FREE, Reason.PREPARED)


def want_usable(one: Preparation, options: Options, known: Known) -> None:
    """Raises Left if what is prepared cannot be finished, with the command that keeps what is there, and places what is
    nowhere. A first pass prints none: what is there may be mail by then."""
    stage, command = one.stage, functools.partial(options.command, known.opened)
    then: Next = NOTHING
    if not options.prepare:
        if stage is Stage.FREE:
            return
        then = (Answer(command(again=True), Does.STORES),)
    if stage is Stage.LIST_GONE and is_there(one.folder):
        raise Left(LIST_GONE, Reason.LEDGER, then)
    if one.prepared.has_failed or has_failed(one.ledger):
        raise Left(PREPARED_SYNC_FAILED if one.prepared.has_failed else SYNC_FAILED, Reason.SYNC_FAILED)
    reader, other = one.reader(), other_in(one.prepared.origin, known.names)
    if reader and other:
        # what stays there would come a second time once this other one is migrated
        raise Left(ANOTHER % named(other), Reason.PREPARED, (Answer(command(other, again=True), Does.STORES),))
    if reader:
        raise Left(READ % named(reader), Reason.PREPARED, then)
    origin, was_stripped = one.prepared.origin, not options.extra.IS_STRIPPED
    if origin and Reading.of_words(origin.words).stripped == was_stripped:
        run = Answer(command(dovecot=was_stripped), Does.RUN)
        raise Left(OTHERWISE % ("with" if was_stripped else "without"), Reason.PREPARED, (run,))


def reader_in(record: Record, name: bytes, prepared: Prepared) -> Optional[bytes]:
    """The path of a file that shows that somebody reads in a folder of this name; None if nothing does. If `migrate`
    has begun to finish it, files that were prepared may have flags."""
    folder = prepared.folder
    for file in names_in(folder):
        is_ours = prepared.batch and is_written(record, name, folder, file)
        if file.startswith(b"dovecot") and not is_ours:
            return os.path.join(folder, file)
    for file, path in mail_in(folder):
        sub, at = sub_with_info(file, path), prepared.table.place_of(base_in(file))
        if at is None:
            is_read = sub.startswith(b"cur")
        else:
            is_own, before = own_base_in(file) is not None, prepared.subs[at]
            is_read = not is_own or not prepared.batch and before is not None and sub != before
        if is_read:
            return path
    return None


def origin_now(known: Known, contents: Contents, names: Iterable[bytes]) -> Origin:
    """What is read of a mailbox now, for the list. It may be in a tree of one of these names: then the paths of both
    have no symbolic link, so that one begins with the other."""
    mailbox = known.opened.mailbox
    real = real_path(mailbox.path)
    tree = top_above(real, map(real_path, names))
    place = (spelled(tree), spelled(real)) if tree else ("", known.path)
    its = len(contents.inventory), contents.reading.words(), *place
    return Origin(mailbox.key(), facts_of_mailbox(mailbox.copied or mailbox.state), *its)


def text_to_list(choice: Choice, contents: Contents) -> Optional[ReadText]:
    """What the list is to have of a text, which is not read again then; None if it was unpacked or quoted."""
    plan = choice.plan
    if choice.is_packed or plan.is_copied or not is_by_word(plan.reading):
        return None
    as_read = AsRead(plan.start, plan.messages, plan.kind, plan.remarks)
    return ReadText(as_read, contents.inventory, contents.full.offsets)


def facts_of_mailbox(state: os.stat_result) -> tuple[int, ...]:
    """The facts that show, between two passes, that a mailbox has not changed."""
    return state.st_ino, state.st_size, max(0, state.st_mtime_ns), max(0, state.st_ctime_ns)


def remarks_on_prepared(prepared: Prepared, options: Options, say: Say) -> list[Remark]:
    """What is to be said of what was prepared. With --again, it stays as it is, and is only looked at here."""
    if options.again:
        prepared.look(say)
        stays = sum(prepared.files) + len(prepared.edited)
        return [Says.PREPARED_STAYS.of(stays)] * bool(stays)
    count, gone = prepared.count(), len(prepared.unwanted())
    less = Says.PREPARED_LESS.of(count, counted(gone, "message"), dry=options.dry)
    its = less if gone else Says.PREPARED_BEFORE.of(count)
    return [its] * any(prepared.files) + Says.KEPT_EDITED.of_any(len(prepared.edited), dry=options.dry)


def remove_prepared(record: Record, path: bytes, name: bytes, dry: bool, say: Say = silent) -> Optional[Row]:
    """Removes everything that is prepared in a folder, and that a `migrate` that was killed has done there. Returns the
    row of its mailbox; None if nothing is prepared there. A rehearsal only counts."""
    one = Preparation(record, name, Ledger(folder_path(record.maildir, name), dry=dry))
    if not one.is_open:
        return None
    prepared = one.prepared
    was_begun = bool(one.ledger.paths())
    if was_begun:
        # with --again, the list does not have the batch that was begun
        one.take_begun()
    prepared.look(say)
    count = len(prepared.unwanted())
    if not dry:
        if was_begun:
            one.take_back()
            prepared.look(say)
        one.empty()
    removed = Says.REMOVED.of(counted(count, "message"), dry=dry)
    remarks = removed, *Says.KEPT_EDITED.of_any(len(prepared.edited), dry=dry)
    messages = prepared.origin.messages if prepared.origin else None
    return Row(path, name, "", messages, Verdict.WOULD_UNDO if dry else Verdict.UNDONE, remarks=remarks)


def same_as_prepared(prepared: Prepared, options: Options, opened: Opened) -> Optional[Part]:
    """What stands for the text of a mailbox that has the bytes from which its folder was prepared, if the folder has
    all of that and nothing else; None for any other one."""
    origin, as_read, mailbox = prepared.origin, prepared.as_read, opened.mailbox
    is_otherwise = options.again or options.again_rewritten or options.decision != UNDECIDED
    if not origin or not as_read or prepared.batch or is_otherwise:
        return None
    reading = Reading.of_words(origin.words)
    if reading.stripped != options.extra.IS_STRIPPED or origin.key[0] != mailbox.size or origin.key != mailbox.key():
        return None
    prepared.look(mailbox.say)
    inventory = prepared.inventory(mailbox.size)
    if not inventory or not is_by_word(reading):
        return None
    plan = Plan(as_read.kind, as_read.messages, Offset(as_read.start), reading, remarks=as_read.remarks)
    # where a From_ line names no time zone, its date is that of today's zone
    dates = (seconds_of(mailbox.from_line_at(offset)) for offset in inventory.offsets[:-1])
    inventory.dates = array.array("q", (NO_DATE if date is None else date for date in dates))
    text = Text(mailbox, plan.start, offsets=inventory.offsets)
    contents = Contents(text._replace(full=text) if reading.stripped else text, inventory, reading)
    return Part(Choice(mailbox, plan), lambda: contextlib.nullcontext(contents), mailbox.size, is_as_prepared=True)


def is_by_word(reading: Reading) -> bool:
    """Whether nothing but a word says how a text is read, so that it may be converted as it is, or as stripped text."""
    return bool(reading.word) and reading == Reading(reading.word, stripped=reading.stripped)


def row_unchanged(record: Record, options: Options, path: bytes, name: bytes, say: Say) -> Optional[Row]:
    """The row of a mailbox that is prepared, and whose file has not changed since; None if it is to be read. Nothing
    counts as done by that."""
    began, prepared = time.monotonic(), Prepared.read(folder_path(record.maildir, name))
    origin = prepared.origin
    if not origin or not prepared.is_whole or prepared.batch or prepared.has_failed or options.decision != UNDECIDED:
        return None
    # where mailboxes have brought mail, a list comes from a backup
    is_same = origin.state == facts_of_mailbox(os.stat(path)) and origin.path in record.names_of(path)
    if not is_same or record.last_events(name) or Reading.of_words(origin.words).stripped != options.extra.IS_STRIPPED:
        return None
    prepared.look(say)
    if not all(prepared.files) or prepared.edited or reader_in(record, name, prepared):
        return None
    dropped = Says.DELETED_LEFT_OUT.of_any(Reading.of_words(origin.words).dropped)
    says = Says.PREPARED_BEFORE.of(len(prepared.files))
    verdict = Verdict.WOULD_PREPARE if options.dry else Verdict.PREPARED
    spent = None if options.dry else Spent(milliseconds_since(began), prepared.foreseen())
    return Row(path, name, "", origin.messages, verdict, size=origin.key[0], remarks=(*dropped, says), spent=spent)


class PreparedBefore(NamedTuple):
    """A folder that was prepared before a run: its name, the path of its mailbox then, and that of its tree, and
    whether it was prepared with --dovecot."""

    name: bytes
    path: str
    tree: str
    dovecot: bool

    def path_in(self, tree: Optional[bytes]) -> bytes:
        """The path of the mailbox, in the tree as it is named now, if that is known."""
        return os.path.join(tree, unspelled(self.path[len(self.tree) + 1 :])) if tree else unspelled(self.path)


class Leftovers:
    """The folders that were prepared before a run, and what becomes of those into which no mailbox of it went. What was
    prepared from a tree is that tree's if one of its folders is: it may have another path by now."""

    def __init__(self, record: Record, names: Sequence[bytes], options: Options) -> None:
        """Takes the names that a run migrates."""
        self.record, self.maildir, self.options = record, record.maildir, options
        self.trees = [real_path(name) for name in names if is_folder(name)]
        self.listed: list[PreparedBefore] = []
        for folder in folders_in(self.maildir):
            origin = origin_in(folder) if has_list(folder) else None
            if origin:
                dovecot = Reading.of_words(origin.words).stripped
                self.listed.append(PreparedBefore(name_of(self.maildir, folder), origin.path, origin.tree, dovecot))
        # the first pass may have been killed before the record had it
        record.has_prepared = record.has_prepared or any(map(has_list, folders_in(self.maildir)))

    def rows(self, plan: Iterable[Planned]) -> Iterator[Row]:
        """The rows of these folders. Where the mailbox is gone, everything that was prepared is removed if no more than
        a tenth of its tree is gone. All others are left: nobody is to read there."""
        went = {one.folder: one.path for one in plan if one.folder}
        self.clear_unused(went)
        left = []
        for one in self.listed:
            try:
                if one.name not in went:
                    its = Preparation(self.record, one.name, Ledger(folder_path(self.maildir, one.name)))
                    left += [one] * its.is_open
                    if its.stage is Stage.OVER and not self.options.dry:
                        remove_list(its.folder)
            except (Fault, OSError) as fault:
                yield row_left(unspelled(one.path), one.name, fault)
        now = self.trees_now(went)
        absent = [one for one in left if now.get(one.tree) and not is_there(one.path_in(now[one.tree]))]
        many, all_of = (collections.Counter(one.tree for one in several) for several in (absent, self.listed))
        for one in left:
            place = one.path_in(now.get(one.tree))
            if one not in absent:
                yield self.left(one, NOT_MET, place, self.is_elsewhere(one, place, went.values()))
            elif many[one.tree] * ONE_IN <= all_of[one.tree]:
                row = remove_prepared(self.record, unspelled(one.path), one.name, self.options.dry)
                if row:
                    yield row._replace(remarks=(Says.MAILBOX_GONE.of(), *row.remarks))
            else:
                yield self.left(one, MANY_GONE % (many[one.tree], all_of[one.tree]), place)

    def trees_now(self, went: Mapping[bytes, bytes]) -> dict[str, bytes]:
        """The paths that trees have now, by those that they had when a folder was prepared."""
        now = {tree: unspelled(tree) for tree in map(spelled, self.trees)}
        met = {one.tree: real_path(went[one.name]) for one in self.listed if one.tree and one.name in went}
        return {**now, **{tree: top_above(path, self.trees) for tree, path in met.items()}}

    def is_elsewhere(self, one: PreparedBefore, place: bytes, went: Iterable[bytes]) -> bool:
        """Whether the mailbox of a folder, which is to be at this place, is one of those that went into others, or has
        another one, which people may have renamed: its mail would come a second time."""
        given = (self.record.folders_given(path)[-1:] for path in (place, unspelled(one.path)))
        others = {name for name, in filter(None, given) if may_be(is_there, folder_path(self.maildir, name))}
        return real_path(place) in map(real_path, went) or not others <= {one.name}

    def left(self, one: PreparedBefore, why: str, place: bytes, went_elsewhere: bool = False) -> Row:
        """The row of a folder that stays only prepared, whose mailbox is to be at this place: that is migrated, unless
        it went into another folder, or, if it is not there, brought back first. What is not wanted any more is
        undone."""
        path, options = unspelled(one.path), self.options.of_next()._replace(dovecot=one.dovecot)
        folder = [*([] if one.name == INBOX else words_of(one.name)), operand(self.maildir)]
        then = task(Todo.BRING_BACK, text_of(place))
        if went_elsewhere:
            then = NOTHING
        elif may_be(is_there, place):
            then = run_next(Runs.MIGRATE, *options.words(), *folder, operand(place))
        undo = [*Options(dry=options.dry, now=options.now, undo=True).words(), *folder, operand(path)]
        then += run_next(Runs.MIGRATE, *undo, does=Does.UNDO_PREPARED)
        return row_left(path, one.name, Left(why, Reason.PREPARED, then))

    def clear_unused(self, went: Container[bytes]) -> None:
        """Removes the lists that passes have left that were killed before they placed anything, and the folders that
        were made for these, or were removed."""
        if self.options.dry:
            return
        for name in names_in(self.maildir):
            with contextlib.suppress(OSError):
                if name.startswith(ASIDE):
                    # a killed pass was making or removing it
                    remove_aside(os.path.join(self.maildir, name))
        for folder in folders_in(self.maildir):
            name = name_of(self.maildir, folder)
            with contextlib.suppress(Fault, OSError):
                # what cannot be read stays
                if name not in went and has_list(folder) and not origin_in(folder):
                    Preparation(self.record, name, Ledger(folder)).empty()
