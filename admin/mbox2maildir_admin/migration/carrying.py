"""Carries out the steps of a mailbox, those of a first pass or of any other: what is not wanted is removed, what is
going to be there is noted, mbox2maildir places messages, and these get dates and flags, and are verified. Once the
disk was synced, it is noted what became of mailboxes.

A message may be cut. Programs append to a mailbox, and whoever reads meanwhile gets a last message that is not
complete. Its file holds the beginning of a message, and the complete message gets a file of another name. So the
mailbox is left until the first file is gone, unless another mailbox has that too.
"""
import collections
import contextlib
import os
import re
import string
import time
from collections.abc import Container, Iterator, Sequence
from typing import Optional

from ..faults import Fault, Left, Reason, fault_of
from ..flags.renaming import add_flags
from ..ledger.gone import times_of
from ..ledger.history import Note
from ..ledger.lines import END_LINE, FAILED_LINE, PLACED, PLACED_LINE, SHARED, BatchHead, State, append
from ..ledger.match import Files, Match
from ..ledger.prepared import FAILED, WHOLE, finish_list, remove_list
from ..ledger.record import unspelled
from ..maildir.checking import DOUBLE, DOUBTFUL_LINE, Check
from ..maildir.dating import Dating
from ..maildir.disk import what_fails, why_not_listed
from ..maildir.files import letters_of, mail_in
from ..maildir.making import PREPARED, TMP
from ..mbox.bases import base_in, before_info, is_own, own_base_in
from ..mbox.core import beginning_of
from ..mbox.files import BLOCK, Reader, open_file
from ..mbox.mailbox import CHANGED_MEANWHILE, Digest, Mailbox, is_still
from ..nexts import Runs, run_next
from ..program import Converted, Failed, Program
from ..readings.copies import copy_of_some
from ..remarks import Remark, Says
from ..terminal import first_of, operand
from ..units import Offset, Place
from .known import Known
from .outcomes import Outcome, Row, Verdict
from .steps import FirstPass, OtherPass, Steps

SYNC_FAILED = (
    "its sync failed: read the system's log and mount the disk again before you believe anything there, then run this "
    "with --again"
)
PREPARED_SYNC_FAILED = (
    "its sync failed: read the system's log and mount the disk again before you believe anything there, then remove "
    "what is prepared, and begin anew"
)
CHANGED_WHILE_CONVERTED = "it changed while it was converted"
FOLDER_CALL = re.compile(r"folder call (\d+) failed")
# what the first calls do; two of them list a folder and sync it, and a sync comes last
LISTINGS = ("lists tmp", "lists new", "lists cur")
SYNCED = (2, 3)
LATER = "removes a leftover, or writes or places a message"
# the failures for which the program names no cause
WITHOUT_CAUSE = re.compile(r"%s|cannot open the folder|could not be (?:read|written)" % FOLDER_CALL.pattern)
CUT = "a message was read before it was complete, and the complete one is there now"
# at the end of a beginning: line ends, and a From_ line that has just begun; and how much of an end is looked at
UNFINISHED = re.compile(rb"(?:\n+(?:F(?:r(?:om?)?)?)?)?\Z")
END = 64
# the flags that a complete message gets from its beginning
STAYING = frozenset(string.ascii_letters) - {"T"}
ONCE = "the system reported an error, but the same works now: read the system's log, and run this again"


def carry_out(steps: Steps, row: Row, program: Program) -> Outcome:
    """Does what was planned, and returns what became of the mailbox, with the row that says this and what else is to be
    said by then. Raises Left, Fault or OSError if something fails, or is not as it was any more."""
    own, opened, batch, ends_list = steps.own, steps.opened, None, False
    if isinstance(own, FirstPass) and own.is_done(steps.placing):
        before, as_read = own.prepared.origin, own.prepared.as_read
        if before and before.state != own.origin.state and as_read:
            # its file has another state, and the bytes that were prepared: the next first pass does not read it
            own.prepared.append(own.origin.line(), as_read.line(), WHOLE + b"\n")
        return Outcome(row)
    # what was prepared and no message wants goes first
    said = Says.KEPT_EDITED.of_any(own.prepared.remove_unwanted()) if own.prepared else []
    if isinstance(own, FirstPass):
        said += prepare(steps, own, program)
    else:
        batch, ends_list = begin(steps, own), own.ends_list
        if not own.has_nothing_new:
            more = convert(steps, program, batch)
            if more:
                # if this run is killed before it says so, later ones do
                batch = begin(steps, own, more)
            said += steps.extra.apply(steps)
            said += date_and_verify(steps, own.back + more)
            said += want_none_cut(steps, own.may_be_cut)
    row, its = row._replace(remarks=(*row.remarks, *said)), (unspelled(steps.known.path), opened.mailbox.state)
    return Outcome(row, opened.folder, batch, ends_list, *its)


def prepare(steps: Steps, first: FirstPass, program: Program) -> list[Remark]:
    """Places what is nowhere, once the list has it, gives files their dates, and verifies them. Returns what is to be
    said of that. Flags are those of the last pass: a mail program may change them until then."""
    known, contents, prepared = steps.known, steps.contents, first.prepared
    known.record.make()
    prepared.make_folder()
    prepared.append(first.origin.line(), *prepared.missing_lines())
    known.record.make(steps.opened.make_folder)
    before = known.record.prepared(steps.opened.name)
    if not before or (before.about, before.path) != (steps.opened.about, known.path):
        words = contents.reading.words()
        known.record.add(Note.PREPARED, steps.opened.about, len(contents.inventory), unspelled(known.path), words)
    back = convert(steps, program)
    # a date changes a file's ctime
    Dating(contents.text.mailbox, steps.files).give_all(steps.opened.folder)
    prepared.note_facts()
    said = date_and_verify(steps, back)
    prepared.write_whole(first.origin, first.text, first.took)
    return said


def begin(steps: Steps, own: OtherPass, more: int = 0) -> int:
    """Notes in the ledger what is going to be there, and in the list of what is only prepared that it is finished by
    that. Returns the number of the batch. Once all is placed, the batch is begun anew if more messages came back."""
    known, prepared, origin = steps.known, own.prepared, own.origin
    record, ledger, opened, mailbox = known.record, known.ledger, known.opened, known.opened.mailbox
    if prepared:
        record.make()
        prepared.make_folder()
        prepared.append(*([origin.line()] if origin else []), *prepared.missing_lines(), b">\t%d\n" % (ledger.last + 1))
    record.make(opened.make_folder, ledger.make)
    words, inode, now = steps.contents.reading.words(), mailbox.state.st_ino, int(time.time())
    its = times_of(opened.folder), mailbox.key(), words, known.path, inode, now
    head = BatchHead(steps.placing.count_of_lines(), 0 if more else len(steps.placing.nowhere), own.back + more, *its)
    return ledger.begin(head, steps.placing.lines())


def convert(steps: Steps, program: Program, batch: Optional[int] = None) -> int:
    """Converts what is nowhere. Returns how many messages were placed that were not to be: equal ones, which were
    deleted or moved after this run had looked."""
    if not steps.places:
        return 0
    try:
        ran = place_messages(steps, program)
    except Failed as failed:
        raise explained(failed, steps, batch) from failed
    is_whole, wanted = ran.end == steps.contents.text.mailbox.end, len(steps.placing.nowhere)
    if batch and is_whole and 0 < wanted <= ran.placed:
        # if a power cut takes this line, the times of the disk show how far the batch came
        append(steps.opened.folder, [PLACED_LINE % batch], sync=False)
    if steps.opened.has_changed(steps.contents.text.mailbox):
        raise Left(CHANGED_WHILE_CONVERTED, Reason.CHANGED)
    return max(0, ran.placed - wanted) if is_whole else 0


def place_messages(steps: Steps, program: Program) -> Converted:
    """Converts what is nowhere, and returns up to where the text was read and how many messages were placed. The
    program gets no message that is there, since that would come back if somebody deletes it now. A copy of what stands
    before messages that are there comes first. In a folder that is prepared, it does not run for nothing: what a killed
    pass has placed is synced with the disk. The record stays locked meanwhile."""
    text, inventory, placing, placed = steps.contents.text.mailbox, steps.contents.inventory, steps.placing, 0
    folder, record, before = steps.opened.folder, steps.known.record, placing.copied()

    def place(text: Mailbox, start: Offset) -> Converted:
        return program.convert(
            text.number, start, folder, record.descriptor, lambda at: text.say("converting", at, text.size)
        )

    if before:
        with copy_of_some(text, inventory, before, record.maildir) as some:
            placed = place(some, Offset(0)).placed
    if placing.rest < len(inventory):
        ran = place(text, inventory.offset(placing.rest))
        return ran._replace(placed=placed + ran.placed)
    if not before and (not steps.own.prepared or any(map(base_in, os.listdir(os.path.join(folder, TMP))))):
        # for a text without mail, the program removes its own names from `tmp`: a power cut may have kept files there
        # that it also kept in `new` or `cur`
        with open(os.devnull, "rb") as nothing:
            program.convert(nothing.fileno(), Offset(0), folder, record.descriptor, lambda place: None)
    return Converted(text.end, placed)


def explained(failed: Failed, steps: Steps, batch: Optional[int]) -> Left:
    """Why the program failed, in better words than its own. If a sync failed, the ledger notes that."""
    folder, whole = steps.opened.folder, steps.placing.whole()
    there = Files(folder, whole, steps.opened.mailbox.say).there
    nowhere = [place for place in steps.placing.nowhere if not there[place]]
    says, found = str(failed), FOLDER_CALL.search(str(failed))
    call = int(found.group(1)) if found else 0
    unlisted = why_not_listed(folder) if call in SYNCED else None
    if call > len(LISTINGS) and not nowhere or call in SYNCED and not unlisted:
        return sync_failed(folder, batch)
    size = steps.contents.inventory.sizes[nowhere[0]] if nowhere else 0
    fails = None if unlisted else what_fails(folder, size)
    cause = unlisted or fails or (ONCE if WITHOUT_CAUSE.search(says) else None)
    if found:
        does = dict(enumerate(LISTINGS, 1)).get(call, LATER)
        says = "%s, which %s%s" % (says[: found.end()], does, says[found.end() :])
    says = "%s; %d of %d messages are there" % ("%s; %s" % (says, cause) if cause else says, sum(there), len(whole))
    return Left(says, fails.reason if fails else Reason.CONVERT_FAILED)


def date_and_verify(one: Steps, back: int) -> list[Remark]:
    """Dates what was brought, and returns what is to be said of that, and of so many messages that may have come back.
    Raises Left unless each message is there once."""
    text = one.contents.text.mailbox
    check, dating = Check(one.files, say=one.opened.mailbox.say), Dating(text, one.files)

    def look_first(place: Place, number: int, state: os.stat_result) -> Optional[bytes]:
        """Gives a file its date, and finds its digest by its text."""
        dating.give(place, number, state)
        return one.digest_by(place, number, state)

    check.look_first = look_first
    # they were written just now, so each is compared faster than it is handed over
    check.threads = 1
    check.look(one.opened.folder)
    # it was decided what From_ lines hold, or they hold no mail: otherwise nothing would have been converted
    del check.besides[DOUBTFUL_LINE]
    # what other programs have there is no second copy of this one
    check.files[DOUBLE] = [path for path in check.files[DOUBLE] if is_own(before_info(os.path.basename(path)))]
    if not check.is_right():
        raise Left(check.report(), Reason.NOT_VERIFIED)
    if one.opened.has_changed(text):
        raise Left(CHANGED_MEANWHILE, Reason.CHANGED)
    return [*dating.remarks(), *Says.CAME_BACK.of_any(min(back, len(one.contents.inventory)))]


def rows_once_synced(several: Sequence[tuple[Outcome, Optional[OSError]]]) -> list[Row]:
    """The rows of mailboxes, once their disks were synced, or failed, and that is noted of those that were verified: at
    once of all of a folder. What fails leaves those that it is about."""
    rows = [one.row for one, _ in several]
    ended: collections.defaultdict[bytes, dict[int, Outcome]] = collections.defaultdict(dict)
    for place, (one, fault) in enumerate(several):
        with leaving(rows, place):
            if fault:
                raise sync_failed(one.folder_path, one.batch)
            if one.state and one.batch and not is_still(one.path, one.state):
                raise Left(CHANGED_MEANWHILE, Reason.CHANGED)
            if one.batch:
                ended[one.folder_path][place] = one
            elif one.folder_path:
                # of a first pass
                finish_list(one.folder_path)
    for folder, its in ended.items():
        with leaving(rows, *its):
            append(folder, [END_LINE % one.batch for one in its.values() if one.batch])
            if any(one.ends_list for one in its.values()):
                # if a power cut brings it back, the ledger shows that it is over
                remove_list(folder, sync=False)
    return rows


def sync_failed(folder: bytes, batch: Optional[int]) -> Left:
    """What is said of a sync that failed. The ledger notes it or, for what is only prepared, its list."""
    if batch is None:
        append(folder, [FAILED + b"\n"], name=PREPARED)
        return Left(PREPARED_SYNC_FAILED, Reason.SYNC_FAILED)
    try:
        append(folder, [FAILED_LINE % batch])
    except Fault as fault:
        noted = "%s; note this yourself, because the ledger could not be written: %s" % (SYNC_FAILED, fault)
        return Left(noted, Reason.SYNC_FAILED)
    return Left(SYNC_FAILED, Reason.SYNC_FAILED)


@contextlib.contextmanager
def leaving(rows: list[Row], *places: int) -> Iterator[None]:
    """Leaves the mailboxes whose rows are at these places if what is in here fails."""
    try:
        yield
    except (Fault, OSError) as error:
        for place in places:
            row, fault = rows[place], fault_of(error, rows[place].path)
            row = row._replace(verdict=Verdict.LEFT, why=str(fault), reason=fault.reason, remarks=(), next=fault.next)
            rows[place] = row


def names_that_may_be_cut(known: Known, match: Match) -> set[bytes]:
    """The names of files that may hold the beginning of a message: those that the mailbox placed last when it was read,
    or that another one had placed, and that stand for no message of it any more; and those that no line has. The
    mailbox was written to, so a run that was killed may have read more of it than the lines that it had begun have."""
    ledger, path, begun_at = known.ledger, known.path, known.ledger.begun.get(known.path, 0)
    lost = {one.name for one in [*match.lost_lines, *ledger.intended(path)]}
    lost.difference_update(one.name for one in match.found.values())
    numbers = {number for number, its in ledger.ended.items() if its == path}
    numbers.update(number for number, batch in ledger.open.items() if batch.path == path)
    # of each batch, by their words
    last = {(number, one.word): one for number, one in ledger.messages(numbers if lost else ())}
    several = [one for (_, word), one in last.items() if word in (PLACED, SHARED) and one.name in lost]
    cores = set(map(match.inventory.core, range(len(match.inventory)))) if several else set()
    names: set[bytes] = set()
    for name, file in mail_in(ledger.folder) if known.is_begun else ():
        base = own_base_in(name)
        # files that were dated have the dates of their From_ lines
        if base and match.inventory.table.place_of(base) is None and os.lstat(file).st_mtime >= begun_at:
            names.add(before_info(name))
    if names:
        names.difference_update(one.name for _, one in ledger.messages({*ledger.ended, *ledger.open}))
    return names | {one.name for one in several if one.core not in cores}


def want_none_cut(one: Steps, names: Container[bytes]) -> list[Remark]:
    """Raises Left if a file of one of these names holds the beginning of a new message, whoever has rewritten it. One
    that another mailbox has too stays, as is said then."""
    kept, holders = set[bytes](), dict[str, None]()
    for path, place in beginnings_in(one, names):
        name, record = before_info(os.path.basename(path)), one.known.record
        others = others_with(one.known, name)
        if not others:
            hand_flags_over(one, path, place)
            if name not in record.to_be_removed(one.opened.name):
                record.add(Note.CUT, one.opened.about, 0, one.opened.mailbox.path, name.decode("latin-1"))
            raise Left(CUT, Reason.CUT, run_next(Runs.REMOVE, operand(path)))
        kept.add(path)
        holders.update(others)
    has = "have" if len(holders) > 1 else "has"
    return Says.KEPT_SHARED.of_any(len(kept), first_of([*map(unspelled, holders)], most=1), has)


def beginnings_in(one: Steps, names: Container[bytes]) -> Iterator[tuple[bytes, Place]]:
    """The files of these names that hold the beginnings of new messages, with the places of these in the text."""
    listed = mail_in(one.opened.folder) if names else ()
    found = (path for name, path in listed if before_info(name) in names)
    paths = {beginning_in(path): path for path in found}
    text, inventory = one.contents.text.mailbox, one.contents.inventory
    for place in map(Place, one.placing.match.new if paths else ()):
        digest = Digest({size for size, _ in paths})
        start = text.at(inventory.offsets[place], BLOCK).find(b"\n") + 1
        reader = Reader(text.number, Offset(inventory.offsets[place] + start), inventory.offsets[place + 1])
        for piece in beginning_of(reader.read) if start else ():
            digest.update(piece)
        yield from ((paths[its], place) for its in digest.beginnings.items() if its in paths)


def others_with(known: Known, name: bytes) -> dict[str, None]:
    """The paths of the other mailboxes that have the file of this name, or may have it."""
    lines = (line for line in known.ledger.message_lines(None) if line.message.name == name and line.path != known.path)
    return dict.fromkeys(line.path for line in lines if line.state in (State.HELD, State.OPEN))


def hand_flags_over(one: Steps, path: bytes, place: int) -> None:
    """Adds the flags of a file to those of a message that this program has placed, at its place in the text. That it
    was deleted was said of the beginning alone. A server's own flags are those of the mailbox."""
    letters = {*letters_of(os.path.basename(path))} & STAYING
    if letters and not one.contents.is_stripped:
        its = ["".join(letters) if other == place else "" for other in one.places]
        add_flags(one.opened.folder, one.files, its, one.is_unread)


def beginning_in(path: bytes) -> tuple[int, str]:
    """The size and the SHA-256 of the core of the beginning of a message in a file. No symbolic link is followed."""
    size, end = 0, b""
    for piece in core_pieces_in(path):
        size, end = size + len(piece), (end + piece)[-END:]
    found = UNFINISHED.search(end)
    size -= len(found[0]) if found else 0
    digest = Digest([size])
    for piece in core_pieces_in(path):
        digest.update(piece)
    return size, digest.beginnings.get(size, "")


def core_pieces_in(path: bytes) -> Iterator[bytes]:
    """The core of the beginning of a message in a file."""
    with open_file(path, os.O_NOFOLLOW) as file:
        yield from beginning_of(file.read)
