"""Where a folder and its ledger differ: what is gone of the mail that mailboxes brought, what came back, and files that
have names which only this program gives, though no ledger has them. People delete mail, and others may too. So most of
this is only said.

What is left in the folder, and the kernel's times, show how far a run came that was killed. The program places messages
in their order. It writes each into a file of `tmp` that has the same base. If such a file is left, all messages before
it were placed. If none is left, the last message that is there is the last one that was placed, unless somebody changed
a name after that: then nobody knows. The kernel's clock ticks, so nothing shows that a name was changed within a tick
after the last message was placed.
"""
import array
import collections
import contextlib
import os
from collections.abc import Container, Iterator, Sequence

from ..faults import Fault
from ..maildir.files import digest_of, mail_in, names_in
from ..maildir.folders import folders_in
from ..maildir.making import SUBFOLDERS, TMP
from ..mbox.bases import BASE, FIRST, Table, base_in, before_info, is_own
from ..mbox.core import SHORT
from ..remarks import Remark, Says
from .ledger import Ledger
from .lines import FOREIGN, LOST, State, digest_at, pieces_in
from .match import Hashes, Match

# the most by which the times differ that the kernel gives a file and its folder in one rename, in nanoseconds
RENAME_TICK = 20000000
SECOND = 10**9


def times_of(folder: bytes) -> tuple[int, ...]:
    """The times at which names in `tmp`, `new` and `cur` were last changed, in nanoseconds since 1970; none if one of
    these folders is missing."""
    try:
        return tuple(os.stat(os.path.join(folder, sub)).st_mtime_ns for sub in SUBFOLDERS)
    except FileNotFoundError:
        return ()


def may_be_gone(folder: bytes, table: Table, before: tuple[int, ...]) -> list[int]:
    """The places of the messages of a table that have no file, and that a run may have placed, in this order, that was
    killed. `before` has the times at which names had last been changed when it began."""
    # by place: when the file of the message was last renamed, in nanoseconds since 1970; 0 if there is none
    changes = array.array("q", bytes(8 * len(table)))
    for name, path in mail_in(folder):
        place = table.own_place(name)
        if place is not None:
            with contextlib.suppress(FileNotFoundError):
                changes[place] = os.lstat(path).st_ctime_ns
    times, placed = times_of(folder), [place for place, change in enumerate(changes) if change]
    left = [table.own_place(name) for name in names_in(os.path.join(folder, TMP)) if is_own(name)]
    in_tmp = [place for place in left if place is not None and not changes[place]]
    # the place before which it may have placed all messages
    end = len(table)
    if before and times[:1] == before[:1] and times[0] % SECOND:
        # it made no file; a disk whose times are whole seconds does not show that
        end = 0
    elif in_tmp:
        end = max(in_tmp)
    elif times and is_untouched([changes[place] for place in placed], before, times):
        end = placed[-1] if placed else 0
    return [place for place in range(end) if not changes[place]]


def is_untouched(changes: Sequence[int], before: tuple[int, ...], times: tuple[int, ...]) -> bool:
    """Whether nobody has changed a name since the last of some files was placed, or since the run began."""
    if not changes:
        return times[1:] == before[1:]
    last = max(times[1:])
    # if the clock was set back, or something else was done with the file, one of them is long before the other
    is_last = last <= min(changes[-1], times[0]) + RENAME_TICK and changes[-1] <= last + RENAME_TICK
    return is_last and all(one <= other for one, other in zip(changes, changes[1:]))


def gone_from(ledger: Ledger, to_be_removed: Container[bytes]) -> list[Remark]:
    """What is to be said of the names in a ledger that its folder no longer has, but for those that were to be removed.
    The folder is listed once, until a name changes there or in the ledger."""
    state = len(ledger.ended), ledger.size, times_of(ledger.folder)
    if state != ledger.looked_at:
        # names would take much memory
        brought = array.array("q", {hash(name) for name in ledger.names() if name not in to_be_removed})
        there = {hash(before_info(name)) for name, _ in mail_in(ledger.folder)} if brought else set()
        ledger.gone = sum(one not in there for one in brought), len(brought)
        ledger.looked_at = state
    return [Says.GONE.of(*ledger.gone)] * (ledger.gone[0] > 0)


def back_in(ledger: Ledger) -> list[Remark]:
    """What came back into a folder before its mailboxes were done, though a message that came back in several runs is
    one. Each later run says it again, since one that was killed may have noted them as done and not said it."""
    return Says.CAME_BACK.of_any(sum(min(one.back, len(one.cores) // SHORT) for one in ledger.sources.values()))


def gone_there(ledger: Ledger, path: str) -> collections.Counter[bytes]:
    """The cores of messages that a mailbox has by the ledger of a folder, and whose files are not there."""
    there = Hashes(before_info(name) for name, _ in mail_in(ledger.folder))
    lines = (line for line in ledger.message_lines(None) if line[:2] == (path, State.HELD))
    return collections.Counter(line.message.core for line in lines if line.message.name not in there)


def left_by_killed(match: Match) -> int:
    """How many files are there that runs which were killed have placed of a mailbox, for messages that it has no longer
    and no other one brought."""
    ledger, path = match.ledger, match.path
    if ledger.pending(path) is None:
        return 0
    placed = {one.name for one in ledger.intended(path, was_nowhere=True)}
    placed.difference_update(match.taken(), ledger.names())
    return len(match.files.present(placed))


def gone_before(ledger: Ledger) -> collections.Counter[bytes]:
    """The cores of messages that runs which were killed may have placed, of any mailbox, and that have no file."""
    gone: collections.Counter[bytes] = collections.Counter()
    for path in ledger.paths():
        number = ledger.pending(path)
        if number is not None:
            gone += gone_of(ledger, number)
    return gone


def gone_of(ledger: Ledger, number: int) -> collections.Counter[bytes]:
    """The cores of messages of a batch that was not ended, which have no file and may have had one: those that were
    there when it was begun, whoever had given them their names, and those that it placed. If it placed all, all had
    one."""
    batch = ledger.open[number]
    first = len(batch.line_words) - (0 if batch.is_placed else batch.head.nowhere)
    listed = mail_in(ledger.folder) if first else ()
    there = Hashes(before_info(name) for name, _ in listed)
    gone, table, places = array.array("Q"), Table(), array.array("Q")
    for at, (_, one) in enumerate(ledger.messages({number})):
        base = base_in(one.name)
        if at < first:
            # a file whose name no line can have would be found by what it holds
            gone.extend([at] * (one.word != LOST and one.name not in there))
        elif base and table.place_of(base) is None:
            table.keep(base)
            places.append(at)
    if len(table):
        gone.extend(places[place] for place in may_be_gone(ledger.folder, table, batch.head.times))
    return collections.Counter(digest_at(batch.cores, at) for at in gone)


def placed_again(ledger: Ledger, path: str) -> int:
    """How many messages came back by a run of a mailbox that was killed, though it was not to place them. Of equal ones
    the program gets also those that are there, and places those of them that were deleted after the run had looked.
    Their files were written since the batch was begun. Before they get their dates, the next batch counts them."""
    number = ledger.pending(path)
    if number is None or not ledger.open[number].head.times:
        return 0
    numbers, count, began_at = {number}, 0, ledger.open[number].head.times[0]

    def names() -> Iterator[bytes]:
        return (one.name for _, one in ledger.messages(numbers, was_nowhere=True))

    own, digests = Hashes(names()), {digest_in(name) for name in names() if not name.endswith(FIRST)}
    for name, file in mail_in(ledger.folder) if digests else ():
        before = before_info(name)
        if is_own(before) and digest_in(before) in digests and before not in own:
            with contextlib.suppress(FileNotFoundError):
                count += os.lstat(file).st_mtime_ns > began_at
    return count


def digest_in(name: bytes) -> bytes:
    """The part of a name of this program's that equal messages share."""
    return name.rpartition(b".")[0]


def unexplained(root: bytes, match: Match) -> set[bytes]:
    """The bases of files that stand for messages of a mailbox, and that no ledger of the Maildir explains. People may
    have moved the others from the folders of mailboxes."""
    foreign = {one.name for one in match.found.values() if one.word == FOREIGN} - match.names_of_lines()
    names = {found[0] for found in map(BASE.match, foreign) if found}
    for folder in folders_in(root) if names else ():
        try:
            ledger = Ledger(folder)
            # an undo may have kept files
            names.difference_update(ledger.names(ledger.undone))
        except (Fault, OSError):
            # what cannot be read explains nothing
            continue
    return names


def without_line(root: bytes, folder: bytes) -> set[bytes]:
    """The names of this program's that files of a folder have, and no line of a ledger of the Maildir, whatever became
    of its batch. So the ledger of the folder is older than these files. What somebody edited may have been only
    prepared, which no line says."""
    names = set(filter(is_own, (before_info(name) for name, _ in mail_in(folder))))
    for path in (folder, *folders_in(root)):
        # what cannot be read explains nothing
        with contextlib.suppress(Fault, OSError):
            for _, several in pieces_in(path) if names else ():
                names.difference_update(several.names if several else ())
    table = Table.of(filter(None, map(base_in, names)))
    there = ((table.own_place(name), path) for name, path in (mail_in(folder) if names else ()))
    return {table.name(at) for at, path in there if at is not None and digest_of(path)[0] == table.digest(at)}
