"""The command `dates`: it gives converted files the dates of their From_ lines."""
import functools
import os
from collections.abc import Sequence
from typing import Optional

from ..faults import Left, Reason, Status, complain_of
from ..maildir.checking import alike_in
from ..maildir.dating import Dating
from ..maildir.either import Either
from ..maildir.disk import Syncs
from ..maildir.files import paths_of
from ..maildir.folders import folder_shown
from ..mbox.bases import before_info, is_own
from ..mbox.mailbox import CHANGED_MEANWHILE, is_still
from ..readings.texts import Text
from ..terminal import complain, named, put
from .files import Complaints, Migrated, each, for_mailboxes
from .options import Given

# how many messages without a date are named
UNDATED = 10
SYNC_FAILED = "its sync failed: read the system's log, mount the disk again, and run this again"


def do_dates(given: Given) -> int:
    """Gives converted files their dates."""
    maildir, *files = given.operands
    dates, complaints = Dates(bool(given.header)), Complaints()

    def give(one: Migrated) -> None:
        one.for_texts(functools.partial(dates.give, os.stat(one.file)), complaints)

    each(files, lambda path: for_mailboxes(maildir, path, give, complaints), complaints)
    dates.syncs.sync()
    return Status.of(complaints.is_well and dates.are_kept)


def date_alike(dating: Dating, folder: bytes, text: Text) -> None:
    """Gives dates to files that `migrate` placed for messages that have none: another mailbox has brought them, or a
    program has rewritten this one since."""
    missing, table = dating.missing(), dating.inventory.table
    if missing:
        placed = ((name, path) for name, path in paths_of(folder) if is_own(before_info(name)))
        others = (path for name, path in placed if table.place(name) is None)
        for place, path, _ in alike_in(others, text.messages(), missing):
            dating.give_at(path, place)


class Dates:
    """Gives the files of mailboxes their dates. The line of a mailbox is printed once its dates are on the disk."""

    def __init__(self, headers: bool) -> None:
        # whether each message has its date, on the disk
        self.headers, self.are_kept = headers, True
        self.syncs = Syncs(self.tell)

    def give(self, before: os.stat_result, one: Migrated, text: Text) -> None:
        """Gives the files of one mailbox, or of a part of it, their dates, and names those that have none. The mailbox
        had this state before it was read."""
        file, folder = one.file, one.folder
        either = Either.of(folder, text.messages(with_cores=False), text.mailbox, text.start)
        dating = Dating(text.mailbox, either.inventory, self.headers)
        dating.give_all(folder)
        date_alike(dating, folder, text)
        if dating.one_date is not None:
            complain("%s: all From_ lines have the same date: %s" % (named(file), named(dating.one_date.rstrip())))
        for count, undated in enumerate(dating.not_dated(folder)):
            if count == UNDATED:
                complain("%s: and %d more" % (named(file), dating.messages - dating.dated - UNDATED))
                break
            complain("%s: %s" % (named(file), undated))
        into = " -> %s" % folder_shown(one.name) if one.is_part else ""
        by_header = ", by header %d" % dating.by_header if dating.by_header else ""
        line = "%s: messages %d, dated %d%s" % (into, dating.messages, dating.dated, by_header)
        self.syncs.add(folder, (file, before, line))
        self.are_kept = self.are_kept and dating.dated == dating.messages

    def tell(self, several: Sequence[tuple[tuple[bytes, os.stat_result, str], Optional[OSError]]]) -> None:
        """Prints the lines of mailboxes, unless a sync failed or a mailbox changed meanwhile."""
        for (file, before, line), fault in several:
            if not fault and is_still(file, before):
                put(named(file) + line)
            else:
                changed = Left(CHANGED_MEANWHILE, Reason.CHANGED)
                complain_of(Left(SYNC_FAILED, Reason.SYNC_FAILED) if fault else changed, file)
                self.are_kept = False
