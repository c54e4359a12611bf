"""What root does for a child. In the spool, in which users may make no files, it makes an inbox that is not there, and
FILE.lock. It syncs each disk once for all children who wait for it. A child never gets the rights for that, and names
nothing: it says which of its own inboxes it means, or which folder that it has open."""
import contextlib
import errno
import functools
import os
import stat
from collections.abc import Sequence

from ..faults import Left, Reason, naming
from ..jobs.crew import Child, Parent
from ..maildir.disk import call_of_system
from ..maildir.making import FOLDER, open_folder
from ..mbox.lock_file import LOCK, Spot, drop_lock, release_lock, taken
from ..migration.telling import number_of
from .accounts import Account

# what a child asks for: a sync of the disk of a folder, and what is done with an inbox
SYNC, MAKE, TAKE, RELEASE = "sync", "make", "lock", "unlock"
# the mode of a new mailbox, and the one that it gets if all others have it, for deliveries with the rights of its group
OWN, SHARED = 0o600, 0o660


class Inboxes:
    """The spool, a folder of inboxes, which stays open."""

    def __init__(self, path: bytes) -> None:
        """Opens the folder, and removes the locks that a killed run left, whoever's they are."""
        self.path = path
        self.number = os.open(path, FOLDER)
        for spot in self.spots():
            if spot.name.endswith(LOCK):
                drop_lock(spot)

    def close(self) -> None:
        """Closes the folder."""
        os.close(self.number)

    def spots(self) -> list[Spot]:
        """All names of the folder."""
        return [Spot(os.fsencode(name), self.number) for name in os.listdir(self.number)]

    @functools.cached_property
    def mode(self) -> int:
        """The mode of a new inbox: its user's alone, unless all inboxes belong to the group of the folder, which may
        write to each."""
        group, states = os.fstat(self.number).st_gid, self.states()
        are_shared = all(stat.S_IMODE(one.st_mode) == SHARED and one.st_gid == group for one in states)
        return SHARED if states and are_shared else OWN

    def states(self) -> list[os.stat_result]:
        """The states of the inboxes of users."""
        states = [spot.state() for spot in self.spots() if not spot.name.endswith(LOCK)]
        return [one for one in states if one and stat.S_ISREG(one.st_mode) and one.st_uid != 0]

    def group_for(self, account: Account) -> int:
        """The group of a new inbox: that of the folder or, if it is root's, the one of all inboxes of several users,
        and otherwise its user's own."""
        group, states = os.fstat(self.number).st_gid, self.states()
        groups = {one.st_gid for one in states} if len({one.st_uid for one in states}) > 1 else set[int]()
        return group or (groups.pop() if len(groups) == 1 else 0) or account.gid

    def make(self, spot: Spot, account: Account) -> None:
        """Makes the inbox of an account, unless something has its name. It gets its name, if that is free, once it
        belongs to its user, and has its group. It is on the disk then."""
        mode, draft = self.mode, spot.draft()
        if not spot.state():
            with contextlib.suppress(FileNotFoundError):
                draft.unlink()
            number = draft.open(os.O_WRONLY | os.O_CREAT | os.O_EXCL, OWN)
            try:
                os.fchown(number, account.uid, self.group_for(account))
                os.fchmod(number, mode)
                os.fsync(number)
                with contextlib.suppress(FileExistsError):
                    draft.link(spot)
            finally:
                os.close(number)
                draft.unlink()
        os.fsync(self.number)


class InboxClerk:
    """Makes the inboxes of one user, and their locks. No other run is at work for the owner of the locks at the same
    time."""

    def __init__(self, inboxes: Inboxes, account: Account, names: Sequence[bytes], owner: bytes) -> None:
        self.inboxes, self.account, self.names, self.owner = inboxes, account, names, owner
        # the descriptors of the locks that are held, by the locks
        self.held: dict[Spot, int] = {}

    def serve(self, what: str, number: object) -> None:
        """Does what the child asks for. Raises Fault if that fails, and an error of Python's if it may not ask for
        it."""
        name = self.names[number_of(number)]
        inbox, lock = Spot(name, self.inboxes.number), Spot(name + LOCK, self.inboxes.number)
        with naming(os.path.join(self.inboxes.path, name)):
            if what == MAKE:
                self.inboxes.make(inbox, self.account)
            else:
                {TAKE: self.take, RELEASE: self.release}[what](lock)

    def take(self, lock: Spot) -> None:
        """Takes the lock of an inbox. Where root may make none either, the other locks must do. Raises Left if it is
        there."""
        self.release(lock)
        drop_lock(lock, self.owner)
        number = taken(lock, self.owner)
        if number is not None:
            self.held[lock] = number

    def release(self, lock: Spot) -> None:
        """Releases the lock of an inbox, if it is held."""
        number = self.held.pop(lock, None)
        if number is not None:
            release_lock(lock, number)

    def end(self) -> None:
        """Releases all locks, since the child has ended."""
        for lock in list(self.held):
            with contextlib.suppress(OSError):
                self.release(lock)


class Disks:
    """Syncs disks for children, as root."""

    def __init__(self) -> None:
        # the disks for which children wait: a folder of each that is open, and these children
        self.waiting: dict[int, tuple[int, list[Child]]] = {}
        # the disks of which a sync failed, with why: the system reports each error only once
        self.failed: dict[int, Left] = {}

    def add(self, child: Child, number: int) -> None:
        """Takes it that a child waits for the disk of a folder that it has open under a number. It need not be found by
        a path, which the child's user could change."""
        try:
            folder = os.open("/proc/%d/fd/%d" % (child.pid, number), FOLDER)
        except OSError:
            # as in a file system of the user's own: the child syncs it
            child.refuse(Left("root cannot open it", Reason.ERROR))
            return
        disk = os.fstat(folder).st_dev
        if disk in self.waiting:
            os.close(folder)
        self.waiting.setdefault(disk, (folder, []))[1].append(child)

    def sync(self) -> None:
        """Syncs each disk for which a child waits, and answers. If a sync fails, or has failed before, that is the
        answer to each who waits for that disk."""
        waiting, self.waiting = self.waiting, {}
        for disk, (folder, children) in waiting.items():
            try:
                if disk not in self.failed:
                    call_of_system()(folder)
            except OSError as error:
                self.failed[disk] = Left(error.strerror, Reason.SYNC_FAILED)
            finally:
                os.close(folder)
            for child in children:
                if disk in self.failed:
                    child.refuse(self.failed[disk])
                else:
                    child.answer()


def sync_by_root(parent: Parent, path: bytes) -> None:
    """Has root sync the disk of a folder for a child. Raises OSError if that failed."""
    with open_folder(path) as number:
        refusal = parent.refusal(SYNC, number)
        if refusal and refusal.reason is Reason.SYNC_FAILED:
            raise OSError(errno.EIO, str(refusal))
        if refusal:
            call_of_system()(number)
