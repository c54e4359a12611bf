"""The disk of a Maildir: the room on it, which calls fail there, whether a sync of a folder reaches it, and how it is
synced, so that a power cut keeps the dates and the renames there too.

If a server of FUSE has no sync of folders, Linux answers each such sync with success. So an answer shows nothing: only
what the system says of the mount does.
"""
import errno
import functools
import importlib
import os
import time
from collections.abc import Callable, Collection, Sequence
from typing import Generic, NamedTuple, Optional, TypeVar

from .. import ADMIN
from ..faults import FULL, Fault, Left, Reason
from ..looks import is_folder, is_there, may_be, may_write, upwards
from ..mbox.files import BLOCK
from ..nexts import Phrase, Todo, task
from ..progress import length
from ..remarks import Remark, Says
from ..signals import INTERRUPTS
from ..terminal import is_text, named
from .files import NAMES_CHANGE, changed_at, paths_of
from .making import SUBFOLDERS, TMP, WITH_MAIL, open_folder, sync_folder

# the beginning of the names of files that are made to see what fails, and of copies until they are complete
PREFIX = b"." + ADMIN.encode() + b"-"
# how long a folder is watched to see whether names in it change all the time, in seconds
PAUSE = 1
# how the copies of a trial get more room
ELSEWHERE = " (--dry-run and kind make copies there or where TMPDIR says, other runs on the Maildir's disk)"
# the errors of a disk that cannot sync folders
UNSYNCED = errno.EINVAL, errno.ENOSYS, errno.EROFS


def folder_there(folder: bytes) -> bytes:
    """A folder or, if it does not exist, the nearest one above it that does."""
    return next(filter(is_folder, upwards(folder)))


def disk_of(folder: bytes) -> os.statvfs_result:
    """The disk on which a folder is, or will be."""
    return os.statvfs(folder_there(folder))


def trial_folder() -> bytes:
    """The folder for the copies of a command that fills no Maildir. It is in no home, where copies would count against
    the user's quota, and not /tmp, which many systems have in memory."""
    chosen = os.environ.get("TMPDIR", "")
    return os.fsencode(chosen if may_write(chosen) else "/var/tmp")


def room_on(disk: os.statvfs_result) -> int:
    """How many bytes are free on a disk."""
    return disk.f_bavail * (disk.f_frsize or 4096)


class Need(NamedTuple):
    """What the disk of a folder must have: free bytes and inodes."""

    folder: bytes
    disk: int
    size: int
    inodes: int

    @classmethod
    def of(cls, folder: bytes, sizes: Collection[int], copy: int = 0, freed: Collection[int] = ()) -> "Need":
        """What files of these sizes need, and a copy of this size, once files of other sizes are removed."""
        there = folder_there(folder)
        block = os.statvfs(there).f_frsize or 4096
        size, less = (sum(-(-size // block) * block for size in several) for several in (sizes, freed))
        inodes = len(sizes) - len(freed) + len(SUBFOLDERS) + 2
        return cls(folder, os.stat(there).st_dev, max(0, size + copy - less), max(0, inodes))

    def shortage(self) -> Optional[str]:
        """What the disk has too little of, if that is so."""
        disk = disk_of(self.folder)
        free = room_on(disk)
        if self.size > free:
            return not_enough(self.folder, "it needs %s, and %s are free" % (length(self.size), length(free)))
        # some disks make inodes as they are needed, and have no number of free ones
        if disk.f_files and self.inodes > disk.f_favail:
            return "not enough inodes: it needs %d, and %d are free" % (self.inodes, disk.f_favail)
        return None


def not_enough(folder: bytes, says: str) -> str:
    """What is said of a folder whose disk has too little room."""
    return "not enough space in %s: %s%s" % (named(folder), says, ELSEWHERE if folder == trial_folder() else "")


def want_room(need: Need) -> None:
    """Raises Left if a disk lacks what it must have."""
    shortage = need.shortage()
    if shortage:
        raise Left(shortage, Reason.NO_ROOM)


def what_fails(folder: bytes, size: int) -> Optional[Fault]:
    """Tries in `tmp` what the program does there with a message of this size. Returns what fails, if anything does."""
    import tempfile

    step, path = "make a file in tmp", None
    try:
        number, path = tempfile.mkstemp(prefix=PREFIX, dir=os.path.join(folder, TMP))
        with os.fdopen(number, "wb", 0) as file:
            step = "write %d bytes in tmp" % size
            while size > 0:
                size -= file.write(bytes(min(size, BLOCK)))
            step = "sync a file in tmp"
            os.fsync(file.fileno())
        step = "rename a file in tmp"
        os.rename(path, path + b"~")
        path += b"~"
        step = "remove a file in tmp"
        os.unlink(path)
        path = None
        for sub in WITH_MAIL:
            step = "write in %s" % sub.decode()
            if not may_write(os.path.join(folder, sub)):
                raise PermissionError(errno.EACCES, os.strerror(errno.EACCES))
    except OSError as fault:
        reason = Reason.NO_ROOM if fault.errno in FULL else Reason.CONVERT_FAILED
        return Fault("could not %s: %s" % (step, why(fault, folder)), reason)
    finally:
        if path:
            try:
                os.unlink(path)
            except OSError:
                pass
    return None


def why_not_listed(folder: bytes) -> Optional[str]:
    """Why the program could not list the mail of a folder and sync it: the folder can't be read, a name is not UTF-8,
    names change all the time, or its disk cannot sync folders. None if there is no such reason: then a sync failed."""
    try:
        for name, path in paths_of(folder):
            if not is_text(name):
                return "a name is not UTF-8: %s" % named(path)
        before = changed_at(folder)
        time.sleep(PAUSE)
        if changed_at(folder) != before:
            return NAMES_CHANGE
    except OSError as fault:
        return "could not list it: %s" % fault.strerror
    try:
        for sub in WITH_MAIL:
            sync_folder(os.path.join(folder, sub))
    except OSError as fault:
        return "its disk cannot sync folders: %s" % fault.strerror if fault.errno in UNSYNCED else None
    return None


def why(fault: OSError, folder: bytes) -> str:
    """The cause of a fault. For a full disk it says whether bytes or inodes are missing."""
    if fault.errno != errno.ENOSPC:
        return fault.strerror
    disk = disk_of(folder)
    return "no inodes are left" if disk.f_files and not disk.f_favail else fault.strerror


# how Linux shows an overlayfs that leaves out all syncs: before version 6.6, and since then
VOLATILE = frozenset([b"volatile", b"fsync=volatile"])
# kinds that were not tried, and nor were those of FUSE that have a name after a dot
UNTRIED = b"fuse", b"fuseblk", b"virtiofs", b"9p"

NOT_PASSED_ON = "%s does not pass on the sync of a folder"


class Doubt(NamedTuple):
    """Why a sync of a folder may not reach the disk and, if it is known that it does not, what to do."""

    why: str
    instead: Optional[Phrase] = None


def mount_of(folder: bytes) -> Optional[bytes]:
    """The line of mountinfo about the file system of a folder; None if the system does not say, as for a part of a
    btrfs, or without /proc."""
    number = os.stat(folder).st_dev
    device = b"%d:%d" % (os.major(number), os.minor(number))
    try:
        with open("/proc/self/mountinfo", "rb") as file:
            return next((line for line in file if line.split(b" ")[2] == device), None)
    except FileNotFoundError:
        return None


def doubt_of(mount: bytes) -> Optional[Doubt]:
    """Why a sync of a folder may not reach the disk of a file system with this line of mountinfo; None if it does."""
    # WSL shows options of 9p with blanks in them
    kind, source, options = mount.rstrip(b"\n").partition(b" - ")[2].split(b" ", 2)
    if kind == b"overlay" and not VOLATILE.isdisjoint(options.split(b",")):
        return Doubt("overlayfs is mounted volatile", Todo.MOUNT_OTHERWISE)
    if kind == b"fuse.mergerfs":
        return Doubt(NOT_PASSED_ON % "mergerfs", Todo.NAME_BELOW)
    # bindfs may give no name of its own, and is mounted from a folder. A path that cannot be seen from here may be one
    is_unnamed = kind == b"fuse" and source.startswith(b"/")
    if kind == b"fuse.bindfs" or is_unnamed and may_be(lambda path: is_folder(path) or not is_there(path), source):
        return Doubt(NOT_PASSED_ON % "bindfs", Todo.NAME_BELOW)
    if kind in UNTRIED or kind.startswith(b"fuse."):
        return Doubt("%s was not tried" % named(kind))
    return None


def want_syncs(maildir: bytes, any_disk: bool) -> list[Remark]:
    """Checks that nothing speaks against syncs of the folders in which a Maildir has, or will have, its mail. Returns
    what does. Raises Left if it is known that they do not reach the disk, unless any disk will do."""
    # symbolic links may put its mail on other disks
    folders = {folder_there(os.path.join(maildir, sub)) for sub in (b"", *WITH_MAIL)}
    mounts = filter(None, map(mount_of, folders))
    doubts = sorted(set(filter(None, map(doubt_of, mounts))))
    for doubt in doubts:
        if doubt.instead and not any_disk:
            raise Left(Says.POWER_CUT.of(doubt.why).says, Reason.NO_SYNC, task(doubt.instead))
    return [Says.POWER_CUT.of(doubt.why) for doubt in doubts]


# for how many seconds a sync is put off at most, so that it may serve others too
MOST_WAITED = 60

One = TypeVar("One")
# takes what has waited for a sync, each with the error of that if it failed
AfterSync = Callable[[Sequence[tuple[One, Optional[OSError]]]], object]
# syncs the disk of a folder; raises OSError if that fails
SyncOne = Callable[[bytes], None]


class Syncs(Generic[One]):
    """Syncs the disks of Maildirs once for everything that waits. `after_sync` then takes it at once, in its order."""

    def __init__(self, after_sync: AfterSync[One], sync_one: Optional[SyncOne] = None) -> None:
        """Takes what syncs the disk of a folder, if this process does not do that itself."""
        self.after_sync, self.sync_one = after_sync, sync_one or sync_disk
        # what waits, each with its Maildir
        self.waiting: list[tuple[One, bytes]] = []
        self.latest = 0.0
        # the disks of which a sync failed, with the errors: the system reports each only once
        self.failed: dict[int, OSError] = {}

    def add(self, maildir: bytes, one: One) -> None:
        """Has something taken after a sync of this Maildir or, without one, after everything that waits already."""
        if not maildir and not self.waiting:
            self.after_sync([(one, None)])
            return
        if not self.waiting:
            self.latest = time.monotonic() + MOST_WAITED
        self.waiting.append((one, maildir))
        self.sync_in_time()

    def sync_in_time(self) -> None:
        """Syncs if something has waited for long enough."""
        if self.waiting and time.monotonic() >= self.latest:
            self.sync()

    def sync(self) -> None:
        """Syncs for everything that waits. If a disk failed, everything that waits is told so. Signals are held
        meanwhile, since the system reports an error only once."""
        with INTERRUPTS.held():
            fault: Optional[OSError] = None
            try:
                self.sync_disks()
            except OSError as error:
                fault = error
            waited, self.waiting = self.waiting, []
            self.after_sync([(one, fault if maildir else None) for one, maildir in waited])

    def sync_disks(self) -> None:
        """Syncs the disks of what waits, each once. Raises OSError if a sync failed, now or before: a later one says
        nothing of what was lost."""
        folders: dict[int, bytes] = {}
        for maildir in (maildir for _, maildir in self.waiting if maildir):
            # symbolic links may put its mail on other disks
            for path in (maildir, *(os.path.join(maildir, sub) for sub in WITH_MAIL)):
                folders.setdefault(os.stat(path).st_dev, path)
        for disk, path in folders.items():
            if disk in self.failed:
                raise self.failed[disk]
            try:
                self.sync_one(path)
            except OSError as error:
                self.failed[disk] = error
                raise


def sync_disk(path: bytes) -> None:
    """Syncs the disk of a folder."""
    with open_folder(path) as number:
        call_of_system()(number)


@functools.lru_cache(maxsize=None)
def call_of_system() -> Callable[[int], None]:
    """The function that syncs the disk of an open file: the call syncfs. If Python cannot make it, all disks
    are synced by a call that reports no error, as syncfs itself reported none before Linux 5.8."""
    try:
        # the module is loaded only here, so that the other commands do not wait for it
        ctypes = importlib.import_module("ctypes")
        syncfs = ctypes.CDLL(None, use_errno=True).syncfs
    except (ImportError, OSError, AttributeError):
        return lambda number: os.sync()

    def call(number: int) -> None:
        if syncfs(number) == 0:
            return
        error = ctypes.get_errno()
        if error != errno.ENOSYS:
            raise OSError(error, os.strerror(error))
        os.sync()

    return call
