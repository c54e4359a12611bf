"""FILE.lock, the lock of a mailbox for programs that know no other one. The companion's own is known by its content,
and held by `flock` too for as long as whoever made it is at work. So each run can tell one that a killed run left,
whichever mailboxes that run was given."""
import contextlib
import errno
import fcntl
import hashlib
import os
import re
import stat
import time
from collections.abc import Iterator
from typing import NamedTuple, Optional

from .. import ADMIN
from ..faults import Left, Reason
from ..looks import state_at
from ..remarks import Says
from ..terminal import named
from .files import REGULAR, write_all
from .mailbox import Mailbox

# the ending of its name, and from which age on it does not count, in seconds
LOCK, STALE = b".lock", 1200
# why one counts for nothing, and what is said of one that counts
OLD, LEFT_BEHIND = "is older than 20 minutes", "was left by a `back` that was killed"
LOCKED_WITH = "another program has locked it with %s"
# the errors of a folder in which this user may make no file, and of a name that is too long for a lock
NO_LOCKS = errno.EACCES, errno.EPERM, errno.EROFS, errno.ENAMETOOLONG
# the number of a process, and 16 bytes that stand for the owner
CONTENT = re.compile(rb"\d{1,20} %s ([0-9a-f]{32})\n\Z" % ADMIN.encode())
# more bytes than such a lock has
MOST = 256
# the errors of a disk without `flock`, and of one that wants a file open for writing for it
UNLOCKABLE = errno.ENOLCK, errno.ENOSYS, errno.EOPNOTSUPP, errno.EBADF


class Spot(NamedTuple):
    """Where a file is: its path, or its name in a folder that is open."""

    name: bytes
    folder: Optional[int] = None

    def open(self, flags: int, mode: int = 0) -> int:
        """Opens it, over no symbolic link."""
        return os.open(self.name, flags | os.O_NOFOLLOW | os.O_CLOEXEC, mode, dir_fd=self.folder)

    def link(self, other: "Spot") -> None:
        """Gives it another name, which is free, in the same folder."""
        os.link(self.name, other.name, src_dir_fd=self.folder, dst_dir_fd=other.folder, follow_symlinks=False)

    def unlink(self) -> None:
        """Removes it."""
        os.unlink(self.name, dir_fd=self.folder)

    def state(self) -> Optional[os.stat_result]:
        """The state of what has this name, which may be a symbolic link; None if nothing has it."""
        try:
            return os.stat(self.name, dir_fd=self.folder, follow_symlinks=False)
        except FileNotFoundError:
            return None

    def is_open_as(self, number: int) -> bool:
        """Whether a descriptor is of it."""
        state = self.state()
        return state is not None and os.path.samestat(state, os.fstat(number))

    def draft(self) -> "Spot":
        """The name that it has until it is whole."""
        folder, name = os.path.split(self.name)
        return Spot(os.path.join(folder, b".mbox2maildir.%s" % name), self.folder)


def stands_for(owner: bytes) -> bytes:
    """The part of a lock that stands for its owner."""
    return hashlib.sha256(owner).hexdigest()[:32].encode()


@contextlib.contextmanager
def left_behind(spot: Spot, owner: Optional[bytes] = None, content: re.Pattern[bytes] = CONTENT) -> Iterator[bool]:
    """Whether a run of the companion made a lock that is no longer at work, by its content. Then it is held meanwhile.
    On a disk without `flock` only one of this owner is known: only one run at a time is at work for it."""
    try:
        number = spot.open(REGULAR)
    except OSError:
        yield False
        return
    try:
        found = content.match(os.pread(number, MOST, 0)) if stat.S_ISREG(os.fstat(number).st_mode) else None
        of_owner = found is not None and owner is not None and found[1] == stands_for(owner)
        yield found is not None and is_free(number, of_owner) and spot.is_open_as(number)
    finally:
        os.close(number)


def is_free(number: int, otherwise: bool) -> bool:
    """Whether nobody holds an open lock; on a disk without `flock`, what else is known."""
    try:
        fcntl.flock(number, fcntl.LOCK_EX | fcntl.LOCK_NB)
    except OSError as fault:
        return otherwise and fault.errno in UNLOCKABLE
    return True


def hold(spot: Spot) -> Optional[int]:
    """Holds a lock that another process has made for this one, so that it is held even if that one is killed. Returns
    the descriptor that holds it; None if it can't be held."""
    try:
        number = spot.open(REGULAR)
    except OSError:
        return None
    with contextlib.suppress(OSError):
        fcntl.flock(number, fcntl.LOCK_SH | fcntl.LOCK_NB)
    return number


def drop_lock(spot: Spot, owner: Optional[bytes] = None, content: re.Pattern[bytes] = CONTENT) -> None:
    """Removes a lock that a killed run left, if this user may."""
    with left_behind(spot, owner, content) as is_left:
        if is_left:
            # whoever looks at it meanwhile finds it held, and does not remove the next one
            with contextlib.suppress(OSError):
                spot.unlink()


def make_held(spot: Spot, content: bytes, mode: int) -> int:
    """Makes a lock, which has its content, and is held, from the first moment. Returns its descriptor, which holds it
    until it is closed. Raises FileExistsError if it is there already."""
    draft = spot.draft()
    with contextlib.suppress(FileNotFoundError):
        draft.unlink()
    number = draft.open(os.O_RDWR | os.O_CREAT | os.O_EXCL, mode)
    try:
        write_all(number, content)
        # after a power cut, nobody knows whose a lock without its content is
        os.fsync(number)
        with contextlib.suppress(OSError):
            # whoever wants to know whether it is left asks for the other kind
            fcntl.flock(number, fcntl.LOCK_SH | fcntl.LOCK_NB)
        draft.link(spot)
    except BaseException:
        os.close(number)
        raise
    finally:
        draft.unlink()
    return number


def release_lock(spot: Spot, number: int) -> None:
    """Removes a lock by its descriptor, which is closed. One that is gone, or is another program's by now, is left
    alone."""
    try:
        with contextlib.suppress(FileNotFoundError):
            if spot.is_open_as(number):
                spot.unlink()
    finally:
        os.close(number)


def look_for_lock_file(mailbox: Mailbox) -> bool:
    """Whether a lock file is there that counts for nothing: an old one, or one that a killed run left. It stays, and is
    only mentioned. Raises Left if another program has one."""
    path = mailbox.place + LOCK
    state = state_at(path, False)
    if not state:
        return False
    with left_behind(Spot(path)) as is_left:
        if not is_left and time.time() - state.st_mtime < STALE:
            raise Left(LOCKED_WITH % named(path), Reason.LOCKED)
    mailbox.remarks.append(Says.OLD_LOCK.of(named(path), LEFT_BEHIND if is_left else OLD))
    return True


@contextlib.contextmanager
def lock_file_of(mailbox: Mailbox, owner: bytes) -> Iterator[None]:
    """Holds FILE.lock for an open mailbox. One that a killed run left goes first. In a folder where this user may make
    no file the other locks must do. Raises Left if another program has it."""
    spot = spot_of(mailbox.place)
    drop_lock(spot, owner)
    number = None if look_for_lock_file(mailbox) else taken(spot, owner)
    try:
        yield
    finally:
        if number is not None:
            release_lock(spot, number)


def spot_of(mailbox: bytes) -> Spot:
    """Where the lock of the mailbox at a path is."""
    return Spot(os.path.realpath(mailbox) + LOCK)


def taken(spot: Spot, owner: bytes) -> Optional[int]:
    """Makes a lock for an owner, and returns its descriptor; None where this user may make none. Raises Left if another
    program was faster."""
    try:
        return make_held(spot, b"%d %s %s\n" % (os.getpid(), ADMIN.encode(), stands_for(owner)), 0o444)
    except FileExistsError as fault:
        raise Left(LOCKED_WITH % named(spot.name), Reason.LOCKED) from fault
    except OSError as fault:
        if fault.errno in NO_LOCKS:
            return None
        raise
