"""Opens a mailbox as delivery programs expect it: it waits for a quiet minute, and then locks it for reading, or for
writing. One that programs write to is copied as it was at one moment, without keeping them waiting."""
import contextlib
import errno
import fcntl
import os
import struct
import time
from typing import IO, Callable, NamedTuple

from ..faults import Left, Reason, fault_of
from ..nexts import Todo, task
from ..units import WAITING, Say
from .files import has_holes, open_regular
from .lock_file import look_for_lock_file
from .mailbox import Digest, Mailbox
from .pieces import FROM

# in seconds: how long a mailbox must have been left alone, and how long to wait for that
QUIET, PATIENCE = 60, 300
# in seconds: for how long a mailbox is locked at most, and how long the lock of another program is waited for; and how
# often a copy is tried
LONGEST_HELD, LONGEST_WAIT, TRIES = 10, 15, 3
KEEPS_CHANGING = "it keeps changing"
# the errors that say that another program has the lock, and that a disk has no locks
LOCKED, WITHOUT_LOCKS = (errno.EAGAIN, errno.EACCES), (errno.ENOLCK, errno.ENOSYS, errno.EOPNOTSUPP)


class Locking(NamedTuple):
    """What a mailbox is locked for: how it is opened, and the operations of flock and of fcntl."""

    flags: int
    of_flock: int
    of_fcntl: int


# what is written is appended, wherever the file ends then
READING = Locking(os.O_RDONLY, fcntl.LOCK_SH | fcntl.LOCK_NB, fcntl.F_RDLCK)
WRITING = Locking(os.O_RDWR | os.O_APPEND, fcntl.LOCK_EX | fcntl.LOCK_NB, fcntl.F_WRLCK)


def open_mailbox(path: bytes, say: Say, follow: bool, quiet: bool, locking: Locking = READING) -> Mailbox:
    """Opens a mailbox, waits until it was left alone for a minute if `quiet` says so, and locks it. It is digested
    while it is read. Raises Left if it can't be opened or locked, or has large holes."""
    try:
        number = open_regular(path, locking.flags | (0 if follow else os.O_NOFOLLOW))
    except OSError as fault:
        raise fault_of(fault, path) from fault
    try:
        mailbox = Mailbox(path, number, Digest(), say)
        if quiet:
            lock_quiet(mailbox, locking)
        else:
            lock(number, locking)
            mailbox.take_state()
        if locking is READING:
            look_for_lock_file(mailbox)
        if has_holes(number, mailbox.size):
            raise Left("more than 16 MB of it are holes, which were never written: find a complete copy", Reason.HOLES)
        return mailbox
    except BaseException:
        os.close(number)
        raise


def lock_quiet(mailbox: Mailbox, locking: Locking) -> None:
    """Locks a mailbox once it was left alone for a minute. Until then, deliveries find it unlocked. Raises Left if that
    has not happened after a while."""
    end, is_locked = time.monotonic() + PATIENCE, False
    while True:
        mailbox.take_state()
        # a time of change in the future counts for nothing
        age = time.time() - mailbox.state.st_mtime
        seconds = QUIET - age if age >= 0 else 0
        if seconds <= 0 and is_locked:
            return
        if seconds <= 0:
            lock(mailbox.number, locking)
            is_locked = True
        elif is_locked:
            # mail was delivered before the lock was taken
            unlock(mailbox.number)
            is_locked = False
        elif time.monotonic() > end:
            raise Left(KEEPS_CHANGING, Reason.CHANGED)
        else:
            if seconds > 1:
                # a shorter wait is over before anybody has read of it
                mailbox.say(WAITING + " %d seconds, because it changed a moment ago" % (seconds + 1))
            time.sleep(min(1, seconds + 0.01))


def lock(number: int, locking: Locking) -> None:
    """Locks a text by the locks that deliveries take for writing. Nothing is locked on a disk without locks. Raises
    Left if another program has it locked."""
    for take, operation in ((fcntl.flock, locking.of_flock), (lock_bytes, locking.of_fcntl)):
        try:
            take(number, operation)
        except OSError as fault:
            if fault.errno in LOCKED:
                raise Left("another program has locked it", Reason.LOCKED) from fault
            if fault.errno not in WITHOUT_LOCKS:
                raise


def lock_bytes(number: int, operation: int) -> None:
    """Takes the lock of fcntl, for all bytes, as that of an open file: closing another descriptor does not drop it, and
    a child inherits it."""
    fcntl.fcntl(number, fcntl.F_OFD_SETLK, struct.pack("hhqqi4x", operation, os.SEEK_SET, 0, 0, 0))


def unlock(number: int) -> None:
    """Releases the locks, so that deliveries can go on."""
    for give, operation in ((lock_bytes, fcntl.F_UNLCK), (fcntl.flock, fcntl.LOCK_UN)):
        with contextlib.suppress(OSError):
            give(number, operation)


def snapshot(path: bytes, make: Callable[[int], IO[bytes]], say: Say, follow: bool) -> Mailbox:
    """A copy of a mailbox in a file without a name, which `make` makes for so many bytes. The mailbox is locked for ten
    seconds at most. If mail was only appended after that, the copy ends where the mailbox ended. Raises Left if it
    changed otherwise, each time."""
    for _ in range(TRIES):
        with open_soon(path, say, follow) as mailbox, make(mailbox.size) as file:
            began, digest, reader, is_locked = time.monotonic(), Digest(), mailbox.again(), True
            for block in reader.blocks():
                file.write(block)
                digest.update(block)
                if is_locked and time.monotonic() > began + LONGEST_HELD:
                    unlock(mailbox.number)
                    is_locked = False
                if not is_locked:
                    # who is told may sync a disk first, which takes its time
                    mailbox.say("copying", reader.offset, mailbox.size)
            file.flush()
            # if a message begins where it ended before, it has only grown
            if mailbox.has_changed() and os.pread(mailbox.number, len(FROM), mailbox.size) != FROM:
                continue
            copy = Mailbox(path, os.dup(file.fileno()), digest, say)
            copy.remarks += mailbox.remarks
            copy.copied, copy.took = mailbox.state, time.monotonic() - began
            return copy
    raise Left(KEEPS_CHANGING, Reason.CHANGED, task(Todo.NEXT_PASS))


def open_soon(path: bytes, say: Say, follow: bool) -> Mailbox:
    """Opens a mailbox, and waits for a short time if another program has locked it."""
    end = time.monotonic() + LONGEST_WAIT
    while True:
        try:
            return open_mailbox(path, say, follow, False)
        except Left as left:
            if left.reason is not Reason.LOCKED or time.monotonic() > end:
                raise
            time.sleep(0.5)
