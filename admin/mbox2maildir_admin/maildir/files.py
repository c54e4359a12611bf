"""The files of a Maildir."""
import contextlib
import errno
import hashlib
import os
import stat
import time
from collections.abc import Callable, Container, Iterator
from typing import Optional

from ..faults import Fault, Left, Reason
from ..looks import state_at
from ..mbox.core import forms_of
from ..mbox.files import BLOCK, REGULAR, open_file
from ..nexts import Todo, task
from .making import WITH_MAIL

# how often a Maildir is listed at most, and for how many seconds the clock of a file system may stand still
PASSES = 5
CLOCK_TICK = 0.1
NAMES_CHANGE = "names in it keep changing"

# what comes before the letters of flags in the name of a file
INFO = b":2,"

# the errors of listing what is not there, or is no folder
MISSING = FileNotFoundError, NotADirectoryError

# the name of a file, and its path
Named = tuple[bytes, bytes]
# looks at an open file, whose state this is, and gives its digest if that is known without hashing it
LookAtFile = Callable[[int, os.stat_result], Optional[bytes]]


def paths_of(maildir: bytes) -> Iterator[Named]:
    """The names of a Maildir's mail, each with its path. `new` comes before `cur`, since mail programs move files that
    way."""
    for sub in WITH_MAIL:
        yield from paths_in(os.path.join(maildir, sub))


def paths_in(place: bytes) -> Iterator[Named]:
    """The names of what is in a folder on the disk, each with its path."""
    with os.scandir(place) as entries:
        for entry in entries:
            yield entry.name, entry.path


def mail_in(folder: bytes) -> Iterator[Named]:
    """The names and paths of the mail in a folder. Its `new` or its `cur` may be missing, as after a copy that left out
    what is empty; or both, if it does not exist."""
    for sub in WITH_MAIL:
        with contextlib.suppress(*MISSING):
            yield from paths_in(os.path.join(folder, sub))


def names_in(folder: bytes) -> list[bytes]:
    """The names in a folder, which need not exist."""
    try:
        return os.listdir(folder)
    except FileNotFoundError:
        return []


def letters_of(name: bytes) -> str:
    """The letters of the flags in the name of a file."""
    return name.partition(INFO)[2].decode("latin-1")


def listings_of(folder: bytes, is_whole: bool = False) -> Iterator[Iterator[Named]]:
    """Lists the mail of a folder, and lists it again if a mail program renames files meanwhile, which a listing may
    miss. Raises FileNotFoundError if it has neither `new` nor `cur`, and Left if nothing is to be missed and names
    still change in the end."""
    earlier = list[float]()
    for _ in range(PASSES):
        began, before = time.time(), changed_at(folder)
        if not any(before):
            raise FileNotFoundError(errno.ENOENT, os.strerror(errno.ENOENT), folder)
        yield mail_in(folder)
        # the clock of a file system has ticks, and may be or have been ahead
        if changed_at(folder) == before and (max(before) < began - CLOCK_TICK or before == earlier):
            return
        if is_whole:
            earlier = before
            time.sleep(CLOCK_TICK)
    if is_whole:
        raise Left(NAMES_CHANGE, Reason.CHANGED, task(Todo.STOP_READERS), place=folder)


def changed_at(folder: bytes) -> list[float]:
    """The times at which files in `new` and `cur` were last added, renamed or removed; 0 for one that is missing."""
    states = (state_at(os.path.join(folder, sub)) for sub in WITH_MAIL)
    return [state.st_mtime if state else 0 for state in states]


def digest_of(
    path: bytes, sizes: Optional[Container[int]] = None, look: Optional[LookAtFile] = None
) -> tuple[Optional[bytes], Optional[int]]:
    """The digest of a file of one of these sizes, or of any size, and its owner. There is no digest if the size is
    another one, or if it is no file. A symbolic link may lead anywhere, and is no mail. What `look` knows is not
    hashed."""
    try:
        number = os.open(path, REGULAR | os.O_NOFOLLOW)
        try:
            state = os.fstat(number)
            if not stat.S_ISREG(state.st_mode):
                return None, None
            found = look(number, state) if look else None
            if found or sizes is not None and state.st_size not in sizes:
                return found, state.st_uid
            # allocating a whole block would take longer than reading most mail
            count = min(BLOCK, state.st_size + 1)
            block = os.read(number, count)
            digest = hashlib.sha256(block)
            # most mail has ended by then: it was asked for a byte more than it has
            while block and (len(block) == count or len(block) < state.st_size):
                block = os.read(number, count)
                digest.update(block)
            return digest.digest(), state.st_uid
        finally:
            os.close(number)
    except OSError as error:
        if error.errno == errno.ELOOP:
            return None, None
        # the error of a read does not name the file
        raise OSError(error.errno, error.strerror, path) from error


def forms_in(path: bytes) -> Optional[tuple[bytes, bytes]]:
    """The core and the bare form of the message in a file; None if there is no file. No symbolic link is followed."""
    try:
        with open_file(path, os.O_NOFOLLOW) as file:
            return forms_of(file.read)
    except (Fault, OSError):
        return None
