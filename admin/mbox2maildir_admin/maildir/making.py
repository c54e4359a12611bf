"""A Maildir, or a folder of one: what may become one, how it is made if it is missing, and where root may write. Nobody
else can replace such a folder by a symbolic link while root is at work.
"""
import contextlib
import os
import pwd
import stat
from collections.abc import Callable, Iterator, Sequence

from ..faults import Fault, Reason
from ..looks import is_folder, is_there, real_path, upwards, way_to
from ..nexts import Answer, Command, Runs, Todo, run_next, task
from ..terminal import named, operand, text_of

# where files are made, and the folders that have the mail: programs move files from the first of these into the second
TMP, WITH_MAIL = b"tmp", (b"new", b"cur")
SUBFOLDERS = TMP, *WITH_MAIL
# marks a folder of a Maildir
MARK = b"maildirfolder"
# the record of a migration has this name; a Maildir without other names is known by it
RECORD = b"mbox2maildir-record"
# each of its folders may have a ledger of messages
LEDGER = b"mbox2maildir-messages"
# and a list of what is prepared there
PREPARED = b"mbox2maildir-prepared"
# and what is going to be appended to its mailbox, also before it is whole
GOES_BACK, GOES_BACK_NEW = b"mbox2maildir-back", b"mbox2maildir-back.new"

# how a folder is opened
FOLDER = os.O_RDONLY | os.O_DIRECTORY | os.O_CLOEXEC
NO_PLACE = "the folder that it is to be made in is not there"

# syncs the names in a folder to the disk, or sees to it that somebody does
SyncNames = Callable[[bytes], object]


def want_maildir(maildir: bytes) -> None:
    """Checks that a folder is a Maildir, or can become one. Raises Fault if not."""
    try:
        names = set(os.listdir(maildir))
    except FileNotFoundError:
        above = os.path.dirname(os.path.abspath(maildir))
        if not is_folder(above):
            then = run_next(Runs.MAKE_FOLDERS, operand(above))
            raise Fault(NO_PLACE, Reason.NO_MAILDIR, then, place=maildir) from None
        return
    if names and not names & {*SUBFOLDERS, RECORD}:
        then = task(Todo.OTHER_MAILDIR, text_of(os.path.join(maildir, b"Maildir")))
        raise Fault("it is neither a Maildir nor empty", Reason.NO_MAILDIR, then, place=maildir)


def is_partly_there(maildir: bytes) -> bool:
    """Whether there is a Maildir, or a part of one."""
    return any(is_there(os.path.join(maildir, name)) for name in (*SUBFOLDERS, RECORD))


def want_own(folder: bytes) -> None:
    """Checks that a folder, and what has the names of a Maildir in it, are no symbolic links, and belong to this user.
    Raises Fault if not."""
    for path in (folder, *(os.path.join(folder, sub) for sub in SUBFOLDERS)):
        try:
            state = os.lstat(path)
        except FileNotFoundError:
            continue
        why = ""
        if stat.S_ISLNK(state.st_mode):
            why = "it is a symbolic link, which is not followed"
        elif not stat.S_ISDIR(state.st_mode):
            why = "it is not a folder"
        elif state.st_uid != os.geteuid():
            why = "it belongs to another user"
        if why:
            raise Fault(why, Reason.NOT_OWN, place=path)


@contextlib.contextmanager
def open_folder(path: bytes) -> Iterator[int]:
    """Opens a folder, and gives its descriptor."""
    number = os.open(path, FOLDER)
    try:
        yield number
    finally:
        os.close(number)


def sync_folder(path: bytes) -> None:
    """Syncs the names in a folder to the disk."""
    with open_folder(path) as number:
        os.fsync(number)


@contextlib.contextmanager
def synced_once() -> Iterator[SyncNames]:
    """Gives what takes the folders in which names are made meanwhile, and syncs each of them once in the end."""
    folders: dict[bytes, None] = {}
    yield lambda folder: folders.setdefault(os.path.abspath(folder))
    for folder in folders:
        sync_folder(folder)


def make_maildir(folder: bytes, is_inbox: bool, sync: SyncNames) -> None:
    """Makes a Maildir, or a folder of one with its mark, if it is missing. Its names are on the disk then, if `sync`
    does that."""
    made = False
    for path in (folder, *(os.path.join(folder, sub) for sub in SUBFOLDERS)):
        with contextlib.suppress(FileExistsError):
            os.mkdir(path, 0o700)
            made = True
    if not is_inbox:
        flags = os.O_WRONLY | os.O_CREAT | os.O_EXCL | os.O_NOFOLLOW | os.O_CLOEXEC
        with contextlib.suppress(FileExistsError):
            os.close(os.open(os.path.join(folder, MARK), flags, 0o600))
            made = True
    if made:
        sync(folder)
        sync(os.path.dirname(os.path.abspath(folder)))


def real_place(maildir: bytes) -> bytes:
    """The path of a Maildir, for root without symbolic links: one above it may lead elsewhere later. A path without any
    stays as it was given."""
    real = real_path(maildir) if os.geteuid() == 0 else maildir
    return maildir if real == os.path.abspath(maildir) else real


def want_roots_alone(maildir: bytes) -> None:
    """Checks that others cannot put another folder in place of a Maildir, of one of its folders, or of one above it:
    each folder belongs to root, and only root may write in it. Above the Maildir a sticky folder is enough, since
    others cannot replace what belongs to root there. Its path had no symbolic link when it was looked at first. Raises
    Fault if they can."""
    place = os.path.abspath(maildir)
    if real_path(place) != place:
        raise replaced(maildir, "others, who have put a link there,")
    above = [*upwards(place)]
    for folder in [*reversed(above), *(os.path.join(place, sub) for sub in SUBFOLDERS)]:
        try:
            state = os.lstat(folder)
        except FileNotFoundError:
            # it is looked at again once it has been made
            continue
        if state.st_uid != 0:
            raise replaced(folder, "its owner, who is not root,")
        is_enough = folder in above[1:] and state.st_mode & stat.S_ISVTX
        if state.st_mode & (stat.S_IWGRP | stat.S_IWOTH) and not is_enough:
            if not stat.S_ISLNK(state.st_mode):
                raise replaced(folder, "others, who may write there,")


def replaced(folder: bytes, who: str) -> Fault:
    """Why root does not write into a Maildir."""
    why = "%s could replace the Maildir by a symbolic link" % who
    return Fault(why, Reason.NOT_OWN, task(Todo.OTHER_PLACE), place=folder)


def make_alone(maildir: bytes, sync: SyncNames = sync_folder) -> None:
    """Makes a Maildir if it is missing. As root, raises Fault if others can put another folder in its place. `sync`
    syncs its names."""
    is_roots = os.geteuid() == 0
    if is_roots:
        # a mailbox was read since it was looked at, which may take long
        want_roots_alone(maildir)
    make_maildir(maildir, True, sync)
    if is_roots:
        # what others have made there first is not a folder of root's
        want_roots_alone(maildir)


def want_roots(path: bytes, words: Sequence[str]) -> None:
    """Checks that what root names belongs to root, and so does each symbolic link that leads there. Raises Fault if
    not, with the words that do it as the owner."""
    states = [*map(os.lstat, way_to(path)[1]), os.stat(path)]
    owner = next((state.st_uid for state in states if state.st_uid), 0)
    if owner == 0:
        return
    try:
        user = pwd.getpwuid(owner).pw_name
    except KeyError:
        why = "it belongs to user %d" % owner
        raise Fault(why, Reason.OTHER_OWNER, task(Todo.AS_OWNER), place=path) from None
    then = (Answer(Command.of(Runs.MIGRATE, *words, user=user)),)
    raise Fault("it belongs to %s" % named(user), Reason.OTHER_OWNER, then, place=path)
