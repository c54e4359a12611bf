"""What is at a path, and what lies below which. A look has three answers: yes, no, and not known. The last one is an
OSError, which rises to where a mailbox or a folder is left for it, unless the one who looks says what it stands for."""
import errno
import os
import stat
from collections.abc import Callable, Iterable, Iterator
from typing import Optional, Union

# the errors that say that nothing is at a path
ABSENT = errno.ENOENT, errno.ENOTDIR

# how many symbolic links a path may have, as for Linux
MOST_LINKS = 40

AnyPath = Union[str, bytes]


def state_at(path: AnyPath, follow: bool = True) -> Optional[os.stat_result]:
    """The state of what is at a path, of a symbolic link that of what it leads to; None if nothing is there. Raises
    OSError if that is not known."""
    try:
        return os.stat(path) if follow else os.lstat(path)
    except ValueError:
        # no path has a NUL
        return None
    except OSError as fault:
        # links that lead to each other lead to nothing, and no name is too long for its disk
        if fault.errno not in (*ABSENT, errno.ELOOP, errno.ENAMETOOLONG):
            raise
        return None


def type_at(path: AnyPath, follow: bool = True) -> int:
    """The type of what is at a path, as stat.S_IFMT gives it; 0 if nothing is there."""
    state = state_at(path, follow)
    return stat.S_IFMT(state.st_mode) if state else 0


def is_there(path: AnyPath) -> bool:
    """Whether there is something, even a symbolic link."""
    return type_at(path, False) != 0


def is_link(path: AnyPath) -> bool:
    """Whether there is a symbolic link."""
    return type_at(path, False) == stat.S_IFLNK


def is_file(path: AnyPath) -> bool:
    """Whether there is a regular file, or a symbolic link to one."""
    return type_at(path) == stat.S_IFREG


def is_folder(path: AnyPath) -> bool:
    """Whether there is a folder, or a symbolic link to one."""
    return type_at(path) == stat.S_IFDIR


def real_path(path: bytes) -> bytes:
    """A path without symbolic links, which need not lead to something. Those that lead to each other stay."""
    return way_to(path)[0]


def straight(path: bytes) -> bytes:
    """A path from the root on, without `.` and `..`, and where it leads: a symbolic link before `..` is followed."""
    return os.path.realpath(path) if b".." in path.split(b"/") else os.path.abspath(path)


def way_to(path: bytes) -> tuple[bytes, list[bytes]]:
    """The same, and the symbolic links that lead there."""
    links: list[bytes] = []
    real = b"/"
    parts = os.path.join(os.getcwdb(), path).split(b"/")[::-1]
    while parts:
        part = parts.pop()
        place = os.path.dirname(real) if part == b".." else os.path.join(real, part if part != b"." else b"")
        if part in (b"", b".", b"..") or len(links) == MOST_LINKS or not is_link(place):
            real = place.rstrip(b"/") or b"/"
        else:
            links.append(place)
            target = os.readlink(place)
            parts += target.split(b"/")[::-1]
            real = b"/" if target.startswith(b"/") else real
    return real, links


def may_write(folder: AnyPath) -> bool:
    """Whether this user may make and move files in a folder."""
    return os.access(folder, os.W_OK | os.X_OK)


def is_below(path: bytes, top: bytes) -> bool:
    """Whether a path is that of a folder or lies below it, if both are spelled in the same way."""
    return (path + b"/").startswith(top.rstrip(b"/") + b"/")


def upwards(path: bytes) -> Iterator[bytes]:
    """A path, and those of the folders above it."""
    above = os.path.abspath(path)
    yield above
    while above != os.path.dirname(above):
        above = os.path.dirname(above)
        yield above


def top_above(path: bytes, tops: Iterable[bytes]) -> bytes:
    """The first of these folders that a path lies below; empty if it lies below none."""
    return next((top for top in tops if path != top and is_below(path, top)), b"")


def may_be(look: Callable[[bytes], object], path: bytes) -> bool:
    """What a look says of a path: yes, if it is not known."""
    try:
        return bool(look(path))
    except OSError:
        return True


def is_surely(look: Callable[[bytes], bool], path: bytes) -> bool:
    """What a look says of a path: no, if it is not known."""
    try:
        return look(path)
    except OSError:
        return False
