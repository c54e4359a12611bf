"""Calls of the system that fail in a copy of this process, in which the companion runs. A file gets a line for each
call that failed, or for each call if none is to fail: its number, what was called, about what, and the functions of the
companion that called it, the innermost first. A child of the program goes on counting by itself. The program is not
changed: the names in `os`, `fcntl`, `io` and `builtins` that it calls stand for other functions."""
import builtins
import fcntl
import inspect
import io
import os
from collections.abc import Callable, Iterator
from typing import Any

CALLS = {
    os: (
        "open stat lstat fstat listdir read pread write lseek statvfs fstatvfs rename replace mkdir fsync link symlink "
        "unlink rmdir utime chmod fchmod fchown ftruncate access readlink close dup2 pipe"
    ).split(),
    fcntl: "flock fcntl lockf".split(),
}
PACKAGE = "mbox2maildir_admin."
TEMPORARY = getattr(os, "O_TMPFILE", -1)
open_log, write_log, close_log = os.open, os.write, os.close


def note(path: str, line: str) -> None:
    """Writes a line into a file. The file is not kept open, since a child closes what it does not know."""
    number = open_log(path, os.O_WRONLY | os.O_APPEND)
    write_log(number, line.encode(errors="replace"))
    close_log(number)


def callers() -> str:
    """The functions of the companion that are at work, the innermost first, each with its line."""
    frame, found = inspect.currentframe(), []
    while frame:
        room = frame.f_globals.get("__name__", "")
        if room.startswith(PACKAGE):
            found.append(f"{room[len(PACKAGE) :]}.{frame.f_code.co_name}:{frame.f_lineno}")
        frame = frame.f_back
    return " ".join(found)


class Counter:
    """Counts calls, and has one of them fail."""

    def __init__(self) -> None:
        self.count = self.number = self.error = 0
        self.log = ""
        self.own: tuple[str, ...] = ()

    def begin(self, own: str, log: str, fail: str) -> None:
        """Begins to count the calls of a program. The one that fails has this number, before a colon and its error."""
        number, _, error = fail.partition(":")
        self.count, self.number, self.error, self.log = 0, int(number), int(error), log
        # the program itself is found and read without faults
        self.own = (own, os.path.join(os.path.dirname(own), PACKAGE[:-1]))

    def call(self, what: str, about: object = None) -> None:
        """Begins a call, which may fail."""
        # nor does a search for texts in other languages count, which Python makes for itself
        if isinstance(about, str) and (about.startswith(self.own) or "/LC_MESSAGES/" in about):
            return
        self.count += 1
        if self.number in (0, self.count):
            note(self.log, f"{self.count}\t{what}\t{about!r}\t{callers()}\n")
        if self.count == self.number:
            path = about if isinstance(about, (str, bytes)) else None
            raise OSError(self.error, os.strerror(self.error), *([path] if path is not None else []))


counter = Counter()


def failing(what: str, function: Callable[..., Any]) -> Callable[..., Any]:
    """Returns a function that does the same, and may fail."""

    def call(*words: Any, **options: Any) -> Any:
        # Python itself tries whether a file without a name can be made, and copes if not
        if not (what == "open" and len(words) > 1 and words[1] & TEMPORARY == TEMPORARY):
            counter.call(what, words[0] if words else None)
        return function(*words, **options)

    return call


class Entry:
    """An entry of a folder. What it asks the system may fail."""

    def __init__(self, entry: Any) -> None:
        self.entry, self.name, self.path = entry, entry.name, entry.path

    def __fspath__(self) -> Any:
        return self.path

    def __getattr__(self, name: str) -> Any:
        return getattr(self.entry, name)

    def stat(self, *, follow_symlinks: bool = True) -> os.stat_result:
        """Asks what the entry is."""
        counter.call("entry.stat", self.path)
        return self.entry.stat(follow_symlinks=follow_symlinks)  # type: ignore


class Entries:
    """The entries of a folder. Reading each of them may fail."""

    def __init__(self, entries: Any, path: object) -> None:
        self.entries, self.path = entries, path

    def __enter__(self) -> "Entries":
        return self

    def __exit__(self, *_: object) -> None:
        self.close()

    def __iter__(self) -> Iterator[Entry]:
        return self

    def __next__(self) -> Entry:
        counter.call("readdir", self.path)
        return Entry(next(self.entries))

    def close(self) -> None:
        """Ends the reading."""
        self.entries.close()


class Raw(io.FileIO):
    """A file whose reads and writes may fail."""

    def __init__(self, file: Any, mode: str, closefd: bool, opener: Any) -> None:
        self.place = file
        super().__init__(file, mode, closefd, opener)


def of_file(what: str, method: Callable[..., Any]) -> Callable[..., Any]:
    """Returns a method of such a file that does the same, and may fail."""

    def call(self: Raw, *words: Any) -> Any:
        counter.call(f"file.{what}", self.place)
        return method(self, *words)

    return call


def opened(file: Any, *words: Any, **options: Any) -> Any:
    """Opens a file as `open` does."""
    given = {**dict(zip(("mode", "buffering", "encoding", "errors", "newline", "closefd", "opener"), words)), **options}
    mode = given.get("mode", "r")
    of_text: dict[str, Any] = {name: given.get(name) for name in ("encoding", "errors", "newline")}
    if not isinstance(file, int):
        counter.call("open", file)
    raw = Raw(file, mode.replace("b", "").replace("t", ""), given.get("closefd", True), given.get("opener"))
    if given.get("buffering") == 0:
        return raw
    kind: Any = io.BufferedRandom if "+" in mode else io.BufferedReader if "r" in mode else io.BufferedWriter
    buffered = kind(raw)
    return buffered if "b" in mode else io.TextIOWrapper(buffered, **of_text)


def put_in_place() -> None:
    """Puts the functions in place."""
    real_scandir = os.scandir
    for module, names in CALLS.items():
        for name in names:
            if hasattr(module, name):
                setattr(module, name, failing(name, getattr(module, name)))

    def scandir(path: Any = ".") -> Entries:
        counter.call("scandir", path)
        return Entries(real_scandir(path), path)

    for name in ("readinto", "read", "readall", "write", "seek", "truncate"):
        word = "read" if name.startswith("read") else name
        setattr(Raw, name, of_file(word, getattr(io.FileIO, name)))
    os.scandir = scandir  # type: ignore
    builtins.open = io.open = os.fdopen = opened  # type: ignore
