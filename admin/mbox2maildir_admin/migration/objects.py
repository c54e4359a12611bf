"""What a migration prints for programs: one object of JSON per line for each row, and one for the sums."""
import contextlib
import json
import os
from collections.abc import Iterator
from typing import Any

from ..faults import REASONS, Fault
from ..maildir.making import sync_folder
from ..nexts import Todo, objects_of, task
from ..terminal import complain, flush, named, put
from ..version import version
from .outcomes import VERDICTS, Row, Verdict
from .rows import SUMMED, Reporter


class Objects:
    """Prints an object for each row, even for those that have no line otherwise, and one for the sums."""

    def __init__(self) -> None:
        """Raises Fault, before anything is done, if the version is not known."""
        self.version = version()

    def row(self, row: Row) -> None:
        """Prints what became of a mailbox."""
        self.print_object(row.as_object())

    def end(self, sums: Reporter, line: str) -> bool:
        """Prints the sums, and the line that says them."""
        (messages, size), last = sums.amounts(*SUMMED), sums.last_pass()
        self.print_object(
            {
                "type": "sum",
                "verdicts": {verdict: sums.counts[verdict] for verdict in VERDICTS},
                "left": [
                    {"reason": one.word, "count": sums.reasons[one]} for one in REASONS.values() if sums.reasons[one]
                ],
                "messages": messages,
                "before": dict(zip(("messages", "bytes"), sums.amounts(Verdict.BEFORE))),
                "there_already": sums.there,
                "still_there": {word: sums.stand[word] for word in ("deleted", "changed")},
                "bytes": size,
                "seconds": round(sums.seconds(), 3),
                "last_pass_seconds": None if last is None else round(last, 3),
                "host": os.uname().nodename,
                "version": self.version,
                "says": line,
                "next": objects_of(sums.then),
            }
        )
        return True

    def print_object(self, fields: dict[str, Any]) -> None:
        """Prints an object. No object has a byte that is not UTF-8."""
        put(json.dumps(fields))
        flush()


class Report(Objects):
    """Writes the same objects to a new file, which only its owner may read. If it takes no more, that is said at the
    end."""

    def __init__(self, path: bytes) -> None:
        """Makes the file. Raises Fault if something is at its path, or if it can't be made."""
        super().__init__()
        self.path, self.why, self.is_empty = path, "", True
        try:
            self.number = os.open(path, os.O_WRONLY | os.O_CREAT | os.O_EXCL | os.O_CLOEXEC, 0o600)
        except FileExistsError as error:
            raise Fault("%s already exists" % named(path), then=task(Todo.OTHER_NAME)) from error

    def print_object(self, fields: dict[str, Any]) -> None:
        """Writes an object. After one that was not written whole, none follows."""
        rest = b"" if self.why else json.dumps(fields).encode() + b"\n"
        with self.noting():
            while rest:
                rest, self.is_empty = rest[os.write(self.number, rest) :], False

    def end(self, sums: Reporter, line: str) -> bool:
        """Writes the sums, and syncs the file and its name. Returns whether all of it was written, and says why not."""
        super().end(sums, line)
        with self.noting():
            os.fsync(self.number)
            sync_folder(os.path.dirname(self.path) or b".")
        if self.why:
            complain("%s: the report could not be written: %s" % (named(self.path), self.why))
        return not self.why

    def close(self) -> None:
        """Closes the file. One without a row goes, so that the same command can be run again."""
        os.close(self.number)
        if self.is_empty:
            os.unlink(self.path)

    @contextlib.contextmanager
    def noting(self) -> Iterator[None]:
        """Keeps the first error in here."""
        try:
            yield
        except OSError as error:
            self.why = self.why or error.strerror
