"""What must be true of a disk after a power cut."""
import enum
import hashlib
import os
import re
from collections.abc import Iterator, Sequence

from tests.support.powercut.expected import NAME, Look
from tests.support.powercut.workloads import FOREIGN, Owed, Workload

LIST = "dovecot-uidlist"
# the first line of a list, and the name in each other line
FIRST_LINE, LISTED = re.compile(r"3 V\d+ N\d+"), re.compile(r"\d+ (?:\S+ )*:(.*)")


class Wrong(enum.Enum):
    """What may be wrong, as it is printed."""

    MISSING = "a message that is owed is nowhere, or has other bytes"
    BACK = "a message is there that was undone"
    BYTES = "a name has the bytes of another message"
    DOUBLE = "a message has two files"
    # half of a rename was kept: of one by a mail reader, also if the run had printed its line, or of one by the program
    TWO_NAMES = "a file is in new and in cur"
    TWO_NAMES_AFTER = "a file is in new and in cur after the line"
    IN_TMP = "a file is in tmp and at home"
    NOT_FINISHED = "the same run again does not end with all that is owed"
    OTHERS = "a file of other programs is not as it was"
    MAILBOX = "a mailbox to which mail goes back has lost something"
    UNDATED = "a date or Dovecot's list is not what is owed"
    UNDATED_AGAIN = "the same after the run again"
    UNMOUNTED = "the file system can't be mounted"
    UNREPAIRED = "it can't be mounted after its repair"


# what is wrong, and what shows it
Finding = tuple[Wrong, str]
# the facts about a file of other programs, by its name
Others = dict[str, object]


def other_files(workload: Workload, at: str) -> Others:
    """The facts about files of other programs: their bytes and what the system says of them, or an error."""
    found = {}  # type: Others
    for name in FOREIGN:
        path = os.path.normpath(os.path.join(workload.folder(at), name))
        try:
            with open(path, "rb") as file:
                state = os.fstat(file.fileno())
                digest = hashlib.sha256(file.read()).hexdigest()
            found[name] = digest, state.st_mode, state.st_size, state.st_mtime_ns
        except FileNotFoundError:
            continue
        except OSError as fault:
            found[name] = fault.strerror
    return found


class Checker:
    """Checks what cuts leave of a workload, which found these files of other programs."""

    def __init__(self, workload: Workload, others: Others) -> None:
        self.workload, self.others = workload, others

    def check(self, at: str, marks: Sequence[str], is_run_again: bool) -> Iterator[Finding]:
        """What is wrong with a disk that is mounted at a place, given the marks until the cut."""
        has_line = any(mark.startswith("messages ") and mark[9:10].isdigit() for mark in marks)
        looks = {folder: Look(folder) for folder, _ in self.workload.all_owed(at)}
        for folder, look in looks.items():
            yield from ((Wrong.BYTES, line) for line in look.broken)
            yield from self.doubles(look, has_line)
            yield from self.half_renamed(folder, look)
        for folder, messages in self.workload.owed(at, marks):
            yield from ((Wrong.MISSING, line) for line in looks[folder].missing(messages))
        yield from ((Wrong.BACK, line) for line in self.back(self.workload.undone(at), looks))
        now = other_files(self.workload, at)
        changed = [name for name in FOREIGN if now.get(name) != self.others.get(name)]
        if changed:
            yield Wrong.OTHERS, ", ".join(changed)
        yield from ((Wrong.MAILBOX, line) for line in self.workload.besides(at))
        yield from ((Wrong.UNDATED, line) for line in self.undated(self.workload.dated(at, marks), looks))
        yield from ((Wrong.UNDATED, line) for line in self.unlisted(self.workload.listed(at, marks), looks))
        if is_run_again:
            yield from self.run_again(at, count_doubles(looks))

    @staticmethod
    def doubles(look: Look, has_line: bool) -> Iterator[Finding]:
        """Messages that have several files, or a file with several names."""
        for base, line in look.doubles():
            is_one = len({file.inode for file in look.files[base]}) == 1
            yield (Wrong.TWO_NAMES_AFTER if has_line else Wrong.TWO_NAMES) if is_one else Wrong.DOUBLE, line

    @staticmethod
    def back(undone: Owed, looks: dict[str, Look]) -> Iterator[str]:
        """Messages that are there, and must be gone."""
        for folder, messages in undone:
            yield from looks[folder].there(messages)

    @staticmethod
    def half_renamed(folder: str, look: Look) -> Iterator[Finding]:
        """Files that are in `tmp` and in `new` or `cur`."""
        homes = {file.inode for files in look.files.values() for file in files}
        try:
            for entry in os.scandir(os.path.join(folder, "tmp")):
                if entry.inode() in homes:
                    yield Wrong.IN_TMP, entry.name[:16]
        except OSError:
            return

    @staticmethod
    def undated(owed: Owed, looks: dict[str, Look]) -> Iterator[str]:
        """Files with other dates than those that are owed."""
        for folder, messages in owed:
            yield from looks[folder].undated(messages)

    @staticmethod
    def unlisted(folders: Sequence[str], looks: dict[str, Look]) -> Iterator[str]:
        """Dovecot's lists that do not name what is there."""
        for folder in folders:
            try:
                with open(os.path.join(folder, LIST), encoding="latin-1") as file:
                    first, *lines = file.read().split("\n")
            except OSError as fault:
                yield f"{LIST}: {fault.strerror}"
                continue
            names = {match[1] for match in map(LISTED.fullmatch, lines) if match}
            there = {os.path.basename(file.path) for files in looks[folder].files.values() for file in files}
            if not FIRST_LINE.fullmatch(first) or names != there:
                yield f"{LIST}: {len(names)} names, {len(names & there)} of them there"

    def run_again(self, at: str, doubles: int) -> Iterator[Finding]:
        """What is wrong after the run again, and once more. What was there twice before the first of them may stay
        so."""
        owed = self.workload.all_owed(at)
        for turn in ("again", "once more"):
            status, said = self.workload.again(at)
            looks = {folder: Look(folder) for folder, _ in owed}
            lines = [f"status {status}: {said.strip()[-300:]}"] if status else []
            lines += [line for folder, messages in owed for line in looks[folder].missing(messages)]
            lines += self.back(self.workload.all_undone(at), looks)
            lines += [line for look in looks.values() for line in look.broken]
            lines += [f"{name} is in tmp" for folder in looks for name in left_in_tmp(folder)]
            if count_doubles(looks) > doubles:
                lines.append(f"{count_doubles(looks)} are double, of {doubles} before")
            if lines:
                yield Wrong.NOT_FINISHED, f"{turn}: {len(lines)}, as {lines[0]}"
                return
        if self.workload.did_something(said):
            yield Wrong.NOT_FINISHED, f"once more: {said}"
        for line in [
            *self.undated(self.workload.dated(at, []), looks),
            *self.unlisted(self.workload.listed(at, []), looks),
        ]:
            yield Wrong.UNDATED_AGAIN, line


def count_doubles(looks: dict[str, Look]) -> int:
    """How many messages have several names."""
    return sum(len(list(look.doubles())) for look in looks.values())


def left_in_tmp(folder: str) -> Sequence[str]:
    """The converter's names in `tmp`."""
    try:
        return list(filter(NAME.match, os.listdir(os.path.join(folder, "tmp"))))
    except FileNotFoundError:
        return []
