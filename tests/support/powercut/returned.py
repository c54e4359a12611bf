"""The way back into a mailbox of Dovecot on the disk whose power is cut: its head gets the UIDs that the Maildir gave,
and a keyword, and new mail is appended."""
import os
import re
import shutil
import subprocess
from collections.abc import Iterator, Sequence
from pathlib import Path

from tests.support.powercut.mailboxes import LARGEST, SIZES, UNSEEN, Made, body_of, quoted, write
from tests.support.powercut.migrations import Migrate
from tests.support.powercut.recording import Recorder
from tests.support.powercut.workloads import Owed

# what Dovecot notes in a mailbox, and where its head says which UID was the last one
NOTES, HEAD = re.compile(rb"(?m)^X-(?:IMAPbase|UID|Keywords):.*\n"), re.compile(rb"(?m)^X-IMAPbase: \d+ (\d+)")
VALIDITY, LAST, GIVEN = 1234567890, 40, 90
# how many messages are new, by their UIDs, and the size of a sector
NEW, SECTOR = range(60, 66), 512


class Returned(Migrate):
    """`back --dovecot`, which was killed some times before."""

    kills = (0.3, 0.4, 0.5, 0.7, 1.0)

    def make(self) -> Sequence[Made]:
        texts = [body_of(max(size, SIZES[2]), self.chance, UNSEEN) for size in SIZES]
        hidden = [b"X-UID: %d          \n" % (3 * place + 1) for place in range(1, len(texts) + 1)]
        # the head of the mailbox begins somewhere before the end of a sector
        blanks = SECTOR - 100 - self.chance.randrange(80)
        head = b"X-IMAPbase: %d %010d later\n" % (VALIDITY, LAST)
        hidden[0] = b"Status: RO" + b" " * blanks + b"\n" + head + hidden[0]
        sizes = [SIZES[2], SIZES[5], SIZES[3], LARGEST // 2, SIZES[6], SIZES[4]]
        self.new = [body_of(size, self.chance, UNSEEN) for size in sizes]
        return [write(f"{self.mail}/box", texts, self.chance, hidden)]

    def box(self, at: str) -> Path:
        """The old mailbox on a disk."""
        return Path(at, "home/old/box")

    def prepare(self, recorder: Recorder) -> None:
        super().prepare(recorder)
        box, folder = self.box(recorder.at), Path(self.folder(recorder.at))
        box.parent.mkdir()
        shutil.copy(self.mailboxes[0].path, box)
        words = [self.tools.admin, "migrate", "--dovecot", "--now", str(folder), "--folder", "box", str(box)]
        subprocess.run(words, env=self.environment, stdout=subprocess.DEVNULL, check=True)
        place = folder / ".box"
        for uid, text in zip(NEW, self.new):
            (place / f"cur/1700000000.M{uid}.host:2,{'b' * (uid % 2)}").write_bytes(text)
        with open(place / "dovecot-uidlist", "a", encoding="ascii") as file:
            file.write("".join(f"{uid} :1700000000.M{uid}.host\n" for uid in (*NEW, GIVEN)))
        (place / "dovecot-keywords").write_text("0 later\n1 other\n")

    def record(self, recorder: Recorder) -> None:
        self.kill_some(recorder, 4)
        self.run(recorder, self.mailboxes)

    def words(self, at: str, mailboxes: Sequence[Made]) -> list[str]:
        return [self.tools.admin, "back", "--dovecot", "--now", self.folder(at), str(self.box(at).parent)]

    def did_something(self, said: str) -> bool:
        return ": back" in said

    def place(self, mailbox: Made, at: str) -> str:
        return os.path.join(self.folder(at), ".box")

    def owed(self, at: str, marks: Sequence[str]) -> Owed:
        return self.all_owed(at)

    def dated(self, at: str, marks: Sequence[str]) -> Owed:
        return []

    def again(self, at: str) -> tuple[int, str]:
        status, said = super().again(at)
        return (status, said) if status else next(((1, line) for line in self.missing(at)), (0, said))

    def besides(self, at: str) -> Iterator[str]:
        old, now = (NOTES.sub(b"", path.read_bytes()) for path in (Path(self.mailboxes[0].path), self.box(at)))
        if not now.startswith(old):
            yield f"it had {len(old)} bytes, of which {len(os.path.commonprefix([old, now]))} are there"

    def missing(self, at: str) -> Iterator[str]:
        """What is wrong with the mailbox after a run that ended well."""
        yield from self.besides(at)
        now = self.box(at).read_bytes()
        given = [int(found) for found in HEAD.findall(now)]
        if given != [GIVEN]:
            yield f"the last UID is {given}"
        rest = NOTES.sub(b"", now)[len(NOTES.sub(b"", Path(self.mailboxes[0].path).read_bytes())) :]
        messages = re.split(rb"(?m)^From MAILER-DAEMON .*\n", rest)[1:]
        wanted = [with_status(quoted(text)) for text in self.new]
        if sorted(messages) != sorted(wanted):
            right = len({*messages} & {*wanted})
            yield f"of {len(wanted)} messages, {len(messages)} were appended, and {right} are right"


def with_status(text: bytes) -> bytes:
    """A message that a reader has met, as it is in the mailbox."""
    return b"Status: O\n" + text + b"\n"
