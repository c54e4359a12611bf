"""What is done while a mail reader is at work."""
import os
import random
import threading
import time
from typing import Optional

from tests.support.powercut.expected import NAME
from tests.support.powercut.recording import Recorder
from tests.support.powercut.workloads import PAUSE, Tools, Workload


class Reader(Workload):
    """A mail reader that works before, during and after runs: it moves and flags, and it deletes between runs."""

    def record(self, recorder: Recorder) -> None:
        self.run(recorder, self.mailboxes[:1])
        self.read_some(recorder.at, 0.6)
        self.delete_some(recorder, 0.4)
        self.run_among_readers(recorder)
        self.read_some(recorder.at, 0.5)
        self.delete_some(recorder, 0.3)
        self.run(recorder, self.mailboxes)

    def run_among_readers(self, recorder: Recorder) -> None:
        """Makes a run over all mailboxes while a mail reader moves some messages."""
        child, ended = self.start(recorder, self.mailboxes), threading.Event()

        def read() -> None:
            while not ended.wait(PAUSE):
                self.read_some(recorder.at, 0.1)

        reader = threading.Thread(target=read)
        reader.start()
        status = child.wait()
        ended.set()
        reader.join()
        recorder.mark(f"exit {status}")

    def files(self, at: str, sub: str) -> list[str]:
        """The paths of what has a converter's name in `new` or `cur`."""
        folder = os.path.join(self.folder(at), sub)
        return [os.path.join(folder, name) for name in sorted(os.listdir(folder)) if NAME.match(name)]

    def read_some(self, at: str, share: float) -> None:
        """A mail reader moves some of what is in `new` to `cur`, and gives others other flags."""
        for path in self.files(at, "new"):
            if self.chance.random() < share:
                flags = self.chance.choice(["", "S", "FS"])
                os.rename(path, f"{self.folder(at)}/cur/{os.path.basename(path)}:2,{flags}")
        for path in self.files(at, "cur"):
            if self.chance.random() < share / 2:
                os.rename(path, path.split(":")[0] + ":2," + self.chance.choice(["RS", "T", "FRS"]))

    def delete_some(self, recorder: Recorder, share: float) -> None:
        """A mail reader deletes some of what is in `cur`, and moves some to another folder."""
        for path in self.files(recorder.at, "cur"):
            if self.chance.random() < share:
                recorder.mark("gone " + os.path.basename(path).split(":")[0])
                if self.chance.random() < 0.6:
                    os.unlink(path)
                else:
                    os.rename(path, f"{self.folder(recorder.at)}/.Sent/cur/{os.path.basename(path)}")


class Later(Reader):
    """A mailbox is converted and everything is synced, as after a while. Then a mail reader moves messages before,
    during and after two runs over both."""

    # how many have been moved before
    share = 0.3

    def prepare(self, recorder: Recorder) -> None:
        super().prepare(recorder)
        environment, self.environment = self.environment, {**os.environ}
        self.run(recorder, self.mailboxes[:1])
        self.environment = environment
        self.read_some(recorder.at, self.share)
        # it looks once more, so that no listing changes a time of access then, since a sync would have to write that
        time.sleep(0.1)
        for sub in ("new", "cur"):
            self.files(recorder.at, sub)

    def say_before(self, recorder: Recorder) -> None:
        """Marks what the run before had printed."""
        for line in (f"file {os.path.basename(self.mailboxes[0].path)}", "messages of the run before", "exit 0"):
            recorder.mark(line)

    def record(self, recorder: Recorder) -> None:
        self.say_before(recorder)
        for _ in range(2):
            self.read_some(recorder.at, 0.4)
            self.run_among_readers(recorder)
        self.read_some(recorder.at, 0.4)


class Again(Later):
    """A mailbox is converted and everything is synced. A mail reader deletes messages in `cur`, and the mailbox is
    converted again."""

    share = 1.0

    def record(self, recorder: Recorder) -> None:
        self.say_before(recorder)
        self.delete_some(recorder, 0.5)
        self.run(recorder, self.mailboxes)


class Between(Later):
    """A mailbox is converted and everything is synced. While it is converted again, a mail reader moves a message from
    `new` to `cur`, after `new` was synced at the end and before `cur` is."""

    share, moment = 0.1, "new"

    def __init__(self, tools: Tools, work: str, chance: random.Random, environment: Optional[dict[str, str]]) -> None:
        super().__init__(tools, work, chance, {**(environment or {}), "READER_AFTER": self.moment})

    def record(self, recorder: Recorder) -> None:
        self.say_before(recorder)
        self.run(recorder, self.mailboxes)


class BetweenListings(Between):
    """The same after `new` was listed and synced, and before `cur` is."""

    moment = "listed_new"
