"""A history: mailboxes in the home of a user whom a Dovecot serves, over many runs, between which people and programs
rewrite them, and work in the Maildir. After each run an oracle says what is wrong."""
import contextlib
import gzip
import itertools
import os
import shutil
import subprocess
import time
from collections.abc import Callable, Iterable, Iterator, Mapping, Sequence
from pathlib import Path
from random import Random
from typing import NamedTuple, Optional

from tests.support.running import COMPANION, NEVER, Kill, Row, Run
from tests.worlds.letters import KINDS, Letter
from tests.worlds.oracle import Oracle, Reading, readings
from tests.support.ledgers import ends_in, wait_for_lock
from tests.support.place import ENDED, Place
from tests.worlds.rewriters import USER, Mailbox, Rewriter
from tests.worlds.stage import Stage

INBOX = "inbox"
# how long a name stays before its owner changes one, in seconds: more than the kernel's clock ticks and lags
QUIET = 0.06


def kill_at(draw: Random, events: int, calls: int) -> Kill:
    """A kill at one of the first things that a run does."""
    return Kill(event=draw.randint(1, events)) if draw.random() < 0.5 else Kill(call=draw.randint(1, calls))


class Box(NamedTuple):
    """A mailbox: its number, which stays, its path below the home, and the kind of its deliveries."""

    number: int
    path: str
    kind: str


class History:
    """A history of a seed. A kind of them says what happens."""

    # whether a Dovecot serves the user
    IS_SERVED = True

    def __init__(self, stage: Stage, seed: int, is_one: bool = False) -> None:
        self.stage, self.seed = stage, seed
        self.server = stage.server() if self.IS_SERVED else None
        self.draw = Random(f"{type(self).__name__} {seed}")
        if self.server:
            stage.place = Place(Path(self.server.home(USER)), stage.top / "bin")
        self.place, self.home = stage.place, stage.place.home
        self.boxes: list[Box] = []
        self.letters: list[Letter] = []
        # what a mail program took for a message of a mailbox, and put into another one as such: it may be a part of one
        self.parts: set[bytes] = set()
        self.oracle = Oracle(self.maildir, is_one)
        self.seen = stage.seen
        self.wrong: list[str] = []
        # the Maildir as it was kept
        self.kept: Optional[Oracle] = None
        # the options of each run, and the folder into which all mailboxes go, if it is one
        self.words: list[str] = []
        self.folder, self.numbers = "", itertools.count(1)
        # why the last run left something, and how all ended, if it did
        self.asked, self.ended = "", ""
        # how likely its owner does something at a moment while a run is at work, and whether a message was taken then
        self.likely, self.is_disturbed = 0.0, False

    @property
    def maildir(self) -> Path:
        """The Maildir into which it goes."""
        return self.home / "Maildir"

    @property
    def steps(self) -> list[str]:
        """What was done in it."""
        return self.stage.steps

    def play(self) -> list[str]:
        """Tries it. Returns what is wrong."""
        try:
            self.begin()
            self.live()
        except AssertionError as failed:
            self.wrong.append(str(failed))
        self.seen[f"ended {': '.join(filter(None, [self.ended or 'never', self.asked]))}"] += 1
        return self.wrong

    def live(self) -> None:
        """What happens in it."""

    def begin(self) -> None:
        """Makes a fresh home."""
        if self.server:
            shutil.rmtree(self.home, ignore_errors=True)
            self.server.make_home(USER)
        else:
            self.place.clear()
        (self.home / "mail").mkdir()

    def mailbox(self, box: Box) -> Mailbox:
        """A mailbox as those see it who rewrite it."""
        return Mailbox(self.home / box.path, box.kind, self.server, self.draw, self.letters)

    def make(self, path: str, least: int, most: int) -> Box:
        """Makes a mailbox of so many new letters, and of some that another one has."""
        box = Box(len(self.boxes), path, self.draw.choice(KINDS))
        mailbox = self.mailbox(box)
        pieces = [mailbox.letter() for _ in range(self.draw.randint(least, most))]
        others = self.letters[: -len(pieces)]
        for letter in self.draw.sample(others, min(len(others), self.draw.randint(0, 3))):
            pieces.append(letter.delivered(box.kind, self.draw.randint(0, 9)))
        mailbox.write(pieces)
        self.boxes.append(box)
        return box

    def new_name(self) -> str:
        """A name that nothing has."""
        return f"{self.draw.choice(['old', 'lists', 'sent'])}{next(self.numbers)}"

    def plain(self) -> list[Box]:
        """The mailboxes that are not compressed."""
        return [box for box in self.boxes if not box.path.endswith(".gz")]

    def text_of(self, box: Box) -> bytes:
        """The text of a mailbox."""
        text = (self.home / box.path).read_bytes()
        return gzip.decompress(text) if box.path.endswith(".gz") else text

    def sent(self) -> set[bytes]:
        """All that somebody sent, and what programs took for that."""
        return {letter.mail() for letter in self.letters} | self.parts

    def best(self, box: Box) -> Reading:
        """How a mailbox is read by the word that makes the fewest messages of it that nobody sent."""
        sent = self.sent()
        return min(
            readings(self.text_of(box)).values(),
            key=lambda one: sum(count for what, count in one.contents.items() if what not in sent),
        )

    def right(self, box: Box) -> dict[str, Reading]:
        """How a mailbox is read by the words by which it has nothing but what somebody sent."""
        sent = self.sent()
        return {word: one for word, one in readings(self.text_of(box)).items() if sent.issuperset(one.contents)}

    def target(self, box: Box) -> str:
        """The folder into which a mailbox goes that no run has seen."""
        name = box.path[: -len(".gz")] if box.path.endswith(".gz") else box.path
        return self.folder or name.partition("/")[2] or "INBOX"

    def own_all(self) -> None:
        """Gives all to its owner, and makes mailboxes look as if they had been left alone."""
        self.place.own(*self.home.rglob("*"))
        for box in self.boxes:
            os.utime(self.home / box.path, (1.7e9,) * 2)

    def rewrite(self, box: Box, how: Rewriter) -> None:
        """A program, or a person, rewrites a mailbox."""
        self.steps.append(f"({how.__name__} {box.path})")
        self.seen[how.__name__] += 1
        how(self.mailbox(box))
        self.own_all()

    def is_served(self, box: Box) -> bool:
        """Whether the server shows a mailbox."""
        return box.path == INBOX

    def happens(self, deeds: "Deeds") -> None:
        """One of these deeds is done, which are done so often."""
        (deed,) = self.draw.choices([*deeds], [*deeds.values()])
        self.seen[f"step {deed.__name__}"] += 1
        deed(self)
        self.own_all()
        self.oracle.look()

    def meanwhile(self) -> None:
        """What happens while a run is at work: its owner takes a message, or reads it. If a message is taken within
        some ticks of the disk's clock after it was placed, and the run is killed right then, nobody could tell that it
        was there. So the owner is slower."""
        if not self.likely or self.draw.random() >= self.likely or not self.is_quiet():
            return
        files = [*self.oracle.files()]
        name, path = self.draw.choice(files) if files else ("", None)
        with contextlib.suppress(FileNotFoundError):
            if not path or time.time() - path.stat().st_ctime < QUIET:
                return
            if self.draw.random() < 0.3:
                # what the run has done so far is its own
                self.wrong += self.oracle.ran([], True)
                mail = path.read_bytes()
                self.steps.append("(while it is at work:)")
                self.stage.remove(path)
                self.seen["taken while a run was at work"] += 1
                self.oracle.take(name, mail)
                self.is_disturbed = True
            elif path.parent.name == "new":
                read = path.parent.parent / "cur" / (path.name.split(":")[0] + ":2,S")
                if not read.exists():
                    path.rename(read)

    def ways(self, box: Box) -> list[Reading]:
        """How a mailbox may be read."""
        return [*readings(self.text_of(box)).values()]

    def run(self, words: Sequence[str], kill: Kill = NEVER, in_shell: str = "") -> tuple[Run, dict[str, Row]]:
        """Runs the companion, and looks at what it did."""
        boxes = self.boxes_of(words)
        for box in boxes:
            self.sees(box)
        ends = ends_in(self.maildir)
        ran = self.place.in_shell(in_shell) if in_shell else self.place.run_later(words, kill, self.meanwhile)
        rows = {str(row["path"]): row for row in ran.rows}
        # a mailbox may go on in another folder, which people have given another name
        for box in boxes:
            row = rows.get(box.path)
            if not row or not row["folder"]:
                continue
            if row["folder"] != self.target(box):
                self.oracle.see(box.number, row["folder"], self.ways(box))
            self.oracle.goes(box.number, row, self.ways(box))
        self.stage.told(ran, *words, kill=kill)
        if ran.is_killed:
            wait_for_lock(self.maildir)
        self.wrong += self.oracle.ran(ran.rows, ran.is_killed)
        if ran.is_killed and ends_in(self.maildir) > ends:
            self.oracle.lose_row()
        if not ran.is_killed:
            self.check(ran, rows)
            self.is_disturbed = False
        return ran, rows

    def sees(self, box: Box) -> None:
        """A run will see a mailbox."""
        self.oracle.see(box.number, self.target(box), self.ways(box))

    def boxes_of(self, words: Sequence[str]) -> list[Box]:
        """The mailboxes that a run with these words may read."""
        del words
        return self.boxes

    def check(self, ran: Run, rows: dict[str, Row]) -> None:
        """What is done is there, unless people took it away, which is said."""
        if ran.status not in (0, 1):
            self.wrong.append(f"status {ran.status}: {ran.output[-300:]}")
        for box in self.boxes:
            row = rows.get(box.path)
            if row and row["verdict"] in ENDED:
                one, lines = self.oracle.nearest(row, [*self.right(box).values()] or [self.best(box)])
                self.note(lines)
                self.oracle.brings(box.number, row["folder"] or self.target(box), one.contents)

    def note(self, lines: Iterable[str]) -> None:
        """Notes what is wrong with what is there after a run. What its owner took meanwhile, it does not say."""
        self.wrong += [line for line in lines if not (self.is_disturbed and line.endswith("unsaid"))]

    def commands(self) -> list[list[str]]:
        """The words that migrate everything."""
        return [["Maildir", *(box.path for box in self.boxes)]]

    def migrate(self, *options: str, kill: Kill = NEVER) -> dict[str, Row]:
        """Runs all. Returns the rows of what was left."""
        left: dict[str, Row] = {}
        for command in self.commands():
            rows = self.run(["migrate", "--json", "--now", *self.words, *options, *command], kill)[1]
            left.update((path, row) for path, row in rows.items() if row["verdict"] == "left")
        return left

    def moment(self) -> Kill:
        """A moment of a run, by how much there is to do."""
        count = len(self.letters)
        return kill_at(self.draw, 50 + 10 * count, 6 + 6 * count)

    @staticmethod
    def next_of(left: dict[str, Row]) -> Iterator[tuple[str, str]]:
        """The commands that rows print and that change something, each with the path of its mailbox."""
        for path, row in left.items():
            for command in row.commands:
                if COMPANION in command and " kind " not in command or command.startswith("rm "):
                    yield path, command

    def is_quiet(self) -> bool:
        """Whether nobody has just changed a name in the Maildir. What happens in that moment is not known from what a
        run did, by the times of the disk."""
        return True

    def save(self) -> Path:
        """Keeps the home as it is."""
        saved = self.home.parent / f"saved-{next(self.numbers)}"
        subprocess.run(["cp", "-a", self.home, saved], check=True)
        return saved

    def restore(self, saved: Path) -> None:
        """Brings the home back as it was kept."""
        shutil.rmtree(self.home)
        saved.rename(self.home)


# what is done in a history, and how often each
Deeds = Mapping[Callable[[History], None], int]
