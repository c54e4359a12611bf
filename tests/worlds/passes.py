"""Mailboxes of a tree that people use while first passes prepare them, and that are migrated on the day, by passes that
are killed or given up. All is then as after one `migrate` of what the mailboxes have in the end: in files, and in what
is said of mailboxes, now and later."""
import hashlib
import os
import re
import time
from collections.abc import Callable, Iterable, Sequence
from pathlib import Path
from random import Random

from tests.support.archives import texts_of
from tests.support.ledgers import LEDGER, RECORD
from tests.support.running import NEVER, Kill, Row, Run
from tests.worlds.deeds import OF_MAILBOXES, OF_NAMES, OF_PLAIN, OF_USERS
from tests.worlds.history import INBOX, Box, Deeds
from tests.worlds.rewriters import Mailbox, appended
from tests.worlds.stage import Stage
from tests.worlds.trees import Trees

MAIL = "mail"
# what the name of a folder begins with while it is made
ASIDE = "mbox2maildir-aside"
PREPARE = ["--prepare", "--unread"]
ENDED = re.compile(rb"(?m)^=\t")
LIST = "mbox2maildir-prepared"
# a list of UIDs begins with the time at which it was made, if no program has numbered the mailbox
VALIDITY = re.compile(rb"\A(3 V)(\d+)")
# mail without a date has the time at which it was placed; both are a test's, and lie at most so many seconds back
LATELY = 3600
# how often an answer is followed
ANSWERS = 3


def files_in(maildir: Path) -> dict[str, object]:
    """The files of a Maildir but for what is noted of mailboxes: the bytes of each, and when its mail came. A folder
    has nothing."""
    found = {}  # type: dict[str, object]
    for path in sorted(maildir.rglob("*")):
        if not path.name.startswith("mbox2maildir-"):
            found[str(path.relative_to(maildir))] = signs_of(path) if path.is_file() else None
    return found


def signs_of(path: Path) -> tuple[str, float]:
    """What must be the same of a file."""
    text = path.read_bytes()
    if path.name == "dovecot-uidlist":
        return VALIDITY.sub(lambda found: found[1] + b"%d" % unless_lately(int(found[2])), text).decode(), 0
    is_mail = path.parent.name in ("new", "cur")
    return hashlib.sha256(text).hexdigest()[:12], unless_lately(path.stat().st_mtime) if is_mail else 0


def unless_lately(seconds: float) -> float:
    """A time, or 0 if it is not long ago."""
    return 0 if abs(time.time() - seconds) < LATELY else seconds


def answers_in(rows: Iterable[Row]) -> dict[str, object]:
    """What rows say of mailboxes."""
    return {row["path"]: (row["folder"], row["verdict"], row["reason"], texts_of(row)) for row in rows}


def undo_in(row: Row) -> list[str]:
    """The words that undo what stays only prepared in a folder to which no mailbox went, if a row is about one."""
    undo = (command["argv"][2:] for command in row["next"] if command.get("answer") == "undo-prepared")
    return list(next(undo, []))


def undo_of_gone(row: Row) -> list[str]:
    """The same if the mailbox is not there."""
    return undo_in(row) if any("task" in step for step in row["next"]) else []


class Passes(Trees):
    """Such mailboxes. They are migrated into another Maildir at once."""

    def __init__(self, stage: Stage, seed: int) -> None:
        super().__init__(stage, seed)
        # the Maildir of the commands; the mail that was delivered there, by its place; and the folders of the mailboxes
        # that are left, also by one `migrate`: what was prepared there stays so
        self.into = self.maildir.name
        self.mail: dict[str, bytes] = {}
        self.left: set[str] = set()
        # the folder of the mailboxes, and what is after the name of the Inbox
        self.tree, self.old = MAIL, ""
        # whether all are migrated by one command, and whether a last pass has begun
        self.is_one_command, self.is_day = self.draw.random() < 0.7, False
        # how likely something happens at a moment, while a pass is at work
        self.likely = 0.0

    def begin(self) -> None:
        super().begin()
        self.words = ["--dovecot"] * (self.draw.random() < 0.5) + ["--jobs", self.draw.choice("11113")]

    def mailbox(self, box: Box) -> Mailbox:
        return super().mailbox(box)._replace(folder=box.path.partition("/")[2] or "INBOX")

    def is_served(self, box: Box) -> bool:
        return True

    def own_all(self) -> None:
        """Gives the mailboxes to their owner. A pass may be at work in the Maildir."""
        self.own_some([*self.home.glob("inbox*"), *self.home.glob("mail*"), *self.home.glob("mail*/**/*")])

    def own_some(self, paths: Iterable[Path]) -> None:
        """Gives to the owner of the mail what is not the owner's. The times of all else stay: by these a pass knows
        files."""
        account = self.place.account
        self.place.own(*(path for path in paths if account and path.lstat().st_uid != account.pw_uid))

    def commands(self) -> list[list[str]]:
        paths = [box.path for box in self.boxes]
        inbox = [path for path in paths if path == INBOX + self.old]
        if self.folder:
            return [["--folder", self.folder, self.into, *paths]]
        if self.is_one_command:
            return [[self.into, *inbox, self.tree]]
        return [[self.into, one] for one in [self.tree, *inbox]]

    def run(self, words: Sequence[str], kill: Kill = NEVER, in_shell: str = "") -> tuple[Run, dict[str, Row]]:
        """Runs the companion. What it did is compared in the end."""
        ran = self.place.run_later(words, kill, self.meanwhile)
        self.stage.told(ran, *words, kill=kill)
        if not ran.is_killed and ran.status not in (0, 1):
            self.wrong.append(f"status {ran.status}: {ran.output[-300:]}")
        return ran, {str(row["path"]): row for row in ran.rows}

    def meanwhile(self) -> None:
        if self.likely and self.draw.random() < self.likely:
            self.likely = 0.0
            self.steps.append("(while it is at work:)")
            self.happens(OF_MAILBOXES)

    def happens(self, deeds: Deeds) -> None:
        is_any = bool(self.plain())
        possible = {deed: often for deed, often in deeds.items() if is_any or deed not in OF_PLAIN}
        if possible:
            super().happens(possible)

    def change(self) -> None:
        """Things happen to the mailboxes between passes."""
        may_be_named = not (self.folder and self.is_day)
        for _ in range(self.draw.randint(1, 4)):
            self.happens({**OF_MAILBOXES, **OF_USERS, **(OF_NAMES if may_be_named else {})})

    def live(self) -> None:
        for _ in range(self.draw.randint(1, 5)):
            self.likely = 0.02 if self.draw.random() < 0.3 else 0.0
            self.goes_through(*PREPARE, likely=0.4)
            if self.draw.random() < 0.8:
                self.change()
            if self.draw.random() < 0.15:
                self.deliver()
        self.last_passes()
        self.compare()

    def goes_through(self, *words: str, likely: float = 0.0) -> None:
        """A pass, which may be killed. What happens meanwhile changes nothing of what is drawn for later."""
        is_killed, later, commands = self.draw.random() < likely, self.draw.getrandbits(64), self.commands()
        at = self.draw.randrange(len(commands)) if is_killed else -1
        for number, command in enumerate(commands):
            kill = self.moment() if number == at else NEVER
            ran, rows = self.run(["migrate", "--json", "--now", *self.words, *words, *command], kill)
            is_first = PREPARE[0] in words
            self.wrong += [f"a first pass: {row}" for row in rows.values() if row["verdict"] == "done" and is_first]
            self.seen[f"{'first' if is_first else 'last'} passes"] += 1
            if ran.is_killed:
                break
        self.draw.seed(later)
        self.likely = 0.0

    def moment(self) -> Kill:
        if self.draw.random() < 0.7:
            return Kill(event=self.draw.randint(1, self.draw.choice([150, 400, 800])))
        return Kill(call=self.draw.randint(1, self.draw.choice([10, 60])))

    def deliver(self) -> None:
        """Mail that a mailbox has, or another one, is delivered into a folder of the Maildir."""
        folders = ["", *(path.name for path in sorted(self.maildir.glob(".*")) if (path / "new").is_dir())]
        name = f"{self.draw.choice(folders)}/new/1703{self.draw.randint(0, 9999)}.host"
        letter, is_new = self.draw.choice(self.letters), self.draw.random() < 0.5
        self.mail[name] = b"Subject: new\n\n%d\n" % len(self.mail) if is_new else letter.whole
        self.lay_down(self.maildir, name)
        self.steps.append(f"(delivered: {name})")

    def lay_down(self, maildir: Path, name: str) -> None:
        """Puts mail that is delivered into a Maildir."""
        path = maildir / name.lstrip("/")
        for folder in sorted({maildir, path.parents[1]}):
            for sub in ("tmp", "new", "cur"):
                (folder / sub).mkdir(parents=True, exist_ok=True)
        if path.parents[1] != maildir:
            (path.parents[1] / "maildirfolder").touch()
        path.write_bytes(self.mail[name])
        os.utime(path, (1.7e9,) * 2)
        self.own_some([maildir, *maildir.rglob("*")])

    def last_passes(self) -> None:
        """Passes of the day, which are killed, and after which the old server may be started again."""
        if self.draw.random() < 0.2:
            self.put_aside()
        while self.draw.random() < 0.6:
            self.is_day = True
            self.goes_through(likely=0.8)
            if self.draw.random() < 0.5:
                self.give_up()

    def give_up(self) -> None:
        """The old server is started again before anything is done, and mailboxes change."""
        if self.old:
            self.bring_back()
        if self.was_prepared() and not self.has_ended():
            self.change()
            self.seen["changed after a last pass"] += 1

    def has_ended(self) -> bool:
        """Whether something is done: by a ledger, or by the record if there is no mail."""
        ledgers = [path.read_bytes() for path in self.maildir.rglob(LEDGER)]
        return any(map(ENDED.search, ledgers)) or self.has_noted("empty")

    def was_prepared(self) -> bool:
        """Whether any first pass noted something, in a folder that has its name. Otherwise the day has nothing but runs
        of plain `migrate`: what one that was killed has placed stays, whatever becomes of its mailbox."""
        lists = [path for path in self.maildir.rglob(LIST) if not path.parent.name.startswith(ASIDE)]
        return self.has_noted("prepared") or bool(lists)

    def has_noted(self, word: str) -> bool:
        """Whether the record has a line with this word."""
        path = self.maildir / RECORD
        return path.exists() and re.search(rb"(?m)^%s\t" % word.encode(), path.read_bytes()) is not None

    def put_aside(self) -> None:
        """The mailboxes get other paths for the day."""
        self.old, self.tree = ".old", f"{MAIL}.old"
        self.stage.move(self.home / MAIL, self.home / self.tree)
        if (self.home / INBOX).exists():
            self.stage.move(self.home / INBOX, self.home / f"{INBOX}.old")
        self.boxes = [box._replace(path=re.sub(r"\A(mail|inbox)", r"\1.old", box.path)) for box in self.boxes]

    def bring_back(self) -> None:
        """They get their own again."""
        self.stage.move(self.home / self.tree, self.home / MAIL)
        if (self.home / f"{INBOX}.old").exists():
            self.stage.move(self.home / f"{INBOX}.old", self.home / INBOX)
        self.boxes = [box._replace(path=box.path.replace(".old", "", 1)) for box in self.boxes]
        self.old, self.tree = "", MAIL

    def compare(self) -> None:
        """All is as one `migrate` makes it in another Maildir, now and later."""
        for name in self.mail:
            self.lay_down(self.home / "Once", name)
        self.both("it", self.finish)
        self.ended = "as after one run"
        if self.seed % 3 == 0:
            self.both("a further run", lambda: answers_in(self.run_rows()))
        self.both("what an undo says", self.undo_rows)
        for box in self.plain():
            appended(self.mailbox(box))
        self.both("what grew", lambda: answers_in(self.run_rows()))

    def both(self, what: str, deed: Callable[[], dict[str, object]]) -> None:
        """Does something with both Maildirs, and compares what it gives, and the files."""
        later, seen = self.draw.getrandbits(64), []
        for self.into in ("Once", "Maildir"):
            self.draw.seed(later)
            seen.append({**deed(), **files_in(self.home / self.into)})
        for name in sorted({*seen[0], *seen[1]}):
            once, passes = (str(one.get(name)).replace("Once", "Maildir") for one in seen)
            stays = name not in seen[0] and name.partition("/")[0] in self.left
            if once != passes and not stays:
                self.wrong.append(f"{what}: {name}: once {once}; by passes {passes}")

    def run_rows(self) -> list[Row]:
        """Runs all, and returns the rows."""
        words = ["migrate", "--json", "--now", *self.words]
        return [row for command in self.commands() for row in self.run([*words, *command])[1].values()]

    def finish(self) -> dict[str, object]:
        """Runs all until no answer is missing, and undoes what is only prepared from mailboxes that are gone. Returns
        how each mailbox ended."""
        for _ in range(ANSWERS):
            rows = self.run_rows()
            for words in filter(None, map(undo_of_gone, rows)):
                self.run(["migrate", "--json", "--now", *words])
            rows = [row for row in rows if not undo_in(row)]
            left = {row["path"]: row for row in rows if row["verdict"] == "left"}
            if not left or not self.run_next(left):
                break
        self.left = {f".{row['folder']}".replace("/", ".") for row in left.values() if row["folder"]}
        return {
            row["path"]: (row["folder"], row["verdict"].split()[0], row["reason"])
            for row in rows
            if row["verdict"] != "undone"
        }

    def chosen(self, several: Sequence[list[str]]) -> list[str]:
        """The same command for both Maildirs, whatever else is left in one of them: nobody answers a question in two
        ways."""

        def order(words: list[str]) -> float:
            return Random(f"{self.seed} {[word for word in words if word != self.into]}").random()

        return min(several, key=order)

    def undo_rows(self) -> dict[str, object]:
        """What an undo of a mailbox would do."""
        folder = ["--folder", self.folder] if self.folder else []
        undo = [*folder, "--undo", "--dry-run", self.into, self.draw.choice(self.boxes).path]
        return answers_in(self.run(["migrate", "--json", "--now", *undo])[1].values())
