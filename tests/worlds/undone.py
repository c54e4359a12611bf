"""A mailbox whose migration is undone, and whose undoing is killed. It may have grown. Beside it are others that have
some of its messages, are missing or were changed, in a folder that had mail before."""
from collections.abc import Sequence
from typing import Optional

from tests.support.ledgers import LEDGER, RECORD
from tests.support.place import ENDED
from tests.support.running import NEVER, Kill, Row, Run
from tests.support.splitter import split
from tests.worlds.deeds import read_flags
from tests.worlds.history import INBOX, Box, History
from tests.worlds.letters import content
from tests.worlds.oracle import Oracle
from tests.worlds.rewriters import by_dovecot
from tests.worlds.rewritten import DOVECOT, Rewritten
from tests.worlds.stage import Stage

# how often it is run until it ends
RUNS = 6


class Undone(Rewritten):
    """Such a mailbox."""

    def __init__(self, stage: Stage, seed: int) -> None:
        super().__init__(stage, seed)
        self.oracle = Oracle(self.maildir)
        self.dovecot = DOVECOT * (self.draw.random() < 0.25)
        # what happened to it, or to another mailbox, before it is undone; and which is missing
        self.hindrance, self.goes_on = "nothing", False
        self.missing: list[Box] = []
        # the numbers of those whose last run was killed
        self.begun: set[int] = set()

    check = History.check

    def boxes_of(self, words: Sequence[str]) -> list[Box]:
        return [box for box in self.boxes if box.path in words]

    def one(self, box: Box, kill: Kill = NEVER, options: Sequence[str] = ()) -> Run:
        """Migrates a mailbox. What a killed run has brought counts if it is noted."""
        words = self.dovecot if box.path == INBOX else []
        ran, rows = self.run(["migrate", "--json", "--now", *words, *options, "Maildir", box.path], kill)
        self.begun = self.begun | {box.number} if ran.is_killed else self.begun - {box.number}
        if ran.is_killed and self.is_recorded(box):
            self.oracle.brings(box.number, "INBOX", self.best(box).contents & self.oracle.shelves["INBOX"].seen)
        is_partly_there = ran.status == 1 and "--again" in ran.output and not options
        if not ran.is_killed and rows[box.path]["verdict"] not in ENDED and not is_partly_there:
            self.seen[f"left: {rows[box.path]['reason']}"] += 1
        return self.one(box, options=["--again"]) if is_partly_there else ran

    def make_others(self) -> None:
        """Other mailboxes, which have some of its messages."""
        mailbox = self.mailbox(self.box)
        pieces = mailbox.pieces()
        for number in range(self.draw.randint(0, 2)):
            text = [mailbox.letter() for _ in range(self.draw.randint(0, 2))]
            text += self.draw.sample(pieces, self.draw.randint(0, len(pieces) // 2))
            box = self.box._replace(number=len(self.boxes), path=f"other{number}")
            self.mailbox(box).write(text or [mailbox.letter()])
            self.boxes.append(box)

    def place_foreign(self) -> None:
        """Places mail that is there before. Some of it is the same."""
        for sub in ("new", "cur", "tmp"):
            (self.maildir / sub).mkdir(parents=True)
        for number in range(self.draw.randint(0, 3)):
            mail = b"Subject: before %d\n\nhello\n" % number
            if self.draw.random() < 0.5:
                mail = self.draw.choice(split(self.text_of(self.box), "mboxrd"))
            (self.maildir / "cur" / f"17000{number}.M1.host:2,S").write_bytes(mail)
            self.oracle.bytes.add(mail)
        self.own_all()
        self.oracle.look()

    def hinder(self) -> None:
        """Changes it or another mailbox, which must not matter."""
        box = self.draw.choice([self.box, *(box for box in self.boxes[1:] if self.is_recorded(box))])
        had, taken = self.best(box).contents, self.oracle.shelves["INBOX"].taken
        # nothing tells a missing mailbox from one that has all of it, which was given its name and grew: so nothing
        # shows then which of the two brought what is gone
        is_part = not had - self.best(self.box).contents
        ways = ["nothing", "grew", "was looked at"] if box == self.box else ["nothing", "is missing", "was replaced"]
        self.hindrance = self.draw.choice(ways)
        if self.hindrance == "is missing" and is_part and had & taken:
            self.hindrance = "nothing"
        if self.hindrance == "is missing":
            self.stage.remove(self.home / box.path)
            self.boxes.remove(box)
            self.missing = [box] if is_part else []
        elif self.hindrance == "was looked at":
            self.rewrite(box, by_dovecot)
        elif self.hindrance != "nothing":
            self.goes_on = self.hindrance == "grew" and not (self.home / box.path).read_bytes().endswith(b"\n")
            with open(self.home / box.path, "ab" if self.hindrance == "grew" else "wb") as file:
                file.write(self.mailbox(box).letter())
            self.steps.append(f"({box.path} {self.hindrance})")
        self.own_all()

    def is_recorded(self, box: Box) -> bool:
        """Whether the record or the ledger names a mailbox."""
        several = [path for one in (RECORD, LEDGER) for path in self.maildir.glob(one)]
        return any(f"/{box.path}\t" in path.read_text().replace("\n", "\t") for path in several)

    def live(self) -> None:
        self.make_others()
        self.place_foreign()
        for box in self.draw.sample(self.boxes, len(self.boxes)):
            if self.draw.random() < 0.3:
                self.one(box, self.moment())
            if self.draw.random() < 0.8:
                self.one(box)
        self.change_files()
        self.hinder()
        self.undo()

    def change_files(self) -> None:
        """Its owner reads, deletes and changes mail. An undo keeps no other file for what a killed run was to bring:
        its next run looks for that."""
        for _, path in [*self.oracle.files()]:
            deed = self.draw.random()
            if deed < 0.1:
                self.oracle.shelves["INBOX"].unkept[content(path.read_bytes())] += len(self.begun)
                self.stage.remove(path)
            elif deed < 0.3 and path.parent.name == "new":
                read_flags(self, path, "FS")
            elif deed < 0.35:
                self.oracle.shelves["INBOX"].edited[content(path.read_bytes())] += 1
                with open(path, "ab") as file:
                    file.write(b"more\n")
                self.oracle.bytes.add(path.read_bytes())
                self.steps.append(f"$ echo more >>{self.stage.shown(path)}")
        self.oracle.look()

    def undo(self) -> None:
        """Undoes it, with kills at random moments, until it ends. Then it can be done again."""
        words, kills = ["migrate", "--json", "--now", "--undo", "Maildir", INBOX], self.draw.randint(0, 4)
        for number in range(kills + RUNS):
            kill = self.moment() if number < kills else NEVER
            ran = self.place.run(words, kill)
            self.stage.told(ran, *words, kill=kill)
            wrong = self.wrong_with(ran.row if ran.status == 0 else None)
            # of a mailbox that was looked at, a run may not know what it brought
            self.wrong += [line for line in wrong if self.hindrance != "was looked at" or "still there" not in line]
            if ran.status == 0 or kill == NEVER:
                break
        self.ended = "at once" if ran.status == 0 else ""
        self.asked = ", ".join(sorted({str(row["reason"]) for row in ran.rows if row["reason"]}))
        self.seen[f"hindered by {self.hindrance}: status {ran.status}"] += 1
        if ran.status == 0:
            self.seen[f"undone, and done again: status {self.one(self.box).status}"] += 1

    def wrong_with(self, row: Optional[Row]) -> list[str]:
        """What is wrong with an undo, whose row this is when it is over. A missing mailbox may be the one that is
        undone, or another one, for which mail stays, as the row says then."""
        ways = [[box.number for box in boxes] for boxes in ([self.box, *self.missing], [self.box])]
        if row and "kept-shared" in row.remarks:
            ways.reverse()
        # what is appended to a last line without an end makes another message of the last one, which is kept then
        more = ["kept-lost"] * self.goes_on
        numbers = min(ways, key=lambda one: len([*self.oracle.kept().undoes(one, row, more)]))
        return [*self.oracle.undoes(numbers, row, more)]
