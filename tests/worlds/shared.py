"""Mailboxes with any of a few messages, some of them several times, with any fields, in any order: they are migrated in
any order, rewritten, grow, are killed and undone, while readers are at work. Some have messages in several forms, which
differ in the `>` before a line `From `, also by the word that each is read by."""
from collections import Counter
from collections.abc import Sequence
from typing import NamedTuple

from tests.support.archives import RO, letter
from tests.support.place import ENDED
from tests.support.running import NEVER, Kill, Row, Run
from tests.worlds.history import Box, History, kill_at
from tests.worlds.letters import form
from tests.worlds.oracle import Oracle, Reading, Shelf, reading
from tests.worlds.stage import Stage

NAMES = ["A", "B", "C", "D", "E"]
FIELDS = [b"", RO, b"X-UID: 3\n", b"X-Evolution: 00000001-0010\n", b"X-Mozilla-Keys: old\n"]


WORDS = ["mboxrd", "mboxo"]


class Way(NamedTuple):
    """How mailboxes live: how many there are, how many messages they choose among, how often all comes again, and how
    likely a run is killed, mail grows, a mailbox is undone, all is migrated again then, a file is renamed by another
    program, and one deleted; the words that mailboxes are read by, and how many `>` they have before a line `From `."""

    boxes: int = 4
    kinds: int = 8
    rounds: int = 4
    killed: float = 0
    grows: float = 0.4
    undone: float = 0
    again: float = 0
    renamed: float = 0
    deleted: float = 0
    words: Sequence[str] = ("",)
    quotes: Sequence[int] = (0,)


WAYS = {
    "undone": Way(undone=0.5),
    "killed": Way(killed=0.6),
    "killed, then undone": Way(killed=0.8, grows=0.3),
    "among readers": Way(rounds=5, renamed=0.15, deleted=0.07),
    "among renames": Way(rounds=5, kinds=2, renamed=0.3, undone=0.6),
    "in several forms": Way(kinds=4, rounds=5, undone=0.7, again=0.7, words=WORDS, quotes=(1, 1, 2)),
    "one, killed": Way(boxes=1, kinds=2, killed=0.5, renamed=0.2),
}


class Shared(History):
    """Such mailboxes, in a way that a seed draws."""

    IS_SERVED = False

    def __init__(self, stage: Stage, seed: int) -> None:
        super().__init__(stage, seed)
        self.name = self.draw.choice(list(WAYS))
        self.way = WAYS[self.name]
        self.oracle = Oracle(self.maildir, is_one=True, may_come_back=self.way.killed > 0, what=form)
        self.folder, self.words = "Archive", ["--folder", "Archive"]
        # the messages of each, by their numbers and their `>`; and those of which a killed run has begun something, or
        # a run has brought all
        self.holds: dict[Box, list[tuple[int, int]]] = {}
        self.begun: set[Box] = set()
        self.brought: set[Box] = set()
        # whether names were changed after a killed run that left no file in `tmp`, or a file of it got another name:
        # then no later one knows what it placed
        self.is_blurred = False

    def begin(self) -> None:
        super().begin()
        for number, name in enumerate(self.draw.sample(NAMES, self.way.boxes)):
            self.boxes.append(Box(number, name, self.draw.choice(self.way.words)))
            self.holds[self.boxes[-1]] = self.some(0, 9)

    def some(self, least: int, most: int) -> list[tuple[int, int]]:
        """Some messages."""
        draw, way = self.draw, self.way
        return [(draw.randrange(way.kinds), draw.choice(way.quotes)) for _ in range(draw.randint(least, most))]

    def ways(self, box: Box) -> list[Reading]:
        return [*self.right(box).values()]

    def right(self, box: Box) -> dict[str, Reading]:
        return {box.kind: reading(self.text_of(box), box.kind or "mboxrd", what=form)}

    def write(self) -> None:
        """Writes each mailbox, in another order, with other fields."""
        for box, several in self.holds.items():
            self.draw.shuffle(several)
            bodies = [b"hello %d\n%sFrom me\n" % (number, b">" * count) if count else b"" for number, count in several]
            pairs = [(number, body) for (number, _), body in zip(several, bodies)]
            text = b"".join(letter(number, self.draw.choice(FIELDS), body) for number, body in pairs)
            self.place.write(box.path, text)
            self.steps.append(f"{box.path} has {[f'{number}{count * chr(62)}' for number, count in sorted(several)]}")

    def boxes_of(self, words: Sequence[str]) -> list[Box]:
        return [box for box in self.boxes if box.path in words]

    def check(self, ran: Run, rows: dict[str, Row]) -> None:
        super().check(ran, rows)
        if ran.status or any(row["verdict"] not in ENDED for row in rows.values()):
            self.wrong.append(f"it is not done: {ran.output[-600:]}")
        # among several mailboxes a run may not know which of them brought a file that a killed one placed; and what
        # another program renamed was moved
        is_moved = any(path.name.startswith("17") for _, path in self.oracle.files())
        is_sure = len(self.boxes) == 1 and not (self.way.deleted or self.is_blurred or is_moved)
        if is_sure and "came back" in ran.output:
            self.wrong.append("nobody has deleted what came back")

    def bring(self, boxes: Sequence[Box], kill: Kill = NEVER) -> None:
        """Migrates some of them in one command for each word, which may be killed."""
        for word in dict.fromkeys(box.kind for box in boxes):
            some = [box for box in boxes if box.kind == word]
            options = [*self.words, *(["--as", word] if word else [])]
            ran = self.run(["migrate", "--json", "--now", *options, "Maildir", *(box.path for box in some)], kill)[0]
            self.begun = self.begun | {*some} if ran.is_killed else self.begun - {*some}
            self.brought |= set() if ran.is_killed else {box for box in some if self.holds[box]}

    def migrate_some(self) -> None:
        """Migrates some of them, in one command or in several, or is killed."""
        boxes = self.draw.sample(self.boxes, self.draw.randint(1, len(self.boxes)))
        if self.draw.random() < self.way.killed:
            self.bring(boxes, kill_at(self.draw, 300, 80))
        elif self.draw.random() < 0.5:
            self.bring(boxes)
        else:
            for box in boxes:
                self.bring([box])

    def undo(self) -> None:
        """One of them is undone. Files that another program has renamed may stay, and people remove them then."""
        boxes = [box for box in self.boxes if box in self.brought]
        if not boxes or self.begun:
            return
        box = self.draw.choice(boxes)
        self.brought.remove(box)
        words = ["migrate", "--json", "--now", *self.words, "--undo", "Maildir", box.path]
        ran = self.place.run(words)
        self.stage.told(ran, *words)
        if ran.status:
            self.wrong.append(f"it is not undone: {ran.output[-600:]}")
            return
        # another program may have renamed what killed runs had placed
        self.wrong += self.oracle.undoes([box.number], ran.row, ["kept-foreign"] * self.is_blurred)
        self.clear_up(self.oracle.shelves[self.folder])

    def clear_up(self, shelf: Shelf) -> None:
        """People remove what an undo has kept. Nobody misses that."""
        more, taken = Counter(shelf.foreign), Counter(shelf.taken)
        for _, path in [*self.oracle.files()]:
            mail = form(path.read_bytes())
            if more[mail] and path.name.startswith("17"):
                self.stage.remove(path)
                more[mail] -= 1
        self.oracle.look()
        shelf.taken = taken

    def read(self) -> None:
        """Readers read mail, and perhaps delete some, while other programs may give files names of their own."""
        count, before = len(self.steps), {path.name.split(":")[0] for _, path in self.oracle.files()}
        for _, path in [*self.oracle.files()]:
            deed, cur = self.draw.random(), path.parent.parent / "cur"
            if deed < self.way.renamed:
                self.stage.rename(path, cur / f"17{self.draw.randint(0, 99999)}.host:2,S")
            elif deed < 0.4 and path.parent.name == "new":
                self.stage.rename(path, cur / (path.name + ":2,S"))
            elif deed > 1 - self.way.deleted:
                self.stage.remove(path)
        is_changed, tmp = len(self.steps) > count, self.maildir / f".{self.folder}/tmp"
        is_renamed = bool({path.name.split(":")[0] for _, path in self.oracle.files()} - before)
        self.is_blurred |= bool(self.begun) and (is_renamed or is_changed and not any(tmp.glob("*")))
        self.oracle.look()

    def live(self) -> None:
        """Their life. In the end all are migrated, and undone one after the other, unless people have deleted mail."""
        for _ in range(self.way.rounds):
            self.write()
            self.migrate_some()
            self.read()
            if self.draw.random() < self.way.undone:
                self.undo()
                if self.draw.random() < self.way.again:
                    self.bring(self.boxes)
            for numbers in self.holds.values():
                if self.draw.random() < self.way.grows:
                    numbers += self.some(1, 3)
        if not self.way.deleted:
            self.write()
            self.bring(self.boxes)
            for _ in self.boxes:
                self.undo()
        self.ended = self.name
