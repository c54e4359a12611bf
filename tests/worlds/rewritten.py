"""A mailbox that `migrate` has seen, that is rewritten, and that it sees again, or whose migration is killed again and
again. Its owner takes, reads and gets mail meanwhile. Each command that is printed is run."""
import re
import shlex
import time
from collections.abc import Sequence

from tests.support.ledgers import RECORD
from tests.support.running import COMPANION, Row, Run
from tests.worlds.history import INBOX, QUIET, Box, History
from tests.worlds.oracle import Reading, reading
from tests.support.place import ENDED
from tests.worlds.rewriters import by_dovecot, there
from tests.worlds.stage import Stage

# the states in which `migrate` has seen it
STATES = ["done", "done", "begun", "begun", "converted", "grown", "done, twice", "dry"]
# how often what is printed is followed, and how often it is killed, and run after that until it ends
DEEPEST, KILLS, RUNS = 4, 5, 8
DOVECOT = ["--dovecot"]
# how lines begin about files that hold what a program wrote over mail
BY_DAMAGE = re.compile(r"other bytes |read otherwise |done, and \d+ of |\d+ (?:went away|too often|gone|doubled|back) ")


class Rewritten(History):
    """Such a mailbox."""

    def __init__(self, stage: Stage, seed: int) -> None:
        super().__init__(stage, seed, is_one=True)
        # how the mailbox is read by an answer that names lines
        self.answered: list[Reading] = []
        # whether a program has written over mail
        self.is_damaged = False

    @property
    def box(self) -> Box:
        """The mailbox."""
        return self.boxes[0]

    def begin(self) -> None:
        super().begin()
        box = self.make(INBOX, 2, 7)
        if self.draw.random() < 0.2:
            pieces = self.mailbox(box).pieces()
            self.mailbox(box).write([*pieces, pieces[0]])
        self.own_all()
        if self.draw.random() < 0.35:
            self.rewrite(box, by_dovecot)

    def ways(self, box: Box) -> list[Reading]:
        return [*super().ways(box), *self.answered]

    def look_for_damage(self) -> None:
        """When Dovecot makes room in a header of a CR LF mailbox, it writes over mail, which is nowhere then."""
        self.is_damaged |= self.box.kind == "crlf" and not self.right(self.box)

    def check(self, ran: Run, rows: dict[str, Row]) -> None:
        """If it is done, it is all there, as it is read in one way."""
        if ran.status not in (0, 1):
            self.wrong.append(f"status {ran.status}: {ran.output[-300:]}")
        row, ways = rows.get(INBOX), self.ways(self.box)
        if row and row["verdict"] in ENDED:
            found = [[*self.oracle.missing(row, one), *self.oracle.read_otherwise(row, one, ways)] for one in ways]
            least: list[str] = min(found, key=len)
            self.note(least)

    def killed(self) -> None:
        """A run that is killed at a random moment."""
        self.migrate(kill=self.moment())

    def live(self) -> None:
        self.words = DOVECOT * (self.draw.random() < 0.4)
        after = self.words if self.draw.random() < 0.7 else [one for one in DOVECOT if not self.words]
        state = self.draw.choice(STATES)
        self.seen[f"state {state}"] += 1
        self.bring_to(state)
        if self.draw.random() < 0.35:
            self.meddle()
        for how in self.draw.sample(there(), 1 if self.draw.random() < 0.7 else 2):
            self.rewrite(self.box, how)
            self.look_for_damage()
        self.words = after
        if state == "begun" and self.draw.random() < 0.2:
            self.killed()
        self.follow(self.migrate(), 1)
        if self.is_damaged:
            self.leave_out_damage()

    def bring_to(self, state: str) -> None:
        """Brings the mailbox to the state in which `migrate` has seen it."""
        if state == "dry":
            self.migrate("--dry-run")
        elif state == "begun":
            for _ in range(self.draw.randint(1, 2)):
                self.killed()
        else:
            self.migrate()
        if state == "converted":
            self.cut_record()
        elif state == "done, twice":
            self.migrate()
        elif state == "grown":
            with open(self.home / INBOX, "ab") as file:
                file.write(self.mailbox(self.box).letter())
            self.own_all()
            self.migrate()

    def cut_record(self) -> None:
        """The run was interrupted before it wrote `done`."""
        record = self.maildir / RECORD
        if record.exists():
            lines = record.read_text().splitlines(True)
            place = next((at for at, line in enumerate(lines) if line.startswith("done\t")), len(lines))
            record.write_text("".join(lines[:place]))
            self.steps.append(f"(the record ends before its line {place + 1})")

    def meddle(self) -> None:
        """Its owner removes, reads and gets mail."""
        time.sleep(QUIET)
        for _ in range(self.draw.randint(0, 3)):
            files = [path for _, path in self.oracle.files()]
            path = self.draw.choice(files) if files else None
            deed = self.draw.choice(["take", "read", "read", "get", "same"])
            if path and deed == "get":
                self.bring(f"17000{self.draw.randint(0, 999)}.M1.host", b"Subject: new %d\n\nhello\n" % len(files))
            elif path and deed == "same" and self.draw.random() < 0.3:
                self.bring("1700.M2.host", path.read_bytes())
            elif path and deed == "take":
                self.stage.remove(path)
            elif path and deed == "read" and path.parent.name == "new":
                self.stage.rename(path, path.parent.parent / "cur" / (path.name.split(":")[0] + ":2,S"))
            time.sleep(QUIET)
        self.oracle.look()

    def bring(self, name: str, mail: bytes) -> None:
        """Mail comes from elsewhere, for its owner."""
        path = self.maildir / "new" / name
        if not path.exists():
            path.write_bytes(mail)
            self.place.own(path)
            self.oracle.bytes.add(mail)
            self.steps.append(f"(delivered: {self.stage.shown(path)})")

    def follow(self, left: dict[str, Row], depth: int) -> None:
        """Runs each command that is printed in place of another, and then `migrate` again."""
        if not left:
            self.note_end("at once" if depth == 1 else "by a copied command")
            self.again()
            return
        if depth == 1:
            self.asked = ", ".join(sorted({row["reason"] for row in left.values()}))
        commands = [command for _, command in self.next_of(left)]
        self.seen["left without a command"] += not commands
        if depth >= DEEPEST:
            self.seen["doesn't end"] += bool(commands)
            return
        for command in commands:
            saved, oracle, steps, answered = self.save(), self.oracle.kept(), len(self.steps), self.answered[:]
            wrong = len(self.wrong)
            self.follow(self.run_command(command), depth + 1)
            self.restore(saved)
            self.oracle, self.answered = oracle, answered
            if len(self.wrong) == wrong:
                del self.steps[steps:]

    def run_command(self, command: str) -> dict[str, Row]:
        """Runs a command as it was printed. After one of another program, and after an undo, `migrate` follows."""
        words = shlex.split(command)
        if "--undo" in words:
            # nothing is remembered of what was begun by another reading
            self.stage.told(self.place.run(words), *words[1:])
            self.oracle.undone()
            return self.migrate()
        if words[0] != COMPANION:
            self.stage.told(self.place.in_shell(command), *words)
            self.oracle.look()
            return self.migrate()
        self.answer(words)
        if words[1] != "migrate" or self.seed % 7 == 0:
            # what it prints is for people
            ran, _ = self.run(words[1:], in_shell=command)
            self.oracle.hear_noted(ran.out, self.ways(self.box))
            return self.migrate()
        rows = self.run(["migrate", "--json", *words[2:]])[1]
        return {path: row for path, row in rows.items() if row["verdict"] == "left"}

    def answer(self, words: Sequence[str]) -> None:
        """Notes how a command reads the mailbox, if it answers a question. An answer is wrong if it makes mail of the
        mailbox that nobody sent, and another one doesn't. Its row asks to look at the lines first, which show this."""
        if "--as" not in words:
            return
        word, right = words[words.index("--as") + 1], self.right(self.box)
        if "--text" in words:
            lines = frozenset(map(int, words[words.index("--text") + 1].split(",")))
            self.answered.append(reading(self.text_of(self.box), word, lines))
        elif right and word not in right:
            self.seen["wrong answers"] += 1
            self.oracle.misread()

    def again(self) -> None:
        """What is done is done before, and nothing changes."""
        before = self.oracle.counts()
        if self.migrate():
            self.wrong.append("done, and left then")
        if self.oracle.counts() != before:
            self.wrong.append("done, and a further run places more")

    def note_end(self, how: str) -> None:
        """Notes how it ended."""
        self.ended = self.ended or how

    def leave_out_damage(self) -> None:
        """Leaves out, and counts, what comes of mail that a program has written over: bytes that nobody sent."""
        others = [line for line in self.wrong if not BY_DAMAGE.match(line)]
        self.seen["left out: Dovecot wrote over mail"] += len(others) < len(self.wrong)
        self.wrong = others


class Killed(Rewritten):
    """Such a mailbox, whose migration is killed again and again, and that is rewritten between the kills."""

    def __init__(self, stage: Stage, seed: int, is_among_users: bool = False) -> None:
        super().__init__(stage, seed)
        # what a run has seen of what its owner does meanwhile is a matter of milliseconds
        self.likely = self.draw.choice([0.0, 0.01, 0.03]) if is_among_users else 0.0

    def is_quiet(self) -> bool:
        folders = [self.maildir / sub for sub in ("new", "cur")]
        return all(folder.is_dir() and folder.stat().st_mtime < time.time() - QUIET for folder in folders)

    def live(self) -> None:
        self.words = DOVECOT * (self.draw.random() < 0.4)
        for _ in range(KILLS):
            if self.draw.random() < 0.3:
                self.meddle()
            if self.draw.random() < 0.25:
                self.rewrite(self.box, self.draw.choice(there()))
                self.look_for_damage()
            # few change a command that they repeat: then `migrate` asks, since this option decides about bytes
            if self.draw.random() < 0.02:
                self.words = [] if self.words else DOVECOT
            self.killed()
        self.run_until_it_ends()
        if self.is_damaged:
            self.leave_out_damage()

    def run_until_it_ends(self) -> None:
        """Runs it, and what is printed, until everything is done."""
        left, is_copied = self.migrate(), False
        for depth in range(RUNS):
            if not left:
                self.note_end("by a copied command" if is_copied else "by the same command" if depth else "at once")
                self.likely = 0.0
                self.again()
                return
            self.asked = self.asked or ", ".join(sorted({row["reason"] for row in left.values()}))
            commands = [command for _, command in self.next_of(left)]
            left = self.run_command(self.draw.choice(commands)) if commands else self.migrate()
            is_copied = is_copied or bool(commands)
        self.seen["doesn't end"] += 1
