"""Mailboxes in a tree, in a folder that several share, and beside a tree, over many runs: people and programs move mail
between mailboxes and between folders, give both other names, copy, compress and restore them, until everything is
done."""
import shlex
from collections.abc import Sequence

from tests.support.running import Row
from tests.worlds.deeds import OF_PLAIN, OF_TREES
from tests.worlds.history import INBOX, History
from tests.worlds.oracle import reading

# how often what is printed is followed
ROUNDS = 8


class Trees(History):
    """Such mailboxes."""

    def begin(self) -> None:
        """Makes a fresh home with the mailboxes in it."""
        super().begin()
        for number in range(self.draw.randint(2, 4)):
            self.make(f"mail/{'abcd'[number]}", 1, 6)
        self.folder = "Archive" if self.draw.random() < 0.4 else ""
        if not self.folder and self.draw.random() < 0.5:
            self.make(INBOX, 1, 6)
        self.words = ["--dovecot"] * (self.draw.random() < 0.25)
        self.words += [] if self.folder else ["--jobs", str(self.draw.randint(1, 3))]
        self.own_all()

    def commands(self) -> list[list[str]]:
        paths = [box.path for box in self.boxes]
        if self.folder:
            return [["--folder", self.folder, "Maildir", *paths]]
        return [["Maildir", "mail"], *([["Maildir", INBOX]] if INBOX in paths else [])]

    def live(self) -> None:
        for _ in range(self.draw.randint(1, 4)):
            for _ in range(self.draw.randint(0, 3)):
                is_any = bool(self.plain())
                self.happens({deed: often for deed, often in OF_TREES.items() if is_any or deed not in OF_PLAIN})
            if self.draw.random() < 0.8:
                self.migrate()
        self.end()

    def end(self) -> None:
        """Runs all, and what is printed, until everything is done. Then nothing changes any more."""
        left = self.migrate()
        self.ended = "by a copied command" if left else "at once"
        self.asked = ", ".join(sorted({row["reason"] for row in left.values()}))
        for _ in range(ROUNDS):
            if left and self.run_next(left):
                left = self.migrate()
        if left:
            self.ended = ""
            return
        before = {str(path) for _, path in self.oracle.files()}
        if self.migrate() or before != {str(path) for _, path in self.oracle.files()}:
            self.wrong.append("done, and a further run does more")

    def run_next(self, left: dict[str, Row]) -> bool:
        """Runs a command that one of the rows prints, and one that its own row prints then. Returns whether there is
        one."""
        is_any = False
        for _ in range(2):
            several = [(path, shlex.split(command)) for path, command in self.next_of(left)]
            several = [(path, words) for path, words in several if words[1] == "migrate" and "--undo" not in words]
            right = [words for path, words in several if self.is_right(path, words)]
            # nobody follows a second answer that is wrong
            if not (right if is_any else several):
                break
            words = self.chosen(right or [words for _, words in several])
            rows = self.run(["migrate", "--json", "--now", *words[2:]])[1]
            left, is_any = {path: row for path, row in rows.items() if row["verdict"] == "left"}, True
        return is_any

    def chosen(self, several: Sequence[list[str]]) -> list[str]:
        """The one of several commands that is run."""
        return self.draw.choice(several)

    def is_right(self, path: str, words: list[str]) -> bool:
        """Whether a command makes no mail that nobody sent, and no program put there: a human answers by the lines that
        are shown."""
        if "--as" not in words:
            return True
        word = words[words.index("--as") + 1]
        lines = map(int, words[words.index("--text") + 1].split(",")) if "--text" in words else ()
        text = next(self.text_of(box) for box in self.boxes if box.path == path)
        return self.sent().issuperset(reading(text, word, frozenset(lines)).contents)
