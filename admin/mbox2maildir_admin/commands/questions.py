"""Questions on a terminal. Once all other mailboxes are done, a human is asked about each that nobody else can decide,
once for those that have the same question. An answer is a command that would be printed otherwise, and is run as if it
had been typed."""
import os
import termios
import time
from collections.abc import Sequence
from typing import Optional

from ..faults import Fault, complain_of
from ..mbox.lines import AROUND, cut, texts_of, with_around
from ..mbox.mailbox import Mailbox
from ..migration.block import LETTERS, Group, answers_of, groups_of
from ..migration.outcomes import Row
from ..migration.rows import Reporter, Run, Shows
from ..nexts import BELOW, Answer, Quote, Runs
from ..progress import say_of
from ..readings.texts import content_of, folder_for_copies
from ..terminal import INPUT, bytes_of, complain, flush, has_terminal, put, write
from .options import WrongOptions

# the letters of what is no answer
MORE, SINGLY, LEAVE = "m", "s", "l"
# how many times as many lines are shown around another one if more are wanted
TIMES = 4
# the most bytes that are read of standard input at once
MOST = 4096


class Asker(Reporter):
    """Prints rows, but keeps those of mailboxes about which it can ask."""

    def __init__(self, names: Sequence[bytes], shows: Shows) -> None:
        """Takes the names that a human has typed: a symbolic link is followed if it is one of them."""
        super().__init__(shows)
        self.names = names
        self.asked: list[Row] = []
        self.is_asking = False
        # the path of the mailbox whose answer is at work, by the path in its command
        self.answered: dict[bytes, bytes] = {}

    def row(self, row: Row) -> None:
        """Takes what became of a mailbox, unless it is to be asked about. All others have rows once an answer is at
        work for one."""
        if self.is_asking:
            if row.path in self.answered:
                self.rest(row.label)
                super().row(row._replace(path=self.answered[row.path]))
        elif not answers_of(row):
            super().row(row)
        else:
            self.rest(row.label)
            self.asked.append(row)

    def ask(self, run: Run) -> None:
        """Asks one question after the other, and runs the commands of the answers. A mailbox about which it asked has
        its row when this is known."""
        self.is_asking, groups, number = True, groups_of(self.asked), 1
        while groups and has_terminal():
            group, begun = groups.pop(0), time.monotonic()
            letter = letter_for(group, "question %d of %d" % (number, number + len(groups)), self.names)
            # how long somebody thinks is not the time of the work
            self.start += time.monotonic() - begun
            if letter == SINGLY:
                groups[:0] = [Group([row]) for row in group.rows]
                continue
            number += 1
            for row in group.rows:
                self.asked.remove(row)
                answer = dict(zip(LETTERS, answers_of(row))).get(letter)
                if answer:
                    self.run_answer(row, answer, run)
                else:
                    super().row(row)

    def run_answer(self, row: Row, answer: Answer, run: Run) -> None:
        """Runs the command of an answer. If it can't even begin, the mailbox has the row that it had."""
        self.begun, self.total, self.answered = self.begun - 1, self.total - 1, {operands_of(answer)[1]: row.path}
        try:
            run(answer.command.names_for(Runs.MIGRATE))
        except (Fault, OSError) as fault:
            complain_of(fault)
            super().row(row)
        except WrongOptions as wrong:
            # a folder has its name by now
            complain(str(wrong))
            super().row(row)

    def end(self, *more: str) -> int:
        """Takes the rows about which nobody was asked, or nobody answered, and prints what is left and the sums."""
        for row in self.asked:
            super().row(row)
        return super().end(*more)


def letter_for(group: Group, title: str, names: Sequence[bytes]) -> str:
    """Asks about mailboxes that have the same question, and returns the letter that was typed; that of what is left if
    the input ends."""
    rows, around = group.rows, AROUND
    has_lines, is_one = any(one.quotes for one in rows), len(rows) == 1
    others = {
        **({MORE: "show more lines"} if has_lines else {}),
        **({} if is_one else {SINGLY: "ask about each by itself"}),
        LEAVE: "leave it" if is_one else "leave all of them",
    }
    letters = [*LETTERS[: len(group.answers)], *others]
    while True:
        question, *lines = Group(rows).lines(None, True, is_one or around > AROUND)
        put("%s: %s" % (title, question))
        for line in lines:
            put(line)
        for one in others.items():
            put("%s%s: %s" % (BELOW, *one))
        letter = letter_typed(letters)
        if letter != MORE:
            return letter
        around *= TIMES
        rows = [one._replace(quotes=lines_of(one, around, names)) for one in group.rows]


def operands_of(answer: Answer) -> tuple[bytes, bytes]:
    """The Maildir and the path in the command of an answer. The path may be spelled otherwise than in the row: it names
    what a symbolic link leads to, and begins with no dash."""
    maildir, path = map(bytes_of, answer.command.names_for(Runs.MIGRATE)[-2:])
    return maildir, path


def lines_of(row: Row, around: int, names: Sequence[bytes]) -> tuple[Quote, ...]:
    """The lines that a question is about, with more lines around them. The mailbox may be another one by now, which its
    answer finds out; in a tree it may be a symbolic link, and none is followed there."""
    maildir, path = operands_of(answers_of(row)[0])
    asked = {quote.line: quote for quote in row.quotes if not quote.is_around}
    wanted = with_around(asked, around)
    try:
        with Mailbox.open(path, say_of(path), row.path in names) as mailbox:
            with content_of(mailbox, folder_for_copies(maildir)) as text:
                found = texts_of(text, wanted)
    except (Fault, OSError) as fault:
        complain_of(fault, path)
        return row.quotes
    return tuple(asked.get(line) or Quote(line, cut(found[line]), True) for line in wanted if line in found)


def letter_typed(letters: Sequence[str]) -> str:
    """Asks until one of these letters is typed. The last one stands for the end of the input too."""
    prompt = "type a letter and Enter (%s): " % ", ".join(letters)
    while True:
        line = line_typed(prompt)
        if line is None:
            put("")
            return letters[-1]
        if line in letters:
            return line


def line_typed(prompt: str) -> Optional[str]:
    """The line that is typed after a prompt; None if the input ends. What was typed before is no answer to it, such as
    a second command that was pasted."""
    line = b""
    try:
        termios.tcflush(INPUT, termios.TCIFLUSH)
        write(prompt.encode())
        flush()
        while not line.endswith(b"\n"):
            piece = os.read(INPUT, MOST)
            if not piece:
                return None
            line += piece
    except KeyboardInterrupt:
        put("")
        raise
    except (OSError, termios.error):
        # the terminal is gone
        return None
    return line.decode("utf-8", "replace").strip()
