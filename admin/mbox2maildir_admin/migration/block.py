"""The last block of what is printed: what is left, and what asks for a look, in groups, each command once."""
import glob
import itertools
import os
from collections.abc import Iterable, Iterator, Sequence
from typing import NamedTuple, Optional

from ..faults import REASONS, Reason
from ..mbox.lines import AROUND
from ..meanings import ITS_COMMAND, REMARKS, is_its_meaning, to_do
from ..nexts import (
    BELOW,
    Answer,
    Command,
    Does,
    Phrase,
    Quote,
    Runs,
    Step,
    Task,
    Todo,
    line_of,
    lines_below,
    lines_of,
    summed,
)
from ..terminal import operand, option
from ..units import counted
from .outcomes import Row, Verdict

# how many mailboxes one answer is for at most, so that a human looks at each of them
MOST_ALIKE = 20
# how many of the other mailboxes of a group are named, and how many lines of a single one are shown
SHOWN, SHOWN_LINES = 20, 2
# the letters by which answers are chosen on a terminal
LETTERS = "abcdefghijk"
# answers that are about lines, and those that are about folders and not about what a text is
ON_LINES = Does.BEGINS, Does.BELONGS, Does.BEGINS_DROP, Does.BELONGS_DROP
FOLDERS = Does.OWN_FOLDER, Does.JOINS_INBOX, Does.LABEL_NONE, Does.LABEL_FOLDER, Does.LABEL_READ, Does.ALL, Does.ONE
# how many bytes of options a command has at most: Linux takes 131,072 in a word
MOST_BYTES = 1 << 16
PASS_OVER_ALL = Phrase("", "if none of them holds mail, pass over all of them")
WITHIN = "  "


class Typed(NamedTuple):
    """The command that runs, without its answers to questions: its options, and its operands. Of many users it takes
    the names of some, if it has none."""

    options: Sequence[str]
    operands: Sequence[bytes]
    takes_users: bool

    def command(self, options: Iterable[str], users: Iterable[str] = ()) -> Command:
        """The same command with more options, for some users."""
        names = dict.fromkeys(users) if self.takes_users else ()
        return Command.of(Runs.MIGRATE, *options, *self.options, *map(operand, self.operands), *names)


def answers_of(row: Row) -> list[Answer]:
    """The answers to what is asked about a mailbox. There are none if nothing is asked about it."""
    steps = (one for one in row.next if isinstance(one, Answer) and one.command.names_for(Runs.MIGRATE))
    return [one for one in steps if row.reason is Reason.UNCLEAR or one.does in FOLDERS]


def question_of(row: Row) -> object:
    """What is the same in all rows of a group: why they are left, and what is to be done or answered."""
    steps = [(one.todo,) if isinstance(one, Task) else (one.does, *decided(one)[:2]) for one in row.next]
    words = tuple(dict.fromkeys(one.word for one in row.said))
    looks = row.verdict if row.verdict in (Verdict.LEFT, Verdict.NOT_WHOLE) else words
    return row.left_for, looks, bool(answers_of(row)) and row.kind, *steps


def decided(answer: Answer) -> tuple[str, bool, str]:
    """What an answer decides that serves other mailboxes too: the format, whether deleted mail is left out, and its
    tie. It is nothing if the answer names lines."""
    words = answer.command.names_for(Runs.MIGRATE)
    if {"--text", "--begin"} & set(words):
        return "", False, ""
    word, tie = (words[words.index(name) + 1] if name in words else "" for name in ("--as", "--of"))
    return word, "--drop-deleted" in words, tie


class Group:
    """Rows with the same question, by user and path; and the groups that stand below its title too."""

    def __init__(self, rows: Sequence[Row], others: Sequence["Group"] = ()) -> None:
        self.rows, self.others = rows, others
        # of the first one, why it is left, and the answers
        self.why, self.answers = rows[0].left_for, answers_of(rows[0])

    def lines(self, typed: Optional[Typed], is_asked: bool = False, has_quotes: bool = True) -> Iterator[str]:
        """The lines of the group, below its title: of a single mailbox with the lines of mail that it is about, of
        several only where a human asks for that. Where a human is asked, each answer has its letter."""
        yield self.title()
        for one in (self, *self.others):
            at_once = one.at_once(typed) if typed and len(one.rows) > 1 else []
            steps: list[Sequence[Step]] = at_once or [*zip(*(row.next for row in one.rows))]
            if not steps and one.why and not to_do(one.why).startswith(ITS_COMMAND):
                # a human does it about all rows, and no row says it
                steps = [[Task(Phrase("", to_do(one.why)))]]
            has_own = not at_once and any(isinstance(step, Answer) for several in steps for step in several)
            named_here = one.rows[: None if one.answers or has_own else SHOWN]
            width = min(40, max(len(row.name) for row in named_here))
            for row in named_here:
                yield ("%s%-*s  %s" % (WITHIN, width, row.name, says_of(row))).rstrip()
                yield from (BELOW + each.sentence() for each in row.details)
                if len(one.rows) == 1 or is_asked and has_quotes:
                    yield from lines_below(row.quotes if is_asked else first_asked(row.quotes), ())
            if len(named_here) < len(one.rows):
                yield "%sand %d more (--all names them)" % (WITHIN, len(one.rows) - len(named_here))
            letters = ["%s: " % letter for letter in LETTERS] if is_asked else []
            for letter, several in zip(itertools.chain(letters, itertools.repeat("")), steps):
                yield from lines_of(several, letter)

    def title(self) -> str:
        """Why the rows are there, and how many they are."""
        row, count = self.rows[0], sum(len(one.rows) for one in (self, *self.others))
        several = counted(count, "mailbox", "es")
        if row.verdict == Verdict.NOT_WHOLE:
            return "not whole: " + several
        if not self.why:
            # mail that went from one folder into two is said twice
            says = dict.fromkeys(REMARKS[one.word] for one in row.said)
            return ": ".join(filter(None, ["look at", several, " ".join(says)]))
        if any(one.does in ON_LINES for one in self.answers):
            return "%s: %s (%s): does a mail begin at the line that is shown?" % (row.word, several, row.kind)
        return "%s: %s: %s" % (row.word, several, self.why.says)

    def at_once(self, typed: Typed) -> list[Sequence[Step]]:
        """What is to be done about all rows by one command, or by one for each answer; nothing if there is none."""
        steps, answers = list[Sequence[Step]](), list(zip(*map(answers_of, self.rows)))
        if self.rows[0].reason is Reason.NOT_KNOWN and Task(Todo.PASS_OVER) in self.rows[0].next:
            # of many users they are patterns for paths below the home
            paths = dict.fromkeys(one.path if one.user is None else glob.escape(one.path) for one in self.rows)
            parts = parted([option("--no-mail", path) for path in paths])
            steps.append([Answer(typed.command(no_mail), PASS_OVER_ALL) for no_mail in parts])
        if all(decided(one)[2] for several in answers for one in several):
            users = [one.user for one in self.rows if one.user is not None]
            for several in answers:
                word, drop, _ = decided(several[0])
                ties = ",".join(dict.fromkeys(decided(one)[2] for one in several))
                words = ["--as", word] * bool(word) + ["--drop-deleted"] * drop + ["--of", ties]
                steps.append([summed(several)._replace(command=typed.command(words, users))])
        return steps


def parted(several: Iterable[Sequence[str]]) -> Iterator[list[str]]:
    """Options in parts, of which a command has each: neither a line of a command nor a word for a shell is too long."""
    part, size = list[str](), 0
    for words in several:
        its = len(os.fsencode(line_of(words))) + 1
        if part and size + its > MOST_BYTES:
            yield part
            part, size = [], 0
        part += words
        size += its
    if part:
        yield part


def says_of(row: Row) -> str:
    """What a row says below a title: how many messages its answers give, why it is left, and the line that this is
    about."""
    counts = dict.fromkeys(str(one.messages) for one in answers_of(row) if one.messages is not None)
    several = "%s messages" % " or ".join(counts) if len(counts) > 1 else ""
    # the title says all of a remark that is its own meaning
    says = row._replace(remarks=tuple(one for one in row.remarks if not is_its_meaning(one))).says
    asked = next((one for one in row.quotes if not one.is_around), None)
    line = "%s: %s" % (says or "line %d" % asked.line, asked.text) if asked else says
    return ": ".join(filter(None, [several, line]))


def first_asked(quotes: Sequence[Quote]) -> Sequence[Quote]:
    """The first lines that are asked about, with those around them."""
    asked = [place for place, one in enumerate(quotes) if not one.is_around]
    if len(asked) <= SHOWN_LINES:
        return quotes
    last = asked[SHOWN_LINES - 1]
    return quotes[: min(last + AROUND + 1, asked[SHOWN_LINES])]


def groups_of(rows: Iterable[Row]) -> list[Group]:
    """Rows by their reasons and questions; those that only ask for a look come last."""
    groups: dict[str, list[Row]] = {}
    for one in sorted(rows, key=lambda one: (one.user or "", one.path)):
        groups.setdefault(repr(question_of(one)), []).append(one)
    reasons, below = [*REASONS.values(), None], list[Group]()
    for several in sorted(groups.values(), key=lambda several: reasons.index(several[0].left_for)):
        most = MOST_ALIKE if answers_of(several[0]) else len(several)
        for at in range(0, len(several), most):
            group = Group(several[at : at + most])
            if below and group.why and group.why is below[-1].why and not (group.answers or below[-1].answers):
                # one title says why for both, since nothing is asked about them
                below[-1:] = [Group(below[-1].rows, (*below[-1].others, group))]
            else:
                below.append(group)
    return below
