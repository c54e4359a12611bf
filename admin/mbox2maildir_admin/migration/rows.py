"""What a migration prints: a line when a mailbox ends, how far it is, and a sum."""
import collections
import itertools
import math
import time
from collections.abc import Callable, Mapping, Sequence
from types import MappingProxyType
from typing import TYPE_CHECKING, NamedTuple, Optional

from .. import ADMIN
from ..faults import Status
from ..meanings import COUNTED, LOOK
from ..nexts import COMMAND, Phrase, lines_of
from ..remarks import Says
from ..progress import Actor, Doing, Estimate, Progress, duration, length, together
from ..terminal import LINE, complain, flush, named, put
from ..units import WAITING, counted
from .block import Typed, groups_of
from .outcomes import VERDICTS, Observer, Row, Verdict

if TYPE_CHECKING:
    from .objects import Objects

# the mailboxes whose messages and bytes are summed up
SUMMED = (
    *(Verdict.DONE, Verdict.WOULD, Verdict.PREPARED, Verdict.WOULD_PREPARE),
    *(Verdict.BACK, Verdict.WOULD_BACK, Verdict.WHOLE, Verdict.NOT_WHOLE),
)
# the verdicts on mailboxes of which something is to be done
WRONG = Verdict.LEFT, Verdict.NOT_WHOLE
# those of an undo, which is of one mailbox: of each of its folders
UNDONE = Verdict.UNDONE, Verdict.WOULD_UNDO
# what the last line says if not all mailboxes were looked at
INTERRUPTED = "interrupted: run the same command again"
REHEARSAL = "a rehearsal: nothing was written; the commands above write once --dry-run is left out"
# the stages of a mailbox, by the first word of what is said of its progress
STAGES = MappingProxyType({"reading": 1, "copying": 1, "looking": 2, "converting": 3, "dating": 4, "verifying": 5})

# does what the words of a command say, which follow its name
Run = Callable[[Sequence[str]], None]


class Shows(NamedTuple):
    """What is printed of rows: which ones whole, or as little of each as a reader needs; whether they are of many
    users, and whether each of these has a line once nothing follows; the command that runs, if it may be printed again
    with answers; and whether only programs read them."""

    whole: Optional[Callable[[Row], bool]] = None
    is_of_users: bool = False
    has_users: bool = False
    typed: Optional[Typed] = None
    is_silent: bool = False


class Kept:
    """What is kept of rows: those that have their place in the last block; how many mailboxes have each remark that is
    counted; of each user who is at work, how many mailboxes have each verdict; and the ties of answers for several
    mailboxes that decided about one."""

    def __init__(self) -> None:
        self.rows: list[Row] = []
        self.noted: collections.Counter[str] = collections.Counter()
        self.users: dict[str, collections.Counter[str]] = {}
        self.ties: set[str] = set()


class Reporter(Observer):
    """Prints rows, how far the mailboxes are, and last what is left. A migration has stages."""

    def __init__(self, shows: Shows, stages: Mapping[str, int] = STAGES, task: str = "migrating") -> None:
        self.shows = shows
        self.kept = Kept()
        self.start = time.monotonic()
        self.counts: collections.Counter[str] = collections.Counter()
        # of the mailboxes that are left
        self.reasons: collections.Counter[Phrase] = collections.Counter()
        # how many mailboxes are not whole, by the words for why
        self.faults: collections.Counter[str] = collections.Counter()
        # how many paths have no mail of their own, by the words for why, if one is said
        self.passed: collections.Counter[str] = collections.Counter()
        # how many messages and bytes the mailboxes have, by what became of these; and how many messages were there
        # already
        self.messages: collections.Counter[str] = collections.Counter()
        self.sizes: collections.Counter[str] = collections.Counter()
        self.there = 0
        # how many messages stand in mailboxes although they were deleted or changed in the Maildir, by these words
        self.stand: collections.Counter[str] = collections.Counter()
        # how long a last pass would take, if this is a first one
        self.estimate = Estimate()
        self.stages, self.line = stages, Progress()
        # what all do together, and what each one does that is at work
        self.task, self.at_work = task, dict[str, Doing]()
        # how many mailboxes or users there are, and how many have begun; and which are at work
        self.total = self.begun = 0
        # those of which it was said that they wait
        self.waiting: set[str] = set()
        # what programs read besides, or instead
        self.objects: "list[Objects]" = []

    def begin(self) -> None:
        """Notes that one more has begun."""
        self.begun += 1

    def progress(self, who: str, doing: str, place: Optional[int] = None, size: Optional[int] = None) -> None:
        """Says how far one is."""
        if not self.line.is_terminal and doing.startswith(WAITING) and who not in self.waiting:
            # without a terminal it is said once that one waits, and for how long
            self.waiting.add(who)
            complain("%s: %s" % (who, doing))
        number = self.stages.get(doing.split(" ", 1)[0])
        step = "step %d of %d" % (number, max(self.stages.values())) if number else ""
        self.at_work[who] = doing, place, size
        if len(self.at_work) > 1:
            who, doing, place, size, step = *together(self.at_work, self.task), ""
        self.line.say(Actor(who, "%d/%d " % (self.begun, self.total), step), doing, place, size)

    def rest(self, who: str) -> None:
        """Notes that one is no longer at work."""
        self.at_work.pop(who, None)
        self.line.end(who)

    def row(self, row: Row) -> None:
        """Counts what became of a mailbox, and prints it."""
        for one in self.objects:
            one.row(row)
        self.counts[row.verdict] += 1
        self.kept.ties.add(row.tie)
        if row.left_for:
            self.reasons[row.left_for] += 1
        if row.verdict == Verdict.NOT_WHOLE:
            self.faults.update(one.word for one in row.remarks if one.word in LOOK)
        if row.verdict == Verdict.NO_MAIL:
            self.passed.update(one.word for one in row.remarks)
        for remark in row.remarks:
            self.stand[remark.word] += remark.stands
        self.messages[row.verdict] += row.messages or 0
        self.sizes[row.verdict] += row.size or 0
        if row.verdict in SUMMED:
            self.there += sum(remark.there for remark in row.remarks)
            self.estimate.add(row.spent)
        # the next mailbox of a user may have to wait too
        self.waiting.discard(named(row.path if row.user is None else row.user))
        self.rest(row.label)
        LINE.clear()
        self.print_row(row)

    def ask(self, run: Run) -> None:
        """Asks nobody: what is left has its row."""

    def print_row(self, row: Row) -> None:
        """Prints what became of a mailbox, unless it is only counted. What is left, and what asks for a look, is kept
        for the last block, but for that of a single mailbox, and for what an undo of its folders removed."""
        if self.shows.is_silent:
            return
        if self.shows.whole:
            if self.shows.whole(row):
                self.put_row(row)
            return
        if row.verdict != Verdict.LEFT:
            self.kept.noted.update({one.word for one in row.remarks if one.word in COUNTED})
        # what asks for a look
        dropped = {one.word for one in row.remarks if one.word not in LOOK}
        remarks = tuple(one for one in row.remarks if one.word in LOOK)
        row = row._replace(remarks=remarks, details=tuple(one for one in row.details if one.word not in dropped))
        if self.shows.is_of_users:
            self.kept.users.setdefault(row.user or "", collections.Counter())[row.verdict] += 1
        elif (self.total == 1 or row.verdict in UNDONE) and row.is_said():
            self.put_row(row)
            return
        elif row.verdict not in WRONG and row.is_changed():
            self.put_row(row._replace(kind="", remarks=(), quotes=(), next=()))
        if (row.verdict in WRONG or row.remarks or row.next) and row.verdict != Verdict.NO_MAIL:
            self.kept.rows.append(row)

    def ended(self, user: str) -> None:
        """Prints what became of a user's mailboxes, if no terminal shows who is done."""
        counts = self.kept.users.pop(user, collections.Counter())
        if self.shows.has_users and not (self.shows.is_silent or self.shows.whole or self.line.is_terminal):
            put("%s: %s" % (named(user), "; ".join(sums_of(counts))))
            flush()

    @staticmethod
    def put_row(row: Row) -> None:
        """Prints the line of a row, and what stands below it."""
        for line in (row.line(), *row.below()):
            put(line)
        flush()

    def end(self, *more: str) -> int:
        """Prints the sums, and what else is to be said with them. Returns the status: all is well if there was a
        mailbox, or a file that a human passes over, and nothing is left."""
        LINE.clear()
        sums = sums_of(self.counts, self.faults, self.passed[Says.SAME_FILE.word])
        users = {one.user for one in self.kept.rows if one.user is not None and one.verdict in WRONG}
        sums[0] += ", of %s" % counted(len(users), "user") if users else ""
        if INTERRUPTED in more and self.total and not sum(self.counts.values()):
            sums = ["0 of %d done" % self.total]
        line = "; ".join([*sums, *self.work(), *more])
        if not self.shows.is_silent:
            self.print_sums(line)
        # a report is last: it has its sums once, even if the output takes no more
        written = [one.end(self, line) for one in reversed(self.objects)]
        others = self.counts[Verdict.NO_MAIL] - self.passed[Says.BY_NO_MAIL.word] - self.passed[Says.NO_MAIL_NOTED.word]
        if not (sum(self.counts.values()) > others and all(written)) or self.counts[Verdict.NOT_WHOLE]:
            return Status.LEFT
        return Status.after(self.reasons)

    def work(self) -> list[str]:
        """How much was done, would be done, or was checked, and in which time; and how many messages mailboxes still
        have that were deleted or changed in the Maildir."""
        work, last = list[str](), self.last_pass()
        if any(self.counts[verdict] for verdict in SUMMED):
            there = ", %d of them there already" % self.there if self.there else ""
            messages, size = self.amounts(*SUMMED)
            its = counted(messages, "message"), there, length(size), duration(self.seconds())
            work.append("%s%s, %s in %s" % its)
            work += [] if last is None else ["a last pass would now take some %s" % duration(math.ceil(last))]
        stands = ["%s %s" % (counted(count, "message"), word) for word, count in self.stand.items() if count]
        work += ["the mailboxes still have %s in the Maildir" % " and ".join(sorted(stands))] * bool(stands)
        return work

    def amounts(self, *verdicts: str) -> tuple[int, int]:
        """How many messages and bytes the mailboxes have of which this became."""
        return sum(self.messages[verdict] for verdict in verdicts), sum(self.sizes[verdict] for verdict in verdicts)

    def last_pass(self) -> Optional[float]:
        """How many seconds a last pass would take now, if this is a first one."""
        return self.estimate.seconds(self.seconds(), self.at_once) if self.estimate.is_known else None

    def seconds(self) -> float:
        """How long it took so far."""
        return time.monotonic() - self.start

    def print_sums(self, line: str) -> None:
        """Prints what is left, and below it the line with the sums."""
        lines = [one for group in groups_of(self.kept.rows) for one in ("", *group.lines(self.shows.typed))]
        for below in [*lines, *[""] * bool(lines)]:
            put(below)
        if any(one.startswith(COMMAND) and " --dry-run " in one for one in lines):
            put(REHEARSAL)
        if self.kept.noted:
            words = ", ".join("%s %d" % pair for pair in sorted(self.kept.noted.items()))
            put("noted: %s (`%s explain WORD`)" % (words, ADMIN))
        put(line)
        # a sentence that several commands have, one after the other, is there once
        for _, several in itertools.groupby(self.then, lambda one: one.sentence()):
            for below in lines_of([*several]):
                put(below)
        flush()


def sums_of(
    counts: collections.Counter[str], faults: Mapping[str, int] = MappingProxyType({}), same: int = 0
) -> list[str]:
    """How many mailboxes there are, by their verdicts and by why they are not whole, and how many other files. Other
    paths to the same files are no files."""
    others = counts[Verdict.NO_MAIL] - same
    whys = {Verdict.NOT_WHOLE: " (%s)" % ", ".join("%d %s" % (count, word) for word, count in sorted(faults.items()))}
    mail = [verdict for verdict in VERDICTS if counts[verdict] and verdict != Verdict.NO_MAIL]
    parts = ["%d %s%s" % (counts[verdict], verdict, whys.get(verdict, "")) for verdict in mail]
    total = sum(counts.values()) - counts[Verdict.NO_MAIL]
    sums = ["%s: %s" % (counted(total, "mailbox", "es"), ", ".join(parts)) if total else "no mailboxes"]
    return sums + ["%s: no mail" % counted(others, "other file")] * bool(others)
