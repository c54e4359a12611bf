"""From where on a mailbox is converted, and how it is read: as is certain, or as a human decided."""
import os
from collections.abc import Callable, Sequence
from typing import NamedTuple, Optional

from ..faults import Fault, Left, Reason
from ..flags.clients import gmail_thread
from ..kinds.look import HowFar, Look
from ..kinds.making import Recipe, Where
from ..kinds.others import Holds
from ..mbox.fields import headers_at
from ..mbox.lines import AskedAbout, Lines, Said, cut, lines_around
from ..mbox.mailbox import Mailbox
from ..nexts import Answer, Command, Does, Phrase, Quote
from ..remarks import Remark, Says
from ..terminal import NAMED
from ..units import LineNumber, Offset
from .quoting import Quoter
from .reading import BY_LENGTHS, CR, CRLF, MBOXCL2, MBOXO, MBOXRD, PLAIN, UNDECIDED, UNQUOTED, Reading, renumbered
from .diagnosis import DROP_DELETED, Diagnosis, counted_by, is_against_lengths, is_answer, look_at, reading_of

# why a file is left that holds this
LEFT_FOR = {Holds.MAIL: Reason.UNCLEAR, Holds.OTHER: Reason.OTHER_KIND, Holds.UNKNOWN: Reason.NOT_KNOWN}
ANOTHER_QUESTION = "what is asked about it has changed since this was answered"
LACKS_LINES = "the answer with this --of also names lines, by --text or --begin"
OTHER_LINES = "the answer with this --of names other lines, or none"
NEW_LINE = "it came since the others were decided, and may begin a message"
# the words by which lines begin messages in different ways, each with those that do it alike
WAYS = (MBOXRD, (MBOXRD, MBOXO)), (MBOXCL2, BY_LENGTHS), (UNQUOTED, (UNQUOTED,))


class Plan(NamedTuple):
    """What a mailbox is, how many messages are converted, where its text begins, how it is read, and whether that needs
    a copy."""

    kind: str
    messages: int
    start: Offset
    reading: Reading
    is_copied: bool = False
    # what is to be said of the mailbox
    remarks: tuple[Remark, ...] = ()
    # the decision by which it is read. If something was asked, its lines have their order among those that are
    # doubtful, so that it fits as long as what is asked has the same tie, whatever numbers its lines have by then;
    # else it has no tie, and holds until something is asked
    answer: Optional[Reading] = None

    @property
    def is_empty(self) -> bool:
        """Whether the mailbox has no mail, also none that is left out."""
        return not (self.messages or self.reading.dropped)

    def stripped(self, is_stripped: bool) -> "Plan":
        """The same plan; whether it leaves out the header fields that mail programs wrote for themselves."""
        return self._replace(reading=self.reading._replace(stripped=is_stripped))


class Choosable(NamedTuple):
    """What may be decided, how many messages that gives, and what it says of the mail."""

    decision: Reading
    messages: int
    does: Phrase = Does.RUN

    def meant(self, answers: Sequence["Choosable"]) -> "Choosable":
        """The same, with what it says of the mail: of two answers about lines, the one with more messages says that
        mail begins there. Several formats are no answers about lines."""
        is_drop = self.decision.drop
        counts = [one.messages for one in answers if one.decision.drop == is_drop]
        if len(answers) == 1:
            return self
        if len(counts) == 1:
            does = Does.DROP if is_drop else Does.KEEP
        elif len(counts) > 2 or len(set(counts)) == 1:
            does = Does.READ_AS
        else:
            is_most = self.messages == max(counts)
            kept, dropped = (Does.BEGINS, Does.BEGINS_DROP) if is_most else (Does.BELONGS, Does.BELONGS_DROP)
            does = dropped if is_drop else kept
        return Choosable(self.decision, self.messages, does)


class NoMail(Left):
    """A file that holds no mail."""


class OtherKind(Left):
    """A file that is not mbox text: what is said of it, and what to do next."""

    def __init__(self, path: bytes, says: Optional[Said], recipe: Recipe, reason: Phrase, kind: str) -> None:
        quotes = [Quote(says.line, says.text)] if says and says.text else []
        super().__init__(says.sentence() if says else "", reason, quotes=quotes)
        self.path, self.recipe, self.kind = path, recipe, kind
        # beside itself, if nothing else is known
        self.put(Where(os.path.dirname(os.path.abspath(path))))

    def put(self, where: Where) -> None:
        """Sets where the next command puts the file."""
        self.next = where.next(self.recipe, self.path)


class NotKnown(OtherKind):
    """A file of an unknown kind."""


class Question(Left):
    """What a human must decide: the lines that are asked about, with those around them, and the answers."""

    def __init__(self, why: str, diagnosis: Diagnosis, quotes: list[Quote], answers: list[Choosable]) -> None:
        super().__init__(why, Reason.UNCLEAR, quotes=quotes)
        self.kind, self.messages, self.most = diagnosis.kind, diagnosis.messages, diagnosis.most
        self.is_takeout = diagnosis.is_takeout
        self.answers, self.doubtful, self.is_on_lines = answers, diagnosis.doubtful(), diagnosis.is_on_lines
        # whether a line that may begin a message has a header of a Takeout after it
        offsets = (offset for _, offset in diagnosis.look.doubts.after(0))
        headers = headers_at(diagnosis.look.mailbox, offsets if self.is_takeout else ())
        self.may_have_labels = any(map(gmail_thread, headers))
        # returns a decision that is tied to this question
        self.tied: Callable[[Reading], Reading] = lambda decision: decision

    def want_labels(self) -> None:
        """Drops the answer that a mail begins where it would have no labels, although each mail is to have some."""
        if not self.may_have_labels:
            self.answers = [one for one in self.answers if one.does not in (Does.BEGINS, Does.BEGINS_DROP)]

    def put(self, command: Callable[[Reading], Command]) -> None:
        """Sets what is next: each answer, with what it says of the mail, and with the command that decides it."""
        self.next = tuple(Answer(command(one.decision), one.does, one.messages) for one in self.answers)

    def by_tie(self, answer: Reading) -> Optional[Reading]:
        """What an answer for several mailboxes decides about this question; None unless it has its tie."""
        found = self.tied(Reading(answer.word, drop=answer.drop))
        return found if found.of and found.of in answer.of.split(",") else None


def plan_of(mailbox: Mailbox, read: HowFar = Look.read, decision: Reading = UNDECIDED) -> Plan:
    """Looks at as much of a mailbox as is wanted. Raises Left if something would be a guess that was not decided."""
    diagnosis = look_at(mailbox, read)
    if diagnosis.holds == Holds.NO_MAIL:
        raise NoMail(diagnosis.kind)
    if diagnosis.recipe:
        left = NotKnown if diagnosis.holds == Holds.UNKNOWN else OtherKind
        first = next(iter(diagnosis.said_lines), None)
        raise left(mailbox.path, first, diagnosis.recipe, LEFT_FOR[diagnosis.holds], diagnosis.kind)
    noted, decision = decision.noted, decision._replace(noted=None)
    if noted:
        ties = diagnosis.ties
        # beside a decision on several mailboxes it counts if it was about what is asked now, or about the first lines
        if decision == UNDECIDED or diagnosis.answers and noted.of in (ties.messages, *ties.first):
            diagnosis = with_noted(diagnosis, noted)
            decision = UNDECIDED if noted.of or diagnosis.answers or not noted.word else noted
    if decision.of:
        want_tied(diagnosis, decision)
    plan = planned(diagnosis, decision)
    if not diagnosis.answers or decision == UNDECIDED:
        return plan
    order = {line: LineNumber(number) for number, line in enumerate(diagnosis.doubtful(), 1)}
    answer = renumbered(decision.decided, order)._replace(of=diagnosis.tied(UNDECIDED).of, alone=decision.alone)
    return plan._replace(answer=answer)


def with_noted(diagnosis: Diagnosis, noted: Reading) -> Diagnosis:
    """The diagnosis of a mailbox about which a human has decided before. The answer holds for the lines that it was
    about, and a rule decides only about others, as far as it agrees. Raises Question if lines came since that nobody
    has decided about: these are asked about alone."""
    # how many of the first lines that are doubtful have the tie of what was decided
    count = diagnosis.ties.first.get(noted.of, 0)
    diagnosis = diagnosis.after(noted)
    if not diagnosis.answers:
        return diagnosis
    new = diagnosis.look.doubts.after(count)
    agrees = noted.word in BY_LENGTHS if noted.of else noted.word != UNQUOTED
    if diagnosis.reading and agrees and new:
        word = noted.word if noted.word in BY_LENGTHS else diagnosis.reading.word
        return diagnosis._replace(reading=diagnosis.reading._replace(word=word))
    if count and noted.word and diagnosis.is_on_lines and 0 < len(new) <= Lines.MANY:
        said = [Said(line, NEW_LINE, cut(diagnosis.look.mailbox.from_line_at(offset))) for line, offset in new[:NAMED]]
        new_numbers = {LineNumber(number): line for number, line in enumerate(diagnosis.doubtful(), 1)}
        before = renumbered(noted.decided, new_numbers)
        lines = frozenset(line for line, _ in new)
        answers = before._replace(text=before.text | lines), before._replace(begin=before.begin | lines)
        raise question(diagnosis, AskedAbout(said, len(new)), answers)
    return diagnosis._replace(reading=None)


def want_tied(diagnosis: Diagnosis, decision: Reading) -> None:
    """Raises Left if a decision was made about other lines than those that are doubtful now, or names one that is not.
    What is asked now is asked then."""
    lines, doubtful = decision.text | decision.begin, set(diagnosis.doubtful())
    if lines <= doubtful and decision == diagnosis.tied(decision):
        return
    if diagnosis.answers:
        messages, numbers, _ = diagnosis.ties
        # whoever adds lines to a printed command gets it with the tie that numbers of lines need
        own = [decision] if lines and lines <= doubtful and decision.of == messages else []
        has_changed = decision.of not in (messages, numbers)
        says = ANOTHER_QUESTION if has_changed else OTHER_LINES if lines else LACKS_LINES
        raise question_of(diagnosis._replace(answers=(*diagnosis.answers, *own)), says)
    raise Question(ANOTHER_QUESTION, diagnosis, [], [Choosable(UNDECIDED, diagnosis.messages or 0)])


def planned(diagnosis: Diagnosis, decision: Reading) -> Plan:
    """The plan of an mbox text, as it is certain or decided."""
    is_empty = not (diagnosis.messages or diagnosis.answers)
    reading = decided(diagnosis, decision) if decision.word and not is_empty else None
    if reading:
        return plan_by(diagnosis, reading, decision, "%s by --as" % decision.word)
    reading = diagnosis.reading
    if decision.drop and DROP_DELETED in diagnosis.answers:
        reading = reading_of(diagnosis.look)
    if not reading:
        raise question_of(diagnosis)
    if decision.drop and diagnosis.messages:
        return plan_by(diagnosis, reading, DROP_DELETED, diagnosis.kind)
    remarks = (*diagnosis.remarks_on_text(), *diagnosis.remarks_on_quotes())
    kind, is_copied = diagnosis.kind, reading != PLAIN
    if is_copied:
        kind += ", quoted"
    elif kind == MBOXCL2:
        reading = Reading(MBOXCL2)
    return Plan(kind, diagnosis.messages or 0, diagnosis.look.start, reading, is_copied, remarks)


def decided(diagnosis: Diagnosis, decision: Reading) -> Optional[Reading]:
    """How a text is read by a decision; None if it is certain anyhow. Raises Left if the mailbox is one of several and
    contradicts the decision on them, or if something else is doubtful; or if the decision is on lengths alone, and
    lines outside of them look like mail."""
    look, word = diagnosis.look, decision.word
    if not decision.alone:
        if diagnosis.reading and look.have_lengths():
            return None
        is_unclear = diagnosis.ends == CR or look.count("joined", "holds mail", "cut") > 0
        if is_unclear or look.are_deleted() and not decision.drop or not is_answer(look, word):
            raise question_of(diagnosis)
        against = look.against(word)
        if against.total:
            by_words = [Reading(one) for one in (word, *(other for other, same in WAYS if word not in same))]
            by_lines = [one for one in diagnosis.answers if one.text or one.begin]
            raise question(diagnosis, against, (*by_words, *by_lines))
    elif diagnosis.answers and is_against_lengths(look, decision):
        raise question_of(diagnosis)
    return Reading(word, decision.text, decision.begin, ends=diagnosis.ends)


def plan_by(diagnosis: Diagnosis, reading: Reading, decision: Reading, kind: str) -> Plan:
    """The plan of a mailbox that is read in this way. All of it is read for that; a copy is made if it would differ."""
    counts = Quoter(reading, diagnosis.look.mailbox, diagnosis.look.start)
    for _ in counts.run():
        pass
    counts.check(counts.given, counts.messages)
    if reading.ends == CRLF and not counts.crlf:
        reading = reading._replace(ends="")
    # who decides about deleted mail alone has not decided about quotes
    says = [*diagnosis.remarks_on_text(), *([] if decision.word else diagnosis.remarks_on_quotes())]
    without = counts.messages - counts.marked
    # those without a mark about which a human has decided here
    known = diagnosis.look.count("unmarked") if decision.of else 0
    if decision.drop and without > known:
        # not each other message has a mark, so that none is taken for deleted
        says.append(Says.DELETED_KEPT.of(without, counts.messages))
    elif decision.drop and counts.deleted:
        says += Says.DELETED_LEFT_OUT.of_any(counts.deleted)
        reading = reading._replace(drop=True, dropped=counts.deleted)
    messages, is_copied = counts.messages - reading.dropped, wants_copy(reading, counts)
    # where no message has a mark, nothing is said of deleted mail
    is_said = decision.word or counts.marked
    answer = Reading(decision.word, drop=decision.drop, alone=decision.alone) if is_said else None
    return Plan(kind, messages, diagnosis.look.start, reading, is_copied, tuple(says), answer)


def wants_copy(reading: Reading, counts: Quoter) -> bool:
    """Whether a text that was measured differs from the mailbox when it is read in this way."""
    return bool(counts.quoted or counts.left_out or reading.drop or reading.begin)


def question_of(diagnosis: Diagnosis, before: str = "") -> Question:
    """What is asked about a mailbox of which something would be a guess, and what is said before that."""
    asked_about, said = diagnosis.asked_about, diagnosis.said_lines
    if not asked_about.total:
        asked_about = AskedAbout(said, len(said))
    return question(diagnosis, asked_about, diagnosis.answers, before)


def question(diagnosis: Diagnosis, asked_about: AskedAbout, decisions: Sequence[Reading], before: str = "") -> Question:
    """What is asked about a mailbox: the lines that are the reason, with the answers that its text allows, each tied to
    it."""
    answers: list[Choosable] = []
    for decision in decisions:
        decision = diagnosis.tied(decision)
        try:
            known = counted_by(diagnosis.look, decision)
            messages = planned(diagnosis, decision).messages if known is None else known
            answers.append(Choosable(decision, messages))
        except Fault:
            # no message begins with the first line
            continue
    quotes = lines_around(diagnosis.look.mailbox, asked_about)
    says = ": ".join(filter(None, [before, asked_about.sentence()]))
    found = Question(says, diagnosis, quotes, [one.meant(answers) for one in answers])
    found.tied = diagnosis.tied
    return found
