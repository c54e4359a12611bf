"""What answers a question about a mailbox: what a human has said of it before, and the record noted; how it was read
before; and what it has brought, if each line in question is in that, so that the answer says nothing of new mail. And
what contradicts that."""
import bisect
import collections
from collections.abc import Iterable, Sequence
from typing import NamedTuple, Optional

from ..faults import Fault, Left, Reason
from ..ledger.ledger import Batch, Source
from ..ledger.history import About, History, Note, RecordLine
from ..ledger.lines import LOST, Brought, counted_in
from ..ledger.match import Files, Match, cores_of
from ..ledger.record import Record, unspelled
from ..maildir.files import mail_in, names_in
from ..maildir.folders import INBOX
from ..mbox.bases import before_info
from ..mbox.inventory import Inventory
from ..mbox.mailbox import Mailbox
from ..nexts import NOTHING, Answer, Does, Next
from ..readings.plans import Plan, Question, plan_of
from ..readings.reading import MBOXO, UNDECIDED, UNQUOTED, Reading, renumbered, with_deleted
from ..readings.texts import Choice, choice_of, content_of, text_then
from ..readings.diagnosis import look_at
from ..remarks import Remark, Says
from ..units import LineNumber, counted
from .known import Known, Opened
from .options import Options
from .steps import Contents, remarks_on_lost


def note_empty(known: Known, reading: Reading, lost: Iterable[Brought]) -> None:
    """Notes that a mailbox has no mail any more, if it had some or may have, and, if it has no byte, that it has its
    folder. A batch that has no end gets none: what it was to place is not wanted."""
    ledger, path, mailbox = known.ledger, known.path, known.opened.mailbox
    source = ledger.sources.get(path)
    if source and source.count() or known.is_begun or known.is_lacking:
        words = ledger.last_read(path).words if path in ledger.paths() else reading.words()
        its = (one._replace(word=LOST) for one in lost)
        ledger.note_without_files(mailbox.key(), words, path, mailbox.state.st_ino, *its)
    if not mailbox.size:
        known.record.add(Note.EMPTY, known.opened.about, 0, mailbox.path)


def note_answer(known: Known, plan: Plan) -> None:
    """Notes what was decided about a mailbox, with what it was given for, unless that is noted last of the mailbox
    anyhow."""
    record, about = known.record, known.opened.about
    before = record.noting(Note.ANSWERED, about.folder, known.names)
    last = Reading.of_words(before[-1].words) if before else UNDECIDED
    # an answer for several mailboxes that says the same takes nothing away
    if plan.answer and plan.answer not in (last, last._replace(alone=False)):
        record.add(Note.ANSWERED, about, plan.messages, unspelled(known.path), plan.answer.words())


def answers_for(record: Record, opened: Opened, moved: Iterable[str] = ()) -> list[RecordLine]:
    """The answers that were noted for a mailbox, first those for the paths from which it may have been moved, and for
    the one from which its folder was prepared."""
    prepared = record.prepared(opened.name)
    several = [*moved, *([prepared.path] if prepared else [])], record.names_of(opened.mailbox.path)
    return [entry for paths in several for entry in record.noting(Note.ANSWERED, opened.name, paths)]


def answers_of(known: Known) -> list[RecordLine]:
    """The same of one that may have been moved within its folder, if any answer was noted there: the mailbox is read to
    find that out."""
    record, opened = known.record, known.opened
    return answers_for(record, opened, known.paths()) if record.notes(Note.ANSWERED, opened.name) else []


def noted_last(several: Sequence[RecordLine], given: Reading) -> Optional[Reading]:
    """What was decided last about a mailbox by its answers, with its lines by their order among those that were
    doubtful. Beside what is given now for several mailboxes, it counts if it was decided about this one, and
    otherwise."""
    last = Reading.of_words(several[-1].words) if several else UNDECIDED
    is_other = last.alone and last._replace(of=given.of, alone=False) != given
    return last if last != UNDECIDED and (given == UNDECIDED or not given.alone and is_other) else None


def answer_to(several: Sequence[RecordLine], question: Question) -> Optional[Reading]:
    """The last of its answers to what is asked about a mailbox, for its lines as they are now."""
    tie = question.tied(UNDECIDED).of
    lines = {LineNumber(number): line for number, line in enumerate(question.doubtful, 1)}
    for entry in reversed(several):
        answer = Reading.of_words(entry.words)
        names = answer.text | answer.begin
        is_whole = answer._replace(alone=True) == answer.decided and (answer.word or answer.drop and not names)
        if is_whole and answer.of == tie and names <= set(lines):
            return question.tied(renumbered(answer, lines))
    return None


def is_passed_over(record: History, mailbox: Mailbox) -> bool:
    """Whether it is noted that a file holds no mail, as long as it has its path and its bytes."""
    noted = {entry.about for entry in record.noting(Note.NO_MAIL, INBOX, record.names_of(mailbox.path))}
    return bool(noted) and About(INBOX, *mailbox.key()) in noted


READ_OTHERWISE = (
    "it was read as %s when it was migrated, and %s of that reading would stay beside those that it has as it is read "
    "now"
)
BEGUN_OTHERWISE = (
    "its conversion was begun with another reading: %d of %d messages are there as it was read then, %d of %d as it is "
    "read now"
)


def as_before(options: Options, known: Known) -> Optional[tuple[str, list[Remark]]]:
    """The words by which a mailbox was read, and what is to be said of it, if nothing is new in it as it is read so;
    None if something is, or if it cannot be read so any more."""
    source, disk = known.ledger.sources.get(known.path), options.disk(known.opened.maildir)
    if not source or known.is_begun:
        return None
    # mail that is marked as deleted by now, and was not brought, is new
    reading = with_deleted(Reading.of_words(source.words))
    with content_of(known.opened.mailbox, disk) as text, text_then(text, reading, disk, options.extra.start_of) as then:
        if not then:
            return None
        contents = Contents(then, then.messages(), reading)
        files = Files(known.ledger.folder, contents.inventory)
        match = Match(known.ledger, known.path, files, contents.is_trashed)
        match.find_known()
        return None if match.count_new() else (reading.words(), remarks_on_lost(match))


def contradicted(options: Options, opened: Opened, line: RecordLine) -> tuple[list[Remark], Next]:
    """What is to be said of a mailbox that is done if a decision that is given now gives other messages, and the
    command that undoes it."""
    if not contradicts(options, opened, line):
        return [], NOTHING
    its = Reading.of_words(line.words).of_text.words(), " ".join(options.decision.options())
    # a word for several mailboxes is about those that are not done
    then = (Answer(options.undo_command(opened), Does.UNDO),) if options.decision.alone else NOTHING
    return [Says.CONTRADICTED.of(*its)], then


def contradicts(options: Options, opened: Opened, line: RecordLine) -> bool:
    """Whether a decision gives other messages of a mailbox than those that it had when it was done."""
    if options.decision._replace(alone=True) == UNDECIDED:
        return False
    by = options.disk(opened.maildir), options.extra.start_of
    try:
        with choice_of(opened.mailbox, by[0], decision=options.decision) as choice:
            then, now = Reading.of_words(line.words)._replace(stripped=False), choice.plan.reading
            if then.of_text == now.of_text:
                return False
            with text_then(choice.mailbox, then, *by) as was, text_then(choice.mailbox, now, *by) as is_now:
                return bool(was and is_now and was.messages().table.digests != is_now.messages().table.digests)
    except Fault:
        opened.mailbox.check()
        return False


class Before(NamedTuple):
    """The path by which the ledger has a mailbox, perhaps another one from which it was moved; how it was read before,
    what it has brought, and the batch that has not ended."""

    path: str
    reading: Reading
    source: Optional[Source]
    batch: Optional[Batch]

    @classmethod
    def of(cls, known: Known, reading: Reading) -> "Before":
        """What the ledger knows of a mailbox; this reading if it does not know it. What that leaves out, all do: so
        no mail comes twice."""
        ledger = known.ledger
        path = next((one for one in known.paths() if one not in ledger.leaving), known.path)
        source, batch = ledger.sources.get(path), ledger.open.get(ledger.pending(path) or 0)
        words = batch.head.words if batch else source.words if source else None
        then = reading if words is None else Reading.of_words(words)
        return cls(path, then._replace(drop=reading.drop, dropped=reading.dropped), source, batch)

    def is_of(self, known: Known, then: Inventory) -> bool:
        """Whether a mailbox, which has these messages as it was read before, is the one that was: one that was moved
        has all that it had."""
        return self.path == known.path or known.ledger.is_in(self.path, cores_of(then))

    def counts(self, decision: Reading, then: Inventory, contents: Contents) -> list[int]:
        """How much of what it has brought is among the messages that it had then, and among those that it has now. A
        human's word counts for each `>`; without one, messages are the same that differ in that alone."""
        was, is_now = self.reading.word, contents.reading.word
        is_by_word = was != is_now and (bool(decision.word) or was in (MBOXO, UNQUOTED))
        several, had = (then, contents.inventory), self.had(is_by_word)
        forms = (map(its.bare if is_by_word else its.core, range(len(its))) for its in several)
        return [sum((had & collections.Counter(one)).values()) for one in forms]

    def had(self, is_by_word: bool = False) -> collections.Counter[bytes]:
        """How often it has brought each bare form, or each core, or was going to, also if it lost that since."""
        brought = collections.Counter[bytes]()
        if self.source:
            brought |= counted_in(self.source.bares if is_by_word else self.source.cores)
        if self.batch:
            brought |= counted_in(self.batch.bares if is_by_word else self.batch.cores)
        return brought


def want_same_reading(options: Options, known: Known, choice: Choice, contents: Contents) -> None:
    """Raises Left if more of what the ledger has of a mailbox is in it as it was read then, with what to run."""
    before, opened = Before.of(known, contents.reading), known.opened
    disk = options.disk(opened.maildir)
    command = options.command(opened, again=options.again, dovecot=before.reading.stripped)
    if before.reading.stripped != contents.reading.stripped and not options.again and has_begun(known):
        says = "its conversion was begun %s --dovecot" % ("with" if before.reading.stripped else "without")
        raise Left(says, Reason.ANOTHER_READING, (Answer(command),))
    if before.reading.of_text == contents.reading.of_text:
        return
    with text_then(choice.mailbox, before.reading, disk, options.extra.start_of) as text:
        if not text:
            return
        inventory = text.messages()
    then, now = before.counts(options.decision, inventory, contents)
    if then <= now or not before.is_of(known, inventory):
        return
    if before.batch:
        says = BEGUN_OTHERWISE % (then, len(inventory), now, len(contents.inventory))
    else:
        says = READ_OTHERWISE % (before.reading.of_text.words(), counted(then - now, "message"))
    is_done = bool(before.source and before.source.key == tuple(opened.mailbox.key()))
    # what a human says of single lines holds by the other reading too
    decision = decision_by(choice.mailbox, before.reading, options.decision)
    if options.decision.word and is_done or not is_enough(choice.mailbox, decision, disk):
        command = options.undo_command(opened)
    else:
        command = options.command(opened, again=options.again, decision=decision)
    raise Left(says, Reason.ANOTHER_READING, (Answer(command),))


def decision_by(mailbox: Mailbox, then: Reading, given: Reading) -> Reading:
    """The decision by which a text was read, and the lines of another decision. Lines that it names are tied to the
    text."""
    text, begin = (then.text - given.begin) | given.text, (then.begin - given.text) | given.begin
    found = then.decided._replace(text=text, begin=begin)
    return look_at(mailbox).tied(found) if text or begin else found


def has_begun(known: Known) -> bool:
    """Whether something is there of what a killed run was to place, or a list of Dovecot's. Else another run may do it
    in another way."""
    if not known.is_begun:
        return False
    names, folder = {one.name for one in known.ledger.intended(known.path)}, known.opened.folder
    is_numbered = any(name.startswith(b"dovecot") for name in names_in(folder))
    return is_numbered or any(before_info(name) in names for name, _ in mail_in(folder))


def is_enough(text: Mailbox, decision: Reading, disk: bytes) -> bool:
    """Whether a text is read by a decision. Programs may have added lines about which it says nothing."""
    try:
        with choice_of(text, disk, decision=decision):
            return True
    except Fault:
        text.check()
        return False


# how often a mailbox has brought each core
Had = collections.Counter[bytes]


class Effect(NamedTuple):
    """What an answer gives: how many of the messages that were brought, and whether all lines in question are in
    these."""

    decision: Reading
    brought: int
    is_shown: bool


def answer_shown(options: Options, known: Known, question: Question) -> Optional[Reading]:
    """The one answer by which all lines in question are in messages that a mailbox has brought, if each other answer
    gives fewer of the messages that it brought; None if a human must answer."""
    had = Before.of(known, options.decision).had()
    if not had or not question.is_on_lines:
        return None
    with content_of(known.opened.mailbox, options.disk(known.opened.maildir)) as text:
        by = [options._replace(decision=answer.decision) for answer in question.answers]
        given = [given_by(one, known, text, had, question.doubtful) for one in by]
    most = max((one.brought for one in given), default=0)
    best = [one for one in given if one.is_shown or one.brought == most]
    return best[0].decision if len(best) == 1 and best[0].is_shown else None


def given_by(options: Options, known: Known, text: Mailbox, had: Had, lines: Iterable[LineNumber]) -> Effect:
    """What the answer gives by which this mailbox would be migrated, of what it has brought."""
    choice = Choice(text, plan_of(text, decision=options.decision))
    with choice.text(options.disk(known.opened.maildir)) as whole:
        part = whole.begun_by(options.extra.start_of)
        contents = Contents(part, part.messages(), choice.plan.stripped(options.extra.IS_STRIPPED).reading)
        is_shown = are_brought(had, contents.inventory, lines)
        if is_shown:
            # a mailbox that is read so also goes on as it was read before
            try:
                want_same_reading(options, known, choice, contents)
            except Left:
                is_shown = False
    return Effect(options.decision, sum((had & cores_of(contents.inventory)).values()), is_shown)


def are_brought(had: Had, inventory: Inventory, lines: Iterable[LineNumber]) -> bool:
    """Whether each of these lines is in a message of a text that was brought, or between two of them. Of several with a
    core, nobody knows which were brought, unless all were."""
    has, cores = cores_of(inventory), list[bytes]()
    for line in lines:
        # a line that begins messages is also in the message above it, of which there is none before the first one
        first, last = (find(inventory.lines, line) - 1 for find in (bisect.bisect_left, bisect.bisect_right))
        cores += (inventory.core(place) if place >= 0 else b"" for place in range(first, last + 1))
    return all(0 < has[core] <= had[core] for core in cores)
