"""What a file is, and what may be decided about it."""
from collections.abc import Sequence
from typing import NamedTuple, Optional

from ..kinds.doubts import INSIDE, MAY_BE_MAIL, MAY_BE_TEXT, Ties
from ..kinds.look import HowFar, Look
from ..kinds.making import Recipe
from ..kinds.others import Holds, finding_of
from ..kinds.starts import text_start
from ..mbox.dates import is_dated
from ..mbox.lines import AskedAbout, Said
from ..mbox.mailbox import Mailbox
from ..remarks import Remark, Says
from ..units import LineNumber, Offset
from .reading import BY_LENGTHS, CR, CRLF, MBOXCL2, MBOXO, MBOXRD, PLAIN, UNQUOTED, Reading

NOT_QUOTED, TAKEOUT, LINE_ENDS = "not quoted", "Gmail's Takeout", "line ends of CR alone"
DROP_DELETED = Reading(drop=True)


class Diagnosis(NamedTuple):
    """What a file is: how its text is read if that is no guess, or what may be decided about it."""

    # what was seen in its text; nothing if that is not mbox text
    look: Look
    kind: str
    # how many messages it has, and how many it may have; None if that is not known
    messages: Optional[int] = None
    most: Optional[int] = None
    # what is said of lines
    said_lines: Sequence[Said] = ()
    # how the text is read if that needs no decision
    reading: Optional[Reading] = None
    # what is said of the lines because of which it is not read without a decision; and what a human may decide
    asked_about: AskedAbout = AskedAbout()
    answers: tuple[Reading, ...] = ()
    holds: Holds = Holds.MAIL
    # what is to be done with a file that is not mbox text
    recipe: Recipe = ()
    # which line ends besides LF it may have, or had before it was copied
    ends: str = CRLF

    @property
    def ties(self) -> Ties:
        """The ties of what is doubtful."""
        return self.look.doubts.ties(self.kind)

    def tied(self, decision: Reading) -> Reading:
        """A decision that holds only as long as the lines that are doubtful now stay so, and no other one is."""
        of = self.ties.numbers if decision.text or decision.begin else self.ties.messages
        return decision._replace(of=of)

    def after(self, noted: Reading) -> "Diagnosis":
        """The same once something was decided. Its word stays in answers about deleted mail alone and, if lines begin
        messages alike, in all others. If deleted mail was kept, this comes first."""
        word, answers = noted.word, self.answers
        if word and answers == (DROP_DELETED, PLAIN):
            answers = Reading(word, drop=True), Reading(word)
        elif word == MBOXO:
            answers = tuple(one._replace(word=MBOXO) if one.word == MBOXRD else one for one in answers)
        is_kept = bool(noted.of) and not noted.drop
        return self._replace(answers=tuple(sorted(answers, key=lambda one: bool(one.drop == is_kept))))

    def doubtful(self) -> list[LineNumber]:
        """The lines that may begin messages, in their order."""
        return [line for line, _ in self.look.doubts.after(0)]

    @property
    def is_on_lines(self) -> bool:
        """Whether nothing is doubtful besides which lines begin messages: no mail is cut or marked as deleted, and no
        From_ line may contain mail."""
        is_whole = not (self.look.count("cut", "holds mail") or self.look.are_deleted())
        return is_whole and bool(self.doubtful())

    @property
    def is_as_it_is(self) -> bool:
        """Whether it is converted as it is."""
        return self.reading == PLAIN and not self.look.start

    @property
    def is_takeout(self) -> bool:
        """Whether each message is from Gmail, apart from those that may be text of others."""
        gmail = self.look.count("Gmail")
        return gmail > 0 and gmail + self.look.count(*MAY_BE_TEXT) == self.look.messages

    def remarks_on_text(self) -> list[Remark]:
        """What is to be said of the text, however it is read."""
        nulls = [Says.AFTER_NULLS.of(self.look.start + 1)] * self.look.after_nulls
        return nulls + [Says.NO_LINE_END.of()] * self.look.count("no end")

    def remarks_on_quotes(self) -> list[Remark]:
        """What is to be said of a mailbox that is read without a decision. If messages end by their lengths: how many
        lines these decide about, if not each message has one; and how many keep a `>`. Otherwise how many lines lose a
        `>` of the mail's own if this is mboxo, if it is mboxcl2, and if git wrote patches without quoting, as it does
        by default."""
        count = self.look.count
        if self.look.ends_by_lengths():
            # a rule decides what a human would be asked about otherwise
            inside = count("inside") if self.reading and self.answers else 0
            # when mutt and Dovecot copy mail out of a spool, they keep the `>` that its delivery added, and give the
            # length of that
            is_mboxcl2 = self.reading is not None and self.reading.word == MBOXCL2
            kept = count("quoted, by length", "quoted twice") if is_mboxcl2 else 0
            return Says.BY_LENGTHS.of_any(inside) + Says.KEEPS_QUOTE.of_any(kept)
        says = list[Remark]()
        for number, line, its in (
            (count("quoted twice"), ">>From", MBOXO),
            (count("quoted, by length"), ">From", MBOXCL2),
            (count("quoted") * (count("git") > 0), ">From", UNQUOTED),
        ):
            says += Says.LOSES_QUOTE.of_any(number, line, "--as %s keeps it" % its)
        return says


def look_at(mailbox: Mailbox, read: HowFar = Look.read) -> Diagnosis:
    """What an open file is, and what is to be done with it. `read` looks at as much of its text as is wanted."""
    start = text_start(mailbox)
    look = Look(mailbox, start or Offset(0))
    if start is None:
        found = finding_of(look)
        mailbox.check()
        return Diagnosis(look, found.kind, said_lines=found.said_lines, holds=found.holds, recipe=found.recipe)
    look = read(look)
    # without the lines `From ` that may be text, and with those that may be mail within messages, and within lines
    fewest, most = look.messages - look.count(*MAY_BE_TEXT), look.messages + look.count(*MAY_BE_MAIL, "joined")
    said, answers, kept = list(look.said_lines()), answers_of(look), look.keeping()
    if mailbox.was_cr:
        # this is asked in any case
        kept = kept if answers else AskedAbout([Said(LineNumber(0), "its lines end in CR alone")], 1)
        answers = answers_of(look, reading_of(look))
        return Diagnosis(look, LINE_ENDS, fewest, most, said, None, kept, answers, ends=CR)
    reading = None if answers and not look.shows_lengths() else reading_of(look)
    return Diagnosis(look, kind_of(look), fewest, most, said, reading, kept, answers)


def reading_of(look: Look) -> Reading:
    """How a text is read about which nothing is doubtful: nothing is quoted in it if all lengths are right."""
    quoted = look.count("inside", "quoted, by length", "quoted twice")
    word = MBOXCL2 if look.ends_by_lengths() and quoted else MBOXRD
    return Reading(word, ends=CRLF * bool(look.count("CR LF")))


def kind_of(look: Look) -> str:
    """The name of what an mbox text is."""
    count = look.count
    if count("inside, dated"):
        return "lengths that lead over dated From_ lines"
    if look.have_lengths():
        return MBOXCL2
    if count(*INSIDE) and not count("wrong", "text"):
        return "mboxcl2 in part"
    if count(*INSIDE, "text") and not (count("git") and not count("wrong")):
        return "mboxcl2, with wrong lengths" if count("wrong") else NOT_QUOTED
    if not look.messages:
        return "empty"
    if count("git"):
        return "git's patches"
    for sort, kind in (("Gmail", TAKEOUT), ("Thunderbird", "Thunderbird's")):
        # a sender may have written the header of some of them
        if count(sort, "unmarked") == look.messages:
            return kind
    form = look.ending.value if look.ending else "mboxrd or mboxo"
    return form + (", with wrong lengths" if count("wrong") else "")


def answers_of(look: Look, *certain: Reading) -> tuple[Reading, ...]:
    """What may be decided about a text; if it has deleted mail, also whether that is left out, beside what is doubtful.
    Where no line is, it may still be decided that the text is read as is certain."""
    on_lines = line_answers(look) or certain
    if not look.are_deleted():
        return on_lines
    if not on_lines:
        return DROP_DELETED, PLAIN
    return (*(one._replace(drop=True) for one in on_lines), *on_lines)


def line_answers(look: Look) -> tuple[Reading, ...]:
    """What may be decided about lines: nothing if nothing is doubtful, as when all lengths are right."""
    count, mail = look.count, as_mail(look)
    messages = by_lines(look, "inside", "text")
    if mail.word == UNQUOTED and mail.text and not count("inside, like mail", "doubtful"):
        # all lines that may begin messages do so by dates
        messages = Reading(UNQUOTED)
    messages = messages._replace(begin=frozenset(look.numbers("joined") or ()))
    if count(*MAY_BE_TEXT, "joined"):
        return (mail, messages) if mail != messages else (mail,)
    if count(*MAY_BE_MAIL):
        return Reading(MBOXCL2, frozenset(look.numbers("text") or ())), messages
    if count("inside") and not look.have_lengths() and not count("wrong", "text"):
        return Reading(MBOXCL2), PLAIN
    if count("inside", "text") and not look.have_lengths():
        return mail, PLAIN
    if count("holds mail"):
        return PLAIN, by_lines(look, "holds mail")
    if count("cut"):
        return (PLAIN,)
    return ()


def counted_by(look: Look, decision: Reading) -> Optional[int]:
    """How many messages a text has by a decision, if a look has counted that: each line `From ` begins one, or each
    that has a date, but for those that are named as text. None if the text must be read for it."""
    is_by_marks = look.is_whole and decision.word in (MBOXRD, MBOXO, UNQUOTED) and not (decision.drop or decision.begin)
    # the first line must begin a message, and the named ones be lines `From `
    if not is_by_marks or look.lines.get(look.start) in decision.text:
        return None
    if decision.word == UNQUOTED:
        named = look.numbers("odd", "unmarked", "inside, dated") or set()
        is_known = decision.text <= named and is_dated(look.mailbox.from_line_at(look.start))
        return look.count("dated", "odd", "inside, dated") - len(decision.text) if is_known else None
    is_known = decision.text <= (look.numbers(*INSIDE, "text", *MAY_BE_TEXT) or set())
    return look.messages + look.count(*INSIDE, "text") - len(decision.text) if is_known else None


def is_answer(look: Look, word: str) -> bool:
    """Whether a word that is given for several mailboxes answers what is doubtful about the lines of one: as one of the
    answers that are printed for it, or since some of its lines were written in this way."""
    answers = line_answers(look)
    if not answers:
        return True
    if word in BY_LENGTHS:
        return look.count(*INSIDE) > 0 and not look.count("text", *MAY_BE_TEXT)
    if word == UNQUOTED:
        # a line with a date that may be text is asked about
        return not look.count("odd", "unmarked") and (kind_of(look) == NOT_QUOTED or Reading(UNQUOTED) in answers)
    return PLAIN in answers


def is_against_lengths(look: Look, decision: Reading) -> bool:
    """Whether a decision for one mailbox reads it by its lengths, and lines outside of these look like mail, about
    which neither the decision nor a printed answer says anything."""
    is_said = bool(decision.text or decision.begin) or Reading(MBOXCL2) in line_answers(look)
    # lines outside of correct lengths that have neither a date nor a header after them
    has_bare_lines = look.count("against each line") > look.count(*INSIDE)
    return decision.word in BY_LENGTHS and has_bare_lines and not is_said


def as_mail(look: Look) -> Reading:
    """The decision that all lines which may be mail are mail: by dates, but for lines with a date that have no header
    after them, or all by their numbers."""
    count, dated = look.count, look.numbers("odd", "unmarked")
    if not count(*INSIDE, "text", *MAY_BE_TEXT):
        return PLAIN
    everything = count("inside", "inside, like mail", "wrong", "git", "text after a blank line")
    is_unescaped = everything or not count("quoted", "quoted twice")
    if is_unescaped and count("dated") and not count("undated", "inside, dated"):
        # lines with dates alone do not show that others are not escaped
        if dated is not None and (count("text") or not dated):
            return Reading(UNQUOTED, frozenset(dated))
    return by_lines(look, *INSIDE, "text", *MAY_BE_TEXT)


def by_lines(look: Look, *sorts: str) -> Reading:
    """The decision that the lines of these sorts are mail: by their numbers or, if there are too many, by dates."""
    numbers = look.numbers(*sorts)
    if numbers is None:
        return Reading(UNQUOTED)
    return Reading(MBOXO if look.count("quoted") and look.count("text") else MBOXRD, frozenset(numbers))
