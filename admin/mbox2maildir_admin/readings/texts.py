"""Which text stands for a mailbox: the mailbox itself, what it holds if it is compressed, or a copy without a name, in
which lines are quoted or header fields are left out that mail programs wrote for themselves."""
import array
import bisect
import contextlib
import functools
import itertools
import os
from collections.abc import Callable, Iterator, Sequence
from typing import NamedTuple, Optional

from ..faults import Fault, Left, Reason
from ..flags.dovecot_headers import internal_head
from ..kinds.look import HowFar, Look
from ..kinds.making import Makes, Recipe
from ..kinds.others import ARCHIVE, LIKE_MAIL, NOT_KNOWN, Form, other_of
from ..kinds.starts import text_start
from ..looks import is_folder, may_write
from ..maildir.files import paths_of
from ..maildir.disk import trial_folder
from ..mbox.fields import stripped
from ..mbox.files import Reader
from ..mbox.inventory import Inventory, messages_of
from ..mbox.lines import Said
from ..mbox.mailbox import Mailbox
from ..mbox.pieces import pieces_of
from ..program import Listing, Program
from ..units import LineNumber, Offset, Say
from .copies import copy_of, with_lf
from .plans import NoMail, NotKnown, OtherKind, Plan, Question, plan_of, wants_copy
from .quoting import Quoter
from .reading import PLAIN, UNDECIDED, Reading

# how a mailbox was read when it was recorded, if it was, and whether it had the same bytes; and where the messages of a
# text begin that are converted
ReadingOf = Callable[[Mailbox], tuple[Reading, bool]]
StartOf = Callable[[Mailbox, Offset], Offset]

NO_LONGER = "it can no longer be read as it was read when it was migrated (%s)"


class Text(NamedTuple):
    """The text that stands for a mailbox, and where its messages begin. For a quoted copy it also has the lines of the
    mailbox in which each message begins, and how many lines were quoted before each, and in all; a stripped copy has
    the text that it was made of, and where the messages of both begin and the last one ends."""

    mailbox: Mailbox
    start: Offset
    lines: Optional[Sequence[int]] = None
    quoted_before: Sequence[int] = ()
    full: Optional["Text"] = None
    offsets: Sequence[int] = ()
    # whether it is read as it was when it was recorded, with the same bytes
    is_recorded: bool = False

    def stripped(self, folder: bytes) -> "Text":
        """The stripped copy of a text, on the disk of a folder."""
        offsets, stripped_offsets = array.array("Q"), array.array("Q")

        def given() -> Iterator[bytes]:
            mailbox, size = self.mailbox, 0
            for piece in pieces_of(mailbox.again(self.start).read, self.start):
                if piece.begins:
                    offsets.append(piece.offset)
                    stripped_offsets.append(size)
                data = stripped(piece)
                size += len(data)
                yield data
                mailbox.say("copying", piece.offset, mailbox.size)
            mailbox.check()

        copy = copy_of(self.mailbox, given(), folder)
        offsets.append(self.mailbox.size)
        stripped_offsets.append(copy.size)
        full = self._replace(offsets=offsets)
        return Text(copy, Offset(0), self.lines, self.quoted_before, full, stripped_offsets)

    def begun_by(self, start_of: StartOf) -> "Text":
        """The same text from the message on whose offset in the text with all header fields `start_of` gives."""
        whole = self.full or self
        offset = start_of(whole.mailbox, whole.start)
        if not self.full:
            return self._replace(start=offset)
        skipped = bisect.bisect_left(self.full.offsets, offset)
        full = self.full._replace(offsets=self.full.offsets[skipped:])
        return self._replace(start=Offset(self.offsets[skipped]), full=full, offsets=self.offsets[skipped:])

    def messages(self, listing: Optional[Listing] = None, with_cores: bool = True) -> Inventory:
        """Its messages, with the lines of the mailbox in which they begin. `listing` is what `mbox2maildir list` says
        of the text."""
        inventory = Inventory.read(self.mailbox, self.start, listing, with_cores)
        if self.lines is not None:
            inventory.lines = array.array("Q", self.lines[len(self.lines) - len(inventory) :])
        elif self.full:
            inventory.count_lines = functools.partial(self.full.mailbox.lines_at, self.full.offsets[:-1])
        if self.full and len(self.full.offsets) != len(inventory.offsets):
            counts = len(inventory), len(self.full.offsets) - 1
            raise Fault("its copy without hidden header fields has %d of %d messages" % counts, Reason.MISREAD)
        return inventory


class Choice(NamedTuple):
    """The text that a mailbox is or, if it is packed, holds, and its plan. A copy with other line ends counts as
    unpacked."""

    mailbox: Mailbox
    plan: Plan
    is_packed: bool = False
    # the messages of the text itself, if they were read when it was looked at
    known: Optional[Inventory] = None

    def text(self, folder: bytes) -> contextlib.AbstractContextManager[Text]:
        """The text itself. A copy is made on the disk of a folder."""
        plan = self.plan
        reading = plan.reading if plan.is_copied else PLAIN._replace(stripped=plan.reading.stripped)
        return text_by(reading, self.mailbox, plan.start, folder, plan.messages)


@contextlib.contextmanager
def text_by(reading: Reading, mailbox: Mailbox, start: Offset, folder: bytes, *wanted: int) -> Iterator[Text]:
    """The text of a mailbox as it is read, with as many messages as wanted. A copy is made on the disk of a folder."""
    with contextlib.ExitStack() as stack:
        text = Text(mailbox, start)
        if reading.of_text._replace(of="") != PLAIN:
            quoter = Quoter(reading, mailbox, start)
            copy = copy_by(quoter, folder)
            if copy:
                stack.enter_context(copy)
                text = Text(copy, Offset(0), quoter.lines, quoter.quoted_before)
            quoter.check(copy.size if copy else quoter.given, quoter.messages, *wanted)
        if reading.stripped:
            text = text.stripped(folder)
            stack.enter_context(text.mailbox)
        yield text


def copy_by(quoter: Quoter, folder: bytes) -> Optional[Mailbox]:
    """A copy of what is given of a mailbox; None if all of it is given as it is. What comes before the first difference
    is read once more."""
    given = quoter.run()
    for data in given:
        if wants_copy(quoter.reading, quoter):
            same = Reader(quoter.mailbox.number, quoter.start, quoter.start + quoter.given - len(data))
            return copy_of(quoter.mailbox, itertools.chain(same.blocks(), [data], given), folder)
    return None


@contextlib.contextmanager
def text_then(
    mailbox: Mailbox, reading: Reading, folder: bytes, start_of: StartOf = lambda _, start: start
) -> Iterator[Optional[Text]]:
    """The text of a mailbox as it was read before, from the place on at which it is converted; None if that is not
    known, or if it can't be read so any more. Raises Fault if the mailbox changes."""
    with contextlib.ExitStack() as stack:
        text = None
        if reading.word:
            try:
                text = stack.enter_context(text_by(reading, mailbox, text_start(mailbox) or Offset(0), folder))
            except Fault:
                mailbox.check()
        yield text.begun_by(start_of) if text else None


class AtOnce:
    """Reads the messages of a text in the pass in which it is looked at, since most mailboxes are converted as they
    are. They are known if nothing was wrong with them: whoever reads them again learns what was."""

    def __init__(self, program: Program) -> None:
        self.program = program
        self.known: Optional[Inventory] = None

    def read(self, look: Look) -> Look:
        """Looks at all of a text, and reads its messages if most likely no copy of it is made, by its beginning."""
        first = Look(look.mailbox, look.start).read_begun()
        if not first.may_need_no_copy:
            return first
        pieces = look.passed()
        try:
            # the program must list the same messages
            with self.program.listing(look.mailbox.number, look.start) as listing:
                self.known = Inventory.read(look.mailbox, look.start, listing, pieces=pieces)
        except (Fault, OSError):
            for _ in pieces:
                pass
            # a fault of the look itself ended the look
            if not look.is_whole:
                raise
        return look


def read_messages(program: Program, text: Text, choice: Choice) -> Inventory:
    """The messages of a text that was chosen, as they are known or else as they are read now. The program must list the
    same messages."""
    if choice.known is not None and text.mailbox is choice.mailbox and text.start == choice.plan.start:
        text.mailbox.check()
        return choice.known
    with program.listing(text.mailbox.number, text.start) as listing:
        return text.messages(listing)


def form_of(mailbox: Mailbox) -> Optional[Form]:
    """The form of a mailbox whose text must be unpacked."""
    other = other_of(mailbox) if text_start(mailbox) is None else None
    return other.form if other else None


def content_of(mailbox: Mailbox, folder: bytes) -> contextlib.AbstractContextManager[Mailbox]:
    """The text that a mailbox is, or that it holds, which is unpacked on the disk of a folder; its lines end in LF.
    Raises Fault if it is packed and not complete."""
    form = form_of(mailbox)
    if not form:
        return with_lf(mailbox, folder)
    from .unpacking import unpacked

    return unpacked(mailbox, form, folder)


@contextlib.contextmanager
def choice_of(
    mailbox: Mailbox, folder: bytes, read: HowFar = Look.read, decision: Reading = UNDECIDED
) -> Iterator[Choice]:
    """Chooses the text that stands for a mailbox. Raises Left if something would be a guess that is not decided. What a
    packed mailbox holds is unpacked on the disk of a folder."""
    with content_of(mailbox, folder) as text:
        form = form_of(mailbox) if text is not mailbox else None
        plan = plan_of_packed(text, form, read, decision) if form else plan_of(text, read, decision)
        yield Choice(text, plan, text is not mailbox)


@contextlib.contextmanager
def choice_at_once(
    program: Program, mailbox: Mailbox, folder: bytes, decision: Reading, is_stripped: bool = False
) -> Iterator[Choice]:
    """The same, with the messages if they can be read in the pass in which the text is looked at."""
    at_once = AtOnce(program)
    read: HowFar = at_once.read
    if is_stripped or decision.word or decision.noted:
        read = Look.read
    with choice_of(mailbox, folder, read, decision) as choice:
        yield choice._replace(plan=choice.plan.stripped(is_stripped), known=at_once.known)


def plan_of_packed(text: Mailbox, form: Form, read: HowFar, decision: Reading) -> Plan:
    """The plan of what a mailbox holds. It is looked at like a file."""
    try:
        plan = plan_of(text, read, decision)
    except NoMail:
        raise
    except Question as question:
        question.kind = joined(question.kind, form)
        raise
    except Left as left:
        why = Said(LineNumber(0), "its content is left: %s" % (left.kind or left))
        # what is to be done with its content, if that takes one command; else it is unpacked, or a human finds out
        # first what it holds
        recipe: Recipe = left.recipe if isinstance(left, OtherKind) else ()
        if recipe in (NOT_KNOWN, LIKE_MAIL):
            recipe = form.looks, *recipe[1:]
        elif recipe == ARCHIVE.recipe and form.unpacks_tar:
            recipe = (Makes(form.unpacks_tar, is_folder=True),)
        else:
            recipe = (Makes(form.unpacks),)
        kind = NotKnown if isinstance(left, NotKnown) else OtherKind
        raise kind(text.path, why, recipe, left.reason, joined(left.kind, form)) from left
    return plan._replace(kind=joined(plan.kind, form))


def joined(kind: str, form: Form) -> str:
    """The name of what a mailbox holds, with its form."""
    return "%s, %s" % (kind, form.kind)


@contextlib.contextmanager
def open_text(path: bytes, maildir: bytes, say: Say, recorded: ReadingOf) -> Iterator[Text]:
    """Opens the text that is converted for a mailbox, without a lock, with all its header fields. It is read as it was
    when it was recorded. If the mailbox would be left, the text is the mailbox itself, or what it holds. Raises Fault
    if it is packed and not complete."""
    where = folder_for_copies(maildir)
    with contextlib.ExitStack() as stack:
        mailbox = stack.enter_context(Mailbox.open(path, say))
        source = stack.enter_context(content_of(mailbox, where))
        reading, is_same = recorded(mailbox)
        then = stack.enter_context(text_then(source, reading._replace(stripped=False), where))
        try:
            text = then or stack.enter_context(Choice(source, plan_of(source)).text(where))
        except Left:
            # `convert` leaves line ends as they are
            text = Text(mailbox if source.was_cr else source, Offset(0))
        yield text._replace(start=after_internal(text, maildir), is_recorded=is_same and then is not None)


def folder_for_copies(maildir: bytes, is_trial: bool = False) -> bytes:
    """A folder on the disk where copies are made of what goes into a Maildir. Before that is made, it is the folder in
    which it is to be made. The copies of a trial are in no home."""
    if is_trial:
        return trial_folder()
    if is_folder(maildir):
        return maildir
    above = os.path.dirname(os.path.abspath(maildir))
    return above if may_write(above) else trial_folder()


def is_mbox(path: bytes) -> bool:
    """Whether a file can be read, and is empty or begins with an mbox text, packed or not."""
    try:
        with Mailbox.open(path) as mailbox:
            return not mailbox.size or text_start(mailbox) is not None or form_of(mailbox) is not None
    except (Fault, OSError):
        return False


def after_internal(text: Text, maildir: bytes) -> Offset:
    """Where the messages of a text begin: after the message by which Dovecot keeps an empty mailbox, which is left out
    with its UIDs, unless the Maildir has it."""
    head, end = internal_head(text.mailbox, text.start)
    if head:
        base = next(messages_of(text.mailbox, text.start)).digest.hex().encode() + b".1"
        if not any(name.startswith(base) for name, _ in paths_of(maildir)):
            return end
    return text.start
