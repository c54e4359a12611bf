"""How a mailbox is read and written, and whether it gives back what is appended."""
import contextlib
from collections.abc import Callable, Iterator, Sequence
from typing import NamedTuple, Optional

from ..faults import Fault, Left, Reason
from ..kinds.starts import ends_in_cr, text_start
from ..mbox.inventory import Inventory
from ..mbox.mailbox import Mailbox
from ..migration.known import Known
from ..program import Program
from ..readings.plans import plan_of
from ..readings.reading import MBOXCL2, MBOXRD, UNDECIDED, Reading
from ..readings.texts import NO_LONGER, form_of, text_then
from .dialect import Dialect
from .mails import Mail

# takes a text, and its messages
TakeText = Callable[[Mailbox, Inventory], object]
# begins what stands for the reading of a mailbox that would be left
ASKED = "?"
# how many bytes at the end of a mailbox show whether its last message has ended
ENDS = 3


class Appended(NamedTuple):
    """A message that is going to be appended: its file, the bare forms in which a mailbox may give it back, where its
    text is in the addition, and the names of the fields that were taken out of it."""

    mail: Mail
    bares: Sequence[bytes]
    start: int
    size: int
    taken: Sequence[bytes]


class Style(NamedTuple):
    """How a mailbox is read and written: by which words, in which dialect, what is missing at its end, whether
    something is asked about it anyhow, what may be decided about it again by which it is read otherwise, and a folder
    on whose disk copies are made."""

    words: str
    dialect: Dialect
    gap: bytes
    is_asked: bool
    again: Optional[Reading]
    disk: bytes

    def messages(
        self, mailbox: Mailbox, program: Optional[Program] = None, look: Optional[TakeText] = None
    ) -> Inventory:
        """The messages of a mailbox that is so read. If a program is given, it must list the same messages. `look` gets
        the text that was read, and its messages."""
        if not mailbox.size:
            return Inventory()
        with text_then(mailbox, Reading.of_words(self.words)._replace(stripped=False), self.disk) as text:
            if not text:
                raise Left(NO_LONGER % self.words, Reason.ANOTHER_READING)
            with contextlib.ExitStack() as stack:
                listing = stack.enter_context(program.listing(text.mailbox.number, text.start)) if program else None
                inventory = text.messages(listing)
            if look:
                look(text.mailbox, inventory)
            return inventory

    def gives(self, text: Mailbox, entries: Sequence[Appended], first: int = 0) -> bool:
        """Whether a text has exactly these messages from a place on, and nobody would be asked how it is read."""
        try:
            is_clear = self.is_asked or not reading_now(text).startswith(ASKED)
            return is_clear and are_at(entries, self.messages(text), first)
        except Fault:
            return False

    def gives_again(self, text: Mailbox, entries: Sequence[Appended]) -> bool:
        """Whether a text with a message that has no length ends with these ones also if the same is decided about it
        again. Who is asked then sees them."""
        words = reading_now(text, self.again) if self.again else ASKED
        if words.startswith(ASKED):
            return True
        inventory = self._replace(words=words).messages(text)
        return are_at(entries, inventory, len(inventory) - len(entries))


def styles_of(known: Known, disk: bytes, is_dovecots: bool) -> Iterator[Style]:
    """How an open mailbox may be read and written: by the words of its ledger, also if it was moved from its path
    there, and by those by which it is read now. Programs that deliver without lengths may have changed that since it
    was migrated, or a human had decided it, who may decide the same again. Nothing can be appended to one that is
    packed, or of another kind."""
    ledger, mailbox = known.ledger, known.opened.mailbox
    if not mailbox.size:
        # it may be decided that all mailboxes of Dovecot's users are read by lengths
        lengths = Reading(MBOXCL2, alone=False)
        for word, decision in ((MBOXRD, lengths), (MBOXCL2, lengths), (MBOXRD, None))[0 if is_dovecots else -1 :]:
            yield Style(word, Dialect(word, False), b"", False, decision, disk)
        return
    if text_start(mailbox) is None or form_of(mailbox) or ends_in_cr(mailbox):
        return
    now = reading_now(mailbox)
    # whether it has all that one had which was moved, its messages show once they are read
    last = [ledger.last_read(one).words for one in known.paths()[:1]]
    for words in dict.fromkeys([*last, now]):
        dialect = Dialect.of_words(words)
        if not dialect:
            # whoever reads it so again would keep each `>` that another dialect adds
            return
        word = Reading.of_words(last[0]).word if last else ""
        again = Reading(word, alone=False) if word not in ("", dialect.word) else None
        for gap in dialect.gaps_after(mailbox.at(mailbox.size - ENDS, ENDS)):
            yield Style(words, dialect, gap, now.startswith(ASKED), again, disk)


def reading_now(mailbox: Mailbox, decision: Reading = UNDECIDED) -> str:
    """The words by which a mailbox is read as it is now; a word for why not, if it would be left."""
    try:
        return plan_of(mailbox, decision=decision).reading.words()
    except Left as left:
        return ASKED + left.reason.word


def are_at(entries: Sequence[Appended], inventory: Inventory, first: int) -> bool:
    """Whether a text has these messages, and no others, from a place on."""
    return len(inventory) == first + len(entries) and all(
        inventory.core(place) == one.mail.core and inventory.bare(place) in one.bares
        for place, one in enumerate(entries, first)
    )
