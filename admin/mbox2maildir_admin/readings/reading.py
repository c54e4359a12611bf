"""A reading: what it takes to get the messages of a mailbox out of its text. In words it is what a human decides, what
the record and the ledger note, and what is tried.

A line `From ` has no `>` before it. A length is right if it leads to such a line, or to the end of the text.

| Word | These lines begin messages | A line of `>` and `From ` |
|---|---|---|
| mboxrd | each line `From ` | loses a `>` |
| mboxo | each line `From ` | loses its `>` if that is the only one; else it stays |
| mboxcl | after a message with a correct length the next, else each line `From ` | loses a `>` |
| mboxcl2 | the same | stays in a message with a correct length, also in its header; else as mboxo |
| unquoted | each line `From ` that ends in a date | stays |

Lines that are named as text begin no message, and lines that are named as beginnings do, whatever the word says.
"""
from collections.abc import Iterable, Mapping
from typing import NamedTuple, Optional

from ..units import LineNumber

MBOXRD, MBOXO, MBOXCL, MBOXCL2, UNQUOTED = WORDS = ("mboxrd", "mboxo", "mboxcl", "mboxcl2", "unquoted")
# the words by which a message with a correct length ends where that says
BY_LENGTHS = MBOXCL, MBOXCL2
# line ends of CR LF, in the messages whose From_ line has them, and of CR alone in all of the text
CRLF, CR = "crlf", "cr"
DROP, STRIPPED = "drop-deleted", "dovecot"
# what is said in a record of an answer for several mailboxes
SEVERAL = "several"


class Reading(NamedTuple):
    """How a text is read. A human decides the first fields: the word, or none if it is certain; the lines that are text
    and those that begin messages; the tie to what this was decided about; and whether mail is left out that Thunderbird
    marked as deleted. That is everything about one mailbox that was named; of several mailboxes, it decides only about
    those that do not contradict it. What an earlier run has noted decides nothing that is asked now; beside a decision
    on several mailboxes, it counts for what was asked about one.

    The text shows its line ends, if they are not LF, and how many messages are left out. Besides, one of several
    folders may get a part of the messages, and header fields may be left out that mail programs wrote for themselves.
    """

    word: str = ""
    text: frozenset[LineNumber] = frozenset()
    begin: frozenset[LineNumber] = frozenset()
    of: str = ""
    drop: bool = False
    alone: bool = True
    ends: str = ""
    dropped: int = 0
    part: str = ""
    stripped: bool = False
    noted: Optional["Reading"] = None

    @property
    def decided(self) -> "Reading":
        """What a human may decide of it."""
        return Reading(self.word, self.text, self.begin, self.of, self.drop)

    @property
    def of_text(self) -> "Reading":
        """How all of the text is read. What it has as stripped text, and what goes into each of several folders,
        depends only on that."""
        return Reading(self.word, self.text, self.begin, self.of, self.drop, self.alone, self.ends)

    def options(self) -> list[str]:
        """What a human may decide of it, as words of a command."""
        options = ("--as", self.word), ("--text", numbers(self.text)), ("--begin", numbers(self.begin))
        given = [word for option in (*options, ("--of", self.of)) if option[1] for word in option]
        return given + ["--" + DROP] * self.drop

    def words(self) -> str:
        """All of it in words, for the record."""
        of_human = {"text": numbers(self.text), "begin": numbers(self.begin), "of": self.of}
        pairs = {**of_human, "dropped": str(self.dropped or ""), "labels": self.part}
        named = ("%s=%s" % pair for pair in pairs.items() if pair[1])
        marks = DROP * self.drop, STRIPPED * self.stripped, SEVERAL * (not self.alone)
        return " ".join(filter(None, [self.word, *named, self.ends, *marks]))

    @classmethod
    def of_words(cls, words: Optional[str]) -> "Reading":
        """Reads the words of a record. Those of another version say nothing, as if there were none."""
        several = (words or "").split(" ")
        named = dict(one.partition("=")[::2] for one in several)
        try:
            text, begin = (lines_named(filter(None, [named.get(name)])) for name in ("text", "begin"))
            dropped = int(named.get("dropped", "0"))
        except ValueError:
            return cls()
        word = several[0] if several[0] in WORDS else ""
        ends = next((one for one in (CRLF, CR) if one in named), "")
        found = cls(word, text, begin, named.get("of", ""), DROP in named, SEVERAL not in named, ends, dropped)
        found = found._replace(part=named.get("labels", ""), stripped=STRIPPED in named)
        return found if found.words() == words else cls()


UNDECIDED, PLAIN = Reading(), Reading(MBOXRD)


def with_deleted(reading: Reading) -> Reading:
    """The same reading with the mail that is marked as deleted."""
    return reading._replace(drop=False, dropped=0)


def renumbered(reading: Reading, new: Mapping[LineNumber, LineNumber]) -> Reading:
    """The same reading with other numbers of its lines, as far as these have new ones."""
    text, begin = (frozenset(new[line] for line in lines if line in new) for lines in reading[1:3])
    return reading._replace(text=text, begin=begin)


def numbers(lines: Iterable[LineNumber]) -> str:
    """The numbers of lines, as an option has them."""
    return ",".join(map(str, sorted(lines)))


def lines_named(texts: Iterable[str]) -> frozenset[LineNumber]:
    """The lines that options name, several of them with commas. Raises ValueError if one is not the number of a
    line."""
    found: list[int] = [int(number) for text in texts for number in text.split(",")]
    if min(found, default=1) < 1:
        raise ValueError("lines are counted from 1 on")
    return frozenset(map(LineNumber, found))
