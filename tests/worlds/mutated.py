"""Texts that no program wrote: mailboxes with bytes flipped, and lines moved, cut and doubled. By each word, the copy
that the companion makes of a text, read as mbox2maildir reads it, must be what the splitter reads in the text. No other
byte may change."""
import functools
import os
from collections.abc import Callable, Iterator
from random import Random
from typing import Optional

from mbox2maildir_admin.faults import Fault
from mbox2maildir_admin.mbox.mailbox import Mailbox
from mbox2maildir_admin.readings.quoting import Quoter
from mbox2maildir_admin.readings.reading import Reading
from mbox2maildir_admin.units import LineNumber, Offset

from tests.support.splitter import WORDS, begins_dated, is_from, lines_of, split
from tests.worlds.letters import letters
from tests.worlds.stage import Stage
from tests.worlds.writers import WRITERS

# what comes before a text that has lost its first From_ line
FIRST = b"From mia@example.org Mon Mar  3 09:12:44 2025\n"
Mutation = Callable[[Random, bytes], bytes]
# what is put into a text: what begins messages, ends lines, and gives lengths
SPLINTERS = [
    b"From ",
    b"\nFrom ",
    b"\n\nFrom a@b Mon Mar  3 09:12:44 2025\n",
    b"From a@b Mon Mar  3 09:12:44 2025\nSubject: x\n\n",
    b"\n>From ",
    b"\n>>From x\n",
    b">",
    b"\n",
    b"\r\n",
    b"\r",
    b"\0\0",
    b"\nContent-Length: 12\n",
    b"\n\n",
    b" Mon Mar  3 09:12:44 2025\n",
]


def flip(draw: Random, text: bytes) -> bytes:
    """The text with another byte in place of one."""
    place = draw.randrange(len(text))
    return text[:place] + bytes([draw.randrange(256)]) + text[place + 1 :]


def cut(draw: Random, text: bytes) -> bytes:
    """The text without some bytes in its middle."""
    place = draw.randrange(len(text))
    return text[:place] + text[place + draw.choice([1, 1, 1, 2, 5, 40]) :]


def cut_off(draw: Random, text: bytes) -> bytes:
    """The text without its end."""
    return text[: draw.randrange(1, len(text) + 1)]


def double(draw: Random, text: bytes) -> bytes:
    """The text with a part of it twice."""
    place, count = draw.randrange(len(text)), draw.choice([1, 5, 60, len(text)])
    return text[: place + count] + text[place : place + count] + text[place + count :]


def put_in(draw: Random, text: bytes) -> bytes:
    """The text with a splinter in it."""
    place = draw.randrange(len(text) + 1)
    return text[:place] + draw.choice(SPLINTERS) + text[place:]


def of_lines(change: Callable[[Random, list[bytes]], None]) -> Mutation:
    """A mutation of lines: a function changes the list of them."""

    def mutation(draw: Random, text: bytes) -> bytes:
        lines = text.split(b"\n")
        change(draw, lines)
        return b"\n".join(lines)

    return mutation


def swap(draw: Random, lines: list[bytes]) -> None:
    """Exchanges two lines."""
    one, other = draw.randrange(len(lines)), draw.randrange(len(lines))
    lines[one], lines[other] = lines[other], lines[one]


def repeat(draw: Random, lines: list[bytes]) -> None:
    """Doubles a line."""
    lines.insert(draw.randrange(len(lines)), draw.choice(lines))


def drop(draw: Random, lines: list[bytes]) -> None:
    """Removes a line."""
    del lines[draw.randrange(len(lines))]


def quote(draw: Random, lines: list[bytes]) -> None:
    """Puts something before a line."""
    place = draw.randrange(len(lines))
    lines[place] = draw.choice([b">", b">>", b"From ", b">From ", b" ", b"\0", b"\0From "]) + lines[place]


def end_in_cr(draw: Random, lines: list[bytes]) -> None:
    """Makes a line end in CR LF, or each line."""
    places = [draw.randrange(len(lines))] if draw.random() < 0.7 else range(len(lines))
    for place in places:
        lines[place] += b"\r"


MUTATIONS = [flip, cut, cut_off, double, put_in, put_in, *map(of_lines, (swap, repeat, drop, quote, end_in_cr))]


def mutated(draw: Random, text: bytes) -> bytes:
    """A text after some mutations. Mostly its first line stays."""
    first, rest = (b"", text) if draw.random() < 0.1 else (text[: text.index(b"\n") + 1], text[text.index(b"\n") + 1 :])
    for _ in range(draw.randint(1, 5)):
        rest = draw.choice(MUTATIONS)(draw, rest) if rest else rest
    return first + rest


@functools.lru_cache(maxsize=1)
def drawn(seed: int) -> bytes:
    """The text of a writer. Several texts are made of it."""
    draw = Random(f"drawn {seed}")
    return WRITERS[draw.choice(list(WRITERS))](draw, letters(draw, 4)).text


def named_lines(draw: Random, text: bytes) -> tuple[frozenset[int], frozenset[int]]:
    """Some lines `From ` after the first that are mail, and some that begin messages."""
    marks = [number for number, line in enumerate(lines_of(text), 1) if is_from(line)][1:]
    draw.shuffle(marks)
    half = draw.randint(0, len(marks))
    return frozenset(marks[:half][:2]), frozenset(marks[half:][:2])


def copied(path: bytes, word: str, mail: frozenset[int], begin: frozenset[int]) -> Optional[bytes]:
    """The companion's copy of a file; None if the companion refuses it."""
    with Mailbox.open(path) as mailbox:
        try:
            reading = Reading(word, frozenset(map(LineNumber, mail)), frozenset(map(LineNumber, begin)))
            quoter = Quoter(reading, mailbox, Offset(0))
            copy = b"".join(quoter.run())
            quoter.check(len(copy), quoter.messages)
        except Fault:
            return None
    return copy


def one_text(stage: Stage, seed: int) -> Iterator[str]:
    """A text that was mutated, by a word, and by lines that are named."""
    draw = Random(f"mutated {seed}")
    text = mutated(draw, drawn(seed // 8)).lstrip(b"\0")
    text, word = text if is_from(text) else FIRST + text, draw.choice(WORDS)
    mail, begin = named_lines(draw, text) if draw.random() < 0.3 else (frozenset(), frozenset())
    path = stage.place.home / "text"
    path.write_bytes(text)
    copy = copied(os.fsencode(path), word, mail, begin)
    # no message may begin with its first line
    is_refused = word == "unquoted" and not begins_dated(text)
    stage.seen["refused" if is_refused else word] += 1
    if is_refused or copy is None:
        if is_refused != (copy is None):
            yield f"--as {word}: refused: {copy is None}"
        return
    got, wanted = split(copy, "mboxrd"), split(text, word, mail, begin)
    if got != wanted:
        pair = next((pair for pair in zip(got, wanted) if pair[0] != pair[1]), "the last are missing, or too many")
        yield f"--as {word}, text {sorted(mail)}, begin {sorted(begin)}: {len(got)}, not {len(wanted)}: {pair}"
