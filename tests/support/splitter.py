"""What an mbox text holds by the word that says how it was written: its messages, as files of a Maildir have them.

It shares no code with the companion, and reads the whole text at once, line by line. The words:

    mboxrd    each line `From ` begins a message; a line of `>`, one or more, and `From ` loses one
    mboxo     each line `From ` begins a message; a line `>From ` loses its `>`
    mboxcl    as mboxcl2, and a line of `>`, one or more, and `From ` loses one
    mboxcl2   a message with a correct length ends there, others at the next line `From `; the first have nothing taken
              from their lines, the others are read as mboxo
    unquoted  each line `From ` that ends in a date begins a message; no line loses anything
"""
import itertools
import re
from collections.abc import Callable
from typing import NamedTuple, Optional

WORDS = ("mboxrd", "mboxo", "mboxcl", "mboxcl2", "unquoted")

WEEKDAY = r"(?i:mon|tue|wed|thu|fri|sat|sun)"
MONTH = r"(?i:jan|feb|mar|apr|may|jun|jul|aug|sep|oct|nov|dec)"
CLOCK = r"(?:[01]?\d|2[0-3]):[0-5]\d(?::(?:[0-5]\d|60))?"
ZONE = r"(?:\s+(?:(?:GMT|UTC)?[-+]\d{4}|[A-Z]+(?:\s+DST)?))?"
YEAR = r"(?:19|20)\d\d"
# as `date` prints it, and as a header has it
ASCTIME = rf"{MONTH}\s+\d\d?\s+{CLOCK}{ZONE}\s+{YEAR}{ZONE}"
OF_HEADER = rf"\d\d?\s+{MONTH}\s+(?:{YEAR}|\d\d)\s+{CLOCK}{ZONE}"
AFTER = r"(?:\s+\([^()]*\)|\s+remote\s+from\s+\S+)?\s*"
DATED = re.compile(rf"From (?:.*\s)?{WEEKDAY},?\s+(?:{ASCTIME}|{OF_HEADER}){AFTER}\Z", re.DOTALL)
INTERNAL = b"Subject: DON'T DELETE THIS MESSAGE -- FOLDER INTERNAL DATA\n"
HEADED = re.compile(rb"[!-9;-~]+[ \t]*:|>From ")
# a line `From ` with one word, and what rmail puts between a From_ line and the header
ALONE, BY_RMAIL = re.compile(rb"From (\S+)\s*\Z"), re.compile(rb">+From ")
# how long a From_ line may be
LONGEST = 998
LENGTH = re.compile(rb"^content-length:([^\n]*(?:\n[ \t][^\n]*)*)", re.I | re.M)


class Message(NamedTuple):
    """A message of a text: its From_ line, the lines after that, and how many of these belong to it by a right
    length."""

    from_line: bytes
    lines: list[bytes]
    by_length: int


def lines_of(text: bytes) -> list[bytes]:
    """The lines of a text, with their ends."""
    return re.findall(rb"[^\n]*\n|[^\n]+\Z", text)


def is_from(line: bytes) -> bool:
    """Whether a line begins as a From_ line does."""
    return line.startswith(b"From ")


def is_dated(line: bytes) -> bool:
    """Whether a line `From ` ends in a weekday, a date and a time. A line that is too long does not count."""
    return len(line.rstrip(b"\n")) <= LONGEST and DATED.match(line.decode("latin-1")) is not None


def header_of(lines: list[bytes]) -> list[bytes]:
    """The header of a message, given its lines after the From_ line."""
    for count, line in enumerate(lines):
        if line in (b"\n", b"\r\n") or is_from(line):
            return lines[:count]
    return lines


def right_length(lines: list[bytes]) -> Optional[int]:
    """How many of the lines after a From_ line belong to its message by a correct length: after the body that it
    measures come at most one line end, and then a line `From ` or the end."""
    header = header_of(lines)
    fields = LENGTH.findall(b"".join(header))
    digits = fields[-1].strip() if fields else b""
    rest = lines[len(header) :]
    if rest and not is_from(rest[0]):
        rest = rest[1:]
    text = b"".join(rest)
    if not re.match(rb"[0-9]{1,18}\Z", digits) or int(digits) > len(text):
        return None
    body, after = text[: int(digits)], text[int(digits) :]
    blank = re.match(rb"(?:\r?\n)?", after)
    assert blank is not None, "it matches nothing too"
    follows = after[blank.end() :]
    is_at_line = blank.end() or not body or body.endswith(b"\n")
    return len(lines) - len(lines_of(follows)) if not follows or is_from(follows) and is_at_line else None


def messages_in(
    lines: list[bytes], begins: Callable[[int], bool], by_length: bool, named: frozenset[int] = frozenset()
) -> list[Message]:
    """The messages in lines, the first of which is a From_ line. `begins` says by its place whether a line begins a
    message; lines at the places `named` do so even within a length."""
    messages, at = [], 0
    while at < len(lines):
        count = (right_length(lines[at + 1 :]) if by_length else None) or 0
        end = min([at + 1 + count, *(place for place in named if place > at)])
        while end < len(lines) and not begins(end):
            end += 1
        messages.append(Message(lines[at], lines[at + 1 : end], count))
        at = end
    return messages


def unquoted(message: Message, word: str) -> list[bytes]:
    """The lines of a message without what was put before them."""
    quoted = {"mboxrd": rb">+From ", "mboxcl": rb">+From ", "unquoted": rb"(?!)"}.get(word, rb">From ")
    kept = message.by_length if word == "mboxcl2" else 0
    return message.lines[:kept] + [
        line[1:] if line.startswith(b">") and re.match(quoted, line) else line for line in message.lines[kept:]
    ]


def parted(text: bytes, begin: frozenset[int]) -> tuple[list[bytes], list[int]]:
    """The lines of a text, and their numbers. In a line that is said to begin a message, the From_ line may be at the
    end: after NUL bytes, which are removed, or after text, which is a line of its own then."""
    lines, numbers = [], []
    for number, line in enumerate(lines_of(text), 1):
        if number in begin and not is_from(line):
            before, mark, date = line.rpartition(b"From ")
            rest = before.rstrip(b"\0")
            lines += [rest + b"\n"] if rest else []
            numbers += [0] if rest else []
            line = mark + date
        lines.append(line)
        numbers.append(number)
    return lines, numbers


def split(
    text: bytes, word: str, mail: frozenset[int] = frozenset(), begin: frozenset[int] = frozenset()
) -> tuple[bytes, ...]:
    """The messages of a text by a word, with the numbers of lines that are mail, and of lines that begin messages. NUL
    bytes before the first message belong to none."""
    return tuple(message for _, message in pieces(text, word, mail, begin))


def pieces(
    text: bytes, word: str, mail: frozenset[int] = frozenset(), begin: frozenset[int] = frozenset()
) -> list[tuple[bytes, bytes]]:
    """The same, each with its From_ line."""
    lines, numbers = parted(text.lstrip(b"\0"), begin)

    def begins(place: int) -> bool:
        if numbers[place] in mail or numbers[place] in begin:
            return numbers[place] in begin
        return is_from(lines[place]) and (word != "unquoted" or is_dated(lines[place]))

    named = frozenset(place for place, number in enumerate(numbers) if number in begin)
    found = []
    for one in messages_in(lines, begins, word in ("mboxcl", "mboxcl2"), named):
        body = unquoted(one, word)
        if one.from_line.endswith(b"\r\n"):
            # the program that wrote the From_ line has added the CR before each line end
            body = [line[:-2] + b"\n" if line.endswith(b"\r\n") else line for line in body]
        # the blank line at its end belongs to the mailbox
        message = b"".join(body[:-1] if body and body[-1] == b"\n" else body)
        found.append((one.from_line.rstrip(b"\r\n"), message))
    return found


def begins_dated(text: bytes) -> bool:
    """Whether a text begins with a From_ line that ends in a date."""
    return is_dated(lines_of(text.lstrip(b"\0"))[0])


def without_deleted(messages: tuple[bytes, ...]) -> tuple[bytes, ...]:
    """Messages without those that Thunderbird marked as deleted, if each has a mark. The first such field counts."""
    headers = [message.split(b"\n\n")[0] + b"\n" for message in messages]
    marks = [re.search(rb"(?im)^x-mozilla-status:[ \t]*([0-9a-f]{4})[ \t]*$", header) for header in headers]
    if not all(marks):
        return messages
    return tuple(one for one, mark in zip(messages, marks) if mark and not int(mark.group(1), 16) & 8)


def has_sure_lengths(text: bytes) -> bool:
    """Whether each message of a text has a correct length, except the one by which Dovecot keeps an empty mailbox, and
    no length leads over a From_ line that ends in a date."""
    lines = lines_of(text.lstrip(b"\0"))
    messages = messages_in(lines, lambda at: is_from(lines[at]), True)
    mail = messages[1:] if INTERNAL in messages[0].lines else messages
    is_over = any(is_from(line) and is_dated(line) for one in mail for line in one.lines)
    return bool(mail) and not is_over and all(one.by_length for one in mail)


def quoted_lines(text: bytes) -> dict[str, int]:
    """How many lines of `>` and `From ` a row speaks of, by the word that reads them in another way: those with several
    `>`; within correct lengths those with a single `>`; both of these; and elsewhere those with a single one."""
    lines = lines_of(text.lstrip(b"\0"))
    messages = messages_in(lines, lambda at: is_from(lines[at]), True)
    within = [line for one in messages for line in one.lines[: one.by_length]]

    def count(some: list[bytes], pattern: bytes) -> int:
        return sum(re.match(pattern, line) is not None for line in some)

    single, several = count(within, rb">From "), count(lines, rb">>+From ")
    return {
        "mboxo": several,
        "mboxcl2": single,
        "mboxcl": single + several,
        "unquoted": count(lines, rb">From ") - single,
    }


def contradictions(text: bytes, word: str) -> list[int]:
    """The numbers of the lines `From ` that contradict a word, if it is said of several mailboxes. For mboxrd and mboxo
    these are lines within a correct length, or without both a date and a header after them; for mboxcl and mboxcl2
    those within a length that look like mail, and "outside" those without both, which contradict it for one mailbox
    too; for unquoted dated ones without a header."""
    lines, found = lines_of(text), []
    inside = set(range(1, len(lines) + 1))
    place = 1
    for message in messages_in(lines, lambda at: is_from(lines[at]), True):
        inside -= {place} if message.by_length else set(range(place, place + 1 + len(message.lines)))
        place += 1 + len(message.lines)
    for number, (line, after) in enumerate(zip(lines[1:], [*lines[2:], b""]), 2):
        if is_from(line):
            dated, headed, within = is_dated(line), HEADED.match(after) is not None, number in inside
            like_mail = within and (headed if dated else is_like_mail(lines, number, number + 2 in inside))
            by_word = {"unquoted": dated and not headed, "mboxrd": within or not (dated or headed)}
            by_word["outside"] = not within and not (dated or headed)
            by_word["mboxcl"] = like_mail or by_word["outside"]
            found += [number] if by_word[{"mboxo": "mboxrd", "mboxcl2": "mboxcl"}.get(word, word)] else []
    return found


def is_like_mail(lines: list[bytes], number: int, has_more: bool) -> bool:
    """Whether a line `From ` without a date looks like mail: by an address alone, by a header after it and after the
    lines `>From ` of rmail, or by one word alone between blank lines, if its message has more lines than these."""
    line, before, following = lines[number - 1], lines[number - 2], lines[number:]
    after = next(itertools.dropwhile(BY_RMAIL.match, following), b"")
    is_between = has_more and {before, following[0]} <= {b"\n", b"\r\n"}
    word = ALONE.match(line)
    return HEADED.match(after) is not None or word is not None and (b"@" in word[1][1:-1] or is_between)
