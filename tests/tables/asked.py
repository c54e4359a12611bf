"""What is asked about texts, and to what the answers are tied: wherever blocks end, whatever is delivered or noted in
headers meanwhile, and however long lines are."""
import itertools
import random
import re
from collections.abc import Sequence
from pathlib import Path
from typing import Any

from tests.support.checks import equal
from tests.support.homes import by_json, check_all, mailbox
from tests.support.mail import A, B, C, MAY, ONE, TWO, with_length
from tests.support.running import Row
from tests.support.tables import rows_of

BLOCK = 1 << 20
ASKED = A + b"\n>From x\nhi\nFrom me on\nyes\n\n"
NOTED = ASKED.replace(b"\n\n", b"\nStatus: RO\nX-UID: 7\nX-Evolution: 1\nLines: 3\n\n", 1)
DELETED, KEPT = (b"X-Mozilla-Status: 000%d\n\nhello\n\n" % mark for mark in (9, 1))
# texts in which the same is asked as in the first one, and whether its lines have the same numbers
SAME = [
    (ASKED + TWO, True),
    (ASKED, True),
    (ASKED[:-1], True),
    (ASKED + TWO + ONE * 3, True),
    (ASKED + with_length(B, b"yes\n") + b"\n", True),
    (NOTED + TWO, False),
    (TWO + ASKED, False),
    (TWO * 3 + NOTED + TWO, False),
]
# texts of which each asks something else
ANOTHER = [
    ASKED,
    ASKED.replace(b"hi", b"ho"),
    ASKED.replace(b"yes", b"no"),
    ASKED.replace(b"hi\nFrom me on\n", b"From me on\nhi\n"),
    ASKED.replace(b"\nhi", b"\nhi\nFrom me on"),
    ASKED + B + b"\nFrom you on\n\n",
    ASKED + ASKED,
    with_length(A, MAY + b">From a\n") + b"\n" + B + b"\n",
    with_length(A, B + b"\n") + b"\n" + B + b"\n",
    with_length(A, b"hello", 7),
    with_length(B, b"hello", 7),
    A + DELETED,
    A + DELETED + B + DELETED,
    A + DELETED + B + KEPT[:-7] + b"From me on\n\n",
    A + b"\nhello\n\n\0\0" + B + b"\nyes\n\n",
    A + b"\nsee\nFrom x Mon Mar  3 09:12:44 2025\nwhere\n\n",
    A + b"\n\nFrom x\ry Mon Mar  3 09:12:44 2025\n\n",
    (A + b"\nhello\n").replace(b"\n", b"\r"),
]
# a letter that is longer than a block, what is changed in it, and whether the same is asked then: three lines around
# the one that is asked about count, up to lines `From `, without what programs note
LETTER = A + b"\n" + b"x" * 99 + b"\n" + (b"y" * 79 + b"\n") * (BLOCK // 75)
LETTER += b"1\n2\n3\nFrom me on\nX-UID: 7\n4\n\tof it\n6\n7\n"
NEAR = [
    (b"xx", b"xy", True),
    (b"\n1\n", b"\nI\n", False),
    (b"\n6\n", b"\nVI\n", False),
    (b"\n7\n", b"\nVII\n", True),
    (b"X-UID: 7", b"X-UID: 70", True),
    (b"\n3\n", b"\nX-Keywords: a\n b\n3\n", True),
    (b"\n4\n", b"\n>From x\n4\n", False),
]
# lines, and how they are shown
LONG = [
    ("From " + "x" * 67, "From " + "x" * 67),
    ("From " + "x" * 68, "From " + "x" * 67 + "..."),
    ("From " + "\u00e4" * 67, "From " + "\u00e4" * 67),
    ("From " + "\u00e4" * 68, "From " + "\u00e4" * 67 + "..."),
    ("From " + "\x1b" * 16, "From " + "\\x1b" * 16),
    ("From " + "\x1b" * 9000, "From " + "\\x1b" * 16 + "\\x1..."),
]


def said_of(home: Path, texts: Sequence[bytes]) -> list[Row]:
    """What `kind` says of texts."""
    for number, text in enumerate(texts):
        (home / f"{number}.mbox").write_bytes(text)
    return by_json(["kind", *(f"{number}.mbox" for number in range(len(texts)))], home).objects


def ties_in(home: Path, texts: Sequence[bytes]) -> list[tuple[set[str], set[str]]]:
    """What the answers about each text are tied to that name no lines, and those that do."""
    found = []
    for one in said_of(home, texts):
        words = [step["argv"] for step in one["next"] if "--of" in step.get("argv", ())]
        ties = [({"--text", "--begin"} & {*its} != set(), its[its.index("--of") + 1]) for its in words]
        found.append(({tie for by_lines, tie in ties if not by_lines}, {tie for by_lines, tie in ties if by_lines}))
    return found


def the_same(home: Path) -> None:
    """Growth, and what programs note in headers, change no tie. That of lines has their numbers too."""
    ((messages, lines), *others) = ties_in(home, [text for text, _ in SAME])
    equal("how many ties", (len(messages), len(lines)), (1, 1))
    for (text, is_same), its in zip(SAME[1:], others):
        equal(f"{text!r}", (its[0], its[1] == lines), (messages, is_same))
    ((letter, _), *others) = ties_in(home, [LETTER, *(LETTER.replace(before, after) for before, after, _ in NEAR)])
    for (_, after, is_same), its in zip(NEAR, others):
        equal(f"{after!r}", its[0] == letter, is_same)
    before = (TWO * 7, C + b"\n" + b"z" * (BLOCK - 190) + b"\n\n")
    equal("after other mail", ties_in(home, [one + LETTER + b"\n" + TWO for one in before]), [(letter, set())] * 2)


def another(home: Path) -> None:
    """Other messages, another line of them, and one more doubtful line make other ties."""
    ties = [tie for several in ties_in(home, ANOTHER) for tie in (*several[0], *several[1])]
    assert len(ties) > len(ANOTHER), ties
    equal("ties", len({*ties}), len(ties))


def long_lines(home: Path) -> None:
    """72 letters of a line are shown, and that there are more; and what is asked about, if that stands late."""
    found = said_of(home, [A + b"\n" + line.encode() + b"\n" for line, _ in LONG])
    shown = [[(line["line"], line["text"]) for line in one["lines"] if not line["around"]] for one in found]
    equal("as they are shown", shown, [[(5, wanted)] for _, wanted in LONG])
    (late,) = said_of(home, [A + b"\na\n\n" + b"z" * 90 + B + b"\nb\n"])
    lines = [(line["line"], line["text"], line["around"]) for line in late["lines"]]
    from_line = B.split(b"\n", maxsplit=1)[0].decode()
    equal(
        "one that stands late", lines[:4], [(4, "", True), (5, "a", True), (6, "", True), (7, f"...{from_line}", False)]
    )


def many_lines(home: Path) -> None:
    """The first five are shown, with those around them, and all are counted."""
    bare, dated = "without a date at its end", "with a date, but no header after it"
    sorts = {b"From me on\n": bare, b"From me Mon Mar  3 09:12:44 2025\n": dated}
    for line, more in itertools.product(sorts, (0, 1, 4, 299)):
        mailbox(home / "box", A + b"\nhi\n" + line * (more + 1) + b"\nend\n\n")
        row = by_json("migrate --dry-run --now M box", home).row
        says = f"line 6: a line `From ` {sorts[line]}" + (f" (and {more} more)" if more else "")
        marked = min(more + 1, 5)
        equal("what is said", row["says"], says)
        equal("those asked about", [one["line"] for one in row["lines"] if not one["around"]], [*range(6, 6 + marked)])
        equal("those shown", [one["line"] for one in row["lines"]], [*range(3, 6 + marked + 3)])


def facts_of(one: Row, shift: int) -> list[Any]:
    """What is said of a text, with lines as if its header were not so long."""
    details = [
        ((line["line"] or 0) - shift * ((line["line"] or 0) > 1), line["text"], re.sub(r"line \d+", "", line["says"]))
        for line in one.get("details", ())
    ]
    lines = [(line["line"] - shift, line["text"]) for line in one["lines"] if not line["around"]]
    nexts = [(step.get("answer"), step.get("messages")) for step in one["next"]]
    return [one["kind"], one["messages"], one["most"], details, lines, nexts]


def wherever_blocks_end(home: Path) -> None:
    """The same is asked about a text whose first header is so long that a block ends within what follows it."""
    draw = random.Random(1)
    texts = [row.text for row in rows_of("kinds.txt") if row.text.startswith(A) and len(row.text) < 5000]
    assert len(texts) > 30, texts
    longer, shifts = [], []
    for text in texts:
        first, rest = text.split(b"\n", maxsplit=1)
        count, last = divmod(BLOCK - draw.randrange(len(rest)) - len(first) - 9, 80)
        longer.append(first + b"\nX: y\n" + (b" " + b"x" * 78 + b"\n") * count + b" " + b"x" * last + b"\n" + rest)
        shifts.append(count + 2)
    for text, short, long, shift in zip(texts, said_of(home, texts), said_of(home, longer), shifts):
        equal(f"{text!r}", facts_of(long, shift), facts_of(short, 0))


if __name__ == "__main__":
    check_all(the_same, another, long_lines, many_lines, wherever_blocks_end)
