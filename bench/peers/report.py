"""The page that says what was measured."""
import datetime
import platform
from typing import Dict, List, Mapping, NamedTuple, Sequence

from .corpus import Corpus
from .outcome import Outcome
from .tools import Tool
from .trials import Full, Plain


class Measured(NamedTuple):
    """What one converter gave."""

    tool: Tool
    plain: Plain
    killed: List[Outcome]
    full: Full


def table(heads: Sequence[str], rows: Sequence[Sequence[object]]) -> str:
    """A table of Markdown."""
    lines = [heads, ["---", *["---:"] * (len(heads) - 1)], *rows]
    return "".join("| %s |\n" % " | ".join(map(str, line)) for line in lines)


def ours(measured: Measured) -> str:
    """The name of a converter. This project's own is in bold."""
    name = measured.tool.name
    return "**%s**" % name if name.startswith("mbox2maildir") else name


def plain_row(one: Measured) -> List[object]:
    """What one run gave."""
    found = one.plain.outcome
    return [
        ours(one),
        found.exact,
        found.end,
        found.header,
        found.escaped,
        found.changed,
        found.cut + found.strangers,
        found.lost,
        found.doubled,
        found.flagged,
        "%.2f s" % one.plain.run.seconds,
        one.plain.run.status,
    ]


def killed_row(one: Measured) -> List[object]:
    """What runs gave that were killed and started again."""
    right = sum(outcome.is_right() for outcome in one.killed)
    sums = [sum(getattr(outcome, name) for outcome in one.killed) for name in ("lost", "doubled", "cut", "strangers")]
    return [ours(one), "%d of %d" % (right, len(one.killed)), sums[0], sums[1], sums[2] + sums[3]]


def full_row(one: Measured) -> List[object]:
    """What a full disk gave, and then the same words once there was space."""
    found = one.full.outcome
    status = "killed" if one.full.status is None else one.full.status
    return [ours(one), status, found.lost, found.doubled, found.cut + found.strangers]


PAGE = """# Comparison with other converters

`python3 -m bench.peers build/mbox2maildir` printed this page on {day} with {machine}. Each converter was called as its
documentation says, with the same mboxrd of {messages} messages: {escaped} have a line that begins with `From `, and
{flagged} have flags in `Status` and `X-Status`. The packages: {versions}.
{missing}
## One run

The first six columns count files. *Exactly*: the file holds the message as its sender wrote it. *End*: it has too many
or too few line ends at its end. *Header*: header lines were added or left out. *Escaped*: lines `From ` still have
their `>`. *Other*: it has other bytes. *Broken*: it ends too early, or holds no message. *Lost* counts messages without
a file, *Doubled* messages with several, *Flags* messages that kept their flags.

{plain}
The files were in memory. On a disk, `convert` takes longer: it waits for the sync of each file. Most others sync no
file, and promise nothing about a power cut.

## Killed, and the same command again

Each converter was killed at {kills} moments spread over its run, with all processes that it had started. After each
kill, the same command ran to its end. *Lost*, *Doubled* and *Broken* are totals.

{killed}
## A full disk

The disk became full when about half of the mail was there. *Status* is that of this run. Then there was room again, and
the same command ran once more.

{full}
## What others do better

- `doveadm backup` keeps keywords and UIDs, as `mbox2maildir-admin migrate --dovecot` does. You can start it again: it
  compares both sides. But like `doveadm import`, it writes fields `X-UID` into the old mailbox. A kill during that
  write left some messages twice there. After a kill at a later moment of the run, the same command failed: `INBOX can't be deleted`.
- `mutt`, Dovecot's commands, Python and Mail::Box read many formats. `convert` reads one.
"""


def page(corpus: Corpus, measured: Sequence[Measured], versions: Mapping[str, str], missing: Sequence[str]) -> str:
    """The whole page."""
    some: Dict[str, object] = {
        "day": datetime.date.today().isoformat(),
        "machine": "%s %s" % (platform.system(), platform.release().split("-")[0]),
        "messages": len(corpus.messages),
        "escaped": len(corpus.escaped()),
        "flagged": len(corpus.flagged()),
        "kills": len(measured[0].killed) if measured else 0,
        "versions": ", ".join("%s %s" % one for one in sorted(versions.items())),
        "missing": "This machine does not have %s.\n" % ", ".join(missing) if missing else "",
        "plain": table(
            [
                "Converter",
                "Exactly",
                "End",
                "Header",
                "Escaped",
                "Other",
                "Broken",
                "Lost",
                "Doubled",
                "Flags",
                "Time",
                "Status",
            ],
            [plain_row(one) for one in measured],
        ),
        "killed": table(
            ["Converter", "Runs with each message once", "Lost", "Doubled", "Broken"],
            [killed_row(one) for one in measured],
        ),
        "full": table(["Converter", "Status", "Lost", "Doubled", "Broken"], [full_row(one) for one in measured]),
    }
    return PAGE.format(**some)
