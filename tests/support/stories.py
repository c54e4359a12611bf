"""Stories: what is done in a home, step by step, what each command says then, and what mail is there."""
import re
from collections.abc import Callable, Iterable, Mapping
from functools import partial
from pathlib import Path
from typing import Union

from tests.support.cases import run_cases
from tests.support.checks import equal, matches
from tests.support.homes import at_home, by_json, fake, mail_in, mailbox, restore, run_printed
from tests.support.ledgers import PREPARED, besides
from tests.support.running import Row, Run

# A mailbox is written; a command of the companion says this of its rows; one is run, by the companion or after `!` by a
# shell, `>` is the first command that was printed last; after `@` stands what converts in place of the program, which
# is `"$real"` there; after `=` stands the mail that is there then.
Step = Union[tuple[str, bytes], tuple[str, str], str]
# the program is in its place again
RESTORED = "@"


def steps(*several: Step) -> list[Step]:
    """Some steps of a story."""
    return [*several]


# the last call of the program fails, which is a sync
SYNC_FAILS = '@"$real" "$@"; echo "mbox2maildir: folder call 9 failed" >&2; exit 1'


def killed(words: str) -> list[Step]:
    """Runs a command that is killed once the program has placed everything, and the kernel's clock has ticked: what a
    person does within a tick, no time shows."""
    return ['@"$real" "$@"; sleep 0.05; kill -9 $PPID', words, RESTORED]


def said_of(row: Row) -> str:
    """What is said of a mailbox: its verdict, why it is left, and more."""
    reason = f" ({row['reason']})" if row["reason"] else ""
    return ": ".join(filter(None, [f"{row['path']}: {row['verdict']}{reason}", row["says"]]))


def there_in(maildir: Path) -> str:
    """The mail of a Maildir: its subjects, each with its flags and behind its folder; where lists are of what is
    prepared; and what else is there that should not be."""
    found = []
    for folder in sorted({path.parent for path in maildir.rglob("cur")}):
        name = f"{folder.name[1:]}/" if folder != maildir else ""
        for path in mail_in(folder):
            subject = re.search(rb"(?m)^Subject: (.*)", path.read_bytes())
            flags = path.name.partition(":2,")[2]
            found.append(name + (subject[1].decode() if subject else "-") + (f":{flags}" if flags else ""))
    lists = sorted(f"{path.parent.name}+" for path in maildir.rglob(PREPARED))
    return " ".join([*sorted(found), *lists, *besides(maildir)])


def ran(words: str, home: Path, before: Run) -> Run:
    """Runs a command of the companion, which waits for no quiet minute, or the first one that was printed before."""
    if words == ">":
        return run_printed(before.rows[0].commands[0], home, "--json")
    word, *others = words.split()
    return by_json([word, *["--now"] * (word != "verify"), *others], home)


def take(several: Iterable[Step], home: Path) -> Run:
    """Takes steps, and returns how the last command of the companion ended."""
    last = Run(0, "")
    for step in several:
        if isinstance(step, tuple):
            given, wanted = step
            if isinstance(wanted, bytes):
                mailbox(home / given, wanted)
                continue
            last = ran(given, home, last)
            said = "\n".join(sorted(said_of(row).replace(f"{home}/", "") for row in last.rows))
            matches(f"{given}: {last.err}", said, wanted)
        elif step == RESTORED:
            restore(home)
        elif step.startswith("@"):
            fake(home, step[1:])
        elif step.startswith("!"):
            equal(step, run_printed(step[1:], home).status, 0)
        elif step.startswith("="):
            equal(f"what is there, {last.output}", there_in(home / "M"), step[1:].strip())
        else:
            last = ran(step, home, last)
            equal(f"what {step} leaves", [said_of(row) for row in last.rows if row["verdict"] == "left"], [])
    return last


def run_stories(stories: Mapping[str, list[Step]], *checks: Callable[[Path], None]) -> None:
    """Runs each story, and each check, in a folder of its own, as a case of its name."""
    cases: dict[str, Callable[[Path], object]] = {name: partial(take, several) for name, several in stories.items()}
    cases.update({check.__name__: check for check in checks})
    run_cases({name: partial(at_home, case) for name, case in cases.items()})
