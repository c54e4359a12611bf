"""The options of all commands in one table: what each takes, what it says, what it needs and what it excludes; and what
some of them give."""
import os
from types import SimpleNamespace
from typing import Any, NamedTuple, Optional

from .. import ADMIN, MAILDIR
from ..labels.choosing import EACH, GIVES, WORDS as WORDS_OF_LABELS, Choosing
from ..looks import is_folder
from ..readings.reading import UNDECIDED, WORDS, Reading, lines_named
from ..terminal import named, shown

# the groups of a help
HOW, TAKEOUT, ANSWERS = "how", "a Takeout of Gmail", "answers for what was left"
USERS = "for many users, as root"


class Given(SimpleNamespace):
    """What the words of a command give: each option by its name; the words of each; and all other words, and whatever
    comes after `--`, as bytes."""

    def __init__(self, **options: Any) -> None:
        super().__init__(**options)
        self.typed: list[list[str]] = []
        self.operands: list[bytes] = []


class WrongOptions(Exception):
    """Options and operands that do not go together, named in a line."""


class Option(NamedTuple):
    """An option of some commands: its names, these commands, and what its help says; the value that it takes, if it
    takes one, the only ones that there are, of which the first stands for none, what stands for one that is not given,
    and whether there may be several."""

    names: str
    commands: str
    help: str
    value: str = ""
    choices: tuple[str, ...] = ()
    without: Optional[str] = None
    is_several: bool = False
    # the options that it needs, with `|` between those of which one will do, those that it excludes, and what it needs
    # of the mailboxes that are named
    needs: str = ""
    excludes: str = ""
    mailboxes: str = ""

    @property
    def name(self) -> str:
        """The name that sentences have."""
        return self.names.split()[-1]

    @property
    def key(self) -> str:
        """The name of what is given by it."""
        # `as` is a word of Python
        return "word" if self.name == "--as" else self.name.strip("-").replace("-", "_")

    def default(self) -> Any:
        """What is given without it."""
        return [] if self.is_several else self.without if self.value else False


# what an option may need of the mailboxes
FILE, ONE = "a MAILBOX that is a file", "exactly one MAILBOX, which is a file"
OPTIONS = {
    HOW: [
        Option("--version", ADMIN, "print the version, and end"),
        Option("--dry-run", "migrate", "print what would be done, and write nothing"),
        Option("--dry-run", "back", "print what would go back, and write nothing"),
        Option(
            "--prepare",
            "migrate",
            "place what is there by now, while people use the mailboxes, for later",
            excludes="--again --labels",
        ),
        Option(
            "--unread",
            "migrate",
            "with --prepare: nobody reads MAILDIR, although no Dovecot shows that",
            needs="--prepare",
        ),
        Option("--now", "migrate back", "do not wait until a mailbox was left alone for a minute"),
        Option("--folder", "migrate", "convert into this folder of MAILDIR", "NAME", mailboxes=FILE),
        Option("--dovecot", "migrate", "keep order, UIDs, keywords and subscriptions as Dovecot had them"),
        Option(
            "--dovecot",
            "back",
            "carry over what Dovecot keeps of the Maildir: UIDs, so that none is given twice, keywords and "
            "subscriptions",
        ),
        Option("--jobs", "migrate", "migrate N folders at a time, with --users N users (otherwise up to 8)", "N"),
        Option("--json", "kind migrate verify back", "print one JSON object per line"),
        Option("--report", "migrate back", "write these objects to a new file, too", "FILE"),
        Option("--all", "migrate verify back", "print a whole line for each mailbox of which there is more to say"),
        Option("--no-questions", "migrate", "ask nothing on a terminal, and print the answers as commands"),
    ],
    TAKEOUT: [
        Option(
            "--labels",
            "migrate",
            "put each message into the folders of its labels; `one`: into one of them; `all`: even if these are more "
            "than 2000 folders",
            "one|all",
            (EACH, *WORDS_OF_LABELS),
            excludes="--folder --dovecot",
            mailboxes=FILE,
        ),
        Option(
            "--label",
            "migrate",
            "what a label gives: WHAT is `folder`, `none`, or instead of a folder a flag: `read`, `unread`, `starred`",
            "NAME=WHAT",
            is_several=True,
            needs="--labels",
        ),
    ],
    ANSWERS: [
        Option("--as", "quote migrate", "how mailboxes were written: %s" % ", ".join(WORDS), "WORD", without=""),
        Option(
            "--text",
            "quote migrate",
            "lines of the one mailbox that belong to the mail",
            "LINE,..",
            is_several=True,
            needs="--as --of",
            mailboxes=ONE,
        ),
        Option(
            "--begin",
            "quote migrate",
            "lines of the one mailbox that begin messages",
            "LINE,..",
            is_several=True,
            needs="--as --of",
            mailboxes=ONE,
        ),
        Option(
            "--of",
            "quote migrate",
            "what this is an answer to, as it is printed with it",
            "TIE",
            without="",
            needs="--as|--drop-deleted",
        ),
        Option("--drop-deleted", "quote migrate", "leave out mail that Thunderbird has marked as deleted"),
        Option(
            "--no-mail",
            "migrate",
            "pass over a file that is not mbox text, by its whole path, or files that are not known, by a shell "
            "pattern for their paths below MAILBOX or the home",
            "PATTERN",
            is_several=True,
        ),
        Option(
            "--again",
            "migrate",
            "store the messages of one mailbox that are nowhere; of several, of those left as `rewritten`, `ledger` "
            "or `sync-failed`",
        ),
        Option(
            "--undo",
            "migrate",
            "remove the messages that one mailbox placed",
            excludes="--users --list --again --dovecot --no-mail --as --text --begin --of --drop-deleted --prepare "
            "--unread --labels --label --any-disk",
            mailboxes=ONE,
        ),
        Option("--any-disk", "migrate", "migrate even onto a disk on which a power cut could take mail away"),
        Option(
            "--dovecot",
            "quote",
            "write the copy that migrate --dovecot converts: without the header fields that Dovecot hides",
        ),
        Option("-o --output", "quote", "the name of the copy; - is standard output", "COPY"),
        Option("--header", "dates", "take the dates of the headers Date if all From_ lines have the same date"),
    ],
    USERS: [
        Option(
            "--users",
            "migrate",
            "migrate each mailbox in OLD into a Maildir in the home of its user",
            excludes="--folder --labels --text --begin",
        ),
        Option("--users", "verify", "check each mailbox in OLD, and the Maildir in the home of its user"),
        Option("--users", "back", "bring back the mail of each user, from the Maildir in the home"),
        Option(
            "--maildir",
            "migrate verify back",
            "the name of the Maildir in each home (%s)" % MAILDIR,
            "NAME",
            without=MAILDIR,
        ),
        Option(
            "--tree",
            "migrate verify back",
            "do the same with this folder of mailboxes, or this mailbox, of each home",
            "NAME",
        ),
        Option(
            "--names",
            "migrate verify back",
            "only the users in this list, with one name per line (- is standard input)",
            "FILE",
        ),
        Option(
            "--list",
            "migrate",
            "only print these users, each with the source of the name and the bytes",
            excludes="--json --report",
        ),
        Option("--jobs", "verify back", "take N users at a time (otherwise up to 8)", "N"),
        Option("--report", "verify", "write the objects of --json to a new file, too", "FILE"),
    ],
}


def options_of(command: str) -> dict[str, list[Option]]:
    """The options of a command, by their groups."""
    found = {group: [one for one in options if command in one.commands.split()] for group, options in OPTIONS.items()}
    return {group: options for group, options in found.items() if options}


def want_together(command: str, given: Given) -> None:
    """Raises WrongOptions unless the options and the operands of a command go together."""
    names, mailboxes = {words[0].partition("=")[0] for words in given.typed}, given.operands[1:]
    for group, options in options_of(command).items():
        for one in (one for one in options if one.name in names):
            for needed in (*one.needs.split(), *["--users"] * (group == USERS)):
                if names.isdisjoint(needed.split("|")):
                    raise WrongOptions("%s needs %s" % (one.name, needed.replace("|", " or ")))
            for other in one.excludes.split():
                if other in names:
                    raise WrongOptions("%s does not go with %s" % (one.name, other))
            folder = next(filter(is_folder, mailboxes), None)
            if one.mailboxes and (folder is not None or one.mailboxes == ONE and len(mailboxes) > 1):
                which = "" if folder is None else ": %s is a folder" % named(folder)
                raise WrongOptions("%s needs %s%s" % (one.name, one.mailboxes, which))


def jobs_in(given: Given) -> Optional[int]:
    """The number of jobs, if one is given. Raises WrongOptions if it is none."""
    number = given.jobs
    if number is not None and (not number.isdecimal() or int(number) < 1):
        raise WrongOptions("--jobs %s: it takes a number from 1 on" % named(number))
    return None if number is None else int(number)


def want_homes(given: Given) -> None:
    """Raises WrongOptions unless root gives the options for users, and these name what is below each home."""
    if os.geteuid() != 0:
        raise WrongOptions("only root may use --users")
    for option, name in (("--maildir", given.maildir), ("--tree", given.tree), ("--names", given.names)):
        if name == "":
            # as a variable of the shell is that was never set
            raise WrongOptions("%s: it takes a name, which is empty here" % option)
    for name in (given.maildir, given.tree or "."):
        if os.path.isabs(name) or ".." in name.split("/"):
            raise WrongOptions("%s: --maildir and --tree take a name below each home" % named(name))


def decision_of(given: Given, alone: bool) -> Reading:
    """What was decided, for one mailbox or for several."""
    if given.word and given.word not in WORDS:
        raise WrongOptions("--as %s: no such word: it takes %s" % (shown(given.word), ", ".join(WORDS)))
    try:
        text, begin = lines_named(given.text), lines_named(given.begin)
    except ValueError as error:
        raise WrongOptions("--text and --begin take line numbers, separated by commas") from error
    both = text & begin
    if both:
        raise WrongOptions("line %d is named by --text and by --begin" % min(both))
    is_given = bool(given.word or given.drop_deleted)
    return Reading(given.word, text, begin, given.of, given.drop_deleted, alone) if is_given else UNDECIDED


def labels_of(given: Given) -> Optional[Choosing]:
    """What is said about labels; None if they do not count."""
    pairs: list[tuple[str, str]] = []
    for one in given.label:
        label, _, gives = one.rpartition("=")
        if not label or gives not in GIVES:
            raise WrongOptions("--label %s: it takes NAME=WHAT, and WHAT is one of %s" % (named(one), ", ".join(GIVES)))
        pairs.append((label, gives))
    return None if given.labels is None else Choosing(given.labels).with_given(*pairs)
