"""The words of each command: its operands and its help. What it does is in the module of its name, which is loaded only
then: a help needs none of the rooms."""
from typing import NamedTuple

from .. import ADMIN

# what an exit status says of a command that leaves what it cannot do
OF_LEFT = (
    "1 if something is left, for which its line says why, and what to do; 75 if nothing is left but what the same "
    "command settles when it is run again; 2 if the words are wrong; 130 after a signal."
)


class Words(NamedTuple):
    """A command: its name, what it does in a line and in a text, its operands, of which one may stand for several as
    FILE... does, how it is used in other ways than with these, examples, in which `{}` stands for the program, and what
    stands below them. Without operands, whatever does it looks at them itself."""

    name: str
    short: str
    text: str
    operands: tuple[str, ...]
    usage: tuple[str, ...] = ()
    examples: tuple[str, ...] = ()
    ending: str = ""


OF_USERS = "--users [OPTION]... OLD [NAME...]"
COMMANDS = (
    Words(
        "kind",
        "print what files are, and what to run next",
        "Prints what each FILE is, how many messages it has, and what to run next. The lines that are the reason "
        "follow, with their numbers. Changes nothing. A FILE may be a folder of mailboxes. Exit status 0 only if every "
        "file can be converted as it is.",
        ("FILE...",),
    ),
    Words(
        "quote",
        "write an escaped copy of a mailbox, for `mbox2maildir convert`",
        "Writes an escaped copy of FILE for mbox2maildir: each line `From ` begins a message, and all other such lines "
        "are escaped. FILE is read as migrate reads it with the same options. If lines are escaped because of lengths, "
        "the copy lacks the lengths. COPY is complete, or not there at all. It begins with the first From_ line.",
        ("FILE",),
        ("[OPTION]... -o COPY FILE",),
    ),
    Words(
        "dates",
        "give converted files the dates of their From_ lines",
        "Gives the files in MAILDIR that came from FILE the dates of its From_ lines. If a From_ line has no date, the "
        "header Date counts. A date without a time zone is in the zone of TZ, or of this machine. A FILE may be a "
        "folder of mailboxes. Exit status 1 if a message has no date or no file.",
        ("MAILDIR", "FILE..."),
    ),
    Words(
        "migrate",
        "migrate mailboxes into a Maildir, or undo that",
        "Reads each MAILBOX, converts it into MAILDIR, sets dates and flags, and verifies it. The record in MAILDIR "
        "says what is done, and that is never converted again. After an interruption, run the same command again. A "
        "MAILBOX that is a folder of mailboxes becomes folders of MAILDIR. With --users each mailbox in the folder OLD "
        "belongs to the user whose name it has, and goes, with the rights of that user, into a Maildir in the home.",
        ("MAILDIR", "MAILBOX..."),
        ("[OPTION]... MAILDIR MAILBOX...", OF_USERS, "--undo [OPTION]... MAILDIR MAILBOX"),
        (
            "{} migrate --dry-run ~/Maildir archive.mbox",
            "{} migrate ~/Maildir ~/mail  # a folder of mailboxes",
            "{} migrate --folder Archive/2019 ~/Maildir archive.mbox",
            "# {} migrate --users --tree mail /var/mail.old",
        ),
        "Exit status: 0 if each mailbox is done and verified, or undone; " + OF_LEFT,
    ),
    Words(
        "verify",
        "check whether each message is in the Maildir",
        "Compares each FILE with MAILDIR. Prints which mailboxes are not whole: how many of their messages have other "
        "bytes and how many are nowhere, and how many files are second copies of a message. Writes nothing. A FILE may "
        "be a folder of mailboxes. With --users it compares the mailboxes that `migrate --users` migrates, with the "
        "rights of each user.",
        ("MAILDIR", "FILE..."),
        ("[OPTION]... MAILDIR FILE...", OF_USERS),
        ("{} verify ~/Maildir ~/mail", "# {} verify --users --tree mail /var/mail.old"),
        "Exit status: 0 only if each message is there once.",
    ),
    Words(
        "back",
        "append what is new in a Maildir to the old mailboxes",
        "Appends to the old mailboxes the mail that is in MAILDIR and did not come from them, each to the mailbox from "
        "which its folder came, in the form in which that is written. Mail of a new folder goes into a new mailbox. "
        "An OLD is a mailbox or a folder of mailboxes. Stop the mail server first. The ledgers in MAILDIR note what "
        "went back, and nothing goes back twice: after an interruption, run the same command again. No file of "
        "MAILDIR is removed. With --users the mail of each user goes, with the rights of that user, from the Maildir "
        "in the home into the mailbox of the user in the folder OLD, and into those of the home.",
        ("MAILDIR", "OLD..."),
        ("[OPTION]... MAILDIR OLD...", OF_USERS),
        (
            "{} back --dry-run ~/Maildir ~/mail /var/mail/mia",
            "{} back ~/Maildir ~/mail /var/mail/mia",
            "# {} back --users --tree mail /var/mail.old",
        ),
        "Exit status: 0 if all mail is in the mailboxes and verified; " + OF_LEFT,
    ),
    Words(
        "explain",
        "print what the words of rows mean, and what to do",
        "Prints what each WORD means that stands in brackets after `left`, or in the line `noted`, and what to do. "
        "Without a WORD it prints all of them.",
        (),
        ("[WORD]...",),
    ),
)

PROGRAM = Words(
    ADMIN,
    "",
    "Migrates mailboxes into a Maildir, and checks both.",
    (),
    ("COMMAND ...",),
    (
        "{} kind ~/mail                         # what is there",
        "{} migrate --dry-run ~/Maildir ~/mail  # a rehearsal",
        "{} migrate ~/Maildir ~/mail",
        "{} verify ~/Maildir ~/mail",
    ),
    "`%s COMMAND --help` describes a command. Exit status: 0 if all is well, 1 if something was found, failed or left "
    "undone, 75 if nothing is left but what the same command settles when it is run again, 2 if the words are wrong, "
    "130 after a signal." % ADMIN,
)
