"""What the words of rows mean for a reader, and what to do: `explain` and docs/LEFT.md have it from here, and so has
what is printed of a remark."""
import re

from .faults import Reason
from .nexts import Phrase, Todo
from .remarks import Remark, Says

# a link of a page, of which only the text is printed
LINK = re.compile(r"\[([^]]*)\]\([^)]*\)")
# what stands in place of what is to be done if that is printed by itself
ITS_COMMAND = "Its command"


def sentence(says: str) -> str:
    """What is printed in a line, as a sentence of a page."""
    return says[:1].upper() + says[1:]


# what is to be done about each reason why something is left, as docs/LEFT.md has it
TO_DO = {
    Reason.OTHER: "Read the line",
    Reason.ERROR: "Correct the permissions, or what the line names",
    Reason.UNCLEAR: "Look at the line of mail, and run [the right command](#decisions)",
    Reason.LABELS: "Its command. If there is none, migrate the mailbox without `--labels`",
    Reason.OTHER_KIND: "Its command, which [makes a mailbox of it](FORMATS.md#files-of-another-format)",
    Reason.NOT_KNOWN: (
        "`mbox2maildir-admin kind FILE`, or the program `file`, says more. If the file holds no mail, add "
        "`--no-mail PATTERN` once. PATTERN is its path, or a shell pattern such as `*.txt` for its path below the home "
        "or the folder that you named"
    ),
    Reason.PACKED: (
        "Find a complete copy, [unpack it](FORMATS.md#compressed-files), or install the program that the line names"
    ),
    Reason.COPY: "[Move the copy away](FORMATS.md#copies). If neither is a copy, its command",
    Reason.LEFT_BEHIND: "Remove it",
    Reason.LINK: (
        "[Migrate what it leads to](FORMATS.md#symbolic-links). If it leads nowhere, remove it. In the spool, "
        "replace it by its file. If it stands for a Maildir, name the real one by `--maildir`"
    ),
    Reason.MISSING: "Correct the name. For `back`, put back what the line names",
    Reason.WORDS: "Put the path in quotes. To name the files `a` and `b` beside a file `a b`, write `./a ./b`",
    Reason.NO_FILE: "Remove it: a FIFO or a socket holds no mail",
    Reason.HOLES: "Find a complete copy",
    Reason.MAILDIR: "Its command, or do as the line says",
    Reason.MH: "Its command, then move the folder away",
    Reason.LOCKED: sentence(Todo.WAIT.says) + ". A `.lock` file is ignored after 20 minutes",
    Reason.CHANGED: sentence(Todo.STOP_WRITER.says),
    Reason.NO_FOLDER: (
        "Give it a folder by `--folder NAME`, or run one of its commands. If [two labels have one "
        "folder](FORMATS.md#a-takeout-of-gmail), rename it, remove the link, or leave out one of them"
    ),
    Reason.NOT_OWN: "Its command. If there is none, name a folder of the user's own, or run `migrate` as the owner",
    Reason.NO_ROOM: "Make room, or raise the quota, and run the same command again",
    Reason.NO_SYNC: (
        "A power cut could take its mail away. Name the Maildir by its path on the [file system "
        "below](LARGE.md#file-systems), or add `--any-disk` to accept this"
    ),
    Reason.PARTLY_THERE: (
        "Restore `mbox2maildir-messages`, the [ledger](LEDGER.md), from a backup. Otherwise its command, which stores "
        "each message that is missing, deleted ones too"
    ),
    Reason.REWRITTEN: "If it is another mailbox, give it a path of its own. Otherwise its command",
    Reason.LEDGER: (
        "Read the line. If others may write to the ledger, look at it and `chmod 600` it. If another version wrote it, "
        "finish with that version. For an undo, first migrate the folder's other mailboxes. Otherwise restore the "
        "newest `mbox2maildir-messages` from a backup, or run its command, which brings back deleted mail"
    ),
    Reason.ANOTHER_READING: (
        "Its command, which goes on as before, or undoes the mailbox. After an undo, migrate it as you meant to"
    ),
    Reason.CUT: "Its command, which removes the file of the incomplete message: the complete one has its flags. Then "
    "run `migrate` again",
    Reason.NUMBERED: "Its command, which migrates without `--dovecot`",
    Reason.PREPARED: "Its command. [A table](LARGE.md#prepare) has what can be prepared",
    Reason.SUBSCRIPTIONS: "Its command, which adds the missing lines",
    Reason.WRONG_LINES: "Give the numbers that `kind` prints",
    Reason.MISREAD: "Run the same command again. If the reason is the same again, keep the file, and report the fault",
    Reason.CONVERT_FAILED: (
        "If it was killed, run the same command again. If it is missing, install it. [Its manual](mbox2maildir.1) "
        "explains its errors"
    ),
    Reason.SYNC_FAILED: "Remount the disk and check it, then run the command with `--again`",
    Reason.NOT_VERIFIED: "Remove a second copy. For the rest see [`verify`](SERVER.md#afterwards)",
    Reason.NOT_HELD: "The mail stays in the Maildir: copy by hand the files that the line names",
    Reason.TORN: "The whole message was appended again. Remove the cut one, which begins at the line that is named",
    Reason.UNDO: (
        "Its command. If the ledger is older than the record (`mbox2maildir-record`), first run `migrate --again` for "
        "the mailbox that is named"
    ),
    Reason.NO_MAILDIR: (
        "Name another Maildir, or move away what is there. For `verify`, migrate the mailbox first, with `--again` if "
        "its folder is gone. For `back --users`, see [BACK.md](BACK.md)"
    ),
    Reason.RECORD: (
        "Look at `mbox2maildir-record`. If it is not yours, move it away. If its disk has no locks, migrate [onto "
        "another disk](LARGE.md#nfs). If another version wrote it, finish with that version. Otherwise move it away "
        "and run `migrate --again`, which also brings back deleted mail"
    ),
    Reason.NO_USER: "Find out whose mail it is. If it is nobody's, [move it away](SERVER.md#nobodys)",
    Reason.SYSTEM_ACCOUNT: "Its command, with [a folder of its own](SERVER.md#nobodys) for `MAILDIR`",
    Reason.NO_MAILBOX: "Correct the name, or do as the line says",
    Reason.OTHER_OWNER: "In a spool, give the file to its user. Otherwise run `migrate` as the owner",
    Reason.SAME_USER: "Its command. Choose the folder in it, such as `info` for mia's mailbox `info`",
    Reason.HOME: "Mount it, or correct its owner or mode. If there is none, [make one](SERVER.md#nobodys)",
    Reason.PROCESS: "Run the same command again",
    Reason.DEFECT: "Report it, with the line",
}


def meaning_of(says: str) -> str:
    """The meaning of a remark that says it all."""
    return sentence(says) + "."


# how remarks are printed, by their words: below the mailbox, since they ask for a look; as counts; or only by --all
LOOK = {
    "already-gone": "Messages that were to be removed were gone before.",
    "beside": "Mail that went back stands in a mailbox beside this one, which could not take it.",
    "came-back": "Mail that people had deleted may be there again. Look at the newest files of the folder.",
    "contradicted": "It was done with another reading than this option names. To read it so, undo it first.",
    "deleted-kept": "Not every message has Thunderbird's mark, so none was left out as deleted.",
    "deleted-left-out": "Mail that Thunderbird had marked as deleted was left out.",
    "double": "A message of it is there more than once.",
    "doubtful-line": "Lines in it may begin messages that were not counted.",
    "elsewhere": "It, or mail of it, went into another folder before. If it has a command, that removes it there.",
    "first-appears": "A message in which an IMAP server kept its own notes becomes mail: delete that message.",
    "flags-differ": "Messages are marked in it, such as flagged or answered, but not in the Maildir: another mailbox "
    "brought them first, and its marks stay. Mark them there if you want that.",
    "folder-gone": "The folder was removed. If nobody meant that, migrate the mailbox with --again.",
    "gone": "Mail of its folder was deleted in the Maildir.",
    "gone-elsewhere": "Mail that another mailbox brought too was deleted in the Maildir. Its command brings it back.",
    "kept-edited": "Files stay that somebody edited. One that was prepared stays beside its message: delete one.",
    "kept-foreign": "Files stay that belong to no mailbox.",
    "kept-former": "Messages stay that another mailbox brought too.",
    "kept-lost": "Messages stay that are no longer in the mailbox.",
    "kept-renamed": "Files stay that another program renamed.",
    "kept-shared": "Messages stay that other mailboxes have too.",
    "keywords-lost": "Dovecot keeps 26 keywords of a folder. The others are gone.",
    "ledger-gone": "The ledger of the folder was removed. `verify` says whether all mail is there.",
    "ledger-older": "The ledger is older than the record, as after a restored backup: mail may be missing.",
    "mailbox-gone": "The mailbox was removed after it was prepared.",
    "moved": "Mail that people moved to another folder stays in the mailbox that has it.",
    "no-line-end": meaning_of(Says.NO_LINE_END.says),
    "nowhere": "A message of it is not there.",
    "other-bytes": "A file has other bytes than its message.",
    "other-owner": "A file belongs to another user, who may be the only one who can read it.",
    "placed": "Messages that were nowhere are placed, even those that somebody had deleted.",
    "power-cut": "On this disk, a power cut could take mail away.",
    "removed": "Messages were removed.",
    "unread": "Messages came unread, because no known label says that they were read. --label NAME=read says so.",
    "uids-not-raised": "Clients could miss new mail. Run it with --dovecot.",
}
COUNTED = {
    "after-nulls": "NUL bytes before its text, as after a crash, were left out.",
    "by-lengths": "Lines `From ` within messages were taken for text, by their lengths. --as mboxrd begins mail there.",
    "fields-left-out": "Header fields that a mail program or Dovecot writes for itself were left out.",
    "flags": "Flags were taken from header fields of a mail program.",
    "joined": "The folder has another mailbox's mail too. To part them, undo this one, and migrate it with --folder.",
    "joins": "INBOX has the mail of another mailbox too. Without --labels, --folder gives it a folder of its own.",
    "keeps-quote": "A `>` before `From ` was taken for the mail's own, and stays. If Postfix, Exim or procmail "
    "delivered mail, and a mail program copied it since, --as mboxcl removes the `>` that the delivery had added. But "
    "a line `From ` without `>` in the same message shows that its sender wrote the `>`.",
    "labelled": "It has Gmail's labels. With --labels, they become folders.",
    "loses-quote": "A `>` before `From ` was taken for an escape, and removed. Another reading of it may be right: "
    "--as mboxo keeps that of `>>From `, if Postfix, Exim or procmail wrote the mailbox. --as mboxcl2 keeps that of "
    "mail with a length, if Dovecot or procmail delivered it. --as unquoted keeps that of git's patches.",
    "lost": "Mail that it brought is no longer in it, or was edited there. It stays in the Maildir.",
    "marked": "Mail was placed beside a file of it that is marked as deleted.",
    "name-before": "If Dovecot served the mailbox, its folder had another name, which a Maildir cannot have.",
    "new-uids": "Some messages have new UIDs: clients fetch them again.",
    "no-uids": "No IMAP client has seen it so far, so there are no UIDs to keep.",
    "old-lock": "A lock that nobody holds any more was passed over.",
    "other-form": "Some of its mail is there with other `>` or line ends: another mailbox brought it, or a program has "
    "rewritten this one since. If both forms are there, and you want only one, delete the other.",
    "other-programs": "Other programs had put mail into the folder. It stays.",
    "regained": "Mail that was gone from it is in it again.",
    "renamed": "Other programs gave files new names: `mbox2maildir convert` would deliver their messages again.",
    "shared": "Another mailbox brought some of its mail too. It is there once.",
    "there-already": "Some of its mail was there already, though no run had brought it. An undo keeps it.",
    "uids-anew": "All messages have new UIDs: clients fetch them again.",
    "uids-of-new": "Dovecot gives UIDs to what is new.",
    "uids-raised": "The next UID was raised, so that none is given twice.",
    "unlabelled": "A label was taken from mail in Gmail since. The mail stays in the folder.",
    "without-date": "Some messages have no date: their files have today's.",
    "without-fields": "Files differ only in header fields that mail programs or Dovecot write for themselves.",
    "without-uids": "Its UIDs are not kept: clients fetch its mail again.",
}
SILENT = {
    "also-named": "Several names lead to it. It was done once.",
    "as-answered": "It was read by the answer of an earlier run.",
    "as-brought": "It was read as when it was done before.",
    "by-no-mail": "It was passed over by --no-mail.",
    "changed": "Messages stand in it that were changed in the Maildir. The last line counts them.",
    "dated-by-header": "Files have the dates of the header Date, since their From_ lines have none.",
    "deleted": "Messages stand in it that were deleted in the Maildir. The last line counts them.",
    "grew": "It has new mail.",
    "keywords-added": "Keywords were added.",
    "no-mail-noted": "An earlier run passed over it by --no-mail.",
    "prepared-before": "Mail was there from an earlier pass.",
    "put-aside": "The originals of what a command made mailboxes of.",
    "same-file": "It is the same file as another one.",
    "same-folder": "Labels that differ only in how they are written have one folder.",
    "subscriptions": "Subscriptions were carried over.",
    "without-internal": "The message in which Dovecot kept its own notes was left out.",
}
REMARKS = {**LOOK, **COUNTED, **SILENT}


def to_do(reason: Phrase) -> str:
    """What is to be done about a reason."""
    return LINK.sub(r"\1", TO_DO[reason])


def is_its_meaning(one: Remark) -> bool:
    """Whether a remark says no more than its meaning does."""
    return meaning_of(one.says) == REMARKS[one.word]
