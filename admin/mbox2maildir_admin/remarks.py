"""What else is said of a mailbox in its row: each remark once, in the order in which a row says them."""
# A new one needs a meaning in `meanings.py`, by which it is printed too, and its word in docs/rows.schema.json, in the
# order of the meanings. tests/pages/documents.py compares the three, and tests/tables/remarks.py wants a story of each.
from typing import NamedTuple

from .nexts import Phrase
from .units import counted


# verbs by how they are with a count of one, and with any other
ONE = {"was": "was", "is": "is", "stays": "stays"}
SEVERAL = {"was": "were", "is": "are", "stays": "stay"}


class Sentence(Phrase):
    """A remark by its word. In its sentence, `{}` stands for what differs, and `{was}` for a verb of what is counted. A
    rehearsal may say it in another one. One word may have several sentences."""

    def __init__(self, word: str, says: str, would: str = "", noun: str = "message", are_there: bool = False) -> None:
        super().__init__(word, says)
        # what a rehearsal says; what is counted; and whether that was there already
        self.would, self.noun, self.are_there = would or says, noun, are_there

    def of(self, *its: object, dry: bool = False, there: int = 0, stands: int = 0, **verbs: str) -> "Remark":
        """The remark with this in its places."""
        return Remark(self.word, (self.would if dry else self.says).format(*its, **verbs), there, stands)

    def of_any(self, count: int, *its: object, dry: bool = False, stands: int = 0) -> "list[Remark]":
        """The remark on so many of what it counts, with what else it names; nothing if there are none."""
        verbs, whole, there = ONE if count == 1 else SEVERAL, counted(count, self.noun), count * self.are_there
        return [self.of(whole, *its, dry=dry, there=there, stands=stands, **verbs)] if count else []


class Remark(NamedTuple):
    """What is to be said of a mailbox, with its word for programs; how many of its messages were there already by it,
    and how many stand in it although they were deleted or changed in the Maildir."""

    word: str
    says: str
    there: int = 0
    stands: int = 0


def kept(word: str, which: str, noun: str = "message") -> Sentence:
    """The remark on what an undo, or a pass, does not remove."""
    return Sentence(word, "kept {} that " + which, "would keep {} that " + which, noun)


class Says:
    """What is said. The meanings are in `meanings.py`."""

    # of what is passed over
    BY_NO_MAIL = Sentence("by-no-mail", "by --no-mail")
    NO_MAIL_NOTED = Sentence("no-mail-noted", "by migrate --no-mail")
    PUT_ASIDE = Sentence("put-aside", "originals that were put aside")
    SAME_FILE = Sentence("same-file", "the same file as {}")
    # of mailboxes that take the place of another one, or whose own is gone
    BESIDE = Sentence("beside", "{} cannot hold {}")
    BESIDE_ALL = Sentence("beside", "{} takes nothing")
    MAILBOX_GONE = Sentence("mailbox-gone", "its mailbox is gone")
    # how it is read
    AFTER_NULLS = Sentence("after-nulls", "its text begins at byte {}, after NUL bytes")
    NO_LINE_END = Sentence("no-line-end", "its last line has no line end: check that the file is complete")
    BY_LENGTHS = Sentence(
        "by-lengths", "`From ` is text in {}, by lengths (--as mboxrd begins mail there)", noun="line"
    )
    KEEPS_QUOTE = Sentence("keeps-quote", "`>From ` keeps its `>` in {} (--as mboxcl takes it away)", noun="line")
    LOSES_QUOTE = Sentence("loses-quote", "`{1} ` loses a `>` in {0} ({2})", noun="line")
    DELETED_KEPT = Sentence(
        "deleted-kept", "no deleted mail was left out, because {} of {} messages have no X-Mozilla-Status"
    )
    DELETED_LEFT_OUT = Sentence("deleted-left-out", "without {} marked as deleted")
    OLD_LOCK = Sentence("old-lock", "{} {} and was ignored")
    SAME_FOLDER = Sentence("same-folder", "its labels are {}")
    AS_ANSWERED = Sentence("as-answered", "as it was answered before")
    AS_BROUGHT = Sentence("as-brought", "as the messages show that it brought")
    POWER_CUT = Sentence("power-cut", "a power cut could take its mail away: {}")
    # what a first pass had prepared, and what an undo removes and keeps
    PREPARED_BEFORE = Sentence("prepared-before", "{} prepared before")
    PREPARED_LESS = Sentence(
        "prepared-before", "{} prepared before, {} removed", "{} prepared before, {} to be removed"
    )
    PREPARED_STAYS = Sentence("prepared-before", "{} prepared before stay, whatever the mailbox has now")
    REMOVED = Sentence("removed", "removed {}", "would remove {}")
    NOTHING_PLACED = Sentence("removed", "nothing of it was placed")
    KEPT_SHARED = kept("kept-shared", "{} {} too")
    KEPT_FORMER = kept("kept-former", "another mailbox brought too")
    KEPT_FOREIGN = kept("kept-foreign", "{was} nobody's")
    KEPT_LOST = kept("kept-lost", "it no longer has")
    KEPT_EDITED = kept("kept-edited", "somebody edited", "file")
    KEPT_RENAMED = kept("kept-renamed", "another program renamed")
    ALREADY_GONE = Sentence("already-gone", "{} already gone")
    # what is new, what is gone, and what was there
    PLACED = Sentence("placed", "placed {}", "would place {}")
    GREW = Sentence("grew", "it grew by {}")
    UNLABELLED = Sentence("unlabelled", "the label was taken from {}; the mail stays here")
    LOST = Sentence("lost", "{} gone from it that it had brought")
    REGAINED = Sentence("regained", "{} in it again that had been gone from it")
    JOINS = Sentence("joins", "INBOX has the mail of {} too")
    SHARED = Sentence("shared", "{} there already, from {}", are_there=True)
    GONE_ELSEWHERE = Sentence("gone-elsewhere", "{} that {} brought are gone")
    OTHER_FORM = Sentence("other-form", "{} there in another form, by another mailbox")
    MARKED = Sentence("marked", "{} placed beside files that are marked as deleted")
    THERE_ALREADY = Sentence("there-already", "{} there already, by no mailbox", are_there=True)
    IN_MAILBOX = Sentence("there-already", "{} there already", are_there=True)
    OTHER_PROGRAMS = Sentence("other-programs", "{} of other programs in the folder")
    FLAGS_DIFFER = Sentence("flags-differ", "{} of these marked in it, as read or flagged, but not in the Maildir")
    # of its folder, and of others
    ELSEWHERE = Sentence("elsewhere", "{} of it went into {} too")
    ELSEWHERE_FROM = Sentence("elsewhere", "{} of it went into {} too, from {}")
    CAME_BACK = Sentence("came-back", "when its mail was placed, up to {} that had been deleted or moved came back")
    GONE = Sentence(
        "gone", "{} of the {} messages that were placed in its folder are gone, or another program renamed them"
    )
    LEDGER_OLDER = Sentence(
        "ledger-older",
        "the ledger of its folder is older than its record, and lacks {} of it: mail may be missing there",
    )
    LEDGER_GONE = Sentence("ledger-gone", "the ledger of its folder is gone")
    FOLDER_GONE = Sentence("folder-gone", "its folder is gone")
    CONTRADICTED = Sentence("contradicted", "it was read as {}, and {} gives other messages")
    JOINED = Sentence("joined", "its folder has mail of {} too")
    # of dates, flags, labels, UIDs and keywords
    DATED_BY_HEADER = Sentence("dated-by-header", "{} dated by the header")
    WITHOUT_DATE = Sentence("without-date", "{} without a date")
    FLAGS = Sentence("flags", "{} with flags of {}")
    UNREAD = Sentence(
        "unread",
        "{} came unread, since no known label says that mail was read (with --labels, --label NAME=read says so)",
    )
    LABELLED = Sentence("labelled", "labelled {}: with --labels, labels become folders")
    WITHOUT_INTERNAL = Sentence("without-internal", "without the message in which Dovecot kept its UIDs")
    WITHOUT_UIDS = Sentence("without-uids", "without its UIDs, because {}")
    UIDS_OF_NEW = Sentence("uids-of-new", "Dovecot gives what is new its UIDs")
    FIRST_APPEARS = Sentence("first-appears", "its first message, which Dovecot hid, appears")
    NO_UIDS = Sentence("no-uids", "Dovecot had given it no UIDs")
    NEW_UIDS = Sentence("new-uids", "some messages get new UIDs, because a message before them has none")
    FIELDS_LEFT_OUT = Sentence("fields-left-out", "fields left out of {}: {}")
    UIDS_RAISED = Sentence("uids-raised", "its next UID is {} now")
    UIDS_ANEW = Sentence("uids-anew", "its UIDs start anew, because {}")
    UIDS_UNKNOWN = Sentence("uids-not-raised", "without --dovecot, Dovecot may give a UID twice")
    KEYWORDS_LOST = Sentence("keywords-lost", "only {} keywords are kept; lost: {}")
    KEYWORDS_FULL = Sentence("keywords-lost", "only {} keywords are kept; if new mail had others, these are lost")
    KEYWORDS_ADDED = Sentence("keywords-added", "Dovecot is to add keywords, because {}: {}")
    SUBSCRIPTIONS = Sentence("subscriptions", "subscribed to {}")
    # of mail that people moved, deleted or changed in the Maildir
    MOVED = Sentence("moved", "{} that people moved here {stays} in the mailbox of {}")
    DELETED = Sentence("deleted", "{} that {was} deleted in the Maildir {is} still there{}")
    CHANGED = Sentence("changed", "{} that {was} changed in the Maildir {is} there as before{}")
    # of its names
    NAME_BEFORE = Sentence("name-before", "its name was {}")
    ALSO_NAMED = Sentence("also-named", "also named {}")
    # by `verify`
    OTHER_BYTES = Sentence("other-bytes", "other bytes {}")
    RENAMED = Sentence("renamed", "under another name {}")
    NOWHERE = Sentence("nowhere", "nowhere {}")
    DOUBLE = Sentence("double", "doubles {}")
    OTHER_OWNER = Sentence("other-owner", "of another owner {}")
    DOUBTFUL_LINE = Sentence("doubtful-line", "doubtful lines {}")
    WITHOUT_FIELDS = Sentence("without-fields", "without fields {}")
    IN_OTHER_FORM = Sentence("other-form", "in another form {}")


WORDS = (one.word for one in vars(Says).values() if isinstance(one, Sentence))
# where each stands in a row, which is where its first sentence stands
PLACES = {word: place for place, word in enumerate(dict.fromkeys(WORDS))}
