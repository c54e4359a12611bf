"""Each remark of a row: what is done with mailboxes, and the words and sentences of the rows that come of it."""
from functools import partial
from pathlib import Path

from tests.tables.labels import message
from tests.support.cases import run_cases
from tests.support.checks import TOP, equal, matches, text_of
from tests.support.homes import at_home
from tests.support.mail import A, C, INTERNAL, ONE, THREE, TWO, with_length
from tests.support.schema import SCHEMA
from tests.support.stories import Step, steps, take

# one that has another text than that by which Dovecot keeps an empty mailbox
PSEUDO = INTERNAL.replace(b"values.", b"values. P.S.")
MAY_BEGIN = C + b"\nFrom the garden\nyes\n\n"
QUOTED, UNDATED = A + b"\n>>From me\n\n", b"From a\nSubject: two\n%s\nhi\n\n"
# the words of the rows of `migrate` alone, by what the only mailbox is
OF_TEXTS = {
    "no-line-end": ONE.rstrip(b"\n"),
    "after-nulls": bytes(8) + ONE,
    "loses-quote": QUOTED,
    "keeps-quote": with_length(A, b">From me\n") + b"\n",
    "without-date": UNDATED % b"",
    "dated-by-header": UNDATED % b"Date: Mon, 3 Mar 2025 09:12:44 +0000\n",
    "unread": message("one", "Inbox").encode(),
}


def fields(text: bytes, *lines: bytes) -> bytes:
    """A mailbox with one message, and these fields in its header."""
    return text.replace(b"\nSubject", b"\n" + b"".join(line + b"\n" for line in lines) + b"Subject", 1)


def thunderbird(text: bytes, flags: int) -> bytes:
    """A message as Thunderbird has it."""
    return fields(text, b"X-Mozilla-Status: %04x" % flags)


BASE, UID = b"X-IMAPbase: 1700000000 0000000009", b"X-UID: 3"
NUMBERED = fields(ONE, BASE, UID)
# what a story begins with: a mailbox of one message, of two, of a tree, and of a tree that a server has numbered
DONE, DONE_OF_TWO = steps(("a", ONE), "migrate M a"), steps(("a", ONE + TWO), "migrate M a")
OF_TREE = steps(("old/a", ONE), "migrate M old")
OF_SERVER = steps(("old/a", NUMBERED), "migrate --dovecot M old")
# one of its files, and mail that comes into the folder of a tree
A_FILE, COMES = "$(ls M/new/* | head -n 1)", "!printf 'Subject: x\\n\\nx\\n' >M/.a/"
# the last command of each story prints rows with these words
STORIES: list[tuple[list[Step], set[str]]] = [
    ([("old/a.b", ONE), "migrate M old"], {"name-before"}),
    # mboxo keeps both `>` of `>>From `, so that no line loses one
    ([("a", QUOTED), "migrate --dovecot --as mboxo M a"], {"no-uids"}),
    ([("a", PSEUDO + ONE), "migrate --dovecot M a"], {"first-appears"}),
    (
        [("a", NUMBERED), "migrate --dovecot M a", ("a", NUMBERED + TWO), "migrate --dovecot M a"],
        {"grew", "uids-of-new"},
    ),
    ([("a", NUMBERED + TWO + fields(THREE, b"X-UID: 5")), "migrate --dovecot M a"], {"new-uids"}),
    ([("a", fields(ONE, b"X-IMAPbase: 1 4294967294", UID)), "migrate --dovecot M a"], {"uids-anew"}),
    ([("a", NUMBERED), "migrate M a", "migrate --dovecot M a"], {"without-uids"}),
    (
        [
            ("a", fields(ONE, BASE + b"".join(b" k%d" % one for one in range(30)), UID, b"X-Keywords: k29")),
            "migrate --dovecot M a",
        ],
        {"keywords-lost"},
    ),
    ([("a", thunderbird(ONE, 1) + thunderbird(TWO, 9)), "migrate --drop-deleted M a"], {"deleted-left-out", "flags"}),
    ([("a", thunderbird(ONE, 1) + thunderbird(TWO, 9) + THREE), "migrate --drop-deleted M a"], {"deleted-kept"}),
    ([("a", QUOTED), "migrate --drop-deleted M a"], {"deleted-kept", "loses-quote"}),
    ([("a", INTERNAL + fields(ONE, b"X-UID: 1")), "migrate --dovecot M a"], {"without-internal"}),
    # of several names, and of files without mail
    ([("old/a", ONE), "!ln old/a old/b", "migrate M old"], {"also-named"}),
    ([("old/a", ONE), "!ln -s old more", "migrate M old more"], {"same-file"}),
    ([("a", ONE), ("n", b"milk\n"), "migrate --no-mail n M a n"], {"by-no-mail"}),
    ([("a", ONE), ("n", b"milk\n"), "migrate --no-mail n M a n", "migrate M a n"], {"no-mail-noted"}),
    ([("old/a", ONE), (".mbox2maildir-original-x/a", ONE), "!mv .mbox* old", "migrate M old"], {"put-aside"}),
    # of mail that several mailboxes brought
    ([("a", ONE + TWO), ("b", TWO), "migrate --folder X M a b"], {"shared"}),
    (
        [("a", ONE), ("b", fields(ONE, b"Status: RO", b"X-Status: F")), "migrate --folder X M a b"],
        {"shared", "flags-differ"},
    ),
    ([("a", ONE), ("b", TWO), "migrate M a", "migrate M b"], {"joins"}),
    ([("old/a", ONE), ("b", TWO), "migrate --folder a M b", "migrate M old"], {"joined"}),
    ([("a", ONE), "migrate --folder X M a", "migrate --folder Y M a"], {"elsewhere"}),
    ([("a", QUOTED), ("b", QUOTED), "migrate --as mboxrd M a", "migrate --as unquoted M b"], {"other-form", "joins"}),
    # of what others did in the folder
    ([("a", ONE), "!mbox2maildir convert M a", "migrate M a"], {"there-already"}),
    ([*DONE_OF_TWO, f"!rm {A_FILE}", "migrate --again M a"], {"placed"}),
    ([("a", ONE), "!mkdir -p M/new M/cur M/tmp; echo >M/new/1.host", "migrate M a"], {"other-programs"}),
    ([*DONE, "!for a in M/new/*; do mv $a M/cur/${a##*/}:2,T; done", ("b", ONE), "migrate M b"], {"joins", "marked"}),
    ([*DONE, "!rm M/new/*", "migrate M a"], {"gone"}),
    ([("a", ONE), ("b", ONE), "migrate M a", "!rm M/new/*", "migrate M b"], {"gone-elsewhere"}),
    ([*OF_TREE, "!rm -r M/.a", "migrate M old"], {"folder-gone"}),
    ([*OF_TREE, "!rm M/.a/mbox2maildir-messages", "migrate M old"], {"ledger-gone"}),
    (
        [*DONE, "!cp M/mbox2maildir-messages kept", *DONE_OF_TWO, "!cp kept M/mbox2maildir-messages", "migrate M a"],
        {"ledger-older"},
    ),
    # of what others did in the mailbox
    ([*DONE_OF_TWO, *DONE], {"lost"}),
    ([*DONE_OF_TWO, *DONE, *DONE_OF_TWO], {"grew", "regained"}),
    ([("a", MAY_BEGIN), "migrate --as mboxrd M a", ("a", MAY_BEGIN + ONE), "migrate M a"], {"as-answered", "grew"}),
    ([("a", ONE), "!touch -d '1 hour ago' a.lock", "migrate M a"], {"old-lock"}),
    ([("a", MAY_BEGIN), "migrate --as mboxrd M a", "migrate --as unquoted M a"], {"contradicted"}),
    ([("a", ONE), "migrate --prepare --unread M a", "migrate M a"], {"prepared-before"}),
    (
        [*((f"old/{one}", ONE) for one in range(10)), "migrate --prepare --unread M old", "!rm old/7", "migrate M old"],
        {"prepared-before", "mailbox-gone", "removed"},
    ),
    # of labels
    (
        [
            ("a", ONE),
            (
                "t",
                message("two", "Sent,Opened").encode()
                + ONE.replace(b"\n", b"\nX-GM-THRID: 1\nX-Gmail-Labels: Opened\n", 1),
            ),
            *("migrate --folder Archive M a", "migrate --labels M t"),
        ],
        {"flags", "shared", "flags-differ"},
    ),
    ([("t", message("one", "Sent,Opened").encode()), "migrate M t"], {"labelled", "flags"}),
    (
        [("t", (message("one", "a.b") + message("two", "a-b")).encode()), "migrate --labels M t"],
        {"same-folder", "unread"},
    ),
    (
        [
            *(("t", (message("one", "a.b") + message("two", "a-b")).encode()), "migrate --labels M t"),
            *(("t", (message("one", "a.b") + message("two", "Inbox")).encode()), "migrate --labels M t"),
        ],
        {"unlabelled", "unread"},
    ),
    # of an undo
    ([*DONE_OF_TWO, f"!rm {A_FILE}", "migrate --undo M a"], {"removed", "already-gone"}),
    ([*DONE_OF_TWO, f"!mv {A_FILE} M/cur/1.host:2,", "migrate --undo M a"], {"removed", "kept-renamed"}),
    ([*DONE_OF_TWO, f"!echo more >>{A_FILE}", "migrate --undo M a"], {"removed", "kept-edited"}),
    ([("a", ONE), "!mbox2maildir convert M a", "migrate M a", "migrate --undo M a"], {"removed", "kept-foreign"}),
    ([("a", ONE + TWO), ("b", TWO), "migrate --folder X M a b", "migrate --undo M a"], {"removed", "kept-shared"}),
    ([*DONE_OF_TWO, *DONE, "migrate --undo M a"], {"removed", "kept-lost"}),
    (
        [
            *(("a", ONE + TWO), ("b", TWO + THREE), "migrate --folder X M a b", ("b", THREE)),
            *("migrate --folder X M b", "migrate --undo M a"),
        ],
        {"removed", "kept-former"},
    ),
    # of verify, and of the way back
    ([*DONE, "!rm M/new/*", "verify M a"], {"nowhere"}),
    ([*DONE, "!cp M/new/* M/new/1.host", "verify M a"], {"double"}),
    ([*DONE, "!echo more >>$(ls M/new/*)", "verify M a"], {"other-bytes"}),
    ([*DONE, "!mv M/new/* M/cur/1.host:2,", "verify M a"], {"renamed"}),
    ([("a", fields(ONE, b"Status: RO")), "migrate --dovecot M a", "verify M a"], {"without-fields"}),
    ([("a", A.replace(b"\n", b"\r")), "!mbox2maildir convert M a", "verify M a"], {"doubtful-line"}),
    ([*OF_TREE, "!rm M/.a/new/*", "back M old"], {"deleted"}),
    ([*OF_TREE, "!echo more >>$(ls M/.a/new/*)", "back M old"], {"changed"}),
    ([*OF_TREE, "!printf ' Subject: x\\n\\nx\\n' >M/.a/new/1.h", "back M old"], {"beside"}),
    (
        [*OF_SERVER, "!echo 0 work >M/.a/dovecot-keywords", f"{COMES}cur/1.h:2,a", "back --dovecot M old"],
        {"keywords-added"},
    ),
    ([*OF_TREE, "!mkdir -p M/.Z/new M/.Z/cur; mv M/.a/new/* M/.Z/new", "back M old"], {"moved"}),
    ([*OF_TREE, "!printf 'X-UID: 9\\nSubject: x\\n\\nx\\n' >M/.a/new/1.h", "back M old"], {"fields-left-out"}),
    (
        [
            *(*OF_SERVER, "!echo 3 V1700000000 N4294967290 >M/.a/dovecot-uidlist"),
            *(f"{COMES}new/1.h", "back --dovecot M old"),
        ],
        {"uids-raised"},
    ),
    (
        [*OF_SERVER, "!echo 3 V1700000000 N99 >M/.a/dovecot-uidlist", f"{COMES}new/1.h", "back M old"],
        {"uids-not-raised"},
    ),
    ([*OF_TREE, "!printf 'a\\n' >M/subscriptions", "back --dovecot M old"], {"subscriptions"}),
]
# what is said by each word, if its sentence has places for what differs, or if there are several
SAID = {
    "after-nulls": "its text begins at byte 9, after NUL bytes",
    "loses-quote": "`>>From ` loses a `>` in 1 line (--as mboxo keeps it)",
    "keeps-quote": "`>From ` keeps its `>` in 1 line (--as mboxcl takes it away)",
    "without-date": "1 message without a date",
    "dated-by-header": "1 message dated by the header",
    "unread": "... came unread, since no known label says that mail was read (with --labels, --label NAME=read ...)",
    "name-before": "its name was a.b",
    "grew": "it grew by 1 message",
    "uids-anew": "its UIDs start anew, because too few are left above the last one",
    "without-uids": "without its UIDs, because it was migrated without --dovecot",
    "keywords-lost": "only 26 keywords are kept; lost: k26 k27 k28 k29",
    "deleted-left-out": "without 1 message marked as deleted",
    "flags": "1 message with flags of ...",
    "deleted-kept": "no deleted mail was left out, because 1 of ... messages have no X-Mozilla-Status",
    "also-named": "also named old/...",
    "same-file": "the same file as old/a",
    "shared": "1 message there already, from a",
    "flags-differ": "1 message of these marked in it, as read or flagged, but not in the Maildir",
    "joins": "INBOX has the mail of a too",
    "joined": "its folder has mail of b too",
    "elsewhere": "1 message of it went into X too",
    "other-form": "1 message there in another form, by another mailbox",
    "there-already": "1 message there already, by no mailbox",
    "placed": "placed 1 message",
    "other-programs": "1 message of other programs in the folder",
    "marked": "1 message placed beside files that are marked as deleted",
    "gone": "1 of the 1 messages that were placed in its folder are gone, or another program renamed them",
    "gone-elsewhere": "1 that a brought are gone",
    "ledger-older": "the ledger of its folder is older than its record, and lacks 1 message of it: mail may be ...",
    "lost": "1 message gone from it that it had brought",
    "regained": "1 message in it again that had been gone from it",
    "old-lock": "a.lock is older than 20 minutes and was ignored",
    "contradicted": "it was read as mboxrd, and --as unquoted gives other messages",
    "prepared-before": "1 prepared before",
    "removed": "removed ... message...",
    "labelled": "labelled Sent 1: with --labels, labels become folders",
    "same-folder": "its labels are a.b and a-b",
    "unlabelled": "the label was taken from 1 message; the mail stays here",
    "already-gone": "1 message already gone",
    "kept-renamed": "kept 1 message that another program renamed",
    "kept-edited": "kept 1 file that somebody edited",
    "kept-foreign": "kept 1 message that was nobody's",
    "kept-shared": "kept 1 message that b has too",
    "kept-lost": "kept 1 message that it no longer has",
    "kept-former": "kept 1 message that another mailbox brought too",
    "nowhere": "nowhere 1",
    "double": "doubles 1",
    "other-bytes": "other bytes 1",
    "renamed": "under another name 1",
    "without-fields": "without fields 1",
    "doubtful-line": "doubtful lines 1",
    "deleted": "1 message that was deleted in the Maildir is still there",
    "changed": "1 message that was changed in the Maildir is there as before",
    "beside": "old/a cannot hold M/.a/new/1.h",
    "keywords-added": "Dovecot is to add keywords, because the first message has no room for their names: work",
    "moved": "1 message that people moved here stays in the mailbox of a",
    "fields-left-out": "fields left out of 1 message: X-UID",
    "uids-raised": "its next UID is 4294967290 now",
    "uids-not-raised": "without --dovecot, Dovecot may give a UID twice",
    "subscriptions": "subscribed to 1 folder",
}
# by these words, the command that is printed below
NEXTS = {
    "contradicted": "migrate --undo --now M a",
    "elsewhere": "migrate --undo --now --folder X M a",
    "gone-elsewhere": "migrate --now --again M b",
    "keywords-added": "doveadm flags add -u ... work mailbox a uid 10",
}
# words that a test has in another file, and which of its cases
ELSEWHERE = {
    "as-brought": "companion/answers:by_what_it_brought",
    "by-lengths": "tables/lengths:decided",
    "came-back": "companion/ledger_places:rule_1_deleted_at_once",
    "other-owner": "companion/users_checked:each_reason",
    "power-cut": "world/unsynced:volatile",
}


def is_told(story: list[Step], wanted: set[str], home: Path) -> None:
    """A story ends with rows that have these words, each with its sentence and its command."""
    rows = take(story, home).rows
    equal(f"{story}: words", {word for row in rows for word in row.remarks}, wanted)
    for row in rows:
        for word, says in ((one["remark"], one["says"].replace(f"{home}/", "")) for one in row["remarks"]):
            matches(f"{story}: what is said", says, SAID.get(word, says))
        commands = [NEXTS[word] for word in row.remarks if word in NEXTS]
        matches(f"{story}: next", "\n".join(row.commands).replace("mbox2maildir-admin ", ""), "\n".join(commands))


def all_of_them(home: Path) -> None:
    """There is a case for each word of the schema. Those in other files have it."""
    del home
    for word, place in ELSEWHERE.items():
        file, case = place.split(":")
        text = text_of(TOP / f"tests/{file}.py")
        equal(f"{place}: {word}", (f'"{word}"' in text, f"def {case}(" in text), (True, True))
    told = {*OF_TEXTS, *ELSEWHERE}.union(*(words for _, words in STORIES))
    equal("words", told, {*SCHEMA["$defs"]["remark"]["enum"]})


if __name__ == "__main__":
    TEXTS: list[tuple[list[Step], set[str]]] = [
        ([("a", text), "migrate M a"], {word}) for word, text in OF_TEXTS.items()
    ]
    CASES = {"_".join(sorted(one[1])): one for one in [*TEXTS, *STORIES]}
    assert len(CASES) >= len(TEXTS) + len(STORIES) - 1, "two stories have the same words"
    run_cases(
        {
            "all_of_them": partial(at_home, all_of_them),
            **{name: partial(at_home, partial(is_told, *one)) for name, one in CASES.items()},
        }
    )
