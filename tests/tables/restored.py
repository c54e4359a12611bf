"""What is said once ledgers, folders or the record were restored, removed, renamed or copied, and what is there."""
from tests.support.mail import C, ONE, THREE, TWO
from tests.support.stories import RESTORED, SYNC_FAILS, Step, run_stories, steps

RECORD, LEDGER = "M/mbox2maildir-record", "M/.A/mbox2maildir-messages"
MIGRATE, UNDO = "migrate --folder A M a", "migrate --undo --folder A M a"
FOUR = C.replace(b"three", b"four") + b"\n"
OLDER = "a: done before: the ledger of its folder is older than its record, and lacks %s of it: mail may be missing ..."
LEFT = "a: left (ledger): the ledger of its folder is %s, so nothing shows which of its messages were placed"
GREW = "a: done: it grew by 1 message"
NOT_SURE = (
    "a: left (undo): the ledger of its folder is older than its record, and nothing shows which files are those of b: "
    "migrate that with --again first"
)
WITHOUT_LINES = (
    "a: left (ledger): the ledger of its folder is older than the folder, where this program has placed 1 message of "
    "which no ledger has a line: restore the newest one, or first migrate the other mailboxes that went there"
)
NOT_THERE = "a: left (undo): no ledger has it, so nothing shows which files are its own"


def came_back(what: str, *before: str) -> list[Step]:
    """A mailbox grew since a copy was made of something, which is in its place again."""
    kept: list[Step] = [("a", ONE), MIGRATE, f"!cp -a {what} kept", ("a", ONE + TWO), (MIGRATE, GREW)]
    return [*kept, *before, f"!rm -r {what}; mv kept {what}"]


def undone(what: str) -> list[Step]:
    """A mailbox was undone since a copy was made of something, which is in its place again."""
    return [("a", ONE + TWO), MIGRATE, f"!cp -a {what} kept", UNDO, "=", f"!rm -r {what}; mv kept {what}"]


def done(*then: Step) -> list[Step]:
    """A mailbox is done."""
    return steps(("a", ONE + TWO), MIGRATE, *then)


STORIES: dict[str, list[Step]] = {
    "the_ledger": [
        *(*came_back(LEDGER), (MIGRATE, OLDER % "1 message"), ("a", ONE + TWO + THREE)),
        *((MIGRATE, LEFT % "older than its record"), "= A/one A/two", f"{MIGRATE} --again", "= A/one A/three A/two"),
        (MIGRATE, "a: done before"),
    ],
    "the_ledger_and_mail_was_deleted": [
        *(
            *came_back(LEDGER, "!rm $(grep -l two M/.A/new/*)"),
            (MIGRATE, OLDER % "1 message"),
            ("a", ONE + TWO + THREE),
        ),
        *((MIGRATE, LEFT % "older than its record"), "= A/one"),
    ],
    "the_folder": [
        *(*came_back("M/.A"), (MIGRATE, OLDER % "1 message"), "= A/one", ("a", ONE + TWO + THREE)),
        *((MIGRATE, LEFT % "older than its record"), "= A/one", f"{MIGRATE} --again", "= A/one A/three A/two"),
    ],
    "the_record": [
        *(*came_back(RECORD), (MIGRATE, "a: done before"), ("a", ONE + TWO + THREE), (MIGRATE, GREW)),
        "= A/one A/three A/two",
    ],
    "the_maildir": [*came_back("M"), (MIGRATE, GREW), "= A/one A/two"],
    "a_folder_from_before_an_undo": [
        *(*undone("M/.A"), (MIGRATE, "a: done"), "= A/one A/two"),
        *((UNDO, "a: undone: removed 2 messages"), "="),
    ],
    "a_record_from_before_an_undo": [*(*undone(RECORD), (UNDO, NOT_THERE), (MIGRATE, "a: done"), "= A/one A/two")],
    "an_undo_by_a_ledger_that_lacks_another": [
        *done(f"!cp {LEDGER} kept", ("b", TWO), "migrate --folder A M b", f"!cp kept {LEDGER}", (UNDO, NOT_SURE)),
        *("migrate --folder A --again M b", (UNDO, "a: undone: removed 1 message; kept 1 message that b has too")),
        "= A/two",
    ],
    "an_undo_by_a_ledger_and_a_record_that_lack_another": [
        *done(f"!cp {LEDGER} {RECORD} .", ("b", TWO + THREE), "migrate --folder A M b"),
        *(f"!mv mbox2maildir-record M; mv mbox2maildir-messages {LEDGER}", (UNDO, WITHOUT_LINES)),
        ("migrate --dry-run --undo --folder A M a", WITHOUT_LINES),
        *("migrate --folder A M b", (UNDO, "a: undone: removed 1 message; kept 1 message that b has too")),
        "= A/three A/two",
    ],
    "no_ledger": [
        *done(f"!rm {LEDGER}", (MIGRATE, "a: done before: the ledger of its folder is gone"), ("a", ONE + TWO + THREE)),
        *((MIGRATE, LEFT % "missing"), "= A/one A/two", f"{MIGRATE} --again", "= A/one A/three A/two"),
        (UNDO, "a: undone: removed 1 message; kept 2 messages that were nobody's"),
    ],
    "no_ledger_and_nothing_is_nowhere": [
        *done(f"!rm {LEDGER}", ("a", TWO), (MIGRATE, "a: done: 1 message there already, by ...")),
        *("= A/one A/two", (UNDO, "a: undone: removed 0 messages; kept 1 message that was nobody's"), "= A/one A/two"),
    ],
    "no_record": [
        *done(f"!rm {RECORD}", (MIGRATE, "a: done before"), ("a", ONE + TWO + THREE), f"!rm {RECORD}"),
        *((MIGRATE, GREW), "= A/one A/three A/two"),
    ],
    "no_record_and_another_name": [
        *done(f"!rm {RECORD}; mv M/.A M/.B", (MIGRATE, "a: left (no-folder): its mail is in B: the ledger there ...")),
        *("= B/one B/two", ("migrate M a", "a: done before")),
    ],
    "no_folder": [
        *done("!rm -r M/.A", (MIGRATE, "a: done before: its folder is gone"), ("a", ONE + TWO + THREE)),
        *((MIGRATE, LEFT % "missing"), "=", f"{MIGRATE} --again", "= A/one A/three A/two"),
    ],
    "another_name": [
        *done("!mv M/.A M/.B", (MIGRATE, "a: done before"), ("a", ONE + TWO + THREE), (MIGRATE, GREW)),
        *("= B/one B/three B/two", (UNDO, "a: undone: removed 3 messages"), "="),
    ],
    "two_names": [
        *done(("b", THREE), "migrate --folder B M b", "!cd M; mv .A .C; mv .B .A; mv .C .B", ("a", ONE + TWO + FOUR)),
        *((MIGRATE, GREW), ("migrate --folder B M b", "b: done before"), "= A/three B/four B/one B/two"),
    ],
    "a_copy_of_the_folder": [
        *done("!cp -a M/.A M/.0", ("a", ONE + TWO + THREE), (MIGRATE, GREW), "= 0/one 0/two A/one A/three A/two"),
        *((UNDO, "a: undone: removed 3 messages"), "= 0/one 0/two"),
    ],
    # the folder goes into a backup with its ledger, which says that an undo was begun
    "a_folder_while_an_undo_was_killed": [
        *done(f"!printf '<\\t%s\\n' $PWD/a >>{LEDGER}; rm $(grep -l one M/.A/new/*); rm {RECORD}"),
        *((MIGRATE, "a: left (undo): its undo was interrupted"), "= A/two"),
        *((UNDO, "a: undone: removed 1 message; 1 message already gone"), "=", (UNDO, NOT_THERE)),
        *((MIGRATE, "a: done"), "= A/one A/two"),
    ],
    "a_folder_whose_sync_failed": [
        *(("a", ONE + TWO), SYNC_FAILS, (MIGRATE, "a: left (sync-failed): its sync failed: ..."), RESTORED),
        *(f"!rm {RECORD}", (MIGRATE, "a: left (sync-failed): its sync failed: ..."), f"{MIGRATE} --again"),
        *((MIGRATE, "a: done before"), "= A/one A/two"),
    ],
}

if __name__ == "__main__":
    run_stories(STORIES)
