"""What is said if `mbox2maildir convert` fails: in its place a program does something, and prints what it says then."""
from tests.support.mail import ONE, TWO
from tests.support.stories import RESTORED, Step, killed, run_stories, steps

ONCE = "the system reported an error, but the same works now: read the system's log, and run this again"
SYNC_FAILED = "a: left (sync-failed): its sync failed: read the system's log and mount the disk again before you ..."
SECOND_IS_THERE: list[Step] = [("a", TWO), "!mbox2maildir convert M a", ("a", ONE + TWO)]
# what was tried there is removed
EMPTY = "!rmdir M/tmp"
ALL_IS_THERE: list[Step] = [("a", TWO), *killed("migrate M a")]
# programs that say nothing
SILENT = {
    "exit 3": "a: left (convert-failed): convert ended with status 3; 1 of 2 messages are there",
    "kill -9 $$": "a: left (convert-failed): convert was killed by signal 9; 1 of 2 messages are there",
}
ALL = '"$real" "$@"; '
# what it does, what it says, and what is said of a mailbox of two messages, of which one is there already
FAILS = {
    "a_listing": (
        "",
        "folder call 1 failed",
        f"folder call 1 failed, which lists tmp; {ONCE}; 1 of 2 messages are there",
    ),
    "the_sync_of_a_listing": ("", "folder call 2 failed", SYNC_FAILED),
    "the_sync_of_the_last_listing": ("", "folder call 3 failed", SYNC_FAILED),
    "a_folder_is_gone": (
        "mv new old; ",
        "folder call 3 failed",
        "folder call 3 failed, which lists cur; could not list it: No such file or directory; 0 of 2 messages ...",
    ),
    "a_name_is_garbled": (
        ": >$(printf 'cur/caf\\351'); ",
        "folder call 3 failed",
        "folder call 3 failed, which lists cur; a name is not UTF-8: M/cur/caf\\xe9; 1 of 2 messages are there",
    ),
    "a_late_call": (
        "",
        "folder call 9 failed",
        f"folder call 9 failed, which removes a leftover, or writes or places a message; {ONCE}; 1 of 2 messages ...",
    ),
    "a_late_call_once_all_is_there": (ALL, "folder call 9 failed", SYNC_FAILED),
    "tmp_is_gone": (
        "rmdir tmp; ",
        "it can't",
        "it can't; could not make a file in tmp: No such file or directory; 1 of 2 messages are there",
    ),
    "it_opens_no_folder": ("", "cannot open the folder", f"cannot open the folder; {ONCE}; 1 of 2 messages are there"),
    "it_reads_nothing": (
        "",
        "the source could not be read",
        f"the source could not be read; {ONCE}; 1 of 2 messages are there",
    ),
    "it_names_the_cause": ("", "out of memory", "out of memory; 1 of 2 messages are there"),
}


def story(begun: list[Step], words: str, does: str, says: str, wanted: str) -> list[Step]:
    """A program that fails in this way, for a mailbox that was begun and is migrated by these words."""
    wanted = wanted if wanted == SYNC_FAILED else f"a: left (convert-failed): mbox2maildir: {wanted}"
    return [*begun, f'@{does}echo "mbox2maildir: {says}" >&2; exit 1', (words, wanted)]


# where nothing is to be placed, the program only removes what a killed one has left
SWEEPS = {
    "another_is_at_work": (
        "",
        "another converter is at work",
        "another converter is at work; 1 of 1 messages are there",
    ),
    "a_name_is_garbled_once_all_is_there": (
        ": >$(printf 'cur/caf\\351'); ",
        "folder call 3 failed",
        "folder call 3 failed, which lists cur; a name is not UTF-8: M/cur/caf\\xe9; 1 of 1 messages are there",
    ),
    "the_first_call_after_the_listings": ("", "folder call 4 failed", SYNC_FAILED),
}

if __name__ == "__main__":
    run_stories(
        {
            "it_says_nothing": [
                one
                for does, says in SILENT.items()
                for one in steps(
                    "!rm -rf M", *SECOND_IS_THERE, f"@{does}", ("migrate --again M a", says), EMPTY, RESTORED
                )
            ],
            **{name: story(SECOND_IS_THERE, "migrate --again M a", *row) for name, row in FAILS.items()},
            **{name: story(ALL_IS_THERE, "migrate M a", *row) for name, row in SWEEPS.items()},
        }
    )
