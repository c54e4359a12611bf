"""mbox2maildir-admin migrate leaves a mailbox if its own look finds something wrong. In place of mbox2maildir a program
delivers, ends well, and then changes a file of the Maildir, or the mailbox."""
import os
import shutil
import sys
from functools import partial
from pathlib import Path

from tests.support.cases import LeftOut, run_cases
from tests.support.checks import LATER, equal, matches
from tests.support.homes import at_home, expect, fake, mailbox, restore, run, script
from tests.support.ledgers import ends_in
from tests.support.mail import ONE, THREE, TWO
from tests.support.running import Desk

CHANGED = "it changed while it was converted"
# of three messages
ALL = "there 3, under another name 0, other bytes 0, nowhere 0"
# what is done, as a line for the shell in the Maildir whose words are the paths of the mail; and why the mailbox is
# left then
CASES = {
    # a kernel's clock has ticks, so nothing shows what goes within one
    "gone": ('sleep 0.1; rm "$1"', "there 2, under another name 0, other bytes 0, nowhere 1"),
    "one_byte_more": ('echo >>"$1"', "there 2, under another name 0, other bytes 1, nowhere 0; with other bytes: ..."),
    "other_bytes_of_the_same_size": (
        'printf f | dd of="$1" conv=notrunc status=none',
        "there 2, under another name 0, other bytes 1, nowhere 0; with other bytes: ...",
    ),
    "one_is_empty": (': >"$1"', "there 2, under another name 0, other bytes 1, nowhere 0; with other bytes: ..."),
    "a_second_name": ('cp "$1" "cur/${1#new/}:2,S"', f"{ALL}; a second copy of a message: M/cur/..."),
    "one_gone_and_one_renamed": (
        'mv "$1" cur/17.host:2,S; rm "$2"',
        "there 1, under another name 1, other bytes 0, nowhere 1",
    ),
    "more_mail": ("printf 'From x Mon Jan  1 00:00:00 2024\\n\\n' >>BOX", CHANGED),
    "as_much_mail": ("printf f | dd of=BOX conv=notrunc status=none bs=1 seek=80", CHANGED),
    "as_much_mail_of_the_same_time": (
        "touch -r BOX was; printf f | dd of=BOX conv=notrunc status=none bs=1 seek=80; touch -r was BOX; rm was",
        CHANGED,
    ),
}
# what takes the place of the program's list, as a line for the shell, where REAL prints that; and why a mailbox is left
LISTS = {
    "exit 0": "`mbox2maildir list` gave fewer messages than were read here",
    "REAL | head -n 2": "`mbox2maildir list` gave fewer messages than were read here",
    "REAL; echo 4 more": "`mbox2maildir list` gave more messages than were read here",
    "REAL | sed '2s/^2/7/'": "line 7: message 2 differs from what `mbox2maildir list` gave",
    "REAL | sed '2s/[.]1 /.2 /'": "line 7: message 2 differs from what `mbox2maildir list` gave",
    r"REAL | sed -E '2s/([^ ]+ [^ ]+ [^ ]+ [^ ]+) [0-9]+/\1 1/'": "line 7: message 2 differs from what ...",
    "echo no library >&2; echo more >&2; exit 1": "`mbox2maildir list` failed: no library",
    "REAL; echo late >&2; exit 1": "`mbox2maildir list` failed: late",
    "exit 3": "`mbox2maildir list` failed: it ended with status 3",
    "kill -9 $$": "`mbox2maildir list` failed: it was killed by signal 9",
}


def other_lists(home: Path) -> None:
    """What the program lists is compared with what is read here, before anything is placed."""
    mailbox(home / "box", ONE + TWO + THREE)
    for deed, why in LISTS.items():
        fake(home, deed.replace("REAL", '"$real" list'), "list")
        status, out, _ = run("migrate --all --now M box", home)
        matches(deed, out.split("): ", 1)[-1], f"{why}\n1 mailbox: 1 left\n")
        equal(f"{deed}: what is there", (status, [*(home / "M").glob("*/*")]), (1, []))


def where_the_program_is(home: Path) -> None:
    """Beside the companion, or else in PATH, or else where a clone builds it."""
    if os.environ.get("INSTALLED"):
        raise LeftOut("it is installed, and in no clone")
    mailbox(home / "box", ONE)
    program, clone = home / "bin/mbox2maildir", home / "clone"
    shutil.copytree(home / "bin", clone / "admin")
    for path in program, clone / "admin/mbox2maildir":
        path.rename(path.with_name("other"))
    used = home / "used"
    # one may be installed in the folders of the system
    (home / "tools").mkdir()
    (home / "tools/python3").symlink_to(sys.executable)
    # what nobody may run is no program
    (home / "tools/mbox2maildir").write_text("hello\n", encoding="utf-8")
    names = f"{home}/paths:{clone}/admin:{home}/tools"
    for place in "", "clone/build", "paths", "clone/admin":
        if place:
            (home / place).mkdir(exist_ok=True)
            script(home / place / "mbox2maildir", f'echo {place} >{used}\nexec {clone}/admin/other "$@"')
        ran = Desk(home, clone / "admin", "", PATH=names).run(["migrate", "--dry-run", "M", "box"])
        says = f"could not find mbox2maildir in {clone}/admin or in PATH\n    run this next:\n        make -C {clone}\n"
        equal(f"it is in {place}", ran.err, "" if place else f"mbox2maildir-admin: {says}")
        equal(f"it is in {place}", used.read_text() if place else "\n", f"{place}\n")


def is_left(deed: str, why: str, home: Path) -> None:
    """A mailbox is left for this reason, and neither the record nor the ledger says that it is done."""
    plant(home, deed)
    word, status = ("changed", LATER) if why == CHANGED else ("not-verified", 1)
    row = f"box -> INBOX: mboxrd or mboxo, messages 3: left ({word}): {why}\n"
    row += "    stop the program that writes to it, and run the same command again\n" * (why == CHANGED)
    expect("migrate --all M box", home, status, row + "1 mailbox: 1 left\n")
    lines = (home / "M/mbox2maildir-record").read_text(encoding="utf-8").splitlines()[1:]
    equal("the record", [line.split("\t")[0] for line in lines], ["begun"])
    equal("what was verified", ends_in(home / "M"), 0)


def plant(home: Path, deed: str) -> None:
    """Makes a mailbox, and lets the program do this after it has delivered."""
    box = mailbox(home / "box", ONE + TWO + THREE)
    fake(home, f'"$real" "$@" || exit\nset -- new/*; {deed}'.replace("BOX", str(box)))


def a_copy(home: Path) -> None:
    """A copy that another program makes meanwhile is its own mail, and no second copy of this program's."""
    plant(home, 'cp "$1" cur/17.host:2,S')
    expect("migrate --all M box", home, 0, "box -> INBOX: mboxrd or mboxo, messages 3: done\n1 mailbox: 1 done\n")
    equal("what was verified", ends_in(home / "M"), 1)


def comes_back(home: Path) -> None:
    """What is nowhere after it was converted is placed by the next run, and not taken for deleted."""
    is_left(*CASES["gone"], home)
    restore(home)
    says = "when its mail was placed, up to 1 message that had been deleted or moved came back"
    expect(
        "migrate --all M box", home, 0, f"box -> INBOX: mboxrd or mboxo, messages 3: done, {says}\n1 mailbox: 1 done\n"
    )
    equal("files", len(list((home / "M/new").iterdir())), 3)


if __name__ == "__main__":
    run_cases(
        {
            **{name: partial(at_home, partial(is_left, *row)) for name, row in CASES.items()},
            "other_lists": partial(at_home, other_lists),
            "where_the_program_is": partial(at_home, where_the_program_is),
            "a_copy": partial(at_home, a_copy),
            "comes_back": partial(at_home, comes_back),
        }
    )
