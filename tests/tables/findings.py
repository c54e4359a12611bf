"""What `kind` and `verify` print with `--json`: objects that follow the schema, in the words of `migrate --json`."""
import gzip
import os
import shutil
from pathlib import Path
from typing import Union

from tests.companion.spool import users
from tests.support.checks import equal
from tests.support.homes import by_json, check_all, expect, files_of, mailbox, run, want_users
from tests.support.mail import ONE, TWO, bodies_of
from tests.support.printed import rows_in
from tests.support.running import Row

DOUBTFUL = ONE + b"From Tuesday on\n\nhi\n"


def objects(words: str, home: Path) -> dict[str, Row]:
    """The rows that are printed, by their paths. Nothing is on standard error, and the status is that for people."""
    ran = by_json(words, home)
    equal("status and standard error", (ran.status, ran.err), (run(words, home)[0], ""))
    return {row["path"]: row for row in ran.rows}


def what_files_are(home: Path) -> None:
    """Each file has an object, and one that is left out or not there has that of a row."""
    for name, text in (
        ("a", ONE + TWO),
        ("doubtful", DOUBTFUL),
        ("note", b"%PDF-1.4\n"),
        ("packed", gzip.compress(DOUBTFUL)),
        ("same", ONE),
        ("same.mbox", b""),
    ):
        mailbox(home / "old" / name, text)
    (home / "old/link").symlink_to("a")
    found = objects("kind old none", home)
    equal(
        "what they are",
        {path: one["kind"] for path, one in found.items() if one["verdict"] == "found"},
        {
            "old/a": "mboxrd or mboxo",
            "old/doubtful": "not quoted",
            "old/packed": "not quoted, compressed by gzip",
            "old/same": "mboxrd or mboxo",
            "old": "a folder of mailboxes",
        },
    )
    equal("messages", [found["old/a"][name] for name in ("messages", "most", "next")], [2, 2, []])
    rows = {path: (one["verdict"], one["reason"]) for path, one in found.items() if one["verdict"] != "found"}
    equal(
        "rows",
        rows,
        {
            "old/note": ("no mail", None),
            "old/same.mbox": ("no mail", None),
            "old/link": ("left", "link"),
            "none": ("left", "missing"),
        },
    )
    question, packed = found["old/doubtful"], found["old/packed"]
    equal("a question about what is packed", packed["lines"], question["lines"])
    of_both = [[(one["answer"], one["messages"]) for one in row["next"]] for row in (packed, question)]
    equal("its answers", *of_both)
    equal("the lines", [one["text"] for one in question["lines"] if not one["around"]], ["From Tuesday on"])
    answers = {one["answer"]: (one["argv"][:2], one["messages"]) for one in question["next"]}
    migrate = ["mbox2maildir-admin", "migrate"]
    equal("the answers", answers, {"belongs-above": (migrate, 1), "begins-here": (migrate, 2)})
    migrated = {row["path"]: row for row in by_json("migrate --dry-run M old", home).rows}
    equal("its lines as migrate shows them", question["lines"], migrated["old/doubtful"]["lines"])
    for path in ("old/doubtful", "old/packed"):
        own, its = (
            [(one["answer"], " ".join(one["argv"])) for one in rows[path]["next"]] for rows in (found, migrated)
        )
        equal(
            f"{path}: answers as migrate has them",
            [(one, text.replace("MAILDIR", "M")) for one, text in own],
            [(one, text.replace(" --dry-run", "")) for one, text in its],
        )


# a letter's folder: whose it is, by the owner and the group, and its mode; and whether the letter's owner may write
# there, so that what is made of it takes its place
FOLDERS: list[tuple[str, Union[str, int], int, bool]] = [
    ("m61one", "root", 0o700, True),
    ("m61one", "root", 0o577, False),
    ("m61two", "root", 0o777, True),
    ("m61two", "root", 0o775, False),
    # a group of the owner: by its own number, by its list, and without a name
    ("m61two", "m61one", 0o770, True),
    ("m61two", "m61team", 0o770, True),
    ("m61two", "m61team", 0o707, False),
    ("m61two", 60999, 0o770, False),
]
LETTER = b"Subject: one\nFrom: a@b\n\nhello\n"


def by_root(home: Path) -> None:
    """What is to be done with another user's file, that user does: where it lies, or in the home. A number without a
    name stands for a user too, and root's own files are root's."""
    want_users()
    letter, homes = mailbox(home / "old/x", LETTER), home / "homes"
    with users(home), open("/etc/group", "a", encoding="utf-8") as file:
        file.write("m61team:x:60998:m61one\n")
        file.flush()
        shutil.chown(letter, "m61one")
        for owner, group, mode, is_there in FOLDERS:
            shutil.chown(letter.parent, owner, group)
            letter.parent.chmod(mode)
            place = letter if is_there else homes / "m61one/x"
            command = made_by(f"{owner}, {group}, {mode:o}", home, "runuser -u m61one -- sh -c ", place)
            equal(f"{command}: what migrates it", "migrate MAILDIR" in command, not is_there)
        os.chown(letter, 4000000000, -1)
        made_by("a number", home, "setpriv --clear-groups --reuid 4000000000 sh -c ", Path("/x"))
        os.chown(letter, 0, -1)
        made_by("root's own", home, "d=$(", letter)


def made_by(what: str, home: Path, before: str, place: Path) -> str:
    """The command that makes a mailbox of a letter begins so, and makes its folder at this place."""
    (row, *_) = rows_in(run("kind old/x", home)[1])
    equal(
        f"{what}: {row.command}", (row.command.startswith(before), f"mktemp -d {place}." in row.command), (True, True)
    )
    return row.command


def what_is_there(home: Path) -> None:
    """Each mailbox has an object with its counts, and with what is nowhere, has other bytes or is there twice.
    An empty one has no mail."""
    for name, text in (("a", ONE + TWO), ("b", TWO), ("empty", b"")):
        mailbox(home / "old" / name, text)
    expect("migrate --all --now M old", home, 0, "...\n...\n...\n3 mailboxes: 3 done\n")
    whole = objects("verify M old", home).values()
    equal(
        "if all is there",
        [[one[name] for name in ("path", "folder", "directory", "verdict", "messages", "bytes")] for one in whole],
        [
            ["old/a", "a", ".a", "whole", 2, sum(map(len, bodies_of(ONE + TWO)))],
            ["old/b", "b", ".b", "whole", 1, *map(len, bodies_of(TWO))],
            ["old/empty", None, None, "no mail", None, None],
        ],
    )
    first, second = sorted(files_of(home / "M/.a").values())
    first.unlink()
    (first.parent / "1.host").write_bytes(second.read_bytes())
    second.write_bytes(b"changed\n")
    (only,) = files_of(home / "M/.b").values()
    (only.parent / "2.host").write_bytes(only.read_bytes())
    mailbox(home / "old/new", ONE)
    found = objects("verify M old none", home)
    wanted = {"old/a": ["other-bytes", "nowhere", "double"], "old/b": ["double"]}
    for path, sorts in wanted.items():
        one = found[path]
        equal(path, ([sort["sort"] for sort in one["details"]], one["verdict"]), (sorts, "not whole"))
        equal(f"counts of {path}", {sort for sort in sorts if one["counts"][sort] != 1}, set())
    equal("a double", found["old/b"]["details"][0]["path"], "M/.b/new/2.host")
    equal("reasons", [found[path]["reason"] for path in ("old/new", "none")], ["no-maildir", "missing"])
    (then,) = found["old/new"]["next"]
    equal("next", then["argv"], ["mbox2maildir-admin", "migrate", "M", "old"])


if __name__ == "__main__":
    check_all(what_files_are, by_root, what_is_there)
