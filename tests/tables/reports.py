"""The file that `migrate --report` writes: what is in it, and what becomes of it if it cannot be written."""
import json
import stat
from pathlib import Path
from typing import Any

from tests.support.checks import equal
from tests.support.homes import check_all, doing_first, expect, mailbox, run, want_users
from tests.support.mail import ONE, TWO
from tests.support.mounts import small_disk
from tests.support.schema import wrong

# of the process, a report takes no more, and cannot be synced either
FAILS_TWICE = """
import errno, os
def fails(name, error):
    call = getattr(os, name)
    def fail(number, *words):
        if os.readlink(f"/proc/self/fd/{number}").endswith("/r"):
            raise OSError(error, os.strerror(error))
        return call(number, *words)
    setattr(os, name, fail)
fails("write", errno.ENOSPC)
fails("fsync", errno.EIO)
"""
SAYS = "mbox2maildir-admin: {} already exists\n    name a file that is not there\n"


def objects_of(path: Path) -> list[dict[str, Any]]:
    """The objects in a report, which follow the schema."""
    objects = [json.loads(line) for line in path.read_text(encoding="utf-8").splitlines()]
    equal("what is wrong by the schema", [wrong(one) for one in objects], [[]] * len(objects))
    equal("what each is", [one["type"] for one in objects], ["row"] * (len(objects) - 1) + ["sum"])
    return objects


def beside_what_is_printed(home: Path) -> None:
    """A report has each row, also those that are not printed, and the same sums. Only its owner may read it."""
    mailbox(home / "old/a", ONE + TWO)
    mailbox(home / "old/note", b"hello\n")
    mailbox(home / "old/.hidden", b"")
    status, out, err = run("migrate --all --now --report report M old", home)
    equal("status, errors and lines", (status, err, out.count("old/")), (1, "", 3))
    *rows, sums = objects_of(home / "report")
    found = {row["path"]: (row["verdict"], row["reason"]) for row in rows}
    equal("rows", found, {"old/a": ("done", None), "old/note": ("left", "not-known"), "old/.hidden": ("no mail", None)})
    equal("the sums", sums["says"].split("; 2 messages")[0], out.splitlines()[-1])
    equal("its mode", stat.S_IMODE((home / "report").stat().st_mode), 0o600)
    status, out, _ = run("migrate --now --json --report objects M old", home)
    *printed, _ = map(json.loads, out.splitlines())
    equal("with --json", objects_of(home / "objects")[:-1], printed)


def of_an_undo(home: Path) -> None:
    """An undo has a report too."""
    mailbox(home / "box", ONE)
    equal("status", run("migrate M box", home)[0], 0)
    expect("migrate --all --undo --report r M box", home, 0, "...\n1 mailbox: 1 undone\n")
    equal("its verdict", [one.get("verdict") for one in objects_of(home / "r")], ["undone", None])


def only_a_new_file(home: Path) -> None:
    """If something is at its path, nothing is migrated and nothing is written, not through a link either. A command
    that fails at once leaves no report."""
    mailbox(home / "box", ONE)
    (home / "there").write_text("mine", encoding="utf-8")
    (home / "link").symlink_to("nowhere")
    for name in ("there", "link", "box"):
        expect(["migrate", "--report", name, "M", "box"], home, 1, "", SAYS.format(name))
    equal(
        "what was there", ((home / "there").read_text(encoding="utf-8"), (home / "nowhere").exists()), ("mine", False)
    )
    equal("the mailbox", ((home / "box").read_bytes(), (home / "M").exists()), (ONE, False))
    (home / "full").mkdir()
    (home / "full/file").write_text("", encoding="utf-8")
    equal("a folder that is no Maildir", run("migrate --report r full box", home)[0], 1)
    equal("its report", (home / "r").exists(), False)


def on_a_full_disk(home: Path) -> None:
    """What could not be written is said once, at the end, and all mailboxes are done. A report without a row goes."""
    want_users()
    for number in range(40):
        mailbox(home / f"old/{number}", ONE)
    with small_disk(home / "disk", "8k") as disk:
        for number, is_full in enumerate((False, True)):
            (disk / "filler").write_bytes(b"x" * 8192 * is_full)
            status, out, err = run(["migrate", "--all", "--now", "--report", "disk/r", f"M{number}", "old"], home)
            says = "mbox2maildir-admin: disk/r: the report could not be written: No space left on device\n"
            equal("status, and what is said", (status, err), (1, says))
            equal("the last line", out.splitlines()[-1], "40 mailboxes: 40 done")
            text = b"" if is_full else (disk / "r").read_bytes()
            equal("what is there", (b'"verdict": "done"' in text, (disk / "r").exists()), (not is_full, not is_full))
            (disk / "r").unlink(missing_ok=True)


def that_fails_twice(home: Path) -> None:
    """It is said why its first object could not be written."""
    mailbox(home / "box", ONE)
    says = "mbox2maildir-admin: r: the report could not be written: No space left on device\n"
    command = [str(doing_first(FAILS_TWICE, home / "bin")), "migrate", "--now", "--report", "r", "M", "box"]
    expect(command, home, 1, None, says)


if __name__ == "__main__":
    check_all(beside_what_is_printed, of_an_undo, only_a_new_file, on_a_full_disk, that_fails_twice)
