"""Files of other kinds: each command that mbox2maildir-admin migrate prints for them is run as it is printed, by the
owner of the mail, and by root for users. Then the same words migrate what it made."""
import io
import lzma
import shutil
import subprocess
import tarfile
import zipfile
from collections.abc import Callable, Mapping
from functools import partial
from pathlib import Path

from tests.companion.spool import USERS, theirs, users
from tests.support.cases import LeftOut
from tests.support.checks import equal, matches
from tests.support.homes import by_json, check_all, mailbox, run, run_printed, subjects, want_users
from tests.support.mail import A, ONE, TWO
from tests.support.printed import rows_in

MAIL = b"Subject: one\nFrom: a@b\n\nhello\nFrom here on\n"
LIST = b'<?xml version="1.0" encoding="UTF-8"?>\n<!DOCTYPE plist PUBLIC "-//Apple//DTD PLIST 1.0//EN">\n<plist/>\n'
# names that a shell would take for something else
NAMES = ("a b", "it's", 'say "x"', "-v", "$HOME", "c:d", "`id`")
LONGEST = "n" * 255
# two mailboxes, one of them in a folder
OF_TWO = {"one": ONE, "lists/two": TWO}


def tar_of(files: Mapping[str, bytes], form: int = tarfile.DEFAULT_FORMAT) -> bytes:
    """An archive of these files, in a form of tar."""
    file = io.BytesIO()
    with tarfile.open(fileobj=file, mode="w", format=form) as tar:
        for name, text in files.items():
            member = tarfile.TarInfo(name)
            member.size = len(text)
            tar.addfile(member, io.BytesIO(text))
    return file.getvalue()


def zip_of(files: Mapping[str, bytes]) -> bytes:
    """The same of zip."""
    file = io.BytesIO()
    with zipfile.ZipFile(file, "w") as archive:
        for name, text in files.items():
            archive.writestr(name, text)
    return file.getvalue()


def seven_zip() -> bytes:
    """An archive of 7z, which that program writes only into a file."""
    place = Path(subprocess.run(["mktemp", "-d"], stdout=subprocess.PIPE, check=True).stdout.decode().strip())
    try:
        (place / "one").write_bytes(ONE)
        subprocess.run(["7z", "a", "x.7z", "one"], cwd=place, stdout=subprocess.DEVNULL, check=True)
        return (place / "x.7z").read_bytes()
    finally:
        shutil.rmtree(place)


def cpio_of_one() -> bytes:
    """An archive of cpio, of one mailbox."""
    head = b"070701" + b"%08x" * 13 % (1, 0o100600, 0, 0, 1, 0, len(ONE), 0, 0, 0, 0, 4, 0)
    end = b"070701" + b"%08x" * 13 % (0, 0, 0, 0, 1, 0, 0, 0, 0, 0, 0, 11, 0)
    parts = (head + b"one\0", ONE, end + b"TRAILER!!!\0")
    return b"".join(part + bytes(-len(part) % 4) for part in parts)


def piped_in(text: bytes, *words: str) -> bytes:
    """What a program writes when it reads a text."""
    return subprocess.run(words, input=text, stdout=subprocess.PIPE, check=True).stdout


# A kind of file: what makes one, by which programs it is made and read, and the subjects of its messages
KINDS = {
    "tar": (partial(tar_of, OF_TWO), ("tar",), ["one", "two"]),
    "zip": (partial(zip_of, OF_TWO), ("unzip",), ["one", "two"]),
    "7z": (seven_zip, ("7z",), ["one"]),
    "cpio": (cpio_of_one, ("cpio",), ["one"]),
    **{
        f"tar in {program}": (partial(piped_in, tar_of(OF_TWO), program, "-c"), ("tar", program), ["one", "two"])
        for program in ("gzip", "bzip2", "xz", "zstd", "lz4")
    },
    "lzma": (lambda: lzma.compress(ONE, lzma.FORMAT_ALONE), ("xz",), ["one"]),
    "lzip": (partial(piped_in, ONE, "lzip", "-c"), ("lzip",), ["one"]),
    "lzop": (partial(piped_in, ONE, "lzop", "-c"), ("lzop",), ["one"]),
    "lz4 of old": (partial(piped_in, ONE, "lz4", "-l", "-c"), ("lz4",), ["one"]),
    "MMDF": (lambda: b"\1\1\1\1\n" + ONE + b"\1\1\1\1\n\1\1\1\1\n" + TWO + b"\1\1\1\1\n", ("awk",), ["one", "two"]),
    "emlx": (lambda: b"%d\n%s%s" % (len(MAIL), MAIL, LIST), ("sed",), ["one"]),
    "one mail": (lambda: MAIL, ("sed",), ["one"]),
    "a cut From_ line": (lambda: A[1:] + b"\nhello\n\n" + TWO, ("cat",), ["one", "two"]),
    "NULs": (lambda: b"\0\0 \n" + ONE, ("tail",), ["one"]),
}  # type: dict[str, tuple[Callable[[], bytes], tuple[str, ...], list[str]]]


def kinds_here() -> dict[str, tuple[bytes, list[str]]]:
    """The files of those kinds whose programs are installed, and the subjects of their messages."""
    return {
        kind: (make(), wanted) for kind, (make, programs, wanted) in KINDS.items() if all(map(shutil.which, programs))
    }


def nexts_in(words: list[str], home: Path) -> dict[str, str]:
    """The next command of each mailbox that is left."""
    return {row.name: row.command for row in by_json(["migrate", "--now", *words], home).rows if row.commands}


def done_by(command: str, home: Path) -> None:
    """Runs a command as it is printed. It must do what it says."""
    ran = run_printed(command, home)
    equal(f"{command}: status; {ran.err!r}", ran.status, 0)


def migrate_and_do(words: list[str], home: Path) -> tuple[int, str]:
    """Migrates, runs each command that is printed, and migrates again."""
    for command in nexts_in(words, home).values():
        done_by(command, home)
    return run(["migrate", "--now", *words], home)[:2]


def subjects_below(maildir: Path) -> list[str]:
    """The subjects of the mail of a Maildir and of its folders."""
    return sorted(subject for new in maildir.rglob("new") for subject in subjects(new.parent))


def of_a_tree(home: Path) -> None:
    """In a folder of mailboxes, what a command makes takes the file's place, and the file is put outside."""
    for kind, (text, wanted) in kinds_here().items():
        mailbox(home / "old" / kind, text)
        status, out = migrate_and_do(["M", "old"], home)
        equal(f"{kind}: status, and what came: {out}", (status, subjects_below(home / "M")), (0, wanted))
        aside = list(home.glob(f"{kind}.*/original"))
        assert text in [one.read_bytes() for one in aside], f"{kind}: {aside}"
        equal(f"{kind}: once more", run("migrate --now M old", home)[0], 0)
        for name in ("M", "old"):
            shutil.rmtree(home / name)


def of_names(home: Path) -> None:
    """Names that a shell would read in another way, in a folder and by themselves, and the longest name."""
    mailbox(home / "own" / LONGEST, MAIL)
    equal("as long as can be", migrate_and_do(["L", f"own/{LONGEST}"], home)[0], 0)
    for name in NAMES:
        mailbox(home / "old" / name, tar_of(OF_TWO))
        mailbox(home / "own" / name, MAIL)
        status, out = migrate_and_do(["M", "old"], home)
        equal(f"{name}: {out}", (status, subjects_below(home / "M")), (0, ["one", "two"]))
        status, out = migrate_and_do(["N", f"own/{name}"], home)
        equal(f"{name} by itself: {out}", (status, subjects_below(home / "N")), (0, ["one"]))
        for folder in ("M", "N", "old", "own"):
            shutil.rmtree(home / folder)


def nothing_is_replaced(home: Path) -> None:
    """A command that fails, and one that is run twice, leave all mail as it is."""
    whole = piped_in(TWO * 9, "gzip", "-c") if not shutil.which("lzip") else piped_in(TWO * 9, "lzip", "-c")
    if not whole.startswith(b"LZIP"):
        raise LeftOut("lzip is not here")
    mailbox(home / "old/x", whole[:-20])
    command = nexts_in(["M", "old"], home)["old/x"]
    assert run_printed(command, home).status, command
    equal("a file that is cut", (home / "old/x").read_bytes(), whole[:-20])
    mailbox(home / "old/x", whole)
    done_by(command, home)
    equal("what it holds", (home / "old/x").read_bytes(), TWO * 9)
    run_printed(command, home)
    equal("once more", (home / "old/x").read_bytes(), TWO * 9)


def where_none_may_write(home: Path) -> None:
    """A folder in which the owner may not write stays as it is. What is made is migrated from a home."""
    want_users()
    first, second, third = USERS
    with users(home):
        theirs(mailbox(home / "spool" / first, MAIL), first)
        theirs(mailbox(home / "spool" / second, tar_of(OF_TWO)), second)
        theirs(mailbox(home / "homes" / third / "mail/it's old", tar_of(OF_TWO)), third)
        (home / "spool").chmod(0o711)
        words = ["--users", "--tree", "mail", "spool", *USERS]
        commands = nexts_in(["--dry-run", *words], home)
        for who in (first, second):
            # nothing was migrated, so the spool keeps it
            done_by(commands[who], home)
            equal(f"{commands[who]}: what it made", list((home / "homes" / who).glob("Maildir")), [])
            assert (home / "spool" / who).exists(), commands[who]
        commands = nexts_in(words, home)
        equal("who is left", sorted(commands), [first, f"{third} mail/it's old", second])
        for who, command in commands.items():
            matches(f"{who}: by whose rights", command, f"runuser -u {who.split(' ')[0]} -- sh -c ...")
            done_by(command, home)
        # the spool has no mailbox of two any more, and those were migrated
        equal("what the spool has", sorted(path.name for path in (home / "spool").iterdir()), [])
        equal("once more", run(["migrate", "--now", *words], home).status, 0)
        for name, wanted in ((first, ["one"]), (second, ["one", "two"]), (third, ["one", "two"])):
            maildir = home / "homes" / name / "Maildir"
            equal(f"{name}: the mail", subjects_below(maildir), wanted)
            owners = {path.owner() for path in [maildir, *maildir.rglob("*")]}
            equal(f"{name}: its owner", owners, {name})


def as_root_types_them(home: Path) -> None:
    """What is printed behind `runuser`, as for virtual users, is typed by root. It has the rights of that user."""
    want_users()
    with users(home):
        own, name = home / "homes" / USERS[0], USERS[0]
        for path, text in (("mail/letter", MAIL), ("mail/one", ONE), ("mail/a.txt", b"hello\n")):
            theirs(mailbox(own / path, text), name)
        command = f"exec runuser -u {name} -- mbox2maildir-admin migrate --all --now {own}/Maildir {own}/mail"
        out = run(["/bin/sh", "-c", command.replace(" --all", "")], home)[1]
        groups = [line.split()[:3] for line in out.splitlines() if line.startswith(" " * 8)]
        equal(f"the groups: {out}", groups, [["runuser", "-u", name]] * 2)
        status, out, _ = run(["/bin/sh", "-c", command], home)
        commands = {row.name: row.command for row in rows_in(out) if row.below}
        equal("what is left", (status, sorted(commands)), (1, [f"{own}/mail/{one}" for one in ("a.txt", "letter")]))
        matches("a look", commands[f"{own}/mail/a.txt"], f"runuser -u {name} -- sh -c 'file ...'")
        done_by(commands[f"{own}/mail/letter"], home)
        equal("whose it is", {path.owner() for path in (own / "mail").iterdir()}, {name})
        last = run(["/bin/sh", "-c", command], home)[1].splitlines()[-1]
        equal("the next run", last, "3 mailboxes: 1 done, 1 done before, 1 left")


def of_a_tree_below_root(home: Path) -> None:
    """A folder of mailboxes is its owner's, and the folder in which it is is not: the file is put into the home."""
    want_users()
    with users(home):
        own, tree, name = home / "homes" / USERS[0], home / "spool/tree", USERS[0]
        theirs(mailbox(tree / "letter", MAIL), name)
        command = f"exec runuser -u {name} -- mbox2maildir-admin migrate --all --now {own}/Maildir {tree}"
        commands = {row.name: row.command for row in rows_in(run(["/bin/sh", "-c", command], home)[1]) if row.below}
        done_by(commands[f"{tree}/letter"], home)
        equal("what is put aside", [path.read_bytes() for path in own.glob("letter.*/original")], [MAIL])
        status = run(["/bin/sh", "-c", command], home).status
        equal("once more", (status, subjects_below(own / "Maildir")), (0, ["one"]))


if __name__ == "__main__":
    check_all(of_a_tree, of_names, nothing_is_replaced, where_none_may_write, as_root_types_them, of_a_tree_below_root)
