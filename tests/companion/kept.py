"""What later versions keep. One version wrote the folder `kept`: Maildirs with their books, mailboxes, what `--json`
printed of them, and the words that scripts use. Most cases go on in a copy, as in a restored backup: its files have
other inodes and times, and only the paths in the books are those of the copy. With `--make`, this version writes the
folder anew."""
import json
import re
import shutil
import sys
from collections.abc import Callable, Iterator
from contextlib import contextmanager
from functools import partial
from pathlib import Path
from typing import Any

from tests.pages.documents import LEFT, MANUAL, MANUALS
from tests.support.cases import run_cases
from tests.support.checks import TOP, equal, match_in, text_of
from tests.support.homes import by_json, fake, fresh_folder, install, mail_below, mail_in, mailbox, make_maildir
from tests.support.homes import restore, run
from tests.support.ledgers import LEDGER, PREPARED, RECORD
from tests.support.mail import A, ONE, THREE, TWO
from tests.support.running import Desk, Row, Run
from tests.support.schema import SCHEMA
from tests.support.stories import SYNC_FAILS

KEPT = TOP / "tests/companion/kept"
PLACE, SAID, WORDS = KEPT / "home", KEPT / "said.json", KEPT / "words.txt"
# what stands in the books for the home; the path of a copy is as long, so the sizes in the index are right
HOME = "/home-of-the-folder" * 5
FOUR, FIVE, SIX = (ONE.replace(b"one", word) for word in (b"four", b"five", b"six"))
# a message in which a line looks like the start of another one
PATCH = A + b"\nhello\nFrom the first of May we are here.\n\n"
# messages of a Takeout
WORK, PLANS = (
    text.replace(b"\n", b"\nX-GM-THRID: 1\nX-Gmail-Labels: " + labels + b"\n", 1)
    for text, labels in ((ONE, b"Posteingang,Work"), (TWO, b"Gesendet,Plans"))
)
# the statuses of what was done, as the manual has them: what is left, and nothing to be done, have 1; a file that is
# passed over has 0
STATUSES = [0, 0, 1, 0, 0, 0, 0, 0, 0, 0, 0, 0, 1, 0, 0, 0, 0, 0, 0]
# what a killed `back` was going to append
BACK = "mbox2maildir-back"
# each book, with a mailbox and the commands that read the book for it
WRITERS = [f"migrate --now{option}" for option in ("", " --again", " --dry-run", " --undo", " --prepare --unread")]
READ_BY = (
    (f"M/{RECORD}", "M answered", [*WRITERS, "back --now", "verify", "dates"]),
    (f"M/{LEDGER}", "M box", [*WRITERS, "back --now"]),
    (f"P/{PREPARED}", "P used", WRITERS),
)
# what is another one in each run, and what is told in sentences or is a command
FREE = {"seconds", "last_pass_seconds", "host", "version", "says", "argv"}


def deliver(maildir: Path, text: bytes, number: int) -> None:
    """Delivers a message, as a mail server does."""
    (maildir / f"new/17{number:08}.M1P1.host").write_bytes(text.split(b"\n", 1)[1][:-1])


def file_of(maildir: Path, subject: str) -> Path:
    """The file of the message that has a subject."""
    return next(path for path in mail_in(maildir) if f"Subject: {subject}\n" in path.read_text())


def history(home: Path) -> Iterator[Run]:
    """What was done in the home of the folder."""
    run_here = partial(by_json, home=home)
    # two mailboxes share a message; people read one, and delete another one; mail goes back
    mailbox(home / "box", ONE + TWO)
    mailbox(home / "other", TWO + THREE)
    yield run_here("migrate --now M box other")
    two = file_of(home / "M", "two")
    two.rename(home / f"M/cur/{two.name}:2,S")
    file_of(home / "M", "three").unlink()
    deliver(home / "M", FOUR, 1)
    yield run_here("back --now M box")
    # a question, one that was answered, and a file without mail
    mailbox(home / "asked", PATCH)
    yield run_here("migrate --now --folder Asked M asked")
    mailbox(home / "answered", PATCH + TWO)
    yield run_here("migrate --now --as unquoted --folder Answered M answered")
    mailbox(home / "notes", b"milk\n")
    yield run_here("migrate --now --no-mail notes M notes")
    # what was undone; what a killed run began; what has UIDs of Dovecot's; and what is only prepared
    mailbox(home / "undone", THREE)
    yield run_here("migrate --now --folder Undone M undone")
    yield run_here("migrate --undo M undone")
    mailbox(home / "killed", FOUR + FIVE)
    fake(home, '"$real" "$@"; sleep 0.05; kill -9 $PPID')
    run_here("migrate --now K killed")
    restore(home)
    mailbox(home / "uids", ONE.replace(b"Subject", b"X-IMAPbase: 222 9\nX-UID: 7\nSubject"))
    yield run_here("migrate --now --dovecot D uids")
    mailbox(home / "used", ONE + TWO)
    yield run_here("migrate --now --prepare --unread P used")
    yield from rarer_history(home)


def rarer_history(home: Path) -> Iterator[Run]:
    """What else was done there, so that the records and ledgers have each line that there is."""
    run_here = partial(by_json, home=home)
    # one message was there before, the mailbox lost another one, and was moved; then a sync failed
    deliver(make_maildir(home / "F"), THREE, 2)
    former = mailbox(home / "former", ONE + TWO + THREE)
    yield run_here("migrate --now F former")
    mailbox(former, TWO + THREE)
    yield run_here("migrate --now F former")
    former.rename(home / "moved")
    yield run_here("migrate --now F moved")
    mailbox(home / "failed", FIVE)
    fake(home, SYNC_FAILS[1:])
    yield run_here("migrate --now --folder Failed F failed")
    restore(home)
    # folders of labels; subscriptions; a mailbox without mail; and what was prepared, and is no more
    mailbox(home / "takeout", WORK + PLANS)
    yield run_here("migrate --now --labels --label Work=read L takeout")
    mailbox(home / "mail/lists", ONE)
    mailbox(home / "mail/.subscriptions", b"lists\n")
    yield run_here("migrate --now --dovecot S mail")
    mailbox(home / "empty", b"")
    yield run_here("migrate --now --folder Empty S empty")
    mailbox(home / "dropped", THREE)
    yield run_here("migrate --now --prepare --unread --folder Dropped P dropped")
    yield run_here("migrate --now --undo P dropped")
    # no line names the ledger of what was killed
    yield run_here("migrate --now --folder Dropped K dropped")


@contextmanager
def home_as_long() -> Iterator[Path]:
    """A fresh home with the programs in bin/, whose path is as long as what stands for it."""
    with fresh_folder() as folder:
        home = folder / "h".ljust(len(HOME) - len(str(folder)) - 1, "h")
        home.mkdir()
        install(home / "bin")
        yield home


def take_out(home: Path, path: str = "") -> None:
    """Copies the folder to a home, whose books name this path, or else that of the home. git keeps no empty folders,
    and no modes."""
    shutil.copytree(PLACE, home, dirs_exist_ok=True)
    for kept in [*PLACE.rglob("mbox2maildir-*"), *PLACE.rglob("maildirfolder")]:
        book = home / kept.relative_to(PLACE)
        book.write_bytes(kept.read_bytes().replace(HOME.encode(), (path or str(home)).encode()))
        book.chmod(0o600)
        make_maildir(book.parent)
        book.parent.chmod(0o700)


def make() -> None:
    """Writes the folder anew."""
    shutil.rmtree(KEPT, ignore_errors=True)
    with home_as_long() as home:
        lines = [line for ran in history(home) for line in ran.out.splitlines(True)]
        shutil.rmtree(home / "bin")
        shutil.copytree(home, PLACE)
        for path in [path for path in PLACE.rglob("*") if path.is_file()]:
            path.write_bytes(path.read_bytes().replace(str(home).encode(), HOME.encode()))
        SAID.write_text("".join(lines).replace(str(home), HOME), encoding="utf-8")
    rows: dict[str, list[str]] = {}
    for place, word in words_kept():
        rows.setdefault(place, [place]).append(word)
    WORDS.write_text("".join(f"{' | '.join(row)}\n" for row in rows.values()), encoding="utf-8")


def words_kept() -> Iterator[tuple[str, str]]:
    """What scripts use, each word with its place: commands and options, statuses, the words of --as, and fields with
    their types."""
    yield from (("mbox2maildir", one) for one in re.findall(r"(?m)^\.Cm (\w+)$", section_of(MANUAL, "SYNOPSIS")))
    commands = re.findall(r"(?m)^  (\w+) ", helped().partition("options:")[0])
    yield from (("mbox2maildir-admin", command) for command in commands)
    for words in ([], *([command] for command in commands)):
        several = re.findall(r"(?m)^  (-.*?)(?:  .*)?$", helped(*words))
        place = " ".join(["mbox2maildir-admin", *words])
        yield from ((place, re.sub(r" [A-Z][^ ,]*", " VALUE", one)) for one in several)
    for page in MANUALS:
        statuses = re.findall(r"(?m)^\.It (\d+)$", section_of(page, "EXIT STATUS"))
        yield from ((f"{page.stem} status", number) for number in statuses)
    yield from (("--as", word) for word in re.findall(r"(?m)^\| `--as (\w+)`", text_of(LEFT)))
    for name, schema in SCHEMA["$defs"].items():
        yield from fields(schema, name)


def helped(*words: str) -> str:
    """What the companion prints as help."""
    return Desk(TOP, TOP / "admin").run([*words, "--help"]).out


def section_of(page: Path, name: str) -> str:
    """A section of a page of the manual."""
    return match_in(rf"(?s)\n\.Sh {name}\n(.*?\n)\.Sh ", text_of(page))[1]


def fields(schema: dict[str, Any], where: str) -> Iterator[tuple[str, str]]:
    """What a schema says of a value: its types and words, and those of what is in it."""
    for one in schema.get("oneOf", ()):
        yield from fields(one, where)
    if "oneOf" not in schema and "enum" not in schema:
        yield where, json.dumps(schema.get("type") or schema.get("const") or schema["$ref"].split("/")[-1])
    yield from ((where, json.dumps(word)) for word in schema.get("enum", ()))
    for name, one in schema.get("properties", {}).items():
        yield from fields(one, f"{where}.{name}" + "?" * (name not in schema["required"]))
    if "items" in schema:
        yield from fields(schema["items"], f"{where}[]")


def said(home: Path) -> list[Row]:
    """The objects that were printed."""
    return Run(0, text_of(SAID).replace(HOME, str(home))).objects


def lacking(now: Any, kept: Any, where: str) -> Iterator[str]:
    """What a value lacks of another one."""
    if isinstance(kept, dict):
        for name in kept:
            if name not in now:
                yield f"{where}.{name} is gone"
            elif name not in FREE:
                yield from lacking(now[name], kept[name], f"{where}.{name}")
    elif isinstance(kept, list) and len(now) >= len(kept):
        for place, one in enumerate(kept):
            yield from lacking(now[place], one, f"{where}[{place}]")
    elif now != kept:
        yield f"{where} is {now!r}, and was {kept!r}"


def subjects_in(home: Path, maildir: str = "M") -> str:
    """The subjects of the mail of a Maildir, each behind its folder."""
    pairs = ((folder, path.read_text()) for folder, path in mail_below(home / maildir))
    names = ((folder.name.lstrip("."), match_in(r"Subject: (.*)", text)[1]) for folder, text in pairs)
    return " ".join(sorted(f"{name}/{subject}".replace(f"{maildir}/", "") for name, subject in names))


def fates(words: str, home: Path) -> str:
    """What a command of the companion says of mailboxes, in words."""
    return ", ".join(row["reason"] or row["verdict"] for row in by_json(words, home).rows)


# the mail of M
ANSWERED, INBOX = "Answered/one Answered/two", "four one two"


def same_words() -> None:
    """Each word, option, status and field is still there. A later version may have more."""
    rows, now = (line.split(" | ") for line in text_of(WORDS).splitlines()), set(words_kept())
    equal("what is gone", [(place, one) for place, *words in rows for one in words if (place, one) not in now], [])


def same_objects() -> None:
    """The same history has the same statuses, and prints the same objects. A later version may print more fields."""
    with home_as_long() as home:
        runs, kept = [*history(home)], said(home)
        equal("the statuses", [ran.status for ran in runs], STATUSES)
        now = [one for ran in runs for one in ran.objects]
        equal("how many", len(now), len(kept))
        equal("what they lack", [line for pair in zip(now, kept) for line in lacking(*pair, "")], [])


def done_before(home: Path) -> None:
    """What was done is done, and nothing is placed."""
    equal("mailboxes", fates("migrate --now M box other", home), "done before, done before")
    equal("one with an answer", fates("migrate --now --folder Answered M answered", home), "done before")
    equal("one with UIDs", fates("migrate --now --dovecot D uids", home), "done before")
    equal("a file without mail", fates("migrate --now M notes", home), "no mail")
    equal("one that was moved", fates("migrate --now F moved", home), "done before")
    equal("a Takeout", fates("migrate --now --labels L takeout", home), "done before, done before, done before")
    equal("an empty one has its folder", by_json("migrate --now S empty", home).row["folder"], "Empty")
    equal("what is whole", fates("verify M box", home), "whole")
    equal("what is there", subjects_in(home), f"{ANSWERED} {INBOX}")


def grown(home: Path) -> None:
    """Only what is new is placed: not what people deleted, nor what went back. An answer holds."""
    for name in ("box", "other", "answered", "uids", "undone"):
        with (home / name).open("ab") as box:
            box.write(SIX)
    equal("mailboxes", fates("migrate --now M box other", home), "done, done")
    equal("one with an answer", fates("migrate --now --folder Answered M answered", home), "done")
    equal("one with UIDs", fates("migrate --now --dovecot D uids", home), "done")
    equal("one that was undone", fates("migrate --now --folder Undone M undone", home), "done")
    wanted = "Answered/one Answered/six Answered/two Undone/six Undone/three four one six two"
    equal("what is there", (subjects_in(home), subjects_in(home, "D")), (wanted, "one six"))


def grown_after_more(home: Path) -> None:
    """The same where a mailbox was moved, or went into the folders of its labels, whose answer holds."""
    for name, text in (("moved", SIX), ("takeout", WORK.replace(b"one", b"six"))):
        with (home / name).open("ab") as box:
            box.write(text)
    next((home / "L/.Plans/new").iterdir()).unlink()
    equal("one that was moved", fates("migrate --now F moved", home), "done")
    equal("a Takeout", fates("migrate --now --labels L takeout", home), "done, done before, done before")
    equal("what is there", subjects_in(home, "F"), "Failed/five one six three two")
    equal("what the Takeout has", subjects_in(home, "L"), "Sent/two one six")
    equal("what is read", len([*(home / "L/cur").glob("*:2,S")]), 2)


def answered(home: Path) -> None:
    """A command that was printed as an answer is still one."""
    asked = next(row for row in said(home) if row.get("reason") == "unclear")
    ran = run(asked.commands[0], home)
    equal(ran.output, ran.status, 0)
    equal("what is there", subjects_in(home), f"{ANSWERED} Asked/one {INBOX}")


def begun(home: Path) -> None:
    """What a killed run began is finished."""
    for verdict in ("done", "done before"):
        equal("the mailbox", fates("migrate --now K killed", home), verdict)
        equal("what is there", subjects_in(home, "K"), "Dropped/three five four")


def undone(home: Path) -> None:
    """An undo leaves what another mailbox brought, what none did, and what the mailbox has lost."""
    for name, left in (("box", "four two"), ("other", "four")):
        equal(name, fates(f"migrate --now --undo M {name}", home), "undone")
        equal(f"what is there without {name}", subjects_in(home), f"{ANSWERED} {left}")
    equal("one that was moved", fates("migrate --now --undo F moved", home), "undone")
    equal("what is there without it", subjects_in(home, "F"), "Failed/five one three")
    equal("a Takeout", fates("migrate --now --undo L takeout", home), "undone, undone, undone")
    equal("what is there without it", subjects_in(home, "L"), "")


def failed(home: Path) -> None:
    """What was not synced counts for nothing until it is stored again."""
    for option, fate in (("", "sync-failed"), ("--again", "done"), ("", "done before")):
        equal(f"the mailbox, {option}", fates(f"migrate --now {option} --folder Failed F failed", home), fate)
        equal("what is there", subjects_in(home, "F"), "Failed/five one three two")


def subscribed(home: Path) -> None:
    """Who has unsubscribed from a folder stays so, and is told nothing."""
    file = home / "S/subscriptions"
    equal("the list", file.read_bytes(), b"V\t2\n\nlists\n")
    file.write_bytes(b"V\t2\n\n")
    equal("the mailboxes", fates("migrate --now --dovecot S mail", home), "done before, no mail")
    equal("the list then", file.read_bytes(), b"V\t2\n\n")


def back(home: Path) -> None:
    """Only new mail goes back."""
    deliver(home / "M", FIVE, 2)
    equal("the mailbox", fates("back --now M box", home), "back")
    equal("its mail", re.findall(rb"Subject: (\w+)", (home / "box").read_bytes()), [b"one", b"two", b"four", b"five"])


def last_pass(home: Path) -> None:
    """The last pass places what has come since the first one, and removes the list."""
    with (home / "used").open("ab") as box:
        box.write(SIX)
    row = by_json("migrate --now P used", home).row
    equal("the mailbox", (row["verdict"], row.remarks), ("done", ["prepared-before"]))
    equal("what is there", (subjects_in(home, "P"), (home / "P" / PREPARED).exists()), ("one six two", False))
    make_maildir(home / "P/.Dropped")
    equal("one that was given up", fates("migrate --now --folder Dropped P dropped", home), "done")


def of_a_higher_number(home: Path) -> None:
    """A book of a later version, whose lines have another form, is refused with one sentence. Nothing is written."""
    for name, operands, commands in READ_BY:
        book, text = home / name, (home / name).read_bytes()
        first, number, rest = match_in(rb"(?s)\A([^\t]+\t)(\d+)(.*)", text).groups()
        book.write_bytes(first + b"%d" % (int(number) + 1) + rest.replace(b"\n", b"\nx"))
        before = {path: path.read_bytes() for path in home.glob("[MP]/**/*") if path.is_file()}
        for words in (f"{command} {operands}" for command in commands):
            ran = run(words, home)
            says = f"{name}: this version did not write it: "
            equal(f"{words}: {ran.output}", (ran.status, ran.output.count(says)), (1, 1))
            is_same = {path: path.read_bytes() for path in home.glob("[MP]/**/*") if path.is_file()} == before
            equal(f"{words}: nothing is written", is_same, True)
        book.write_bytes(text)


def torn_by_a_later_version(home: Path) -> None:
    """What a later version was going to append when it was killed stays, and nothing else goes back."""
    deliver(home / "M", FIVE, 2)
    box, beside = home / "box", mailbox(home / f"M/{BACK}", FIVE + b"0\nmbox2maildir-back 2\tother\tfields\n")
    before = box.read_bytes(), beside.read_bytes()
    ran = run("back --now M box", home)
    equal(ran.output, (ran.status, ran.output.count(f"M/{BACK}: this version did not write it: ")), (1, 1))
    equal("nothing is written", (box.read_bytes(), beside.read_bytes()), before)


def at_another_place(home: Path) -> None:
    """The books name a place that is gone. What has not changed since is done."""
    equal("mailboxes", fates("migrate --now M box other", home), "done before, done before")
    equal("what is there", subjects_in(home), f"{ANSWERED} {INBOX}")


def taken_out(check: Callable[[Path], None], path: str = "") -> None:
    """Runs a check in a copy."""
    with home_as_long() as home:
        take_out(home, path)
        check(home)


CASES = [done_before, grown, grown_after_more, answered, begun, undone, failed, subscribed, back, last_pass]
CASES += [of_a_higher_number, torn_by_a_later_version]

if __name__ == "__main__":
    if sys.argv[1:] == ["--make"]:
        make()
        sys.exit()
    cases: dict[str, Callable[[], None]] = {"same_words": same_words, "same_objects": same_objects}
    cases.update((check.__name__, partial(taken_out, check)) for check in CASES)
    run_cases({**cases, "at_another_place": partial(taken_out, at_another_place, HOME)})
