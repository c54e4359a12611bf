"""What a human decides about mailboxes. Each answer that mbox2maildir-admin migrate prints is run as it is printed, by
the owner of the mail, and by root for mailboxes of a spool. It must give what was said of it."""
import re
import shutil
from collections.abc import Callable
from pathlib import Path
from typing import Optional

from tests.companion.spool import USERS, theirs, users
from tests.support.checks import equal, match_in, matches
from tests.support.homes import by_json, check_all, checks_in, expect, mail_in, mailbox, make_maildir
from tests.support.homes import run, run_printed, subjects, want_users
from tests.support.mail import A, B, MAY, ONE, TWO, with_length
from tests.support.running import Row

# a program may have escaped the line with `>`, so that no rule decides
PART = with_length(A, MAY + b">From the shed.\n") + b"\n" + B + b"\n"
# a message that Thunderbird has marked as read, and one that it has also marked as deleted
SEEN, GONE = (A + b"X-Mozilla-Status: 000%d\n\nhello\n\n" % mark for mark in (1, 9))
# a mailbox, and how many messages the answers give
TEXTS = {
    "in part": (PART, (2, 3)),
    "the lie of a sender": (with_length(A, B + b"\nyes\n") + b"\n" + with_length(B, b"yes\n"), (2, 3)),
    "not quoted": (A + b"\n" + MAY + b"\n" + B + b"\n", (2, 3)),
    "-after blank lines": (A + b"\n" + MAY + b"\n>From x\n\n" + B + b"\n", (2, 3)),
    "without dates": (b"From a\nS: x\n\n" + MAY + b"\n", (1, 2)),
    "of another shape": (b"From a@b\nS: x\n\nhello\n\nFrom here on it gets better:\nNote: x\n\n", (1, 2)),
    "doubtful": (A + b"\nhello\n\nFrom Alice\nNote: x\n\n" + B + b"\n", (2, 3)),
    "odd": (A + b"\nsee\nFrom x Mon Mar  3 09:12:44 2025\nwhere it ends\n\n", (1, 2)),
    "odd beside text": (A + b"\n>From y\n\nFrom me\n\nsee\nFrom x Mon Mar  3 09:12:44 2025\nwhere it ends\n\n", (1, 2)),
    "nulls": (A + b"\nhello\n\n\0\0\0" + B + b"\nyes\n\n", (1, 2)),
    "joined": (A + b"\nhello" + B + b"\nyes\n\n", (1, 2)),
    "mail in a From_ line": (A + b"\n\nFrom x\ry Mon Mar  3 09:12:44 2025\n\n", (2, 1)),
    "mail in one without a date": (b"From a@b\nS: x\n\nhello\n\nFrom e\0@f\nS: z\n\n", (2, 1)),
    "without a mark": (SEEN * 2 + B + b"\nyes\n\n" + SEEN, (3, 4)),
    "without a mark beside deleted mail": (GONE + SEEN + B + b"\nyes\n\n" + SEEN, (2, 3, 3, 4)),
    "deleted": (A + b"X-Mozilla-Status: 0009\n\nhello\n\n" + B + b"X-Mozilla-Status: 0000\n\nyes\n\n", (1, 2)),
}  # type: dict[str, tuple[bytes, tuple[int, ...]]]
# mailboxes that have one answer, and how many messages it gives
SINGLE = {"cut": (with_length(A, b"hello", 7), 1), "cr": ((A + b"\nhello\n\n" + B + b"\n").replace(b"\n", b"\r"), 2)}


def answers_in(words: list[str], home: Path, path: str = "box", user: Optional[str] = None) -> list[tuple[str, int]]:
    """The commands that are printed as answers for a mailbox, and how many messages each is to give."""
    return [*by_json(words, home).of(path, user).answers.items()]


def tie_in(command: str) -> str:
    """What an answer is tied to."""
    found = re.search(" --of ([0-9a-f]{16}) ", command)
    assert found, command
    return found[1]


def want_shown(row: Row, name: str, text: bytes) -> None:
    """A row has the lines that are asked about, and up to three before and after each."""
    lines = ["", *text.decode("latin-1").split("\n")]
    asked = [one["line"] for one in row["lines"] if not one["around"]]
    equal(f"{name}: how many lines are asked about", 1 <= len(asked) <= 6, True)
    for number, line in ((one["line"], one["text"]) for one in row["lines"]):
        equal(f"{name}: line {number} is near", min(abs(number - one) for one in asked) <= 3, True)
        if lines[number].isprintable():
            equal(f"{name}: line {number}", line, lines[number][:72].rstrip())
    equal(f"{name}: a look with another program", any("sed" in one for one in row.commands), False)


def want_row(command: str, home: Path, verdict: str, count: int) -> Row:
    """A printed command ends well, with one row, which says this, and this many messages."""
    ran = run_printed(command, home, "--json")
    equal(f"{command}: {ran.output}", (ran.status, ran.row["verdict"], ran.row["messages"]), (0, verdict, count))
    return ran.row


def of_ones_own(home: Path) -> None:
    """Each answer gives the messages that were said of it. After it the mailbox is done and verified."""
    for name, (text, wanted) in TEXTS.items():
        mailbox(home / name, text)
        path = f"./{name}" if name.startswith("-") else name
        ran = by_json(["migrate", "--now", "--folder", "Old", "M", "--", path], home)
        found = ran.of(path).answers
        equal(f"{name}: status, and what is to be given", (ran.status, (*found.values(),)), (1, wanted))
        want_shown(ran.of(path), path, text)
        for command, count in found.items():
            want_row(command, home, "done", count)
            equal(f"{command}: files", len(list(mail_in(home / "M/.Old"))), count)
            equal(f"{command}: verified", run(["verify", "--all", "M/.Old", "--", path], home)[0], 0)
            shutil.rmtree(home / "M")
    for name, (text, count) in SINGLE.items():
        mailbox(home / name, text)
        ((command, given),) = answers_in(["migrate", "--now", "M", name], home, name)
        equal(f"{name}: what is to be given", given, count)
        equal(f"{name}: its kind", want_row(command, home, "done", count)["kind"], "mboxrd by --as")
        shutil.rmtree(home / "M")


def of_dry_runs(home: Path) -> None:
    """What a dry run prints says what it would do, and makes nothing."""
    for name, (text, wanted) in {**TEXTS, **{name: (text, (n,)) for name, (text, n) in SINGLE.items()}}.items():
        mailbox(home / name, text)
        path = f"./{name}" if name.startswith("-") else name
        found = answers_in(["migrate", "--dry-run", "--now", "M", "--", path], home, path)
        equal(f"{name}: what is to be given", tuple(count for _, count in found), wanted)
        for command, count in found:
            matches(f"{name}: the options", command, "mbox2maildir-admin migrate --dry-run --now ...")
            want_row(command, home, "would be done", count)
            equal(f"{command}: whether it made something", (home / "M").exists(), False)


def of_several(home: Path) -> None:
    """A word decides only about those of several mailboxes that don't contradict it."""
    quoted = A + b"\n>From x\n>>From y\n\n"
    for name, text in (("tree/quoted", quoted), ("tree/part", PART), ("tree/cl2", with_length(A, MAY)), ("one", ONE)):
        mailbox(home / name, text)
    ran = by_json("migrate --now --as mboxo M tree one", home)
    equal("--as mboxo: status", ran.status, 1)
    answers = [*ran.of("tree/part").answers.items()]
    tie = tie_in(answers[0][0])
    command = "mbox2maildir-admin migrate --now --as {} --of {} --folder part M tree/part"
    wanted = [(command.format(word, tie), n) for word, n in (("mboxo", 3), ("mboxcl2", 2), ("unquoted", 2))]
    equal("its answers", answers, wanted)
    equal(
        "--as mboxo",
        sorted((row["path"], row["folder"], row["kind"], row["messages"], row["verdict"]) for row in ran.rows),
        [
            ("one", "INBOX", "mboxo by --as", 1, "done"),
            ("tree/cl2", "cl2", "mboxcl2, quoted", 1, "done"),
            ("tree/part", "part", "mboxcl2 in part", 2, "left"),
            ("tree/quoted", "quoted", "mboxo by --as", 1, "done"),
        ],
    )
    equal("the answer", run_printed(answers[1][0], home).status, 0)
    expect("migrate --all M tree one", home, 0, "4 mailboxes: 4 done before\n")
    body = next(mail_in(home / "M/.quoted")).read_bytes()
    equal("mboxo keeps what has two", body, quoted.split(b"\n", 1)[1][:-1].replace(b"\n>From", b"\nFrom"))


NEW = B + b"\nhello\n\n"
NOTED = b"Status: RO\nX-UID: 7\nX-Keywords: \n"
# what becomes of a mailbox after its question was printed, and whether the answers hold then that name no lines
LATER = [
    (lambda text: text + NEW, True),
    (lambda text: text.replace(b"\n\n", b"\n" + NOTED + b"\n", 1), True),
    (lambda text: NEW + text.replace(b"\n\n", b"\n" + NOTED + b"\n", 1) + NEW, True),
    (lambda text: text + B + b"\nyes\nFrom me to you.\n\n", False),
]  # type: list[tuple[Callable[[bytes], bytes], bool]]


def after_a_rehearsal(home: Path) -> None:
    """An answer of a rehearsal holds after growth, and after flags were written. It decides no new mail: if another
    line is doubtful, it is asked again, and nothing is placed."""
    for name in ("in part", "not quoted", "doubtful", "odd"):
        text = TEXTS[name][0]
        for number, (change, holds) in enumerate(LATER):
            mailbox(home / "box", text)
            found = answers_in(["migrate", "--now", "--dry-run", "M", "box"], home)
            answers = [(one, count) for one, count in found if " --text " not in one]
            mailbox(home / "box", change(text))
            for answer, count in answers:
                what = f"{name}, change {number}: {answer}"
                status, said, _ = run_printed(answer.replace(" --dry-run", ""), home)
                mail = len(list(mail_in(home / "M"))) if (home / "M").exists() else 0
                new = change(text).count(b"Subject") - text.count(b"Subject")
                equal(f"{what}: {said}", (status, mail), (0, count + new) if holds else (1, 0))
                if not holds:
                    match_in(
                        r": left \(unclear\): what is asked about it has changed since this was answered: line ", said
                    )
                    equal(f"{what}: the answers now: {said}", said.count(" --of ") >= 2, True)
                shutil.rmtree(home / "M", ignore_errors=True)


def of_what_was_shown(home: Path) -> None:
    """An answer is about the lines that are shown: it holds once another line of the letter has changed, and is asked
    again once one of these has."""
    text = A + b"\n" + b"hello\n" * 20 + MAY + B + b"\n"
    for before, after, holds in ((b"hello\nhello\n", b"hallo\nhello\n", True), (b"hello\nFrom", b"hallo\nFrom", False)):
        mailbox(home / "box", text)
        answer, count = answers_in(["migrate", "--now", "--dry-run", "M", "box"], home)[0]
        mailbox(home / "box", text.replace(before, after, 1))
        status, said, _ = run_printed(answer.replace(" --dry-run", ""), home)
        equal(f"{after!r}: {said}", (status, "since this was answered" in said), (0, False) if holds else (1, True))
        equal(f"{after!r}: the mail", len(list(mail_in(home / "M"))) if holds else 0, count if holds else 0)
        shutil.rmtree(home / "M", ignore_errors=True)


def of_numbers(home: Path) -> None:
    """An answer that names lines holds after growth. Once these have other numbers, it is asked again, also where
    another doubtful line has the number of one."""
    text = A + b"\n>From x\nFrom the first\nhello\n\n" + B + b"\n"
    twice = text.replace(b"\nhello", b"\nFrom the second\nhello")
    for before, after, holds in (
        (text, text + NEW, True),
        (text, text.replace(b"\n\n", b"\n" + NOTED + b"\n", 1), False),
        (twice, twice.replace(b"Subject: one\n", b"Subject: one\nStatus: RO\n"), False),
        (twice, twice.replace(b"From: alva@example.org\n", b"", 1), False),
    ):
        mailbox(home / "box", before)
        answer, count = answers_in(["migrate", "--now", "M", "box"], home)[0]
        equal(f"{answer}: lines", " --text " in answer, True)
        mailbox(home / "box", after)
        status, said, _ = run_printed(answer, home)
        wanted = (0, count + 1) if holds else (1, 0)
        equal(f"{answer}: {said}", (status, len(list(mail_in(home / "M"))) if holds else 0), wanted)
        shutil.rmtree(home / "M", ignore_errors=True)


def of_lines_that_differ(home: Path) -> None:
    """If one doubtful line is text, and another begins a message, `--text` is added to a printed command. It is printed
    with the tie that it needs; one that names other lines is not."""
    pasted = b"From boris@example.com\nSubject: pasted\n\nhello\n\n"
    begun = A + b"\n"
    mailbox(home / "box", begun + pasted + b"From carl@example.com\nSubject: two\n\nyes\n\n" + B + b"\n")
    tie = tie_in(answers_in(["migrate", "--now", "M", "box"], home)[-1][0])
    for line, counts in ((1, []), (begun.count(b"\n") + 1, [3])):
        words = ["migrate", "--now", "--as", "mboxrd", "--text", str(line), "--of", tie, "M", "box"]
        own = [one for one in answers_in(words, home) if f" --text {line} " in one[0]]
        equal(f"--text {line}: messages", [count for _, count in own], counts)
    status, said, _ = run_printed(own[0][0], home)
    equal(said, (status, len(list(mail_in(home / "M")))), (0, 3))


def notes_in(home: Path) -> list[str]:
    """What the record notes of answers: the words after the path, and which mailbox each is of."""
    lines = (home / "M/mbox2maildir-record").read_text().splitlines()
    fields = [line.split("\t") for line in lines if line.startswith("answered\t")]
    return [f"{Path(one[6]).name} {one[7]}" for one in fields]


def without_asking_again(home: Path) -> None:
    """An answer is noted with what it was given for. It holds after growth and after flags were written, with the
    lines as they are then. Another doubtful line, and another mailbox, ask again. A rehearsal notes nothing."""
    lines = A + b"\n>From x\nFrom the first\nhello\n\n" + B + b"\n"
    for name, text in (("in part", PART), ("not quoted", TEXTS["not quoted"][0]), ("lines", lines)):
        for place in (0, 1):
            mailbox(home / "box", text)
            command, count = answers_in(["migrate", "--now", "M", "box"], home)[place]
            rehearsal = command.replace("migrate ", "migrate --dry-run ")
            equal(f"{rehearsal}: status", run_printed(rehearsal, home).status, 0)
            equal(f"{name}: what a rehearsal makes", (home / "M").exists(), False)
            equal(f"{command}: status", run_printed(command, home).status, 0)
            (note,) = notes_in(home)
            matches(f"{name}: the note", note, "box ... of=...")
            for number, (change, holds) in enumerate([LATER[0], LATER[-1]]):
                what = f"{name} by {command}, change {number}"
                mailbox(home / "box", change(text))
                status, out, _ = run("migrate --all --now M box", home)
                equal(
                    f"{what}: {out}", (status, "as it was answered before" in out), (0, True) if holds else (1, False)
                )
                equal(f"{what}: the mail", len(list(mail_in(home / "M"))), count + 1)
                equal(f"{what}: the notes", notes_in(home), [note])
            mailbox(home / "other", text)
            equal(f"{name}: another mailbox", run("migrate --now --folder O M other", home)[0], 1)
            shutil.rmtree(home / "M")


def after_an_undo(home: Path) -> None:
    """What was undone is asked again. An answer that names lines holds too when they have got other numbers."""
    text = A + b"\n>From x\nFrom the first\nhello\n\n" + B + b"\n"
    mailbox(home / "box", text)
    command, count = answers_in(["migrate", "--now", "M", "box"], home)[0]
    equal(f"{command}: lines and status", (" --text 6 " in command, run_printed(command, home).status), (True, 0))
    expect("migrate --now --undo M box", home, 0, None)
    equal("after an undo", run("migrate --now M box", home)[0], 1)
    equal(f"{command}: status", run_printed(command, home).status, 0)
    noted = text.replace(b"\n\n", b"\n" + NOTED + b"\n", 1)
    mailbox(home / "box", noted + NEW)
    shutil.rmtree(home / "M/new")
    (home / "M/new").mkdir()
    status, out, _ = run("migrate --all --now --again M box", home)
    equal(f"with other numbers: {out}", (status, len(list(mail_in(home / "M")))), (0, count + 1))


def that_leaves_no_message(home: Path) -> None:
    """A mailbox all of whose mail an answer leaves out is done, and is looked at as it was answered, even once it
    grows."""
    box, deleted = home / "Trash", A + b"X-Mozilla-Status: 0009\n\nhello\n\n"
    mailbox(box, deleted)
    expect("migrate --drop-deleted --folder Trash M Trash", home, 0, None)
    for text, count, status in ((deleted, 0, 0), (deleted + B + b"\n", 1, 1)):
        mailbox(box, text)
        verdict = f"not whole, nowhere {count}" if count else "whole"
        row = f"Trash -> Trash: messages {count}: {verdict}\n"
        expect("verify --all M Trash", home, status, row + "...\n" * count + "1 mailbox: ...\n")
        expect("dates M Trash", home, status, f"Trash: messages {count}, dated 0\n", None)


def of_several_that_are_done(home: Path) -> None:
    """A word for several mailboxes advises no undo of those that are done, and one for such a mailbox alone does."""
    quoted = A + b"\n>>From x\n\n"
    for name, text in (("done", quoted), ("new", quoted.replace(b"one", b"two"))):
        mailbox(home / "tree" / name, text)
        if name == "done":
            expect("migrate M tree", home, 0, None)
    ran = by_json("migrate --as mboxo M tree", home)
    done, new = ran.of("tree/done"), ran.of("tree/new")
    equal("of several", (ran.status, new["kind"], new["messages"], new["verdict"]), (0, "mboxo by --as", 1, "done"))
    says = "it was read as mboxrd, and --as mboxo gives other messages"
    equal("the one that is done", (done["verdict"], done["says"], done["next"]), ("done before", says, []))
    alone = by_json("migrate --as mboxo --folder done M tree/done", home).row
    equal("alone", alone.command, "mbox2maildir-admin migrate --undo --folder done M tree/done")


def marked(*messages: str) -> bytes:
    """A mailbox of Thunderbird's with messages of these subjects. It has marked those as deleted that begin so."""
    heads = ((A.replace(b"one", name.lstrip("-").encode()), 9 * name.startswith("-")) for name in messages)
    return b"".join(head + b"X-Mozilla-Status: %04d\n\nhello\n\n" % mark for head, mark in heads)


def drops(words: list[str], home: Path) -> list[tuple[bool, int]]:
    """Whether each answer leaves deleted mail out, and how many messages it gives. The mailbox is left."""
    ran = by_json(words, home)
    equal("status", ran.status, 1)
    return [("--drop-deleted" in command, count) for command, count in ran.row.answers.items()]


def deleted_since(home: Path) -> None:
    """Mail that is deleted once it was migrated stays, whenever --drop-deleted was given, and the mailbox goes on. What
    was never brought is asked about without this option, and an undo removes all that was brought."""
    for number in range(2):
        box = home / f"box{number}"
        plain = ["migrate", "--all", "--folder", box.name, "M", box.name]
        drop = [*plain[:1], "--drop-deleted", *plain[1:]]
        mailbox(box, marked("one", "two", "three"))
        expect([plain, drop][number], home, 0, "...messages 3: done...\n...\n")
        mailbox(box, marked("one", "-two", "three"))
        expect(plain, home, 0, "1 mailbox: 1 done before\n")
        out = "done before, without 1 message marked as deleted; 1 message gone from it that it had brought"
        expect(drop, home, 0, f"{box.name} -> {box.name}: {out}\n1 mailbox: 1 done before\n")
        mailbox(box, marked("one", "-two", "three", "four", "-five"))
        equal("what was never brought", drops(plain, home), [(True, 3), (False, 5)])
        out = "...: done, without 2 messages marked as deleted; it grew by 1 message...\n...\n"
        expect(drop, home, 0, out)
        equal("the mail", subjects(home / "M" / f".{box.name}"), ["four", "one", "three", "two"])
        mailbox(box, marked("one", "-two", "three", "four", "-five", "-six"))
        equal("more of that", len(drops(plain, home)), 2)
        expect(["migrate", "--undo", *plain[1:]], home, 0, "...: undone, removed 4 messages\n...\n")


def deleted_mail_that_was_kept(home: Path) -> None:
    """Where deleted mail was kept, this answer comes first when it is asked again."""
    box = mailbox(home / "box", marked("one", "-two"))
    expect("migrate --all --as mboxrd M box", home, 0, "...messages 2: done...\n...\n")
    mailbox(box, marked("one", "-two", "-three"))
    equal("the answers", drops(["migrate", "M", "box"], home), [(False, 3), (True, 1)])


def all_mail_deleted(home: Path) -> None:
    """A mailbox whose mail is all marked as deleted is done before in a later run, and can be undone. Then it is asked
    again."""
    mailbox(home / "box", marked("-one", "-two"))
    says, drop = "without 2 messages marked as deleted", ["migrate", "--all", "--drop-deleted", "M", "box"]
    expect(drop, home, 0, f"box -> INBOX: Thunderbird's, messages 0: done, {says}\n1 mailbox: 1 done\n")
    for words in (drop, ["migrate", "--all", "M", "box"]):
        expect(words, home, 0, f"box -> INBOX: done before, {says}\n1 mailbox: 1 done before\n")
    out = "box -> INBOX: messages 0: undone, removed 0 messages\n1 mailbox: 1 undone\n"
    expect("migrate --all --undo M box", home, 0, out)
    equal("the answers", drops(["migrate", "M", "box"], home), [(True, 0), (False, 2)])


def by_another_path(home: Path) -> None:
    """What is decided about a file counts for each path that leads to it, and after an undo for none."""
    (home / "link").symlink_to("old")
    for number, path in enumerate(("--now M old/box", "--drop-deleted M link/box", "--now M old/box")):
        mailbox(home / "old/box", marked(*["one", "-two", "three"][: number + 1]))
        expect(f"migrate {path}", home, 0, None)
    equal("the mail", subjects(home / "M"), ["one", "three"])
    expect("migrate --undo M old/box", home, 0, None)
    for path in ("link/box", "old/box"):
        equal(f"{path}: the answers", drops(["migrate", "M", path], home), [(True, 2), (False, 3)])
    mailbox(home / "old/notes", b"milk\n")
    expect("migrate --no-mail notes M link/notes", home, 0, None)
    for command in ("migrate", "verify"):
        expect(f"{command} M old/notes", home, 0, "no mailboxes; 1 other file: no mail\n")


def by_what_it_brought(home: Path) -> None:
    """A line is not asked about that is in a message which the mailbox brought without a question, and no run notes an
    answer. If new mail has such a line too, a human is asked."""
    may = MAY + b">From the shed.\n"
    text = with_length(A, may) + b"\n"
    mailbox(home / "box", text)
    expect("migrate --all --now M box", home, 0, "box -> INBOX: mboxcl2, quoted, messages 1: done...\n...\n")
    mailbox(home / "box", text + NEW + B + b"\nyes\nFrom me to you.\n\n")
    equal("a line in new mail", len(answers_in(["migrate", "--now", "M", "box"], home)), 2)
    mailbox(home / "box", text + NEW)
    said = "as the messages show that it brought; it grew by 1 message\n...\n"
    for words, wanted in (
        (["--dry-run"], f"box -> INBOX: mboxcl2 by --as, messages 2: would be done, {said}"),
        (["--dry-run", "--json"], '{..."remark": "as-brought"...}\n...\n'),
        (["--no-questions"], f"box -> INBOX: mboxcl2 by --as, messages 2: done, {said}"),
        (["--no-questions"], "1 mailbox: 1 done before\n"),
    ):
        expect(["migrate", "--all", "--now", *words, "M", "box"], home, 0, wanted)
    bodies = [one.read_bytes().split(b"\n\n", 1)[1] for one in mail_in(home / "M")]
    equal("the mail", sorted(bodies), sorted([may, b"hello\n"]))
    equal("the notes", notes_in(home), [])


def of_words_that_were_typed(home: Path) -> None:
    """A word without a tie is taken for each mailbox to whose question it is an answer, as it is now, and noted with
    what it was given for. It is noted too of one about which nothing was asked."""
    for name, text in (("tree/part", PART), ("tree/sure", ONE), ("tree/more", PART.replace(b"hello", b"hallo"))):
        mailbox(home / name, text)
    expect("migrate --now --as mboxcl2 M tree", home, 0, None)
    notes = notes_in(home)
    equal("whose answers are noted", sorted(note.split()[0] for note in notes), ["more", "part", "sure"])
    equal("what each is for", len({tie for note in notes for tie in re.findall(r"\bof=(\w+)", note)}), 2)
    mailbox(home / "tree/part", PART + NEW)
    mailbox(home / "tree/more", PART.replace(b"hello", b"hallo") + B + b"\nyes\nFrom me to you.\n\n")
    ran = by_json("migrate --now M tree", home)
    there = sorted((row["path"], row["verdict"]) for row in ran.rows)
    wanted = [("tree/more", "left"), ("tree/part", "done"), ("tree/sure", "done before")]
    equal("without the word", (ran.status, there), (1, wanted))


def of_lengths(home: Path) -> None:
    """Lengths decide nothing about lines outside of them, of several mailboxes or of one. Its own answers are
    printed."""
    mailbox(home / "tree/part", PART)
    mailbox(home / "tree/sent", A + b"\n" + MAY + b"\n>From x\n\n")
    for path in ("tree", "tree/sent"):
        ran = by_json(["migrate", "--now", "--as", "mboxcl2", "M", path], home)
        if path == "tree":
            part = ran.of("tree/part")
            equal("what it decides", (part["kind"], part["messages"], part["verdict"]), ("mboxcl2 by --as", 2, "done"))
        sent = ran.of("tree/sent")
        equal(f"{path}: what is left", (sent["kind"], sent["messages"], sent["reason"]), ("not quoted", 1, "unclear"))
        found = (ran.status, sent["says"][:7], [*sent.answers.values()])
        equal(f"{path}: status, line and counts", found, (1, "line 6:", [1, 2]))
        command = next(iter(sent.answers)).replace(" migrate ", " migrate --dry-run ")
        equal("its kind", want_row(command, home, "would be done", 1)["kind"], "mboxo by --as")


def without_numbers(home: Path) -> None:
    """If --dovecot can't keep the numbers, the command that is printed migrates without it."""
    for name in ("one", "tree/Old Mail"):
        mailbox(home / name, ONE + TWO)
    words = ["migrate", "--all", "--dovecot", "--now", "--as", "mboxo", "M", "one", "tree"]
    for folder in ("M", "M/.Old Mail"):
        (make_maildir(home / folder) / "dovecot.index.log").write_bytes(b"")
    ran = by_json(words, home)
    equal("--dovecot: status, and the sums", (ran.status, ran.sums["says"]), (1, "2 mailboxes: 2 left"))
    for command in (one for row in ran.rows for one in row.commands):
        equal(f"{command}: its kind", want_row(command, home, "done", 2)["kind"], "mboxo by --as")
    expect(words, home, 0, "...\n...\n2 mailboxes: 2 done before\n")


def of_users(home: Path) -> None:
    """Root runs the answers for mailboxes of a spool, and of homes, as they are printed."""
    want_users()
    first, second, _ = USERS
    with users(home):
        theirs(mailbox(home / "spool" / first, PART), first)
        theirs(mailbox(home / "spool" / second, ONE), second)
        theirs(mailbox(home / "homes" / first / "mail/Old Mail", TEXTS["odd"][0]), first)
        (home / "spool").chmod(0o711)
        words = ["migrate", "--all", "--users", "--tree", "mail", "--now", "spool", first, second]
        for path, count in (("", 2), ("mail/Old Mail", 1)):
            command, _ = answers_in([*words, "--dry-run"], home, path, first)[0]
            want_row(command, home, "would be done", count)
            equal(f"{command}: what it made", list((home / "homes" / first).glob("Maildir")), [])
        ran = by_json(words, home)
        matches("--users", ran.sums["says"], "3 mailboxes: 1 done, 2 left; ...")
        for path, count in (("", 2), ("mail/Old Mail", 1)):
            command, given = next(iter(ran.of(path, first).answers.items()))
            want_row(command, home, "done", count)
            equal(f"{command}: what was said", given, count)
        expect(words, home, 0, "3 mailboxes: 3 done before; ...\n")
        # a word for all of them
        theirs(mailbox(home / "more/spool" / first, PART), first)
        theirs(mailbox(home / "more/spool" / second, ONE + TWO), second)
        (home / "more/spool").chmod(0o711)
        words = ["migrate", "--all", "--users", "--now", "--maildir", "New", "--as", "mboxcl2", "more/spool"]
        status, out, _ = run(words, home)
        rows = [f"{name} -> INBOX: mboxcl2 by --as, messages 2: done" for name in (first, second)]
        equal("--users --as", (status, sorted(out.splitlines()[:-1])), (0, sorted(rows)))


if __name__ == "__main__":
    check_all(*checks_in(globals()))
