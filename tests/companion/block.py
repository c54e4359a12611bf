"""The last block of what mbox2maildir-admin migrate prints: what is left and what asks for a look, in groups, each
command once. The commands of groups are run as they are printed."""
import os
from pathlib import Path

from tests.companion.spool import theirs, users
from tests.support.checks import equal, matches
from tests.support.homes import by_json, check_all, checks_in, expect, mail_in, mailbox, run, run_printed, want_users
from tests.support.mail import A, B, C, ONE, THREE, TWO
from tests.support.printed import groups_in
from tests.support.schema import SCHEMA

TITLE = "unclear: {} (not quoted): does a mail begin at the line that is shown?".format
ASKED = "1 or 2 messages: line 5: a line `From ` without a date at its end: From the garden, {}"
# of two mailboxes with a mail that another one quotes with its length, by their formats
ANSWERS_TO_WORDS = ("mboxcl2", 4), ("mboxrd", 6), ("unquoted", 4)
BELONGS, BEGINS = "this belongs to the mail above", "a mail begins here"


def asked(number: int) -> bytes:
    """A mailbox about which is asked whether a mail begins at its line 5."""
    return C.replace(b"carla", b"carla%d" % number) + b"\nFrom the garden, %d\nyes\n\n" % number


def one_mailbox(home: Path) -> None:
    """A command with one mailbox prints its row, with what asks for a look in it, and no block."""
    mailbox(home / "sound", ONE)
    mailbox(home / "cut", ONE.rstrip(b"\n"))
    mailbox(home / "asked", asked(1))
    row = "{} -> INBOX: mboxrd or mboxo, messages 1: would be done{}\n1 mailbox: 1 would be done\n".format
    for name, looks in (("sound", ""), ("cut", ", its last line has no line end: check that the file is complete")):
        equal(name, run(["migrate", "--dry-run", "M", name], home), (0, row(name, looks), ""))
    status, out, _ = run("migrate --dry-run M asked", home)
    equal("a question: status, and groups", (status, groups_in(out)), (1, []))
    matches("a question", out.splitlines()[0], "asked -> INBOX: not quoted, messages 1: left (unclear): line 5: ...")
    mailbox(home / "asked", asked(1) + ONE + asked(2))
    shown = [line.split(" |")[0].strip(" >") for line in run("migrate M asked", home)[1].splitlines()]
    equal("two questions", shown[1:15], [*map(str, range(2, 9)), "..", *map(str, range(15, 21))])


def what_again_brings_back(home: Path) -> None:
    """A single row of --again says how many messages are placed, even deleted ones, also if they would be."""
    mailbox(home / "box", ONE + TWO)
    expect("migrate M box", home, 0, None)
    next(mail_in(home / "M")).unlink()
    row = "box -> INBOX: mboxrd or mboxo, messages 2: {}\n1 mailbox: 1 {}\n".format
    again = "migrate --again M box"
    expect("migrate --dry-run --again M box", home, 0, row("would be done, would place 1 message", "would be done"))
    expect(again, home, 0, row("done, placed 1 message", "done"))
    expect(again, home, 0, row("done", "done"))


def more_than_a_command_takes(home: Path) -> None:
    """Files that are to be passed over are in several commands if a shell would refuse a single one."""
    mailbox(home / "old/box", ONE)
    for number in range(600):
        mailbox(home / "old" / f"{number:03}{'x' * 240}", b"milk\n")
    (group,) = groups_in(run("migrate --now M old", home)[1])
    equal("commands", ["--no-mail" in one for one in group.commands], [True] * 3)
    for command in group.commands:
        equal("a shell takes it", len(run_printed(command, home).err), 0)
    expect("migrate M old", home, 0, "1 mailbox: 1 done before; 600 other files: no mail\n")


def one_of_a_kind(home: Path) -> None:
    """What stands alone in a group has its own command, and none for all of them."""
    for name, text in (("sound", ONE), ("notes", b"milk\nbread\n")):
        mailbox(home / "old" / name, text)
    (group,) = groups_in(run("migrate --now M old", home)[1])
    equal("its commands", group.commands, ["file old/notes"])
    mailbox(home / "old/thrice", asked(1) + asked(2) + asked(3))
    _, out, _ = run("migrate --now M old", home)
    shown = [line.split()[1] for line in out.splitlines() if line.strip().startswith("> ")]
    equal("the first two lines of three that are asked about", shown, ["5", "12"])


def groups(home: Path) -> None:
    """Each mailbox that changed has a bare row, with its folder's name for people. What is left stands in the block
    once: by its reason and its question, by its path, with one command for all of a group."""
    for number in range(3):
        mailbox(home / f"old/ask{number}", asked(number))
    for name, text in (("sound", ONE), ("Gr&APwA3w-e", ONE), ("cut", ONE.rstrip(b"\n"))):
        mailbox(home / "old" / name, text)
    for name, text in (("notes", b"milk\nbread\n"), ("blob", b"\0\1\2"), ("draft", b"hello\nSubject: x\n")):
        mailbox(home / "old" / name, text)
    os.mkfifo(home / "old/pipe")
    status, out, err = run("migrate --now M old", home)
    equal("status and errors", (status, err), (1, ""))
    rows = [
        f"old/{name}: messages 1: done" for name in ("Gr&APwA3w-e -> Gr\u00fc\u00dfe", "cut -> cut", "sound -> sound")
    ]
    equal("rows", out.split("\n\n")[0].splitlines(), rows)
    question, not_known, no_file, look = groups_in(out)
    equal("a question", question.title, TITLE("3 mailboxes"))
    equal("its mailboxes", question.rows, {f"old/ask{number}": ASKED.format(number) for number in range(3)})
    equal(
        "its answers",
        [reply.says for reply in question.answers()],
        [f"{BELONGS}: 3 messages:", f"{BEGINS}: 6 messages:"],
    )
    equal("not known", not_known.title, "not-known: 3 mailboxes: It is not known what it is.")
    equal(
        "the one that looks like mail comes last",
        [*not_known.rows.items()],
        [("old/blob", "line 1: \\x00\\x01\\x02"), ("old/notes", "line 1: milk"), ("old/draft", "line 1: hello")],
    )
    (command,) = (one for one in not_known.commands if "--no-mail" in one)
    equal("its command", command, "mbox2maildir-admin migrate --no-mail old/blob --no-mail old/notes --now M old")
    equal("no file", (no_file.word, no_file.rows), ("no-file", {"old/pipe": "it is not a regular file"}))
    wanted = "look at: 1 mailbox: Its last line has no line end: check that the file is complete."
    equal("a look", (look.title, look.rows), (wanted, {"old/cut -> cut": ""}))
    last = out.splitlines()[-1]
    equal("the sum", last, "10 mailboxes: 3 done, 7 left")
    assert "rehearsal" not in out, out
    status, out, _ = run_printed(command, home)
    equal("what was done before has no row", out.splitlines()[0], "")
    equal(
        "what was passed over is left no more",
        [one.word for one in groups_in(out)],
        ["unclear", "not-known", "no-file"],
    )


def moved_into_one(home: Path) -> None:
    """Mail that people moved from two folders into one is said once in the block."""
    for name, text in (("a", ONE), ("b", TWO), ("c", THREE)):
        mailbox(home / "old" / name, text)
    expect("migrate --now M old", home, 0, None)
    for folder in (".a", ".b"):
        (path,) = mail_in(home / "M" / folder)
        path.rename(home / "M/.c/new" / path.name)
    look = groups_in(run("back --now M old", home).out)[0]
    wanted = "look at: 1 mailbox: Mail that people moved to another folder stays in the mailbox that has it."
    equal("a look", look.title, wanted)


def formats(home: Path) -> None:
    """If a word for several mailboxes contradicts what is in them, each answer names its format."""
    body = b"Text\n\nFrom boris@example.com\nFrom: boris\n\nyes\n"
    header = b"From a@b Mon Mar  3 09:12:44 2025\nSubject: %d\nContent-Length: %d\n\n"
    for number in range(2):
        mailbox(home / f"old/{number}", header % (number, len(body)) + body + b"\n" + B + b"\n>From me\n\n")
    (group,) = groups_in(run("migrate --now --as mboxcl2 M old", home).out)
    wanted = [f"it was written as {word}: {count} messages:" for word, count in ANSWERS_TO_WORDS]
    equal("its answers", [reply.says for reply in group.answers()], wanted)
    equal("by the first one", run_printed(group.answers()[0].command, home).status, 0)


def one_answer_for_many(home: Path) -> None:
    """The command of a group decides about its questions, and about nothing else: a question without its tie is asked
    as before, and a later run needs no answer. A tie that no question has is named."""
    for number in range(3):
        mailbox(home / f"old/ask{number}", asked(number))
    mailbox(home / "old/quoted", A + b"\n>>From me\n>From you\n\n" + B + b"\nhello\n\n")
    _, out, _ = run("migrate --now M old", home)
    (question,) = groups_in(out)
    begins = question.answers()[1].command
    ties = begins.split("--of ")[1].split()[0]
    first, second, third = ties.split(",")
    status, out, err = run_printed(begins.replace(ties, f"{first},{third},0123456789abcdef"), home)
    equal(
        "two of three: status and what is left", (status, [[*one.rows] for one in groups_in(out)]), (1, [["old/ask1"]])
    )
    matches("two of three", out.splitlines()[-1], "4 mailboxes: 2 done, 1 done before, 1 left; ...")
    matches("a tie of nothing", err, "mbox2maildir-admin: --of 0123456789abcdef: no question has this tie: ...\n")
    folders = {number: len(list(mail_in(home / f"M/.ask{number}"))) for number in (0, 2)}
    equal("their messages", folders, {0: 2, 2: 2})
    _, out, _ = run("migrate --all --now M old", home)
    assert f"--of {second} " in out and "--of" not in out.replace(f"--of {second} ", ""), out
    mailbox(home / "old/ask1", asked(1) + b"From the shed\n\n")
    status, out, err = run_printed(begins.replace(ties, f"{second},{first}"), home)
    matches(
        "a question that has changed",
        err,
        f"mbox2maildir-admin: --of {second},{first}: no question has this tie: ...\n",
    )
    assert "line 5: " in out and status == 1, out
    err = run_printed(begins.replace(ties, first), home).err
    matches("a single tie of nothing", err, f"mbox2maildir-admin: --of {first}: no question has this tie: ...\n")
    expect("migrate --as mboxo --of 1,2 --text 3 M old", home, 2, "", None)


def answers_with_lines(home: Path) -> None:
    """An answer that names lines serves one mailbox: each has its own commands."""
    for number in range(2):
        mailbox(home / f"old/{number}", A + b"\nhello, %d" % number + B + b"\nyes\n\n")
    (group,) = groups_in(run("migrate --now M old", home).out)
    equal("whose", [command.split()[-1] for command in group.commands], ["old/0", "old/1"] * 2)
    for number, command in enumerate(group.commands[2:]):
        equal(command, (run_printed(command, home).status, len(list(mail_in(home / f"M/.{number}")))), (0, 2))


def many_of_one_kind(home: Path) -> None:
    """A question is asked about at most twenty mailboxes at once, and all of these are named; of what is left for
    another reason twenty are named, and the others counted."""
    for number in range(21):
        mailbox(home / f"old/ask{number:02}", asked(number))
    for number in range(23):
        mailbox(home / f"old/pipe{number:02}", ONE)
        (home / f"old/pipe{number:02}").unlink()
        os.mkfifo(home / f"old/pipe{number:02}")
    _, out, _ = run("migrate --dry-run --now M old", home)
    first, second, pipes = groups_in(out)
    equal("how many", [len(one.rows) for one in (first, second)], [20, 1])
    equal("titles", [first.title, second.title], [TITLE("20 mailboxes"), TITLE("1 mailbox")])
    assert pipes.title.startswith("no-file: 23 mailboxes: "), pipes.title
    assert "\n  old/pipe19  it is not a regular file\n  and 3 more (--all names them)\n" in out, out
    wanted = "a rehearsal: nothing was written; the commands above write once --dry-run is left out"
    equal("what a rehearsal says of its commands", out.splitlines()[-2], wanted)
    whole = run("migrate --all --dry-run --now M old", home)[1]
    equal("with --all", whole.count("left (no-file)"), 23)


def of_users(home: Path) -> None:
    """With --users a group is sorted by user, and its command names them. Each user has a line once nothing follows,
    but not in a rehearsal."""
    want_users()
    with users(home):
        for number, name in enumerate(("m61one", "m61two", "m61three")):
            theirs(mailbox(home / "spool" / name, asked(number) if number else ONE), name)
        (home / "spool").chmod(0o711)
        words = ["migrate", "--users", "--now", "spool"]
        _, out, _ = run([*words[:2], "--dry-run", *words[2:]], home)
        assert out.startswith("\nunclear: "), out
        status, out, err = run(words, home)
        equal("status and errors", (status, err), (1, ""))
        lines = sorted(out.split("\n\n")[0].splitlines())
        left = "{}: 1 mailbox: 1 left".format
        equal("the lines of users", lines, ["m61one: 1 mailbox: 1 done", left("m61three"), left("m61two")])
        (group,) = groups_in(out)
        equal("its mailboxes", [*group.rows], ["m61three INBOX", "m61two INBOX"])
        command = group.answers()[0].command
        assert command.endswith(" --users --now spool m61three m61two"), command
        status, out, _ = run_printed(command, home)
        equal("by that command", (status, groups_in(out)), (0, []))
        expect(["migrate", "--all", *words[1:]], home, 0, "3 mailboxes: 3 done before; ...\n")


def words_of_rows(home: Path) -> None:
    """`explain` has each word of the schema, in its order, and names a word that is none. What is only counted may ask
    for something."""
    status, out, err = run("explain", home)
    words = [*SCHEMA["$defs"]["reason"]["enum"], *SCHEMA["$defs"]["remark"]["enum"]]
    equal("all words", (status, [line.split(": ")[0] for line in out.splitlines()], err), (0, words, ""))
    status, out, err = run("explain locked lockd", home)
    equal("a word", (status, out[:14]), (1, "locked: left: "))
    equal("a remark", run("explain loses-quote", home)[1].split(" A ")[0], "loses-quote: is counted:")
    matches("no word", err, "mbox2maildir-admin: lockd: no such word: ...\n")


def output_that_ends(home: Path) -> None:
    """Nothing that was said to be done is lost if the output takes no more."""
    for number in range(3):
        mailbox(home / f"old/{number}", ONE)
    said = run_printed("mbox2maildir-admin migrate --now M old | head -n 1", home).out
    assert said.startswith("old/0 -> 0: messages 1: done"), said
    again = by_json("migrate M old", home)
    equal("what was said to be done", again.of("old/0")["verdict"], "done before")


if __name__ == "__main__":
    check_all(*checks_in(globals()))
