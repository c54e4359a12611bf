"""What mbox2maildir-admin migrate asks on a terminal, and what it does with each answer."""
import fcntl
import gzip
import os
import re
import shutil
from pathlib import Path

from tests.support.checks import equal, matches, without_work
from tests.support.homes import check_all, checks_in, expect, hand_over, mail_in, mailbox, run, run_whole, subjects
from tests.support.homes import want_root
from tests.support.ledgers import RECORD, without_chance
from tests.support.mail import A, B, C, MAY, ONE
from tests.support.printed import row_in, rows_in
from tests.support.running import OWNER
from tests.support.terminals import Terminal

# mailboxes about whose lines only a human can decide: by their numbers, or by a word
LINES = A + b"\nhello\n\nFrom Alice\nNote: x\n\n" + B + b"\nbye\n\n"
WORD = C + b"\n" + MAY + b"\nyes\n\n"
PROMPT = ", l): "
QUESTION = """\
question 1 of 1: unclear: 1 mailbox (not quoted): does a mail begin at the line that is shown?
  box  1 or 2 messages: line 28: a line `From ` without a date at its end: From the first of May we are here.
      25 | above
      26 | above
      27 | hello
    > 28 | From the first of May we are here.
      29 | A.
      30 | below
      31 | below
    a: this belongs to the mail above: 1 message:
        mbox2maildir-admin migrate --now --as unquoted ...--folder 'Old Mail' M box
    b: a mail begins here: 2 messages:
        mbox2maildir-admin migrate --now --as mboxrd ...--folder 'Old Mail' M box
    m: show more lines
    l: leave it
type a letter and Enter (a, b, m, l): """
IS_LINK = "it is a symbolic link: name the file that it points to"
# the keys of a terminal that interrupt a program, and that end its input
CTRL_C, CTRL_D = "\x03", "\x04"


def terminal_of(home: Path, *words: str) -> Terminal:
    """A terminal with the companion, or with another command."""
    command = [f"{home}/bin/mbox2maildir-admin", words[0], "--all", *words[1:]] if words[0] == "migrate" else words
    return Terminal(command, home, PATH=f"{home}/bin:{os.environ['PATH']}")


def shell_of(home: Path, script: str) -> Terminal:
    """A terminal with a shell that runs this."""
    return terminal_of(home, "bash", "-c", script)


def make_boxes(old: Path) -> None:
    """A folder with two mailboxes that are asked about, and one that is not."""
    for name, text in (("lines", LINES), ("one", ONE), ("word", WORD)):
        mailbox(old / name, text)


def files_of(folder: Path) -> dict[str, bytes]:
    """The files below a folder, without what is another one in each run."""
    return {str(path.relative_to(folder)): without_chance(path) for path in folder.rglob("*") if path.is_file()}


def letter_of(question: str, command: str) -> str:
    """The letter by which a question has this command."""
    lines = question.split("\n")
    before = lines[: lines.index(f"        {command}")]
    return next(line for line in reversed(before) if not line.startswith("        ")).strip().split(":")[0]


def rows_of(printed: str) -> list[str]:
    """The rows that were printed on a terminal, up to the fate of each."""
    lines = [row.line for row in rows_in(printed) if " -> " in row.line and not row.line.startswith("question ")]
    return [re.sub(r"(: (?:left|done)).*", r"\1", line) for line in lines]


def an_answer_is_its_command(home: Path) -> None:
    """Each answer does what the command does that is printed for it. Each mailbox has one row, those that were asked
    about after all others."""
    make_boxes(home / "old")
    for choice in range(4):
        printed = run("migrate --all --now --no-questions N old", home)[1]
        chosen = [
            row_in(printed, f"old/{name}").commands[-2:][way]
            for name, way in (("lines", choice & 1), ("word", choice >> 1))
        ]
        for command in chosen:
            equal(command, run(command.split(), home)[0], 0)
        with terminal_of(home, "migrate", "--now", "M", "old") as terminal:
            said = ""
            for command in chosen:
                said += terminal.until(PROMPT)
                terminal.type(letter_of(said, command.replace(" N ", " M ")) + "\n")
            status, rest = terminal.end()
        fates = [line.split(" -> ")[0] + line.rpartition(":")[2] for line in rows_of(said + rest)]
        equal("status and rows", (status, fates), (0, ["old/one done", "old/lines done", "old/word done"]))
        equal("what is there", files_of(home / "M"), files_of(home / "N"))
        matches("the sums", rest.split("\n")[-2], "3 mailboxes: 3 done; ...")
        for name in "MN":
            shutil.rmtree(home / name)


def what_is_shown(home: Path) -> None:
    """The lines, what each answer says of the mail, its command; more lines; and again what can be typed, after
    anything else."""
    mailbox(home / "box", C + b"\nhello\n\n" + b"above\n" * 20 + MAY + b"below\n" * 20 + b"\n")
    with terminal_of(home, "migrate", "--now", "--folder", "Old Mail", "M", "box") as terminal:
        first = terminal.until(PROMPT)
        matches("a question", first, QUESTION)
        for typed in ("", "c", "ab", "mbox2maildir-admin migrate M other"):
            terminal.type(typed + "\n")
            equal(typed, terminal.until(PROMPT), f"{typed}\ntype a letter and Enter (a, b, m, l): ")
        terminal.type("m\n")
        more = terminal.until(PROMPT)
        equal("the lines that are shown", re.findall(r"(\d+) \| ", more), [str(number) for number in range(16, 41)])
        marked = re.findall(r"    > .*", more)
        equal("the one that is asked about", marked, ["    > 28 | From the first of May we are here."])
        equal("what follows the lines", more.rpartition("below\n")[2], first.rpartition("below\n")[2])
        terminal.type("l\n")
        status, rest = terminal.end()
    printed = run(["migrate", "--all", "--now", "--no-questions", "--folder", "Old Mail", "M", "box"], home)[1]
    equal("what is left is printed as ever", (status, rest), (1, "l\n" + printed))
    equal("whether anything was made", (home / "M").exists(), False)


def nobody_is_asked(home: Path) -> None:
    """Nothing is asked, and the commands are printed, unless the terminal is all there is and the program is in its
    foreground; nor with some options."""
    mailbox(home / "box", WORD)
    command = "mbox2maildir-admin migrate --now"
    for script in (
        f"{command} M box | cat",
        f"{command} M box 2>&1 | cat",
        f"{command} M box 2>/dev/null",
        f"{command} M box </dev/null",
        f"setsid --wait {command} M box",
        f"set -m; {command} M box & wait $!",
        f"set -m; {command} M box </dev/tty & wait $!",
        f"{command} --no-questions M box",
        f"{command} --dry-run M box",
        f"{command} --json M box",
    ):
        with shell_of(home, script) as terminal:
            said = terminal.end()[1]
        assert "type a letter" not in said and "question" not in said, f"{script}: {said}"
        assert "--as" in said and "left" in said, f"{script}: {said}"
    equal("whether anything was made", (home / "M").exists(), False)
    equal("an undo", run("migrate --undo --no-questions M box", home)[0], 1)


def what_was_typed_before_is_no_answer(home: Path) -> None:
    """What comes before a question is thrown away: a letter, and a second command that was pasted with the first."""
    make_boxes(home / "old")
    command = "mbox2maildir-admin migrate --all --now"
    with shell_of(home, f"read go; exec {command} M old") as terminal:
        terminal.type("go\na\na\n")
        said = terminal.until(PROMPT)
        terminal.type("l\n")
        said += terminal.until(PROMPT)
        terminal.type("l\n")
        status, rest = terminal.end()
    equal("status", status, 1)
    wanted = ["old/lines -> lines: mboxrd or mboxo, messages 2: left", "old/word -> word: not quoted, messages 1: left"]
    equal("rows", rows_of(said + rest)[1:], wanted)
    with terminal_of(home, "sh", "-i") as terminal:
        terminal.type(f"{command} M old/word\n{command} N old/one\n")
        terminal.until(PROMPT)
        terminal.type("l\n")
        terminal.until("1 mailbox: 1 left\n")
        terminal.type("exit 7\n")
        found = (terminal.end()[0], (home / "N").exists())
        equal("the shell's status, and whether the second command ran", found, (7, False))


def it_is_broken_off(home: Path) -> None:
    """Ctrl-C leaves the mailbox and those that follow, and Ctrl-D only the mailbox. Nothing else changes."""
    make_boxes(home / "old")
    expect("migrate --now M old/one", home, 0, None)
    before, words = files_of(home), ["migrate", "--all", "--now", "--folder", "x", "M", "old/lines", "old/word"]
    printed = run([*words, "--no-questions"], home)[1]
    sums = "2 mailboxes: 2 left\n"
    with terminal_of(home, *words) as terminal:
        terminal.until(PROMPT)
        terminal.type(CTRL_C)
        broken = printed.replace(sums, "2 mailboxes: 2 left; interrupted: run the same command again\n")
        equal("Ctrl-C", terminal.end(), (130, "^C\n" + broken))
    with terminal_of(home, *words) as terminal:
        terminal.until(PROMPT)
        terminal.type(CTRL_D)
        said = terminal.until("question 2 of 2: ").replace("question 2 of 2: ", "")
        terminal.until(PROMPT)
        terminal.type(CTRL_D)
        status, rest = terminal.end()
        equal("Ctrl-D", (status, said[1:] + rest[1:]), (1, printed))
    equal("what is there", files_of(home), before)


def nothing_is_held(home: Path) -> None:
    """While a question waits, nothing is locked, and others may migrate into the same Maildir. If one of them is at
    work when the answer comes, the mailbox is left with its commands."""
    make_boxes(home / "old")
    printed = run("migrate --all --now --no-questions M old", home)[1]
    shutil.rmtree(home / "M")
    there = sorted(path.name for path in (home / "old").iterdir())
    with terminal_of(home, "migrate", "--now", "M", "old") as terminal:
        question = terminal.until(PROMPT)
        for path in (home / "old/lines", home / "old/word", home / "M" / RECORD):
            with open(path, "r+b") as file:
                fcntl.lockf(file, fcntl.LOCK_EX | fcntl.LOCK_NB)
                fcntl.flock(file, fcntl.LOCK_EX | fcntl.LOCK_NB)
        equal("the files beside them", sorted(path.name for path in (home / "old").iterdir()), there)
        expect("migrate --now --folder More M old/one", home, 0, None)
        with open(home / "M" / RECORD, "rb") as record:
            fcntl.flock(record, fcntl.LOCK_EX)
            terminal.type(letter_of(question, row_in(printed, "old/lines").commands[0]) + "\n")
            said = terminal.until("question 2 of 2: ")
        terminal.until(PROMPT)
        terminal.type("l\n")
        status, rest = terminal.end()
    row = row_in(printed, "old/lines")
    assert "\nmbox2maildir-admin: another migrate is at work in M" in said, said
    assert "\n".join([row.line, *row.below]) in said, said
    equal("status and sums", (status, without_work(rest).split("\n")[-2]), (1, "3 mailboxes: 1 done, 2 left"))


def a_mailbox_changes_meanwhile(home: Path) -> None:
    """If the text has changed since the question, the answer is not taken, and the row has the question for the text
    as it is now."""
    for name, text in (("lines", LINES), ("word", WORD)):
        for number, letter in enumerate("ab"):
            box = mailbox(home / f"{name}{number}", text)
            with terminal_of(home, "migrate", "--now", "M", box.name) as terminal:
                terminal.until(PROMPT)
                mailbox(box, text.replace(b"hello\n", b"hello\n\nFrom now on\n"))
                terminal.type(f"{letter}\n")
                status, said = terminal.end()
            equal(f"{box.name}: status, and whether anything was made", (status, (home / "M").exists()), (1, False))
            assert PROMPT not in said, said
            equal(f"{box.name}: rows", len(rows_of(said)), 1)


def a_link_comes_meanwhile(home: Path) -> None:
    """Where a mailbox of a tree was, its owner has put a symbolic link to a file that only root may read. It is
    followed neither for a question nor by the command that was printed for root."""
    want_root()
    box, secret = home / "old/alice/word", home / "secret"
    mailbox(box, WORD)
    mailbox(secret, WORD.replace(MAY, MAY + b"a secret\n" * 9))
    hand_over(home / "old/alice")
    with terminal_of(home, "migrate", "--now", "M", "old") as terminal:
        question = terminal.until(PROMPT)
        box.unlink()
        box.symlink_to(secret)
        hand_over(box)
        terminal.type("m\n")
        more = terminal.until(PROMPT)
        equal("what is said", more.split("\n")[1], f"mbox2maildir-admin: old/alice/word: {IS_LINK}")
        equal("whether it is followed", "a secret" in more, False)
        equal("the lines", re.findall(r"\d+ \| .*", more), re.findall(r"\d+ \| .*", question))
        terminal.type("l\n")
        _, rest = terminal.end()
    for command in row_in(rest, "old/alice/word").commands:
        status, out, err = run(command.split(), home)
        equal(f"{command}: status, output", (status, out), (1, ""))
        equal(f"{command}: errors", err.split("\n")[0], f"mbox2maildir-admin: old/alice/word: it belongs to {OWNER}")


def several_at_a_time(home: Path) -> None:
    """Questions come once all folders are done at which several processes are at work; one after the other, if asked
    for."""
    for number in range(4):
        mailbox(home / f"old/{number}", WORD.replace(b"carla", b"carla%d" % number))
        mailbox(home / f"old/{number}.sure", ONE)
    with terminal_of(home, "migrate", "--now", "--jobs", "3", "M", "old") as terminal:
        before, is_same, _ = terminal.until(PROMPT).partition("question 1 of 1: unclear: 4 mailboxes ")
        assert is_same, before
        terminal.type("s\n")
        said = ""
        for letter in "bala":
            said += terminal.until(PROMPT)
            terminal.type(letter + "\n")
        status, rest = terminal.end()
    fates = [(line[4:10], line.rpartition(" ")[2]) for line in rows_of(before + said + rest)]
    sure = [(f"{number}.sure", "done") for number in range(4)]
    asked = [(f"{number} -> {number}"[:6], fate) for number, fate in enumerate(["done", "done", "left", "done"])]
    equal("status and rows", (status, fates), (1, sure + asked))
    found = [len(list(mail_in(home / f"M/.{number}"))) if number != 2 else 0 for number in range(4)]
    equal("messages", found, [2, 1, 0, 1])
    matches("the sums", rest.split("\n")[-2], "8 mailboxes: 7 done, 1 left; 8 messages, ...")
    equal("the questions", re.findall(r"question (\d of \d)", said), [f"{number} of 4" for number in range(1, 5)])


def one_letter_for_all(home: Path) -> None:
    """Mailboxes with the same question are asked about at once, and each gets an answer of its own, tied to its text.
    The sums say how many messages were there already."""
    months = [f"2005-{month}.gz" for month in ("March", "April", "May")]
    texts = [C + b"\n" + MAY + name.encode() + b"\n\n" for name in months] + [LINES]
    for name, text in zip([*months, "lines"], texts):
        mailbox(home / "j" / name, gzip.compress(text) if name.endswith("gz") else text)
    mailbox(home / "one", ONE)
    words = [
        "migrate",
        "--all",
        "--now",
        "--folder",
        "Archive",
        "M",
        "one",
        *(f"j/{name}" for name in [*months, "lines"]),
    ]
    commands = [row_in(run([*words, "--no-questions"], home)[1], f"j/{name}").commands[-2] for name in months]
    shutil.rmtree(home / "M")
    with terminal_of(home, *words) as terminal:
        said = terminal.until("(a, b, m, s, l): ")
        assert "question 1 of 2: unclear: 3 mailboxes (not quoted, compressed by gzip): " in said, said
        for command in commands:
            assert f"        {command}\n" in said, said
        terminal.type(letter_of(said, commands[0]) + "\n")
        said = terminal.until(PROMPT)
        terminal.type("l\n")
        status, rest = terminal.end()
    equal("status", status, 1)
    matches("the sums", rest.split("\n")[-2], "5 mailboxes: 4 done, 1 left; 4 messages, ...")
    ties = re.findall(r"\bof=(\w+)", (home / "M" / RECORD).read_text())
    equal("the ties of the answers", set(ties), {re.findall(r" --of (\S+) ", command)[0] for command in commands})
    mailbox(home / "copy", ONE)
    sums = run_whole("migrate --all --folder Archive M copy one", home)[1].split("\n")[-2]
    matches("the sums", sums, "2 mailboxes: 1 done, 1 done before; 1 message, 1 of them there already, ...")


def a_folder_is_asked_for(home: Path) -> None:
    """A file that is named as a folder joins other mail in INBOX only if a human says so."""
    for name in ("mia", "sent", "mbox"):
        mailbox(home / name, ONE.replace(b"one", name.encode()))
    with terminal_of(home, "migrate", "--now", "M", "sent", "mia", "mbox") as terminal:
        said = terminal.until("(a, b, s, l): ")
        assert "question 1 of 1: no-folder: 2 mailboxes: " in said, said
        terminal.type("s\n")
        for name, letter in (("mbox", "b"), ("sent", "a")):
            said = terminal.until("(a, b, l): ")
            assert f"  {name}  INBOX has or gets other mail, and mail programs keep a folder in a file" in said, said
            terminal.type(letter + "\n")
        status, rest = terminal.end()
    wanted = ["sent -> sent: mboxrd or mboxo, messages 1: done", "3 mailboxes: 3 ..."]
    matches("the rows", "\n".join(rest.split("\n")[-3:-1]), "\n".join(wanted))
    equal(
        "status and folders", (status, subjects(home / "M"), subjects(home / "M/.sent")), (0, ["mbox", "mia"], ["sent"])
    )
    expect("migrate --now M sent mia mbox", home, 0, "3 mailboxes: 3 done before\n")


def each_has_one_row(home: Path) -> None:
    """An answer says nothing of what is only prepared in the folders of other mailboxes: these have rows of their
    own."""
    make_boxes(home / "old")
    box = mailbox(home / "old/box", ONE)
    run("migrate --all --prepare --unread --no-questions M old", home)
    mailbox(box, b"a note, no mail\n")
    with terminal_of(home, "migrate", "--now", "M", "old") as terminal:
        for _ in range(2):
            terminal.until(PROMPT)
            terminal.type("a\n")
        status, rest = terminal.end()
    equal("status and sums", (status, without_work(rest).split("\n")[-2]), (1, "4 mailboxes: 3 done, 1 left"))


def an_answer_spells_the_path_otherwise(home: Path) -> None:
    """A command names what a symbolic link of a tree leads to, and puts a folder before a dash. Its mailbox has its row
    all the same: once it is done, or if it is left since its text has changed."""
    (home / "old").mkdir()
    for name, more, wanted in (("p", b"", "1 done"), ("q", MAY, "1 left")):
        box = mailbox(home / f"real/{name}.mbox", ONE)
        (home / "old" / name).symlink_to(f"../real/{name}.mbox")
        expect(f"migrate --now --folder {name} M old/{name}", home, 0, None)
        mailbox(box, ONE + WORD)
        with terminal_of(home, "migrate", "--now", "M", "old") as terminal:
            terminal.until(PROMPT)
            mailbox(box, ONE + WORD + more)
            terminal.type("a\n")
            status, rest = terminal.end()
        equal(f"{name}: status", status, int(bool(more)))
        matches(f"{name}: sums", without_work(rest).split("\n")[-2].split(", ")[-1], f"...{wanted}")
        (row,) = rows_of(rest)
        matches(f"{name}: row", row, f"old/{name} -> {name}: ...: {wanted[2:]}")
        (home / "old" / name).unlink()
    mailbox(home / "-x.mbox", WORD)
    with terminal_of(home, "migrate", "--now", "N", "--", "-x.mbox") as terminal:
        terminal.until(PROMPT)
        terminal.type("a\n")
        status, rest = terminal.end()
    matches("a dash", f"{status} {without_work(rest)}", "0 a\n-x.mbox -> INBOX: ...: done\n1 mailbox: 1 done\n")


if __name__ == "__main__":
    check_all(*checks_in(globals()))
