"""Mailboxes of each kind, and what `kind` and `quote` of mbox2maildir-admin make of them."""
import os
import pwd
import re
import shlex
import threading
from pathlib import Path
from typing import Union

from tests.support.cases import LeftOut
from tests.support.checks import LATER, equal, matches
from tests.support.homes import check_all, checks_in, expect, make_maildir, run, run_printed, want_root
from tests.support.mail import A, B, MAY, with_length
from tests.support.running import decoded
from tests.support.tables import Row, rows_of

# a mailbox of two messages
PLAIN = A + b"\nhello\n\n" + B + b"\nyes\n\n"
DROP = "--drop-deleted"
# a second message with a correct length
C = with_length(B, b"yes\n") + b"\n"


def asks(lines: str, *answers: tuple[str, int]) -> str:
    """What is next if a human decides: the lines that are asked about, the answers, and how many messages each
    gives."""
    found = "".join(f"    > {line} | ...\n" for line in lines.split(";"))
    for words, count in answers:
        drops = words.endswith(DROP)
        is_most = count == max(other for one, other in answers if one.endswith(DROP) == drops)
        says = "a mail begins here" if is_most else "this belongs to the mail above"
        says += ", and deleted mail is left out" if drops else ""
        if len({count for _, count in answers}) == 1:
            says = f"it was written as {words.split()[1]}" if answers[1:] else "run this next"
        if answers[0][0] == DROP:
            says = "deleted mail is left out" if drops else "deleted mail is kept"
        found += f"    {says}: {count} message{'' if count == 1 else 's'}:\n"
        words = words.replace(DROP, f"--of ... {DROP}") if drops else f"{words} --of ..."
        found += f"        mbox2maildir-admin migrate {words} MAILDIR {{}}\n"
    return found


FROM_LINE = "echo 'From MAILER-DAEMON Thu Jan  1 00:00:00 1970'"
# in place of a command: what it makes of a file takes the file's name
MAKES = 'd=$(mktemp -d ...) && %s >"$d/copy" && mv -nT {} "$d/original" && mv -nT "$d/copy" {}'
WITH_FROM_LINE = MAKES % f"({FROM_LINE} && cat {{}})"
WITH_DATE = MAKES % "sed '1s/$/ Thu Jan  1 00:00:00 1970/' {}"
AS_TEXT = MAKES % f"({FROM_LINE} && sed '1s/^/>/' {{}})"
RUN = "    run this next:\n        "
# what may be no mailbox, to judge by its first line
PASS_OVER = "    if it holds no mail, pass over it by --no-mail\n"
ALONE = "    something in it looks like mail: only if it holds none, pass over it by --no-mail\n"
ASK_FILE = f"    line 1 begins a mail:\n        {WITH_DATE}\n{ALONE}"
ASK_LINE = f"    line 1 begins a mail:\n        {WITH_DATE}\n    line 1 is text of a mail:\n        {AS_TEXT}\n"
NOT_KNOWN = f"    find out what it is:\n        file {{}}\n{PASS_OVER}"
LIKE_MAIL = f"    find out what it is:\n        file {{}}\n{ALONE}"
BEFORE = "line 1: a byte order mark or blank lines stand before the text"


# what is next, by the words of the table
THEN = {
    "ask file": ASK_FILE,
    "ask line": ASK_LINE,
    "not known": NOT_KNOWN,
    "like mail": LIKE_MAIL,
    "as one mail": MAKES % f"({FROM_LINE} && sed 's/^>*From />&/' {{}} && echo)",
    "with from line": WITH_FROM_LINE,
    "with date": WITH_DATE,
}


def next_of(words: str) -> str:
    """What is next, as it is printed for a file `{}`."""
    word, _, rest = words.partition(" ")
    if word == "asks":
        lines, _, answers = rest.partition(": ")
        pairs = (one.split(" = ") for one in answers.split("; "))
        return asks(lines.replace(",", ";"), *((words, int(count)) for words, count in pairs))
    return MAKES % rest.replace("FROM_LINE", FROM_LINE) if word == "makes" else THEN.get(words, words)


def labelled(then: str) -> str:
    """What is next, as it is printed: a command that is to be run, or a task for a human."""
    if not then or then.startswith("    "):
        return then
    is_task = then.startswith(("leave ", "copy "))
    return f"    {then}\n" if is_task else f"    run this next...:\n        {then}\n"


def with_quotes(out: str) -> str:
    """What was printed, with each line of mail that is shown behind what is said of it, and without those around
    it."""
    asked = dict(re.findall(r"(?m)^    > (\d+) \| (.*)$", out))

    def with_quote(found: "re.Match[str]") -> str:
        line, says = found[1], found[2]
        return f"    line {line}: {says}: {asked[line]}" if line in asked and "deleted" not in says else found[0]

    out = re.sub(r"(?m)^    (line (\d+): .*)\n    \2 \| (.*)$", r"    \1: \3", out)
    return re.sub(r"(?m)^    line (\d+): (.*)$", with_quote, re.sub(r"(?m)^      \d+ \|.*\n", "", out))


def want_kind(home: Path, row: Row, name: str, label: str, word: str) -> None:
    """A text of this name is recognized, with the next command, and stays as it is. The name is printed as a label,
    and as a word of a command."""
    (home / name).write_bytes(row.text)
    status, kind, words = row.lines[0].split(" | ", 2)
    then = next_of(words).replace("{}", word)
    if then.startswith("migrate"):
        then = f"mbox2maildir-admin {then} MAILDIR {word}"
    if kind == "not known" and not row.lines[1:] and row.text.split(b"\n")[0]:
        kind += "\n    1 | ..."
    wanted = f"{label}: {kind}\n" + "".join(f"    {line}\n" for line in row.lines[1:]) + labelled(then)
    got, out, err = run(["kind", name], home)
    matches(f"kind of {row.text[:200]!r}", with_quotes(out), wanted)
    equal(f"kind of {row.text[:200]!r}: status and standard error", (got, err), (int(status), ""))
    equal(f"{name} after kind", (home / name).read_bytes(), row.text)


def kinds(home: Path) -> None:
    """Each kind is recognized, also under a name that a shell would read in another way."""
    rows = rows_of("kinds.txt")
    for row in rows:
        want_kind(home, row, "a.mbox", "a.mbox", "a.mbox")
    for row in rows[:4]:
        want_kind(home, row, "it's \tone.mbox", "'it\\'s \\x09one.mbox'", "$'it\\'s \\x09one.mbox'")
    print(f"kinds: kind: {len(rows)} texts")


def other_files(home: Path) -> None:
    """Files that are not mailboxes, or have odd names."""
    make_maildir(home / "Maildir")
    (home / "-old.mbox/sub").mkdir(parents=True)
    (home / "-old.mbox/in").write_bytes(PLAIN)
    (home / "-old.mbox/in.msf").write_bytes(b"// <!-- <mdb:mork")
    (home / "-old.mbox/mail.dat").write_bytes(PLAIN)
    (home / "-old.mbox/in.lock").write_bytes(b"123\n")
    (home / "-old.mbox/sub/cut").write_bytes(A[1:])
    os.mkfifo(home / "pipe")
    latin = home / os.fsdecode(b"caf\xe9.mbox")
    latin.write_bytes(PLAIN)
    expect(
        ["kind", "--", "Maildir", "-old.mbox", latin.name, "pipe", "none"],
        home,
        1,
        "Maildir: a Maildir\n    leave it as it is\n"
        "-old.mbox/in: mboxrd or mboxo, messages 2\n-old.mbox/mail.dat: mboxrd or mboxo, messages 2\n"
        f"-old.mbox/sub/cut: damaged\n...\n...\n{RUN}"
        + WITH_FROM_LINE.replace("...", f"{home}/cut.XXXXXX").replace("{}", "./-old.mbox/sub/cut")
        + "\n-old.mbox/in.lock: no mail\n-old.mbox/in.msf: Thunderbird's index (.msf): no mail\n"
        f"-old.mbox: a folder of mailboxes\n{RUN}mbox2maildir-admin migrate MAILDIR ./-old.mbox\n"
        f"caf\\xe9.mbox: mboxrd or mboxo, messages 2\n{RUN}mbox2maildir-admin migrate MAILDIR $'caf\\xe9.mbox'\n"
        "pipe: left (no-file): it is not a regular file\n    leave it: ...\n"
        "none: left (missing): No such file or directory\n    run this next:\n        ls .\n",
    )


def no_place_beside(home: Path) -> None:
    """If the owner of a mailbox may not write in its folder, what is made is migrated from the owner's home."""
    want_root()
    (home / "spool").mkdir(mode=0o755)
    (home / "spool/cut").write_bytes(A[1:])
    os.chown(home / "spool/cut", 65534, 65534)
    owner = pwd.getpwuid(65534)
    makes = (
        WITH_FROM_LINE.partition(" && mv ")[0].replace("...", f"{owner.pw_dir}/cut.XXXXXX").replace("{}", "spool/cut")
    )
    then = shlex.quote(f'{makes} && mbox2maildir-admin migrate MAILDIR "$d/copy"')
    aside = f'd=$(mktemp -d {home}/cut.XXXXXX) && mv -nT spool/cut "$d/original"'
    says = f"spool/cut: damaged\n...\n...\n{RUN}runuser -u {owner.pw_name} -- sh -c {then} && {aside}\n"
    expect("kind spool/cut", home, 1, says)


def delivered_to_meanwhile(home: Path) -> None:
    """A program delivers to the mailbox while it is read."""
    path = home / "busy"
    path.write_bytes((A + b"\n" + b"hello\n" * 1_000_000 + b"\n") * 3)
    ended = threading.Event()

    def deliver() -> None:
        with path.open("ab", 0) as box:
            while not ended.wait(0.001):
                box.write(B)

    deliverer = threading.Thread(target=deliver)
    deliverer.start()
    try:
        says = "it changed while it was read\n    stop the program that writes to it, and run the same command again\n"
        for words, status, before in (
            (["kind"], 1, "busy: left (changed): "),
            (["quote", "-o", "copy"], 1, "mbox2maildir-admin: busy: "),
            (["verify", "Maildir"], LATER, "busy: left (changed): "),
        ):
            got, *texts = run([*words, "busy"], home)
            is_said = any(text.startswith(before + says) for text in texts)
            equal(f"{words}: status, and what is said", (got, is_said), (status, True))
    finally:
        ended.set()
        deliverer.join()


# A text, the words of quote, and what is written, or the line with which it is refused
LIE = with_length(A, B + b"\nyes\n") + b"\n" + C
# what is said of an answer to another question, and where nothing is asked
ANOTHER = "what is asked about it has changed since this was answered"
NOTHING = f"{ANOTHER}\n    run this next: ...:\n        mbox2maildir-admin quote -o copy 'a b'"
# what is said of one to this question that lacks its lines, or has others
LACKS = "the answer with this --of also names lines, by --text or --begin"
OTHER = "the answer with this --of names other lines, or none"
# a line that is shown with those around it, and two answers
ASKED = "\n..." * 11
X = (1 << 20) - len(A) - 2
BARE = A + b"\nx\nFrom a\n>From b\n>>From c\n\n" + B
COPIES = [
    (with_length(A, MAY) + b"\n" + C, "", A + b"\n" + MAY.replace(b"From", b">From") + b"\n" + B + b"\nyes\n\n"),
    (with_length(A, MAY) + b"\n" + B + b"\n", "", A + b"\n" + MAY.replace(b"From", b">From") + b"\n" + B + b"\n"),
    (
        with_length(A, MAY + b">From a\n") + b"\n" + B + b"\n",
        "",
        "line 7: within the message of line 1, by its length\n"
        "      4 | Content-Length: 52\n      5 |\n      6 | hello\n    > 7 | From the first of May we are here.\n"
        "      8 | A.\n      9 | >From a\n      10 |\n    this belongs to the mail above: 2 messages:\n"
        "        mbox2maildir-admin quote --as mboxcl2 --of ... -o copy 'a b'\n    a mail begins here: 3 messages:\n"
        "        mbox2maildir-admin quote --as mboxrd --of ... -o copy 'a b'",
    ),
    (
        with_length(A, b"From a\n>From b\n>>From c\n \n") + b"\n" + B + b"\n>From d\n>>From e\n",
        "--as mboxcl2",
        A + b"\n>From a\n>>From b\n>>>From c\n \n\n" + B + b"\n>From d\n>>>From e\n",
    ),
    (
        with_length(A, b"From a\n>From b\n>>From c\n \n") + b"\n" + B + b"\n>From d\n>>From e\n",
        "--as mboxcl",
        A + b"\n>From a\n>From b\n>>From c\n \n\n" + B + b"\n>From d\n>>From e\n",
    ),
    (LIE, "", "line 6: a From_ line with a date, but within the message of line 1, by its length" + ASKED),
    (LIE, "--as mboxcl2", A + b"\n>" + B + b"\nyes\n\n" + B + b"\nyes\n\n"),
    (LIE, "--as mboxrd", LIE),
    # lengths stay if nothing is quoted
    (
        with_length(A, b"no end") + b"\n" + with_length(B, b"\n", 1) + b"\n",
        "",
        with_length(A, b"no end") + b"\n" + with_length(B, b"\n", 1) + b"\n",
    ),
    (
        with_length(A + b">From root Mon Mar  3 09:12:44 2025\n", MAY) + b"\n" + C,
        "",
        A + b">>From root Mon Mar  3 09:12:44 2025\n\n" + MAY.replace(b"From", b">From") + b"\n" + B + b"\nyes\n\n",
    ),
    (A + b"content-LENGTH:\n 8\nStatus: O\n\n>From x\n", "", A + b"Status: O\n\n>>From x\n"),
    (with_length(A, MAY, 3) + b"\n" + B + b"\n", "", "line 7: a line `From ` without a date at its end" + ASKED),
    (with_length(A, MAY) + b"x" + B + b"\n", "", "line 9: a message may begin in the middle of this line" + ASKED),
    (A + b"Content-Length: x\x1b[2J\n\n", "", A + b"Content-Length: x\x1b[2J\n\n"),
    (BARE, "--as mboxo --text 6 --of {of}", A + b"\nx\n>From a\n>From b\n>>>From c\n\n" + B),
    (BARE, "--as unquoted", A + b"\nx\n>From a\n>>From b\n>>>From c\n\n" + B),
    (
        A + b"\n>From a\n\nFrom b\n" + B.replace(b"From:", b"see"),
        "--as unquoted --text 8 --of {of}",
        A + b"\n>>From a\n\n>From b\n>" + B.replace(b"From:", b"see"),
    ),
    (BARE, "--as mboxrd", BARE),
    (
        BARE,
        "--as mboxo --text 6 --of 0123456789abcdef",
        f"{ANOTHER}: line 6: a line `From ` without a date at its end{ASKED}",
    ),
    (BARE, "--as unquoted --of {of}", f"{LACKS}: line 6: a line `From ` without a date at its end{ASKED}"),
    (BARE, "--as mboxo --text 5 --of {of}", f"{OTHER}: line 6: a line `From ` without a date at its end{ASKED}"),
    (A + b"\n\nFrom b@c\nSubject: x\n\n", "--as unquoted", A + b"\n\n>From b@c\nSubject: x\n\n"),
    (
        b"From a\nS: x\n\n\nFrom b c\nS: y\n\n",
        "--as mboxrd --text 5 --of {of}",
        b"From a\nS: x\n\n\n>From b c\nS: y\n\n",
    ),
    (b"From a\nS: x\n\n" + B, "--as unquoted", "line 1: the text begins here, but no message begins with this line"),
    (b"From a\nS: x\n\n" + B, "--as unquoted --begin 1 --of {of}", NOTHING),
    (b"From a\n\n" + B, "--as mboxo", "line 1: a line `From ` without a date ...\n" + "...\n" * 4 + "..."),
    (b"\0" * 512 + A + b"\n>>From a\n", "--as mboxo", A + b"\n>>>From a\n"),
    (A + b"\n>From a\n>>From b\n", "--as mboxo", A + b"\n>From a\n>>>From b\n"),
    (A + b"\n>From a\nFrom b\nFrom c\n", "--as mboxrd --text 7,6 --of {of}", A + b"\n>From a\n>From b\n>From c\n"),
    (A + b"\nhello\n\n\0\0" + B, "--as mboxrd --begin 7 --of {of}", A + b"\nhello\n\n" + B),
    (A + b"\nhello" + B, "--as mboxrd --begin 5 --of {of}", A + b"\nhello\n" + B),
    (A + b"\n" + X * b"x" + B, "--as mboxrd --begin 5 --of {of}", A + b"\n" + X * b"x" + b"\n" + B),
    (A + b"\n>From a\n", "--as mboxrd --text 5,4 --of {of}", NOTHING),
    (A + b"\n>From a\n", "--as mboxrd --text 1 --of {of}", NOTHING),
    (A + b"\nhello\n", "--as mboxrd --begin 5 --of {of}", NOTHING),
    (b"\xef\xbb\xbf\r\n\n" + A + b"\n", "", A + b"\n"),
    ((A + b"\nx\ry\n").replace(b"\n", b"\r\n"), "", A + b"\nx\ry\n"),
    ((A + b"\nx\n\n" + B).replace(b"\n", b"\r"), "--as mboxo", A + b"\nx\n\n" + B),
    # a CR LF that two blocks share
    (A.replace(b"\n", b"\r") + b"\r" + X * b"x" + b"\r\n\r\n" + B, "--as mboxo", A + b"\n" + X * b"x" + b"\n\n" + B),
    # a CR at the end of a block
    (A.replace(b"\n", b"\r") + b"\r" + X * b"x" + b"\ryes\r", "--as mboxo", A + b"\n" + X * b"x" + b"\nyes\n"),
    (
        (with_length(A, MAY) + b"\n").replace(b"\n", b"\r\n").replace(b": 44", b": 47"),
        "",
        A + b"\n" + MAY.replace(b"From", b">From") + b"\n",
    ),
    (
        A + b"X-Mozilla-Status: 0009\n\nhello\n\n" + B + b"X-Mozilla-Status: 0001\n\n",
        "--drop-deleted",
        B + b"X-Mozilla-Status: 0001\n\n",
    ),
    (b"Subject: x\n\n", "", "not known\n    1 | Subject: x\n...\n...\n..."),
    (b"", "", b""),
]  # type: list[tuple[bytes, str, Union[bytes, str]]]


def tie_of_lines(home: Path) -> str:
    """The tie of an answer that names lines, as `kind` prints it; that of nothing if it prints none."""
    found = re.search("--(?:text|begin) [0-9,]+ --of ([0-9a-f]{16})", run(["kind", "a b"], home)[1])
    return found[1] if found else "0" * 16


def copies(home: Path) -> None:
    """Each copy is complete and has its name, or there is none. Nothing else is left."""
    for text, options, wanted in COPIES:
        (home / "a b").write_bytes(text)
        before = set(os.listdir(home))
        words = options.format(of=tie_of_lines(home)).split()
        status, out, err = run(["quote", *words, "-o", "copy", "a b"], home)
        printed = run(["quote", *words, "-o", "-", "a b"], home)
        what = f"quote {words} of {text!r}"
        if isinstance(wanted, bytes):
            equal(f"{what}: status and standard error", (status, err), (0, ""))
            matches(what, out, "copy: messages ...\n")
            equal(f"{what}: the copy", (home / "copy").read_bytes(), wanted)
            equal(f"{what}: the copy that is printed", printed, (0, decoded(wanted), ""))
            equal(f"{what}: the mode", (home / "copy").stat().st_mode, (home / "a b").stat().st_mode)
            says = "mbox2maildir-admin: a b: copy already exists\n    name a file that is not there\n"
            expect(["quote", *words, "-o", "copy", "a b"], home, 1, "", says)
            os.unlink(home / "copy")
        else:
            equal(f"{what}: status and output", (status, out), (1, ""))
            matches(what, err, f"mbox2maildir-admin: a b: {wanted}\n")
            equal(f"{what}: what is printed", printed, (1, "", err.replace("-o copy", "-o -")))
        equal(f"{what}: the files", set(os.listdir(home)), before)
    print(f"kinds: quote: {len(COPIES)} texts")


def whose_copies_are(home: Path) -> None:
    """A copy has the owner and the mode of its mailbox, but is nothing that anybody runs. If it cannot have the owner,
    it is for whoever made it alone."""
    want_root()
    (home / "box").write_bytes(A + b"\n")
    os.chown(home / "box", 65534, 65534)
    (home / "box").chmod(0o6754)
    home.chmod(0o777)
    quote = "umask 0; mbox2maildir-admin quote --as mboxo box -o"
    for command, owner, mode in (
        (f"{quote} roots", 65534, 0o644),
        (f"setpriv --reuid 1 -- sh -c '{quote} ones'", 1, 0o600),
    ):
        equal(command, run_printed(command, home).status, 0)
        state = (home / command.rstrip("'").split()[-1]).stat()
        equal(f"{command}: owner and mode", (state.st_uid, oct(state.st_mode & 0o7777)), (owner, oct(mode)))


def no_copy_is_cut(home: Path) -> None:
    """The file may not grow that far, or is the copy itself."""
    (home / "big").write_bytes(A + b"\n" + b"a" * 3_000_000)
    before = set(os.listdir(home))
    ran = run_printed("ulimit -f 2048 && exec mbox2maildir-admin quote -o copy big", home)
    equal("quote of a big file", ran[::2], (1, "mbox2maildir-admin: copy: File too large\n"))
    says = "mbox2maildir-admin: big: big already exists\n    name a file that is not there\n"
    expect("quote big -o big", home, 1, "", says)
    expect("quote big -o none/x", home, 1, "", "mbox2maildir-admin: none: No such file or directory\n...\n...\n")
    equal("the files", set(os.listdir(home)), before)


def no_copy_on_a_full_disk(home: Path) -> None:
    """Nothing is left of a copy for which the disk has no space."""
    want_root()
    (home / "big").write_bytes(A + b"\n" + b"a" * 3_000_000)
    (home / "full").mkdir()
    full = "mount -t tmpfs -o size=1m none full && mbox2maildir-admin quote -o full/copy big; echo $?; ls -A full"
    ran = run_printed(f"unshare -m sh -c '{full}'", home)
    if "unshare" in ran.err or "mount" in ran.err:
        raise LeftOut("no disk can be mounted here")
    says = "mbox2maildir-admin: full/copy: No space left on device\n"
    equal("quote on a full disk", ran[1:], ("1\n", says))
    equal("the files", sorted(os.listdir(home)), ["big", "bin", "full"])


if __name__ == "__main__":
    check_all(*checks_in(globals()))
