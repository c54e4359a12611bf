"""Compares the tables of programs in docs/FORMATS.md with the programs.

Each program that is installed and writes mailboxes writes one. Its kind must be that of the row, also by the companion.
Then the commands are run that the companion says are next, and the bodies must be those that were put in. Each program
that works on a Maildir works on a converted one, and must keep the names or change them, as the page says.

What a machine lacks is left out.
"""
import fcntl
import json
import os
import pty
import re
import select
import shutil
import signal
import struct
import subprocess
import tempfile
import termios
import time
from collections.abc import Callable, Iterator, Mapping, Sequence
from functools import partial
from pathlib import Path
from typing import IO, Optional, TypeVar, Union

from tests.support.cases import LeftOut, run_cases
from tests.support.checks import TOP, differ, equal, match_in, text_of
from tests.support.dovecot.settings import settings_here
from tests.support.homes import fresh_home, hand_over, install, mail_in, own_dovecot
from tests.support.printed import commands_in
from tests.support.running import OWNER, Desk

PAGE = text_of(TOP / "docs/FORMATS.md")
# the programs of its first table that were tried by hand
BY_HAND = ("public-inbox, `lei convert`", "Thunderbird", "Postfix", "OpenSMTPD, `mail.local`", "sendmail, `mail.local`")
# a program that never ends is left out; on a machine that has much to do, others end late
SECONDS = 120
PATH = f"{os.environ['PATH']}:/usr/sbin:/usr/lib/dovecot:/usr/bin/mh:/usr/libexec/opensmtpd"
BODY = b"hello\nFrom behind text.\n>From quoted once.\n>>From quoted twice.\n\nFrom behind a blank line.\nBye.\n"
# what is left of the body if a quoted line can't be told from one that began with `>`
LESS_ONE = BODY.replace(b"\n>From quoted once.", b"\nFrom quoted once.")
HEADER = (
    b"From: alva@example.org\nTo: boris@example.com\nSubject: one\nDate: Mon, 3 Mar 2025 09:12:44 +0000\n"
    b"Message-ID: <1@example.org>\n"
)
FIRST = HEADER + b"\n" + BODY
# as it arrives from a program that writes lengths
WITH_STATUS = HEADER + b"Status: O\n\n" + BODY.replace(b"\n>From", b"\n>>From").replace(b"\nFrom", b"\n>From")
WITH_LENGTH = HEADER + b"Content-Length: %d\n\n" % len(BODY) + BODY
# its last line has no line end: check that the file is complete
SECOND = HEADER.replace(b"one", b"two").replace(b"<1@", b"<2@") + b"\nno end"


Word = Union[str, Path]


class NotDone(Exception):
    """A program did not do what it was meant to do."""


class NotTried(NotDone):
    """A program could not be tried: a part of it is missing, it had no terminal, or it did not end in time."""


class Home:
    """A folder in which a program runs. It has the two messages, a Maildir of them, and what the page's recipes
    need."""

    def __init__(self, folder: Path) -> None:
        self.folder = folder
        for name in ("Maildir/cur", "Maildir/new", "Maildir/tmp", "mail"):
            (folder / name).mkdir(parents=True)
        install(folder)
        own_dovecot(folder)
        hand_over(folder)
        for number, message in enumerate((FIRST, SECOND), 1):
            self.write(f"{number}", message)
            self.write(f"Maildir/cur/{number}.host:2,S", message)

    def write(self, name: str, content: Union[str, bytes]) -> None:
        """Writes a file of the home that nobody else may read."""
        path = self.folder / name
        path.write_bytes(content.encode() if isinstance(content, str) else content)
        path.chmod(0o600)
        hand_over(path)

    def run(self, *words: Word, given: bytes = b"", **settings: str) -> bytes:
        """Runs a program for at most some seconds, and returns what it prints."""
        with tempfile.TemporaryFile() as feed:
            feed.write(given)
            feed.seek(0)
            return self.wait_for(words, settings, feed, subprocess.PIPE)

    def run_for_each(self, *words: Word, messages: Sequence[bytes] = (FIRST, SECOND), **settings: str) -> None:
        """Runs a program once for each message, which is its input."""
        for message in messages:
            self.run(*words, given=message, **settings)

    def run_on_a_terminal(self, *words: Word) -> bytes:
        """The same for a program that needs a terminal. Nothing is read from it."""
        try:
            leader, follower = pty.openpty()
        except OSError as reason:
            raise NotTried(f"there is no terminal: {reason}") from reason
        # ncurses 6.5 opens no terminal without a size
        fcntl.ioctl(leader, termios.TIOCSWINSZ, struct.pack("4H", 24, 80, 0, 0))
        try:
            return self.wait_for(words, {"TERM": "vt100"}, follower, follower, leader)
        finally:
            os.close(leader)
            os.close(follower)

    def wait_for(
        self,
        words: Sequence[Word],
        settings: Mapping[str, Word],
        feed: Union[int, IO[bytes]],
        out: int,
        leader: Optional[int] = None,
    ) -> bytes:
        """Runs a program to its end with these streams, and returns what it printed."""
        own = {"HOME": self.folder, "PATH": f"{self.folder}:{PATH}", "USER": OWNER, "LOGNAME": OWNER, **settings}
        desk = Desk(Path(self.folder), None, OWNER, **{name: str(value) for name, value in own.items()})
        try:
            child = desk.start(["/usr/bin/env", *words], out, subprocess.STDOUT, feed)
        except OSError as reason:
            raise NotDone(f"{words[0]} cannot be run: {reason}") from reason
        ends = time.monotonic() + SECONDS
        try:
            while leader is not None and child.poll() is None and time.monotonic() < ends:
                if select.select([leader], [], [], 0.05)[0]:
                    os.read(leader, 1 << 16)
            printed = child.communicate(timeout=max(0.1, ends - time.monotonic()))[0] or b""
        except subprocess.TimeoutExpired as late:
            raise NotTried(f"{words[0]} did not end") from late
        finally:
            if child.poll() is None:
                os.killpg(child.pid, signal.SIGKILL)
                child.wait()
        if child.returncode:
            raise NotDone(
                f"{words[0]} ended with {child.returncode}: {printed.decode(errors='replace').strip()[-200:]}"
            )
        return printed


# what a program does in its home
Work = Callable[[Home], None]
# programs by their names in a table, each with the command that is looked for, and what it does
Programs = Mapping[str, tuple[str, Work]]
# what a row of a table says
Told = TypeVar("Told")

# Each of these writes the file `box` in its home: the first message, and the second where the program takes messages.
# The name says by which program.
# pylint: disable=missing-function-docstring


def bsd_mailx(home: Home) -> None:
    home.write("rc", f"set record={home.folder}/box\nset sendmail=/bin/true\n")
    home.run("bsd-mailx", "-s", "one", "boris@example.com", given=BODY, MAILRC="rc")


def doveadm(home: Home) -> None:
    place = settings_here().options(f"{home.folder}/mail", "mbox")
    alone = settings_here().alone
    home.run("doveadm", *place, "mailbox", "create", *alone, "box")
    home.run_for_each("doveadm", *place, "save", *alone, "-m", "box")
    home.run("cp", "mail/box", "box")


def dovecot_lda(home: Home) -> None:
    place = settings_here().options(f"{home.folder}/mail", "mbox", f"{home.folder}/box")
    home.run_for_each("dovecot-lda", "-o", "log_path=/dev/stderr", *place)


def exim(home: Home) -> None:
    home.write(
        "conf",
        f"spool_directory = {home.folder}/spool\nlog_file_path = {home.folder}/%s.log\nexim_user = nobody\n"
        f"exim_group = {home.run('id', '-gn').decode()}never_users =\ntrusted_users = nobody\nkeep_environment =\n"
        "begin routers\nall:\n driver = accept\n transport = box\n"
        f"begin transports\nbox:\n driver = appendfile\n file = {home.folder}/box\n user = nobody\n",
    )
    home.run_for_each("exim4", "-C", home.folder / "conf", "-odf", "-f", "alva@example.org", "nobody@localhost")


def fdm(home: Home) -> None:
    home.write(
        "conf",
        f'set lock-file "{home.folder}/lock"\naccount "in" stdin\naction "box" mbox "{home.folder}/box"\n'
        'match all action "box"\n',
    )
    home.run_for_each("fdm", "-f", "conf", "-a", "in", "fetch")


def formail(home: Home, first: bytes = FIRST) -> None:
    home.write("box", home.run("formail", given=first) + home.run("formail", given=SECOND))


def formail_of_lengths(home: Home) -> None:
    formail(home, WITH_LENGTH)


def getmail(home: Home) -> None:
    home.run("touch", "box")
    for message in (FIRST, SECOND):
        try:
            home.run("getmail_mbox", home.folder / "box", given=message)
        except NotDone as reason:
            # its child delivers; if that ends before getmail 6.19 waits for it, getmail waits a minute in vain
            if "timed out" not in str(reason):
                raise


def git(home: Home, *form: str) -> None:
    home.run("git", "init", "-q", ".")
    commit = "git -c user.name=alva -c user.email=alva@example.org commit -q --allow-empty -F -"
    home.run(*commit.split(), given=b"one\n\n" + BODY)
    home.write("box", home.run("git", "format-patch", "--stdout", "--root", "--always", *form))


def git_mboxrd(home: Home) -> None:
    git(home, "--pretty=mboxrd")


def mail_box(home: Home) -> None:
    try:
        home.run("perl", "-MMail::Box::Manager", "-e1")
    except NotDone as reason:
        raise NotTried("Mail::Box is not here") from reason
    home.run(
        "perl",
        "-MMail::Box::Manager",
        "-MMail::Message",
        "-e",
        "my $manager = Mail::Box::Manager->new;"
        'my $box = $manager->open(folder => "=box", folderdir => ".", type => "mbox", access => "rw", create => 1);'
        'for my $name (1, 2) { open my $file, "<", $name; $box->addMessage(Mail::Message->read(join "", <$file>)) }'
        "$box->write; $manager->closeAllFolders",
    )


def mail_of_mailutils(home: Home, given: bytes = b"copy 1 box\ncopy 2 box\nx\n") -> None:
    maildir = f"maildir://{home.folder}/Maildir"
    home.run("mail.mailutils", "-n", "-N", "-f", maildir, given=given, MAILRC="/dev/null")


def maildrop(home: Home) -> None:
    home.write("filter", f'to "{home.folder}/box"\n')
    home.run_for_each("maildrop", "-f", "alva@example.org", home.folder / "filter")


def mairix(home: Home) -> None:
    home.write(
        "conf", f"base={home.folder}\nmaildir=Maildir\nmfolder=box\nmformat=mbox\ndatabase={home.folder}/index\n"
    )
    home.run("mairix", "-f", "conf", "-p")
    home.run("mairix", "-f", "conf", "f:alva")


def mexport(home: Home) -> None:
    home.write("box", home.run("mexport", "./1", "./2"))


def movemail(home: Home) -> None:
    home.run("movemail.mailutils", f"maildir://{home.folder}/Maildir", "box")


def mutt(home: Home, name: str = "mutt") -> None:
    settings = f"folder={home.folder}; set mbox_type=mbox; set confirmappend=no; set confirmcreate=no; set delete=no"
    keys = f"<tag-pattern>.<enter><tag-prefix><copy-message>{home.folder}/box<enter><exit>"
    work_in_mutt(home, name, f"{settings}; set wait_key=no; set sort=mailbox-order", keys)


def work_in_mutt(home: Home, name: str, settings: str, keys: str) -> None:
    words = "-n", "-F", "/dev/null", "-e", f"set {settings}", "-f", home.folder / "Maildir"
    home.run_on_a_terminal(name, *words, "-e", f"push {keys}")


def neomutt(home: Home) -> None:
    mutt(home, "neomutt")


def notmuch(home: Home) -> None:
    home.write("conf", f"[database]\npath={home.folder}/Maildir\n[user]\nprimary_email=alva@example.org\n")
    home.run("notmuch", "new", NOTMUCH_CONFIG="conf")
    home.write("box", home.run("notmuch", "show", "--format=mbox", "*", NOTMUCH_CONFIG="conf"))


def opensmtpd(home: Home) -> None:
    home.run_for_each("mail.mboxfile", home.folder / "box", SENDER="alva@example.org")


def packf(home: Home) -> None:
    home.write(".mh_profile", "Path: mh\n")
    home.run("mkdir", "-p", "mh/inbox")
    home.run("cp", "1", "2", "mh/inbox")
    home.run("packf", "+inbox", "all", "-mbox", "-file", "box")


def procmail(home: Home, first: bytes = FIRST) -> None:
    # by -m it leaves the user's own mailbox alone
    home.write("rc", f":0\n{home.folder}/box\n")
    home.run_for_each("procmail", "-m", "-f", "alva@example.org", "rc", messages=(first, SECOND))


def procmail_of_lengths(home: Home) -> None:
    procmail(home, WITH_LENGTH)


def python(home: Home) -> None:
    home.run(
        "python3",
        "-c",
        "import mailbox\nbox = mailbox.mbox('box')\n"
        "for name in '12':\n    box.add(open(name, 'rb').read())\nbox.flush()\n",
    )


def reformail(home: Home) -> None:
    home.write("box", home.run("reformail", "-f1", given=FIRST) + b"\n" + home.run("reformail", "-f1", given=SECOND))


def s_nail(home: Home) -> None:
    maildir, given = f"maildir://{home.folder}/Maildir", f"copy * {home.folder}/box\nx\n".encode()
    home.run("s-nail", "-n", "-R", "-S", "nosave", "-f", maildir, given=given, MAILRC="/dev/null")


def uw_imap(home: Home) -> None:
    home.run("mailutil", "create", "box")
    home.run_for_each("dmail", "+box")


WRITERS = {
    "bsd-mailx": ("bsd-mailx", bsd_mailx),
    "Dovecot, `doveadm save`": ("doveadm", doveadm),
    "Dovecot, `dovecot-lda`": ("dovecot-lda", dovecot_lda),
    "Exim": ("exim4", exim),
    "fdm": ("fdm", fdm),
    "getmail": ("getmail_mbox", getmail),
    "git, `format-patch`": ("git", git),
    "git, `--pretty=mboxrd`": ("git", git_mboxrd),
    "maildrop": ("maildrop", maildrop),
    "maildrop, `reformail`": ("reformail", reformail),
    "mailutils, `mail`": ("mail.mailutils", mail_of_mailutils),
    "mailutils, `movemail`": ("movemail.mailutils", movemail),
    "mairix": ("mairix", mairix),
    "mblaze, `mexport`": ("mexport", mexport),
    "mutt": ("mutt", mutt),
    "neomutt": ("neomutt", neomutt),
    "nmh, `packf`": ("packf", packf),
    "notmuch": ("notmuch", notmuch),
    "OpenSMTPD, `mail.mboxfile`": ("mail.mboxfile", opensmtpd),
    "Perl, `Mail::Box`": ("perl", mail_box),
    "procmail": ("procmail", procmail),
    "procmail, `formail`": ("formail", formail),
    "procmail, `formail`, of mail with a length": ("formail", formail_of_lengths),
    "procmail, of mail with a length": ("procmail", procmail_of_lengths),
    "Python": ("python3", python),
    "s-nail": ("s-nail", s_nail),
    "UW-IMAP, `dmail`": ("dmail", uw_imap),
}  # type: Programs


# pylint: enable=missing-function-docstring


def table_of(head: str) -> list[tuple[str, str]]:
    """The rows of the page's table with this head."""
    table = PAGE.split(head, 1)[1].split("\n\n", 1)[0]
    return re.findall(r"^\| (.+?) \| (.+?) \|$", table, re.MULTILINE)


def writers_of_the_page() -> dict[str, str]:
    """The kind of each program that writes, in the page's table, without those that were tried by hand."""
    kinds = {}
    for kind, programs in table_of("| Format | Programs |\n"):
        for program in programs.split("; "):
            kinds[re.sub(r" \d[\w.]*", "", program)] = kind
    for name in BY_HAND:
        del kinds[name]
    return kinds


def kind_of(mailbox: bytes) -> str:
    """What a program writes, to judge by the lines of the first message."""
    lines = mailbox.split(b"\n")
    quoted = b">From behind a blank line." in lines, b">From behind text." in lines, b">>From quoted once." in lines
    lengths = re.search(rb"(?mi)^content-length:", mailbox) is not None
    return {
        ((False, False, False), False): "not quoted",
        ((True, False, False), False): "a line `From ` is quoted only after a blank line",
        ((True, True, False), False): "mboxo",
        ((True, True, True), False): "mboxrd",
        ((False, False, False), True): "mboxcl2",
        ((True, True, True), True): "mboxcl",
    }.get((quoted, lengths), f"unknown: {quoted}, {lengths}")


# What the companion calls each kind, and what is left of the body.
KINDS = {
    "mboxrd": (["mboxrd or mboxo", "git's patches"], BODY),
    "mboxo": (["mboxrd or mboxo"], LESS_ONE),
    "mboxcl": (["mboxcl2"], BODY),
    "mboxcl2": (["mboxcl2", "mboxcl2 in part"], BODY),
    "a line `From ` is quoted only after a blank line": (["not quoted"], LESS_ONE),
    "not quoted": (["not quoted", "git's patches"], BODY),
}


def bodies_of(home: Home, kind: str) -> list[bytes]:
    """The bodies of the mail that comes out of a mailbox by the next command of the companion, or by the first of
    several, which takes lines without a date for mail."""
    told = home.run("sh", "-c", "mbox2maildir-admin kind box || true").decode()
    says = match_in(r"\Abox: (.*?)(?:, messages \d+(?: to \d+)?)?\n", told)[1]
    if says not in KINDS[kind][0]:
        raise NotDone(f"the companion says that it is {says}, not {' or '.join(KINDS[kind][0])}")
    # only a reader of the page knows that it is an mboxo, or that a program quotes though it writes lengths
    commands = [command for command in commands_in(told) if command.startswith("mbox2maildir")]
    command = f"mbox2maildir-admin migrate --as {kind} MAILDIR box" if kind in ("mboxo", "mboxcl") else commands[0]
    home.run("sh", "-c", command.replace("migrate ", "migrate --now ").replace("MAILDIR", "Converted"))
    home.run("mbox2maildir-admin", "dates", "--header", "Converted", "box")
    home.run("mbox2maildir-admin", "verify", "Converted", "box")
    return [path.read_bytes().partition(b"\n\n")[2] for path in mail_in(home.folder / "Converted")]


def wrong_lengths_taken(mailbox: bytes, home: Home) -> Iterator[int]:
    """What is added to the first length of an mboxcl2 mailbox, for the changes that the companion does not refuse."""
    for change in (-5, -2, 3, 100_000):
        head, length, rest = re.split(rb"(?i)(?<=\ncontent-length: )(\d+)", mailbox, maxsplit=1)
        home.write("wrong", head + b"%d" % (int(length) + change) + rest)
        home.run("sh", "-c", "! mbox2maildir-admin quote -o - wrong >regular 2>said")
        if (home.folder / "regular").stat().st_size:
            yield change


def mailbox_of(write: Work, home: Home) -> bytes:
    """The mailbox that a program writes."""
    write(home)
    box = home.folder / "box"
    mailbox = box.read_bytes() if box.exists() else b""
    if b"hello" not in mailbox:
        raise NotDone("it wrote no message")
    return mailbox


def faults_of(name: str, mailbox: bytes, kind: str, home: Home) -> list[str]:
    """What is wrong with a row of the page."""
    measured = kind_of(mailbox)
    if measured != kind:
        return [f"{name} writes {measured}, and the page says {kind}"]
    try:
        bodies = bodies_of(home, kind)
        # git puts the change after the body, and some programs an empty line
        is_there = any(body.startswith(KINDS[kind][1]) for body in bodies)
        faults = [] if is_there else [f"{name}: the body is not what it was:\n{differ(bodies, KINDS[kind][1])}"]
        if kind == "mboxcl2":
            faults.extend(
                f"{name}: a first length plus {change} is taken" for change in wrong_lengths_taken(mailbox, home)
            )
    except NotDone as reason:
        return [f"{name}: {reason}"]
    if b"Subject: two" in mailbox and b"no end" not in [body.rstrip(b"\n") for body in bodies]:
        faults.append(f"{name}: the body without an end is not what it was: {bodies}")
    return faults


# Each of these works on the Maildir `Maildir` of its home, which was converted: it reads it, moves and flags.
# pylint: disable=missing-function-docstring


def imap(home: Home, folder: str = "Maildir") -> str:
    """A command that serves a Maildir of the home to the program that calls it."""
    place = f"{home.folder}/{folder}"
    env = f"DOVECOT_PRESERVE_ENVS='USER HOME' USER={OWNER} MAIL=maildir:{place}"
    return f"{env} imap -o log_path=/dev/null {' '.join(settings_here().options(place))}"


def by_doveadm(home: Home) -> None:
    place = settings_here().options(f"{home.folder}/Maildir")
    alone = settings_here().alone
    home.run("doveadm", *place, "force-resync", *alone, "INBOX")
    home.run("doveadm", *place, "flags", "add", *alone, "\\Seen", "mailbox", "INBOX", "all")


def by_mutt(home: Home, name: str = "mutt") -> None:
    work_in_mutt(
        home, name, "delete=no; set wait_key=no", "<tag-pattern>.<enter><tag-prefix><set-flag>N<clear-flag>N<exit>"
    )


def by_neomutt(home: Home) -> None:
    by_mutt(home, "neomutt")


def by_s_nail(home: Home) -> None:
    home.run("s-nail", "-n", "-f", f"maildir://{home.folder}/Maildir", given=b"type *\nquit\n", MAILRC="/dev/null")


def by_notmuch(home: Home) -> None:
    home.write(
        "conf",
        f"[database]\npath={home.folder}/Maildir\n[user]\nprimary_email=alva@example.org\n"
        "[maildir]\nsynchronize_flags=true\n",
    )
    home.run("notmuch", "new", NOTMUCH_CONFIG="conf")
    home.run("notmuch", "tag", "-unread", "*", NOTMUCH_CONFIG="conf")


def by_python(home: Home) -> None:
    home.run(
        "python3",
        "-c",
        "import mailbox\nbox = mailbox.Maildir('Maildir', create=False)\n"
        "for key, message in box.items():\n"
        "    message.set_subdir('cur')\n    message.add_flag('S')\n    box[key] = message\n",
    )


def by_mbsync(home: Home, settings: str = "") -> None:
    home.write(
        "conf",
        f'IMAPStore far\nTunnel "{imap(home, "Far")}"\n\n'
        f"MaildirStore near\nPath {home.folder}/\nInbox {home.folder}/Maildir\n{settings}\n"
        "Channel both\nFar :far:\nNear :near:\nPattern INBOX\nCreate Both\nSync All\nSyncState *\n",
    )
    home.run("mkdir", "Far")
    home.run("mbsync", "-c", "conf", "both")


def by_mbsync_with_map(home: Home) -> None:
    by_mbsync(home, "AltMap yes\n")


def by_mail_of_mailutils(home: Home) -> None:
    mail_of_mailutils(home, b"headers\nprint 1\nexit\n")


def by_offlineimap(home: Home) -> None:
    home.run("mkdir", "Far", "Local")
    home.run("mv", "Maildir", "Local/INBOX")
    home.write(
        "conf",
        f"[general]\naccounts = one\nmetadata = {home.folder}/Meta\nui = quiet\n"
        "[Account one]\nlocalrepository = near\nremoterepository = far\n"
        f"[Repository near]\ntype = Maildir\nlocalfolders = {home.folder}/Local\n"
        f"[Repository far]\ntype = IMAP\npreauthtunnel = {imap(home, 'Far')}\n",
    )
    home.run("offlineimap", "-c", "conf")
    home.run("mv", "Local/INBOX", "Maildir")


READERS = {
    "Dovecot": ("doveadm", by_doveadm),
    "mutt": ("mutt", by_mutt),
    "neomutt": ("neomutt", by_neomutt),
    "s-nail": ("s-nail", by_s_nail),
    "notmuch": ("notmuch", by_notmuch),
    "Python": ("python3", by_python),
    "mbsync with `AltMap yes`": ("mbsync", by_mbsync_with_map),
    "mbsync": ("mbsync", by_mbsync),
    "mailutils, `mail`": ("mail.mailutils", by_mail_of_mailutils),
    "offlineimap3": ("offlineimap", by_offlineimap),
}  # type: Programs


# pylint: enable=missing-function-docstring


def readers_of_the_page() -> dict[str, bool]:
    """Whether each program keeps the beginnings of names, by the page's table."""
    keeps = {}
    for programs, does in table_of("| Program | What it does to names |\n"):
        for program in programs.split("; "):
            keeps[re.sub(r" \(.*?\)| \d[\w.]*", "", program)] = bool(re.match("keeps? the beginning$", does))
    return keeps


def work_of(name: str, work: Work, keeps: bool, home: Home) -> list[str]:
    """Has a program work on a converted Maildir, and returns what is wrong with its row."""
    home.run("rm", "-r", "Maildir")
    home.write(
        "box",
        b"".join(
            b"From alva@example.org Mon Mar  3 09:12:4%d 2025\n" % number + message.rstrip(b"\n") + b"\n\n"
            for number, message in enumerate((WITH_STATUS, SECOND))
        ),
    )
    home.run("mbox2maildir", "convert", "Maildir", "box")
    work(home)
    said = home.run("mbox2maildir-admin", "verify", "--json", "Maildir", "box").decode()
    counts = json.loads(said.splitlines()[0])["counts"]
    there, renamed = counts["there"], counts["renamed"]
    if there + renamed != 2 or counts["double"]:
        return [f"{name}: not all of the mail is found after it: {said}"]
    if (renamed == 0) != keeps:
        does = "keeps" if keeps else "changes"
        return [f"{name}: of 2 names it changed {renamed}, and the page says that it {does} them"]
    again = home.run("mbox2maildir", "convert", "Maildir", "box").decode()
    return [] if f"there {there}, placed {renamed}," in again else [f"{name}: {said}, and then {again}"]


def try_one(tool: str, task: Callable[[Home], list[str]]) -> None:
    """Does the task in a new home, and finds nothing wrong. It is left out if a program is not here, or could not be
    tried."""
    if not shutil.which(tool, path=PATH):
        raise LeftOut("it is not here")
    with fresh_home() as folder:
        try:
            faults = task(Home(folder))
        except NotTried as reason:
            raise LeftOut(str(reason)) from reason
    assert not faults, "\n".join(["", *faults])


def writes_as_told(name: str, write: Work, kind: str, home: Home) -> list[str]:
    """What a program writes is of the kind of its row."""
    return faults_of(name, mailbox_of(write, home), kind, home)


def cases_of(
    verb: str, programs: Programs, rows: Mapping[str, Told], task: Callable[[str, Work, Told, Home], list[str]]
) -> Iterator[tuple[str, Callable[[], None]]]:
    """A case for each program of a table, and one that the table has these programs and no others."""

    def same_names() -> None:
        equal("the page's table and the test", sorted(rows), sorted(programs))

    yield f"{verb}_those_of_the_table", same_names
    for name in sorted(programs.keys() & rows.keys()):
        tool, work = programs[name]
        case = partial(try_one, tool, partial(task, name, work, rows[name]))
        yield "_".join([verb, *re.findall(r"[\w.-]+", name)]), case


def main() -> None:
    kinds = writers_of_the_page()
    keeps = readers_of_the_page()
    # no test has Courier
    keeps.pop("Courier", None)
    run_cases(dict([*cases_of("writes", WRITERS, kinds, writes_as_told), *cases_of("works", READERS, keeps, work_of)]))


if __name__ == "__main__":
    main()
