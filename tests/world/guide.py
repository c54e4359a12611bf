"""Runs what README.md and the pages of docs for users show: each command, in the order of its page, on small files of
the formats that the pages speak of. README.md shows all that is printed.

A block is some indented lines, the first of which begins with `$ `, or with `# ` if it is for root. If a command ends
in `<<'END'`, it goes on to the line `END`. The lines below a command are what it prints; `...` stands for anything in a
line, and for any lines if it stands alone. Blocks whose tools are missing, or that need root, are left out, with a
line. What the pages say of a server is followed by `tests/world/machine.py`: Postfix's home_mailbox and
defer_transports, Exim's dc_localdelivery with maildir_home, Dovecot's separator, auth-deny.conf.ext, and a list of
users with result_success. `tests/companion/dovecot.py` tries Dovecot's mail_control_path, mail_index_path and
mailbox_list_layout. The rest was tried by hand: Postfix's mailbox_command, virtual_transport and transport_maps, Exim's
queue_only, with either dc_use_split_config, OpenSMTPD's local_mail, maildrop's settings, Dovecot's quotas, a public
namespace, mailbox_list_utf8, users who wait, and another glibc on Debian 11.11. Exim's maildir_format by itself was not
tried. These were Dovecot 2.3.19 and 2.4.1, Postfix 3.5.25 to 3.10.13, Debian's Exim 4.94 to 4.98, OpenSMTPD 6.8.0,
sendmail 8.17.1, maildrop 2.9.3, procmail 3.22 and courier-imap 5.2.11, but not each line with each version.
"""
import gzip
import io
import lzma
import os
import re
import shutil
from collections.abc import Sequence
from functools import partial
from itertools import takewhile
from pathlib import Path

from tests.support.cases import run_cases
from tests.support.checks import TOP, WORK, differ, equal, match_in, matches, text_of
from tests.support.homes import fresh_home, hand_over, install, is_root, make_maildir, meets_people, own_dovecot, script
from tests.support.mail import A, B, MAY, with_length
from tests.support.printed import rows_in
from tests.support.running import OWNER, Desk

README, BACK = "README.md", "docs/BACK.md"
PAGES = [README, *(f"docs/{name}.md" for name in ("OWN-MAIL", "SERVER", "FORMATS", "LEFT", "LEDGER")), BACK]
BLOCK = re.compile(r"^ {4}[$#] .*\n(?: {4}.*\n|\n(?= {4}))*", re.MULTILINE)
TOOLS = ["doveadm", "runuser", "strace"]
# the folder of the mailboxes that the page names, which is below the home here
SPOOL = "/var/mail"
# the public folders that the page names, which are below the home too, and mail that came into one
PUBLIC, SINCE = "srv/archive", b"Subject: since\n\nFrom here\n"
# when the mailboxes were written: one that changed within the last minute would be waited for
LONG_AGO = (1_700_000_000, 1_700_000_000)

ALVA, BORIS, FIRST_OF_MAY = A.decode(), B.decode(), MAY.decode()
MBOXO = f"{ALVA}\nhello\n>From the shed.\n>>From whom is it?\n\n{BORIS}\n\nyes\n\n"
WENT_BACK = "From MAILER-DAEMON ...\nSubject: since\n\n>From here\n\n"
CL2 = (with_length(A, MAY) + b"\n" + with_length(B, b"yes\n") + b"\n").decode()
CL = CL2.replace("\nFrom the", "\n>From the").replace(f": {len(FIRST_OF_MAY)}", f": {len(FIRST_OF_MAY) + 1}")
MAC = f"{ALVA}\nhello\n\n{BORIS}\nyes\n\n".replace("\n", "\r")
# the headers of two messages that were copied out of a Maildir, with what a program adds
OUT_OF = (
    "From alva@example.org Mon Mar  3 09:12:44 2025\nFrom: alva@example.org\nDate: Mon, 3 Mar 2025 09:12:44 +0000\n"
    "Subject: one\nStatus: RO\n",
    "From boris@example.com Mon Mar  3 11:40:02 2025\nFrom: boris@example.com\nDate: Mon, 3 Mar 2025 11:40:02 +0000\n"
    "Subject: two\nStatus: RO\n",
)
# as mutt 2.2.12 copied them; `no end` is the last line of the second, and had no end
MUTT = f"{OUT_OF[0]}Content-Length: 44\n\n{FIRST_OF_MAY}\n{OUT_OF[1]}Content-Length: 6\n\nno end\n"
# as s-nail 14.9.24 copied them, which wrote `From the shed.` without a `>`
SNAIL = (
    f"{OUT_OF[0]}\nhello\nFrom the first of May we are here.\n\n>From the shed.\n>>From whom is it?\nA.\n\n"
    f"{OUT_OF[1]}\nyes\n\n"
)
# what `format-patch --stdout` of git 2.39.5 prints for two empty commits
PATCHES = """\
From d876a811688d6b7212093ba5a8b1a171c4fcdedd Mon Sep 17 00:00:00 2001
From: alva <alva@example.org>
Date: Mon, 3 Mar 2025 09:12:44 +0000
Subject: [PATCH 1/2] one

hello
From the first of May we are here.
>From the shed.
A.
-- 
2.39.5


From cd435649d50843eb7f364da55c4a64b33845e45f Mon Sep 17 00:00:00 2001
From: alva <alva@example.org>
Date: Tue, 4 Mar 2025 07:03:19 +0100
Subject: [PATCH 2/2] two

yes
-- 
2.39.5

"""
# the second From_ line has no date
NO_DATE = f"{ALVA}\nhello\n\nFrom boris@example.com\nFrom: boris@example.com\nSubject: two\n\nyes\n\n"
# in Thunderbird 153's form; the lines that it adds before and after a message end in CR LF
THUNDERBIRD = (
    "From - Mon Mar 03 09:12:44 2025\r\nX-Mozilla-Status: 0001\nSubject: one\n\nhello\n\r\n"
    "From - Mon Mar 03 11:40:02 2025\r\nX-Mozilla-Status: 0009\nSubject: two\n\ngone\n\r\n"
)
THUNDERBIRDS = ".thunderbird/abcd1234.default-release"
# as Mailman's pipermail writes a month
OF_A_LIST = "".join(
    f"From {sender}  {date} 2025\nFrom: {sender}\nDate: {date[:3]}, {date[7:10]} Mar 2025 {date[11:]} +0000\n"
    f"Subject: [sheds] {subject}\n\n{body}\n"
    for sender, date, subject, body in (
        ("alva at example.org", "Mon Mar  3 09:12:44", "one", "hello\nFrom the first of May we are here.\n"),
        ("boris at example.com", "Mon Mar  3 11:40:02", "two", "yes\n"),
    )
)
TAKEOUT = (
    "From 1825461234567890123@xxx Mon Mar 03 09:12:44 +0000 2025\nX-GM-THRID: 1825461234567890123\n"
    "X-Gmail-Labels: Inbox,Garden\nSubject: one\n\nhello\n\n"
)
LABELLED = "".join(
    TAKEOUT.replace("Inbox,Garden", labels).replace("one", subject)
    for subject, labels in (("one", "Inbox,Opened"), ("two", "Garden"), ("three", "Garden,Sent"), ("four", "Spam"))
)
ZONES = "".join(
    f"From {rest}\nSubject: {number}\n\nhello\n\n"
    for number, rest in enumerate(
        [
            "alva@example.org Mon Mar  3 09:12:44 2025 +0000",
            "boris@example.com Mon Mar  3 09:12:44 2025 -0400",
            "upi at papat.org  Wed Feb  1 09:12:44 2006",
            "1825461234567890123@xxx Mon Mar 03 11:40:02 +0000 2025",
            "root Wed Feb  1 21:30 2006",
        ]
    )
)
# as Postfix delivers
NEW_MAIL = f"{MBOXO.replace('>>', '>')}{BORIS.replace('two', 'three')}\nno\n\n"
UNDATED = f"From alva@example.org\nDate: Mon, 3 Mar 2025 09:12:44 +0100\nSubject: one\n\nhello\n\n{BORIS}\nyes\n\n"


def big_mailbox() -> bytes:
    """100 messages of 1,000 bytes each."""
    heads = (f"From alva@example.org Mon Mar  3 09:12:44 2025\nSubject: {number:3}\n\n" for number in range(1, 101))
    return "".join(f"{head}{'a' * (998 - len(head))}\n\n" for head in heads).encode()


def gzipped(text: bytes, level: int) -> bytes:
    """A text as gzip packs it, without a time."""
    packed = io.BytesIO()
    with gzip.GzipFile(fileobj=packed, mode="wb", compresslevel=level, mtime=0) as file:
        file.write(text)
    return packed.getvalue()


def make_files(home: Path) -> None:
    """Writes the files that the pages speak of."""
    archive = (TOP / "examples/archive.mbox").read_bytes()
    inbox = (TOP / "examples/inbox.mbox").read_bytes()
    packed = gzipped(archive, 9)
    files = {
        # one or two of each format of the table of what `kind` says
        "old/Inbox": THUNDERBIRD.encode(),
        "old/Inbox.msf": b'// <!-- <mdb:mork:z v="1.4"/> -->\n',
        "old/Maildir/cur/1700000000.M1.host:2,S": b"Subject: one\n\nhello\n",
        "old/Maildir/new/1700000000.M2.host": b"Subject: two\n\nyes\n",
        "old/Maildir/tmp/1700000000.M3.host": b"",
        "old/archive.mbox": archive + b"\n",
        "old/1999.mbox.gz": packed,
        "old/1998.lzma": lzma.compress(archive, format=lzma.FORMAT_ALONE),
        "old/archive.zip": b"PK\x03\x04",
        "old/cl.mbox": CL.encode(),
        "old/cl2.mbox": CL2.encode(),
        "old/iso.mbox": b"From alva 2025-03-03T09:12:44Z\nSubject: one\n\nhello\n\n",
        "old/local.mbox": "From alva Mo 3. M\u00e4r 09:12:44 2025\nSubject: one\n\nhello\n\n".encode(),
        "old/groups.mbox": b"From 1234567890123456789\nSubject: one\n\nhello\n\n",
        "old/empty": b"",
        "old/folder/sheds": inbox,
        "old/cut-start": BORIS[1:].encode() + b"\n" + inbox,
        "old/one-mail": b"From: alva@example.org\nSubject: one\n\nhello\n",
        "old/spool": (with_length(A, B + b"\nyes\n") + b"\n" + B + b"\n"),
        "old/in-part": (with_length(A, b"From me\nSubject: x\n\nyes\n") + b"\n" + B + b"\n"),
        "old/inbox.mbx": b"*mbx*\r\n",
        "old/mail.mmdf": b"\1\1\1\1\n",
        "old/1.emlx": b"13\nSubject: one\n<?xml",
        "old/RMAIL": b"BABYL OPTIONS:\n",
        "old/u.1": b"2 M1e C6b08b5d0\n",
        "old/mail.pst": b"!BDN",
        "old/Inbox.dbx": bytes.fromhex("cfad12fec5fd746f"),
        "old/mail.msg": bytes.fromhex("d0cf11e0a1b11ae1"),
        "old/mail.asc": b"-----BEGIN PGP MESSAGE-----\n",
        "old/utf-16": inbox.decode().encode("utf-16"),
        "old/utf-32": inbox.decode().encode("utf-32"),
        "old/mac.mbox": MAC.encode(),
        "old/mboxo.mbox": MBOXO.encode(),
        "old/mutt.mbox": MUTT.encode(),
        "old/no-date.mbox": NO_DATE.encode(),
        "old/notes.txt": b"notes\n",
        "old/patches.mbox": PATCHES.encode(),
        "old/snail.mbox": SNAIL.encode(),
        "takeout/all.mbox": LABELLED.encode(),
        "old/takeout.mbox": TAKEOUT.replace("\n", "\r\n").encode(),
        "old/with-a-mark": b"\xef\xbb\xbf" + archive,
        "old/with-blank-lines": b"\n\n" + archive,
        "old/wrong-length": CL2.replace(f": {len(FIRST_OF_MAY)}", f": {len(FIRST_OF_MAY) + 3}").encode(),
        # what else it speaks of
        "mail/sent": MUTT.encode(),
        f"{THUNDERBIRDS}/Mail/Local Folders/Inbox": THUNDERBIRD.encode(),
        f"{THUNDERBIRDS}/ImapMail/imap.example.org/Sent": THUNDERBIRD.encode(),
        f"{THUNDERBIRDS}/prefs.js": b'user_pref("app.update.enabled", true);\n',
        "lists/2004-January.txt.gz": gzipped(OF_A_LIST.encode(), 9),
        f"{PUBLIC}/2004": BORIS.encode() + b"\nyes\n\n",
        "2004.mbox.gz": packed,
        "cut.mbox.gz": gzipped(big_mailbox(), 0)[:74_500],
        "kmail/Inbox": inbox,
        "kmail/Inbox.msf": b'// <!-- <mdb:mork:z v="1.4"/> -->\n',
        "kmail/Inbox.sbd/Garden": MBOXO.encode(),
        "kmail/Inbox.sbd/Garden.sbd/R&D": archive + b"\n",
        "kmail/Entwürfe.mbox": MBOXO.encode(),
        "kmail/2005.archive.mbox": archive + b"\n",
        "kmail/caf\udce9": inbox,
        "kmail/lists/sheds": inbox,
        "zones.mbox": ZONES.encode(),
        "undated.mbox": UNDATED.encode(),
        "wrong.mbox": CL2.encode(),
        "Garbled/cur/caf\udce9": b"",
        "Latin-1/Entw\udcfcrfe.mbox": archive,
        "Latin-1/caf\udce9.mbox": MBOXO.encode(),
    }
    for name, content in files.items():
        path = home / name
        path.parent.mkdir(parents=True, exist_ok=True)
        path.write_bytes(content)
        os.utime(path, LONG_AGO)
    (home / "homes" / OWNER).mkdir(parents=True)
    make_maildir(home / "Maildir")
    shutil.copytree(TOP / "examples", home / "examples")
    # those of a clone may be a moment old
    for path in (home / "examples").iterdir():
        os.utime(path, LONG_AGO)


def make_spool(home: Path) -> None:
    """The folder of mailboxes, with one that belongs to the owner of the mail, and nothing that was made of it
    before."""
    spool = home / SPOOL.lstrip("/")
    for old in spool.parent.glob(f"{spool.name}*"):
        shutil.rmtree(old)
    spool.mkdir(parents=True)
    (spool / OWNER).write_text(NEW_MAIL)
    os.utime(spool / OWNER, LONG_AGO)


def pattern_of(lines: Sequence[str]) -> re.Pattern[str]:
    """The pattern that the output must match, by the lines of the page."""
    parts = []
    for line in lines:
        if line == "...":
            parts.append(r"(?:[^\n]*\n)*")
        else:
            # a migration says how many seconds it took
            line = re.sub(WORK, lambda work: work[0].rpartition(" in ")[0] + " in ... s", line)
            parts.append(re.escape(line).replace(re.escape("..."), r"[^\n]*") + r"\n")
    return re.compile("".join(parts))


def steps_of(lines: Sequence[str]) -> list[tuple[bool, str, list[str]]]:
    """The commands of a block: whether root runs each, the command, and the lines that it must print."""
    steps = []  # type: list[tuple[bool, str, list[str]]]
    rest = iter(lines)
    for line in rest:
        if line.startswith(("$ ", "# ")):
            command = [line[2:]]
            if line.endswith("<<'END'"):
                command += [*takewhile("END".__ne__, rest), "END"]
            steps.append((line[0] == "#", "\n".join(command), []))
        else:
            steps[-1][2].append(line)
    return steps


class Guide:
    """The page's commands, run in a home folder of their own."""

    def __init__(self, home: Path) -> None:
        self.home = home
        install(home / "bin")
        own_dovecot(home / "bin")
        # the owner has another home here than the system says
        script(home / "bin/getent", f'echo "$2:x:::: {home}/homes/$2:" | tr -d " "')
        self.done = self.wrong = self.left_out = 0
        hand_over(home)

    def run(self, command: str, as_root: bool = False) -> str:
        """Runs a command as the owner of the home folder, and returns what it prints."""
        # behind `runuser` the companion prints what root types
        desk = Desk(self.home, None, "" if as_root else OWNER, HOME=str(self.home), USER=OWNER)
        return desk.run(["/bin/bash", "-c", f"exec 2>&1\n{command}"]).out

    def session(self, lines: Sequence[str]) -> None:
        """Runs the commands of a block, and compares what each prints with the lines below it."""
        for as_root, command, wanted in steps_of(lines):
            if meets_people([command]):
                self.leave_out(command, "would be about people who have accounts here")
                continue
            printed = self.run(command, as_root)
            if not pattern_of(wanted).fullmatch(printed):
                self.wrong += 1
                print(f"guide: {command}:", differ(printed, "\n".join([*wanted, ""])), sep="\n")
            else:
                self.done += 1

    def block(self, text: str) -> None:
        """Runs a block of the page, unless something that it needs is missing."""
        missing = [tool for tool in TOOLS if re.search(rf"\b{tool}\b", text) and not shutil.which(tool)]
        if missing:
            self.leave_out(text, f"no {missing[0]} here")
        elif not is_root() and "runuser" in text:
            self.leave_out(text, "wants root")
        else:
            if f"{SPOOL}/*" in text:
                make_spool(self.home)
                hand_over(self.home)
            text = re.sub(r"\bmia\b|(?<= -[ou] )archive\b", OWNER, text).replace(SPOOL, f"{self.home}{SPOOL}")
            text = text.replace(f"/{PUBLIC}", f"{self.home}/{PUBLIC}")
            self.session([line[4:] for line in text.splitlines()])

    def leave_out(self, text: str, reason: str) -> None:
        """Says that a block is left out."""
        print(f"guide: left out, {reason}: {text.splitlines()[0].strip()}")
        self.left_out += 1

    def kinds(self, page: str) -> None:
        """Compares the page's table of kinds, if it has one, with what is printed for the files of `old`. Each kind has
        its row, each row its file, and the next command is that of the row."""
        table = re.search(r"^\| `kind` says \|.*\n\|---.*\n((?:\|.*\n)*)", page, re.MULTILINE)
        if not table:
            return
        rows = dict(re.findall(r"^\| (.+?) \| (.+?) \|$", table[1], re.MULTILINE))
        printed = rows_in(self.run("mbox2maildir-admin kind old/* 2>/dev/null"))
        told = {phrase: does for says, does in rows.items() for phrase in re.split(r"[;,] ", says)}
        named = set()  # type: set[str]
        for row in printed:
            kind = match_in(r"\Aold/[^:]*: (.*?)(?:, messages \d+(?: to \d+)?)?(?:: line .*)?\Z", row.line)[1]
            phrases = {phrase for phrase in told if re.search(rf"\b{re.escape(phrase)}(?!\w)", kind)}
            named |= phrases
            does = " ".join(told[phrase] for phrase in phrases)
            is_migrated = any(command.startswith("mbox2maildir-admin migrate") for command in row.commands)
            if not phrases or is_migrated and "`migrate`" not in does:
                self.wrong += 1
                print(f"guide: the table of kinds has not: {row.line}")
        for phrase in sorted(told.keys() - named):
            self.wrong += 1
            print(f"guide: the table of kinds has {phrase}, which is printed of no file")


def follow(page: str) -> None:
    """Runs what a page shows in a fresh home folder. Everything must go as it says."""
    with fresh_home() as home:
        make_files(home)
        make_spool(home)
        guide = Guide(home)
        text = text_of(TOP / page)
        guide.kinds(text)
        if page == README:
            equal("what its examples leave out", [block[0] for block in BLOCK.finditer(text) if "..." in block[0]], [])
        if page == BACK:
            deliver_since(guide)
        for block in BLOCK.finditer(text):
            guide.block(block[0])
        if page == BACK and not guide.left_out:
            went_back(guide)
    print(f"guide: {page}: {guide.done} commands print what it shows, {guide.left_out} blocks are left out")
    assert guide.done and not guide.wrong, f"{page}: {guide.wrong} commands print something else"


def deliver_since(guide: Guide) -> None:
    """Moves the mailboxes aside that the page of the way back names, migrates them, and delivers mail since."""
    home, inbox = guide.home, guide.home / SPOOL.lstrip("/") / OWNER
    (home / "mail").rename(home / "mail.old")
    inbox = inbox.rename(f"{inbox}.old")
    for words in (f"~/Maildir {inbox} ~/mail.old", f"{PUBLIC}.new {PUBLIC}"):
        matches(words, guide.run(f"mbox2maildir-admin migrate {words}").splitlines()[-1], "...: ... done; ...")
    for folder in ("Maildir", "Maildir/.garden", f"{PUBLIC}.new/.2004"):
        make_maildir(home / folder)
        (home / folder / "new/1700000000.M1.host").write_bytes(SINCE)
    next(path for path in (home / "Maildir/.sent/cur").iterdir() if b"no end" in path.read_bytes()).unlink()
    old = home / f"{SPOOL.lstrip('/')}.old"
    old.mkdir(0o711)
    (old / "alva").touch()
    hand_over(home / "Maildir", home / f"{PUBLIC}.new")


def went_back(guide: Guide) -> None:
    """What the mailboxes have after the way back."""
    for name, before in ((f"{PUBLIC}/2004", f"{BORIS}\nyes\n\n"), (f"var/mail/{OWNER}", NEW_MAIL), ("mail/garden", "")):
        matches(f"{name} after the way back", (guide.home / name).read_text(), before + WENT_BACK)


if __name__ == "__main__":
    run_cases({Path(page).stem: partial(follow, page) for page in PAGES})
