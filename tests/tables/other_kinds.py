"""Files that are not mbox text: what `kind` says of each kind in the table, and that its commands work."""
import bz2
import gzip
import lzma
import os
import re
import shutil
import tarfile
from pathlib import Path

from tests.tables.kinds import ALONE, FROM_LINE, LIKE_MAIL, NOT_KNOWN, labelled
from tests.tables.nexts import LIST, tar_of, zip_of
from tests.support.checks import equal, matches
from tests.support.homes import by_json, check_all, expect, mailbox, run, run_printed
from tests.support.mail import A, B
from tests.support.printed import rows_in

MBOX = A + b"\nhello\n\n"
LEAVE_OUT = "leave it as it is"
MIGRATE = "mbox2maildir-admin migrate MAILDIR {}"
# in place of a command: what it makes of a file takes the file's name, and the file goes into a new folder
MAKES = 'd=$(mktemp -d {}.XXXXXX) && %s && mv -nT {} "$d/original" && mv -nT "$d/copy" {}'
GPG = MAKES % 'gpg -d {} >"$d/copy"'
TAR = MAKES % 'mkdir "$d/copy" && tar -xC "$d/copy" <{}'
CPIO = MAKES % 'mkdir "$d/copy" && cpio -id --no-absolute-filenames -D "$d/copy" <{}'
RAR = MAKES % 'unar -D -o "$d/copy" {}'
MMDF = (
    r"""LC_ALL=C awk '/^\001\001\001\001$/ {i = !i; if (!i) print ""; n = i; next} """
    r"""n {n = 0; if (/^From /) {print; next}; """
    r'''print "From MAILER-DAEMON Thu Jan  1 00:00:00 1970"} {sub(/^>*From /, ">&"); print}' {} >"$d/copy"'''
)
EMLX = f"({FROM_LINE} && tail -n +2 {{}} | head -c $(head -n 1 {{}}) | sed 's/^>*From />&/' && echo) >\"$d/copy\""
MAILUTIL = 'HOME=/ mailutil copy "$(realpath --relative-to=/ {})" "#driver.unix/$(realpath --relative-to=/ "$d/copy")"'
BABYL = (
    'cp {} "$d/copy".old && emacs --batch -l unrmail -f batch-unrmail "$d/copy".old && mv "$d/copy".old.mail "$d/copy"'
)
MAIL = b"Subject: one\nFrom: a@b\n\nhello\nFrom here on\n>From there\n"


def archive(form: int) -> bytes:
    """An archive of tar whose first bytes are those of a From_ line."""
    return tar_of({"From a": MBOX}, form)


def old_archive() -> bytes:
    """The same, without the magic that came after Unix v7."""
    head = bytearray(archive(tarfile.USTAR_FORMAT)[:512])
    head[257:512] = bytes(255)
    head[148:156] = b" " * 8
    head[148:156] = b"%06o\0 " % sum(head)
    return bytes(head) + MBOX


def block_of_tar(name: bytes, more: int = 0) -> bytes:
    """A block of tar with this name, whose checksum is wrong by this much."""
    block = bytearray(name.ljust(512, b"\0"))
    block[148:156] = b" " * 8
    block[148:156] = b"%06o\0 " % (sum(block) + more)
    return bytes(block)


def beginning(digits: str, length: int = 100) -> bytes:
    """A file of this many bytes that begins with these."""
    return bytes.fromhex(digits).ljust(length, b"\0")


OF_GZIP = "compressed by gzip: its content is left"
BZIPPED = LIKE_MAIL.replace("file {}", "bzip2 -dc <{} | file -")
# a record of Dovecot's log of mailboxes
RECORD = bytes.fromhex("040000002958081344f4a921d25dc8b2a1ca81ed6b08b5cf")
# What a file holds, its kind, and the next command: whole files as Python's modules make them, otherwise the first
# bytes that the named program wrote, or that the format's specification has
KINDS = [
    (gzip.compress(MBOX), "mboxrd or mboxo, compressed by gzip, messages 1", MIGRATE),
    (bz2.compress(MBOX), "mboxrd or mboxo, compressed by bzip2, messages 1", MIGRATE),
    (bz2.compress(b""), "empty, compressed by bzip2, messages 0", MIGRATE),
    (lzma.compress(MBOX), "mboxrd or mboxo, compressed by xz, messages 1", MIGRATE),
    (
        gzip.compress(b"hello\n"),
        f"not known, {OF_GZIP}: not known",
        NOT_KNOWN.replace("file {}", "gzip -dc <{} | file -"),
    ),
    (bz2.compress(b"Subject: x\n"), f"not known, {OF_GZIP}: not known".replace("gzip", "bzip2"), BZIPPED),
    (gzip.compress(b"!BDN"), f"Outlook's pst, {OF_GZIP}: Outlook's pst", MAKES % 'gzip -dc <{} >"$d/copy"'),
    (gzip.compress(b"%PDF-1.4"), "compressed by gzip: no mail: PDF", ""),
    (
        lzma.compress(MBOX, lzma.FORMAT_ALONE),
        "compressed by lzma",
        MAKES % 'xz -dc <{} >"$d/copy"' + " # package xz-utils",
    ),
    (zip_of({"mbox": MBOX}), "an archive of zip", MAKES % 'unzip {} -d "$d/copy"'),
    (archive(tarfile.USTAR_FORMAT), "an archive of tar", TAR),
    (archive(tarfile.GNU_FORMAT), "an archive of tar", TAR),
    (archive(tarfile.PAX_FORMAT), "an archive of tar", TAR),
    (old_archive(), "an archive of tar", TAR),
    # lz4 1.9.4 by `-l`, lzip 1.23, lzop 1.04, 7zip, cpio 2.13; and what compress and rar write
    (beginning("02214c1847000000"), "compressed by lz4, in its old format", MAKES % 'lz4 -dc <{} >"$d/copy"'),
    (beginning("4c5a4950010c00231c89e6f6dff8187a"), "compressed by lzip", MAKES % 'lzip -dc <{} >"$d/copy"'),
    (beginning("894c5a4f000d0a1a0a104020a0094001"), "compressed by lzop", MAKES % 'lzop -dc <{} >"$d/copy"'),
    (
        beginning("377abcaf271c0004c4d2674e52000000"),
        "an archive of 7z",
        MAKES % '7z x -o"$d/copy" {}' + " # package p7zip-full",
    ),
    (beginning("c77100fe4fc1a4810000000001000000"), "an archive of cpio", CPIO),
    (b"0707010002B5F4000081A4", "an archive of cpio", CPIO),
    (b"\x1f\x9d\x90\x46", "compressed by compress or pack", MAKES % 'gzip -dc <{} >"$d/copy"'),
    (b"Rar!\x1a\x07\x00", "an archive of rar", RAR),
    (b"Rar!\x1a\x07\x01\x00", "an archive of rar", RAR),
    # gpg 2.2.40: -c, -e for keys of RSA of 2048 and 4096 bits and of Curve25519, -s; and armoured
    (beginning("8c0d040903023fc4ac9dd55eb5daffd2"), "encrypted or signed by OpenPGP", GPG),
    (beginning("85010c03ae2a2444dcc99ed50107ff57"), "encrypted or signed by OpenPGP", GPG),
    (beginning("85020c03579651039e9faa2b01100083"), "encrypted or signed by OpenPGP", GPG),
    (beginning("845e0381 90b2d45a7505e612 0107"), "encrypted or signed by OpenPGP", GPG),
    (beginning("a3019bc0cbccc0c5b84e4bc5e5cec979"), "encrypted or signed by OpenPGP", GPG),
    (b"-----BEGIN PGP MESSAGE-----\n\njA0ECQMC\n", "encrypted or signed by OpenPGP", GPG),
    (MBOX.decode().encode("utf-16"), "mboxrd or mboxo, a text in UTF-16, messages 1", MIGRATE),
    (MBOX.decode().encode("utf-32"), "mboxrd or mboxo, a text in UTF-32, messages 1", MIGRATE),
    # mailutil 2007f, Emacs's Rmail, doveadm 2.3.19; [MS-PST], libdbx, [MS-CFB]
    (b"*mbx*\r\n6b08b69800000000\r\n\r\n", "UW-IMAP's mbx", MAKES % MAILUTIL + " # package uw-mailutils"),
    (b"BABYL OPTIONS: -*- rmail -*-\nVersion: 5\n", "Emacs's Babyl", MAKES % BABYL),
    (
        b"2 M1e C6b08b5d0\n\1\2N           000000000000000F\nSubject: x\n",
        "Dovecot's dbox",
        "copy the account by `doveadm backup`, or over IMAP, because this is one file of several",
    ),
    (
        b"!BDN\x12\x34\x56\x78SM\x17\x00",
        "Outlook's pst",
        MAKES % 'mkdir "$d/copy" && readpst -r -o "$d/copy" {}' + " # package pst-utils",
    ),
    (
        beginning("cfad12fec5fd746f66e3d1119a4e00c0"),
        "Outlook Express's dbx",
        MAKES % 'mkdir "$d/copy" && undbx {} "$d/copy"',
    ),
    (
        beginning("d0cf11e0a1b11ae10000000000000000"),
        "OLE2, as Outlook's msg",
        MAKES % 'msgconvert --mbox "$d/copy" {}' + " # package libemail-outlook-message-perl",
    ),
    (b"\1\1\1\1\n" + MBOX + b"\1\1\1\1\n", "MMDF", MAKES % MMDF),
    (b"%d        \n%s%s" % (len(MAIL), MAIL, LIST), "Apple Mail's emlx, of one message", MAKES % EMLX),
    (b"%d\n%s%s" % (len(MAIL), MAIL, LIST), "Apple Mail's emlx, of one message", MAKES % EMLX),
    # without the list it is not one
    (b"%d\n%s" % (len(MAIL), MAIL), "damaged", MAKES % f'({FROM_LINE} && cat {{}}) >"$d/copy"'),
    (b"\0\0\0\1Bud1\0\0\x10\0", "no mail: Apple's index", LEAVE_OUT),
    # no mail: pictures by GIMP and others, whose first bytes are those of their formats
    (b'// <!-- <mdb:mork:z v="1.4"/> -->\n', "no mail: Thunderbird's index (.msf)", LEAVE_OUT),
    (b"SQLite format 3\0\x10\0\1\1\0\x40\x20\x20", "no mail: SQLite", LEAVE_OUT),
    (b"%PDF-1.7\n", "no mail: PDF", LEAVE_OUT),
    (beginning("89504e470d0a1a0a0000000d49484452"), "no mail: an image", LEAVE_OUT),
    (beginning("ffd8ffe000104a464946000101000001"), "no mail: an image", LEAVE_OUT),
    (beginning("47494638396130003c00e700000a0a0c"), "no mail: an image", LEAVE_OUT),
    (beginning("49492a0008000000"), "no mail: an image", LEAVE_OUT),
    (beginning("4d4d002a00000008"), "no mail: an image", LEAVE_OUT),
    (beginning("424dbe010000000000003e00000028000000"), "no mail: an image", LEAVE_OUT),
    (b"RIFF\x24\0\0\0WEBPVP8 ", "no mail: an image", LEAVE_OUT),
    (beginning("000001000100101010000000000028010000"), "no mail: an image", LEAVE_OUT),
    # Dovecot 2.3.19: dovecot.index, .log, .cache, dovecot.mailbox.log
    (beginning("07037800c80000001800000001000000cfb5086b"), "no mail: Dovecot's index", LEAVE_OUT),
    (
        beginning("01032800cfb5086b020000000000000000000000cfb5086b01000000000000000100000000000000"),
        "no mail: Dovecot's index",
        LEAVE_OUT,
    ),
    (
        beginning("01080100cfb5086bcfb5086b010000003d00000084010000000000008080808800000000"),
        "no mail: Dovecot's index",
        LEAVE_OUT,
    ),
    (RECORD * 2, "no mail: Dovecot's log of mailboxes", LEAVE_OUT),
    (b"V\t2\n\nlists\tsheds\nSent\n", "no mail: subscriptions", LEAVE_OUT),
    (b"# KMail-Index V1506\n\t", "no mail: KMail's index", LEAVE_OUT),
    (
        b'version="9"\nlogging="no"\nname="sheds"\nenabled="yes"\ncondition="AND (subject,contains,shed)"\n',
        "no mail: Thunderbird's rules",
        LEAVE_OUT,
    ),
    (
        b"# POP3 State File\n# This is a generated file!  Do not edit.\n\n*pop.example.org mia\n",
        "no mail: Thunderbird's popstate",
        LEAVE_OUT,
    ),
    (
        b'<head>\n<meta charset="UTF-8">\n<style type="text/css">body{font-family:Consolas,"Lucida Console"}</style>\n',
        "no mail: Thunderbird's log of rules",
        LEAVE_OUT,
    ),
    # almost one of these, and so of an unknown kind
    (b"GIF89a is how a picture begins\n", "not known", NOT_KNOWN),
    (b"BM, as bitmaps begin\n", "not known", NOT_KNOWN),
    (b"BZh9 is how bzip2 begins\n", "not known", NOT_KNOWN),
    (b"PK is a company\n", "not known", NOT_KNOWN),
    (b"%PDF is a format\nof files\n", "not known", NOT_KNOWN),
    (b"lists/sheds\nSent\n", "not known", NOT_KNOWN),
    (b"6b08b5d0", "not known", NOT_KNOWN),
    (b"V\t2\n\nlists\n\nFrom a\n", "not known", LIKE_MAIL),
    (b'version="9"\nlogging="no"\nand then a text\n', "not known", NOT_KNOWN),
    (RECORD + b"more", "not known", NOT_KNOWN),
    (b"-----BEGIN PGP PUBLIC KEY BLOCK-----\n\nmQEN\n", "not known", NOT_KNOWN),
    (old_archive()[6:300], "not known", NOT_KNOWN),
    (block_of_tar(b"From a Mon Mar  3 09:12:44 2025\nSubject: x\n"), "an archive of tar", TAR),
    (block_of_tar(b"a", 1), "not known", NOT_KNOWN),
    (block_of_tar(b"a")[:511], "not known", NOT_KNOWN),
    (b"11\nSubject: a\n<?xml", "Apple Mail's emlx, of one message", MAKES % EMLX),
    (b"11   \nSubject: a\n<!DOCTYPE plist", "Apple Mail's emlx, of one message", MAKES % EMLX),
    (b"11\nSubject: a\nmore<?xml", "not known", LIKE_MAIL),
    (b"10\nSubject: a\n<?xml", "Apple Mail's emlx, of one message", MAKES % EMLX),
    (b"11\nSubject: a\n", "not known", LIKE_MAIL),
    (b"5\nhello<?xml", "not known", NOT_KNOWN),
    (b"999999999999999999\nSubject: a\n<?xml", "not known", LIKE_MAIL),
    (b"\x0c" + RECORD[1:], "no mail: Dovecot's log of mailboxes", LEAVE_OUT),
    (b"\x0d" + RECORD[1:], "not known", NOT_KNOWN),
    (RECORD + b"To a".ljust(24), "not known", NOT_KNOWN),
    (b"V\t2\n\n", "no mail: subscriptions", LEAVE_OUT),
    (b"V\t2\n\na\0\n", "not known", NOT_KNOWN),
    (b'version="9"\nlogging="yes"\nname="a"b"\r\n', "no mail: Thunderbird's rules", LEAVE_OUT),
    (b'version="9"\nlogging="yes"\nname="a"', "not known", NOT_KNOWN),
]
# A file that is known by its name, and what is printed of it
NAMED = [
    (".subscriptions", b"lists/sheds\nSent Items\n", "no mail: subscriptions"),
    (".mailboxlist", b"mail/sheds\n", "no mail: subscriptions"),
    (".subscriptions", b"lists/sheds\nSent", "not known"),
    (".subscriptions", b"Subject: one\n", "not known"),
    (".subscriptions", b"lists\nFrom: a\n", "not known"),
    (".subscriptions", b"lists\n>From a\n", "not known"),
    (".subscriptions", b"lists\n\nsheds\n", "not known"),
    (".subscriptions", b"lists\nFrom a\n", "not known"),
    (".subscriptions", b"lists\n" * 200_000, "not known"),
    (".subscriptions", b"a\tb\n", "not known"),
    (".subscriptions", b"a\0\n", "not known"),
    (".subscriptions", b"a" * 255 + b"\n", "no mail: subscriptions"),
    (".subscriptions", b"a" * 256 + b"\n", "not known"),
    ("subscriptions", b"lists\n", "not known"),
    ("uidvalidity", b"6b08b5d0", "not known"),
    ("dovecot-uidvalidity", b"6b08b5d0", "no mail: Dovecot's UIDVALIDITY"),
    ("dovecot-uidvalidity", b"6b08b5d0\n", "not known"),
    ("report.dat", MBOX, "mboxrd or mboxo, messages 1"),
    (".imap", MBOX, "mboxrd or mboxo, messages 1"),
    ("a.msf", MBOX, "mboxrd or mboxo, messages 1"),
    ("a.lock", MBOX, "mboxrd or mboxo, messages 1"),
]
# files that mail programs write beside mailboxes: Apple's, Evolution's, Eudora's, Thunderbird's and a Takeout's
INDEXES = (
    *("table_of_contents", ".DS_Store", "Info.plist", "mbox.plist"),
    *("sheds.cmeta", "sheds.ev-summary", "sheds.ibex.index", "sheds.ibex.index.data", "folders.db", "folder-tree.xml"),
    *("In.toc", "OUT.TOC", "In.toc.001", "descmap.pce", "Filters.pce", "eudora.ini", "lmos.dat"),
    *("Inbox.msf", "panacea.dat", "virtualFolders.dat", "msgFilterRules.dat", "profiles.ini", "feeditems.json"),
    *("archive_browser.html", "Filters.json", "Blocked Addresses.json", "Vacation responder.json"),
)
# what is in such a file, and why it is left, if it is; None if it holds no mail
IN_INDEXES = (
    (MBOX, "done", None),
    (b"\0\0\1\7Sheds\n\2 From a@b\0Subject: x\n", "no mail", None),
    (b"", "no mail", None),
    (b"\0\0\1\7Sheds\nsubject: x\n\2", "left", "not-known"),
    (b"\0\0\1\7Sheds\n>From a\n\2", "left", "not-known"),
    (b"\0\0\1\7Sheds\n" + MBOX, "left", "unclear"),
)
# names with what little is in such files, and whether they hold no mail: empty files, and locks of one line
AUXILIARY = [
    (".x", b"", True),
    ("a.lock", b"", True),
    ("a.msf", b"", True),
    ("dovecot-uidvalidity.6b08b5d0", b"", True),
    ("a.lock", b"1234\n", True),
    ("a.lock", b"1234", True),
    ("a.lock", b"1234\r\n", True),
    (".a.lock", b"1234\n", True),
    ("a.lock", b"x" * 256, True),
    ("a.lock", b"\n", True),
    ("a.lock", b"1234:host", True),
    ("a.lock", b"x" * 257, False),
    ("a.lock", b"host:1234\n", False),
    ("a.lock", b"a\nb\n", False),
    ("a.lock", b"Rar!\x1a\x07\x01\x00", False),
    ("a.lock", b"a\n\n", False),
    ("a.lock", b"From a\n", False),
    ("a.lock", b">From a\n", False),
    ("a.lock", b"Subject: x\n", False),
    ("a.lock", b"a\rFrom b\n", False),
    ("a.dat", b"", False),
    ("a", b"", False),
    ("msf", b"", False),
    ("dovecot-uidvalidity.old", b"", False),
    (".x", b"1", False),
    ("a.dat", b"1234\n", False),
    (".subscriptions", b"1234", False),
]
# how many lines stand below those that have more than one
BELOW = {"not known": 4, "mboxrd or mboxo, messages 1": 2}
NO_SENDER = b"From MAILER-DAEMON Thu Jan  1 00:00:00 1970"
QUOTED = NO_SENDER + b"\nSubject: one\nFrom: a@b\n\nhello\n>From here on\n>>From there\n"
# What a file holds, and what the printed command makes of it
COPIES = [
    (
        b"\1\1\1\1\n" + A + b"\nhello\nFrom here\n>From there\n\1\1\1\1\n\1\1\1\1\nSubject: two\n\nyes\n\n\1\1\1\1\n",
        A + b"\nhello\n>From here\n>>From there\n\n%s\nSubject: two\n\nyes\n\n\n" % NO_SENDER,
    ),
    (b"%d   \n%s%s" % (len(MAIL), MAIL, LIST), QUOTED + b"\n"),
    (MAIL, QUOTED + b"\n"),
    (MAIL[:-1], QUOTED),
    (A[1:] + b"\n" + B + b"\n", NO_SENDER + b"\n" + A[1:] + b"\n" + B + b"\n"),
    (b"\0" * 512 + b"From a\nSubject: x\n\nyes\n\n", b"From a\nSubject: x\n\nyes\n\n"),
    (b"\0\0" + A[1:] + b"\n", NO_SENDER + b"\n" + A[1:] + b"\n"),
    (b" " + A + b"\n", A + b"\n"),
]


def table(home: Path) -> None:
    """Each kind is recognized, whatever the file's name."""
    files = [f"file {number}" for number in range(len(KINDS))]
    for name, (text, _, _) in zip(files, KINDS):
        (home / name).write_bytes(text)
    status, out, err = run(["kind", *files], home)
    equal("kind of other files", (status, err), (1, ""))
    for row, name, (text, kind, then) in zip(rows_in(out), files, KINDS):
        then = then.replace("{}.XXXXXX", f"'{home}/{name}.XXXXXX'").replace("{}", f"'{name}'")
        equal(f"kind of {text[:40]!r}", row.line, f"{name}: {kind}")
        below = "".join(line + "\n" for line in row.below if not re.match(r"    line \d|    \d+ \|", line))
        matches(f"kind of {text[:40]!r}: what is next", below, labelled(then))


def names(home: Path) -> None:
    """Names say nothing, except those of files of subscriptions and of a counter."""
    for name, text, kind in NAMED:
        (home / name).write_bytes(text)
        expect(["kind", name], home, 0 if text == MBOX else 1, f"{name}: {kind}\n" + "...\n" * BELOW.get(kind, 1))


def auxiliary(home: Path) -> None:
    """Files that hold no mail by their name and size, or as a lock of one line, in folders of mailboxes."""
    for number, (name, text, _) in enumerate(AUXILIARY):
        mailbox(home / f"old{number}" / name, text)
    (home / "old0/link.lock").symlink_to("nowhere")
    os.mkfifo(home / "old0/fifo.lock")
    lines = run(["kind", *(f"old{number}" for number in range(len(AUXILIARY)))], home)[1].splitlines()
    found = [f"old{number}/{name}: no mail" in lines for number, (name, _, _) in enumerate(AUXILIARY)]
    equal("no mail", found, [is_none for _, _, is_none in AUXILIARY])
    seen = [line for line in lines if "old0/" in line and line.endswith(": no mail")]
    equal("what is no file", seen, ["old0/.x: no mail"])


def next_commands(home: Path) -> None:
    """The printed command makes what is converted, in the place of the file."""
    for text, copy in COPIES:
        (home / "a b").write_bytes(text)
        command = by_json(["kind", "a b"], home).row.command
        equal(f"{command}: its status", run_printed(command, home).status, 0)
        equal(command, (home / "a b").read_bytes(), copy)
        if text != MAIL[:-1]:
            equal(f"{command}: the copy's status", run(["kind", "a b"], home)[0], 0)
        (aside,) = home.glob("a b.??????")
        equal(f"{command}: what is put aside", [one.read_bytes() for one in aside.iterdir()], [text])
        shutil.rmtree(aside)


def first_line_by_hand(home: Path) -> None:
    """A human says whether a first line `From ` begins a message."""
    note = b"From time to time I write notes\n"
    for text, words in (
        (note, [b"From time to time I write notes Thu Jan  1 00:00:00 1970\n"]),
        (
            note + b"\n" + B + b"\n",
            [note[:-1] + b" Thu Jan  1 00:00:00 1970\n\n" + B + b"\n", NO_SENDER + b"\n>" + note + b"\n" + B + b"\n"],
        ),
    ):
        (home / "notes").write_bytes(text)
        commands = by_json("kind notes", home).row.commands
        for command, copy in zip(commands, words):
            (home / "notes").write_bytes(text)
            equal(f"{command}: its status", run_printed(command, home).status, 0)
            equal(command, (home / "notes").read_bytes(), copy)
            equal(f"{command}: the copy's status", run("kind notes", home)[0], 0)
        equal("the commands", len(commands), len(words))


def indexes(home: Path) -> None:
    """A file with the name of an index holds no mail unless something in it looks like mail. A mailbox stays one."""
    for number, (text, verdict, reason) in enumerate(IN_INDEXES):
        for name in INDEXES:
            mailbox(home / f"old{number}" / name, text)
        ran = by_json(["migrate", "--now", f"M{number}", f"old{number}"], home)
        found = {os.path.basename(row["path"]): (row["verdict"], row["reason"], row["messages"]) for row in ran.rows}
        equal(f"with {text!r}", found, dict.fromkeys(INDEXES, (verdict, reason, 1 if text == MBOX else None)))
        tasks = {step.get("task") for row in ran.rows for step in row["next"]}
        equal("whether each is passed over alone", [ALONE.strip() in tasks], [reason == "not-known"])
    expect("kind old1/table_of_contents", home, 1, f"old1/table_of_contents: no mail: Apple's index\n    {LEAVE_OUT}\n")


if __name__ == "__main__":
    check_all(table, names, auxiliary, indexes, next_commands, first_line_by_hand)
