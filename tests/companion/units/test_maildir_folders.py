"""The names of folders: for mailboxes by their places, and for names that a human gives. tests/tables/names.py has a
tree of them."""
import os
import unittest

from mbox2maildir_admin.maildir.folders import folder_name, folder_of, folder_of_place, folder_path, name_before
from mbox2maildir_admin.maildir.folders import on_disk, why_no_folder, without_utf7, words_of

PROFILE = "abcd1234.default-release/"
# places of mailboxes, and the names of their folders in IMAP
PLACES = {
    "2004.gz.mboxrd": "2004",
    "R&-E": "R&-E",
    # KMail
    ".inbox.directory/Haus": "INBOX.Haus",
    ".a.b.directory/.c.directory/d": "a-b.c.d",
    "x/.Haus.directory/Garten": "x.Haus.Garten",
    ".directory/x": "-directory.x",
    "x.directory/y": "x-directory.y",
    ".inbox.directory": "-inbox-directory",
    # readpst -r
    "Inbox/mbox": "INBOX",
    "Sent Items/mbox": "Sent Items",
    "Inbox/Sheds/mbox.mboxrd": "INBOX.Sheds",
    "Inbox/calendar": "INBOX.calendar",
    # Thunderbird
    PROFILE + "Mail/Local Folders/Inbox": "INBOX",
    "Profiles/" + PROFILE + "Mail/pop.example.org/Archives.sbd/2004": "Archives.2004",
    PROFILE + "ImapMail/imap.example.org/lists": "lists",
    "Mail/Local Folders/Trash": "Trash",
    "ImapMail/imap.example.org/INBOX.sbd/a": "INBOX.a",
    # names that only look like those
    "Mail/lists/sheds": "Mail.lists.sheds",
    "ImapMail/lists/sheds": "ImapMail.lists.sheds",
    "archives.2004/Mail/lists/sheds": "archives-2004.Mail.lists.sheds",
    "old/" + PROFILE + "Mail/Local Folders/Inbox": "old.abcd1234-default-release.Mail.Local Folders.Inbox",
}
# names that a human gives
GIVEN = {
    "Old/2004-x": "Old.2004-x",
    "inbox": "INBOX",
    "-inbox-directory/Haus": "-inbox-directory.Haus",
    "Inbox/mbox": "INBOX.mbox",
    "inbox2": "inbox2",
}
# places of mailboxes, and their names as Dovecot names an mbox, where the folder gets another one
BEFORE = {
    "lists/sheds": "",
    "foo.mbox": "foo.mbox",
    "a.b.mbox": "a.b.mbox",
    "lists.mbox/sheds": "lists.mbox/sheds",
    "lists.gz/sheds": "lists.gz/sheds",
    ".mbox": ".mbox",
    "~a": "~a",
    "a/~b": "a/~b",
    "a~b": "",
    # names that other programs gave to files
    ".inbox.directory/Haus": "",
    ".inbox.directory/2005.old": "inbox/2005.old",
    "abcd1234.default/Mail/Local Folders/Sent": "",
    "abcd1234.default/Mail/Local Folders/a.b": "a.b",
    "lists.sbd/x": "",
    "lists.sbd/x.mbox": "lists/x.mbox",
    "Sent.mbox/mbox": "",
    "Haus.mbox/Garten.mbox/mbox": "",
    "Sent/mbox": "",
    "a.b/mbox": "a.b",
    # copies
    "foo.mboxrd": "",
    "foo.gz.mboxrd": "foo.gz",
    "foo.mbox.mboxrd": "foo.mbox",
    "foo.mbox.gz": "foo.mbox.gz",
    ".mboxrd": ".mboxrd",
}
# what is no name of a folder, and why; None where it is one
WHY = {
    "": "a part of the name is empty",
    "/": "a part of the name is empty",
    "Sent/": "a part of the name is empty",
    "a//b": "a part of the name is empty",
    "..": "has only dots",
    "a/./b": "has only dots",
    os.fsdecode(b"\xe6"): "the name is not UTF-8",
    "a\nb": "a control character",
    "a\x85": "a control character",
    "x" * 255: "too long",
    "\u00e4" * 100: "too long",
    "lists.sheds": "the name has a dot: give lists/sheds for folders in one another, or lists-sheds",
    "Old/2004.x": "give Old/2004/x for folders in one another, or Old/2004-x",
    "a..b": "give a/b for folders in one another, or a--b",
    ".a": "give a for folders in one another, or -a",
    "Old/2004-x": None,
    "x" * 254: None,
    "\u00a0": None,
}


class NamesTest(unittest.TestCase):
    def test_places(self) -> None:
        for table, name_of in ((PLACES, folder_of_place), (GIVEN, folder_of), (BEFORE, name_before)):
            self.assertEqual({place: name_of(place) for place in table}, table)

    def test_names_and_paths(self) -> None:
        for folder, name, path in ((b".", "INBOX", b"M"), (b".a\\b.c", "a\\b/c", b"M/.a\\b.c")):
            self.assertEqual((folder_name(folder), folder_path(b"M", folder)), (name, path))

    def test_names_as_a_human_writes_them(self) -> None:
        for name in ("Entwürfe", "Отправленные", "迷惑メール", "R&D", "lists"):
            self.assertEqual(without_utf7(folder_of_place(name)), name)

    def test_words_name_the_same_folder(self) -> None:
        for name in ("INBOX", "INBOX/Haus", "2004/\u00e4", "R&D", "~a"):
            folder = on_disk(folder_of(name))
            for given in (words_of(folder)[-1].replace("--folder=", ""), folder_name(folder)):
                self.assertEqual(on_disk(folder_of(given)), folder)
        self.assertEqual((words_of(b".-a"), words_of(b".a.b")), (["--folder=-a"], ["--folder", "a/b"]))

    def test_what_is_no_name(self) -> None:
        for name, why in WHY.items():
            self.assertIn(why or "None", str(why_no_folder(name)), repr(name))
