"""Names of mailboxes that are those of folders."""
import unittest

from mbox2maildir_admin.kinds.named import name_of_folder


class NameTest(unittest.TestCase):
    def test_names_of_mail_programs(self) -> None:
        for path, name in (
            (b"/home/mia/sent", "sent"),
            (b"mbox", "mbox"),
            (b"Sent Items.mbox", "Sent Items"),
            (b"Archive.gz", "Archive"),
            (b"Drafts.mbox.xz.mboxrd", "Drafts"),
            (b"a.b.mbox/mbox", "a-b"),
        ):
            self.assertEqual(name_of_folder(path), name)

    def test_other_names(self) -> None:
        for path in (
            b"mia",
            b"sent/mia",
            b"sent2019",
            b"sent.old",
            b"inbox",
            b".mbox",
            b"\xe4",
            b"mboxrd",
            b"Inbox.mbox/mbox",
        ):
            self.assertEqual(name_of_folder(path), "", path)
