"""Names of files and folders: each on the disk, and as the name of the folder of a Maildir that it becomes. The two are
written side by side, so nothing here translates one into the other."""
import os
from collections.abc import Sequence
from random import Random
from typing import NamedTuple, Optional


class Name(NamedTuple):
    """A name on the disk, and as a part of a folder's name, which is None if it is not UTF-8."""

    raw: bytes
    part: Optional[str]


def name(raw: str, part: Optional[str] = None) -> Name:
    """A name in UTF-8, which stays as it is unless its part is given."""
    return Name(raw.encode(), raw if part is None else part)


# how a word becomes a name, and what that becomes
FORMS: dict[str, tuple[str, Optional[str]]] = {
    "plain": ("{}", "{}"),
    "ending": ("{}.mbox", "{}"),
    "dots": ("{}.2004.old", "{}-2004-old"),
    "hidden": (".{}", "-{}"),
    "home": ("~{}", "-{}"),
    "dash": ("-{}", "-{}"),
    "spaces": ("{} and  more", "{} and  more"),
    "quotes": ('{}\'s "$1"', '{}\'s "$1"'),
    "newline": ("{}\nx", "{}&AAo-x"),
    "escape": ("{}\x1b[2J", "{}&ABs-[2J"),
    "umlaut": ("Entw\u00fcrfe {}", "Entw&APw-rfe {}"),
    "kanji": ("\u65e5\u672c {}", "&ZeVnLA- {}"),
    "commas": ("\u8ff7\u60d1\u30e1\u30fc\u30eb {}", "&j,dg0TDhMPww6w- {}"),
    "ampersand": ("R&D {}", "R&-D {}"),
    "latin": ("{}caf\udce9", None),
    "long": ("{:x<255}", "{:x<255}"),
    "rather long": ("{:x<90}", "{:x<90}"),
    "dat": ("{}.dat", "{}-dat"),
    "lock": ("{}.lock", "{}-lock"),
    "msf": ("{}.msf", "{}-msf"),
    "pdf": ("{}.pdf", "{}-pdf"),
    "sbd": ("{}.sbd", "{}"),
    "KMail": (".{}.directory", "{}"),
    "cur": ("cur", "cur"),
    "new": ("new", "new"),
    "imap": (".imap", "-imap"),
}
# Those of files of which names say nothing if they are empty, or short; and of folders
MUTE = [form for form in FORMS if form not in ("hidden", "lock", "msf", "sbd", "KMail", "cur", "new", "imap")]
# Names that can be those of a folder of a Maildir
SOUND = [form for form in MUTE if form not in ("latin", "long")]
FOLDERS = "plain,spaces,newline,umlaut,latin,dots,hidden,sbd,ending,KMail,rather long,cur,new,imap".split(",")


class Stems:
    """Words that no other name of a world has."""

    WORDS = ["kite", "garden", "sheds", "Post", "Sent", "lists", "archive", "x"]

    def __init__(self, draw: Random) -> None:
        self.draw, self.count = draw, 0

    def next(self) -> str:
        """The next one."""
        self.count += 1
        return f"{self.draw.choice(self.WORDS)}{self.count}"

    def file(self, forms: Sequence[str]) -> Name:
        """A name in one of these forms."""
        raw, part = FORMS[self.draw.choice(forms)]
        stem = self.next()
        return Name(os.fsencode(raw.format(stem)), part and part.format(stem))

    def folder(self) -> Name:
        """The name of a folder."""
        return self.file(FOLDERS)
