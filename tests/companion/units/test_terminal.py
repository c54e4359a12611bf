"""What is printed: bytes from others are escaped, and a word for a shell stays one word."""
import os
import subprocess
import unittest
from typing import Union

from mbox2maildir_admin.terminal import is_text, operand, option, quoted, shown, text_of

SHOWN: list[tuple[Union[bytes, str], str]] = [
    (b"mail/inbox", "mail/inbox"),
    ("caf\u00e9".encode(), "caf\u00e9"),
    # not UTF-8; what moves the cursor; a letter that turns what follows; a line end
    (b"a\xffb", "a\\xffb"),
    ("a\udcffb", "a\\xffb"),
    (b"\x1b[2J", "\\x1b[2J"),
    ("\u202e".encode(), "\\xe2\\x80\\xae"),
    (b"a\nb\0", "a\\x0ab\\x00"),
    (b"a\\b", "a\\b"),
    ("a\tb", "a\\x09b"),
]
WORDS = [
    (b"box", "box"),
    (b"-rf", "./-rf"),
    (b"my box", "'my box'"),
    (b"it's", "'it'\"'\"'s'"),
    (b"a\nb", "$'a\\x0ab'"),
    (b"'\\\n", "$'\\'\\\\\\x0a'"),
]
OPERANDS = [(b"-v", "./-v", ["--folder=-v"]), (b"a b", "a b", ["--folder", "a b"])]
OPERANDS += [(b"caf\xe9", "caf\udce9", ["--folder", "caf\udce9"])]
# names that a shell, a terminal or a reader would take for something else
NAMES = [
    b"./-x",
    b"a b",
    b"$(id)",
    b"a\nb\\x41",
    b"\xff'\"\\",
    "caf\u00e9\x07".encode(),
    b"it's",
    b"$HOME",
    b"`id`",
    b"",
]
NAMES += [b"runuser -u", b"; run this next: rm x"]


class TerminalTest(unittest.TestCase):
    def test_shown(self) -> None:
        for name, wanted in SHOWN:
            self.assertEqual(shown(name), wanted)

    def test_words_and_operands(self) -> None:
        for name, wanted in WORDS:
            self.assertEqual(quoted(operand(name)), wanted)
        for name, its, options in OPERANDS:
            self.assertEqual((operand(name), option("--folder", name)), (its, options))

    def test_a_shell_reads_the_name_again(self) -> None:
        script = "printf '%s\\0' " + " ".join(quoted(operand(name)) for name in NAMES)
        found = subprocess.run(["bash", "-c", os.fsencode(script)], stdout=subprocess.PIPE, check=True).stdout
        self.assertEqual((found.split(b"\0")[:-1], script.isprintable()), (NAMES, True))

    def test_texts(self) -> None:
        self.assertEqual(list(map(is_text, (b"box", "\u00e9".encode(), b"\xe9"))), [True, True, False])
        self.assertEqual(text_of(b"caf\xe9"), "caf\udce9")
