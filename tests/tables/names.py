"""The folders that mailboxes of a tree get by their names."""
import base64
import re
from pathlib import Path

from tests.support.checks import equal, matches
from tests.support.homes import by_json, check_all, files_of, mailbox, run
from tests.support.mail import A

# mailboxes below the old folder, and the names of their folders before they are encoded
NAMES = {
    "Inbox": "",
    "Inbox.sbd/inbox.mbox": "INBOX.inbox",
    "Sent": "Sent",
    "2005.archive.mbox": "2005-archive",
    "Entwürfe.mbox": "Entwürfe",
    "lists/b c/日本語": "lists.b c.日本語",
    # base64 has a `/` in these
    "Отправленные": "Отправленные",
    "迷惑メール.mbox": "迷惑メール",
    "Ä.sbd/ö.sbd/😀𝄞x": "Ä.ö.😀𝄞x",
    "ééé": "ééé",
    "~a": "-a",
    "a~": "a~",
    ".mbox": "-mbox",
    "x/.sbd/y": "x.-sbd.y",
    "-n": "-n",
    " two  ": " two  ",
    "R&D": "R&D",
    "&": "&",
    "Tom&Ann-2004": "Tom&Ann-2004",
    "a=b": "a=b",
    "it's": "it's",
    'q"q': 'q"q',
    "a\\nb": "a\\nb",
    "$HOME `id`": "$HOME `id`",
    "*": "*",
    "%s": "%s",
    "tab\there": "tab\there",
    "line\nend": "line\nend",
    "\x1b[2J": "\x1b[2J",
    "ü&ü": "ü&ü",
    "\u0080\u07ff\u0800\uffff\U00010000\U0010ffff": None,
    "Apple.mbox/mbox": "Apple",
    "Apple/In.mbox/mbox": "Apple.In",
    "mbox": "mbox",
    "quoted.mbox.mboxrd": "quoted",
    "n" * 254: None,
}
# names that are already in modified UTF-7, and stay
ENCODED = ["Entw&APw-rfe2", "&AMQ-rger", "R&-E", "&ZeVnLIqe-", "&2D3eAA-", "&AOkA6QDp-x", "&j,dg0TDhMPww6w-x"]


def encoded(name: str) -> str:
    """A name in IMAP's modified UTF-7."""

    def run_of(found: re.Match[str]) -> str:
        return f"&{base64.b64encode(found[0].encode('utf-16-be')).decode().rstrip('=').replace('/', ',')}-"

    return re.sub(r"[^ -~]+", run_of, name.replace("&", "&-"))


def names_of_folders(home: Path) -> None:
    """Each mailbox of a tree has the folder of its name, for each command that takes a tree."""
    for name in [*NAMES, *ENCODED]:
        mailbox(home / "-old" / name, A + b"\n")
    wanted = {name: encoded(name if folder is None else folder) for name, folder in NAMES.items()}
    wanted.update((name, name) for name in ENCODED)
    ran = by_json("migrate -- M -old", home)
    left = [row for row in ran.rows if row["verdict"] != "done"]
    equal("a tree: what is left", (left, ran.status, ran.err), ([], 0, ""))
    equal(
        "the folders of a tree",
        sorted((row["path"], row["folder"]) for row in ran.rows),
        sorted((f"-old/{name}", printed(folder or "INBOX").replace(".", "/")) for name, folder in wanted.items()),
    )
    matches("the sum of a tree", ran.sums["says"], f"{len(wanted)} mailboxes: {len(wanted)} done; ...")
    counts = {folder: len(files_of(home / "M" / (folder and f".{folder}"))) for folder in wanted.values()}
    equal("messages of each folder", counts, dict.fromkeys(wanted.values(), 1))
    for word in ("verify", "dates"):
        status, out, err = run([word, *["--all"] * (word == "verify"), "--", "M", "-old"], home)
        equal(f"{word} of a tree", (status, err, len(re.findall(": messages 1[,:] ", out))), (0, "", len(wanted)))
    print(f"admin: {len(wanted)} mailboxes have the folders of their names")


def printed(name: str) -> str:
    """A name as it is printed."""
    return "".join(
        letter if letter.isprintable() else "".join(f"\\x{byte:02x}" for byte in letter.encode()) for letter in name
    )


if __name__ == "__main__":
    check_all(names_of_folders)
