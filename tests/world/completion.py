"""What the completions for bash, zsh and fish offer after some words: those of packaging/, or three files that the
environment's COMPLETIONS names in this order. A missing shell is left out."""
import os
import re
import shutil
import subprocess
import tempfile
import time
from collections.abc import Callable, Sequence
from functools import partial
from pathlib import Path

from tests.support.cases import LeftOut, run_cases
from tests.support.checks import PATIENCE, TOP, equal
from tests.support.terminals import Terminal

WORDS = ["back", "dates", "explain", "kind", "migrate", "quote", "verify"]
# a line whose last word is completed, and what is offered
LINES = [
    ("mbox2maildir ", ["convert", "list", "rewrite"]),
    ("mbox2maildir l", ["list"]),
    ("mbox2maildir frob", []),
    ("mbox2maildir list a", ["archive.mbox"]),
    ("mbox2maildir rewrite o", ["old_mail/"]),
    ("mbox2maildir rewrite old_mail/", ["a.mbox"]),
    ("mbox2maildir list archive.mbox ", []),
    ("mbox2maildir convert M", ["Maildir/"]),
    ("mbox2maildir convert arch", []),
    ("mbox2maildir convert Maildir a", ["archive.mbox"]),
    ("mbox2maildir convert Maildir archive.mbox old_mail/a.mbox a", ["archive.mbox"]),
    ("mbox2maildir frobnicate a", []),
    ("mbox2maildir-admin ", WORDS),
    ("mbox2maildir-admin v", ["verify"]),
    ("mbox2maildir-admin --v", ["--version"]),
    ("mbox2maildir-admin kind archive.mbox a", ["archive.mbox"]),
    ("mbox2maildir-admin kind --j", ["--json"]),
    ("mbox2maildir-admin kind --json a", ["archive.mbox"]),
    ("mbox2maildir-admin quote --dr", ["--drop-deleted"]),
    ("mbox2maildir-admin quote --do", ["--dovecot"]),
    ("mbox2maildir-admin quote --as mboxcl", ["mboxcl", "mboxcl2"]),
    ("mbox2maildir-admin quote --as unquoted a", ["archive.mbox"]),
    ("mbox2maildir-admin quote --as mboxo --text 7,9 --begin 12 --of 9-a a", ["archive.mbox"]),
    ("mbox2maildir-admin dates --h", ["--header", "--help"]),
    ("mbox2maildir-admin dates --header M", ["Maildir/"]),
    ("mbox2maildir-admin dates --header Maildir a", ["archive.mbox"]),
    ("mbox2maildir-admin back --d", ["--dovecot", "--dry-run"]),
    ("mbox2maildir-admin back --dovecot M", ["Maildir/"]),
    ("mbox2maildir-admin back Maildir archive.mbox a", ["archive.mbox"]),
    ("mbox2maildir-admin verify arch", []),
    ("mbox2maildir-admin verify --j", ["--jobs", "--json"]),
    ("mbox2maildir-admin verify --json M", ["Maildir/"]),
    ("mbox2maildir-admin verify Maildir archive.mbox a", ["archive.mbox"]),
    ("mbox2maildir-admin migrate --dr", ["--drop-deleted", "--dry-run"]),
    ("mbox2maildir-admin migrate --as u", ["unquoted"]),
    ("mbox2maildir-admin migrate --as mboxo --text 7 --of 9-a M", ["Maildir/"]),
    ("mbox2maildir-admin migrate M", ["Maildir/"]),
    ("mbox2maildir-admin migrate --folder Sent Maildir a", ["archive.mbox"]),
    ("mbox2maildir-admin migrate --users --jobs 4 --tree mail o", ["old_mail/"]),
    ("mbox2maildir-admin migrate Maildir old_mail/", ["a.mbox"]),
    ("mbox2maildir-admin migrate --no", ["--no-mail", "--no-questions", "--now"]),
    ("mbox2maildir-admin migrate --an", ["--any-disk"]),
    ("mbox2maildir-admin migrate --now --no-mail x M", ["Maildir/"]),
    ("mbox2maildir-admin migrate --users --names arch", ["archive.mbox"]),
    ("mbox2maildir-admin migrate --rep", ["--report"]),
    ("mbox2maildir-admin migrate --report arch", ["archive.mbox"]),
    ("mbox2maildir-admin migrate --report r M", ["Maildir/"]),
]  # type: list[tuple[str, list[str]]]
BASH = r"""
source "$1"
read -ra COMP_WORDS <<<"$2"
[[ $2 == *' ' ]] && COMP_WORDS+=('')
COMP_CWORD=$((${#COMP_WORDS[@]} - 1))
completion=$(complete -p "${COMP_WORDS[0]}")
[[ $completion =~ -F\ ([^ ]+) ]] && "${BASH_REMATCH[1]}" "${COMP_WORDS[0]}" "${COMP_WORDS[-1]}" "${COMP_WORDS[-2]}"
((${#COMPREPLY[@]})) && printf '%s\n' "${COMPREPLY[@]}"
"""
ZSH = r"""PS1= RPS1= LISTMAX=1000; unsetopt prompt_sp list_beep; fpath=(%s $fpath)
autoload -Uz compinit; compinit -u -D
zstyle ':completion:*' list-separator '#'; bindkey '^I' list-choices; stty columns 60 rows 500 -echo
told() { zle kill-whole-line; zle -M DONE }; zle -N told; bindkey '^X' told; print REA''DY
"""


def bash(file: Path, lines: Sequence[str], home: Path) -> list[list[str]]:
    """What bash offers after each line."""
    return [bash_offers(file, line, home) for line in lines]


def bash_offers(file: Path, line: str, home: Path) -> list[str]:
    """What bash offers after a line."""
    ran = subprocess.run(
        ["bash", "-c", BASH, "bash", file, line], cwd=home, capture_output=True, text=True, check=False
    )
    equal(f"bash, {line}: standard error", ran.stderr, "")
    # the slash after a folder is bash's own to add
    return [f"{word}/" if (home / word).is_dir() else word.rpartition("/")[2] for word in ran.stdout.splitlines()]


def fish(file: Path, lines: Sequence[str], home: Path) -> list[list[str]]:
    """What fish offers after each line."""
    asked = "; ".join(f"complete -C '{line}'; echo DONE" for line in lines)
    ran = subprocess.run(
        ["fish", "--no-config", "-c", f"source {file}; source {file}; {asked}"],
        cwd=home,
        check=True,
        env={**os.environ, "HOME": str(home), "XDG_CONFIG_HOME": str(home), "XDG_DATA_HOME": str(home)},
        capture_output=True,
        text=True,
    )
    told = [word.split("\t")[0] for word in ran.stdout.splitlines()]
    # fish 4 also offers words in which the letters come in their order, with others between them
    return [
        [word.rpartition("/")[2] or word for word in words.split("\n") if word and word.startswith(line.split(" ")[-1])]
        for line, words in zip(lines, "\n".join(told).split("DONE")[:-1])
    ]


class Zsh(Terminal):
    """A zsh on a terminal. It lists what it offers below the line."""

    def __init__(self, file: Path, home: Path) -> None:
        (home / "functions").mkdir()
        shutil.copy(file, home / "functions/_mbox2maildir")
        super().__init__(["zsh", "-f", "-i"], home, TERM="vt100", HOME=str(home))
        self.type(ZSH % (home / "functions"))
        self.until("READY\n")

    def offers(self, line: str) -> list[str]:
        """What it offers after a line."""
        # a list ends with a step up to the line; then ^X marks the end of everything
        self.type(f"{line}\t\x18")
        while b"DONE" not in self.printed:
            assert self.reads_more(time.monotonic() + PATIENCE), f"{line}: {self.printed!r}"
        listed = re.sub(rb"\0|\x1b\[[?0-9;]*[a-zA-Z]", b"", self.printed).decode().split("\n")[1:]
        self.printed = b""
        return sorted(
            {word for row in listed for word in row.split("\r")[0].split("#")[0].split() if "DONE" not in word}
        )


def zsh(file: Path, lines: Sequence[str], home: Path) -> list[list[str]]:
    """What zsh offers after each line."""
    session = Zsh(file, home)
    with session:
        return [session.offers(line) for line in lines]


# what a shell offers after each of some lines, by its completion, in a folder
Offers = Callable[[Path, Sequence[str], Path], list[list[str]]]


def offers_what_belongs(offers: Offers, file: Path) -> None:
    """A shell offers after each line what may come there."""
    if not shutil.which(offers.__name__):
        raise LeftOut(f"{offers.__name__} is not here")
    with tempfile.TemporaryDirectory() as folder:
        home = Path(folder)
        for name in ("Maildir", "old_mail", "bin"):
            (home / name).mkdir()
        for name in ("archive.mbox", "old_mail/a.mbox", "bin/an-odd-command"):
            (home / name).touch(mode=0o755 if name.startswith("bin") else 0o644)
        os.environ["PATH"] = f"{home}/bin:{os.environ['PATH']}"
        for (line, wanted), found in zip(LINES, offers(file, [line for line, _ in LINES], home)):
            seen = sorted(word for word in found if word not in ("--help", "--version") or word in wanted)
            equal(f"{offers.__name__}, {line}", seen, sorted(wanted))


def main() -> None:
    packaged = [f"{TOP}/packaging/completion.{shell}" for shell in ("bash", "zsh", "fish")]
    named = os.environ.get("COMPLETIONS", "").split() or packaged
    run_cases(
        {
            offers.__name__: partial(offers_what_belongs, offers, Path(file))
            for offers, file in zip((bash, zsh, fish), named)
        }
    )


if __name__ == "__main__":
    main()
