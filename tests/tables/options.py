"""Options among operands, and what each help prints."""
import re
from pathlib import Path

from tests.support.checks import TOP, equal, text_of
from tests.support.homes import ADMIN, check_all, expect, mailbox, run
from tests.support.mail import ONE

# how each command is used, which groups its help has, and which options take a value, by the manual
OF_USERS, NO_GROUPS = "--users [OPTION]... OLD [NAME...]", "options"
ANSWERS, REPORT = "--as WORD --text LINE,.. --begin LINE,.. --of TIE", "--report FILE"
HOMES = "--maildir NAME --tree NAME --names FILE"
HELPS = {
    "": (["COMMAND ..."], "commands, options, examples", ""),
    "kind": (["[OPTION]... FILE..."], NO_GROUPS, ""),
    "quote": (["[OPTION]... -o COPY FILE"], NO_GROUPS, f"{ANSWERS} --output COPY"),
    "dates": (["[OPTION]... MAILDIR FILE..."], NO_GROUPS, ""),
    "migrate": (
        ["[OPTION]... MAILDIR MAILBOX...", OF_USERS, "--undo [OPTION]... MAILDIR MAILBOX"],
        "options, how, a Takeout of Gmail, answers for what was left, for many users, as root, examples",
        f"--folder NAME --jobs N {REPORT} --labels [one|all] --label NAME=WHAT {ANSWERS} --no-mail PATTERN {HOMES}",
    ),
    "verify": (
        ["[OPTION]... MAILDIR FILE...", OF_USERS],
        "options, for many users, as root, examples",
        f"{HOMES} --jobs N {REPORT}",
    ),
    "back": (
        ["[OPTION]... MAILDIR OLD...", OF_USERS],
        "options, for many users, as root, examples",
        f"{REPORT} {HOMES} --jobs N",
    ),
    "explain": (["[WORD]..."], NO_GROUPS, ""),
}


def options_anywhere(home: Path) -> None:
    """An option may stand before, between and after operands. What follows `--` is an operand."""
    for name in ("box", "--now"):
        mailbox(home / name, ONE)
    done = "box -> INBOX: mboxrd or mboxo, messages 1: done\n1 mailbox: 1 done\n"
    for number, words in enumerate(("--now {} box", "{} --now box", "{} box --now", "{} --jobs 1 box --now")):
        expect(["migrate", "--all", *words.format(f"M{number}").split()], home, 0, done)
    expect("verify --all M0 -- --now", home, 0, "--now -> INBOX: messages 1: whole\n1 mailbox: 1 whole\n")
    expect("dates M0 box --header", home, 0, "box: messages 1, dated ...\n", None)
    expect("quote box --as mboxo --output copy", home, 0, "copy: messages 1, lines quoted 0\n")


def helps(home: Path) -> None:
    """Each help has at most 80 columns, however wide the terminal is, and a name for each group of options. The help of
    the program and that of `migrate` have four examples, those of `back` and `verify` fewer."""
    wanted_of = {"": 4, "migrate": 4, "verify": 2, "back": 3}
    for word, (usage, groups, values) in HELPS.items():
        status, out, err = run([ADMIN.name, "--help"] if not word else [word, "--help"], home, COLUMNS="200")
        equal(f"{word}: status, errors, and lines that are too long", (status, err), (0, ""))
        equal(f"{word}: lines that are too long", [line for line in out.splitlines() if len(line) > 80], [])
        says = out.partition("\n\n")[0].replace("usage: ", " " * 7)
        equal(f"{word}: its use", says, "\n".join(f"       {f'{ADMIN.name} {word}'.strip()} {one}" for one in usage))
        equal(f"{word}: what it does", bool(re.search(r"\n\n[A-Z][a-z]", out)), True)
        bare = re.findall(r"(?m)^  -(?:(?!   ?\S).)*\n(?! {8})", out)
        equal(f"{word}: options of which nothing is said", bare, [])
        found = " ".join(
            f"{name} {value}" for name, value in re.findall(r"(?m)^  (?:-\w\b[^-]*)?(--[a-z-]+) (\S+)", out)
        )
        equal(f"{word}: options with values", found, values)
        equal(f"{word}: groups", ", ".join(re.findall(r"(?m)^(\w.*):$", out)), groups)
        examples = len(re.findall(r"(?m)^  (?:# )?mbox2maildir-admin ", out))
        equal(f"{word}: examples", examples, wanted_of.get(word, 0))


def version(home: Path) -> None:
    """That of the program. Where its file is missing, that is said."""
    expect("mbox2maildir-admin --version", home, 0, f"mbox2maildir-admin {text_of(TOP / 'VERSION')}")
    (home / "bin/VERSION").unlink()
    says = f"mbox2maildir-admin: {home}/bin/VERSION: it is missing: install the package anew\n"
    expect("mbox2maildir-admin --version", home, 1, "", says, LC_ALL="C.UTF-8")


if __name__ == "__main__":
    check_all(options_anywhere, helps, version)
