"""Comparisons of tests, and the program that is tested: build/mbox2maildir, or the one that the environment's
MBOX2MAILDIR names."""
import difflib
import os
import re
from pathlib import Path
from typing import AnyStr, Union

TOP = Path(__file__).resolve().parents[2]
# what the last line of a migration says about how much was done in which time
WORK = r"; \d+ messages?, (?:\d+ of them there already, )?(?:\d+ bytes?|\d+\.\d [kMG]B) in \d+ (?:s|min)\b"
SUMS = re.compile(rf"(?m)^(\d+ mailbox(?:es)?: [^;\n]*(?:; \d+ other files?: no mail)?){WORK}")
# how far a command is, which it says each minute on standard error: with much other work, any may take that long
PROGRESS = re.compile(
    r"(?m)^mbox2maildir-admin: (?!.*: interrupted: ).*: (?:reading|copying|looking|converting|dating|verifying|unpack"
    r"ing|removing|migrating)(?: \d.*| file \d.*| at file \d.*| into the folder.*|, step \d.*)?\n"
)
# how long to wait for what must come, in seconds; on a machine that has much to do it comes late
PATIENCE = 600
# the status if nothing is left but what another run settles
LATER = 75


def program() -> str:
    """The path of the program that is tested."""
    return os.environ.get("MBOX2MAILDIR") or str(TOP / "build/mbox2maildir")


def match_in(pattern: "Union[AnyStr, re.Pattern[AnyStr]]", text: AnyStr) -> "re.Match[AnyStr]":
    """The first match of a pattern. The case fails if there is none."""
    match = re.search(pattern, text)
    assert match, f"{pattern!r} is not in: {text!r}"
    return match


def text_of(path: Path) -> str:
    """The text of a file."""
    return path.read_text(encoding="utf-8")


def differ(got: object, wanted: object) -> str:
    """How two values differ; texts of several lines are compared line by line."""
    if not (isinstance(got, str) and isinstance(wanted, str) and "\n" in got + wanted):
        return f"  got    {got!r}\n  wanted {wanted!r}"
    return "\n".join(difflib.unified_diff(wanted.splitlines(), got.splitlines(), "wanted", "got", lineterm=""))


def without_work(output: str) -> str:
    """What a migration printed, without how much was done in which time."""
    return SUMS.sub(r"\1", output)


def without_progress(errors: str) -> str:
    """What a command said on standard error, without how far it was."""
    return PROGRESS.sub("", errors)


def equal(what: str, got: object, wanted: object) -> None:
    """The two must be equal, or the case fails."""
    assert got == wanted, f"{what}:\n{differ(got, wanted)}"


def matches(what: str, text: str, wanted: str) -> None:
    """A text must be as wanted; `...` stands for anything in a line."""
    pattern = re.escape(wanted).replace(r"\.\.\.", ".*")
    assert re.fullmatch(pattern, text), f"{what}:\n{differ(text, wanted)}"
