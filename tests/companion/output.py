"""Outputs that fail, and which modules a run loads."""
import os
import re
import shutil
import time
from collections.abc import Sequence
from pathlib import Path

from tests.support.checks import PATIENCE, equal, match_in
from tests.support.copies import Copies
from tests.support.homes import ADMIN, check_all, mailbox, run, run_printed
from tests.support.mail import A, ONE, numbered
from tests.support.running import Run
from tests.support.terminals import REWRITTEN, Terminal

COMMANDS = "kind", "quote", "dates", "migrate", "verify", "back"


def output_fails(home: Path) -> None:
    """A reader that goes away, a full output, and a closed one: at most one line, and status 1."""
    (home / "box").write_bytes(A + b"\n")
    mailbox(home / "old/box", ONE)
    for words in ("kind" + " box" * 3000, "quote -o - box", "--help"):
        for to, says in (
            ("| true", None),
            (">/dev/full", "mbox2maildir-admin: the output could not be written: No space left on device\n"),
            (">&-", None),
        ):
            ran = run(["/bin/bash", "-c", f'set -o pipefail; "$@" {to}', "bash", ADMIN, *words.split()], home)
            for trace in ("Traceback", "Exception", "\n."):
                assert not re.search(trace, ran.err), f"{words[:20]} {to}: {ran.err}"
            if to == ">&-":
                equal(f"{words[:20]} {to}: status", ran.status, 1)
            if says and words != "--help":
                equal(f"{words[:20]} {to}", (ran.status, ran.err), (1, says))
    for to, status in (("2>&-", 1), ("2>/dev/full", 1), (">&- 2>&-", 1), (">/dev/full 2>/dev/full", 1), ("<&-", 1)):
        equal(f"kind {to}: status", run_printed(f"mbox2maildir-admin kind box none {to}", home).status, status)
    # a report that takes more is whole
    equal("migrate", run_printed("mbox2maildir-admin migrate --now --report R M old >/dev/full", home).status, 1)
    sums = Run(0, (home / "R").read_text()).objects[-1]
    match_in("^1 mailbox: 1 done; .*; interrupted: run the same command again$", str(sums["says"]))


class Hasty(Copies):
    """A desk whose clock runs fast, as if each run took minutes."""

    def main(self) -> int:
        monotonic, begun = time.monotonic, time.monotonic()
        time.monotonic = lambda: begun + 50_000 * (monotonic() - begun)
        return super().main()


def each_minute(home: Path) -> None:
    """Without a terminal a line each minute says how far a run is, and with which mailbox."""
    mailbox(home / "box", numbered("message", 20).replace(b"hello\n", b"hello " * 40_000 + b"\n"))
    ran = Hasty(home).run(["migrate", "--now", "M", "box"])
    equal("its status", ran.status, 0)
    left = r"(\d+ s|\d+ min|\d+ h \d+ min) left, \d+\.\d MB/s, "
    for pattern in r"\d+ %, step 1 of 5", rf"\d+ %, {left}step 1 of 5":
        match_in(rf"(?m)^mbox2maildir-admin: 1/1 box: reading \d\.\d of 4\.8 MB, {pattern}$", ran.err)
    equal("all that is said", re.findall("(?m)^(?!mbox2maildir-admin: 1/1 box: )(.+)$", ran.err), [])
    shutil.copy2(home / "box", home / "copy")
    ran = Hasty(home).run(["verify", "M", "box", "copy"])
    whom = re.findall("(?m)^mbox2maildir-admin: (.+?): ", ran.err)
    equal("who is at work, one after the other", list(dict.fromkeys(whom)), ["1/2 box", "2/2 copy"])
    for name in "ab":
        shutil.copy2(home / "box", mailbox(home / "old" / name, b""))
    ran = Hasty(home).run(["migrate", "--now", "--jobs", "2", "N", "old"])
    match_in(r"(?m)^mbox2maildir-admin: \d/2 old/[ab]: reading \d\.\d of 4\.8 MB, ", ran.err)


def on_a_terminal(home: Path) -> None:
    """A line that says how far a run is is never wider than the terminal, and shows the end of a long name."""
    name = "x" * 200 + "end"
    mailbox(home / name, ONE)
    words = [str(home / "bin" / ADMIN.name), "migrate", "--now", "M", name]
    with Terminal(words, home, PATH=f"{home}/bin:{os.environ['PATH']}") as terminal:
        while terminal.reads_more(time.monotonic() + PATIENCE):
            pass
        lines = [line for line in re.split(f"{re.escape(REWRITTEN)}|\n", terminal.printed.decode()) if "end: " in line]
        equal("its status", terminal.end()[0], 0)
    assert lines and all(re.fullmatch(r"1/1 \.\.\.x+end: \w.*", line) and len(line) < 80 for line in lines), lines


def loaded(words: Sequence[str], home: Path) -> set[str]:
    """The modules that a run loads: those of the library, and those of the package without its name."""
    alone = ["/usr/bin/env", "python3", "-I", "-S", "-B", "-v", str(home / "bin" / ADMIN.name)]
    found = re.findall(r"(?m)^import '(\S+)' #", run([*alone, *words], home).err)
    return {name.partition("mbox2maildir_admin.")[2] or name for name in found}


def modules(home: Path) -> None:
    """A help loads no room, and a run of a command only what it needs: most of a short run is spent on that."""
    light = {"commands.command_line", "commands.words", "commands.options"}
    light |= {"labels.choosing", "readings.reading"}
    rooms = {path.parent.name for path in (ADMIN.parent / "mbox2maildir_admin").glob("*/__init__.py")}
    for word in ("", *COMMANDS):
        found = loaded([*word.split(), "--help"], home)
        equal(f"{word} --help: rooms", {name for name in found if name.split(".")[0] in rooms and "." in name}, light)
    mailbox(home / "box", ONE)
    slow = {"argparse", "concurrent", "difflib", "email", "multiprocessing", "pathlib", "tempfile", "urllib", "zipfile"}
    slow |= {"migration.workers", "takeouts", "undoing", "users.spool"}
    for words, others in (
        (["kind", "box"], {"commands.migrate", "migration.mailbox"}),
        (
            ["migrate", "--all", "--now", "M", "box"],
            {"commands.kind", "migration.objects", "flags.gmail", "readings.unpacking"},
        ),
        (["verify", "M", "box"], {"commands.kind", "commands.migrate", "migration.mailbox"}),
    ):
        found = loaded(words, home)
        equal(f"{words}: the command", f"commands.{words[0]}" in found, True)
        equal(f"{words}: modules that only others need", found & (slow | others), set())


if __name__ == "__main__":
    check_all(output_fails, each_minute, on_a_terminal, modules)
