"""python3 -m bench.peers.speed [--megabytes N] [--repeats N] PROGRAM: prints how long converters take for a gigabyte of
large messages, and for one small message, as root.

Those that do most of what `migrate` does run in turns with it, on a disk in memory, where a sync costs nothing. Of each
figure the lowest one counts. What this machine lacks is left out.
"""
import argparse
import os
import resource
import subprocess
import sys
import tempfile
from pathlib import Path
from typing import Dict, List, NamedTuple, Tuple

from .report import table
from .tools import Tool, tools_of
from .trials import Trial

TOP = Path(__file__).resolve().parents[2]
NAMES = "mbox2maildir convert", "mbox2maildir-admin migrate", "mb2md", "mdeliver -M", "doveadm backup -R"
# the longest bodies of large messages and of small ones, in bytes
LARGE, SMALL = 140000, 1000


class Text(NamedTuple):
    """An mbox text."""

    text: bytes

    @classmethod
    def of(cls, megabytes: int, longest: int) -> "Text":
        """A text of so many megabytes, whose messages have bodies of up to about this many bytes."""
        words = [sys.executable, str(TOP / "bench/mail.py"), str(megabytes), "1", str(longest)]
        return cls(subprocess.run(words, stdout=subprocess.PIPE, check=True).stdout)

    def mailbox(self) -> bytes:
        """The text."""
        return self.text

    def messages(self) -> int:
        """How many messages it has."""
        return self.text.count(b"\nFrom ") + 1


def times(tool: Tool, text: Text) -> Tuple[float, float]:
    """How many seconds a converter takes for a text, and how many of them are work."""
    with tempfile.TemporaryDirectory() as folder:
        os.chmod(folder, 0o755)
        trial, before = Trial(tool, text, Path(folder)), work()  # type: ignore[arg-type]
        run = trial.run()
        if run.status != 0:
            sys.exit("%s ended with status %s" % (tool.name, run.status))
        return run.seconds, work() - before


def work() -> float:
    """The processor's time of all programs that have ended."""
    used = resource.getrusage(resource.RUSAGE_CHILDREN)
    return used.ru_utime + used.ru_stime


def main() -> None:
    """Measures each converter, and prints the table."""
    parser = argparse.ArgumentParser(prog="speed", description="Times other converters beside this project's.")
    parser.add_argument("program", type=Path, help="the built program")
    parser.add_argument("--megabytes", type=int, default=200, help="of large messages; of small ones a quarter (200)")
    parser.add_argument("--repeats", type=int, default=3, help="how often each runs (3)")
    given = parser.parse_args()
    program = given.program.resolve()
    os.environ["PATH"] = "%s:%s" % (program.parent, os.environ["PATH"])
    every = tools_of(program, TOP / "admin/mbox2maildir-admin")
    tools = [tool for tool in every if tool.name in NAMES and tool.is_there()]
    texts = Text.of(given.megabytes, LARGE), Text.of(max(1, given.megabytes // 4), SMALL)
    found: Dict[str, List[Tuple[float, ...]]] = {tool.name: [] for tool in tools}
    for _ in range(given.repeats):
        for tool in tools:
            found[tool.name].append((*times(tool, texts[0]), *times(tool, texts[1])))
    gigabytes, messages = len(texts[0].text) / 1e9, texts[1].messages() / 1e6
    rows = []
    for name, runs in found.items():
        clock, work_of, small, work_of_small = (min(figures) for figures in zip(*runs))
        per_message = ["%.0f" % (seconds / messages) for seconds in (small, work_of_small)]
        rows.append([name, "%.1f" % (clock / gigabytes), "%.1f" % (work_of / gigabytes), *per_message])
    print(table(["Converter", "Seconds a GB", "of work", "Microseconds a message", "of work"], rows), end="")


if __name__ == "__main__":
    tempfile.tempdir = "/dev/shm" if os.access("/dev/shm", os.W_OK) else None
    main()
