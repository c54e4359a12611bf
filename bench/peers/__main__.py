"""python3 -m bench.peers [--messages N] [--kills N] [--seed N] PROGRAM: prints docs/COMPARISON.md, as root.

Each converter that this machine has gets the same mailbox, and is called as its own page says. What is missing is left
out, and named.
"""
import argparse
import os
import sys
import tempfile
from pathlib import Path
from typing import List

from .corpus import Corpus
from .report import Measured, page
from .tools import tools_of, versions_of
from .trials import full, killed, mail_size, plain

TOP = Path(__file__).resolve().parents[2]


def main() -> None:
    """Measures each converter, and prints the page."""
    parser = argparse.ArgumentParser(prog="peers", description="Measures other converters beside this project's.")
    parser.add_argument("program", type=Path, help="the built program")
    parser.add_argument("--messages", type=int, default=1000, help="how many messages the mailbox has (1000)")
    parser.add_argument("--kills", type=int, default=20, help="how many runs of each are killed (20)")
    parser.add_argument("--seed", type=int, default=1, help="of the mailbox and of the moments (1)")
    parser.add_argument("--only", action="append", default=[], help="a converter by its name")
    given = parser.parse_args()
    if os.geteuid():
        parser.error("disks of a size of their own want root")
    program = given.program.resolve()
    # the companion looks for the program in this place
    os.environ["PATH"] = "%s:%s" % (program.parent, os.environ["PATH"])
    corpus = Corpus(given.messages, given.seed)
    room = 6 * mail_size(corpus) // 1024 + 16384
    every = [
        tool
        for tool in tools_of(program, TOP / "admin/mbox2maildir-admin")
        if not given.only or tool.name in given.only
    ]
    tools = [tool for tool in every if tool.is_there()]
    measured: List[Measured] = []
    for tool in tools:
        print("%s .." % tool.name, file=sys.stderr, flush=True)
        once = plain(tool, corpus, room)
        again = killed(tool, corpus, room, once.run.seconds, given.kills, given.seed)
        measured.append(Measured(tool, once, again, full(tool, corpus, room)))
        print("  %s" % (measured[-1],), file=sys.stderr, flush=True)
    missing = [tool.name for tool in every if tool not in tools]
    sys.stdout.write(page(corpus, measured, versions_of(tools), missing))


if __name__ == "__main__":
    # what a converter leaves in the folder of temporary files goes away with that folder
    with tempfile.TemporaryDirectory(prefix="peers-") as temporary:
        # Dovecot's commands run as another user
        os.chmod(temporary, 0o755)
        tempfile.tempdir = temporary
        main()
