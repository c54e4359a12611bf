"""Tries random worlds by hand, prints what is wrong with each, with what was done in it, and what was seen in all."""
import argparse
import signal
import subprocess
import sys

from tests.support.accounts import take_own
from tests.support.checks import TOP
from tests.worlds.kinds import KINDS, told_of
from tests.worlds.stage import fresh_stage


def in_jobs(kind: str, seed: int, count: int, jobs: int) -> int:
    """Has each of several processes try a share, and returns the status."""
    children = []
    for job in range(jobs):
        begin, end = (seed + count * part // jobs for part in (job, job + 1))
        words = ["--kind", kind, "--seed", str(begin), "--count", str(end - begin)]
        children.append(subprocess.Popen([sys.executable, "-B", "-m", "tests.worlds", *words], cwd=str(TOP)))
    statuses = [child.wait() for child in children]
    return int(any(statuses))


def main() -> None:
    """Does what the words say."""
    parser = argparse.ArgumentParser(prog="python3 -B -m tests.worlds", description=__doc__)
    parser.add_argument("--kind", required=True, choices=KINDS, help="what is tried: %(choices)s", metavar="KIND")
    parser.add_argument("--seed", type=int, default=1, help="the first (1)")
    parser.add_argument("--count", type=int, default=100, help="how many (100)")
    parser.add_argument("--jobs", type=int, default=1, help="how many processes try them (1)")
    options = parser.parse_args()
    if options.jobs > 1:
        sys.exit(in_jobs(options.kind, options.seed, options.count, options.jobs))
    signal.signal(signal.SIGTERM, lambda *_: sys.exit(1))
    take_own()
    with fresh_stage() as stage:
        wrong = told_of(options.kind, stage, range(options.seed, options.seed + options.count))
    # how histories ended comes last
    for what, count in sorted(stage.seen.items(), key=lambda one: (one[0].startswith("ended "), one)):
        print(f"{count:5} {what}")
    print(f"{wrong} of {options.count} are wrong")
    sys.exit(int(wrong > 0))


if __name__ == "__main__":
    main()
