"""Random worlds, some of each kind. `python3 -B -m tests.worlds --kind KIND --seed N --count N` tries more by hand; for
a world with which something is wrong it prints what was done. The environment's WORLDS says how many of each are tried
here."""
import os
from functools import partial

from tests.support.cases import Failed, nothing_wrong, run_cases
from tests.worlds.decisions import wrong_splitter
from tests.worlds.kinds import KINDS, told_of
from tests.worlds.stage import fresh_stage


def case(name: str) -> None:
    """Nothing is wrong with some worlds of a kind."""
    count = int(os.environ.get("WORLDS") or KINDS[name].tried)
    with fresh_stage() as stage:
        wrong = told_of(name, stage, range(1, count + 1))
    if wrong:
        raise Failed(f"{wrong} of {count} are wrong")


if __name__ == "__main__":
    splitter = partial(nothing_wrong, partial(wrong_splitter, range(20)))
    run_cases({"splitter": splitter, **{name: partial(case, name) for name in KINDS}})
