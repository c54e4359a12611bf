"""The cases of a test. Each has a name, can be run alone, and is printed with its seconds when it ends."""
import sys
import time
import traceback
from collections.abc import Callable, Iterable, Mapping, Sequence
from functools import partial
from pathlib import Path
from typing import Any, Optional

from tests.support import accounts


class LeftOut(Exception):
    """A case can't be tried here, for this reason."""


class Failed(Exception):
    """A case failed, as this text says."""


def ended(how: str, name: str, begun: float, remark: object = "") -> None:
    """Prints how a case ended. tests/run counts these lines."""
    seconds = time.monotonic() - begun
    text = " ".join(str(remark).split())
    print(f"{how} {Path(sys.argv[0]).stem}:{name} {seconds:.2f} s", *filter(None, [text]), sep=": ", flush=True)


def tried(name: str, case: Callable[[], None]) -> bool:
    """Runs a case, and returns whether it did not fail."""
    begun = time.monotonic()
    try:
        case()
    except LeftOut as reason:
        ended("skipped", name, begun, reason)
    except Exception as reason:  # pylint: disable=broad-exception-caught  # whatever a case raises is its failure
        print(reason if isinstance(reason, Failed) else traceback.format_exc().rstrip("\n"), flush=True)
        ended("failed", name, begun)
        return False
    else:
        ended("passed", name, begun)
    return True


def run_cases(cases: Mapping[str, Callable[[], None]], words: Optional[Sequence[str]] = None) -> None:
    """Runs the cases that the words name, or all, on a machine without people. The words are those of the command line
    unless others are given. Then it ends the test, with status 1 if a case failed."""
    words = sys.argv[1:] if words is None else words
    if [*words] == ["--list"]:
        print(*cases, sep="\n")
        sys.exit(0)
    unknown = [word for word in words if word not in cases]
    if unknown:
        sys.exit(f"{Path(sys.argv[0]).stem}: no case {', '.join(unknown)}")
    accounts.take_own()
    results = [tried(name, cases[name]) for name in words or cases]
    sys.exit(0 if all(results) else 1)


def nothing_wrong(check: Callable[[], Iterable[str]]) -> None:
    """A check finds nothing that is wrong."""
    lines = list(check())
    if lines:
        raise Failed("\n".join(lines))


def try_all(what: str, tasks: Iterable[Callable[[], object]]) -> None:
    """Tries tasks, prints how many there were, and fails if one of them did."""
    count, wrong = 0, []
    for count, task in enumerate(tasks, 1):
        try:
            task()
        except Failed as failed:
            wrong.append(str(failed))
    print(f"{what}: {count} tries, {len(wrong)} wrong", flush=True)
    if wrong:
        raise Failed("\n".join(wrong[:3]))


def find_nothing(module: Mapping[str, Any]) -> None:
    """Runs the checks of a module as cases, `wrong_links` as `links`. A check gives a line for each thing that is
    wrong."""
    checks = {name: one for name, one in module.items() if name.startswith("wrong_")}
    run_cases({name.replace("wrong_", "", 1): partial(nothing_wrong, check) for name, check in checks.items()})
