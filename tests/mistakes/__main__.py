"""Tries mistakes in the companion, and prints which test sees each, for a human to judge those that none sees.

    python3 -m tests.mistakes.maps MAP
    python3 -m tests.mistakes --map MAP --seed WORD 100 ledger/ jobs/order.py
    python3 -m tests.mistakes --list 0 jobs/

It makes as many as COUNT says at random, the same with the same word as seed, or tries those of companion.txt, which it
does not make. ROOMS are folders or modules of the package; without any it is all of it. Each is tried in a copy of the
repository, in which a test can end only its own processes. What the list names for a mistake is tried. Otherwise the
cases that run the line come first, the cheapest of each test before the rest, until one fails or what they cost is
spent; then the units that run it.
"""
import argparse
import ast
import json
import os
import random
import sys
import tempfile
import time
from collections.abc import Iterable, Iterator, Sequence
from concurrent.futures import ThreadPoolExecutor
from pathlib import Path
from queue import Queue
from typing import NamedTuple, Optional

from tests.mistakes.copies import PACKAGE, Copy
from tests.mistakes.generator import Change, Module, functions_of
from tests.mistakes.lists import Planted, listed
from tests.mistakes.maps import Map
from tests.support.cases import ended
from tests.support.checks import PATIENCE, TOP, text_of

LIST = Path(__file__).with_name("companion.txt")
# what the cases of a mistake may cost in all, in the seconds of the map, unless an option says it
MOST = 60.0


class Mistake(NamedTuple):
    """A mistake in a module, and the lines of the statement that has it."""

    file: str
    function: str
    change: Change
    lines: range
    # what is to see it, by the list; nothing sees one without harm
    named: str = ""
    harmless: str = ""

    def applied(self, text: str) -> str:
        """The text of the module with it."""
        return text[: self.change.start] + self.change.new + text[self.change.end :]

    def told(self) -> dict[str, object]:
        """What it is."""
        text, (start, end, new) = text_of(TOP / PACKAGE / self.file), self.change
        first, last = text.rfind("\n", 0, start) + 1, text.find("\n", end)
        was, is_now = text[first:last], text[first:start] + new + text[end:last]
        line = text.count("\n", 0, start) + 1
        return {"file": self.file, "function": self.function, "line": line, "was": was.strip(), "is": is_now.strip()}


class Seen(NamedTuple):
    """What sees a mistake: a case and a module of units, and how many were tried."""

    case: Optional[str]
    units: Optional[str]
    cases_tried: int
    units_tried: int


def mistakes_in(path: Path) -> Iterator[Mistake]:
    """The mistakes that can be made in the functions of a module."""
    text, file = text_of(path), str(path.relative_to(TOP / PACKAGE))
    module = Module(text)
    functions = [node for node in ast.walk(module.tree) if isinstance(node, ast.FunctionDef)]
    for change in dict.fromkeys(module.changes()):
        line = text.count("\n", 0, change.start) + 1
        around = [one for one in functions if one.body[0].lineno <= line <= (one.end_lineno or 0)]
        if around:
            yield Mistake(file, around[-1].name, change, lines_of(around[-1], line))


def lines_of(function: ast.FunctionDef, line: int) -> range:
    """The lines of the innermost statement that has a line, but not those of the statements within it."""
    inner = [
        node
        for node in ast.walk(function)
        if isinstance(node, (ast.stmt, ast.ExceptHandler)) and node.lineno <= line <= (node.end_lineno or 0)
    ][-1]
    body = getattr(inner, "body", None)
    return range(inner.lineno, body[0].lineno if body else (inner.end_lineno or 0) + 1)


def at_random(count: int, seed: str, rooms: Sequence[str]) -> list[Mistake]:
    """As many of the mistakes that can be made in rooms."""
    files = sorted((TOP / PACKAGE).rglob("*.py"))
    chosen = [path for path in files if str(path.relative_to(TOP / PACKAGE)).startswith(tuple(rooms) or "")]
    found = [mistake for path in chosen for mistake in mistakes_in(path)]
    return random.Random(seed).sample(found, min(count, len(found)))


def of_list(rooms: Sequence[str]) -> Iterator[Mistake]:
    """The mistakes of the list in rooms."""
    there = places()
    for one in listed(LIST, Planted)[0]:
        path, start, end = place_of(one, there)
        text, file = text_of(path), str(path.relative_to(TOP / PACKAGE))
        change = smallest(text[start:end], one.applied(text[start:end]), start)
        if file.startswith(tuple(rooms) or ""):
            yield Mistake(file, one.place, change, range(0), one.seen, one.harmless)


def smallest(was: str, is_now: str, start: int) -> Change:
    """The change of a text, which begins at this offset, into another one."""
    first = len(os.path.commonprefix([was, is_now]))
    last = len(os.path.commonprefix([was[first:][::-1], is_now[first:][::-1]]))
    return Change(start + first, start + len(was) - last, is_now[first : len(is_now) - last])


def places() -> dict[str, list[tuple[Path, int, int]]]:
    """The functions and the modules of the package by their names: where the text of each begins and ends."""
    found = {}  # type: dict[str, list[tuple[Path, int, int]]]
    for path in sorted((TOP / PACKAGE).rglob("*.py")):
        text = text_of(path)
        for name, start, end in [(path.name, 0, len(text)), *functions_of(text)]:
            found.setdefault(name, []).append((path, start, end))
    return found


def place_of(one: Planted, there: dict[str, list[tuple[Path, int, int]]]) -> tuple[Path, int, int]:
    """The place that has the text of a mistake of the list, if only one of its name has it."""
    found = [place for place in there.get(one.place, []) if one.stands_once(text_of(place[0])[place[1] : place[2]])]
    if len(found) != 1:
        raise SystemExit(f"{one}: its text stands once in {len(found)} places of this name")
    return found[0]


def in_turn(costs: dict[str, float]) -> list[str]:
    """The cases by their costs, the cheapest of each test before the rest."""
    cases, first = sorted(costs, key=costs.__getitem__), {}  # type: list[str], dict[str, str]
    for case in cases:
        first.setdefault(case.partition(":")[0], case)
    return [*first.values(), *(case for case in cases if case not in first.values())]


class Trial:
    """Tries mistakes in copies."""

    def __init__(self, given: argparse.Namespace, folder: Path) -> None:
        self.map, self.most, self.whole = Map(given.map), given.most, given.whole
        self.copies = Queue()  # type: Queue[Copy]
        for number in range(given.jobs):
            self.copies.put(Copy(folder / str(number)))
        # of the cases that failed, whether they pass without a mistake
        self.well = {}  # type: dict[str, bool]

    def attempt(self, mistake: Mistake) -> Seen:
        """Tries a mistake in a copy."""
        copy = self.copies.get()
        try:
            if mistake.named:
                return Seen(self.seen_by(mistake.named, copy, mistake), None, 1, 0)
            costs = self.map.those_that_run(mistake.file, mistake.lines)
            cases, units = ([one for one in in_turn(costs) if (":" in one) == is_case] for is_case in (True, False))
            case, tried = self.first_that_sees(mistake, copy, cases)
            unit, units_tried = (None, 0) if case and not self.whole else self.first_that_sees(mistake, copy, units)
            return Seen(case, unit, tried, units_tried)
        finally:
            self.copies.put(copy)

    def first_that_sees(self, mistake: Mistake, copy: Copy, cases: Iterable[str]) -> tuple[Optional[str], int]:
        """The first case that sees a mistake, and how many were tried until then, or until what they may cost is
        spent."""
        spent, tried = 0.0, 0
        for case in cases:
            cost = self.map.seconds[case]
            if not tried or spent + cost <= self.most:
                tried, spent = tried + 1, spent + cost
                seen = self.seen_by(case, copy, mistake)
                if seen:
                    return seen, tried
        return None, tried

    def seen_by(self, case: str, copy: Copy, mistake: Mistake) -> Optional[str]:
        """What fails of a case with a mistake, if it passes without one."""
        path, text = copy.folder / PACKAGE / mistake.file, text_of(TOP / PACKAGE / mistake.file)
        path.write_text(mistake.applied(text), encoding="utf-8")
        try:
            failed = copy.run(case, PATIENCE).failed
        finally:
            path.write_text(text, encoding="utf-8")
        if failed and case not in self.well:
            self.well[case] = copy.run(case, PATIENCE).failed is None
        return failed if failed and self.well[case] else None


def tell(number: int, mistake: Mistake, seen: Seen, begun: float, rows: Optional[Path]) -> bool:
    """Prints what sees a mistake, and returns whether anything does."""
    told = mistake.told()
    if rows:
        with rows.open("a", encoding="utf-8") as file:
            how = {
                "case": seen.case,
                "units": seen.units,
                "cases_tried": seen.cases_tried,
                "units_tried": seen.units_tried,
            }
            file.write(json.dumps({"number": number, **told, **how}) + "\n")
    by = seen.case or seen.units or f"none of {seen.cases_tried} cases, {seen.units_tried} units"
    place = "{file}:{line} {function}: {was} -> {is}".format(**told)
    ended("passed" if seen.case or seen.units else "failed", str(number), begun, f"{place} | seen by {by}")
    return bool(mistake.harmless) != bool(seen.case or seen.units)


def main() -> int:
    parser = argparse.ArgumentParser(
        prog="tests.mistakes", description=__doc__, formatter_class=argparse.RawDescriptionHelpFormatter
    )
    parser.add_argument(
        "--map", type=Path, default=Path("build/map"), help="the folder that tests/mistakes/maps.py has made"
    )
    parser.add_argument("--list", action="store_true", help="try the mistakes of the list")
    parser.add_argument("--seed", default="", metavar="WORD", help="make other mistakes than with another word")
    parser.add_argument("--jobs", type=int, default=1, metavar="N", help="try N mistakes at a time")
    parser.add_argument("--most", type=float, default=MOST, metavar="SECONDS", help="what the cases may cost")
    parser.add_argument("--whole", action="store_true", help="try the units too if a case sees it")
    parser.add_argument("--rows", type=Path, metavar="FILE", help="add a line of JSON to it for each mistake")
    parser.add_argument("--from", type=int, default=1, dest="first", metavar="N", help="begin with the mistake N")
    parser.add_argument("count", type=int, metavar="COUNT")
    parser.add_argument("rooms", nargs="*", metavar="ROOM")
    given = parser.parse_args()
    mistakes = list(of_list(given.rooms)) if given.list else at_random(given.count, given.seed, given.rooms)
    with tempfile.TemporaryDirectory(prefix="mistakes-") as name, ThreadPoolExecutor(given.jobs) as pool:
        os.chmod(name, 0o755)
        trial = Trial(given, Path(name))

        def try_one(numbered: tuple[int, Mistake]) -> bool:
            begun = time.monotonic()
            return tell(*numbered, trial.attempt(numbered[1]), begun, given.rows)

        are_seen = list(pool.map(try_one, list(enumerate(mistakes, 1))[given.first - 1 :]))
    return 0 if all(are_seen) else 1


if __name__ == "__main__":
    sys.exit(main())
