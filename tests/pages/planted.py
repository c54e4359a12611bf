"""The mistakes that are planted by hand fit the sources: the text that each replaces is there once, and so is the test
that is to see it."""
import re
from collections.abc import Callable, Iterator
from functools import partial

from tests.mistakes.__main__ import LIST, place_of, places
from tests.mistakes.copies import cases_of, module_of
from tests.mistakes.lists import Planted, listed
from tests.program import mutants as program
from tests.support.cases import find_nothing
from tests.support.checks import TOP, text_of


def said_by(look: Callable[[], object]) -> Iterator[str]:
    """What is said of a mistake that can't be planted."""
    try:
        look()
    except SystemExit as reason:
        yield str(reason)


def wrong_program() -> Iterator[str]:
    """Mistakes of the program, and lines of it that have none."""
    mutants, same = listed(program.LIST, program.Mutant)
    wrong = [line for mutant in mutants for line in said_by(partial(mutant.body, text_of(TOP / mutant.file)))]
    yield from wrong or (f"no mistake: {line}" for line in program.lines_without(mutants, same))
    yield from (f"no test: {test}" for test in {mutant.seen for mutant in mutants} if not is_test(test))


def is_test(name: str) -> bool:
    """Whether what is to see a mistake of the program is there: a test, or a case of it."""
    test, _, case = name.partition(":")
    path = TOP / test
    return name in ("", "the prover") or path.is_file() and re.search(rf"\b{case}\b", text_of(path)) is not None


def wrong_companion() -> Iterator[str]:
    """Mistakes of the companion."""
    there = places()
    for one in listed(LIST, Planted)[0]:
        yield from said_by(partial(place_of, one, there))
        name, _, case = one.seen.partition(":")
        path = TOP / f"{module_of(name).replace('.', '/')}.py"
        if name and not path.is_file():
            yield f"no test: {one.seen}"
        # a test may have cases of another one
        elif case and not re.search(rf"\b{case}\b", text_of(path)) and case not in cases_of(name):
            yield f"no case: {one.seen}"


if __name__ == "__main__":
    find_nothing(globals())
