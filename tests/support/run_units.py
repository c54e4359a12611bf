"""Runs the unit tests of a module as cases: python3 -m tests.support.run_units MODULE [--list] [CASE..]"""
import importlib
import sys
import unittest
from collections.abc import Iterator
from functools import partial
from typing import Union

from tests.support.cases import Failed, LeftOut, run_cases


def methods_of(suite: Union[unittest.TestSuite, unittest.TestCase]) -> Iterator[unittest.TestCase]:
    """Each test of a suite."""
    if isinstance(suite, unittest.TestCase):
        yield suite
    else:
        for part in suite:
            yield from methods_of(part)


def run_one(test: unittest.TestCase) -> None:
    """Runs a test, or raises what went wrong."""
    result = unittest.TestResult()
    test.run(result)
    faults = [trace.rstrip("\n") for _, trace in [*result.errors, *result.failures]]
    faults.extend("it succeeded where it was to fail" for _ in result.unexpectedSuccesses)
    if faults:
        raise Failed("\n".join(faults))
    for _, reason in result.skipped:
        raise LeftOut(reason)


def main() -> None:
    """Runs the cases that the words name."""
    module = importlib.import_module(sys.argv.pop(1))
    sys.argv[0] = str(module.__file__)
    tests = methods_of(unittest.defaultTestLoader.loadTestsFromModule(module))
    run_cases({".".join(test.id().split(".")[-2:]): partial(run_one, test) for test in tests})


if __name__ == "__main__":
    main()
