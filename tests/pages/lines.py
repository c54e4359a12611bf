"""Names each line that is too long to be read: in specs and proofs above 160 characters, in sources, which have the
contracts, above 115, and in Python above 120."""
from collections.abc import Iterator

from tests.support.cases import find_nothing
from tests.support.checks import TOP, text_of

LIMITS = {
    "crates/*/specs/**/*.antt": 160,
    "crates/*/proofs/**/*.antt": 160,
    "crates/*/src/**/*.rt": 115,
    "admin/**/*.py": 120,
    "tests/**/*.py": 120,
    "tests/run": 120,
}


def wrong_lengths() -> Iterator[str]:
    """The lines that are longer than lines of their kind may be."""
    for pattern, limit in LIMITS.items():
        paths = sorted(TOP.glob(pattern))
        if not paths:
            yield f"{pattern}: no file is there"
        for path in paths:
            for number, line in enumerate(text_of(path).splitlines(), 1):
                if len(line) > limit:
                    yield f"{path.relative_to(TOP)}:{number}: {len(line)} characters, of at most {limit}"


if __name__ == "__main__":
    find_nothing(globals())
