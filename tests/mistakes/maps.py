"""Makes a map of which case of the tests runs which lines of the companion: python3 -m tests.mistakes.maps FOLDER

Each case runs alone, in a copy of the repository whose package notes its lines (lines.c), and each module of units. The
folder gets a file for each, with a byte for each line of the package, and `map.json`: where the lines of each module
begin, and the seconds of each case. Cases that are in the map already are left out. A case that takes too long has no
file. The map is of this commit: another one wants another.
"""
import argparse
import json
import os
import subprocess
import sys
import tempfile
from collections.abc import Iterator, Sequence
from concurrent.futures import ThreadPoolExecutor
from pathlib import Path
from queue import Queue

from tests.mistakes.copies import FOLDERS, PACKAGE, Copy, cases_of, module_of
from tests.support.checks import TOP, text_of

# a case that takes longer, in seconds, sees no mistake within a time that anybody waits
LONGEST = 120
STARTS = """
import sys as _sys
_sys.path.insert(0, %r)
import lines as _lines
del _sys.path[0]
_lines.start(%r, %r, %d)
"""


class Map:
    """Which case runs which lines."""

    def __init__(self, folder: Path) -> None:
        self.folder, self.file = folder, folder / "map.json"
        there = json.loads(text_of(self.file)) if self.file.exists() else {"first": first_lines(), "seconds": {}}
        self.first, self.seconds = there["first"], there["seconds"]

    @property
    def size(self) -> int:
        """How many lines there are."""
        return sum(lines_in(path) + 1 for path in (TOP / PACKAGE).rglob("*.py"))

    def note(self, case: str, lines: bytes, seconds: float) -> None:
        """Takes the lines of a case."""
        Path(self.folder, case).write_bytes(lines)
        self.seconds[case] = round(seconds, 2)
        self.file.write_text(json.dumps({"first": self.first, "seconds": self.seconds}), encoding="utf-8")

    def those_that_run(self, file: str, lines: range) -> dict[str, float]:
        """The cases that run one of these lines of a module, and what a line of the module costs with each: its
        seconds for each line of the module that it runs. Tests that went since are left out."""
        first, found = self.first[file], {}
        for case, seconds in self.seconds.items():
            if not module_of(case.partition(":")[0]):
                continue
            noted = Path(self.folder, case).read_bytes()
            if any(noted[first + line] for line in lines):
                found[case] = seconds / sum(noted[first : first + lines_in(TOP / PACKAGE / file)])
        return found


def lines_in(path: Path) -> int:
    """How many lines a file has."""
    return text_of(path).count("\n") + 1


def first_lines() -> dict[str, int]:
    """Where the lines of each module begin."""
    found, count = {}, 0
    for path in sorted((TOP / PACKAGE).rglob("*.py")):
        found[str(path.relative_to(TOP / PACKAGE))] = count
        count += lines_in(path) + 1
    return found


def cases_there(words: Sequence[str]) -> Iterator[str]:
    """The cases of the companion's tests, and the modules of its units; or those whose name has one of the words."""
    for name in [path.stem for folder in FOLDERS for path in sorted((TOP / "tests" / folder).glob("[a-z]*.py"))]:
        cases = [name] if name.startswith("test_") else [f"{name}:{case}" for case in cases_of(name)]
        yield from (case for case in cases if not words or any(word in case for word in words))


def compiled(folder: Path) -> Path:
    """The module of Python that notes lines, in a folder."""
    path = folder / "lines.so"
    source = str(Path(__file__).with_name("lines.c"))
    headers = "%s/include/python%d.%d" % (sys.base_prefix, *sys.version_info[:2])
    flags = ["-O2", "-shared", "-fPIC", f"-I{headers}"]
    subprocess.run(["cc", *flags, source, "-o", str(path)], check=True)
    return path


def noting_copy(folder: Path, of: Map) -> Copy:
    """A copy whose package notes the lines that run."""
    copy = Copy(folder)
    start = copy.folder / PACKAGE / "__init__.py"
    noted = copy.folder / "noted"
    start.write_text(text_of(start) + STARTS % (str(folder.parent), str(noted), of.first, of.size), encoding="utf-8")
    return copy


def main() -> int:
    parser = argparse.ArgumentParser(description=__doc__, formatter_class=argparse.RawDescriptionHelpFormatter)
    parser.add_argument("--jobs", type=int, default=1, metavar="N")
    parser.add_argument("folder", type=Path, metavar="FOLDER")
    parser.add_argument("words", nargs="*", metavar="WORD")
    given = parser.parse_args()
    given.folder.mkdir(parents=True, exist_ok=True)
    made = Map(given.folder)
    left = [case for case in cases_there(given.words) if case not in made.seconds]
    with tempfile.TemporaryDirectory(prefix="lines-") as name, ThreadPoolExecutor(given.jobs) as pool:
        os.chmod(name, 0o755)
        compiled(Path(name))
        copies = Queue()  # type: Queue[Copy]
        for number in range(given.jobs):
            copies.put(noting_copy(Path(name, str(number)), made))

        def note(case: str) -> None:
            copy = copies.get()
            noted = copy.folder / "noted"
            noted.write_bytes(bytes(made.size))
            noted.chmod(0o666)
            ran = copy.run(case, LONGEST)
            if ran.failed:
                print(f"{case}: failed: {ran.failed}", flush=True)
            else:
                made.note(case, noted.read_bytes(), ran.seconds)
            copies.put(copy)

        list(pool.map(note, left))
    print(f"{len(made.seconds)} cases are in the map")
    return 0


if __name__ == "__main__":
    sys.exit(main())
