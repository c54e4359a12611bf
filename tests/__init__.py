"""The tests: `tests/run --list` prints them, and `tests/run NAME` runs one."""
import sys
from pathlib import Path

# the companion's package, which is not installed
sys.path.insert(0, str(Path(__file__).resolve().parents[1] / "admin"))
