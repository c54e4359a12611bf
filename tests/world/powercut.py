"""Cuts the power of real file systems while the programs work on them, and looks at what is left: by hand, as root.

A disk that keeps a log of its writes and flushes is a FUSE file behind a loop device; tests/support/powercut has all
of that. A state is what a power cut may leave of the disk: all writes before the last flush that ended, and of those
since then all, none or some, the last one whole or torn. Each state is mounted, as after a cut, and looked at; on a
share of them the same run is made again, twice.

A case is a file system and a workload, in which nothing is wrong but what docs/MODEL.md says. A case with `without`
in its name leaves syncs out, and what that costs must be seen. One of the Maildir itself, or of its parent, is in
none: all that were tried keep a new folder together with what is synced in it.

It wants /dev/fuse, loop devices, a C compiler, pkg-config, fuse3 and its headers, e2fsprogs, xfsprogs and
btrfs-progs, for some cases bindfs and mergerfs, and some 150 MB below --work, best in memory. Not seen is what a disk
does that lies about flushes or breaks what is not being written, and what is lost only after minutes.
"""
import argparse
import os
import random
import shutil
import signal
import subprocess
import sys
import tempfile
from collections.abc import Callable, Sequence
from functools import partial
from multiprocessing import Process
from pathlib import Path
from typing import NamedTuple

from tests.support.cases import Failed, LeftOut, run_cases
from tests.support.checks import TOP
from tests.support.homes import install, want_root
from tests.support.powercut.checks import Wrong
from tests.support.powercut.devices import run
from tests.support.powercut.examination import Examination, Result, Sample
from tests.support.powercut.migrations import Broken, BrokenDovecot, Dates, Dovecot, DovecotUnseen, Migrate, Tree
from tests.support.powercut.migrations import Undone, Users
from tests.support.powercut.others import MigratedOnBindfs, OnBindfs, OnMergerfs, OnOverlay, OnVolatile, Restored
from tests.support.powercut.others import RestoredMigrated, RestoredSynced
from tests.support.powercut.passes import AnotherFirst, Passes, PassesOfServer
from tests.support.powercut.readers import Again, Between, BetweenListings, Later, Reader
from tests.support.powercut.returned import Returned
from tests.support.powercut.sharing import BroughtAgain, Grown, Overlapping
from tests.support.powercut.systems import SYSTEMS
from tests.support.powercut.workloads import Fresh, Home, Killed, Seen, Tools, Unseen, Workload

SOURCES = TOP / "tests/support/powercut"
WORKLOADS = {
    "convert": Workload,
    "reader": Reader,
    "again": Again,
    "between": Between,
    "between_listings": BetweenListings,
    "later": Later,
    "killed": Killed,
    "fresh": Fresh,
    "home": Home,
    "migrate": Migrate,
    "broken": Broken,
    "dovecot": Dovecot,
    "broken_dovecot": BrokenDovecot,
    "dates": Dates,
    "undone": Undone,
    "tree": Tree,
    "users": Users,
    "overlapping": Overlapping,
    "grown": Grown,
    "brought_again": BroughtAgain,
    "passes": Passes,
    "another_first": AnotherFirst,
    "passes_of_server": PassesOfServer,
    "returned": Returned,
    "restored_synced": RestoredSynced,
    "restored_migrated": RestoredMigrated,
    "on_overlay": OnOverlay,
}  # type: dict[str, type[Workload]]
AMONG_READERS = ("reader", "again", "between", "between_listings", "later")
# on other file systems two workloads are enough
WHOLE = ("ext4", "xfs", "btrfs", "ext2")
OTHERS = ("ext3", "ext4_writeback", "ext4_journal", "ext4_nodelalloc", "ext4_noauto", "ext4_no_journal")
TWO = ("convert", "reader")
# what may be wrong by MODEL.md: half of a rename is kept, also of one by a mail reader; and without a journal, if a
# mail reader deletes and moves, whatever follows from a name whose deletion is not on the disk, or if `migrate` sets
# flags, whatever follows from that before it is done
HALVED = frozenset([Wrong.IN_TMP])
HALVED_BY_READERS = HALVED | {Wrong.TWO_NAMES, Wrong.TWO_NAMES_AFTER}
HALVED_BY_FLAGS = HALVED | {Wrong.TWO_NAMES, Wrong.BYTES}
# and if `migrate --undo` removes mail, a name beside it
LOST_BY_REMOVAL = HALVED | {Wrong.MISSING}
# what another program copied may lack its bytes, until it is synced; then nothing may be missing
UNTIL_SYNCED = frozenset([Wrong.BYTES, Wrong.NOT_FINISHED])
WITHOUT_JOURNAL = HALVED_BY_READERS | {Wrong.MISSING, Wrong.BYTES, Wrong.DOUBLE, Wrong.NOT_FINISHED, Wrong.OTHERS}


class Control(NamedTuple):
    """A workload with syncs left out, by their kinds in syncs.c, and what must be seen."""

    system: str
    workload: type[Workload]
    kinds: str
    seen: frozenset[Wrong]


LOST = frozenset([Wrong.MISSING])
TOO_LATE = frozenset([Wrong.MISSING, Wrong.BYTES])
UNDATED = frozenset([Wrong.UNDATED])
CONTROLS = {
    **{f"{system}_without_file": Control(system, Workload, "file", TOO_LATE) for system in WHOLE},
    # on ext4 a sync of any folder keeps everything before it: so all of these are left out there, or none is missed
    "ext4_without_names": Control("ext4", Unseen, "new cur folder", LOST),
    "ext3_without_names": Control("ext3", Unseen, "new cur folder", LOST),
    **{f"{system}_without_new": Control(system, Unseen, "new", LOST) for system in WHOLE[1:]},
    **{f"{system}_without_cur": Control(system, Seen, "cur", LOST) for system in WHOLE[1:]},
    "btrfs_without_listed": Control("btrfs", Again, "listed_new listed_cur", frozenset([Wrong.DOUBLE])),
    **{f"{system}_without_disk": Control(system, Migrate, "disk", UNDATED) for system in WHOLE[2:]},
    "btrfs_dovecot_without_disk": Control("btrfs", DovecotUnseen, "disk", UNDATED),
    "btrfs_dates_without_disk": Control("btrfs", Dates, "disk", UNDATED),
    **{
        f"{system}_undone_without_names": Control(
            system, Undone, "listed_new listed_cur folder", frozenset([Wrong.BACK])
        )
        for system in WHOLE[2:]
    },
    # what is to be placed is noted before it is
    **{
        f"{system}_overlapping_without_ledger": Control(
            system, Overlapping, "ledger", frozenset([Wrong.NOT_FINISHED, Wrong.DOUBLE])
        )
        for system in ("xfs", "btrfs", "ext2")
    },
    # nothing is left out, but another program had copied the mail and not synced it
    **{f"{system}_restored": Control(system, Restored, "", TOO_LATE) for system in WHOLE},
    # nothing is left out, but these pass on no sync of a folder
    **{f"{system}_on_bindfs": Control(system, OnBindfs, "", LOST) for system in WHOLE},
    # on ext4 and XFS a sync of the record keeps all names before it
    **{f"{system}_migrated_on_bindfs": Control(system, MigratedOnBindfs, "", LOST) for system in WHOLE[2:]},
    **{f"{system}_on_mergerfs": Control(system, OnMergerfs, "", LOST) for system in WHOLE},
    **{f"{system}_on_volatile": Control(system, OnVolatile, "", LOST) for system in WHOLE[:3]},
    # nothing is left out, except what a flush is for
    "ext4_nobarrier_without_flushes": Control("ext4_nobarrier", Workload, "", TOO_LATE),
    # on a file system that keeps less, one sees what there is to see
    "ext2_without_journal": Control("ext2", Reader, "", frozenset([Wrong.MISSING, Wrong.BYTES, Wrong.TWO_NAMES_AFTER])),
}  # type: dict[str, Control]


def allowed(system: str, name: str) -> frozenset[Wrong]:
    """What may be wrong with a workload on a file system, by MODEL.md."""
    is_among_readers = name in AMONG_READERS
    restored = UNTIL_SYNCED if name.startswith("restored") else frozenset()
    if system in ("ext2", "ext4_no_journal"):
        by_word = {"undone": LOST_BY_REMOVAL, "dovecot": HALVED_BY_FLAGS, "broken_dovecot": HALVED_BY_FLAGS}
        return restored | (WITHOUT_JOURNAL if is_among_readers else by_word.get(name, HALVED))
    if system == "btrfs":
        return restored | (HALVED_BY_READERS if is_among_readers else HALVED)
    return restored


def flags_of_fuse() -> list[str]:
    """What a compiler is told about the library of FUSE. A case is left out if that, or another tool, is not here."""
    want_root()
    for path in ("/dev/fuse", "/dev/loop-control"):
        if not os.path.exists(path):
            raise LeftOut(f"{path} is not here")
    for name in ("cc", "pkg-config", "losetup", "e2fsck", "mkfs.ext4", "mkfs.xfs", "mkfs.btrfs"):
        if not shutil.which(name):
            raise LeftOut(f"{name} is not here")
    try:
        return run(["pkg-config", "--cflags", "--libs", "fuse3"]).split()
    except OSError as fault:
        raise LeftOut("the headers of fuse3 are not here") from fault


class Bench:
    """The folder in which cases are tried, with the tools, which are built for the first case."""

    def __init__(self, folder: str, sample: Sample) -> None:
        self.folder, self.sample, self.is_ready = folder, sample, False
        bench = Path(folder)
        self.tools = Tools(
            *(str(bench / name) for name in ("bin/mbox2maildir", "bin/mbox2maildir-admin", "cutdisk", "syncs.so"))
        )

    def make_ready(self) -> None:
        """Builds the tools."""
        if self.is_ready:
            return
        flags = flags_of_fuse()
        for sources in (
            [self.tools.cutdisk, str(SOURCES / "cutdisk.c"), *flags],
            [self.tools.library, "-fPIC", "-shared", str(SOURCES / "syncs.c")],
        ):
            subprocess.run(["cc", "-O2", "-o", *sources], check=True)
        install(Path(self.folder, "bin"))
        # the users of a workload must reach what is below
        os.chmod(self.folder, 0o755)
        self.is_ready = True

    def look(self, name: str, system: str, workload: type[Workload], kinds: str = "") -> Result:
        """Looks at what cuts leave of a workload with some syncs left out, and prints that."""
        self.make_ready()
        work = os.path.join(self.folder, "work")
        shutil.rmtree(work, ignore_errors=True)
        os.mkdir(work)
        environment = {"SYNCS_LEFT_OUT": kinds} if kinds else None
        made = workload(self.tools, work, random.Random(self.sample.seed), environment)
        result = Examination(made, SYSTEMS[system], self.sample, work).run(self.tools.cutdisk)
        print(f"{name}: {result}", flush=True)
        return result

    def holds(self, name: str, system: str, word: str) -> None:
        """Only what may be wrong with a workload is wrong."""
        result = self.look(name, system, WORKLOADS[word])
        wrong = set(result.wrong) - allowed(system, word)
        if wrong:
            raise Failed("\n".join(f"{name}: {line}" for which, line in result.shown if which in wrong))

    def catches(self, name: str, control: Control) -> None:
        """The cost of syncs that are left out is seen."""
        result = self.look(name, control.system, control.workload, control.kinds)
        if not control.seen & set(result.wrong):
            raise Failed(f"{name}: none of these was seen: {', '.join(wrong.value for wrong in control.seen)}")


def cases_of(bench: Bench) -> dict[str, Callable[[], None]]:
    """Each case by its name."""
    pairs = [(system, word) for system in WHOLE for word in WORKLOADS]
    pairs += [(system, word) for system in OTHERS for word in TWO]
    cases = {}  # type: dict[str, Callable[[], None]]
    for system, word in pairs:
        cases[f"{system}_{word}"] = partial(bench.holds, f"{system}_{word}", system, word)
    for name, control in CONTROLS.items():
        cases[name] = partial(bench.catches, name, control)
    return cases


def given() -> argparse.Namespace:
    """The words of the command line."""
    parser = argparse.ArgumentParser(description=__doc__, formatter_class=argparse.RawDescriptionHelpFormatter)
    parser.add_argument("--list", action="store_true", help="print the cases")
    parser.add_argument("--states", type=int, default=220, help="how many disks of each log are looked at")
    parser.add_argument("--again", type=float, default=0.4, help="on which share of them the run is made again")
    parser.add_argument("--seed", type=int, default=1, help="what chance begins with")
    parser.add_argument("--twice", type=int, default=0, help="on how many of them the run made again is cut too")
    parser.add_argument("--keep", help="a folder that gets the first image of each wrong")
    parser.add_argument("--work", help="where disks are kept meanwhile; best in memory")
    parser.add_argument("--jobs", type=int, default=len(os.sched_getaffinity(0)), help="how many cases run at a time")
    parser.add_argument("cases", nargs="*", metavar="CASE")
    return parser.parse_args()


def run_part(names: Sequence[str], options: argparse.Namespace) -> None:
    """Runs some of the cases in a process of their own, which ends with their status."""
    # so that mounts and loop devices are given back
    signal.signal(signal.SIGTERM, lambda number, frame: sys.exit(128 + number))
    sample = Sample(options.states, options.seed, options.again, options.twice, options.keep)
    with tempfile.TemporaryDirectory(prefix="powercut-", dir=options.work) as folder:
        run_cases(cases_of(Bench(folder, sample)), names)


def main() -> None:
    options = given()
    if options.list:
        run_part(["--list"], options)
    every = list(cases_of(Bench("", Sample(0, 0))))
    names = options.cases or every
    unknown = set(names) - set(every)
    if unknown:
        sys.exit(f"powercut: no case {', '.join(sorted(unknown))}")
    shares = [names[job :: options.jobs] for job in range(min(options.jobs, len(names)))]
    parts = [Process(target=run_part, args=(share, options)) for share in shares]
    signal.signal(signal.SIGTERM, lambda number, frame: sys.exit(128 + number))
    for part in parts:
        part.start()
    try:
        for part in parts:
            part.join()
    finally:
        for part in parts:
            part.terminate()
            part.join()
    sys.exit(1 if any(part.exitcode for part in parts) else 0)


if __name__ == "__main__":
    main()
