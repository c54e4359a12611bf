"""The file systems whose power is cut: how each is made, mounted, mended and repaired."""
import subprocess
from collections.abc import Iterator
from contextlib import contextmanager
from typing import NamedTuple

from tests.support.powercut.devices import mounted

FSCK = "e2fsck -fy"
OF_EXT = "-q -F -b 4096 -N 2000"


class System(NamedTuple):
    """A file system: its kind for mount(2), the command that makes it, the options of its mounting, the command that
    mends it before that after a cut, if it has no journal, the command that repairs it if it can't be mounted, and its
    size."""

    kind: str
    make: str
    options: str = ""
    mend: str = ""
    repair: str = FSCK
    megabytes: int = 160

    @contextmanager
    def mounted(self, device: str, at: str, mend: str = "") -> Iterator[None]:
        """Mounts it from a device, after a command has mended that. The status of the command says what it found."""
        if mend:
            subprocess.run([*mend.split(), device], stdout=subprocess.DEVNULL, stderr=subprocess.DEVNULL, check=False)
        with mounted(device, at, self.kind, self.options):
            yield


def ext4(options: str = "") -> System:
    """An ext4 with options of its mounting."""
    return System("ext4", f"mkfs.ext4 {OF_EXT}", options)


# xfs_repair would throw the log away, and with it everything that is only in the log
SYSTEMS = {
    "ext4": ext4(),
    "ext4_writeback": ext4("data=writeback"),
    "ext4_journal": ext4("data=journal"),
    "ext4_nodelalloc": ext4("nodelalloc"),
    "ext4_noauto": ext4("noauto_da_alloc"),
    # it asks the disk for no flush
    "ext4_nobarrier": ext4("barrier=0"),
    "ext4_fast_commit": System("ext4", f"mkfs.ext4 -O fast_commit {OF_EXT}"),
    "ext4_no_journal": System("ext4", f"mkfs.ext4 -O ^has_journal {OF_EXT}", mend=FSCK),
    "ext3": System("ext3", f"mkfs.ext3 {OF_EXT}"),
    "ext2": System("ext2", f"mkfs.ext2 {OF_EXT}", mend=FSCK),
    "xfs": System("xfs", "mkfs.xfs -q -f", repair="", megabytes=320),
    "btrfs": System("btrfs", "mkfs.btrfs -q -f", repair="btrfs rescue super-recover -y", megabytes=256),
}  # type: dict[str, System]
