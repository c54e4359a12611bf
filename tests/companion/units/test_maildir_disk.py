"""What Linux shows of a file system, and what that says of syncs. The lines are those that it showed, and
tests/world/unsynced.py mounts some of them."""
import unittest

from mbox2maildir_admin.maildir.disk import Doubt, doubt_of
from mbox2maildir_admin.nexts import Todo

FUSE = "rw,user_id=0,group_id=0,default_permissions,allow_other"
LAYERS = "rw,lowerdir=low,upperdir=up,workdir=wk"
BINDFS = Doubt("bindfs does not pass on the sync of a folder", Todo.NAME_BELOW)
MERGERFS = Doubt("mergerfs does not pass on the sync of a folder", Todo.NAME_BELOW)
VOLATILE = Doubt("overlayfs is mounted volatile", Todo.MOUNT_OTHERWISE)
LINE = "43 27 8:1 / /mnt rw,nosuid,nodev,relatime shared:7 - %s\n"
SHOWN = {
    "ext4 /dev/loop0 rw": None,
    "btrfs /dev/loop0 rw,space_cache=v2,subvolid=5,subvol=/": None,
    f"overlay overlay {LAYERS},uuid=on": None,
    f"overlay overlay {LAYERS},fsync=strict": None,
    f"overlay overlay {LAYERS}/volatile": None,
    "nfs4 server:/home rw,vers=4.2": None,
    # without a name, as some systems show it
    "tmpfs  rw": None,
    f"overlay overlay {LAYERS},volatile": VOLATILE,
    f"overlay overlay {LAYERS},fsync=volatile": VOLATILE,
    f"fuse.mergerfs a:b {FUSE}": MERGERFS,
    f"fuse.mergerfs pool {FUSE}": MERGERFS,
    # it names the folder that it shows as its source, and itself if the name of that has a space
    f"fuse / {FUSE}": BINDFS,
    f"fuse /none/gone {FUSE}": BINDFS,
    f"fuse.bindfs bindfs {FUSE}": BINDFS,
    f"fuse /dev/null {FUSE}": Doubt("fuse was not tried"),
    f"fuse sshfs#host:/mail {FUSE}": Doubt("fuse was not tried"),
    f"fuseblk /dev/sda1 {FUSE}": Doubt("fuseblk was not tried"),
    f"fuse.fuse-overlayfs fuse-overlayfs {FUSE}": Doubt("fuse.fuse-overlayfs was not tried"),
    f"fuse.gocryptfs / {FUSE}": Doubt("fuse.gocryptfs was not tried"),
    f"virtiofs home {FUSE}": Doubt("virtiofs was not tried"),
    # so Linux shows a folder of Windows
    "9p C:\\134Program\\040Files rw,aname=drvfs;path=C:\\Program Files\\Docker;uid=0": Doubt("9p was not tried"),
}


class DoubtTest(unittest.TestCase):
    def test_what_is_shown(self) -> None:
        for shown, doubt in SHOWN.items():
            self.assertEqual(doubt_of((LINE % shown).encode()), doubt, shown)
