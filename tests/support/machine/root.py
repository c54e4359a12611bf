"""A root of Debian, which debootstrap makes, and what runs in it, in namespaces of its own."""
import os
import shutil
import subprocess
import tempfile
from pathlib import Path
from typing import NamedTuple

from tests.support.checks import TOP, program

# where roots are kept: to make one takes some minutes
ROOTS = Path(os.environ.get("ROOTS", "/var/tmp/mbox2maildir-roots"))
MIRROR = "http://deb.debian.org/debian"
# what each machine has
TOOLS = ["iproute2", "procps", "python3", "sse4.2-support"]
SERVERS = ["dovecot-imapd", "dovecot-lmtpd", "dovecot-pop3d", "procmail"]
# a suite whose glibc is too old, the one from which the pages take another, and where that package is
OLD_GLIBC = {"bullseye": "bookworm"}
GLIBC = Path("srv/glibc")
QUESTIONS = """\
postfix postfix/main_mailer_type select Local only
postfix postfix/mailname string host.example
man-db man-db/auto-update boolean false
"""
# the machine's own folder, its root, the sources and the release come before the command; what changes is in memory,
# and so is /tmp, which is small
ENTER = """\
set -eu
own=$1 root=$2 top=$3 release=$4
shift 4
mount --make-rprivate /
mount -t tmpfs tmpfs "$own"
mkdir "$own/upper" "$own/work" "$own/root"
mount -t overlay overlay -o "lowerdir=$root,upperdir=$own/upper,workdir=$own/work" "$own/root"
cd "$own/root"
mount -t proc proc proc
mount --rbind /dev dev
mount -t tmpfs tmpfs run
mount -t tmpfs -o mode=1777,size=1m tmpfs tmp
mkdir srv/source
mount --bind "$top" srv/source
mount -o remount,bind,ro srv/source
cp -r "$release" srv/release
hostname host.example
ip link set lo up
exec chroot . "$@"
"""
# what a command in a root knows of who runs the test: a folder for files of the moment may be missing there
PATH = "/usr/local/sbin:/usr/local/bin:/usr/sbin:/usr/bin:/sbin:/bin"
ENVIRONMENT = ["env", "-i", f"PATH={PATH}", "HOME=/root", "LC_ALL=C.UTF-8"]


class Root(NamedTuple):
    """A root of Debian by the name of its suite, with the packages of its mail transfer agent."""

    suite: str
    agent: str

    @property
    def path(self) -> Path:
        """The folder of the root."""
        return ROOTS / f"{self.suite}-{self.agent}"

    def make(self) -> None:
        """Makes the root, unless it is there."""
        if self.path.exists():
            return
        part = Path(f"{self.path}.part")
        shutil.rmtree(part, ignore_errors=True)
        ROOTS.mkdir(parents=True, exist_ok=True)
        subprocess.run(["debootstrap", "--variant=minbase", self.suite, part, MIRROR], check=True)
        # no package starts a server
        starts = part / "usr/sbin/policy-rc.d"
        starts.write_text("#!/bin/sh\nexit 101\n")
        starts.chmod(0o755)
        here = ["chroot", str(part), *ENVIRONMENT, "DEBIAN_FRONTEND=noninteractive"]
        subprocess.run([*here, "debconf-set-selections"], input=QUESTIONS.encode(), check=True)
        packages = [self.agent, *TOOLS, *SERVERS]
        subprocess.run([*here, "apt-get", "-qy", "--no-install-recommends", "install", *packages], check=True)
        if self.suite in OLD_GLIBC:
            fetch_glibc(part, here, OLD_GLIBC[self.suite])
        part.rename(self.path)

    def run(self, *words: str) -> int:
        """Runs a command in the root, in the folder of the sources, and returns its status. Nothing of what it changes
        is kept, and what it started ends with it."""
        spaces = ["unshare", "--mount", "--pid", "--net", "--uts", "--ipc", "--fork", "--kill-child"]
        with tempfile.TemporaryDirectory() as own, tempfile.TemporaryDirectory() as release:
            # one package is for each suite
            subprocess.run([TOP / "packaging/release", program(), release, "deb", "tarball"], check=True)
            inside = [*ENVIRONMENT, "sh", "-c", 'cd /srv/source && exec "$@"', "sh", *words]
            enter = [*spaces, "sh", "-c", ENTER, "sh", own, str(self.path), str(TOP), release]
            return subprocess.call([*enter, *inside], stdin=subprocess.DEVNULL, stderr=subprocess.STDOUT)


def fetch_glibc(root: Path, here: list[str], suite: str) -> None:
    """Fetches the package of another suite's glibc into a root. It is not installed."""
    (root / GLIBC).mkdir()
    # the program that fetches it is not root
    (root / GLIBC).chmod(0o777)
    source = root / "etc/apt/sources.list.d/glibc.list"
    source.write_text(f"deb {MIRROR} {suite} main\n")
    script = f"cd /{GLIBC} && apt-get -q update && apt-get -q download libc6/{suite}"
    subprocess.run([*here, "sh", "-c", script], check=True)
    source.unlink()
