"""Several machines migrate their users, each over ssh, as docs/LARGE.md says, by hand and by root: GNU parallel gives
lists of names to three servers of ssh on this one, and the migration of one machine is killed. What parallel begins
anew goes on: each user has each message once. Wants parallel and openssh-server."""
import json
import os
import shutil
import signal
import socket
import subprocess
from collections.abc import Iterator
from contextlib import contextmanager
from pathlib import Path
from typing import Any

from tests.companion.spool import theirs
from tests.support import accounts
from tests.support.cases import LeftOut
from tests.support.checks import TOP, equal, text_of
from tests.support.homes import ADMIN, check_all, mail_in, mailbox, script, want_users
from tests.support.mail import ONE, THREE, TWO
from tests.support.processes import wait_for

MACHINES, USERS = ("mail1", "mail2", "mail3"), 300
# what each user has
TEXT, MESSAGES = ONE + TWO + THREE + ONE.replace(b"Subject: ", b"Subject: another "), 4
SSHD = "/usr/sbin/sshd"
# where the command is, and how it begins
PAGE, START = "docs/LARGE.md", "    parallel --tag --joblog log "


@contextmanager
def servers(home: Path) -> Iterator[None]:
    """Three machines that `ssh NAME` reaches: servers on ports of this one, with a key of their own."""
    key, ports = home / "key", []
    for name in ("key", "host"):
        subprocess.run(["ssh-keygen", "-q", "-t", "ed25519", "-N", "", "-f", str(home / name)], check=True)
    # without it no server starts
    Path("/run/sshd").mkdir(mode=0o755, exist_ok=True)
    running = []
    try:
        for name in MACHINES:
            with socket.socket() as free:
                free.bind(("127.0.0.1", 0))
                ports.append(free.getsockname()[1])
            settings = home / f"sshd.{name}"
            settings.write_text(
                f"Port {ports[-1]}\nListenAddress 127.0.0.1\nHostKey {home}/host\nAuthorizedKeysFile {key}.pub\n"
                f"StrictModes no\nUsePAM no\nPermitRootLogin yes\nPidFile none\n"
                f"SetEnv PATH={home}/bin:{os.environ['PATH']} MACHINE={name}\n",
                encoding="ascii",
            )
            running.append(subprocess.Popen([SSHD, "-D", "-e", "-f", str(settings)], stderr=subprocess.DEVNULL))
        hosts = "".join(f"Host {name}\n  Port {port}\n" for name, port in zip(MACHINES, ports))
        rest = f"Host *\n  HostName 127.0.0.1\n  User root\n  IdentityFile {key}\n  StrictHostKeyChecking no\n"
        rest += "  UserKnownHostsFile /dev/null\n  LogLevel ERROR\n"
        (home / "ssh_config").write_text(hosts + rest, encoding="ascii")
        script(home / "bin/ssh", f'exec {shutil.which("ssh")} -F {home}/ssh_config "$@"')
        yield
    finally:
        for one in running:
            one.kill()
            one.wait()


def command_of_page() -> str:
    """The command of the page, for the spool that is here."""
    found = [line.strip() for line in text_of(TOP / PAGE).splitlines() if line.startswith(START)]
    equal(f"lines that begin with {START!r}", len(found), 1)
    return found[0].replace("/var/mail.old", "$PWD/spool")


def started(home: Path, command: str) -> "subprocess.Popen[bytes]":
    """Starts a command of the page, for all of the machines."""
    env = {**os.environ, "PATH": f"{home}/bin:{os.environ['PATH']}", "HOME": str(home)}
    return subprocess.Popen(command, shell=True, cwd=str(home), env=env, stdout=subprocess.PIPE)


def migrations(machine: str) -> list[int]:
    """The processes of root that migrate the users of a machine; those of users are their children."""
    found = {}
    for process in Path("/proc").glob("[0-9]*"):
        try:
            words = (process / "cmdline").read_bytes().split(b"\0")
            is_its = b"MACHINE=" + machine.encode() in (process / "environ").read_bytes().split(b"\0")
            parent = int((process / "stat").read_text().rpartition(")")[2].split()[1])
        except OSError:
            continue
        if is_its and ADMIN.name.encode() in b" ".join(words) and b"--users" in words and not words[0].endswith(b"sh"):
            found[int(process.name)] = parent
    return [number for number, parent in found.items() if parent not in found]


def sums_in(output: bytes) -> list[dict[str, Any]]:
    """The objects of sums that all machines have printed, behind their names."""
    objects = [json.loads(line.partition(b"\t")[2]) for line in output.splitlines() if b"\t{" in line]
    return [one for one in objects if one["type"] == "sum"]


def killed_and_resumed(home: Path) -> None:
    """The process of the second machine is killed. What the others did stays, and what is begun anew does the rest."""
    want_users()
    if not (shutil.which("parallel") and Path(SSHD).exists()):
        raise LeftOut("it wants GNU parallel and openssh-server")
    homes = {f"m61f{number:03}": home / f"homes/m61f{number:03}" for number in range(USERS)}
    with accounts.users_at_home(homes), servers(home):
        for number, name in enumerate(homes):
            theirs(mailbox(home / "spool" / name, TEXT), name)
            with (home / f"users.{MACHINES[number % 3]}").open("a") as names:
                names.write(name + "\n")
        (home / "spool").chmod(0o711)
        done = [own / "Maildir" for number, own in enumerate(homes.values()) if number % 3 == 1]
        command = command_of_page()
        child = started(home, command)
        try:
            assert wait_for(lambda: sum(map(Path.exists, done)) > 20, child), "it does not migrate"
            for number in migrations("mail2"):
                os.kill(number, signal.SIGKILL)
        finally:
            output = child.communicate()[0]
        equal("how many machines ended", (child.returncode, len(sums_in(output))), (1, 2))
        equal("how many users of the second one are done", sum(map(Path.exists, done)) < len(done), True)
        while child.returncode:
            child = started(home, command.replace("--joblog", "--resume-failed --joblog"))
            output += child.communicate()[0]
        counts = [(one["messages"] + one["before"]["messages"], one["verdicts"]["left"]) for one in sums_in(output)]
        equal("messages of each machine", counts, [(MESSAGES * USERS // 3, 0)] * 3)
        wrong = {name: len(list(mail_in(own / "Maildir"))) for name, own in homes.items()}
        equal("who has more or fewer messages", {name: n for name, n in wrong.items() if n != MESSAGES}, {})


if __name__ == "__main__":
    check_all(killed_and_resumed)
