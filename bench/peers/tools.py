"""The converters, each by the command that its own page names."""
import shlex
import shutil
import subprocess
from pathlib import Path
from typing import Callable, Dict, List, NamedTuple, Optional

# Dovecot drops the rights of root
USER, GROUP = "nobody", "nogroup"
# stands for the location of the mailbox in Dovecot's words
SOURCE = "{source}"

PROCMAILRC = "MAILDIR={home}\nDEFAULT={maildir}/\nLOGFILE={home}/log\n"
MUTT_SETTINGS = (
    "set folder=~; set mbox_type=Maildir; set confirmcreate=no; set confirmappend=no; set delete=no; set move=no; set quit=yes; "
    'set copy=no; set record=""; set mail_check=0; set auto_tag=yes'
)
PYTHON = """import mailbox, sys
destination = mailbox.Maildir(sys.argv[2])
destination.lock()
for message in mailbox.mbox(sys.argv[1]):
    destination.add(mailbox.MaildirMessage(message))
destination.flush()
"""
PERL = """use Mail::Box::Manager;
my $manager = Mail::Box::Manager->new;
my $source = $manager->open(folder => $ARGV[0]);
my $target = $manager->open(folder => $ARGV[1], type => "Mail::Box::Maildir", access => "rw", create => 1);
$source->copyTo($target, select => "ALL");
$manager->closeAllFolders;
"""
DOVECOT = """mail_location = maildir:{maildir}
base_dir = {home}/run
state_dir = {home}/state
mail_home = {home}
mail_uid = {user}
mail_gid = {group}
first_valid_uid = 0
first_valid_gid = 0
ssl = no
namespace inbox {{
  inbox = yes
  separator = /
}}
"""


class Place(NamedTuple):
    """The folder in which a converter finds the mailbox, and the files of its own."""

    home: Path
    mailbox: Path
    maildir: Path

    def write(self, name: str, template: str) -> Path:
        """Writes a file of the converter's own, in which names stand for the places."""
        file = self.home / name
        file.write_text(
            template.format(home=self.home, maildir=self.maildir, user=USER, group=GROUP)
            if "{" in template
            else template
        )
        return file


class Tool(NamedTuple):
    """A converter: its name, the package that brings it, and how it is called."""

    name: str
    package: str
    # the program without which the converter is left out
    program: str
    command: Callable[[Place], List[str]]
    reads_stdin: bool = False
    # whether it runs with another user's rights; that user must own everything that it gets
    drops_rights: bool = False
    # whether the Maildir must exist
    wants_maildir: bool = False

    def is_there(self) -> bool:
        """Whether this machine has the converter."""
        return shutil.which(self.program) is not None and (
            self.name != "Mail::Box"
            or not subprocess.call(["perl", "-MMail::Box", "-e", "1"], stderr=subprocess.DEVNULL)
        )


def mutt(place: Place) -> List[str]:
    """mutt has no batch mode for this. It gets its keys on the command line, and a terminal from script(1)."""
    keys = 'push "<tag-pattern>~A<enter><copy-message>%s<enter><exit>"' % place.maildir
    words = ["mutt", "-n", "-F", "/dev/null", "-f", str(place.mailbox), "-e", MUTT_SETTINGS, "-e", keys]
    return ["script", "-qec", "stty rows 40 cols 120; " + " ".join(map(shlex.quote, words)), "/dev/null"]


def dovecot(place: Place, *words: str) -> List[str]:
    """doveadm with a configuration of its own, and without a server. The mailbox is the INBOX of its mbox location."""
    source = "mbox:%s:INBOX=%s" % (place.mailbox.parent, place.mailbox)
    words = tuple(source if word == SOURCE else word for word in words)
    return ["doveadm", "-c", str(place.write("dovecot.conf", DOVECOT)), *words]


def tools_of(program: Path, admin: Path) -> List[Tool]:
    """All converters, beginning with this project's own."""
    return [
        Tool(
            "mbox2maildir convert",
            "",
            str(program),
            lambda place: [str(program), "convert", str(place.maildir), str(place.mailbox)],
        ),
        Tool(
            "mbox2maildir-admin migrate",
            "",
            str(admin),
            lambda place: [str(admin), "migrate", "--now", str(place.maildir), str(place.mailbox)],
        ),
        Tool("mb2md", "mb2md", "mb2md", lambda place: ["mb2md", "-s", str(place.mailbox), "-d", str(place.maildir)]),
        Tool(
            "formail, procmail",
            "procmail",
            "formail",
            lambda place: ["formail", "-s", "procmail", "-m", str(place.write("procmailrc", PROCMAILRC))],
            reads_stdin=True,
        ),
        Tool("mutt", "mutt", "mutt", mutt),
        Tool(
            "mdeliver -M",
            "mblaze",
            "mdeliver",
            lambda place: ["mdeliver", "-M", str(place.maildir)],
            reads_stdin=True,
            wants_maildir=True,
        ),
        Tool(
            "movemail -p",
            "mailutils",
            "movemail",
            lambda place: ["movemail", "-p", "mbox://%s" % place.mailbox, "maildir://%s" % place.maildir],
        ),
        Tool(
            "doveadm import",
            "dovecot-core",
            "doveadm",
            lambda place: dovecot(place, "import", SOURCE, "", "ALL"),
            drops_rights=True,
        ),
        Tool(
            "doveadm backup -R",
            "dovecot-core",
            "doveadm",
            lambda place: dovecot(place, "backup", "-R", SOURCE),
            drops_rights=True,
        ),
        Tool(
            "Python's mailbox",
            "python3",
            "python3",
            lambda place: ["python3", str(place.write("convert.py", PYTHON)), str(place.mailbox), str(place.maildir)],
        ),
        Tool(
            "Mail::Box",
            "libmail-box-perl",
            "perl",
            lambda place: ["perl", str(place.write("convert.pl", PERL)), str(place.mailbox), str(place.maildir)],
        ),
    ]


def version_of(package: str) -> Optional[str]:
    """The version of a package of Debian."""
    run = subprocess.run(
        ["dpkg-query", "-W", "-f", "${Version}", package],
        stdout=subprocess.PIPE,
        stderr=subprocess.DEVNULL,
        check=False,
    )
    return run.stdout.decode() or None


def versions_of(tools: List[Tool]) -> Dict[str, str]:
    """The versions of the packages of these converters."""
    return {tool.package: version_of(tool.package) or "" for tool in tools if tool.package}
