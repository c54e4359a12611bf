#!/usr/bin/env -S python3 -B
"""mbox2maildir-admin back, in stories. Random histories are worlds of tests/companion/worlds.py."""
import shutil
from collections.abc import Callable

from tests.support.archives import Home, letters, mail_of, number_of, run_rules
from tests.support.cases import Failed
from tests.support.checks import equal


def goes_back(home: Home, why: str, *numbers: int) -> None:
    """The way back ends well, and a mailbox has these messages then."""
    ran = home.place.run(["back", "--json", "--now", "M", "OLD"])
    there = [number_of(mail) for mail in mail_of((home.path / "OLD").read_bytes())]
    if ran.status != 0 or there != [*numbers]:
        raise Failed(f"{why}: {ran.status}: {there}, not {numbers}: {ran.output}")


def a_name_that_was_placed_again(home: Home) -> None:
    """People moved a message into another folder. The mailbox has one more of it then, which gets the name that the
    first had. Each file is that of a message of the mailbox."""
    home.write("OLD", letters(0))
    home.done("OLD")
    path = home.those(0)[0]
    for sub in ("tmp", "new", "cur"):
        (home.folder("Trash") / sub).mkdir(parents=True)
    path.rename(home.folder("Trash") / "cur" / path.name)
    home.write("OLD", letters(0, 0))
    home.done("OLD")
    goes_back(home, "the first was moved", 0, 0)
    home.has(0, name="Trash")


def names_that_no_line_can_have(home: Home) -> None:
    """Equal messages went back, whose files have such names. One that is deleted in the mailbox then does not go back
    again, and a further one does."""
    home.write("OLD", letters(0))
    home.done("OLD")
    for number in range(2):
        home.place_file(f"{number} name:2,", mail_of(letters(1))[0])
    goes_back(home, "both are new", 0, 1, 1)
    for kept in ([0, 1], [0]):
        home.write("OLD", letters(*kept))
        home.done("OLD")
        goes_back(home, "what was deleted", *kept)
    home.place_file("2 name:2,", mail_of(letters(1))[0])
    goes_back(home, "one more", 0, 1)


def what_was_gone_from_the_mailbox(home: Home) -> None:
    """Messages were gone from the mailbox when it was migrated again. The one that is still in the Maildir goes back,
    and the row says so; what was deleted there too stays away."""
    for numbers in (0, 1, 2), (2,):
        home.write("OLD", letters(*numbers))
        home.done("OLD")
    home.take(1)
    home.place_file("17000.1.host:2,", mail_of(letters(3))[0])
    row = home.place.run(["back", "--json", "--now", "--dry-run", "M", "OLD"]).rows[0]
    says = [one["says"] for one in row["remarks"]]
    equal("a rehearsal", (row["messages"], says), (2, ["1 message in it again that had been gone from it"]))
    row = home.place.run(["back", "--json", "--now", "M", "OLD"]).rows[0]
    equal("what is said", [one["says"] for one in row["remarks"]], says)
    equal("the mail", sorted(map(number_of, mail_of((home.path / "OLD").read_bytes()))), [0, 2, 3])


def one_that_went_back_before(home: Home) -> None:
    """A message went back, and was deleted everywhere since. Another mailbox brings it, and another program renames its
    file: it is there, and was not deleted."""
    home.bring(OLD=letters(0))
    home.place_file("17000.1.host:2,S", mail_of(letters(1))[0])
    goes_back(home, "it is new", 0, 1)
    home.bring(OLD=letters(0))
    home.take(1)
    home.bring(["--again"], OTHER=letters(1))
    home.rename(1, name="17000.2.host")
    ran = home.place.run(["back", "--json", "--now", "M", "OLD", "OTHER"])
    equal("what is said", {(row["verdict"], row["says"]) for row in ran.rows}, {("nothing new", "")})


def a_mailbox_that_has_more(home: Home) -> None:
    """A mailbox grew, and no run saw that before mail went back into it. By the bytes that it has then it is not done:
    its new message comes, also if the record is lost, or the mailbox or its folder has another name meanwhile."""
    old, moved = home.path / "OLD", home.path / "MOVED"

    def to_another_disk() -> None:
        """It is moved there."""
        moved.write_bytes(old.read_bytes())
        old.unlink()

    meanwhile: dict[str, Callable[[], object]] = {
        "nothing": lambda: None,
        "the record is lost": home.record.unlink,
        "it is moved": lambda: old.rename(moved),
        "it is moved to another disk": to_another_disk,
        "its folder is renamed": lambda: home.folder().rename(home.folder("New")),
    }
    for why in home.each(meanwhile):
        home.write("OLD", letters(0))
        home.done("OLD")
        home.place_file("17000.1.host:2,S", mail_of(letters(1))[0])
        home.write("OLD", letters(0, 2))
        goes_back(home, why, 0, 2, 1)
        meanwhile[why]()
        home.done("OLD" if old.exists() else "MOVED")
        home.has(0, 1, 2)


def a_profile_of_thunderbird(home: Home) -> None:
    """Mail of a new folder stays in the Maildir, since Thunderbird and `migrate` would not look for it in the profile.
    Another folder gets it, wherever that is named."""
    home.begin("--jobs", "1")
    home.write("T/profiles.ini", b"")
    home.write("T/x.default/prefs.js", b"")
    home.write("T/x.default/Mail/Local Folders/Inbox", letters(0))
    home.done("T")
    for sub in ("tmp", "new", "cur"):
        (home.folder("New") / sub).mkdir(parents=True)
    home.place_file("17000.1.host:2,", mail_of(letters(1))[0], "New")
    (home.path / "OLD").mkdir()
    home.place.own(*home.path.rglob("*"))
    for profile in ("T", "T/x.default", "T/x.default/Mail/Local Folders"):
        ran = home.place.run(["back", "--json", "--now", "M", profile])
        there = [row["reason"] for row in ran.rows], [*(home.path / "T").rglob("New")]
        equal(f"{profile}: {ran.output}", (ran.status, *there), (1, [None, "no-mailbox"], []))
    equal("with another", home.place.run(["back", "--json", "--now", "M", "T", "OLD"]).status, 0)
    shutil.rmtree(home.maildir)
    home.done("T", "OLD")
    home.has(1, name="New")


RULES = (
    *(a_name_that_was_placed_again, names_that_no_line_can_have, one_that_went_back_before),
    *(what_was_gone_from_the_mailbox, a_mailbox_that_has_more, a_profile_of_thunderbird),
)

if __name__ == "__main__":
    run_rules({rule.__name__: rule for rule in RULES})
