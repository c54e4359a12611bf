"""The dates that files get: from From_ lines of each form, from headers, and of many messages."""
import os
import re
from collections.abc import Sequence
from datetime import datetime, timedelta, timezone
from pathlib import Path
from typing import Optional

from tests.companion.hostile import FAILING, SYNCING
from tests.support.checks import equal, match_in
from tests.support.homes import by_json, check_all, doing_first, expect, files_of, mail_in, mailbox, run
from tests.support.mail import A, B
from tests.support.printed import in_quotes

MANY = 40_000

# how far east of Greenwich the zones are that have names, in hours: those of North America as in RFC 5322,
# the others as in the tz database
EAST = {
    0: "Z UT UTC GMT WET",
    1: "WEST BST CET MET MEZ",
    2: "CEST MEST MESZ EET",
    3: "EEST MSK",
    4: "MSD",
    8: "SGT HKT AWST",
    9: "JST KST",
    9.5: "ACST",
    10: "AEST",
    10.5: "ACDT",
    11: "AEDT",
    12: "NZST",
    13: "NZDT",
    -2.5: "NDT",
    -3: "ADT",
    -3.5: "NST",
    -4: "AST EDT",
    -5: "EST CDT",
    -6: "CST MDT",
    -7: "MST PDT",
    -8: "PST AKDT",
    -9: "AKST",
    -10: "HST",
}
NOON = datetime(2006, 2, 1, 12)
# From_ lines after `From `, and the moment that each means in New York; None if no date is to be understood
FORMS = [
    *(
        (f"a@b Wed Feb  1 12:00:00 2006 {zone}", f"{NOON - timedelta(hours=east)}+00:00")
        for east, zones in EAST.items()
        for zone in zones.split()
    ),
    ("a@b Mon Mar  3 09:12:44 2025", "2025-03-03T09:12:44-05:00"),
    ("a@b Thu Jul  3 09:12:44 2025\r", "2025-07-03T09:12:44-04:00"),
    ("a@b thu jul 03 9:12 2025", "2025-07-03T09:12:00-04:00"),
    ("- Mon Mar 03 09:12:44 2025", "2025-03-03T09:12:44-05:00"),
    ("a@b Mon Mar  3 09:12:44 2025 +0000", "2025-03-03T09:12:44+00:00"),
    ("a@b Mon Mar  3 09:12:44 2025 +0530", "2025-03-03T09:12:44+05:30"),
    ("a@b Mon Mar  3 09:12:44 2025 -0930 (there)", "2025-03-03T09:12:44-09:30"),
    ("1@xxx Mon Mar 03 09:12:44 -0700 2025", "2025-03-03T09:12:44-07:00"),
    ("upi at papat.org  Wed Feb  1 09:12:44 2006", "2006-02-01T09:12:44-05:00"),
    ("a@b Wed Feb  1 09:12 PST 2006", "2006-02-01T09:12:00-08:00"),
    ("a@b Wed Feb  1 09:12:44 MET 2006", "2006-02-01T09:12:44+01:00"),
    ("a@b Sat Jul  1 09:12:44 MET DST 1995", "1995-07-01T09:12:44+02:00"),
    ("a@b Sat Jul  1 09:12:44 2006 CEST", "2006-07-01T09:12:44+02:00"),
    ("a@b Wed Feb  1 09:12:44 GMT+0100 2006", "2006-02-01T09:12:44+01:00"),
    ("a!b Wed Feb  1 09:12:44 1995 remote from c", "1995-02-01T09:12:44-05:00"),
    ("a@b Mon, 3 Mar 2025 09:12:44 +0100", "2025-03-03T09:12:44+01:00"),
    ("a@b Mon, 3 Mar 97 09:12:44 EST", "1997-03-03T09:12:44-05:00"),
    ("a@b Thu Feb 29 23:59:59 2024 -0500", "2024-02-29T23:59:59-05:00"),
    ("a@b Sun Mar  9 02:30:00 2025", "2025-03-09T03:30:00-04:00"),  # left out by the summer time
    ("a@b Fri Jan  1 00:00:00 1960 Z", "1960-01-01T00:00:00+00:00"),
    ("a@b Sun Jan  1 00:00:00 2040 UTC", "2040-01-01T00:00:00+00:00"),
    ("a@b 2025-03-03T09:12:44Z", "2025-03-03T09:12:44+00:00"),
    ("a@b 2025-07-03 09:12:44.5+05:30", "2025-07-03T09:12:44+05:30"),
    ("a@b 2025-07-03T09:12", "2025-07-03T09:12:00-04:00"),
    ("a@b Mon Mar  3 09:12:44 2025 resent Tue Mar  4 10:00:00 2025", "2025-03-03T09:12:44-05:00"),
    # years of two digits are of this century up to 49, by RFC 5322
    ("a@b 3 Mar 49 09:12:44 +0000", "2049-03-03T09:12:44+00:00"),
    ("a@b 3 Mar 50 09:12:44 +0000", "1950-03-03T09:12:44+00:00"),
    ("a@b 3 Mar 00 09:12:44 +0000", "2000-03-03T09:12:44+00:00"),
    # days on which the clock is changed, and those beside them
    ("a@b Sun Mar  9 01:59:59 2025", "2025-03-09T01:59:59-05:00"),
    ("a@b Sun Mar  9 03:00:00 2025", "2025-03-09T03:00:00-04:00"),
    ("a@b Mon Mar 10 00:00:00 2025", "2025-03-10T00:00:00-04:00"),
    ("a@b Sun Nov  2 00:59:59 2025", "2025-11-02T00:59:59-04:00"),
    ("a@b Sun Nov  2 02:00:00 2025", "2025-11-02T02:00:00-05:00"),
    # a second that is one too many
    ("a@b Sat Mar  8 23:59:60 2025", "2025-03-09T00:00:00-05:00"),
    ("a@b Wed Feb  1 09:12:44 XYZ 2006", None),
    ("a@b Thu Jan  1 00:00:00 1970 +0100", None),
    ("a@b 2025-13-03T09:12:44Z", None),
    ("a@b 2025-02-31T09:12:44Z", None),
    ("a@b 2025-03-03T09:12:44Z and more", None),
    ("a@b 1970-01-01T00:00:00Z", None),
    ("a@b Wed Feb  1 09:12:44 2006 XYZ", None),
    ("a@b Wed Feb  1 09:12:44 2006 +9900", None),
    ("a@b Mon Feb 31 09:12:44 2025", None),
    ("a@b Mon Mar  0 09:12:44 2025", None),
    ("a@b Mon Mar  3 25:12:44 2025", None),
    ("MAILER-DAEMON Thu Jan  1 00:00:00 1970", None),
    ("MAILER-DAEMON Wed Dec 31 19:00:00 1969", None),  # the same, as a program in New York writes it
    ("the first of May we are here.", None),
    ("a@b", None),
    ("", None),
]
# dates of files begin in 1901, as ext4 has them
FROM_1901 = """import os
utime = os.utime
os.utime = lambda path, times=None, **more: utime(path, times and tuple(max(one, -1 << 31) for one in times), **more)"""
NEW_YORK = "EST5EDT,M3.2.0,M11.1.0"
# headers Date, which count where a From_ line has no date: without a zone, or with an unknown one, some are in UTC
HEADERS = [
    ("Mon, 3 Mar 2025 09:12:44", "2025-03-03T09:12:44-05:00"),
    ("Monday, 03-Mar-97 09:12:44 GMT", "1997-03-03T09:12:44+00:00"),
    ("3 March 2025 09:12:44 +0100", "2025-03-03T09:12:44+01:00"),
    ("Mon, 3 Mar 2025 09.12.44 +0000", "2025-03-03T09:12:44+00:00"),
    ("March 3, 2025 09:12:44", "2025-03-03T09:12:44+00:00"),
    ("Mon, 3 Mar 2025 09:12:44 XYZ", "2025-03-03T09:12:44+00:00"),
    ("Thu, 31 Dec 2099 23.59.59 +0000", "2099-12-31T23:59:59+00:00"),
    ("yesterday", None),
    ("Thu, 1 Jan 1970 00:00:00 +0000", None),
    ("Wed, 31 Dec 1969 09.12.44 +0000", None),
    ("Fri, 1 Jan 2100 00.00.00 +0000", None),
    ("Mon, 31 Feb 2025 09.12.44 +0000", None),
    ("Mon, 3 Mar 2025 25.12.44 +0000", None),
    ("Mon, 3 Mar 99999999999999999999 09:12:44 +0000", None),
    # the library for headers fails
    ("Mon, 3 Mar 2025 1.2.3.4.5.6 +0000", None),
]


def complaints(lines: Sequence[str]) -> str:
    """What is said of so many messages: ten are named."""
    more = [f"mbox2maildir-admin: a b.mbox: and {len(lines) - 10} more"] if len(lines) > 10 else []
    return "".join(f"{line}\n" for line in [*lines[:10], *more])


def dates(home: Path) -> None:
    """Each file has the date of its message, and each message without one is named."""
    forms = [*FORMS, *FORMS[:1] * 2]
    text = "".join(f"From {form}\nDate: Tue, 4 Mar 2025\n 10 o'clock\n\nhello\n\n" for form, _ in forms)
    (home / "a b.mbox").write_bytes(text.encode())
    run(["mbox2maildir", "convert", "-M", "a b.mbox"], home)
    bases = [line.split()[1] for line in run(["mbox2maildir", "list", "a b.mbox"], home)[1].splitlines()]
    # a mail reader moved one, and mbsync gave another one a name of its own
    for base, name in ((bases[2], f"{bases[2]}:2,FS"), (bases[3], f"{bases[3]},U=7:2,S")):
        os.rename(home / "-M/new" / base, home / "-M/cur" / name)

    def moments() -> dict[str, float]:
        return {re.split("[:,]", base)[0]: path.stat().st_mtime for base, path in files_of(home / "-M").items()}

    before = moments()
    said = [
        f"mbox2maildir-admin: a b.mbox: message {number} (line {6 * number - 5}): "
        f"could not read a date from its From_ line or its header: {in_quotes(f'From {form}'.rstrip())}"
        for number, (form, moment) in enumerate(forms, 1)
        if not moment
    ]
    understood = [moment for _, moment in forms if moment]
    expect(
        ["dates", "--", "-M", "a b.mbox"],
        home,
        1,
        f"a b.mbox: messages {len(forms)}, dated {len(understood)}\n",
        complaints(said),
        TZ=NEW_YORK,
    )
    for (form, moment), base in zip(forms, bases):
        equal(
            f"the date of {form}",
            moments()[base],
            datetime.fromisoformat(moment).timestamp() if moment else before[base],
        )

    files_of(home / "-M")[bases[1]].unlink()
    expect(
        ["dates", "--", "-M", "a b.mbox"],
        home,
        1,
        f"a b.mbox: messages {len(forms)}, dated {len(understood) - 1}\n",
        complaints(["mbox2maildir-admin: a b.mbox: message 2 (line 7): not found in -M", *said]),
        TZ=NEW_YORK,
    )
    dates_of_headers(home, forms)

    by_header = datetime.fromisoformat("2025-03-04T10:00:00+00:00").timestamp()
    (home / "one").write_bytes((A + b"Date: 4 Mar 2025 10:00 Z\n\n") * 2)
    run("mbox2maildir convert One one", home)
    expect(
        "dates One one none --header",
        home,
        1,
        "one: messages 2, dated 2, by header 2\n",
        "mbox2maildir-admin: one: all From_ "
        "lines have the same date: 'From alva@example.org Mon Mar  3 09:12:44 2025'\n"
        "mbox2maildir-admin: none: No such file or directory\n    run this next:\n        ls .\n",
    )
    equal(
        "dates of messages with one date",
        {path.stat().st_mtime for path in files_of(home / "One").values()},
        {by_header},
    )
    # which the option takes if all From_ lines have one date, and only then, as the help says
    (home / "two").write_bytes((A + b"Date: 4 Mar 2025 10:00 Z\n\n") + B + b"Date: 4 Mar 2025 10:00 Z\n\n")
    run("mbox2maildir convert Two two", home)
    expect("dates --header Two two", home, 0, "two: messages 2, dated 2\n")
    told = " ".join(run("dates --help", home)[1].split())
    equal("its help", told.endswith(" take the dates of the headers Date if all From_ lines have the same date"), True)
    says = "mbox2maildir-admin: one: it was not migrated: None is no Maildir\n...\n...migrate None one\n"
    expect("dates None one", home, 1, "", says)
    print(f"admin: dates: {len(forms)} messages have the dates of their From_ lines")


def dates_of_headers(home: Path, forms: Sequence[tuple[str, Optional[str]]]) -> None:
    """If a From_ line has no date, the date of the header counts, and it is said for how many messages."""
    text = "".join(f"From {form}\nDate: Tue, 4 Mar 2025\n 10:00:00 GMT\n\nhello\n\n" for form, _ in forms)
    (home / "headers").write_bytes(text.encode())
    run("mbox2maildir convert H headers", home)
    bases = [line.split()[1] for line in run("mbox2maildir list headers", home)[1].splitlines()]
    count = sum(moment is None for _, moment in forms)
    said = f"headers: messages {len(forms)}, dated {len(forms)}, by header {count}\n"
    expect("dates H headers", home, 0, said, TZ=NEW_YORK)
    moments = {base: path.stat().st_mtime for base, path in files_of(home / "H").items()}
    for (form, moment), base in zip(forms, bases):
        wanted = datetime.fromisoformat(moment or "2025-03-04T10:00:00+00:00").timestamp()
        equal(f"the date of {form}, or of its header", moments[base], wanted)


def forms_of_headers(home: Path) -> None:
    """The date of a header in each form. The row says how many messages have it, and how many have none. public-inbox
    writes From_ lines with the first second of 1970."""
    head = "From a Thu Jan  1 00:00:00 1970\nSubject: %d\nDate: %s\n\nhi\n\n"
    mailbox(home / "box", "".join(head % (place, form) for place, (form, _) in enumerate(HEADERS)).encode())
    ran = by_json("migrate --now M box", home, TZ=NEW_YORK)
    dated = sum(moment is not None for _, moment in HEADERS)
    says = [f"{dated} messages dated by the header", f"{len(HEADERS) - dated} messages without a date"]
    equal("the row", (ran.status, [one["says"] for one in ran.row["remarks"]]), (0, says))
    for path in mail_in(home / "M"):
        form, moment = HEADERS[int(match_in(r"Subject: (\d+)", path.read_text())[1])]
        wanted = datetime.fromisoformat(moment).timestamp() if moment else path.stat().st_ctime
        equal(f"the date of {form}", abs(path.stat().st_mtime - wanted) < (0.1 if moment else 60), True)


def dates_that_stay(home: Path) -> None:
    """Files that have their dates are not touched. Of each sort of message ten are named. If the file system cannot
    hold a date, that is said."""
    (home / "box").write_text(
        "".join(f"From a{number} Mon Mar  3 09:12:{number} 2025 +0000\n\n{number}\n\n" for number in range(10, 60))
    )
    run("mbox2maildir convert M box", home)
    counts = "box: messages 50, dated {}\n".format
    expect("dates M box", home, 0, counts(50))
    before = {path: path.stat().st_ctime_ns for path in files_of(home / "M").values()}
    expect("dates M box", home, 0, counts(50))
    equal("files that had their dates", {path: path.stat().st_ctime_ns for path in before}, before)
    for path in list(before)[:20]:
        path.unlink()
    lines = ["mbox2maildir-admin: box: message ... (line ...): not found in M\n"] * 10
    expect("dates M box", home, 1, counts(30), "".join([*lines, "mbox2maildir-admin: box: and 10 more\n"]))

    (home / "old").write_text("From a@b Mon Jan  1 00:00:00 1900 +0000\n\nold\n\n")
    run("mbox2maildir convert Old old", home)
    (path,) = files_of(home / "Old").values()
    moment = path.stat().st_mtime_ns
    status, out, err = run("dates Old old", home)
    if status:
        equal(
            "a date that the file system has not",
            (out, err, path.stat().st_mtime_ns),
            (
                "old: messages 1, dated 0\n",
                "mbox2maildir-admin: old: message 1 (line 1): the file system cannot store its date\n",
                moment,
            ),
        )
    else:
        equal("a date of 1900", path.stat().st_mtime, datetime.fromisoformat("1900-01-01T00:00:00+00:00").timestamp())
    os.utime(path, ns=(moment, moment))
    says = "mbox2maildir-admin: old: message 1 (line 1): the file system cannot store its date\n"
    expect([doing_first(FROM_1901, home / "bin"), "dates", "Old", "old"], home, 1, "old: messages 1, dated 0\n", says)
    equal("where dates begin in 1901", path.stat().st_mtime_ns, moment)


def many_dates(home: Path) -> None:
    """A folder of 40,000 messages in `cur` is dated and verified in one pass. Its files are made by hand."""
    first = datetime.fromisoformat("2001-01-01T00:00:00+00:00").timestamp()
    moments = [datetime.fromtimestamp(first + number, timezone.utc) for number in range(MANY)]
    (home / "many").write_text(
        "".join(
            f"From a@b {moment:%a %b %d %H:%M:%S %Y} +0000\nSubject: {number}\n\n{number}\n\n"
            for number, moment in enumerate(moments)
        )
    )
    names = [line.split()[1] for line in run("mbox2maildir list many", home)[1].splitlines()]
    for sub in ("new", "cur"):
        (home / "Many" / sub).mkdir(parents=True)
    for number, name in enumerate(names):
        (home / "Many/cur" / f"{name}:2,S").write_text(f"Subject: {number}\n\n{number}\n")
    expect("dates Many many", home, 0, f"many: messages {MANY}, dated {MANY}\n")
    found = [(home / "Many/cur" / f"{name}:2,S").stat().st_mtime - first for name in names]
    equal("messages with another date", [pair for pair in enumerate(found) if pair[0] != pair[1]], [])
    expect("verify --all Many many", home, 0, f"many -> INBOX: messages {MANY}: whole\n1 mailbox: 1 whole\n")
    print(f"admin: dates: {MANY} messages of one folder")


def what_is_not_kept(home: Path) -> None:
    """The dates of a mailbox are given once they are on the disk, and if nobody has written to it meanwhile."""
    box = mailbox(home / "box", A + b"\n")
    equal("convert", run("mbox2maildir convert M box", home)[0], 0)
    for code, says in (
        (FAILING, "its sync failed: read the system's log, mount the disk again, and run this again"),
        (SYNCING % (f"open('{box}', 'ab').write(b'x')", 0), "it changed in the meantime\n    stop the program ..."),
    ):
        expect(
            [doing_first(code, home / "bin"), "dates", "M", "box"], home, 1, "", f"mbox2maildir-admin: box: {says}\n"
        )


if __name__ == "__main__":
    check_all(dates, forms_of_headers, dates_that_stay, many_dates, what_is_not_kept)
