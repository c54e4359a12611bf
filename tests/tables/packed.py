"""Packed mailboxes: what becomes of whole ones, of those that were cut or damaged at any byte, and of what follows
one. Nothing that is cut or wrong becomes mail."""
import bz2
import gzip
import lzma
import os
import random
import shutil
import subprocess
from collections.abc import Callable, Mapping
from functools import partial
from pathlib import Path

from tests.support.checks import equal, matches
from tests.support.homes import by_json, check_all, mail_in, mailbox, run_printed
from tests.support.mail import ONE, TWO

Pack = Callable[[bytes], bytes]
LETTERS = ONE + "Grüße 🌱\n\n".encode()


def by_program(name: str, text: bytes) -> bytes:
    """Packs by a program."""
    return subprocess.run([name, "-c"], input=text, stdout=subprocess.PIPE, check=True).stdout


def encoded(name: str, text: bytes) -> bytes:
    """A text in another encoding, with a mark at its beginning."""
    return ("\ufeff" + text.decode()).encode(name)


STREAMS: dict[str, Pack] = {"gzip": gzip.compress, "bzip2": bz2.compress, "xz": lzma.compress}
PROGRAMS: dict[str, Pack] = {name: partial(by_program, name) for name in ("zstd", "lz4") if shutil.which(name)}
# each encoding, and how many bytes its smallest letters have
ENCODED: dict[str, Pack] = {
    name: partial(encoded, name) for name in ("utf-16-le", "utf-16-be", "utf-32-le", "utf-32-be")
}
PACK: dict[str, Pack] = {**STREAMS, **PROGRAMS, **ENCODED}
CUT = "could not read stream {}, which begins at byte {}: it is incomplete"
# the bytes of a stream that no check covers: when a member of gzip was made, with which effort, and on which system
UNCHECKED = {"gzip": range(4, 10)}
# how many NUL bytes may follow: gzip ignores them at the end, and xz has them in fours
FILLED = {"gzip": (1, 2, 4, 511, 2000), "xz": (4, 512, 2000)}
DAMAGED = "it is damaged or incomplete: `{} -dc` ended with status {}"


def without_byte(data: bytes, place: int) -> bytes:
    """Data of which one byte is another."""
    return data[:place] + bytes([data[place] ^ 0x21]) + data[place + 1 :]


def want_left(home: Path, files: Mapping[str, tuple[bytes, str]]) -> None:
    """Each of these files is left, for what stands beside its bytes."""
    for name, (data, _) in files.items():
        mailbox(home / "old" / name, data)
    found = {os.path.basename(row["path"]): row for row in by_json("migrate --dry-run --now M old", home).rows}
    for name, (_, says) in files.items():
        matches(name, f"{found[name]['reason']}: {found[name]['says']}", f"packed: {says}")
    shutil.rmtree(home / "old")


def whole(home: Path) -> None:
    """What is complete is migrated, also if it holds much, or is followed by another stream."""
    large = ONE[:-1] + b"hello\n" * 400_000 + b"\n"
    mixed = ONE[:-1] + bytes(random.Random(1).choices(range(32, 127), k=1 << 20)) + b"\n\n"
    texts = {name: pack(LETTERS) for name, pack in PACK.items()}
    for name, pack in {**STREAMS, **PROGRAMS}.items():
        texts[f"{name} two"] = pack(ONE) + pack(b"") + pack(TWO)
        texts[f"{name} large"], texts[f"{name} mixed"] = pack(large), pack(mixed)
    for name, counts in FILLED.items():
        texts.update({f"{name} {count}": STREAMS[name](ONE) + bytes(count) for count in counts})
    texts["xz between"] = lzma.compress(ONE) + bytes(8) + lzma.compress(TWO)
    texts["xz best"] = lzma.compress(ONE, preset=9)
    wanted = {"two": [ONE, TWO], "between": [ONE, TWO], "mixed": [mixed], "large": [large]}
    for name, data in texts.items():
        mailbox(home / "old" / name.replace(" ", "-"), data)
    rows = by_json("migrate --now M old", home).rows
    equal("what is not done", [row for row in rows if row["verdict"] != "done"], [])
    kinds = {os.path.basename(row["path"]): row["kind"] for row in rows}
    for name in (*STREAMS, *PROGRAMS):
        equal("its kind", kinds[name], f"mboxrd or mboxo, compressed by {name}")
    for name in texts:
        its = [LETTERS] if name in PACK else wanted.get(name.split(" ")[1], [ONE])
        bodies = sorted(one.read_bytes() for one in mail_in(home / f"M/.{name.replace(' ', '-')}"))
        equal(f"{name}: the mail", bodies, sorted(one.split(b"\n", 1)[1][:-1] for one in its))
    says = by_json("migrate --undo --folder xz-two M old/xz-two", home).row["says"]
    equal("an undo", (says, [*mail_in(home / "M/.xz-two")]), ("removed 2 messages", []))


def cut(home: Path) -> None:
    """A stream that is cut anywhere, and one after another that is cut, are left."""
    for name, pack in STREAMS.items():
        one, two = pack(ONE), pack(TWO)
        files = {f"{end}": (one[:end], CUT.format(1, 1)) for end in range(10, len(one), 3)}
        second = CUT.format(2, len(one) + 1)
        want_left(home, {**files, **{f"2 {end}": (one + two[:end], second) for end in range(1, len(two), 3)}})
    for name, pack in PROGRAMS.items():
        one, two, says = pack(ONE), pack(TWO), DAMAGED.format(name, "...")
        files = {f"{end}": (one[:end], says) for end in range(4, len(one), 3)}
        ends = (b"garbage", b"\0", two[:-1], two[:3], without_byte(two, 0), without_byte(two, len(two) - 1))
        want_left(home, {**files, **{f"2 {number}": (one + end, says) for number, end in enumerate(ends)}})
    for name, pack in ENCODED.items():
        data = pack(LETTERS)
        want_left(home, {f"{end}": (data[:end], "could not decode byte ...") for end in range(41, len(data), 8)})


def each_byte(home: Path) -> None:
    """A stream of which one byte is another is left, also after another stream."""
    for name, pack in STREAMS.items():
        one, two = pack(ONE), pack(TWO)
        places = [place for place in range(10, len(two), 3) if place not in UNCHECKED.get(name, ())]
        files = {f"{place}": (without_byte(two, place), "...") for place in places}
        after = {f"2 {place}": (one + without_byte(two, place), "...") for place in (*places, *range(4))}
        want_left(home, {**files, **after})


def what_follows(home: Path) -> None:
    """Only another stream may follow, and in files of gzip and xz NUL bytes."""
    for name, pack in STREAMS.items():
        one, two = pack(ONE), pack(TWO)
        ends = [b"\0x", b"\0\0\0\0garbage", bytes(5) + two, bytes(1 << 21) + b"garbage"]
        if name != "gzip":
            ends += [bytes(count) for count in (1, 2, 4, 511, 512, 2000) if count not in FILLED.get(name, ())]
        files = {f"{number}": (one + end, "...stream ..., ...byte ...") for number, end in enumerate(ends)}
        # without NUL bytes another one would begin right behind the first one
        says = f"...stream ..., ...byte {len(one) + 1}..."
        want_left(
            home, {**files, "x": (one + b"x", says), "garbage": (one + b"garbage", says), "one": (one + ONE, says)}
        )


def other_reasons(home: Path) -> None:
    """Letters that are none, wherever they are; what takes too much memory, or has much more bytes than mail would be;
    and a program that is not here."""
    files = {"utf-32": (b"\xff\xfe\0\0\0\xd8\0\0", "could not decode byte 5: ...")}
    for order in ("le", "be"):
        pack, lone = PACK[f"utf-16-{order}"], "a\ud83ca".encode(f"utf-16-{order}", "surrogatepass")
        files[order] = (pack(b"") + lone, "could not decode byte 5: illegal ...")
        files[f"{order} late"] = (pack(b"a" * 700_000) + lone, "could not decode byte 1400005: illegal ...")
        files[f"{order} cut"] = (pack(b"a") + b"\0", "could not decode byte 5: truncated data")
    large = lzma.compress(ONE, filters=[{"id": lzma.FILTER_LZMA2, "dict_size": 1 << 29}])
    files["memory"] = (large, "could not read stream 1, which begins at byte 1: Memory usage limit ...")
    zeros = gzip.compress(bytes(280_000_000), 1)
    files["much"] = (zeros, "unpacked it has more than 268.4 MB, and more than 100 times its size")
    want_left(home, files)
    mailbox(home / "box", b"\x28\xb5\x2f\xfd")
    row = by_json("migrate --dry-run --now M box", home, PATH=f"{home}/bin").row
    equal("without zstd", row["says"], "could not find zstd: install it, and run this again")


def by_hand(home: Path) -> None:
    """What has much more bytes than mail would be is unpacked by the command that is printed."""
    text = ONE[:-1] + bytes(280_000_000) + b"\n\n"
    mailbox(home / "box", gzip.compress(text, 1))
    equal("the command", run_printed(by_json("kind box", home).row.command, home).status, 0)
    with (home / "box").open("rb") as file:
        equal("what it made", (file.read(len(ONE) - 1), os.fstat(file.fileno()).st_size), (ONE[:-1], len(text)))


def what_dovecot_showed(home: Path) -> None:
    """With --dovecot, a row names the lines that lose a `>`. Dovecot opens no packed mailbox as it is."""
    text = ONE.replace(b"hello", b">From here on")
    for name, data, why in (
        ("plain", text, "Dovecot showed it"),
        ("packed.gz", gzip.compress(text), "Dovecot shows it once unpacked"),
    ):
        mailbox(home / name, data)
        row = by_json(["migrate", "--dovecot", "--dry-run", "--now", "M", name], home).row
        equal(name, [one["says"] for one in row["remarks"]][:1], [f"`>From ` loses a `>` in 1 line ({why})"])


if __name__ == "__main__":
    check_all(whole, cut, each_byte, what_follows, other_reasons, by_hand, what_dovecot_showed)
