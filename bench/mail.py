#!/usr/bin/env python3
"""Writes ordinary mail as an mbox text to standard output.

Usage: mail.py MEGABYTES [SEED [LONGEST]]

The same numbers give the same bytes. Bodies have 1 to 60 KB of lines of up to 76 bytes, or a sixtieth of LONGEST to
LONGEST bytes. One in eight has an attachment in base64, of a twelfth of the longest body to three times as much. Some
have lines that are quoted. One message in a hundred is the same short notice.
"""
import base64
import random
import sys
import time

MEGABYTE = 1_000_000
POOL_LINES = 40_000
LONGEST = 60_000
PEOPLE = [f"{name}@{host}" for host in ("example.org", "example.com", "lists.example.org") for name in
          ("alva", "boris", "chen", "dana", "emil", "farah", "goran", "hana", "ivo", "jana", "kofi", "lena")]
HEADERS = ["", "", "Status: RO\n", "Status: RO\n", "Status: RO\n", "Status: O\n", "Status: R\n",
           "Status: RO\nX-Status: A\n", "Status: RO\nX-Status: F\n", "Status: RO\nX-Status: AF\n", "Status: RO\nX-Status: D\n"]
QUOTED = [b">From the first of May on we have new hours.\n", b">>From what I have heard they like it.\n", b"> From here it is not far.\n"]
NOTICE = b"From: Cron <root@example.org>\nTo: root@example.org\nSubject: backup: done\n\n0 errors\n\n"


def text_line(rng, words):
    """A line as quoted-printable leaves it: words, now and then an escape, and a soft end where it would grow too long."""
    line = ""
    for _ in range(rng.choice((0, 3, 9, 16, 16, 16, 16))):
        word = rng.choice(words) + ("=C3=A9" if rng.random() < 0.05 else "") + " "
        if len(line) + len(word) > 75:
            return line + "=\n"
        line += word
    return line.rstrip() + "\n"


class Pool:
    """Lines to take bodies from."""

    def __init__(self, lines):
        self.lines = lines
        self.mean = sum(map(len, lines)) / len(lines)

    def some(self, rng, size):
        """Lines that stand together and have about so many bytes."""
        count = int(size / self.mean) + 1
        start = rng.randrange(len(self.lines) - count)
        return self.lines[start : start + count]


def text_pool(rng):
    letters = "abcdefghijklmnopqrstuvwxyz"
    words = ["".join(rng.choices(letters, k=rng.randint(2, 11))) for _ in range(2000)]
    return Pool([text_line(rng, words).encode() for _ in range(POOL_LINES)])


def base64_pool(rng):
    return Pool([base64.b64encode(rng.randbytes(57)) + b"\n" for _ in range(POOL_LINES)])


def message(rng, number, longest, texts, attachments):
    sender, receiver = rng.choice(PEOPLE), rng.choice(PEOPLE)
    date = time.strftime("%a %b %d %H:%M:%S %Y", time.gmtime(1_000_000_000 + 977 * number))
    yield f"From {sender} {date}\n".encode()
    if rng.random() < 0.01:
        yield NOTICE
        return
    has_attachment = rng.random() < 0.125
    yield (f"Received: from mail.example.org by mx.example.com with ESMTP id {rng.getrandbits(64):016x}\n"
           f"\tfor <{receiver}>; {date} +0000\nMessage-ID: <{number}.{rng.getrandbits(64):016x}@example.org>\n"
           f"From: {sender}\nTo: {receiver}\nSubject: message {number}\nMIME-Version: 1.0\n"
           f"Content-Type: {'multipart/mixed; boundary=part' if has_attachment else 'text/plain; charset=utf-8'}\n"
           f"{rng.choice(HEADERS)}\n").encode()
    # sizes are even on a scale of powers, so most bodies are small
    lines = texts.some(rng, longest / 60 * 60 ** rng.random())
    if rng.random() < 0.1:
        lines.insert(rng.randrange(len(lines)), rng.choice(QUOTED))
    if has_attachment:
        lines = [b"--part\n", b"Content-Type: text/plain; charset=utf-8\n", b"\n", *lines, b"--part\n",
                 b"Content-Type: application/octet-stream\n", b"Content-Transfer-Encoding: base64\n", b"\n",
                 *attachments.some(rng, longest / 12 * 40 ** rng.random()), b"--part--\n"]
    yield b"".join(lines)
    yield b"\n"


def main():
    wanted = int(float(sys.argv[1]) * MEGABYTE)
    rng = random.Random(int(sys.argv[2]) if len(sys.argv) > 2 else 1)
    longest = int(sys.argv[3]) if len(sys.argv) > 3 else LONGEST
    texts, attachments = text_pool(rng), base64_pool(rng)
    written = number = 0
    while written < wanted:
        number += 1
        text = b"".join(message(rng, number, longest, texts, attachments))
        sys.stdout.buffer.write(text)
        written += len(text)


if __name__ == "__main__":
    main()
