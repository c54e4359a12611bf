#!/usr/bin/env python3
"""A mail reader at work: it changes flags of messages in a folder at random moments, until its time is over or it is
killed.

Words: the folder `cur`, how many changes to make per second (0: as many as it can), for how many seconds, and for how
many seconds it rests at most after about a second of work (without this word it never rests). It says when it has
begun, and how many changes it made.
"""
import os
import random
import sys
import time


def main() -> None:
    folder, rate, seconds = sys.argv[1], int(sys.argv[2]), float(sys.argv[3])
    rest = float(sys.argv[4]) if len(sys.argv) > 4 else 0
    draw = random.Random(folder)
    # each message by its name up to the flags, and whether it has the flag S
    messages = [[name.split(":2,")[0], name.endswith("S")] for name in os.listdir(folder) if ":2," in name]
    end = time.monotonic() + seconds
    changes = 0
    while messages and time.monotonic() < end:
        if rate:
            time.sleep(draw.expovariate(rate))
        if rest and draw.random() * rate < 1:
            time.sleep(draw.uniform(0, rest))
        message = draw.choice(messages)
        name, seen = message
        old, new = (":2,S", ":2,") if seen else (":2,", ":2,S")
        os.rename(f"{folder}/{name}{old}", f"{folder}/{name}{new}")
        message[1] = not seen
        changes += 1
        if changes == 1:
            print("begun", flush=True)
    print(f"{changes} changes")


if __name__ == "__main__":
    main()
