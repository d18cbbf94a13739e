#!/usr/bin/env python3
"""Runs dump on random captures, sound and damaged, and compares what it prints with the reference.
First build it, by `rt run < stdin` in crates/dump.

usage: tools/compare_dump.py [ROUNDS [SEED]]
"""

import pathlib
import random
import subprocess
import sys

from reference import dump, record, write_segment

PROGRAM = pathlib.Path(__file__).parent.parent / "crates" / "dump" / "out" / "dump"
Z = 2**63 - 1


def messages(rng):
    sizes = [0, 1, 2, 30, 1429, 1430, 1431] if rng.random() < 0.3 else range(60)
    return [rng.randbytes(rng.choice(sizes)) for _ in range(rng.choice([0, 1, 2, 3, 20, 40]))]


def datagram(rng):
    fields = {"first": rng.randrange(1, 10**6), "offset": rng.randrange(10**9), "time": rng.randrange(-(2**63), 2**63),
              "reserved": rng.randrange(256), "session": rng.randrange(2**32)}
    damage = {"version": [0, 2, 255], "protocol": [0, 0x8003], "channel": [0, 2], "first": [0, -1, Z, Z - 1, 1], "offset": [-1, Z, 0],
              "count": [0, 1, 2, 40, 65535], "payload": [0, 1, 72, 65495], "tail": [b"\0", b"\0\0", b"\x97\x05", b"abc"]}
    for name in rng.sample(sorted(damage), rng.choice([0, 0, 0, 1, 1, 2])):
        fields[name] = rng.choice(damage[name])
    whole = write_segment(messages(rng), **fields)
    if rng.random() < 0.1:
        whole = whole[: rng.randrange(len(whole) + 1)]
    if rng.random() < 0.1:
        at = rng.randrange(len(whole) + 1)
        whole = whole[:at] + rng.randbytes(1) + whole[at + 1 :]
    return whole[:65535]


def main():
    rounds = int(sys.argv[1]) if len(sys.argv) > 1 else 200
    seed = int(sys.argv[2]) if len(sys.argv) > 2 else 1
    rng = random.Random(seed)
    seen = 0
    for n in range(rounds):
        capture = b"".join(record(datagram(rng)) for _ in range(rng.choice([0, 1, 5, 50, 500])))
        capture = capture[: len(capture) - rng.choice([0, 0, 1, 2, 3, 30])]
        printed = subprocess.run([PROGRAM], input=capture, stdout=subprocess.PIPE, check=True).stdout.decode()
        wanted = dump(capture)
        seen += wanted.count("\n") - 1
        if printed != wanted:
            pathlib.Path("differs.capture").write_bytes(capture)
            sys.exit(f"round {n} of seed {seed} differs; its capture is in differs.capture")
    print(f"{rounds} captures with {seen} records: all as the reference has them")


if __name__ == "__main__":
    main()
