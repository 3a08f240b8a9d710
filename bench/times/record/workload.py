#!/usr/bin/env python3
"""Writes the script of a workload, as `thriftd workload SEED SIZE WORKERS` makes it for itself: workload.py SEED SIZE > SCRIPT

It is written from the rule. x is the seed, and each frame's x comes of the one before by a multiplication and an addition of 64 bits; a frame's numbers a and b are
the upper two 16 bits of its x. Frame k is add(a, b), or for odd k calculate(k, a - b), with sequence id k; it stands on connection k modulo the smaller of 8 and
SIZE. The bytes of each connection are cut into pieces of 61."""
import sys

from pathlib import Path

sys.path.insert(0, str(Path(__file__).resolve().parent.parent))
from mixes import frame, signed

MOST_CONNECTIONS, PIECE = 8, 61


def frame_of(k, a, b):
    if k % 2 == 0:
        return frame("binary", "add", signed(k), ("struct", [(1, ("i32", a)), (2, ("i32", b))]))
    work = ("struct", [(1, ("i32", a)), (2, ("i32", b)), (3, ("i32", 2))])
    return frame("binary", "calculate", signed(k), ("struct", [(1, ("i32", signed(k))), (2, work)]))


def main():
    x, size = int(sys.argv[1]), int(sys.argv[2])
    connections = min(MOST_CONNECTIONS, size)
    brought = [bytearray() for _ in range(connections)]
    for k in range(size):
        x = (x * 6364136223846793005 + 1442695040888963407) % 2 ** 64
        brought[k % connections] += frame_of(k, x >> 48, x >> 32 & 0xFFFF)
    sys.stdout.write("open\n" * connections)
    for at in range(0, max(map(len, brought)), PIECE):
        sys.stdout.writelines("data %d %s\n" % (c, own[at:at + PIECE].hex()) for c, own in enumerate(brought) if at < len(own))
    sys.stdout.writelines("end %d\n" % c for c in range(connections))


if __name__ == "__main__":
    main()
