#!/usr/bin/env python3
"""Writes a script of many connections that call `add`: many.py FOLDER CONNECTIONS MEGABYTES [schedule]

The script has about so many million bytes and stands in FOLDER/script: the connections are opened, their calls come round by round, a piece each, and then
each ends. With `schedule`, behind each piece stands a line for each move of its call. Prints the number of calls, and behind it the words of the command."""
import os
import sys

from mixes import frame, signed

MOVES = "loop {0}\nloop {0}\nloop {0}\nloop {0}\nwork 0\nwork 0\nwork 0\ncollect\nloop {0}\n"


def main():
    if len(sys.argv) < 4:
        sys.exit(__doc__)
    folder, connections, size = sys.argv[1], int(sys.argv[2]), int(float(sys.argv[3]) * 1_000_000)
    scheduled = sys.argv[4:] == ["schedule"]
    calls = written = 0
    with open(os.path.join(folder, "script"), "w", encoding="ascii") as script:
        script.write("open\n" * connections)
        while written < size:
            c = calls % connections
            arguments = ("struct", [(1, ("i32", signed(calls * 7919 & 0x7FFFFFFF))), (2, ("i32", signed(calls * 104729)))])
            piece = "data %d %s\n" % (c, frame("binary", "add", calls + 1, arguments).hex())
            script.write(piece)
            written += len(piece)
            if scheduled:
                moves = MOVES.format(c)
                script.write(moves)
                written += len(moves)
            calls += 1
        script.writelines("end %d\n" % c for c in range(connections))
    print(calls, "@tutorial", "binary", "0", "Calculator=calculator")


if __name__ == "__main__":
    main()
