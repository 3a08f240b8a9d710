#!/usr/bin/env python3
"""Calls a mirror by `tools/ask` with random JSON: ask_calls.py [CALLS [SEED]]

Each random IDL is served by the program in one of the protocols; what comes back has to be equal to what was sent, as
JSON. Prints how many calls came back equal, 1,000 unless it is said, or the first that didn't; ends with status 1
there."""
import os
import sys

from built import TOP

sys.path.append(os.path.join(TOP, ".ci/suites"))
from suite import Found  # noqa: E402
from texts.program import program_path  # noqa: E402
from tool_ask import random_calls  # noqa: E402

CALLS_OF_ONE = 50


def main():
    calls, seed = int(sys.argv[1]) if len(sys.argv) > 1 else 1000, int(sys.argv[2]) if len(sys.argv) > 2 else 1
    program, done = program_path(), 0
    while done < calls:
        try:
            random_calls(program, seed, min(CALLS_OF_ONE, calls - done))
        except Found as found:
            print(found)
            sys.exit(1)
        seed, done = seed + 1, done + min(CALLS_OF_ONE, calls - done)
    print("%d calls came back equal" % done)


if __name__ == "__main__":
    main()
