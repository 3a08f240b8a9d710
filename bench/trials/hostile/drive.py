"""Runs each part with no workers and with four: drive.py THRIFTD ROOM MILLISECONDS [PART ..]"""
import resource
import sys
import time

from crowds import beyond, crowd, few_descriptors, full_budget, large_frames, pipelined
from floods import come_and_go, flood, heavy, storm
from garbage import garbage
from resets import half_closed, resets
from server import Wrong, write_idl
from slow import slow
from starts import failing, no_output, refusals
from unread import unread

PARTS = [refusals, no_output, failing, slow, garbage, unread, resets, half_closed, pipelined, flood, heavy, come_and_go, storm, large_frames, full_budget, crowd, beyond, few_descriptors]


class Bench:
    """What every part is given."""

    def __init__(self, program, room, milliseconds):
        self.program, self.room, self.milliseconds = program, room, milliseconds


def main():
    bench = Bench(sys.argv[1], sys.argv[2], float(sys.argv[3]))
    named = sys.argv[4:]
    soft, hard = resource.getrlimit(resource.RLIMIT_NOFILE)
    resource.setrlimit(resource.RLIMIT_NOFILE, (max(soft, min(4096, hard)), hard))
    write_idl(bench.room)
    failed = 0
    for part in PARTS:
        for workers in (0, 4) if not named or part.__name__ in named else ():
            begin = time.monotonic()
            try:
                said = part(bench, workers)
            except (Wrong, OSError) as wrong:
                failed += 1
                said = "WRONG: %s" % wrong
            print("%s, %d workers (%.0f s): %s" % (part.__name__.replace("_", " "), workers, time.monotonic() - begin, said), flush=True)
    print("hostile: %s" % ("%d parts went wrong" % failed if failed else "all parts held"))
    sys.exit(1 if failed else 0)


main()
