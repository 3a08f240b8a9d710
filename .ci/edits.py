"""Prints the edits that the prover has to refuse: those that the gate tries, a line a crate, and how many stand in bench/edits.

edits.py                   prints them
edits.py --update FILE     writes them between the lines '<!-- edits -->' and '<!-- end of edits -->' of FILE
edits.py --check FILE      says so where other ones stand there
"""
import os
import re
import sys

TOP = os.path.dirname(os.path.dirname(os.path.abspath(__file__)))
MARK = re.compile(r"(?<=<!-- edits -->\n).*?(?=<!-- end of edits -->)", re.S)


def names(folder):
    """Returns the names of the edits that stand right in a folder."""
    return sorted(it[:-5] for it in os.listdir(folder) if it.endswith(".edit")) if os.path.isdir(folder) else []


def lines():
    """Yields the line of each crate that has edits in the gate, and one of how many there are outside of it."""
    outside = []
    for crate in sorted(os.listdir(f"{TOP}/crates")):
        gate, other = names(f"{TOP}/crates/{crate}/must-fail"), names(f"{TOP}/bench/edits/{crate}")
        if gate:
            yield f"- `{crate}`: {', '.join(gate)}\n"
        if other:
            outside.append(len(other))
    yield f"\nOutside the gate stand {sum(outside)} more, of {len(outside)} crates.\n"


found = "".join(lines())
if len(sys.argv) == 1:
    print(found, end="")
else:
    with open(sys.argv[2], encoding="utf-8") as file:
        text = file.read()
    fresh = MARK.sub(lambda _: found, text)
    if sys.argv[1] == "--update":
        with open(sys.argv[2], "w", encoding="utf-8") as file:
            file.write(fresh)
    elif fresh != text or not MARK.search(text):
        print(f"{sys.argv[2]} has other edits than the tree: .ci/edits.py --update {sys.argv[2]}")
