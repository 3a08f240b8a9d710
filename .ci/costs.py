"""Prints how many crates are proved anew after a change in one, which are itself and those that stand on it by crates.txt: of the dearest, the cheap ones and the others;
and which crates are large.

costs.py                   prints them
costs.py --update FILE     writes them between the lines '<!-- costs -->' and '<!-- end of costs -->' of FILE
costs.py --check FILE      says so where other ones stand there
"""
import glob
import re
import sys

import specs

DEAREST = 10
CHEAP = 5
MOST_FUNCTIONS = 100
MOST_LINES = 1_500
FUNCTION = re.compile(r"^\s*(?:pub(?:\([a-z]+\))? )?(?:const )?(?:final )?fn \w", re.M)
MARK = re.compile(r"(?<=<!-- costs -->\n).*?(?=<!-- end of costs -->)", re.S)


def costs():
    """Returns each crate with its number, the dearest first."""
    below, above = specs.crates(), {}
    for crate in reversed([*below]):
        above[crate] = {crate}.union(*(above[it] for it in below if crate in below[it]))
    return sorted(((len(above[crate]), crate) for crate in below), key=lambda it: (-it[0], it[1]))


def is_large(crate):
    """Returns whether a crate's code has so many functions, or so many lines."""
    texts = []
    for path in glob.glob(f"{specs.TOP}/crates/{crate}/src/**/*.rt", recursive=True):
        with open(path, encoding="utf-8") as it:
            texts.append(it.read())
    return sum(len(FUNCTION.findall(it)) for it in texts) >= MOST_FUNCTIONS or sum(it.count("\n") for it in texts) >= MOST_LINES


def lines():
    """Yields the line of the dearest crates, that of the cheap ones, that of the others, and that of the large ones."""
    dear = costs()[:DEAREST]
    cheap = [it for it in costs()[DEAREST:] if it[0] <= CHEAP]
    others = [number for number, _ in costs()[DEAREST:] if number > CHEAP]
    yield f"- dear: {', '.join(f'`{crate}` {number}' for number, crate in dear)}\n"
    yield f"- up to {CHEAP}: {', '.join(f'`{crate}`' for _, crate in cheap)}\n"
    yield f"- the other {len(others)}: {min(others)} to {max(others)}\n"
    large = ", ".join(f"`{crate}`" for crate in sorted(specs.crates()) if is_large(crate))
    yield f"- {MOST_FUNCTIONS} functions, {MOST_LINES:,} lines or more: {large}\n"


found = "".join(lines())
if len(sys.argv) == 1:
    print(found, end="")
else:
    with open(sys.argv[2], encoding="utf-8") as file:
        text = file.read()
    fresh = MARK.sub(lambda _: found, text)
    if sys.argv[1] == "--update":
        with open(sys.argv[2], "w", encoding="utf-8") as file:
            file.write(fresh)
    elif fresh != text or not MARK.search(text):
        print(f"{sys.argv[2]} has other costs than the tree: python3 .ci/costs.py --update {sys.argv[2]}")
