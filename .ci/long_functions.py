"""Prints each function whose body has more than 40 lines; reads the files' names, one a line."""
import re
import sys

LONGEST = 40

for name in sys.stdin.read().split():
    lines = open(name, encoding="utf-8").read().split("\n")
    for start, line in enumerate(lines):
        head = re.match(r"^(\s*)(pub(\([a-z]+\))? )?(const )?(final )?fn (\w+)", line)
        if not head:
            continue
        indent = head.group(1)
        # a record of a contract may stand in several lines, and opens no body
        opens = lambda it: it.rstrip() == indent + "{" or it.endswith(" {") and not it.endswith("record {")
        body = next((k for k in range(start, len(lines)) if opens(lines[k])), None)
        if body is None:
            continue
        end = next((k for k in range(body, len(lines)) if lines[k].rstrip() == indent + "}"), body)
        if end - body - 1 > LONGEST:
            print("%s:%d: %s has %d lines" % (name, start + 1, head.group(6), end - body - 1))
