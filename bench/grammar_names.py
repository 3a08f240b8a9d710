# Rewrites the lines of idl_parser's proofs that name all phrases of the grammar. Run at the top after a phrase is added or renamed: python3 bench/grammar_names.py
import re
from pathlib import Path

CRATE = Path("crates/idl_parser")
SPECS = ["Parts", "Types", "Constants", "Fields", "Definitions", "Documents"]
PROOFS = ["Clear", "OneMoreLevel"]

names = []
for spec in SPECS:
    text = (CRATE / f"specs/{spec}.antt").read_text()
    names += re.findall(r"(?m)^unfoldable pub (\w+) : [^\n]*\bPhrase$", text)
line = f"unfolding {' '.join(names)}"

for proof in PROOFS:
    file = CRATE / f"proofs/{proof}.antt"
    old = file.read_text()
    new = re.sub(rf"(?m)^unfolding (?:\S+ )*{names[0]} .*$", line, old)
    file.write_text(new)
    print(f"{file}: {new.count(line)} lines, {'changed' if new != old else 'as they were'}")
