#!/usr/bin/env bash
# Tries the edits of bench/edits, which the gate leaves out for its time: each plants one bug in a crate, and the prover has to refuse it. All is
# done in a copy of the crates, where each of these crates is proved first. edits.sh [NAME..]: these crates, if not all that have such edits.
set -euo pipefail
top=$(cd "$(dirname "$0")/.." && pwd)
names=("$@")
if [ ${#names[@]} = 0 ]; then
  mapfile -t names < <(ls "$top/bench/edits")
fi
work=$(mktemp -d)
trap 'rm -rf "$work"' EXIT
cp "$top/crates.txt" "$top/HANDLES" "$work"
(cd "$top" && tar c --exclude=out --exclude=must-fail crates) | tar x -C "$work"
for name in "${names[@]}"; do
  mkdir "$work/crates/$name/must-fail"
  cp "$top/bench/edits/$name/"*.edit "$work/crates/$name/must-fail"
done
cd "$work"
rt must-fail "${names[@]}"
