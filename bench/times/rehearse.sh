#!/usr/bin/env bash
# Times the program on recorded connections of 1, 4, 15 and 60 MB, whose every piece is one call: `add`, `calculate` with a struct, puts and gets of a store,
# and lists of a hundred structs to the mirror, in both protocols. Prints for each its seconds (the least of three runs), microseconds a call and peak
# memory; and on scripts of 60 MB with `add` on 1, 64 and 1,000 connections, drained, and with a line of a schedule for each move. It is no test. Give another list of
# sizes in MB as words. Where THRIFTD_BEFORE names another program, `add` in the binary protocol is timed with it too.
set -euo pipefail
here=$(dirname "$(readlink -f "${BASH_SOURCE[0]}")")
program=$(THRIFTD_PATH_ONLY=1 "$here/../../thriftd")
work=$(mktemp -d)
trap 'rm -rf "$work"' EXIT

# timed PROGRAM TEXT WORDS..
timed() {
  python3 - "$work/script" "$@" <<'PY'
import os, sys, time
script, program, text, calls, words = sys.argv[1], sys.argv[2], sys.argv[3], int(sys.argv[4]), sys.argv[5:]
runs = []
for _ in range(3):
    begin = time.monotonic()
    child = os.fork()
    if child == 0:
        os.dup2(os.open(script, os.O_RDONLY), 0)
        os.dup2(os.open(os.devnull, os.O_WRONLY), 1)
        os.execv(program, [program, "rehearse"] + words)
    _, status, usage = os.wait4(child, 0)
    if status != 0:
        sys.exit("%s ended with status %d" % (" ".join(words), os.waitstatus_to_exitcode(status)))
    runs.append((time.monotonic() - begin, usage.ru_maxrss * 1024))
seconds, peak = min(r[0] for r in runs), max(r[1] for r in runs)
print("%-30s %9d %9.2f %9.2f %9.0f %9.1f" % (text, calls, seconds, seconds / calls * 1e6, peak / 1e6, peak / os.path.getsize(script)))
PY
}

printf '%-30s %9s %9s %9s %9s %9s\n' '' calls seconds us/call 'peak MB' 'B/byte'
for mix in ${MIXES:-add calculate store mirror}; do for protocol in binary compact; do for size in ${@:-1 4 15 60}; do
  read -r -a given < <(python3 "$here/mixes.py" "$work" "$mix" "$protocol" "$size")
  timed "$program" "$mix $protocol $size MB" "${given[@]}"
  if [ -n "${THRIFTD_BEFORE:-}" ] && [ "$mix $protocol" = "add binary" ]; then
    timed "$THRIFTD_BEFORE" "$mix $protocol $size MB, before" "${given[@]}"
  fi
done; done; done
for connections in 1 64 1000; do for order in '' schedule; do
  read -r -a given < <(python3 "$here/many.py" "$work" "$connections" "${MANY_MB:-60}" $order)
  timed "$program" "add $connections connections $order" "${given[@]}"
done; done
