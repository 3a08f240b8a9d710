#!/usr/bin/env bash
# Times `thriftd record` with 0, 1, 2 and 4 workers beside `rehearse` of the same script: record.sh [THRIFTD [FRAMES [SECONDS]]]
#
# The scripts are a workload's (bench/times/record/workload.py) of FRAMES calls, 600,000 unless it is said, on 8 connections, and about so many calls of `add` on 64
# (bench/times/many.py). It prints for each run, the quickest of three, its seconds, microseconds a call, microseconds of all processors' time a call, and peak memory.
# Beside them stands a plain queue of std's Mutex and Condvar (bench/times/record/queue.rs), where there is a rustc: it hands as many jobs to as many threads and back, and
# the nanoseconds that one of its jobs takes by itself are printed too. Where processors' time is about what the clock says, none was kept busy for nothing.
# Then it serves calls of which reading and writing is dear, lists of a thousand points to a mirror (bench/times/serve/load.c), at a port, without script and report, with
# 1, 2 and 4 workers: on 8 connections with a call under way on each, for SECONDS, 5 unless it is said; and tells how much of a processor the server took in
# two seconds in which eight connections were idle. Nothing else should run meanwhile. It is no test.
set -euo pipefail
here=$(dirname "$(readlink -f "${BASH_SOURCE[0]}")")
thriftd=${1:-$(THRIFTD_PATH_ONLY=1 "$here/../../thriftd")} frames=${2:-600000} seconds=${3:-5}
points=1000
room=$(mktemp -d)
server=
trap '[ -z "$server" ] || kill "$server" 2> /dev/null; rm -rf "$room"' EXIT

# timed TEXT CALLS COMMAND..: the quickest of three runs, with the script as its input; what it prints, where that is one line, stands behind
timed() {
  python3 - "$room/script" "$room/out" "$@" <<'PY'
import os, sys, time
script, out, text, calls, command = sys.argv[1], sys.argv[2], sys.argv[3], int(sys.argv[4]), sys.argv[5:]
runs = []
for _ in range(3):
    begin = time.monotonic()
    child = os.fork()
    if child == 0:
        os.dup2(os.open(script, os.O_RDONLY), 0)
        os.dup2(os.open(out, os.O_WRONLY | os.O_CREAT | os.O_TRUNC, 0o600), 1)
        os.execv(command[0], command)
    _, status, usage = os.wait4(child, 0)
    if status != 0:
        sys.exit("%s ended with status %d" % (" ".join(command), os.waitstatus_to_exitcode(status)))
    runs.append((time.monotonic() - begin, usage.ru_utime + usage.ru_stime, usage.ru_maxrss * 1024))
seconds, processors, peak = min(runs)
with open(out, "rb") as said:
    line = said.read(100).decode().strip()
print("%-30s %9d %9.2f %9.2f %9.2f %9.0f %s" % (text, calls, seconds, seconds / calls * 1e6, processors / calls * 1e6, peak / 1e6, "" if "\n" in line else line))
PY
}

# beside CONNECTIONS CALLS: all runs of the script
beside() {
  local words=(@tutorial binary) workers
  timed "rehearse, $1 connections" "$2" "$thriftd" rehearse "${words[@]}" 0 Calculator=calculator
  for workers in 0 1 2 4; do
    timed "record, $1, $workers workers" "$2" "$thriftd" record "${words[@]}" "$workers" Calculator=calculator
    [ ! -x "$room/queue" ] || timed "queue, $1, $workers threads" "$2" "$room/queue" "$2" "$1" "$workers"
  done
}

# start WORKERS CONNECTIONS: starts a server of lists, and waits until it listens at $port
start() {
  port=$(python3 -c 'import socket; s = socket.socket(); s.bind(("127.0.0.1", 0)); print(s.getsockname()[1])')
  "$thriftd" serve "$room/mix.thrift" binary "$1" Points=mirror --listen "$port" --accept "$2" --journal /dev/null > /dev/null &
  server=$!
  for _ in $(seq 100); do
    ! grep -qE ":$(printf %04X "$port") 0+:0000 0A" /proc/net/tcp || return 0
    sleep 0.1
  done
  echo "record: the server doesn't listen" >&2
  exit 1
}

stop() {
  kill "$server" 2> /dev/null || true
  wait "$server" 2> /dev/null || true
  server=
}

if command -v rustc > /dev/null; then
  rustc --edition 2021 -O -o "$room/queue" "$here/record/queue.rs"
else
  echo 'record: the queue is left out, since there is no rustc'
fi
printf '%-30s %9s %9s %9s %9s %9s %s\n' '' calls seconds us/call 'cpu us' 'peak MB' 'ns a job'
python3 "$here/record/workload.py" 7 "$frames" > "$room/script"
beside 8 "$frames"
read -r calls _ < <(python3 "$here/many.py" "$room" 64 "$(python3 -c "print($frames * 78 / 1e6)")")
beside 64 "$calls"

gcc -O2 -o "$room/load" "$here/serve/load.c"
python3 "$here/mixes.py" "$room" mirror binary 0.1 > /dev/null
printf '%-30s %9s %9s %9s %9s\n' "lists of $points points" calls/s 'cpu us' half 99th
for workers in 1 2 4; do
  start "$workers" 8
  printf '%-30s %9s %9s %9s %9s\n' "serve, 8, $workers workers" $("$room/load" "$port" 8 1 "$seconds" "$server" "$points")
  stop
done
start 4 8
read -r _ _ busy < <("$room/load" "$port" 8 1 0 "$server" "$points")
echo "with eight idle connections and 4 workers: $busy ms of a processor in two seconds"
stop
