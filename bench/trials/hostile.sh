#!/usr/bin/env bash
# Calls `thriftd serve` from clients that misbehave: hostile.sh [THRIFTD] [MILLISECONDS] [PART ..]
#
# Each part starts a server on a port of 127.0.0.1, with no workers and with four. While its clients send slowly, stop, send garbage, don't read, break off or come
# in crowds, a canary on a connection of its own calls every few milliseconds, and has to be answered each time within so many milliseconds, 100 unless it is said.
# At the end the server's memory, its summary and the journal have to be what docs/RUNNING.md says. It takes some minutes, and ends with status 1 where
# something isn't as it has to be.
set -euo pipefail
here=$(dirname "$(readlink -f "${BASH_SOURCE[0]}")")
thriftd=${1:-$(THRIFTD_PATH_ONLY=1 "$here/../../thriftd")} milliseconds=${2:-100}
room=$(mktemp -d)
trap 'rm -rf "$room"' EXIT
PYTHONDONTWRITEBYTECODE=1 python3 "$here/hostile/drive.py" "$thriftd" "$room" "$milliseconds" "${@:3}"
