#!/usr/bin/env bash
# Loads `thriftd serve` and Apache's own servers side by side, one at a time: serve.sh [THRIFTD] [SECONDS] [ROUNDS]
#
# One load program (serve/load.c) calls the tutorial's `add` in the binary protocol, on 1, 8 and 64 connections with one call under way on each, and on 64 with 16.
# Beside the program stand Apache's TNonblockingServer without workers and with four (libthrift-dev), and its THsHaServer with four where Java is there
# (libthrift-java, default-jdk-headless). It prints for each cell the calls a second, the server's processor time for a call, and the latency at the half and
# the 99th of a hundred, in microseconds, each the median of so many rounds (3 where none are given) in which the servers take turns; then each server's memory at its start and with 1,000 connections that are idle,
# and the milliseconds of a processor that it takes meanwhile, in two seconds. CELLS, a cell a line, and KINDS, a server a line, leave others out: with
# CELLS='64 16' and KINDS=$'thriftd 0\nnonblocking 0' it ends after that cell, with the ratio of the two in each round.
set -euo pipefail
here=$(dirname "$(readlink -f "${BASH_SOURCE[0]}")")
thriftd=${1:-$(THRIFTD_PATH_ONLY=1 "$here/../../thriftd")} seconds=${2:-5} rounds=${3:-3}
room=$(mktemp -d)
server=
trap '[ -z "$server" ] || kill "$server" 2> /dev/null; rm -rf "$room"' EXIT
jars=/usr/share/java/thrift.jar:/usr/share/java/slf4j-api.jar:/usr/share/java/geronimo-annotation-1.3-spec.jar

gcc -O2 -o "$room/load" "$here/serve/load.c"
kinds=("thriftd 0" "thriftd 4")
if command -v thrift > /dev/null; then
  python3 "$here/../trials/clients/idl.py" "$room"
  if command -v g++ > /dev/null && [ -e /usr/include/thrift/server/TNonblockingServer.h ]; then
    (cd "$room" && thrift -r -gen cpp tutorial.thrift && rm -f gen-cpp/*skeleton*)
    g++ -O2 -w -I"$room/gen-cpp" -o "$room/nonblocking" "$here/serve/nonblocking.cpp" "$room"/gen-cpp/*.cpp -lthriftnb -lthrift -levent
    kinds+=("nonblocking 0" "nonblocking 4")
  fi
  if command -v javac > /dev/null && [ -e /usr/share/java/thrift.jar ]; then
    (cd "$room" && thrift -r -gen java tutorial.thrift && mkdir classes && javac -nowarn -d classes -cp "$jars" gen-java/*.java "$here/serve/Servers.java")
    kinds+=("hsha 4")
  fi
fi

[ -z "${KINDS:-}" ] || mapfile -t kinds <<< "$KINDS"
mapfile -t cells <<< "${CELLS:-1 1
8 1
64 1
64 16}"

# start KIND WORKERS CONNECTIONS: starts a server, and waits until it listens at $port
start() {
  port=$(python3 -c 'import socket; s = socket.socket(); s.bind(("127.0.0.1", 0)); print(s.getsockname()[1])')
  case $1 in
    thriftd) "$thriftd" serve @tutorial binary "$2" Calculator=calculator --listen "$port" --accept "$3" --journal /dev/null > /dev/null & ;;
    nonblocking) "$room/nonblocking" "$port" "$2" > /dev/null 2>&1 & ;;
    hsha) java -cp "$room/classes:$jars" Servers hsha "$port" "$2" > /dev/null 2>&1 & ;;
  esac
  server=$!
  for _ in $(seq 100); do
    ! grep -qE ":$(printf %04X "$port") 0+:0000 0A" /proc/net/tcp /proc/net/tcp6 || return 0
    sleep 0.1
  done
  echo "serve: $1 doesn't listen" >&2
  exit 1
}

stop() {
  kill "$server" 2> /dev/null || true
  wait "$server" 2> /dev/null || true
  server=
}

# median COLUMN FILE
median() {
  awk -v column="$1" '{ print $column }' "$2" | sort -g | awk '{ value[NR] = $1 } END { print value[int((NR + 1) / 2)] }'
}

printf '%-14s %-6s %10s %8s %8s %8s\n' server cell calls/s us/call half 99th
for cell in "${cells[@]}"; do
  read -r connections depth <<< "$cell"
  rm -f "$room"/figures-*
  for _ in $(seq "$rounds"); do
    for kind in "${kinds[@]}"; do
      read -r name workers <<< "$kind"
      start "$name" "$workers" "$connections"
      "$room/load" "$port" "$connections" "$depth" "$seconds" "$server" >> "$room/figures-$name-$workers"
      stop
    done
  done
  for kind in "${kinds[@]}"; do
    figures=$room/figures-${kind/ /-}
    printf '%-14s %-6s %10s %8s %8s %8s\n' "$kind" "${cell/ /x}" "$(median 1 "$figures")" "$(median 2 "$figures")" "$(median 3 "$figures")" "$(median 4 "$figures")"
  done
  if [ "${#kinds[@]}" = 2 ]; then
    paste "$room/figures-${kinds[0]/ /-}" "$room/figures-${kinds[1]/ /-}" | awk '{ printf "%s%.2f", (NR > 1 ? ", " : "ratio in each round: "), $1 / $5 } END { print "" }'
  fi
done
[ -z "${CELLS:-}" ] || exit 0
printf '%-14s %12s %15s %13s\n' server 'KB at start' 'KB, 1,000 idle' 'ms, 1,000 idle'
for kind in "${kinds[@]}"; do
  read -r name workers <<< "$kind"
  start "$name" "$workers" 1000
  printf '%-14s %12s %15s %13s\n' "$kind" $("$room/load" "$port" 1000 1 0 "$server")
  stop
done
