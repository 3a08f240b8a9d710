#!/usr/bin/env bash
# Calls `thriftd serve` from unmodified Apache clients: clients.sh [THRIFTD]
#
# Python (python3-thrift) and C++ (libthrift-dev and g++), both with code that Apache's compiler (thrift-compiler) writes from the tutorial's IDL, in both
# protocols, by plain names, by multiplexed ones and by both at one port, with no workers and with two. It installs nothing, and says what it leaves out because it isn't installed.
# It ends with status 1 where an answer, an end or the journal isn't as it has to be.
set -euo pipefail
here=$(dirname "$(readlink -f "${BASH_SOURCE[0]}")")
thriftd=${1:-$(THRIFTD_PATH_ONLY=1 "$here/../../thriftd")}
room=$(mktemp -d)
trap 'rm -rf "$room"' EXIT

if ! command -v thrift > /dev/null; then
  echo "clients: Apache's compiler isn't installed (thrift-compiler)"
  exit 0
fi
python3 "$here/clients/idl.py" "$room"
clients=()
if /usr/bin/python3 -c 'import thrift' 2> /dev/null; then
  (cd "$room" && thrift -r -gen py tutorial.thrift)
  clients+=("/usr/bin/python3 $here/clients/client.py $room/gen-py")
else
  echo "clients: Apache's Python library isn't installed (python3-thrift)"
fi
if command -v g++ > /dev/null && [ -e /usr/include/thrift/Thrift.h ]; then
  (cd "$room" && thrift -r -gen cpp tutorial.thrift && rm -f gen-cpp/*skeleton*)
  g++ -O1 -w -I"$room/gen-cpp" -o "$room/client" "$here/clients/client.cpp" "$room"/gen-cpp/*.cpp -lthrift
  clients+=("$room/client")
else
  echo "clients: Apache's C++ library isn't installed (libthrift-dev)"
fi
[ "${#clients[@]}" -gt 0 ] || exit 0
exec python3 "$here/clients/drive.py" "$thriftd" "$room" "${clients[@]}"
