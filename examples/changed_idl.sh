#!/usr/bin/env bash
# Tells, of each IDL that has changed since a revision, all differences and what each breaks: changed_idl.sh REV
# It is run in a repository with IDLs, and ends with status 15 where one of them breaks. Renamed files and ones that are
# gone are listed alone.
set -euo pipefail
thriftd=$(dirname "$(readlink -f "${BASH_SOURCE[0]}")")/../thriftd
[ -x "$thriftd" ] || thriftd=thriftd
[ $# -eq 1 ] || { echo "changed_idl.sh takes a revision" >&2 && exit 1; }
status=0
git diff --name-status --diff-filter=DR "$1" -- '*.thrift'
while IFS= read -r -d '' file; do
  echo "$file:"
  "$thriftd" changes --git "$1" "$file" || status=$?
done < <(git diff -z --name-only --relative --diff-filter=M "$1" -- '*.thrift')
exit $status
