#!/usr/bin/env bash
# edits.sh [NAME..]: tries the must-fail edits of these crates that the gate leaves out, those of bench/edits, or all of them. Whoever changes
# a contract of such a crate runs it. It works on a copy of what is committed, checks each crate there first, over what checks in this
# checkout kept, and then tries its edits over that: `rt must-fail` says of each whether it is refused, as it must be.
# Ends with status 1 where a crate is not proved, or an edit is not refused.
set -u
top=$(cd "$(dirname "${BASH_SOURCE[0]}")/.." && pwd)
room=$(mktemp -d)
trap 'rm -rf "$room"' EXIT
git clone -q "$top" "$room/tree" || exit 1
cd "$room/tree" || exit 1
rm -rf crates/*/must-fail
if [ $# -eq 0 ]; then
  mapfile -t all < <(ls bench/edits)
  set -- "${all[@]}"
fi
wrong=0
for name in "$@"; do
  if ! cp -r "bench/edits/$name" "crates/$name/must-fail"; then
    wrong=1
  elif ! (cd "crates/$name" && rt check >"$room/$name.log" 2>&1); then
    tail -5 "$room/$name.log"
    wrong=1
  elif ! rt must-fail "$name"; then
    wrong=1
  fi
done
exit "$wrong"
