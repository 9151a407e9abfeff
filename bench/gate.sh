#!/usr/bin/env bash
# gate.sh: runs the gate, `.ci/run`, and prints what each crate took of the processors in it, dearest first, in seconds: for its proof, for
# its tests (which are proved with it a second time), and for its must-fail edits; then, how much of the disk it took. Ends with the gate's status.
# gate.sh last: prints that of the last gate once more, and runs nothing.
# How long a gate takes is the machine's as much as the text's, so it also compares with bench/gate.table, which has the seconds of a gate
# whose minutes are known: the middle of what crates took is what this machine takes longer, and what is far from it the text took.
# rt tells no times, so each second the prover's processes are looked at. What one takes in its last second is missed: the last line has
# the sum beside all that the gate took, with what else it does.
# out/gate.log has the lines of the gate, each behind the seconds from its start. Those are not the times of crates, since several are
# proved side by side.
set -u
top=$(cd "$(dirname "${BASH_SOURCE[0]}")/.." && pwd)
log=$top/out/gate.log
times=$top/out/gate.times

# Prints the table of lines `PROCESS TICKS KIND CRATE`, of which the last of each process counts, and one `whole SECONDS`.
sum() {
  awk -v ticks="$(getconf CLK_TCK)" '
    $1 == "whole" { whole = $2; next }
    $1 == "wall" { next }
    { last[$1] = $2 / ticks; kind[$1] = $3; crate[$1] = $4 }
    END {
      for (process in last) {
        name = crate[process]
        took[name, kind[process]] += last[process]
        all[name] += last[process]
        total += last[process]
      }
      for (name in all) printf "%d %s %d %d %d\n", all[name], name, took[name, "proof"], took[name, "tests"], took[name, "edits"]
      printf "-1 all %d %d\n", total, whole
    }' "$times" | sort -k1,1nr -k2,2 | awk '
    BEGIN { printf "%-26s %8s %8s %8s %8s\n", "seconds of a processor", "proof", "tests", "edits", "all" }
    $1 < 0 { printf "all of these %d, of %d that the gate took\n", $3, $4; next }
    { printf "%-26s %8d %8d %8d %8d\n", $2, $3, $4, $5, $1 }'
}

# Prints how the last gate compares with that of bench/gate.table, by what took at least ten seconds in both.
compare() {
  awk -v ticks="$(getconf CLK_TCK)" '
    /^#/ { next }
    FILENAME ~ /table$/ && $1 == "minutes" { minutes = $2; next }
    FILENAME ~ /table$/ { before[$1, "proof"] = $2; before[$1, "tests"] = $3; before[$1, "edits"] = $4; next }
    $1 == "whole" { next }
    $1 == "wall" { wall = $2; next }
    { last[$1] = $2 / ticks; of[$1] = $4 SUBSEP $3 }
    END {
      for (process in last) now[of[process]] += last[process]
      for (key in now) if (now[key] >= 10 && before[key] >= 10) ratio[key] = now[key] / before[key]
      for (key in ratio) sorted[++count] = ratio[key]
      if (count < 5) exit
      for (i = 2; i <= count; i++) { # in order
        value = sorted[i]
        for (j = i - 1; j > 0 && sorted[j] > value; j--) sorted[j + 1] = sorted[j]
        sorted[j + 1] = value
      }
      middle = sorted[int((count + 1) / 2)]
      printf "%.2f times the seconds of bench/gate.table, a gate of %d minutes: the middle of %d crates", middle, minutes, count
      if (wall) printf "; these %d minutes are %d there", int(wall / 60 + 0.5), int(wall / 60 / middle + 0.5)
      print ""
      for (key in ratio) {
        split(key, part, SUBSEP)
        own = ratio[key] / middle
        if (own > 1.25 || own < 0.8) printf "  %s of %s: %.2f times what that tells\n", part[2], part[1], own
      }
    }' "$top/bench/gate.table" "$times" | { IFS= read -r line && printf '%s\n' "$line" && sort -k5,5nr; }
}

# watch SESSION: each second, a line for each process of the prover in that session
watch() {
  local process line fields words at name kind
  while sleep 1; do
    for process in /proc/[0-9]*; do
      { read -r line <"$process/stat"; } 2>/dev/null || continue
      # behind the command's name: the 4th is the session, the 12th and 13th are ticks of the processor, the 20th is the start
      # shellcheck disable=SC2206
      fields=(${line##*) })
      [ "${fields[3]}" = "$1" ] || continue
      { mapfile -d '' -t words <"$process/cmdline"; } 2>/dev/null || continue
      case ${words[0]:-} in */rattle) ;; *) continue ;; esac
      name=
      kind=proof
      for at in "${!words[@]}"; do
        case ${words[at]} in
          --crate-name) name=${words[at + 1]:-} ;;
          --test) kind=tests ;;
        esac
      done
      case $(readlink "$process/cwd") in */rt-edit-*) kind=edits ;; esac
      [ -z "$name" ] || echo "${process#/proc/}.${fields[19]} $((fields[11] + fields[12])) $kind $name"
    done
  done >>"$times"
}

if [ "${1:-}" = last ]; then
  [ -s "$times" ] || { echo 'gate.sh: no gate was run by this script yet' >&2; exit 1; }
  sum
  compare
  exit
fi

cd "$top" || exit 126
mkdir -p out
: >"$times"
: >"$log"
lines=$(mktemp -u)
mkfifo "$lines" || exit 126
# a session of its own, by which its processes are known
setsid bash -c 'TIMEFORMAT="whole %U %S"; time bash .ci/run' >"$lines" 2>&1 &
gate=$!
watch "$gate" &
watcher=$!
trap 'kill "$watcher" 2>/dev/null; rm -f "$lines"' EXIT
trap 'kill -- "-$gate" 2>/dev/null; exit 130' INT TERM HUP
from=$SECONDS
while IFS= read -r line; do
  case $line in
    'whole '*) awk '{ print "whole", $2 + $3 }' <<<"$line" >>"$times" ;;
    *) printf '%6d %s\n' $((SECONDS - from)) "$line" | tee -a "$log" ;;
  esac
done <"$lines"
wait "$gate"
status=$?
# its minutes say something where nothing was kept from before
grep -q 'kept from earlier runs' "$log" || echo "wall $((SECONDS - from))" >>"$times"
sum
compare
# what it left on the disk, which is what it needs of it but for about 1 GiB of files that are gone at its end
du -sm crates/*/out | awk '{ sum += $1 } END { printf "%d MiB of the disk in the folders out\n", sum }'
exit "$status"
