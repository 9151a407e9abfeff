#!/usr/bin/env bash
# page.sh [--unproved]: gives the texts of docs/ERRORS.md, docs/LANGUAGE.md and docs/EVENTS.md to the built program, and compares what it says with the
# page. With --unproved it compiles the program without proofs, once, and runs that. Ends with status 1 where something does not hold.
# In ERRORS.md a text stands in a block, or in the file that a line `The text is [FILE](..)` names; what the page says of it stands
# below: `LINE`, for the words `run a.c`, or With `WORDS`: `LINE`, or With `WORDS` and the history `POLL`: `LINE`, where the words name it h.
# In LANGUAGE.md and EVENTS.md each block with a `main` is to be accepted, and one that begins as a file of crates/examples/data is to be that file. A
# block that begins with `cps` and has no `main` is translated with one, and each part of the block below it is to be in what is printed.
# shellcheck disable=SC2016  # backquotes are those of the page
set -u
top=$(cd "$(dirname "${BASH_SOURCE[0]}")/.." && pwd)
cpc=$top/crates/cpc/out/cpc
if [ "${1:-}" != --unproved ] && [ ! -x "$cpc" ]; then
  echo 'page.sh: build the program first (./cpc), or give the word --unproved' >&2
  exit 126
fi
for page in ERRORS LANGUAGE EVENTS; do
  [ -r "$top/docs/$page.md" ] || { echo "page.sh: docs/$page.md cannot be read" >&2; exit 126; }
done
room=$(mktemp -d)
trap 'rm -rf "$room"' EXIT
mkdir "$room/cases" || exit 126
texts=0
wrong=0

# case_of TEXT WORDS SAID [HISTORY]: a text in a file of its own, with its words (a.c is {}) and what the page says in two files beside it
lent=()
case_of() {
  local name words
  texts=$((texts + 1))
  name=$(printf 't%03d' "$texts")
  words=${2//a.c/\{\}}
  printf %s "$1" >"$room/cases/$name"
  if [ -n "${4:-}" ]; then
    words=${words/% h/ $name.h}
    printf '%s\n' "$4" >"$room/$name.h"
    lent+=(--data "$name.h=$room/$name.h")
  fi
  tr ' ' '\n' <<<"$words" >"$room/cases/$name.args"
  printf %s "$3" >"$room/$name.said"
}

# the texts of ERRORS.md, each with what stands below it
state=outside
while IFS= read -r line; do
  case $state in
    outside)
      case $line in
        '```c') state=inside text= ;;
        'The text is ['*)
          file=${line#*\[}
          text=$(cat "$top/docs/${file%%]*}")
          state=below ;;
      esac ;;
    inside)
      if [ "$line" = '```' ]; then state=below; else text=${text:+$text$'\n'}$line; fi ;;
    below)
      [ -n "$line" ] || continue
      state=outside
      IFS='`' read -r before first between second _ third _ <<<"$line"
      case $before$between in
        'With  and the history ') case_of "$text" "$first" "$third" "$second" ;;
        'With '*) case_of "$text" "$first" "$second" ;;
        *)
          if [ -z "$first" ]; then
            wrong=$((wrong + 1))
            echo "ERRORS.md does not say what is told of: $text"
          fi
          case_of "$text" 'run a.c' "$first" ;;
      esac ;;
  esac
done <"$top/docs/ERRORS.md"

# printed_of TEXT PARTS: parts of what is printed of a text, with a blank line between them, in a file beside it
shown=0
printed_of() {
  shown=$((shown + 1))
  case_of "$1" 'translate a.c' ''
  printf %s "$2" >"$room/$(printf 't%03d' "$texts").parts"
}

# the programs of LANGUAGE.md and EVENTS.md
state=outside
source=
while IFS= read -r line; do
  case $state in
    outside)
      if [ "$line" = '```c' ]; then state=inside text=; fi ;;
    inside)
      if [ "$line" != '```' ]; then
        text=${text:+$text$'\n'}$line
        continue
      fi
      state=outside
      case $text in
        *' main('*) case_of "$text" 'check a.c' accepted ;;
        'cps '*) source=$text$'\nint main(void) { return 0; }' ;;
        *) [ -z "$source" ] || printed_of "$source" "$text" ;;
      esac
      for file in "$top"/crates/examples/data/*.c; do
        if [ "$(head -n 1 "$file")" = "${text%%$'\n'*}" ] && [ "$(cat "$file")" != "$text" ]; then
          wrong=$((wrong + 1))
          echo "the pages have another ${file##*/} than crates/examples/data"
        fi
      done ;;
  esac
done < <(cat "$top/docs/LANGUAGE.md" "$top/docs/EVENTS.md")

if [ "$shown" -eq 0 ]; then
  wrong=$((wrong + 1))
  echo 'EVENTS.md shows no event program'
fi

# what the program says of each: all of its output
if [ "${1:-}" = --unproved ]; then
  (cd "$top/crates/cpc" && rt try "${lent[@]}" --cases "$room/cases" </dev/null) >"$room/all" 2>&1
  awk -v room="$room" '
    /^case=/ { file = room "/" substr($1, 6) ".told"; printf "%s", text >file; close(file); text = ""; next }
    /^== t[0-9]+$/ { next }
    { text = text $0 "\n" }' "$room/all"
else
  for file in "$room"/cases/*.args; do
    name=$(basename "$file" .args)
    mapfile -t words <"$file"
    words=("${words[@]//\{\}/$room/cases/$name}")
    timeout 60 "$cpc" "${words[@]/#$name.h/$room/$name.h}" >"$room/$name.told" 2>&1
  done
fi

# lacks TOLD PARTS: whether one of the parts is not in what is told
lacks() {
  local part rest=$2$'\n\n'
  [ -n "$2" ] || return 0
  while [ -n "$rest" ]; do
    part=${rest%%$'\n\n'*}
    rest=${rest#*$'\n\n'}
    case $1 in *"$part"*) ;; *) return 0 ;; esac
  done
  return 1
}

for file in "$room"/*.said; do
  name=$(basename "$file" .said)
  said=$(cat "$file")
  told=$(cat "$room/$name.told" 2>/dev/null)
  if [ -f "$room/$name.parts" ]; then
    parts=$(cat "$room/$name.parts")
    if lacks "$told" "$parts"; then said="(some of) $parts"; else said=$told; fi
  fi
  if [ "$told" != "$said" ]; then
    wrong=$((wrong + 1))
    echo "$(tr '\n' ' ' <"$room/cases/$name.args"): the page says '$said', and the program '$told', of"
    head -c 300 "$room/cases/$name"
    echo
  fi
done
echo "$texts texts, $wrong wrong"
[ "$texts" -gt 0 ] && [ "$wrong" -eq 0 ]
