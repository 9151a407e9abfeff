#!/usr/bin/env bash
# crates.sh: compares the list of crates in docs/ARCHITECTURE.md with crates.txt and with the crates themselves; and looks whether the
# files that the pages name and link to are there.
# Each crate of crates.txt has one line there: its name, the first sentence of the head of its root file, and, behind `Contract:`, names
# that stand in its sources. No crate stands there before one that it uses, nor in crates.txt. Names what differs, and ends then with
# status 1.
# shellcheck disable=SC2016  # backquotes are those of the page
set -u
top=$(cd "$(dirname "${BASH_SOURCE[0]}")/.." && pwd)
page=$top/docs/ARCHITECTURE.md
wrong=0
differs() { echo "$1"; wrong=$((wrong + 1)); }

# the first sentence of the head of a crate's root file
head_of() {
  local root=$top/crates/$1/src/lib.rt
  [ -f "$root" ] || root=$top/crates/$1/src/main.rt
  awk '
    !/^\/\/! ./ { exit }
    { text = text (NR > 1 ? " " : "") substr($0, 5) }
    END { at = index(text, ". "); print at ? substr(text, 1, at) : text }' "$root"
}

# whether a name stands in a crate's sources: a file of specs/, or a word
stands_in() {
  case $2 in
    specs/*) [ -f "$top/crates/$1/$2.antt" ] ;;
    *) grep -rqw --include='*.rt' --include='*.antt' -e "$2" "$top/crates/$1/src" "$top/crates/$1/specs" 2>/dev/null ;;
  esac
}

# in_order FILE LIST: names the crates of the list, lines `NAME: USED ..`, that stand before one of it that they use
in_order() {
  local name uses use
  declare -A left=()
  while IFS=: read -r name uses; do left[$name]=1; done <<<"$2"
  while IFS=: read -r name uses; do
    unset "left[$name]"
    for use in $uses; do
      [ -z "${left[$use]:-}" ] || differs "$1: $name stands before $use, which it uses"
    done
  done <<<"$2"
}

declare -A used=()
listed=$(grep -v '^#' "$top/crates.txt" | grep .)
while IFS=: read -r name uses; do used[$name]=$uses; done <<<"$listed"
in_order crates.txt "$listed"

# the page's lines, as crates.txt would have them
shown=
declare -A lines=()
while IFS= read -r line; do
  name=${line#"- \`"}
  name=${name%%\`*}
  [ -n "${used[$name]+is a crate}" ] || { differs "$page: $name is no crate of crates.txt"; continue; }
  [ -z "${lines[$name]:-}" ] || { differs "$page: $name has two lines"; continue; }
  lines[$name]=$line
  shown+="$name:${used[$name]}"$'\n'
done < <(grep '^- `[a-z_0-9]*`: ' "$page")
in_order "$page" "${shown%$'\n'}"

for name in "${!used[@]}"; do
  said=$(head_of "$name")
  line=${lines[$name]:-}
  if [ -z "$line" ]; then
    differs "$page: no line for $name: write - \`$name\`: $said"
    continue
  fi
  rest=${line#"- \`$name\`: "}
  if [ "$rest" != "$said" ] && [ "${rest#"$said Contract: "}" = "$rest" ]; then
    differs "$page: the line of $name does not say as its head: $said"
    continue
  fi
  for word in $(grep -o '`[A-Za-z_0-9/]*`' <<<"${rest#"$said"}" | tr -d '`'); do
    [ -n "${used[$word]+is a crate}" ] || stands_in "$name" "$word" || differs "$page: $name has no $word"
  done
done
# what the pages name: files of crates, and the targets of links
pages=("$top/README.md" "$top"/docs/*.md "$top"/bench/*.md)
while IFS= read -r path; do
  [ -e "$top/crates/$path.antt" ] || [ -e "$top/crates/$path.rt" ] || differs "a page names crates/$path, which is not there"
done < <(grep -oh '[a-z_0-9]*/\(src\|specs\|proofs\)/[A-Za-z_]*' "${pages[@]}" | sort -u)
for page in "${pages[@]}"; do
  while IFS= read -r link; do
    [ -e "$(dirname "$page")/$link" ] || differs "$page: a link to $link, which is not there"
  done < <(grep -o '](\([^)#:]*\)' "$page" | sed 's/](//' | grep . | sort -u)
done
echo "${#used[@]} crates, $wrong differences"
[ "$wrong" -eq 0 ]
