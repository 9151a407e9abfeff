# launch.sh: what both launchers say of themselves and of a refused text. Sourced by ./cpc and ./cpc-unproved.

# usage NAME: the commands and options, on standard output.
usage() {
  cat <<TEXT
usage: $1 check FILE | translate FILE | run FILE [OPTION].. | exec FILE [OPTION].. | sample N

  check FILE      read and check the text, and write \`accepted'
  translate FILE  print the event program of the text
  run FILE        translate the text, read back what was printed, and run that
  exec FILE       run a text of events, as \`translate' prints it
  sample N        make a program of N threads (1 to 1,000), translate it and run it

options of run and exec:
  --history H        the polls that the run is told, a file of lines such as \`poll 20 r3 d0'
  --steps N          the run makes at most N steps (100,000,000)
  --cells N          it has at most N live cells (4,000,000)
  --section-steps N  each section makes at most N steps (10,000,000)
  --workers N        threads that run sections beside the loop, 0 to 64 (2)
  --trace            a line for each mark of the run, in place of its output
option of run alone:
  --text             the printed text first, and a line \`/* run */'

The status is 0 where the command did its work; docs/ERRORS.md explains each other one.
TEXT
}

# explained LINE WORDS..: behind a line `refused LINE:COLUMN STAGE NUMBER NAME` the line of the source with a mark below the place, and the
# heading of docs/ERRORS.md that explains it. The text is the word behind the command.
explained() {
  local line=$1 place row column file text
  [[ $line =~ ^refused\ ([0-9]+):([0-9]+)\ ([a-z]+\ [0-9]+)\ (.*)$ ]] || return 0
  row=${BASH_REMATCH[1]} column=${BASH_REMATCH[2]}
  file=$3
  [ -f "$file" ] || return 0
  text=$(sed -n "${row}p" "$file")
  printf '  %s\n  %*s\n' "${text//$'\t'/ }" "$column" '^'
  printf '  docs/ERRORS.md: %s: %s\n' "${BASH_REMATCH[3]}" "${BASH_REMATCH[4]}"
}

# ran PROGRAM WORDS..: runs the program with these words, and ends with its status. On a terminal a refusal is explained.
ran() {
  local program=$1 said status
  shift
  [ -t 2 ] || exec "$program" "$@"
  said=$(mktemp)
  "$program" "$@" 2> >(tee "$said" >&2)
  status=$?
  # (tee may still be writing)
  wait
  [ "$status" -ne 3 ] || explained "$(tail -n 1 "$said")" "$@" >&2
  rm -f "$said"
  exit "$status"
}
