#!/usr/bin/env bash
# hostile.sh [NAME..]: hostile texts of up to 262,144 bytes, which is the limit, each through `check`, `translate` and `run` of the built
# program: each construct repeated or nested to the end, one name used everywhere, a goto to every label, the widest expressions, the longest
# names, as many functions, globals, structs and threads as fit. Prints seconds of a processor and MiB of each call; with names only these
# texts. Ends with status 1 where a call takes more than 10 seconds or 1 GiB, or does not end as is due; after 30 seconds it is cut off. With
# the words --texts FOLDER it only puts the texts there, and the file `list`, which says what is due to each.
set -u
top=$(cd "$(dirname "${BASH_SOURCE[0]}")/.." && pwd)
program=${CPC:-$top/crates/cpc/out/cpc}
export LC_ALL=C
if [ "${1:-}" = --texts ]; then
  room=$2
  mkdir -p "$room" || exit 126
else
  [ -x "$program" ] || { echo 'hostile.sh: build the program first (./cpc)' >&2; exit 126; }
  [ -x /usr/bin/time ] || { echo 'hostile.sh: it needs /usr/bin/time of GNU' >&2; exit 126; }
  room=$(mktemp -d)
  trap 'rm -rf "$room"' EXIT
fi

# What is due is the status of `run` where the text is accepted, and else the stage and the number with which each command refuses it.
awk -v folder="$room" '
  # the text as often as this
  function rep(part, count,   all) { for (all = ""; count > 0; count--) all = all part; return all }

  # cuts a part at each @, which stands for a number, and each #, for the number before it
  function cut(part,   at, sign) {
    pieces = 0
    fixed[0] = ""
    for (at = 1; at <= length(part); at++) {
      sign = substr(part, at, 1)
      if (sign == "@" || sign == "#") { less[pieces] = sign == "#"; fixed[++pieces] = "" } else fixed[pieces] = fixed[pieces] sign
    }
  }

  # what was cut, with this number
  function joined(number,   all, at) {
    all = fixed[0]
    for (at = 0; at < pieces; at++) all = all (number - less[at]) fixed[at + 1]
    return all
  }

  # a front, parts numbered from 1 as far as they fit, and a back with the number of the last
  function text(name, due, front, part, back,   file, left, number, piece) {
    file = folder "/" name ".c"
    printf "%s", front >file
    left = 262144 - length(front) - length(back)
    if (back ~ /[@#]/) left -= 8
    if (part ~ /[@#]/) {
      cut(part)
      for (number = 1; ; number++) {
        piece = joined(number)
        if (length(piece) > left) break
        printf "%s", piece >file
        left -= length(piece)
      }
    } else {
      for (piece = part; length(piece) < 2000; ) piece = piece part
      for (; length(piece) <= left; left -= length(piece)) printf "%s", piece >file
      for (; length(part) <= left; left -= length(part)) printf "%s", part >file
    }
    cut(back)
    printf "%s", joined(number - 1) >file
    close(file)
    print name, due >(folder "/list")
  }

  # the same inside of main, and inside of a thread; x is an int, 0 at first
  function inside(name, due, part) { text(name, due, "int x;int *p;int a[9];int f(int n){return n;}int main(void){", part, "return 0;}") }
  function thread(name, due, part) {
    text("thread-" name, due, "int *p;cpc_condvar c;cps int g(int n){cpc_yield();return n;}cps void f(int x){", part,
      "}int main(void){c=cpc_cond_new();cpc_spawn f(0);return 0;}")
  }

  # an expression that goes on to the end
  function endless(name, part) { text("deep-" name, "parse 2", "int x;int main(void){x=1", part, ";return 0;}") }

  BEGIN {
    program = "int main(void){return 0;}"
    longest = rep("a", 57)

    # not cut into tokens
    text("comment-open", "lex 2", "/*", " ", "")
    text("line-open", "lex 2", "//", "a", "")
    text("string-open", "lex 2", "int main(void){cpc_puts(\"", "a", "")
    text("name", "lex 4", "", "a", "")
    text("number", "lex 3", "", "1", "")
    text("hex", "lex 3", "0x", "f", "")
    text("octal", "lex 3", "0", "7", "")
    text("eights", "lex 5", "", "08 ", "")
    text("stray", "lex 1", "", "$", "")
    text("last-byte", "lex 1", "int main(void){", ";", "return 0;}$")

    # no beginning of a program
    count = split("( ) { } [ ] ; , * & = -> if else goto 1 \"a\" main", marks, " ")
    for (at = 1; at <= count; at++) text("mark-" at, "parse 1", "", marks[at] " ", "")
    count = split("int struct cps detached extern void unsigned", marks, " ")
    for (at = 1; at <= count; at++) text("word-" marks[at], "parse 1", "", marks[at] " ", "")
    text("struct-in-struct", "parse 1", "", "struct s{", "")
    text("last-token", "parse 1", "int main(void){", ";", "return 0;}}")

    # too deep
    count = split("+ - * / % << >> < <= > >= == != & ^ | && ||", marks, " ")
    for (at = 1; at <= count; at++) endless("operator-" at, marks[at] "1")
    count = split("-_ ! ~ +_ * &_ ( (int) x[ f( 1?", marks, " ")
    for (at = 1; at <= count; at++) { gsub(/_/, " ", marks[at]); text("deep-front-" at, "parse 2", "int x;int main(void){x=", marks[at], "1;return 0;}") }
    endless("choice", "?1:1")
    text("deep-index", "parse 2", "int x;int main(void){x=x", "[0]", ";return 0;}")
    text("deep-field", "parse 2", "int x;int main(void){x=x", ".a", ";return 0;}")
    text("deep-arrow", "parse 2", "int x;int main(void){x=x", "->a", ";return 0;}")
    text("deep-stars", "parse 2", "int ", "*", "x;")
    text("deep-codes", "parse 2", "int (*x)(", "int (*)(", "")
    count = split("{ if(x) if(x);else_ while(x) do_ for(;;) a@:", marks, " ")
    for (at = 1; at <= count; at++) { gsub(/_/, " ", marks[at]); text("deep-statement-" at, "parse 2", "int x;int main(void){", marks[at], "") }

    # a rule is broken
    text("blanks", "check 16", "", " ", "")
    text("lines", "check 16", "", "\n", "")
    text("comments", "check 16", "", "/*@*/", "")
    text("twice", "check 2", "", "int a;", "")
    text("reserved", "check 12", "", "int cpc_@;", program)
    text("oversized", "check 11", "", "int a@[65537];", program)
    inside("undeclared", "check 1", "y@=1;")
    inside("pointers", "check 3", "p=1;")
    inside("wanting", "check 5", "x=f();")
    inside("waits", "check 6", "cpc_yield();")
    inside("no-label", "check 7", "goto b@;")
    inside("label-twice", "check 8", "b:;")
    inside("breaks", "check 9", "break;")
    inside("returns", "check 13", "return;")
    inside("calls-inside", "check 19", "x=1+f(1);")
    inside("variables", "check 17", "int v@;")
    text("parameters", "check 17", "int f(int p0", ",int p@", "){return 0;}" program)
    text("arguments", "check 5", "int f(int n){return n;}int main(void){int x;x=f(1", ",1", ");return 0;}")
    text("last-rule", "check 1", "int x;int main(void){", "x=1;", "y=1;return 0;}")
    text("broad", "check 18", "cps void f(int a,int b,int c,int d){", ";", "}" program)

    # accepted, one thing to the end
    text("comment", 0, "/*", " ", "*/" program)
    text("remarks", 0, "", "//@\n", program)
    text("string", 0, "int main(void){cpc_puts(\"", "a", "\");return 0;}")
    inside("strings", 0, "cpc_puts(\"@\");")
    text("globals", 0, "", "int a@;", program)
    text("values", 0, "", "int a@=@;", program)
    text("texts", 0, "", "char a@[9]=\"@\";", program)
    text("arrays", 7, "", "int a@[65536];", program)
    text("declarators", 0, "int a", ",a@", ";" program)
    text("structs", 0, "", "struct s@{int a;};", program)
    text("fields", 0, "struct s{int a;", "int a@;", "};struct s v;" program)
    text("structs-in-structs", 0, "struct s0{int a;};", "struct s@{struct s# a;};", "struct s@ v;" program)
    text("structs-full", 0, "struct s0{char a[65536];};", "struct s@{struct s# a;};", "struct s@ v;" program)
    text("structs-of-two", 0, "struct s0{int a;};", "struct s@{struct s# a;int b;};", "struct s@ v[8];" program)
    text("functions", 0, "", "int f@(void){return @;}", program)
    text("calls-of-calls", 0, "int f0(int n){return n;}", "int f@(int n){int x;x=f#(n);return x;}", "int main(void){int x;x=f@(7);cpc_print(x);return 0;}")
    for (at = 1; at <= 254; at++) named = named "int a" at ","
    text("wide-parameters", 0, "", "int f@(" named "int b){return b;}", program)
    inside("empties", 0, ";")
    inside("blocks", 0, "{}")
    inside("assignments", 0, "x=1;")
    inside("additions", 0, "x+=1;")
    inside("steps", 0, "x++;")
    inside("tests", 0, "if(x);")
    inside("choices", 0, "if(x);else;")
    inside("whiles", 0, "while(0);")
    inside("dos", 0, "do;while(0);")
    inside("fors", 0, "for(x=0;x<1;x++);")
    inside("prints", 0, "cpc_print(1);")
    inside("calls", 0, "x=f(1);")
    inside("sizes", 0, "x=sizeof(int);")
    text("prototypes", 0, "", "int f(int n);", "int f(int n){return n;}" program)
    text("externs", 12, "", "extern long h@(long);", program)
    text("pointers-to-code", 0, "int x;int f(int n){return n;}int main(void){int (*q)(int);q=f;", "x=q(1);", "return 0;}")
    inside("rooms", 0, "p=malloc(1);free(p);")
    inside("leaks", 7, "p=malloc(65536);")
    inside("labels", 0, "b@:;")
    inside("gotos-on", 0, "goto b@;b@:;")
    inside("gotos-back", 0, "b@:;if(x)goto b@;")
    inside("goto-itself", 6, "b@:goto b@;")
    text("gotos-away", 0, "int x;int main(void){b0:;", "b@:;if(x)goto b#;", "return 0;}")
    text("gotos-to-one", 0, "int x;int main(void){", "if(x)goto b;", "b:return 0;}")
    text("fault-at-the-end", 1, "int x;int main(void){", "x=1;", "x=1/0;return 0;}")

    # the widest and the deepest, again and again
    inside("wide", 0, "x=1" rep("+1", 253) ";")
    inside("wide-choices", 0, "x=x" rep("?1:0", 200) ";")
    inside("wide-signs", 0, "x=" rep("-", 1) rep("~", 250) "1;")
    inside("deep", 0, "x=" rep("(", 253) "1" rep(")", 253) ";")
    inside("deep-casts", 0, "x=" rep("(long)", 250) "1;")
    inside("deep-places", 0, "x=" rep("a[", 120) "0" rep("]", 120) ";")
    inside("deep-blocks", 0, rep("{", 254) rep("}", 254))
    inside("deep-tests", 0, rep("if(x)", 253) ";")
    inside("deep-loops", 0, rep("while(x)", 253) ";")

    # the longest names, and one name everywhere
    text("long-globals", 0, "", "int " longest "@;", program)
    text("long-functions", 0, "", "void " longest "@(int " longest "){" longest "=1;}", program)
    text("long-threads", 0, "", "cps void " longest "@(int " longest "){cpc_yield();cpc_print(" longest ");}", program)
    text("one-name", 0, "struct a{int a;};struct a a;", "void f@(int a){a:a=a;if(a)goto a;}", program)
    text("one-name-waits", 0, "struct a{int a;};struct a a;", "cps void f@(int a){a:cpc_yield();a=a;if(a)goto a;}", program)

    # threads
    text("threads", 0, "cps void f(void){cpc_yield();}int main(void){", "cpc_spawn f();", "return 0;}")
    text("kinds-of-threads", 0, "", "cps void f@(void){cpc_yield();}", "int main(void){cpc_spawn f@();return 0;}")
    text("threads-of-threads", 0, "cps int f0(int n){cpc_yield();return n;}", "cps int f@(int n){int x;x=f#(n);return x;}",
      "cps void g(void){int x;x=f@(7);cpc_print(x);}int main(void){cpc_spawn g();return 0;}")
    text("spawns-without-end", 6, "/*", " ", "*/cps void f(void){while(1)cpc_spawn f();}int main(void){cpc_spawn f();return 0;}")
    text("calls-without-end", 7, "/*", " ", "*/cps void f(int a){int b[999];f(a+1);b[0]=1;}int main(void){cpc_spawn f(0);return 0;}")
    thread("empties", 0, "; ")
    thread("yields", 0, "cpc_yield();")
    thread("sleeps", 5, "cpc_sleep(1);")
    thread("descriptors", 5, "cpc_io_wait(0,1);")
    thread("waits", 14, "cpc_wait(c);")
    thread("signals", 0, "cpc_signal(c);")
    thread("signals-all", 0, "cpc_signal_all(c);")
    text("thread-sections", 5, "detached int d(int*q){return 0;}cps void f(void){", "cpc_detached d(0);", "}int main(void){cpc_spawn f();return 0;}")
    thread("calls", 0, "x=g(x);")
    thread("spawns", 0, "cpc_spawn g(x);")
    thread("boxes", 0, "p=&x;cpc_yield();")
    thread("tests", 0, "if(x)cpc_yield();")
    thread("choices", 0, "if(x)cpc_yield();else cpc_print(1);")
    thread("loops", 0, "while(x)cpc_yield();")
    thread("dos", 0, "do cpc_yield();while(0);")
    thread("fors", 0, "for(;x;)cpc_yield();")
    thread("labels", 0, "b@:cpc_yield();")
    thread("gotos-on", 0, "goto b@;b@:cpc_yield();")
    thread("gotos-back", 0, "b@:cpc_yield();if(x)goto b@;")
    thread("goto-itself", 6, "b@:goto b@;")
    text("thread-gotos-away", 0, "cps void f(int x){b0:;", "b@:cpc_yield();if(x)goto b#;", "}int main(void){cpc_spawn f(0);return 0;}")
    text("thread-gotos-to-one", 0, "cps void f(int x){", "cpc_yield();if(x)goto b;", "b:;}int main(void){cpc_spawn f(0);return 0;}")
    thread("wide", 0, "x=1" rep("+1", 253) ";cpc_yield();")
    thread("deep-tests", 0, rep("if(x)", 253) "cpc_yield();")
    thread("deep-loops", 0, rep("while(x)", 253) "cpc_yield();")
    thread("dead", 0, "return;")
  }'
head -c 262144 /dev/zero >"$room/zeros.c"
tr '\0' '\377' <"$room/zeros.c" >"$room/ones.c"
printf '%s\n' 'zeros lex 1' 'ones lex 1' >>"$room/list"
[ "${1:-}" = --texts ] && exit 0

slowest=0
largest=0
texts=0
wrong=0

# call_of TEXT WORDS..: makes a call; its status, its seconds and its MiB are left in these variables, and what it said in a file
call_of() {
  local text=$1
  shift
  rm -f "$room/took"
  (
    ulimit -t 30
    exec /usr/bin/time -q -f '%U %S %M' -o "$room/took" "$program" "$1" "$text" "${@:2}" >/dev/null 2>"$room/said" </dev/null
  )
  status=$?
  # what is behind the last line is that of a call that was cut off
  read -r seconds kibibytes < <(awk 'END { print $1 + $2, $3 }' "$room/took")
  mebibytes=$((kibibytes / 1024))
}

# is_due STATUS STAGE NUMBER WORD: whether the call ended as is due to a text of this status, or refused so
is_due() {
  if [ -n "$3" ]; then
    [ "$status" -eq 3 ] && grep -q "^refused [0-9]*:[0-9]* $2 $3 " "$room/said"
  elif [ "$4" = run ]; then
    [ "$status" -eq "$1" ]
  else
    [ "$status" -eq 0 ]
  fi
}

printf '%-22s %8s %16s %16s %16s\n' text bytes check translate run
while read -r name due number; do
  [ $# -eq 0 ] || [[ " $* " = *" $name "* ]] || continue
  texts=$((texts + 1))
  row=()
  for word in check translate run; do
    options=()
    [ "$word" = run ] && options=(--steps 3000000)
    call_of "$room/$name.c" "$word" "${options[@]}"
    row+=("$seconds s $mebibytes MiB")
    if ! is_due "$due" "$due" "${number:-}" "$word"; then
      wrong=$((wrong + 1))
      echo "$name: $word ended with $status, and $due ${number:-} is due: $(head -c 100 "$room/said")"
    fi
    took=$(awk -v seconds="$seconds" 'BEGIN { print int(seconds * 1000) }')
    if [ "$took" -gt 10000 ] || [ "$mebibytes" -gt 1024 ]; then
      wrong=$((wrong + 1))
      echo "$name: $word took $seconds s and $mebibytes MiB"
    fi
    [ "$took" -gt "$slowest" ] && slowest=$took slow="$word $name"
    [ "$mebibytes" -gt "$largest" ] && largest=$mebibytes large="$word $name"
  done
  printf '%-22s %8s %16s %16s %16s\n' "$name" "$(wc -c <"$room/$name.c")" "${row[@]}"
done <"$room/list"
echo "$texts texts, $wrong wrong; the slowest: $slowest ms (${slow:-none}); the largest: $largest MiB (${large:-none})"
[ "$texts" -gt 0 ] && [ "$wrong" -eq 0 ]
