#!/usr/bin/env bash
# Times the reading of long texts: as many clauses as there may be, a fault in the last sentence of four megabytes, a deep term, and many names. Shows figures and judges nothing.
here=$(cd "$(dirname "$0")/.." && pwd) || exit 1
program=$here/crates/pp_bench/out/pp_bench
[ -x "$program" ] || (cd "$here/crates/pp_bench" && rt run >/dev/null) || exit 1
text=$(mktemp) || exit 1
trap 'rm -f "$text"' EXIT

repeat() { # PIECE TIMES
  yes "$1" | head -n "$2" | tr -d '\n'
}

take_time() { # NAME, of the text
  start=$(date +%s%N)
  "$program" read <"$text" | tail -n 1
  end=$(date +%s%N)
  printf '%s: %d ms\n' "$1" $(((end - start) / 1000000))
}

echo '?- X = 1.' >"$text"
take_time nothing
{ repeat 'edge(a,f(X,1),Y) :- edge(X,Y,b), X #< 3.' 65535; echo '?- edge(X,Y,Z) infers most.'; } >"$text"
take_time clauses
{ repeat 'p(aaaaaaaa,bbbbbbbb,cccccccc,dddddddd) :- q(X,Y), X = f(Y,_). ' 65535; echo 'p(1,). ?- X = 1.'; } >"$text"
take_time 'last sentence'
{ printf 'p('; repeat 'f(' 100000; printf 'a'; repeat ')' 100000; echo '). ?- X = 1.'; } >"$text"
take_time 'deep term'
{ printf 'p :- q'; seq 1 200000 | sed 's/.*/, r&/' | tr -d '\n'; echo '. ?- X = 1.'; } >"$text"
take_time names
{ printf '?- X :: [1'; seq 1 2 600000 | sed 's/.*/, &/' | tr -d '\n'; echo '].'; } >"$text"
take_time set
