#!/usr/bin/env bash
# Times one goal over 65,535 facts of three atoms: reading, the run and the answer. Shows figures and judges nothing.
here=$(cd "$(dirname "$0")/.." && pwd) || exit 1
text=$(mktemp) || exit 1
trap 'rm -f "$text"' EXIT
awk 'BEGIN { for (i = 0; i < 65535; i++) printf "link(a%d,b%d,c%d).\n", i % 7, i % 11, i % 13; print "?- link(X,Y,Z) infers most." }' >"$text"
printf '%s bytes\n' "$(wc -c <"$text")"
for run in 1 2 3; do
  start=$(date +%s%N)
  "$here/propia" alone <"$text" >/dev/null
  status=$?
  end=$(date +%s%N)
  printf 'run %d: %d ms, status %d\n' "$run" $(((end - start) / 1000000)) "$status"
done
