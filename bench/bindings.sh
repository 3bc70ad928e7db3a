#!/usr/bin/env bash
# Times two lists of 100,000 elements that unify, two nested terms of as many pairs, and 1,000,000 binds and undos of one variable. Shows figures and judges nothing.
here=$(cd "$(dirname "$0")/.." && pwd) || exit 1
program=$here/crates/pp_bench/out/pp_bench
[ -x "$program" ] || (cd "$here/crates/pp_bench" && rt run >/dev/null) || exit 1
for work in nothing lists nests binds; do
  start=$(date +%s%N)
  "$program" "$work"
  end=$(date +%s%N)
  printf '%s: %d ms\n' "$work" $(((end - start) / 1000000))
done
