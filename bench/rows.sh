#!/usr/bin/env bash
# Times cover tests of four columns, and the join of two rows of 100,001 cells. Shows figures and judges nothing.
here=$(cd "$(dirname "$0")/.." && pwd) || exit 1
program=$here/crates/pp_bench/out/pp_bench
[ -x "$program" ] || (cd "$here/crates/pp_bench" && rt run >/dev/null) || exit 1
for work in nothing covers join; do
  start=$(date +%s%N)
  "$program" "$work"
  end=$(date +%s%N)
  printf '%s: %d ms\n' "$work" $(((end - start) / 1000000))
done
