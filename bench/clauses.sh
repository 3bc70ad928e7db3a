#!/usr/bin/env bash
# Times 1,000,000 look-ups by first argument among 65,535 facts, beside their reading and adding alone. Shows figures and judges nothing.
here=$(cd "$(dirname "$0")/.." && pwd) || exit 1
program=$here/crates/pp_clause_bench/out/pp_clause_bench
[ -x "$program" ] || (cd "$here/crates/pp_clause_bench" && rt run >/dev/null) || exit 1
for work in "" look-ups; do
  start=$(date +%s%N)
  "$program" $work
  end=$(date +%s%N)
  printf '%s: %d ms\n' "${work:-nothing}" $(((end - start) / 1000000))
done
