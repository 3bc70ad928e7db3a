#!/usr/bin/env bash
# Times a turn, a load and a raise of the stop word, an offer with a take, and a steal, by one thread and beside three
# others. Shows nanoseconds and judges nothing.
here=$(cd "$(dirname "$0")/.." && pwd) || exit 1
program=$here/crates/pp_shared_bench/out/pp_shared_bench
[ -x "$program" ] || (cd "$here/crates/pp_shared_bench" && rt run >/dev/null) || exit 1

# The lowest time of five runs with these words, in nanoseconds.
lowest() {
  local least= start end
  for run in 1 2 3 4 5; do
    start=$(date +%s%N)
    "$program" "$@" >/dev/null || exit 1
    end=$(date +%s%N)
    if [ -z "$least" ] || [ $((end - start)) -lt "$least" ]; then least=$((end - start)); fi
  done
  echo "$least"
}

for how in alone beside; do
  nothing=$(lowest nothing "$how")
  filling=$(lowest fills "$how")
  for work in turns loads raises offers steals; do
    base=$nothing
    [ "$work" = steals ] && base=$filling
    done=$("$program" "$work" "$how" | sed -n "s/^$work //p")
    awk -v all="$(lowest "$work" "$how")" -v base="$base" -v done="$done" -v name="$work $how" \
      'BEGIN { printf "%s: %.1f ns\n", name, (all - base) / done }'
  done
done
