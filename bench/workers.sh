#!/usr/bin/env bash
# workers.sh [TEXT:SIZE..]: times `run` with 1, 2 and 4 workers beside `alone` on texts of bench/peers/texts.py, the best
# of five in one run, and the ratio of each to `alone`. Elapsed time, in milliseconds. Shows figures and judges nothing.
here=$(cd "$(dirname "$0")/.." && pwd) || exit 1
program=$here/crates/propia/out/propia
[ -x "$program" ] || (cd "$here/crates/propia" && rt run >/dev/null) || exit 1
work=$(mktemp -d) || exit 1
trap 'rm -rf "$work"' EXIT

# The lowest time of five runs with these words, in microseconds.
lowest() {
  local least= start end
  for run in 1 2 3 4 5; do
    start=$(date +%s%N)
    timeout 120 "$program" "$@" --depth 10000 >"$work/answer" <"$work/text"
    end=$(date +%s%N)
    cmp -s "$work/answer" "$work/wanted" || cp -n "$work/answer" "$work/wanted" || exit 1
    cmp -s "$work/answer" "$work/wanted" || { echo "another answer: $*" >&2; exit 1; }
    if [ -z "$least" ] || [ $((end - start)) -lt "$least" ]; then least=$((end - start)); fi
  done
  echo $((least / 1000))
}

echo "$(nproc) processors: $(sed -n 's/^model name[^:]*: //p' /proc/cpuinfo | head -n 1), load $(cut -d ' ' -f 1 /proc/loadavg)"
for text in "${@:-permutations:26 selections:8 pigeons:8 join:2000}"; do
  for each in $text; do
    (cd "$here/bench/peers" && python3 -c 'import sys, texts; print(texts.text(sys.argv[1], int(sys.argv[2])), end="")' "${each%:*}" "${each#*:}") >"$work/text"
    rm -f "$work/wanted"
    alone=$(lowest alone) || exit 1
    line=$(awk -v n="$each" -v a="$alone" 'BEGIN { printf "%-18s alone %9.1f", n, a / 1000 }')
    for workers in 1 2 4; do
      took=$(lowest run --workers "$workers") || exit 1
      line+=$(awk -v w="$workers" -v t="$took" -v a="$alone" 'BEGIN { printf "   %d: %9.1f (%.2f)", w, t / 1000, t / a }')
    done
    echo "$line"
  done
done
