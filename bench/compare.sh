#!/usr/bin/env bash
# compare.sh TEXT..: times the program on texts of bench/texts.py, best of three, and SWI-Prolog's search for all
# answers with its occurs check, where it is installed and can end. Shows figures and judges nothing.
here=$(cd "$(dirname "$0")/.." && pwd) || exit 1
program=$here/crates/propia/out/propia
[ -x "$program" ] || (cd "$here/crates/propia" && rt run >/dev/null) || exit 1
work=$(mktemp -d) || exit 1
trap 'rm -rf "$work"' EXIT

best() {
  local least=
  for _ in 1 2 3; do
    local start end
    start=$(date +%s%N)
    timeout 60 "$@" >/dev/null 2>&1 <"$work/input"
    end=$(date +%s%N)
    local took=$(((end - start) / 1000000))
    if [ -z "$least" ] || [ "$took" -lt "$least" ]; then least=$took; fi
  done
  printf '%s ms' "$least"
}

for text in "$@"; do
  python3 "$here/bench/texts.py" "$text" >"$work/input"
  printf '%-14s %10s' "$text" "$(best "$program" alone --depth 10000 --turns 1000000)"
  case $text in
    adder* | ring | sudoku | zebra | bounded | permutations | early | counting | waiting | woken) ;;
    *)
      if command -v swipl >/dev/null; then
        python3 "$here/bench/texts.py" "$text" prolog >"$work/all"
        sed '$d' "$work/all" >"$work/clauses.pl"
        goal=$(tail -n 1 "$work/all")
        printf '   SWI-Prolog %10s' "$(best swipl -q -f "$work/clauses.pl" -g "set_prolog_flag(occurs_check,true), findall(x,$goal,_)" -t halt)"
      fi
      ;;
  esac
  printf '\n'
done
