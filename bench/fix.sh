#!/usr/bin/env bash
# Times runs of many goals: chains of adders, a ring of negations, a sudoku, the zebra puzzle. Shows figures and judges
# nothing.
exec "$(dirname "$0")/compare.sh" adder100 adder999 ring sudoku zebra
