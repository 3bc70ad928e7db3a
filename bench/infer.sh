#!/usr/bin/env bash
# Times goals over facts, over a column of integers with gaps, and goals that are settled early. Shows figures and judges nothing.
exec "$(dirname "$0")/compare.sh" table gaps gaps60000 shuffled deep pairs bounded wide permutations early
