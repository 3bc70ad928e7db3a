#!/usr/bin/env bash
# Times naive reverse, Peano numbers, the length of a long list, a scan of facts, eight queens with comparisons that wait,
# a recursion alone and beside a thousand comparisons that wait, and those when they get their values. Shows figures and
# judges nothing.
exec "$(dirname "$0")/compare.sh" reverse peano length scan queens counting waiting woken
