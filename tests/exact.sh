#!/bin/sh
# Reads the lines of a long run with a greedy client (docs/LONG_RUNS.md), '(calls N check H offerings F exact E)', and ends with 0
# if there is one and in each E is F and not 0: every offering had brought just what was bought. Prints what it found.
exec awk '
    { sub(/\)$/, "") }
    NF != 8 || $5 != "offerings" || $7 != "exact" { odd = 1 }
    $6 != $8 || $6 == 0 { odd = 1 }
    { calls = $2; ended = $6; exact = $8 }
    END { print ended + 0 " offerings in " calls + 0 " calls, " exact + 0 " of them exact"; exit odd || NR == 0 }'
