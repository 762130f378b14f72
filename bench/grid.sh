#!/usr/bin/env bash
# Shows an image, from standard input, as a grid of depths with a point for each miss; or a refusal word as its numbers.
od -An -v -tu4 -w4 | awk '
    { kind = int($1 / 268435456); high = int($1 / 65536) % 4096; low = $1 % 65536 }
    NR == 1 && kind == 14 { printf "part %d is refused by %d at place %d\n", int(high / 256), high % 256, low }
    NR == 1 { width = high }
    NR > 2 { printf "%3s%s", kind == 11 ? high : ".", (NR - 2) % width ? "" : "\n" }'
