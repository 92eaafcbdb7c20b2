#!/usr/bin/env bash
# How the time of the lexer grows with the text: seconds for a MiB, at 1, 2, 4 and 8 MiB of script, and each as a ratio to
# the first. Ratios near 1 say that the time is linear in the text. Run it at the top of the repository.
set -euo pipefail

data=$(mktemp -d)
trap 'rm -rf "$data"' EXIT

(cd crates/lex_bench && rt run >"$data/build.log" 2>&1) || { cat "$data/build.log"; exit 1; }
program=crates/lex_bench/out/lex_bench

# a MiB of statements with names, words, numbers, strings, marks and comments
python3 - "$data/1" <<'PY'
import sys
line = 'function add(left, right) { /* both */ return left.total + right["total"] * 0x1F >>> 2; } // end\n'
count = (1 << 20) // len(line)
with open(sys.argv[1], 'w') as out:
    out.write(line * count + ' ' * ((1 << 20) - count * len(line)))
PY
for size in 2 4 8; do
    for _ in $(seq "$size"); do cat "$data/1"; done >"$data/$size"
done

first=
for size in 1 2 4 8; do
    best=
    for _ in 1 2 3; do
        begin=$(date +%s%N)
        "$program" <"$data/$size" >"$data/out"
        spent=$(($(date +%s%N) - begin))
        if [ -z "$best" ] || [ "$spent" -lt "$best" ]; then best=$spent; fi
    done
    first=${first:-$best}
    awk -v size="$size" -v best="$best" -v first="$first" -v out="$(cat "$data/out")" \
        'BEGIN { printf "%d MiB: %s, %.3f s a MiB, ratio %.2f\n", size, out, best / 1e9 / size, best / size / first }'
done
