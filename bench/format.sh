#!/usr/bin/env bash
# How the time of `doloto format` grows with the script: seconds for a MiB at 1, 2, 4 and 8 MiB of script, and each as a
# ratio to the first. Ratios near 1 say that the time is linear in the text. Where node has escodegen (Debian's package
# node-escodegen) and acorn inside, these parse and print the same files in the same run. Run it at the top of the
# repository.
set -euo pipefail

data=$(mktemp -d)
trap 'rm -rf "$data"' EXIT

(cd crates/doloto_app && rt run >"$data/build.log" 2>&1) || { cat "$data/build.log"; exit 1; }
program=$PWD/crates/doloto_app/out/doloto_app

for size in 1 2 4 8; do bench/write_script "$data/script$size" "$size"; done

first=
for size in 1 2 4 8; do
    best=
    for _ in 1 2 3; do
        begin=$(date +%s%N)
        "$program" format "$data/script$size" >"$data/out"
        spent=$(($(date +%s%N) - begin))
        if [ -z "$best" ] || [ "$spent" -lt "$best" ]; then best=$spent; fi
    done
    first=${first:-$best}
    awk -v size="$size" -v best="$best" -v first="$first" -v bytes="$(wc -c <"$data/out")" \
        'BEGIN { printf "%d MiB: %d bytes; %.4f s a MiB, ratio %.2f\n", size, bytes, best / 1e9 / size, best / size / first }'
done

export NODE_PATH=/usr/share/nodejs
if ! node --expose-internals -e "require('internal/deps/acorn/acorn/dist/acorn'); require('escodegen')" 2>/dev/null; then
    echo "no node with acorn and escodegen, so nothing is compared"
    exit 0
fi
cat >"$data/peer.js" <<'JS'
const acorn = require('internal/deps/acorn/acorn/dist/acorn');
const escodegen = require('escodegen');
const fs = require('fs');
const how = { format: escodegen.FORMAT_MINIFY };
const folder = process.argv[2];
const format = (text) => escodegen.generate(acorn.parse(text, { ecmaVersion: 5 }), how);
const seconds = (f) => {
    const start = process.hrtime.bigint();
    f();
    return Number(process.hrtime.bigint() - start) / 1e9;
};
let first;
format(fs.readFileSync(`${folder}/script1`, 'utf8'));
for (const size of [1, 2, 4, 8]) {
    const text = fs.readFileSync(`${folder}/script${size}`, 'utf8');
    const best = Math.min(...[0, 1, 2].map(() => seconds(() => format(text)))) / size;
    first = first || best;
    console.log(`${size} MiB: acorn and escodegen; ${best.toFixed(4)} s a MiB, ratio ${(best / first).toFixed(2)}`);
}
JS
node --expose-internals --stack-size=4000 "$data/peer.js" "$data"
