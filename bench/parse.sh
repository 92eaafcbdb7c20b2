#!/usr/bin/env bash
# How the times of the lexer and of the parser grow with the text. Run it at the top of the repository.
#
#     bench/parse.sh            seconds for a MiB of lexing and of parsing at 1, 2, 4 and 8 MiB of script, each with its
#                               ratio to the first. Ratios near 1 say that the time is linear in the text. Where node has
#                               acorn inside, acorn's tokenizer and parser read the same files in the same run.
#     bench/parse.sh --hostile  texts that nest without end, and flat ones, each piece a million times over: the seconds
#                               and the answer
set -euo pipefail

data=$(mktemp -d)
trap 'rm -rf "$data"' EXIT

(cd crates/parse_bench && rt run >"$data/build.log" 2>&1) || { cat "$data/build.log"; exit 1; }
program=$PWD/crates/parse_bench/out/parse_bench

# Runs the program on a file for 60 seconds at most, and leaves the seconds of each part in $lexing, $parsing and
# $dropping, 0 where there was none, and the answer in $answer.
run_on() {
    timeout 60 "$program" <"$1" >"$data/out" 2>"$data/err" || echo "no answer: status $?" >"$data/out"
    lexing=$(awk '$1 == "lexing" { t = $2 } END { print t + 0 }' "$data/err")
    parsing=$(awk '$1 == "parsing" { t = $2 } END { print t + 0 }' "$data/err")
    dropping=$(awk '$1 == "dropping" { t = $2 } END { print t + 0 }' "$data/err")
    answer=$(cat "$data/out")
}

hostile() {
    python3 - "$data" "$1" <<'PY'
import sys

N = int(sys.argv[2])
nesting = ['(', '[', '{', '!', '- ', 'new ', 'a.', 'a[', 'a(', 'a?', 'a?b:', 'a=', 'a,', '1+', 'if(a)', 'for(;;)', 'do ',
           'while(a)', 'function f(){', '(function(){', 'switch(a){case ', 'try{', 'var a,']
texts = [(piece, piece * N) for piece in nesting]
texts.append(('a1:a2: ..', ''.join(f'a{k}:' for k in range(N))))
texts.append(('x= {a:', 'x=' + '{a:' * N))
texts.append(('', ''))
# flat texts, which no limit cuts short
texts += [(piece, piece * N) for piece in ['a;', 'a\n', ';', '{}', 'a++;', 'x=1+a*b;', 'if(a)b;', 'do;while(a);']]
texts.append(('function f(){}', 'function f(){}' * 65535))
texts.append(('f(a,a, ..)', 'f(' + 'a,' * N + 'a)'))
texts.append(('[a,a, ..]', '[' + 'a,' * N + 'a]'))
texts.append(('[,,, ..]', '[' + ',' * N + ']'))
texts.append(('x={a1:1, ..}', 'x={' + ','.join(f'a{k}:1' for k in range(N)) + '}'))
texts.append(('var a1,a2, ..', 'var ' + ','.join(f'a{k}' for k in range(N))))
texts.append(('function f(a1,a2, ..){}', 'function f(' + ','.join(f'a{k}' for k in range(N)) + '){}'))
texts.append(('switch(a){case 1: ..}', 'switch(a){' + 'case 1:' * N + '}'))
texts.append(('a1:;a2:; ..', ''.join(f'a{k}:;' for k in range(N))))
texts.append(('x="aaa ..";', 'x="' + 'a' * N + '";'))
texts.append(('aaa ..', 'a' * N))
texts.append(('function f(a1, .. a1000){} ..', ('function f(' + ','.join(f'a{k}' for k in range(1000)) + '){}\n') * 200))
# trees that are as deep as they may be, and wide
texts.append(('[a,a, ..].a.a ..', '[' + 'a,' * N + ']' + '.a' * 390))
texts.append(('a+a+a ..;', ('a' + '+a' * 390 + ';') * (N // 400)))
texts.append(('((((a))));', ('(' * 390 + 'a' + ')' * 390 + ';') * (N // 400)))
texts.append(('a1:a2: .. {b:;b:; ..}', ''.join(f'a{k}:' for k in range(390)) + '{' + 'b:;' * N + '}'))
with open(sys.argv[1] + '/names', 'w') as names:
    for k, (name, text) in enumerate(texts):
        names.write(name.replace('\n', ' LF') + '\n')
        with open(f'{sys.argv[1]}/text{k}', 'w') as out:
            out.write(text)
PY
    local k=0 name
    printf '%-32s %8s %8s %8s  %s\n' piece lexing parsing dropping answer
    while IFS= read -r name; do
        run_on "$data/text$k"
        printf '%-32s %8.3f %8.3f %8.3f  %s\n' "$name" "$lexing" "$parsing" "$dropping" "$answer"
        k=$((k + 1))
    done <"$data/names"
}

# acorn on the same files: the tokenizer and the parser, the best of three
write_acorn() {
    cat >"$data/acorn.js" <<'JS'
const acorn = require('internal/deps/acorn/acorn/dist/acorn');
const fs = require('fs');
const options = { ecmaVersion: 5 };
function cut(text) {
    const tokens = acorn.tokenizer(text, options);
    let count = 0;
    while (tokens.getToken().type !== acorn.tokTypes.eof) count++;
    return count;
}
function best(f) {
    let least = Infinity;
    for (let k = 0; k < 3; k++) {
        const start = process.hrtime.bigint();
        f();
        least = Math.min(least, Number(process.hrtime.bigint() - start) / 1e9);
    }
    return least;
}
const sizes = process.argv.slice(3);
const folder = process.argv[2];
const first = fs.readFileSync(`${folder}/script1`, 'utf8');
cut(first);
acorn.parse(first, options);
for (const size of sizes) {
    const text = fs.readFileSync(`${folder}/script${size}`, 'utf8');
    const tokens = best(() => cut(text));
    const tree = best(() => acorn.parse(text, options));
    console.log(`${size} ${tokens} ${tree}`);
}
JS
}

speed() {
    local size k best_lexing best_parsing first_lexing= first_parsing=
    for size in 1 2 4 8; do bench/write_script "$data/script$size" "$size"; done
    for size in 1 2 4 8; do
        best_lexing= best_parsing=
        for k in 1 2 3; do
            run_on "$data/script$size"
            best_lexing=$(awk -v a="${best_lexing:-$lexing}" -v b="$lexing" 'BEGIN { print b < a ? b : a }')
            best_parsing=$(awk -v a="${best_parsing:-$parsing}" -v b="$parsing" 'BEGIN { print b < a ? b : a }')
        done
        first_lexing=${first_lexing:-$best_lexing}
        first_parsing=${first_parsing:-$best_parsing}
        awk -v size="$size" -v l="$best_lexing" -v p="$best_parsing" -v fl="$first_lexing" -v fp="$first_parsing" \
            -v d="$dropping" -v answer="$answer" 'BEGIN {
            printf "%d MiB: %s; a MiB: lexing %.4f s, ratio %.2f; parsing %.4f s, ratio %.2f; both %.4f s; dropping %.4f s\n",
                size, answer, l / size, l / size / fl, p / size, p / size / fp, (l + p) / size, d / size }'
    done
    if ! node --expose-internals -e "require('internal/deps/acorn/acorn/dist/acorn')" 2>/dev/null; then
        echo "no node with acorn inside, so nothing is compared"
        return
    fi
    write_acorn
    node --expose-internals "$data/acorn.js" "$data" 1 2 4 8 | awk '
        NR == 1 { t = $2; p = $3 }
        { printf "%d MiB: acorn; a MiB: tokenizer %.4f s, ratio %.2f; parser %.4f s, ratio %.2f\n",
            $1, $2 / $1, $2 / $1 / t, $3 / $1, $3 / $1 / p }'
}

case ${1:-} in
    '') speed ;;
    --hostile) hostile 1000000 ;;
    *) echo "usage: bench/parse.sh [--hostile]" >&2; exit 2 ;;
esac
