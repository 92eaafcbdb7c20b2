#!/usr/bin/env bash
# How the time of the machine grows with a run: nanoseconds a step for a loop of arithmetic, for the
# building of texts, for nested blocks, and for reads and writes of an object with ten properties, at
# 1, 2, 4 and 8 million turns, and each as a ratio to the first. Then nanoseconds an element for
# arrays that are filled and read, objects with many keys that are written and read, and objects that
# `for-in` goes over, of 1,000 to 1,000,000 elements, so many of them that a million are reached in
# all. Where mujs is installed, it runs the same scripts in the same run. Last the memory: the most
# KiB for a loop of one turn and of ten million, for an array of a million numbers, and for a million
# objects without properties. Run it at the top of the repository; a word chooses one kind.
set -euo pipefail

data=$(mktemp -d)
trap 'rm -rf "$data"' EXIT

(cd crates/machine_table && rt run <stdin >"$data/build.log" 2>&1) || { cat "$data/build.log"; exit 1; }
program=$PWD/crates/machine_table/out/machine_table

only=${1:-}

# The script of a kind with so many turns.
script() {
    case $1 in
        members) echo "var o={a:0,b:1,c:2,d:3,e:4,f:5,g:6,h:7,i:8,j:9};for(var i=0;i<$2;i++){o.j=o.e+i;}" ;;
        arithmetic) echo "var s=0;for(var i=0;i<$2;i++){s=(s+i*3)%1000007;}" ;;
        texts) echo "var s=\"\";for(var i=0;i<$2;i++){if(i%64==0)s=\"\";s+=\"ab\"+i;}" ;;
        blocks) echo "for(var i=0;i<$2;i++){{{{;}}}}" ;;
    esac
}

# The script of a kind with so many elements, so many times over.
sized() {
    local head="for(var r=0;r<$3;r++){" fill="for(var i=0;i<$2;i++)" tail="}"
    case $1 in
        arrays) echo "var s=0;${head}var a=[];${fill}a[i]=i;for(i=0;i<$2;i++)s+=a[i];$tail" ;;
        keys) echo "var s=0;${head}var o={};${fill}o[\"k\"+i]=i;for(i=0;i<$2;i++)s+=o[\"k\"+i];$tail" ;;
        visits) echo "var s=0,o={};${fill}o[\"k\"+i]=i;${head}for(var k in o)s+=o[k];$tail" ;;
    esac
}

# The best of three times, in nanoseconds, of a command.
best() {
    local least= begin spent
    for _ in 1 2 3; do
        begin=$(date +%s%N)
        "$@" >"$data/out" 2>"$data/err"
        spent=$(($(date +%s%N) - begin))
        if [ -z "$least" ] || [ "$spent" -lt "$least" ]; then least=$spent; fi
    done
    echo "$least"
}

machine() { "$program" <"$data/table"; }

peer() { mujs "$data/script.js"; }

# Measures the script that lies there: the time by so many units, beside that of the peer, and each
# as a ratio to the first of its kind.
measure() {
    local name=$1 unit=$2 units=$3 spent line other
    { echo -n "1000000000 "; cat "$data/script.js"; } >"$data/table"
    spent=$(best machine)
    grep -q '^Ended' "$data/out" || { echo "$name: $(tail -1 "$data/out")"; exit 1; }
    units=${units:-$(awk '/^Ended/ { print $2 }' "$data/out")}
    first=${first:-$(awk "BEGIN { print $spent / $units }")}
    line=$(awk "BEGIN { printf \"%.1f ns $unit, ratio %.2f\", $spent / $units, $spent / $units / $first }")
    if command -v mujs >/dev/null; then
        other=$(best peer)
        first_peer=${first_peer:-$(awk "BEGIN { print $other / $units }")}
        line="$line; mujs $(awk "BEGIN { printf \"%.1f, ratio %.2f; times mujs %.2f\", $other / $units, $other / $units / $first_peer, $spent / $other }")"
    fi
    echo "$name: $line"
}

for kind in arithmetic texts blocks members; do
    [ -z "$only" ] || [ "$only" = $kind ] || continue
    first= first_peer=
    for millions in 1 2 4 8; do
        script $kind $((millions * 1000000)) >"$data/script.js"
        measure "$kind, $millions million turns" "a step" ""
    done
done

for kind in arrays keys visits; do
    [ -z "$only" ] || [ "$only" = $kind ] || continue
    first= first_peer=
    for size in 1000 10000 100000 1000000; do
        sized $kind $size $((1000000 / size)) >"$data/script.js"
        measure "$kind, $size elements" "an element" 1000000
    done
done

# The most KiB that a script takes.
memory() {
    local most
    echo "1000000000 $2" >"$data/table"
    most=$( { /usr/bin/time -f %M "$program" <"$data/table" >"$data/out"; } 2>&1 | tail -1)
    echo "$1: at most $most KiB"
}

if [ -z "$only" ] || [ "$only" = memory ]; then
    for turns in 1 10000000; do
        memory "while, $turns turns" "var i=0;while(i<$turns)i++;"
    done
    memory "an array of a million numbers" "var a=[];for(var i=0;i<1000000;i++)a[i]=i;"
    memory "a million objects without properties" "for(var i=0;i<1000000;i++)({});"
fi
command -v mujs >/dev/null || echo "no mujs, so nothing is compared"
