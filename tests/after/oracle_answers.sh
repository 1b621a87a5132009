#!/bin/sh
# Run behind `rt ci`: `slotrun` prints what the published Rust printed, for every stream of tests/oracle, and what document 01 asks
# for, for those of tests/oracle/differences. A stream in which the rule of document 02, W-201, arises is held to the Rust up to the first
# block in which it does, and over all to its answer in tests/oracle/w201. Which streams these are the program `as_document_01` says.
# docs/DIFFERENCES.md says how the answers were made. It prints only what is wrong, and with a program named also how many streams agree.
# usage: oracle_answers.sh [PROGRAM [ASKED]]     in the place of those that `rt ci` left in crates/*/out
set -eu
cd "$(dirname "$0")/../.."
title=oracle
program=${1:-crates/slotrun/out/slotrun}
asked=${2:-crates/as_document_01/out/as_document_01}
. tests/oracle/as_the_rust.sh
[ -x "$program" ] || wrong "$program is not there"
[ -x "$asked" ] || wrong "$asked is not there"
work=$(mktemp -d)
trap 'rm -rf "$work"' EXIT

# The octets of a stream: hexadecimal digits, a comment behind #.
octets() {
    escapes=$(sed 's/#.*//' "$1" | awk '
        { gsub(/[ \t]/, ""); line = line tolower($0) }
        END {
            for (i = 1; i < length(line); i += 2) {
                n = 16 * (index(digits, substr(line, i, 1)) - 1) + index(digits, substr(line, i + 1, 1)) - 1
                printf "\\%03o", n
            }
        }' digits=0123456789abcdef -)
    printf "$escapes"
}

# answer STREAM: what the program prints for it.
answer() {
    octets "$1" > "$work/octets"
    "$program" < "$work/octets" > "$work/got" || wrong "$1: the program failed"
}

count=0
cut=0
for stream in tests/oracle/*.hex; do
    [ -f "$stream" ] || continue
    name=$(basename "$stream" .hex)
    answer "$stream"
    ask "$stream" "$work/octets"
    as_the_rust "$stream" "tests/oracle/$name.out" "$work/got"
    if [ "$before" != all ]; then
        same "$stream" "tests/oracle/w201/$name.out" "$work/got"
        cut=$((cut + 1))
    elif [ -e "tests/oracle/w201/$name.out" ]; then
        wrong "$stream: W-201's rule never arises, and tests/oracle/w201/$name.out is there"
    fi
    count=$((count + 1))
done
[ "$count" -gt 0 ] || wrong "no stream in tests/oracle"
for new in tests/oracle/w201/*; do
    [ ! -e "$new" ] || [ -f "tests/oracle/$(basename "$new" .out).hex" ] || wrong "$new has no stream"
done
for stream in tests/oracle/differences/*.hex; do
    [ -f "$stream" ] || continue
    answer "$stream"
    same "$stream" "${stream%.hex}.out" "$work/got"
    count=$((count + 1))
done
[ $# -eq 0 ] || echo "oracle: $count streams agree, $cut of them with the Rust up to where W-201's rule arises"
