#!/bin/sh
# Beside the gate: `slotrun` and the published Rust on 2,000 fresh random streams of 300 commands, each up to the first block in which the
# rule of document 02, W-201, arises; the program `as_document_01` says where. It needs cargo and the published files (published.sh);
# where they are absent it says so and does nothing.
# usage: fresh_streams.sh [SEED [COUNT [PROGRAM [ASKED]]]]     the streams of the seeds SEED, SEED + 1, ..; the programs are those that `rt ci` or
# `rt run` left in crates/*/out
set -eu
cd "$(dirname "$0")/../.."
. tests/beside/published.sh
title="fresh streams"
seed=${1:-$(od -An -N4 -tu4 /dev/urandom | tr -d ' ')}
count=${2:-2000}
program=${3:-crates/slotrun/out/slotrun}
asked=${4:-crates/as_document_01/out/as_document_01}
. tests/oracle/as_the_rust.sh
[ -x "$program" ] || wrong "$program is not there"
[ -x "$asked" ] || wrong "$asked is not there"
echo "fresh streams: seed $seed, $count streams of 300 commands"
work=$(mktemp -d)
trap 'rm -rf "$work"' EXIT
build --release -p original
tests/rust/target/release/gen "$seed" --count "$count" --commands 300 --dir "$work" --answers
compared=0
cut=0
for stream in "$work"/*.bin; do
    name=$(basename "$stream" .bin)
    "$program" < "$stream" > "$work/got" || wrong "the program failed on $name"
    ask "seed $name" "$stream"
    as_the_rust "seed $name" "${stream%.bin}.out" "$work/got"
    [ "$before" = all ] || cut=$((cut + 1))
    compared=$((compared + 1))
done
[ "$compared" = "$count" ] || wrong "$compared of $count streams"
echo "fresh streams: $compared streams agree, $cut of them up to where W-201's rule arises"
