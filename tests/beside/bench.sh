#!/bin/sh
# Beside the gate: the times of docs/BENCHMARKS.md. First the calls from C (tests/beside/times.c). Then `slotrun`'s interpreter as a static
# library and the published Rust, in one program, on the same streams: that needs cargo and the published files (published.sh); where they
# are absent it says so and ends there.
# usage: bench.sh [STREAMS]     STREAMS: how many random streams of 300 commands are timed whole (8)
set -eu
cd "$(dirname "$0")/../.."
work=$(mktemp -d)
trap 'rm -rf "$work"' EXIT
sh tools/static_library.sh bs_sched_c > /dev/null 2>&1
cc -std=c11 -O2 -Iinclude tests/beside/times.c target/staticlib/libbs_sched_c.a -o "$work/times"
"$work/times"
. tests/beside/published.sh
sh tools/static_library.sh slotrun_c > /dev/null 2>&1
build --profile fast -p bench
build --release -p original
tests/rust/target/release/gen 1 --count "${1:-8}" --commands 300 --dir "$work/streams"
tests/rust/target/fast/bench "$work"/streams/*.bin
