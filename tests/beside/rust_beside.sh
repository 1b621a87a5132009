#!/bin/sh
# Beside the gate: the published Rust answers the streams of tests/oracle anew. Then it stands beside libbs_sched_c.a, which
# `sh tools/static_library.sh bs_sched_c` writes to target/staticlib (BS_SCHED_LIB names another folder), in any history, on any uplink table and on any
# queue: the same calls, and all that the two hold compared. It needs cargo and the published files (published.sh); where they are
# absent it says so and does nothing.
# usage: rust_beside.sh [SEED [TIMES]]     TIMES: so many times as many histories, tables, queues and headers (1)
set -eu
cd "$(dirname "$0")/../.."
. tests/beside/published.sh
BS_SCHED_LIB=${BS_SCHED_LIB:-$PWD/target/staticlib}
export BS_SCHED_LIB
[ -f "$BS_SCHED_LIB/libbs_sched_c.a" ] || { echo "rust beside: run sh tools/static_library.sh bs_sched_c first"; exit 1; }
seed=${1:-$(od -An -N4 -tu4 /dev/urandom | tr -d ' ')}
times=${2:-1}
work=$(mktemp -d)
trap 'rm -rf "$work"' EXIT
build --release -p original
run=tests/rust/target/release

count=0
for stream in tests/oracle/*.hex; do
    $run/original_slotrun --hex < "$stream" > "$work/got"
    cmp "$work/got" "${stream%.hex}.out"
    count=$((count + 1))
done
echo "streams of tests/oracle: $count, answered as they stand there"
count=0
for stream in tests/oracle/differences/*.hex; do
    tick=
    [ "$(basename "$stream")" != one_now.hex ] || tick=--tick
    $run/unasked $tick < "$stream" > "$work/got"
    cmp "$work/got" "${stream%.hex}.rust"
    count=$((count + 1))
done
echo "streams of tests/oracle/differences: $count, the Rust does what stands there"

# The header writer, the block reader and fill removal have calls of their own in some builds of the library.
headers=
if grep -q bs_sched_read_block "$BS_SCHED_LIB/libbs_sched_c.a"; then
    headers=yes
fi
build --release -p beside ${headers:+--features headers}
$run/any_history "$seed" $((500 * times)) 400
$run/any_table "$seed" $((500 * times))
$run/any_queue "$seed" $((4000 * times))
$run/any_queue merging 3
$run/any_queue rooms 60
if [ -n "$headers" ]; then
    $run/headers "$seed" $((100000 * times))
else
    echo "headers: the library has no calls for them, nothing compared"
fi
echo "rust beside: seed $seed, all the same"
