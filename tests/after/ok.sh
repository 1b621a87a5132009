#!/bin/sh
# Run behind `rt ci`, on what it printed: its line `rt: ok; ..` is there and counts as refused as many must-fail edits as there are, none of
# them bad (`rt ci` itself passes a bad one). It prints only what is wrong.
# usage: ok.sh [LOG]     LOG: what `rt ci` printed, in the place of the file that the variable LOG names
set -eu
cd "$(dirname "$0")/../.."
count=$(ls crates/*/must-fail/*.edit | wc -l)
ok=$(grep '^rt: ok; ' "${1:-$LOG}" || true)
case "$ok; " in
*"; must-fail edits: $count refused; "*) ;;
*)
    echo "ok: there are $count must-fail edits, and rt ci says: ${ok:-nothing}"
    exit 1
    ;;
esac
