#!/bin/sh
# Run behind `rt ci`, on what it printed: it says of each must-fail edit, in a line of its own, by what it was refused, and that is a fact that
# no longer holds, and not a proof file that no longer fits the code (tools/fact.sh). It prints only what is wrong.
# usage: refused_by_a_fact.sh [LOG]     LOG: what `rt ci` printed, in the place of the file that the variable LOG names
set -eu
cd "$(dirname "$0")/../.."
log=${1:-$LOG}
work=$(mktemp -d)
trap 'rm -rf "$work"' EXIT
for edit in crates/*/must-fail/*.edit; do
    crate=${edit#crates/}
    echo "${crate%%/*}/${edit##*/}"
done | sort > "$work/edits"
sed -nE 's/^rt: must-fail ([^ ]*): .*/\1/p' "$log" | sort > "$work/tried"
bad=0
if ! diff "$work/edits" "$work/tried" > "$work/differ"; then
    echo "refused by a fact: $(wc -l < "$work/tried") edits were tried, and there are $(wc -l < "$work/edits"):"
    sed -nE 's/^< (.*)/not tried: \1/p; s/^> (.*)/tried once more than it is there: \1/p' "$work/differ"
    bad=1
fi
grep '^rt: must-fail ' "$log" > "$work/lines" || true
said=$(sh tools/fact.sh "$work/lines") || bad=1
if [ "$bad" != 0 ]; then
    echo "$said" | grep -E '^(no log|not by a fact): ' || true
    exit 1
fi
