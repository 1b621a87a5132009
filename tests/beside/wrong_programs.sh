#!/bin/sh
# Beside the gate: tries the wrong programs of tests/wrong, on a copy of the crates. The check must refuse each, and by a fact, as `rt must-fail`
# says of it (tools/fact.sh). The gate tries those of crates/*/must-fail; these are more of the same kind, kept apart for the gate's time.
# usage: wrong_programs.sh [CRATE..]
set -eu
cd "$(dirname "$0")/../.."
[ $# -gt 0 ] || set -- $(ls tests/wrong)
work=$(mktemp -d)
trap 'rm -rf "$work"' EXIT
tar -cf - --exclude='crates/*/out' --exclude='crates/*/must-fail' crates crates.txt | tar -xf - -C "$work"
bad=0
for crate in "$@"; do
    cp -r "tests/wrong/$crate" "$work/crates/$crate/must-fail"
    (cd "$work" && rt must-fail "$crate") > "$work/said" || bad=1
    for edit in "tests/wrong/$crate"/*.edit; do
        grep "^rt: must-fail $crate/$(basename "$edit"): " "$work/said" > "$work/line" || true
        sh tools/fact.sh "$work/line" > "$work/fact" || { sed "s|^no log: .*|not tried: $edit|" "$work/fact"; bad=1; }
    done
    echo "$crate: $(grep -c '^rt: must-fail .*: refused, as it must be' "$work/said") refused"
done
[ "$bad" = 0 ] || { echo "wrong programs: not all are refused by a fact"; exit 1; }
echo "wrong programs: all are refused by a fact"
