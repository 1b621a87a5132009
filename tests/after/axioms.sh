#!/bin/sh
# Run behind `rt ci`, on what it printed: only programs rest on axioms. Of each crate that it proved it prints a part, from `== CRATE` to
# `rt: CRATE proved`, which has the check's line `logic=proved functions=N ..`. A library's has neither `foreign=` nor `axioms=`. A program's may
# have `axioms=M`: then lines `axioms LIBRARY: .. (N of the .. declared)` count M of them, all of the kit's libc, io, os or std. A crate that is
# kept from an earlier run on this machine has no such part, only the line `rt: CRATE is kept: ..`. It prints only what is wrong.
# usage: axioms.sh [LOG]     LOG: what `rt ci` printed, in the place of the file that the variable LOG names
set -eu
cd "$(dirname "$0")/../.."
log=${1:-$LOG}
work=$(mktemp -d)
trap 'rm -rf "$work"' EXIT
bad=0
say() {
    echo "axioms: $1"
    bad=1
}

crates=$(sed -nE 's/^([a-z0-9_]+)( staticlib)?:.*/\1/p' crates.txt)
[ -n "$crates" ] || say "crates.txt has no crate"
for crate in $crates; do
    if grep -q "^rt: $crate is kept: " "$log"; then continue; fi
    awk -v head="== $crate" -v end="rt: $crate proved" '$0 == head { inside = 1; next } $0 == end { inside = 0 } inside' "$log" > "$work/report"
    verdict=$(grep '^logic=' "$work/report" | tail -n 1 || true)
    case "$verdict " in
    'logic=proved functions='*) ;;
    *)
        say "$crate: no report of a proved crate"
        continue
        ;;
    esac
    case "$verdict " in
    *' pinned=no '* | *' cache=trusted '* | *' incremental=trusted '*) say "$crate: no verdict, since something was trusted: $verdict" ;;
    *' foreign='*) say "$crate declares C functions of its own: $verdict" ;;
    esac
    counted=$(echo "$verdict" | sed -nE 's/.* axioms=([0-9]+)( .*)?$/\1/p')
    sed -nE 's/^axioms ([^:]*): .*\(([0-9]+) of the [0-9]+ declared\).*/\1 \2/p' "$work/report" > "$work/named"
    libraries=$(cut -d' ' -f1 "$work/named" | tr '\n' ' ')
    if [ ! -f "crates/$crate/src/main.rt" ]; then
        [ -z "$counted$libraries" ] || say "$crate is a library and rests on axioms: ${libraries:-$verdict}"
        continue
    fi
    named=$(awk '{ sum += $2 } END { print sum + 0 }' "$work/named")
    [ "${counted:-0}" = "$named" ] || say "$crate: ${counted:-0} axioms are counted, and $named are named, of: $libraries"
    for library in $libraries; do
        case $library in
        libc | io | os | std) ;;
        *) say "$crate rests on axioms of $library" ;;
        esac
    done
done
[ "$bad" = 0 ] || exit 1
