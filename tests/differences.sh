#!/bin/sh
# Each row of docs/DIFFERENCES.md (D1, R1, V1, ..) names a test that the gate runs, and every test that it names is there: a stream of
# tests/oracle, `NAME`; a line of a program, `PROGRAM`, "text", which stands in the program's file stdout; a must-fail edit, must-fail
# `NAME`; a function of rust/tests/calls.rs. The lines of the program `differences` begin with the name of a row.
set -eu
cd "$(dirname "$0")/.."
doc=docs/DIFFERENCES.md
work=$(mktemp -d)
trap 'rm -rf "$work"' EXIT
bad=0
say() {
    echo "differences: $1"
    bad=1
}

# The tests that the rows name: ROW KIND NAME, and behind a line its text. The test is a row's last cell.
awk '
    /^\| [DRV][0-9]+ \|/ {
        row = $2
        n = split($0, cells, " [|] ")
        cell = cells[n]
        print row "\trow\t-"
        if (cell ~ /^nothing to run/) print row "\tnothing\t-"
        name = ""
        edit = 0
        while (match(cell, /must-fail|`[^`]*`|"[^"]*"/)) {
            word = substr(cell, RSTART, RLENGTH)
            cell = substr(cell, RSTART + RLENGTH)
            bare = substr(word, 2, length(word) - 2)
            if (word == "must-fail") edit = 1
            else if (word ~ /^"/) print row "\tline\t" name "\t" bare
            else if (edit) { print row "\tedit\t" bare; edit = 0 }
            else { name = bare; print row "\tnamed\t" bare }
        }
    }' "$doc" > "$work/tests"

tab=$(printf '\t')
while IFS="$tab" read -r row kind name text; do
    case $kind in
    row) echo "$row" >> "$work/rows" ;;
    nothing) echo "$row" >> "$work/run" ;;
    edit) ls crates/*/must-fail/"$name.edit" > /dev/null 2>&1 || say "$row: no crate has the must-fail edit $name" ;;
    line)
        if [ -f "crates/$name/stdout" ] && grep -qF -- "$text" "crates/$name/stdout"; then
            echo "$row" >> "$work/run"
        else
            say "$row: no line of $name has: $text"
        fi
        ;;
    named)
        if [ -f "tests/oracle/$name.hex" ] && [ -f "tests/oracle/$name.out" ]; then
            echo "$row" >> "$work/run"
        elif ! [ -f "crates/$name/stdout" ] && ! [ -e "$name" ]; then
            say "$row: $name is no stream of tests/oracle and no program"
        fi
        ;;
    esac
done < "$work/tests"

for row in $(cat "$work/rows"); do
    grep -qx "$row" "$work/run" || say "$row names no test that the gate runs"
done
for row in $(cut -d' ' -f1 crates/differences/stdout | sort -u); do
    grep -qx "$row" "$work/rows" || say "the program differences has lines of $row, and the document has no such row"
done
for name in $(grep -oE '`differences/[a-z0-9_]+`' "$doc" | tr -d '`' | sort -u); do
    [ -f "tests/oracle/$name.rust" ] || say "tests/oracle/$name.rust is not there"
done
for name in $(grep -oE 'rust/tests/calls\.rs`: [a-z0-9_, ]+' "$doc" | sed 's/.*: //' | tr -d ','); do
    grep -q "^fn $name()" rust/tests/calls.rs || say "rust/tests/calls.rs has no test $name"
done
[ "$bad" = 0 ] || exit 1
echo "differences: $(wc -l < "$work/rows") rows, each with a test that is there"
