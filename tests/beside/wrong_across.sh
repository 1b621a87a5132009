#!/bin/sh
# Beside the gate: tries the wrong programs of tests/across. Each is an edit of one crate (`in:`) that another crate's check must
# refuse (`refused by:`), such as a reply with another number than document 01's, and by a fact (tools/fact.sh).
# usage: wrong_across.sh [NAME..]
set -eu
cd "$(dirname "$0")/../.."
[ $# -gt 0 ] || set -- $(basename -s .edit tests/across/*.edit)
work=$(mktemp -d)
trap 'rm -rf "$work"' EXIT
status=0
for name in "$@"; do
    edit=$PWD/tests/across/$name.edit
    by=$(sed -n 's/^refused by: //p' "$edit")
    rm -rf "$work/crates" "$work/crates.txt"
    tar -cf - --exclude='crates/*/out' crates crates.txt | tar -xf - -C "$work"
    (cd "$work/crates/$(sed -n 's/^in: //p' "$edit")" && python3 - "$edit" <<'END'
import sys
name = old = None
for line in open(sys.argv[1]).read().splitlines():
    key, _, value = line.partition(': ')
    if key == 'file':
        name = value
    elif key == 'old':
        old = value
    elif key == 'new':
        text = open(name).read()
        assert text.count(old) == 1, (name, old)
        open(name, 'w').write(text.replace(old, value))
END
    )
    # The crate that is edited still proves, and those between.
    for below in $(sed -nE "s/^$by( staticlib)?://p" crates.txt); do
        (cd "$work/crates/$below" && rt lib) > "$work/log" 2>&1 || { echo "$name: refused below $by, by $below"; status=1; continue 2; }
    done
    if (cd "$work/crates/$by" && rt check) > "$work/log" 2>&1; then
        echo "$name: NOT REFUSED by $by"
        status=1
    elif said=$(sh tools/fact.sh "$work/log"); then
        echo "$name: refused by $by: ${said%% *}"
    else
        echo "$name: $said"
        status=1
    fi
done
exit $status
