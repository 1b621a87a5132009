#!/bin/sh
# The numbers of docs/ARCHITECTURE.md: functions, entries, wrong programs, and lines of definition, code and proof.
# usage: sh tools/numbers.sh
set -eu
cd "$(dirname "$0")/.."
files() { find crates -name out -prune -o -type f "$@" -print0; }
lines() { files "$@" | xargs -0 cat | wc -l; }
echo "crates            $(grep -cE '^[a-z_0-9]+( staticlib)?:' crates.txt)"
echo "functions         $(files -name '*.rt' | xargs -0 grep -hE '^ *(pub )?(extern "C" )?fn ' | wc -l)"
echo "entries           $(sed -n '/^## Entries/,/^## /p' docs/ARCHITECTURE.md | grep -cE '^\| `')"
echo "wrong programs    $(files -name '*.edit' | xargs -0 ls | wc -l) in the gate, $(find tests/wrong -name '*.edit' | wc -l) beside it"
echo "definition lines  $(lines -path '*/specs/*.antt')"
echo "code lines        $(lines -path '*/src/*.rt')"
echo "proof lines       $(lines -path '*/proofs/*.antt')"
