#!/bin/sh
# Each wrong program still fits: the text that it replaces stands exactly once in its crate's file. The check refuses those of
# crates/*/must-fail in the gate, those of tests/wrong by tests/beside/wrong_programs.sh, those of tests/across by wrong_across.sh there.
set -eu
cd "$(dirname "$0")/.."
bad=0

# fits CRATE EDIT: each text is there once, in what the pairs before it made.
fits() {
    awk -v crate="crates/$1" -v edit="$2" '
        function count_of(text, piece,    n, at) {
            while ((at = index(text, piece)) > 0) {
                n++
                text = substr(text, at + 1)
            }
            return n + 0
        }
        function read(file,    line, all) {
            while ((getline line < file) > 0) all = all line "\n"
            close(file)
            return all
        }
        /^file: / {
            file = crate "/" substr($0, 7)
            if (!(file in text)) text[file] = read(file)
        }
        /^old: / {
            old = substr($0, 6)
            if (count_of(text[file], old) != 1) {
                print "wrong programs: " edit ": its text does not stand once in " file
                bad = 1
            }
        }
        /^new: / {
            at = index(text[file], old)
            text[file] = substr(text[file], 1, at - 1) substr($0, 6) substr(text[file], at + length(old))
        }
        END { exit bad }' "$2" || bad=1
}

gate=0
for edit in crates/*/must-fail/*.edit; do
    fits "$(basename "$(dirname "$(dirname "$edit")")")" "$edit"
    gate=$((gate + 1))
done
beside=0
for edit in tests/wrong/*/*.edit; do
    fits "$(basename "$(dirname "$edit")")" "$edit"
    beside=$((beside + 1))
done
across=0
for edit in tests/across/*.edit; do
    fits "$(sed -n 's/^in: //p' "$edit")" "$edit"
    across=$((across + 1))
done
[ "$bad" = 0 ] || exit 1
echo "wrong programs: $gate of crates/*/must-fail, $beside of tests/wrong and $across of tests/across fit"
