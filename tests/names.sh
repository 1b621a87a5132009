#!/bin/sh
# What the tables of the documents name is there, and is what its column says. A name is the first word in a pair of backquotes in a row.
#   Definition: defined in a crate's specs/ (`name :`, `record name`, `data name`), or declared in its src/ (struct, enum, const)
#   Function, Entry, Export: `fn name` in a crate's src/, or a constant of a type there
#   Theorem, Law: has a type, `name :`, in a crate's specs/ or proofs/
#   Wrong program: NAME.edit in a crate's must-fail/ or in tests/wrong
#   any other: stands somewhere in crates/, or is a file
# The name of a crate, and behind "of" that of a type, may stand in each.
set -eu
cd "$(dirname "$0")/.."
work=$(mktemp -d)
trap 'rm -rf "$work"' EXIT
documents=
for name in PROMISES TRACE ARCHITECTURE; do
    [ ! -f "docs/$name.md" ] || documents="$documents docs/$name.md"
done

# What there is: KIND NAME.
{
    find crates -name out -prune -o \( -path '*/specs/*.antt' -o -path '*/proofs/*.antt' \) -print0 | xargs -0 awk '
        /^[^ ]/ { in_data = 0 }
        /^ *(--|use |mod )/ { next }
        {
            i = 1
            while ($i ~ /^(abbrev|unfoldable|opaque|pub)$/) i++
            if ($i == "record" || $i == "data") name = $(i + 1)
            else if (/ :( |$)/ && (/^[^ ]/ || in_data || $(i - 1) == "pub")) name = $i
            else next
            if ($i == "data") in_data = 1
            print "theorem", name
            if (FILENAME ~ /\/specs\//) print "definition", name
        }'
    awk '
        /^ *\/\// { next }
        match($0, /(^| )(struct|enum|const|type|fn) [A-Za-z0-9_]+/) {
            split(substr($0, RSTART, RLENGTH), word, " ")
            if (word[1] == "fn" || word[1] == "const") print "function", word[2]
            if (word[1] != "fn") print "definition", word[2]
            if (word[1] != "fn" && word[1] != "const") print "type", word[2]
        }' crates/*/src/*.rt
    find crates tests/wrong -name '*.edit' | sed 's|.*/||; s|\.edit$||; s|^|edit |'
    sed -nE 's/^([a-z0-9_]+)( staticlib)?:.*/crate \1/p' crates.txt
    find crates -name out -prune -o \( -name '*.rt' -o -name '*.antt' -o -name '*.edit' \) -print0 | xargs -0 grep -hoE '[A-Za-z0-9_-]+' | awk '!seen[$0]++ { print "any", $0 }'
} > "$work/there"

# What is named: DOCUMENT:LINE COLUMN KIND NAME.
awk '
    BEGIN {
        kinds["Definition"] = "definition"
        kinds["Function"] = kinds["Entry"] = kinds["Export"] = "function"
        kinds["Theorem"] = kinds["Law"] = "theorem"
        kinds["Wrong program"] = "edit"
    }
    !/^\|/ { in_table = 0; next }
    !in_table {
        in_table = 1
        columns = split($0, head, "|")
        for (i = 1; i <= columns; i++) gsub(/^ +| +$/, "", head[i])
        next
    }
    /^\|-/ { next }
    {
        cells = split($0, cell, "|")
        for (i = 1; i <= cells; i++) {
            rest = cell[i]
            while (match(rest, /`[^`]*`/)) {
                before = substr(rest, 1, RSTART - 1)
                name = substr(rest, RSTART + 1, RLENGTH - 2)
                rest = substr(rest, RSTART + RLENGTH)
                sub(/ .*/, "", name)
                if (name !~ /^[A-Za-z0-9_-]+$/) continue
                kind = (head[i] in kinds) ? kinds[head[i]] : "any"
                if (kind != "any" && before ~ / of $/) kind = kind "-of"
                column = head[i]
                gsub(/ /, "_", column)
                print FILENAME ":" FNR, (column == "" ? "-" : column), kind, name
            }
        }
    }' $documents > "$work/named"

awk '
    FILENAME ~ /\/there$/ { there[$1 " " $2] = 1; next }
    {
        kind = $3
        name = $4
        if (("crate " name) in there) next
        if (sub(/-of$/, "", kind) && ("type " name) in there) next
        if ((kind " " name) in there || (kind == "any" && ("edit " name) in there)) next
        print
    }' "$work/there" "$work/named" > "$work/missing"

bad=0
while read -r place column kind name; do
    if [ "$kind" != any ]; then
        echo "names: $place: \`$name\` in the column $column is no ${kind%-of}"
    elif [ -e "$name" ] || [ -e "docs/$name" ]; then
        continue
    else
        echo "names: $place: \`$name\` stands nowhere in crates/"
    fi
    bad=1
done < "$work/missing"
[ "$(grep -vc ' any ' "$work/named")" -gt 0 ] || { echo "names: no table has a column Definition, Function, Theorem or Wrong program"; bad=1; }
[ "$bad" = 0 ] || exit 1
echo "names: $(wc -l < "$work/named") names in the tables of$documents, each in crates/ as its column says"
