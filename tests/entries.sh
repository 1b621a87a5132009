#!/bin/sh
# No entry relies on its caller. The entries are found in the code: every function marked #[unsafe(no_mangle)], every `pub` function of
# bs_sched, every function that bs_sched passes on (`pub use`), and the three on buffers of their own. None has a `requires`; each has its
# row in the table "Entries" of docs/ARCHITECTURE.md, | `function` | `crate` | .., and the table has no other.
# And every `pub` function has a promise (`ensures`).
set -eu
cd "$(dirname "$0")/.."

alone='fillbits::get_num_fill_bits
mac_header_writer::write_header
mac_reader::read_block'

work=$(mktemp -d)
trap 'rm -rf "$work"' EXIT
bad=0
say() {
    echo "entries: $1"
    bad=1
}

# Each function: CRATE FILE NAME, then pub or -, no_mangle or -, requires or -, ensures or -, method or -. A head ends at the line of the body's
# bracket alone or, before any clause, at a line that ends with it.
awk '
    function print_head() { print crate, file, name, is_pub, mangled, asks, says, of_type; in_head = 0; mangled = "-" }
    FNR == 1 {
        if (in_head) print_head()
        n = split(FILENAME, path, "/")
        crate = path[n - 2]
        file = path[n]
        sub(/\.rt$/, "", file)
        in_head = 0
        mangled = "-"
    }
    /^ *\/\// { next }
    /^ *#\[unsafe\(no_mangle\)\]/ { mangled = "no_mangle" }
    /^ *(pub )?(extern "C" )?fn / {
        if (in_head) print_head()
        in_head = 1
        is_pub = ($0 ~ /^ *pub /) ? "pub" : "-"
        asks = says = "-"
        of_type = ($0 ~ /^ /) ? "method" : "-"
        name = $0
        sub(/^.*fn /, "", name)
        sub(/[^A-Za-z0-9_].*/, "", name)
    }
    in_head && /^ *requires/ { asks = "requires" }
    in_head && /^ *ensures/ { says = "ensures" }
    in_head && (/^ *\{ *$/ || (asks == "-" && says == "-" && /\{ *$/)) { print_head() }
    END { if (in_head) print_head() }' crates/*/src/*.rt > "$work/functions"

awk '$5 == "no_mangle" || ($1 == "bs_sched" && $4 == "pub") { print $1 "::" $3 }' "$work/functions" > "$work/code"
echo "$alone" >> "$work/code"
tr -d '\n' < crates/bs_sched/src/lib.rt | grep -oE 'pub use [a-z0-9_]+::(\{[^}]*\}|[a-z0-9_]+);' | awk '
    {
        gsub(/pub use |[{};, ]+/, " ")
        n = split($0, word, " ")
        sub(/::$/, "", word[1])
        for (i = 2; i <= n; i++) print word[1] "::" word[i]
        if (n == 1) print word[1]
    }' >> "$work/code"
sort "$work/code" > "$work/entries"
sed -n '/^## Entries/,/^## [^E]/p' docs/ARCHITECTURE.md | sed -nE 's/^\| `([a-z0-9_]+)` \| `([a-z0-9_]+)` .*/\2::\1/p' | sort > "$work/table"

for entry in $(comm -23 "$work/entries" "$work/table"); do
    say "$entry is an entry and has no row in the table of docs/ARCHITECTURE.md"
done
for entry in $(comm -13 "$work/entries" "$work/table"); do
    say "$entry has a row in the table of docs/ARCHITECTURE.md and is no entry"
done
for entry in $(uniq "$work/entries"); do
    case $(awk -v e="$entry" '$1 "::" $3 == e && $4 == "pub" && $8 == "-" { print $6 }' "$work/functions") in
    -) ;;
    '') say "$entry: no pub function has this name" ;;
    *) say "$entry has a requires" ;;
    esac
done

for function in $(awk '$4 == "pub" && $7 == "-" { print $1 "::" $2 "::" $3 }' "$work/functions"); do
    say "$function is pub and has no ensures"
done
[ "$bad" = 0 ] || exit 1
echo "entries: $(wc -l < "$work/entries") entries, none with a requires; every pub function has an ensures"
