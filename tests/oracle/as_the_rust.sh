# Read by the scripts that hold `slotrun` to the published Rust. That has document 01's rule of fragments: where document 02's, W-201,
# arises, the blocks differ. The script sets title, work (a folder) and asked (the program `as_document_01`).

wrong() {
    echo "$title: $1"
    exit 1
}

# same WHAT FILE GOT: the two files are the same.
same() {
    [ -f "$2" ] || wrong "$1: $2 is not there"
    cmp -s "$2" "$3" || wrong "$1: another answer
$(diff "$2" "$3" | head -6)"
}

# ask WHAT OCTETS: sets before to `all`, or to how many commands stand before the first block in which the rule arises.
ask() {
    before=$("$asked" < "$2") || wrong "$1: $asked failed"
    case $before in
    all) ;;
    '' | *[!0-9]*) wrong "$1: $asked says '$before'" ;;
    esac
}

# as_the_rust WHAT RUST GOT: the two answers are the same up to there, and not in the line of that block.
as_the_rust() {
    if [ "$before" = all ]; then
        same "$1" "$2" "$3"
        return
    fi
    head -n "$before" "$2" > "$work/rust"
    head -n "$before" "$3" > "$work/first"
    same "$1, before W-201's rule arises" "$work/rust" "$work/first"
    line=$((before + 1))
    [ "$(sed -n "${line}p" "$2")" != "$(sed -n "${line}p" "$3")" ] || wrong "$1: W-201's rule arises in line $line, which is the Rust's"
}
