#!/bin/sh
# What says whether a wrong program was refused by a fact (tools/fact.sh) can say both: of the stored logs those of tests/logs/fact are
# refused by a fact, each of the shape that its name begins with, and those of tests/logs/unfit are not. Each is a line of `rt must-fail` or, where
# its name ends with _check, what `rt check` printed.
set -eu
cd "$(dirname "$0")/.."
bad=0
say() {
    echo "fact: $1"
    bad=1
}
for shape in obligation omega search cc rewritten types compared; do
    ls tests/logs/fact/$shape*.log > /dev/null 2>&1 || say "no stored log of the shape $shape"
done
for log in tests/logs/fact/*.log; do
    name=$(basename "$log" .log)
    said=$(sh tools/fact.sh "$log") || true
    [ "${said%% *}" = "${name%%_*}" ] || say "$log is refused by a fact, and it says: $said"
done
for log in tests/logs/unfit/*.log tests/logs/unfit/absent.log; do
    if said=$(sh tools/fact.sh "$log"); then say "$log is not refused by a fact, and it says: $said"; fi
done
[ "$bad" = 0 ] || exit 1
echo "fact: $(ls tests/logs/fact/*.log | wc -l) stored logs told apart from $(ls tests/logs/unfit/*.log | wc -l)"
