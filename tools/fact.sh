#!/bin/sh
# Was a wrong program refused by a fact? Reads what `rt ci` or `rt must-fail` printed, a line for each wrong program,
# `rt: must-fail CRATE/EDIT: refused, as it must be: ERROR`, and says of each by which fact that error, the check's first, refuses it.
# Of a log without such a line, which is what `rt check` printed of one wrong program, it judges the first error. Listed are the
# shapes of an error that says that a fact does not hold or was not found. Every other error, as a name that is gone or a rewriting that finds
# nothing, shows only that a proof no longer fits the code, and so does a refusal of which rt itself says that it shows little of the
# contract. Not refused by a fact is an edit that could not be read or tried, and one that was not refused.
#   obligation  what a function promises or needs is not proved, where it has no answer in a proof file
#   omega       numbers for which the fact is false
#   search, cc  a fact that was not found, an equation whose sides were not joined
#   rewritten   an equation that is left with two different sides
#   types       the fact proved is another than the one wanted
#   compared    two values that were to be the same, and are not
# usage: fact.sh LOG..     prints SHAPE CRATE/EDIT or SHAPE LOG for each, or what is wrong; ends with 1 if one is not refused by a fact
set -eu
bad=0
for log in "$@"; do
    shift
    if [ -s "$log" ]; then
        set -- "$@" "$log"
    else
        echo "no log: $log"
        bad=1
    fi
done
[ $# -gt 0 ] || exit 1
awk '
    function shape_of(first) {
        if (first ~ /^note: [^ ]* it is not proved that /) return "obligation"
        # a fact that a type carries, for which nothing was found where a value of it is made
        if (first ~ /^note: [^ ]* `search` found no proof \(`invariant_of-/) return "obligation"
        if (first !~ /^[^ ]*:[0-9]+:[0-9]+: error: /) return ""
        if (first ~ /no occurrence of |needs a function |is not in scope|has no field |has no `|no equation of the list/) return ""
        if (first ~ /was not admitted|was rejected/) return ""
        if (first ~ /`omega`: the (part .* of the )?goal does not follow/) return "omega"
        if (first ~ /`(search|grind)`: no proof of /) return "search"
        if (first ~ /`cc`: the equations do not join|`cc` met a bound of its own before|list the missing equation with its arguments/) return "cc"
        if (first ~ /give a proof of that as |what it leaves must be a path whose two ends are equal/) return "rewritten"
        # `rt ci` prints two hundred letters of a line: `first differ` may be cut
        if (first ~ /the two (types|sides) (differ|first differ|firs?t? ?$|first d[if]*$)|the two types are `|computed as a goal is, one side reads |expected type `/) return "types"
        if (first ~ / ≟ .* does not hold \(this comparison/) return "compared"
        # the first of its lines is the first value, and `rt ci` prints no other
        if (first ~ /error: `[^`]*`: `borrow[.][^`]*`?$/) return "compared"
        return ""
    }
    function judge(name, first) {
        shape = shape_of(first)
        if (shape != "") print shape, name
        else {
            print "not by a fact: " name ": " (first == "" ? "no error" : substr(first, 1, 300))
            bad = 1
        }
    }
    function end_of_log() {
        if (log_name != "" && lines == 0) judge(log_name, first)
    }
    FNR == 1 {
        end_of_log()
        log_name = FILENAME
        first = ""
        whole = lines = 0
    }
    /^rt: must-fail / {
        lines++
        name = $3
        sub(/:$/, "", name)
        said = $0
        if (sub(/^rt: must-fail [^ ]*: refused, as it must be: /, "", said)) judge(name, said)
        else {
            sub(/^rt: must-fail [^ ]*: /, "", said)
            if (said == "refused, as it must be") said = ""
            judge(name, said)
        }
        next
    }
    whole { next }
    first == "" && /error: .* was not admitted .*, so this cannot be checked|which was (rejected|not admitted), was not checked/ { next }
    first == "" && (/^[^ ]*: error/ || /^error/ || /^note: [^ ]*:[0-9]+:[0-9]+: /) { first = $0; next }
    first != "" && /^  / { first = first " " $0; next }
    first != "" { whole = 1 }
    END {
        end_of_log()
        exit bad
    }' "$@" || bad=1
exit "$bad"
