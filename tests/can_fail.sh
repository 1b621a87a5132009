#!/bin/sh
# The tests can fail: each case makes one thing wrong in a copy of the sources, or in made-up reports and logs, and the test must refuse
# it in the words given.
set -eu
cd "$(dirname "$0")/.."
sources=$PWD
work=$(mktemp -d)
trap 'rm -rf "$work"' EXIT
count=0

# passes WHAT TEST..: the test passes in the case WHAT.
passes() {
    what=$1
    shift
    sh "$@" > "$work/said" 2>&1 || { echo "can fail: $what should pass:"; cat "$work/said"; exit 1; }
}
# refuses WHAT WORDS TEST..: it does not, and says WORDS.
refuses() {
    what=$1
    words=$2
    shift 2
    if sh "$@" > "$work/said" 2>&1; then echo "can fail: $what passes"; exit 1; fi
    grep -qF -- "$words" "$work/said" || { echo "can fail: $what is refused otherwise:"; cat "$work/said"; exit 1; }
    count=$((count + 1))
}
# restore FILE: as it stands in the sources.
restore() { cp "$sources/$1" "$1"; }

mkdir "$work/copy"
tar -cf - --exclude='crates/*/out' crates crates.txt docs tests tools | tar -xf - -C "$work/copy"
cd "$work/copy"

# Entries.
passes "the sources" tests/entries.sh
sed -i 's/^pub fn advance(.*/&\n    requires { true ≡ true }/' crates/sched_core/src/lib.rt
refuses "an entry with a requires" 'advance has a requires' tests/entries.sh
restore crates/sched_core/src/lib.rt
sed -i 's/^pub use sched_core::{/&ask, /' crates/bs_sched/src/lib.rt
refuses "a function passed on by bs_sched without a row" 'sched_core::ask is an entry and has no row' tests/entries.sh
restore crates/bs_sched/src/lib.rt
printf '\npub fn more() -> u8\n    ensures { result ≡ 1 }\n{\n    1\n}\n' >> crates/bs_sched/src/lib.rt
refuses "a pub function of bs_sched without a row" 'bs_sched::more is an entry and has no row' tests/entries.sh
restore crates/bs_sched/src/lib.rt
printf '\n#[unsafe(no_mangle)]\npub extern "C" fn more() -> u8\n    ensures { result ≡ 1 }\n{\n    1\n}\n' >> crates/slotrun_c/src/lib.rt
refuses "an export without a row" 'slotrun_c::more is an entry and has no row' tests/entries.sh
restore crates/slotrun_c/src/lib.rt
sed -i 's/^| `ul_get_usage` | `sched_core`.*/&\n| `empty_record` | `bs_sched` | none |/' docs/ARCHITECTURE.md
refuses "a row without an entry" 'bs_sched::empty_record has a row' tests/entries.sh
restore docs/ARCHITECTURE.md
printf '\npub fn silent() -> u8 {\n    1\n}\n' >> crates/ul_search/src/lib.rt
refuses "a pub function without an ensures" 'silent is pub and has no ensures' tests/entries.sh
restore crates/ul_search/src/lib.rt

# Names: a row with something in the wrong column, and one with each thing in its own.
row() {
    restore docs/ARCHITECTURE.md
    printf '\n| Sentence | Definition | Function | Theorem | Wrong program |\n|---|---|---|---|---|\n| %s |\n' "$1" >> docs/ARCHITECTURE.md
}
row 's | `is_valid` | | |'
refuses "a function as a definition" '`is_valid` in the column Definition is no definition' tests/names.sh
row 's | | `slot_of` | |'
refuses "a definition as a function" '`slot_of` in the column Function is no function' tests/names.sh
row 's | | | `is_valid` |'
refuses "a function as a theorem" '`is_valid` in the column Theorem is no theorem' tests/names.sh
row 's | | | | `slot_of`'
refuses "a definition as a wrong program" '`slot_of` in the column Wrong_program is no edit' tests/names.sh
row '`no_such_name` | | | |'
refuses "a name that nothing has" '`no_such_name` stands nowhere' tests/names.sh
row 's | `slot_of` | `is_valid` | `valid-true` | `says_nine`'
passes "a row with each thing in its column" tests/names.sh
restore docs/ARCHITECTURE.md

# Wrong programs whose text is not there, or is there twice.
for text in 'no such text' '=>'; do
    sed -i "s/^old: .*/old: $text/" crates/questions/must-fail/too_late_is_9.edit
    refuses "a wrong program that replaces $text" 'too_late_is_9.edit: its text does not stand once' tests/wrong_apply.sh
    restore crates/questions/must-fail/too_late_is_9.edit
done

# Axioms, on made-up words of `rt ci`: a part for each crate, that of slotrun, or of another, with other axioms.
library_of() { printf '== %s\nlogic=proved functions=1 sum=0\nrt: %s proved\n' "$1" "$1"; }
for crate in $(sed -nE 's/^([a-z0-9_]+)( staticlib)?:.*/\1/p' crates.txt); do
    library_of "$crate"
done > all
# report CRATE LINE..: the lines of its part
report() {
    crate=$1
    shift
    awk -v head="== $crate" '$0 == head { skip = 3 } skip { skip--; next } 1' all > said
    {
        echo "== $crate"
        printf '%s\n' "$@"
        echo "rt: $crate proved"
    } >> said
}
two='axioms libc: libc::read, libc::write (2 of the 50 declared)'
report slotrun "$two" 'logic=proved functions=1 axioms=2 sum=0'
passes "libc's axioms in a program" tests/after/axioms.sh said
report slotrun "$two" 'axioms std: none reached of the 2 declared' 'logic=proved functions=1 axioms=3 sum=0'
refuses "an axiom that is not named" 'slotrun: 3 axioms are counted' tests/after/axioms.sh said
report slotrun 'axioms other: other::assumed (1 of the 1 declared)' 'logic=proved functions=1 axioms=1 sum=0'
refuses "another axiom in a program" 'slotrun rests on axioms of other' tests/after/axioms.sh said
report slotrun 'logic=proved functions=1 foreign=slotrun::assumed sum=0'
refuses "a C function of a program's own" 'slotrun declares C functions' tests/after/axioms.sh said
report slotrun 'logic=not-proved'
refuses "a program that is not proved" 'slotrun: no report' tests/after/axioms.sh said
sed '/^== slotrun$/,/^rt: slotrun proved$/d' all > said
refuses "a crate without a report" 'slotrun: no report' tests/after/axioms.sh said
echo 'rt: slotrun is kept: an earlier run on this machine proved the same files over the same libraries' >> said
passes "a crate that is kept" tests/after/axioms.sh said
report ul_search "$two" 'logic=proved functions=1 axioms=2 sum=0'
refuses "an axiom in a library" 'ul_search is a library' tests/after/axioms.sh said

# The lines on wrong programs, made up of stored ones.
fact=$(cat tests/logs/fact/omega.log)
# as_told EDIT LINE: the stored line, said of the edit CRATE/NAME.edit.
as_told() { echo "$2" | sed "s|^rt: must-fail [^ ]*:|rt: must-fail $1:|"; }
count_of_edits=$(ls crates/*/must-fail/*.edit | wc -l)
for edit in crates/*/must-fail/*.edit; do
    crate=${edit#crates/}
    last=${crate%%/*}/${edit##*/}
    as_told "$last" "$fact"
done > all
passes "a fact for each edit" tests/after/refused_by_a_fact.sh all
sed '$d' all > but_one
for unfit in tests/logs/unfit/*.log; do
    if ! grep -q '^rt: must-fail ' "$unfit"; then continue; fi
    { cat but_one; as_told "$last" "$(head -n 1 "$unfit")"; } > said
    refuses "an edit that is not refused by a fact, $unfit" "not by a fact: $last" tests/after/refused_by_a_fact.sh said
done
refuses "an edit of which nothing is said" "not tried: $last" tests/after/refused_by_a_fact.sh but_one
{ cat all; as_told other/other.edit "$fact"; } > said
refuses "a line on another edit" 'it is there: other/other.edit' tests/after/refused_by_a_fact.sh said
: > said
refuses "nothing said" 'refused by a fact: 0 edits were tried' tests/after/refused_by_a_fact.sh said
# says_ok REFUSED: the line that `rt ci` ends with.
says_ok() { echo "rt: ok; handles allowed: none; must-fail edits: $1; every proof and must-fail edit was done in this run" > said; }
says_ok "$count_of_edits refused"
passes "as many refused as there are" tests/after/ok.sh said
says_ok "$((count_of_edits - 1)) refused, 1 bad"
refuses "a bad edit" "there are $count_of_edits must-fail edits" tests/after/ok.sh said
says_ok "$((count_of_edits - 1)) refused"
refuses "an edit that is gone" "there are $count_of_edits must-fail edits" tests/after/ok.sh said
: > said
refuses "no last line" 'rt ci says: nothing' tests/after/ok.sh said

# Wrong programs beside the gate, with a check that says a stored line of each and ends as it is told.
mkdir bin
cat > bin/rt << 'END'
#!/bin/sh
[ "$1" = must-fail ] || exit 0
for edit in "crates/$2/must-fail"/*.edit; do
    sed "s|^rt: must-fail [^ ]*:|rt: must-fail $2/${edit##*/}:|" "$STORED"
done
exit "$ENDS"
END
chmod +x bin/rt
PATH=$PWD/bin:$PATH STORED=$PWD/tests/logs/fact/omega.log ENDS=0
export PATH STORED ENDS
passes "wrong programs refused by a fact" tests/beside/wrong_programs.sh questions
ENDS=1
refuses "a wrong program that is not refused" 'not all are refused' tests/beside/wrong_programs.sh questions
ENDS=0 STORED=$PWD/tests/logs/unfit/names.log
refuses "a wrong program that is not refused by a fact" 'not by a fact: ' tests/beside/wrong_programs.sh questions
STORED=/dev/null
refuses "a wrong program that is not tried" 'not tried: ' tests/beside/wrong_programs.sh questions

# Answers to streams: one stream, in line 14 of which W-201's rule arises, a program that prints a stored answer and one that says where.
find tests/oracle -type f ! -name 'two_started.*' ! -name '*.sh' -delete
rust=tests/oracle/two_started.out
new=tests/oracle/w201/two_started.out
printf '#!/bin/sh\ncat got\n' > bin/slotrun
printf '#!/bin/sh\ncat before\n' > bin/as_document_01
chmod +x bin/slotrun bin/as_document_01
answers="tests/after/oracle_answers.sh bin/slotrun bin/as_document_01"
# stored: everything right.
stored() {
    restore $rust
    restore $new
    cp $new got
    echo 13 > before
}
stored
passes "the stored answer" $answers
sed -i '12s/.*/A 0/' got
cp got $new
refuses "a wrong line before the rule arises" "before W-201's rule arises: another answer" $answers
stored
sed -i '15s/.*/A 0/' got
refuses "a wrong line behind" 'two_started.hex: another answer' $answers
stored
sed -i 14q got
refuses "an answer that ends there" 'two_started.hex: another answer' $answers
stored
cp $rust got
cp $rust $new
refuses "the Rust's block where the rule arises" 'arises in line 14, which is the Rust' $answers
stored
rm $new
refuses "a stream without the new rule's answer" "$new is not there" $answers
stored
cp $rust got
echo all > before
refuses "a new answer of a stream in which the rule never arises" "never arises, and $new is there" $answers
rm $new
passes "the Rust's answer where the rule never arises" $answers
sed -i '15s/.*/A 0/' got
refuses "another answer where the rule never arises" 'two_started.hex: another answer' $answers
stored
cp $new tests/oracle/w201/other.out
refuses "a new answer without a stream" 'other.out has no stream' $answers
rm tests/oracle/w201/other.out
: > before
refuses "a program that does not say where the rule arises" "says ''" $answers

# Quotations, of a paper that says something else.
if command -v python3 > /dev/null; then
    mkdir papers
    echo 'A slot is usable.' > papers/01-other.md
    PAPERS=papers
    export PAPERS
    refuses "quotations of another paper" 'not in the papers: ' tests/quotations.sh
fi
echo "can fail: $count wrong things, each refused"
