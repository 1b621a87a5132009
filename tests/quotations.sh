#!/bin/sh
# Every quotation in a comment of specs/ and src/, and in the first column of the tables of the documents, is verbatim
# (tests/quotations.py). The papers are no part of the repository: PAPERS is their folder, beside it by default.
set -eu
cd "$(dirname "$0")/.."
papers=${PAPERS:-../shared/docs}
if ! ls "$papers"/01-*.md > /dev/null 2>&1; then
    echo "quotations: not looked at, since document 01 is not in $papers"
    exit 0
fi
command -v python3 > /dev/null || { echo "quotations: not looked at, since there is no python3"; exit 0; }
python3 tests/quotations.py "$papers"
