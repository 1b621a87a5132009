#!/bin/sh
# Beside the gate: the Rust crate's tests with its examples, and C programs over include/bs_sched.h, as C and as C++, on
# target/staticlib/libbs_sched_c.a, which `sh tools/static_library.sh bs_sched_c` writes. It needs cargo and a C and C++ compiler. Where valgrind is
# there, the C program and the Rust tests of single calls run under it too.
set -eu
cd "$(dirname "$0")/../.."
library=$PWD/target/staticlib
archive=$library/libbs_sched_c.a
[ -f "$archive" ] || { echo "rust and c: run sh tools/static_library.sh bs_sched_c first"; exit 1; }
work=$(mktemp -d)
trap 'rm -rf "$work"' EXIT

# Of the host the library needs memcpy, memmove and memset, and nothing else.
nm -u "$archive" | sed -n 's/^ *U //p' | sort -u > "$work/needs"
if grep -vxE 'memcpy|memmove|memset' "$work/needs"; then
    echo "rust and c: the library needs the above of its host"
    exit 1
fi

export BS_SCHED_LIB="$library" CARGO_TARGET_DIR="$work/rust"
cargo test --quiet --offline --manifest-path rust/Cargo.toml

warnings="-Wall -Wextra -Werror -Iinclude"
cc -std=c11 $warnings tests/beside/request.c "$archive" -o "$work/request"
"$work/request" > "$work/got"
cmp - "$work/got" <<'END'
R 0 1 0 0
B 0 20390000014410001000000000000000000000000000000000000000000000000000
END
cc -std=c11 -D_DEFAULT_SOURCE -g $warnings tests/beside/every_call.c "$archive" -o "$work/every_call"
c++ -std=c++17 -x c++ -g $warnings tests/beside/every_call.c -x none "$archive" -o "$work/every_call_cpp"
for program in every_call every_call_cpp; do
    "$work/$program"
    "$work/$program" guard
done
echo "rust and c: the tests pass, and the C program prints document 01's example"

if ! command -v valgrind > /dev/null; then
    echo "rust and c: valgrind is not there, nothing was run under it"
    exit 0
fi
checked() {
    valgrind --quiet --error-exitcode=9 --leak-check=no "$@" > "$work/checked" 2>&1 || { cat "$work/checked"; exit 1; }
}
checked "$work/every_call"
checked "$work/every_call_cpp"
checked "$work/request"
for test in buffers calls layout; do
    checked "$(ls "$work"/rust/debug/deps/$test-* | grep -v '\.d$' | head -1)" --test-threads=1
done
echo "rust and c: under valgrind too, no octet past a buffer and none that was not written"
