#!/bin/sh
# Proves and builds a static library for C and Rust programs, and puts it into target/staticlib: libbs_sched_c.a has the functions of
# include/bs_sched.h (crate bs_sched_c_c), libslotrun_c.a the interpreter of `slotrun` (crate slotrun_c).
# usage: static_library.sh bs_sched_c | slotrun_c
set -eu
cd "$(dirname "$0")/.."
case ${1:-} in
bs_sched_c) crate=bs_sched_c_c ;;
slotrun_c) crate=slotrun_c ;;
*)
    echo "usage: static_library.sh bs_sched_c | slotrun_c"
    exit 1
    ;;
esac
(cd "crates/$crate" && rt lib)
mkdir -p target/staticlib
cp "crates/$crate/out/lib$crate.a" "target/staticlib/lib$1.a"
