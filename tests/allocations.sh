#!/bin/sh
# Refuses each allocation of the program in turn, in runs, checks and a made workload: see allocations.py.
cd "$(dirname "$0")/.." || exit 1
. tests/common.inc
need_python allocations
cc=$(command -v cc || command -v gcc || command -v clang) || skip allocations "there is no C compiler"
program=crates/raid/out/raid
[ -x "$program" ] || skip allocations "the program isn't built (bin/build builds it)"
ldd "$program" >/dev/null 2>&1 || skip allocations "the program loads no shared library, so none can stand in for its allocator"
make_scratch

"$cc" -shared -fPIC -O1 -o "$scratch/refuse.so" tests/refuse.c -ldl || exit 1
python3 tests/allocations.py "$program" "$scratch/refuse.so"
