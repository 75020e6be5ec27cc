#!/bin/sh
# Refuses each allocation of a run in turn, by the kit's own means: `rt try` builds the program anew for each number, which
# takes a quarter of a minute each, so it is run by hand: sh tests/by_hand/refusals.sh FIRST LAST. tests/allocations.sh does the
# same to the built program, in a second. The run has to end with status 6 and nothing written, or as it does where none is refused.
if [ $# -ne 2 ] || ! command -v rt >/dev/null; then
    echo "usage: sh tests/by_hand/refusals.sh FIRST LAST, with the kit's command rt on the path"
    exit 2
fi
cd "$(dirname "$0")/../../crates/raid" || exit 1
room=$(mktemp -d)
trap 'rm -rf "$room"' EXIT
number=$1
refused=0
while [ "$number" -le "$2" ]; do
    rt try --fail-alloc "$number" -- run <stdin >"$room/out" 2>"$room/err"
    status=$?
    if [ "$status" -eq 6 ] && [ ! -s "$room/out" ]; then
        refused=$((refused + 1))
    elif [ "$status" -eq 0 ] && cmp -s "$room/out" stdout; then
        echo "refusals: number $number comes after the last allocation of the run"
        break
    else
        echo "refusals: number $number refused, and the program ended with status $status and wrote:"
        cat "$room/out" "$room/err"
        exit 1
    fi
    number=$((number + 1))
done
echo "refusals: $refused refused, each with status 6 and nothing written"
