#!/bin/sh
# Compares the report of each workload of examples/, run in the fixed order, with the one beside it, and has `raid check` judge that report:
# each is sound. (The program `raid` runs its servers on threads, so what `raid run` writes may differ from call to call.) Where a proved program
# isn't built, it is the one that `rt try` compiles unproved. The reports were written by the reference model; no model is needed here.
cd "$(dirname "$0")/.." || exit 1
. tests/common.inc
make_scratch

mkdir "$scratch/fixed" "$scratch/check"
count=0
for text in examples/*.txt; do
    name=$(basename "$text" .txt)
    cp "$text" "$scratch/fixed/$name"
    cp "examples/$name.report" "$scratch/fixed/$name.stdout" || exit 1
    cat "$text" "examples/$name.report" >"$scratch/check/$name"
    echo sound >"$scratch/check/$name.stdout"
    count=$((count + 1))
done

# proved PROGRAM COMMAND: compares what the command writes for each in turn, and shows the first lines in which they differ.
proved() {
    failed=0
    for text in examples/*.txt; do
        name=$(basename "$text" .txt)
        if ! "crates/$1/out/$1" "$2" <"$scratch/$2/$name" >"$scratch/said" || ! cmp -s "$scratch/$2/$name.stdout" "$scratch/said"; then
            echo "examples: $name: $1 $2 writes something else than it should"
            diff "$scratch/$2/$name.stdout" "$scratch/said" | head -5
            failed=$((failed + 1))
        fi
    done
    [ "$failed" -eq 0 ]
}

# tried PROGRAM COMMAND: the same of the unproved program, which is compiled once for all of them.
tried() {
    (cd "crates/$1" && rt try --cases "$scratch/$2" -- "$2") >"$scratch.log" 2>&1
    status=$?
    [ "$status" -eq 0 ] || tail -20 "$scratch.log"
    rm -f "$scratch.log"
    return "$status"
}

# compared PROGRAM COMMAND: by the proved program, if it is built
compared() {
    if is_current "$1"; then
        proved "$1" "$2"
    elif command -v rt >/dev/null; then
        tried "$1" "$2"
    else
        skip examples "the program $1 isn't built, and the kit's command rt is not on the path"
    fi
}

if compared raid_world_table fixed && compared raid check; then
    echo "examples: $count reports in the fixed order are those beside the examples, and raid check calls each sound"
    exit 0
fi
echo "examples: FAILED: a report differs, or is not called sound"
exit 1
