#!/bin/sh
# Asks for advice on random reports, some of them changed, as the reference model does: see advise.py.
# RAID_ORACLE names the folder of the model, RAID_ADVISED how many reports there are to be (5000), RAID_SEED which (1). Where the
# proved program isn't built, it is the one that `rt try` compiles unproved, and a fiftieth of the reports: it is slow.
cd "$(dirname "$0")/.." || exit 1
. tests/common.inc
need_model advise raid_advise.py
make_scratch

count=${RAID_ADVISED:-5000}
seed=${RAID_SEED:-1}
if is_current raid; then
    python3 tests/advise.py "$count" "$seed" --program crates/raid/out/raid && exit 0
elif command -v rt >/dev/null; then
    mkdir "$scratch/cases"
    if python3 tests/advise.py "$((count / 50))" "$seed" --cases "$scratch/cases" >"$scratch/made" &&
        (cd crates/raid && rt try --cases "$scratch/cases") >"$scratch/log" 2>&1; then
        cat "$scratch/made"
        echo "advise: the program says the same of each; it was compiled unproved"
        exit 0
    fi
    tail -20 "$scratch/log"
else
    skip advise "the program raid isn't built, and the kit's command rt is not on the path"
fi
echo "advise: FAILED: the program and the model differ"
exit 1
