#!/bin/sh
# Judges random reports, half of them changed in one place, as the reference model does: see judged.py.
# RAID_ORACLE names the folder of the model, RAID_JUDGED how many reports there are to be (20000), RAID_SEED which (1). A fortieth
# of them is judged by `bin/raid check` too.
cd "$(dirname "$0")/.." || exit 1
. tests/common.inc
need_model judged oracle.py
make_scratch

build judged raid_try_check || exit 1
count=${RAID_JUDGED:-20000}
if cat examples/transfer.txt examples/transfer.report | bin/raid check >/dev/null &&
    python3 tests/judged.py crates/raid_try_check/out/raid_try_check "$count" "${RAID_SEED:-1}" "$((count / 40))" bin/raid; then
    exit 0
fi
echo "judged: FAILED: the program and the model differ, or the program is not built"
exit 1
