#!/bin/sh
# Reads and prints random and broken report texts as the reference model does: see reports.py.
# RAID_ORACLE names the folder of the model, RAID_REPORTS how many reports there are to be (5000), RAID_SEED which (1).
cd "$(dirname "$0")/.." || exit 1
. tests/common.inc
need_model reports raid_report.py
make_scratch

build reports raid_try_report || exit 1
if python3 tests/reports.py crates/raid_try_report/out/raid_try_report "${RAID_REPORTS:-5000}" "${RAID_SEED:-1}"; then
    exit 0
fi
echo "reports: FAILED: the program and the model differ"
exit 1
