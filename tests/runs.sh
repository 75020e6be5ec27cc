#!/bin/sh
# Has the reference model judge the program's reports on random workloads of all forms, and compares those of the fixed order with its own: see runs.py.
# RAID_ORACLE names the folder of the model, RAID_RUNS how many workloads there are to be (500), RAID_SEED which (1).
cd "$(dirname "$0")/.." || exit 1
. tests/common.inc
need_model runs oracle.py
make_scratch
if ! bin/raid run < examples/transfer.txt > /dev/null; then
    echo "runs: FAILED: the program is not built"
    exit 1
fi
build runs raid_world_table || exit 1
python3 tests/runs.py crates/raid_world_table/out/raid_world_table fixed "${RAID_RUNS:-500}" "${RAID_SEED:-1}" || exit 1
exec python3 tests/runs.py bin/raid run "${RAID_RUNS:-500}" "${RAID_SEED:-1}"
