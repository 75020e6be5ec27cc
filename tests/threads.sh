#!/bin/sh
# Has the reference model and `raid check` judge the reports of many runs on threads: see threads.py. RAID_ORACLE names the folder of the model, RAID_WORKLOADS how many
# workloads there are to be (200), RAID_TIMES how often each is run (5; 50 make the 10,000 runs that docs/tests.md tells of), RAID_SEED which (1).
cd "$(dirname "$0")/.." || exit 1
. tests/common.inc
need_model threads oracle.py
if ! bin/raid run < examples/transfer.txt > /dev/null; then
    echo "threads: FAILED: the program is not built"
    exit 1
fi
exec python3 tests/threads.py crates/raid/out/raid "${RAID_WORKLOADS:-200}" "${RAID_TIMES:-5}" "${RAID_SEED:-1}"
