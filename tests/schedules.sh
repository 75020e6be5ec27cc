#!/bin/sh
# Lets worlds take the steps of random schedules, and compares their reports with the reference model's: see make_schedules.py.
# RAID_ORACLE names the folder of the model, RAID_SCHEDULES how many workloads there are to be, with two schedules of each (500),
# RAID_SEED which (2).
cd "$(dirname "$0")/.." || exit 1
. tests/common.inc
need_model schedules explore.py
make_scratch

# follow: the program, built once on its own input, takes the schedules that the script writes
follow() {
    build schedules raid_world_table || return 1
    python3 tests/make_schedules.py --drawn --workloads "${RAID_SCHEDULES:-500}" --seed "${RAID_SEED:-2}" > "$scratch/schedules" || return 1
    crates/raid_world_table/out/raid_world_table < "$scratch/schedules" > "$scratch/said" || return 1
    tail -20 "$scratch/said"
    grep -q ' 0 end otherwise$' "$scratch/said"
}

if follow; then
    exit 0
fi
echo "schedules: FAILED: the program and the model differ"
exit 1
