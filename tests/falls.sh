#!/bin/sh
# Takes random schedules of random workloads on the reference model's world: the measure falls at each pick, and each run ends with a sound
# report: see falls.py. RAID_ORACLE names the folder of the model, RAID_PICKS how many picks there are to be (50000; 1000000 for the whole, in
# a minute or a few), RAID_SEED which (1).
cd "$(dirname "$0")/.." || exit 1
. tests/common.inc
need_model falls raid_world.py
if python3 tests/falls.py "${RAID_PICKS:-50000}" "${RAID_SEED:-1}"; then
    exit 0
fi
echo "falls: FAILED: the measure doesn't fall, or a run doesn't end as it is to"
exit 1
